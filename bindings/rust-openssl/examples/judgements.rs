//! Judges the questions that bindings/compare_judges writes: judgements FILE
//!
//! A question is four texts, each behind its length in 4 octets. Its line has the judgement by a policy that lets all that is served, a tab,
//! and that by the default policy.

use std::{env, fs, process};

use x509check::{fingerprint, Judge, SignatureQuestion};
use x509check_openssl::{Digest, OpenSslJudge, Policy};

/// The text with which the octets begin, behind its length, and what is behind it.
fn text(octets: &[u8]) -> (&[u8], &[u8]) {
    let (length, behind) = octets.split_at(4);
    behind.split_at(u32::from_be_bytes(length.try_into().unwrap()) as usize)
}

/// The judge that looks at all that is served.
fn lax() -> OpenSslJudge {
    let mut policy = Policy {
        minimum_rsa_bits: 512,
        maximum_rsa_bits: 16_384,
        ..Policy::default()
    };
    policy.digests.insert(Digest::Sha1);
    OpenSslJudge::new(policy)
}

fn main() {
    let Some(path) = env::args().nth(1) else {
        eprintln!("usage: judgements FILE");
        process::exit(2);
    };
    let octets = fs::read(path).expect("the file can be read");
    let (lax, strict) = (lax(), OpenSslJudge::default());
    let mut left = &octets[..];
    while !left.is_empty() {
        let mut texts = [&[][..]; 4];
        for it in &mut texts {
            (*it, left) = text(left);
        }
        let [algorithm, key_info, message, signature] = texts;
        let question = SignatureQuestion {
            algorithm,
            key_info,
            message,
            signature,
            fingerprint: fingerprint(algorithm, key_info, message, signature),
        };
        println!("{}\t{}", lax.judge(&question), strict.judge(&question));
    }
}
