//! Questions about what OpenSSL signs with new keys. No test uses all of it.
#![allow(dead_code)]

use openssl::ec::{Asn1Flag, EcGroup, EcKey};
use openssl::hash::MessageDigest;
use openssl::nid::Nid;
use openssl::pkey::{PKey, Private};
use openssl::rsa::{Padding, Rsa};
use openssl::sign::{RsaPssSaltlen, Signer};
use x509check::{fingerprint, Judge, Judgement, SignatureQuestion};
use x509check_openssl::OpenSslJudge;

/// The parts of a question.
#[derive(Clone)]
pub struct Signed {
    pub algorithm: Vec<u8>,
    pub key: Vec<u8>,
    pub message: Vec<u8>,
    pub signature: Vec<u8>,
}

impl Signed {
    pub fn judged(&self, judge: &OpenSslJudge) -> Judgement {
        let (algorithm, key_info) = (&self.algorithm[..], &self.key[..]);
        let (message, signature) = (&self.message[..], &self.signature[..]);
        judge.judge(&SignatureQuestion {
            algorithm,
            key_info,
            message,
            signature,
            fingerprint: fingerprint(algorithm, key_info, message, signature),
        })
    }
}

/// The encoding of a value of DER, which is short.
fn value(identifier: u8, parts: &[&[u8]]) -> Vec<u8> {
    let contents = parts.concat();
    let length = u8::try_from(contents.len()).unwrap();
    assert!(length < 0x80);
    [&[identifier, length], &contents[..]].concat()
}

pub const NULL: &[u8] = &[5, 0];

/// The contents of an OBJECT IDENTIFIER, by libcrypto.
pub fn identifier(dotted: &str, parameters: &[&[u8]]) -> Vec<u8> {
    let object = openssl::asn1::Asn1Object::from_str(dotted).unwrap();
    let name = value(6, &[object.as_slice()]);
    value(0x30, &[&[&name[..]], parameters].concat())
}

/// RSASSA-PSS with one digest for both purposes (RFC 4055, 3.1).
fn pss(digest: &str, salt: u8) -> Vec<u8> {
    let digest = identifier(digest, &[NULL]);
    let mask = identifier("1.2.840.113549.1.1.8", &[&digest]);
    let parameters = [
        value(0xA0, &[&digest]),
        value(0xA1, &[&mask]),
        value(0xA2, &[&value(2, &[&[salt]])]),
    ];
    identifier(
        "1.2.840.113549.1.1.10",
        &[&value(0x30, &[&parameters.concat()])],
    )
}

fn signed(algorithm: Vec<u8>, key: &PKey<Private>, mut signer: Signer<'_>) -> Signed {
    let message = b"a message".to_vec();
    Signed {
        algorithm,
        key: key.public_key_to_der().unwrap(),
        signature: signer.sign_oneshot_to_vec(&message).unwrap(),
        message,
    }
}

pub fn rsa(bits: u32) -> PKey<Private> {
    PKey::from_rsa(Rsa::generate(bits).unwrap()).unwrap()
}

pub fn by_rsa(key: &PKey<Private>, algorithm: &str, digest: MessageDigest) -> Signed {
    let algorithm = identifier(algorithm, &[NULL]);
    signed(algorithm, key, Signer::new(digest, key).unwrap())
}

pub fn by_pss(key: &PKey<Private>, named: &str, digest: MessageDigest, salt: u8) -> Signed {
    let mut signer = Signer::new(digest, key).unwrap();
    signer.set_rsa_padding(Padding::PKCS1_PSS).unwrap();
    let length = RsaPssSaltlen::custom(salt.into());
    signer.set_rsa_pss_saltlen(length).unwrap();
    signed(pss(named, salt), key, signer)
}

pub fn by_curve(curve: Nid, algorithm: &str, digest: MessageDigest) -> Signed {
    let mut group = EcGroup::from_curve_name(curve).unwrap();
    group.set_asn1_flag(Asn1Flag::NAMED_CURVE);
    let key = PKey::from_ec_key(EcKey::generate(&group).unwrap()).unwrap();
    let algorithm = identifier(algorithm, &[]);
    signed(algorithm, &key, Signer::new(digest, &key).unwrap())
}

pub fn by_edwards(key: &PKey<Private>, algorithm: &str) -> Signed {
    let signer = Signer::new_without_digest(key).unwrap();
    signed(identifier(algorithm, &[]), key, signer)
}
