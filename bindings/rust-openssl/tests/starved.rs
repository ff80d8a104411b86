//! libcrypto is refused memory, one allocation after the other: then the judge cannot tell, and a good signature is never wrong or not
//! served.
//!
//! There is one test in this file, as the library takes another allocator only before it has allocated anything.

#[path = "support/rationed.rs"]
mod rationed;
mod support;

use openssl::hash::MessageDigest;
use openssl::nid::Nid;
use openssl::pkey::PKey;
use support::{by_curve, by_edwards, by_pss, by_rsa, rsa, Signed};
use x509check::Judgement;
use x509check_openssl::OpenSslJudge;

/// What is judged, and of how many allocations one is refused: most curves take thousands.
fn questions() -> Vec<(&'static str, Signed, usize)> {
    let (sha256, ecdsa) = (MessageDigest::sha256(), "1.2.840.10045.4.3.2");
    let (named, pkcs1) = ("2.16.840.1.101.3.4.2.1", "1.2.840.113549.1.1.11");
    let (ed25519, ed448) = (PKey::generate_ed25519(), PKey::generate_ed448());
    vec![
        ("RSA", by_rsa(&rsa(2048), pkcs1, sha256), 1),
        ("RSASSA-PSS", by_pss(&rsa(2048), named, sha256, 32), 1),
        ("P-256", by_curve(Nid::X9_62_PRIME256V1, ecdsa, sha256), 1),
        ("P-384", by_curve(Nid::SECP384R1, ecdsa, sha256), 7),
        ("secp256k1", by_curve(Nid::SECP256K1, ecdsa, sha256), 7),
        ("Ed25519", by_edwards(&ed25519.unwrap(), "1.3.101.112"), 1),
        ("Ed448", by_edwards(&ed448.unwrap(), "1.3.101.113"), 1),
    ]
}

/// How many of the allocations that this judgement takes lead to another one, if one of so many is refused in turn.
fn refused(name: &str, signed: &Signed, each: usize) -> usize {
    let judge = OpenSslJudge::default();
    // (the first call makes what libcrypto keeps)
    assert_eq!(signed.judged(&judge), Judgement::Good, "{name}");
    let mut refused = 0;
    for granted in (0..).step_by(each) {
        let (judgement, is_short) = rationed::refused_behind(granted, || signed.judged(&judge));
        let is_known = matches!(judgement, Judgement::Good | Judgement::CouldNotTell);
        assert!(is_known, "{name}: {judgement} behind {granted} allocations");
        refused += usize::from(judgement == Judgement::CouldNotTell);
        if !is_short {
            assert_eq!(judgement, Judgement::Good, "{name}");
            break;
        }
    }
    refused
}

#[test]
fn a_good_signature_is_never_wrong() {
    rationed::take();
    for (name, signed, each) in questions() {
        let refused = refused(name, &signed, each);
        assert!(
            refused > 5,
            "{name}: {refused} of the allocations were missed"
        );
    }
}
