//! What OpenSSL signs is good, what is forged is wrong, and what a policy does not let is refused.

mod support;

use openssl::bn::BigNum;
use openssl::hash::MessageDigest;
use openssl::nid::Nid;
use openssl::pkey::PKey;
use openssl::rsa::Rsa;
use support::{by_curve, by_edwards, by_pss, by_rsa, identifier, rsa, Signed, NULL};
use x509check::{Judgement, SignatureQuestion};
use x509check_openssl::{Curve, Digest, OpenSslJudge, Policy};

const SHA1: &str = "1.3.14.3.2.26";
const SHA256: &str = "2.16.840.1.101.3.4.2.1";
const SHA512: &str = "2.16.840.1.101.3.4.2.3";
const SHA256_RSA: &str = "1.2.840.113549.1.1.11";
const SHA1_RSA: &str = "1.2.840.113549.1.1.5";
const SHA256_ECDSA: &str = "1.2.840.10045.4.3.2";

/// What the default policy lets.
fn good_ones() -> Vec<(&'static str, Signed)> {
    let (key, sha256, sha512) = (rsa(2048), MessageDigest::sha256(), MessageDigest::sha512());
    let ecdsa = |curve| by_curve(curve, SHA256_ECDSA, sha256);
    vec![
        ("rsa", by_rsa(&key, SHA256_RSA, sha256)),
        (
            "rsa sha512",
            by_rsa(&key, "1.2.840.113549.1.1.13", MessageDigest::sha512()),
        ),
        ("pss", by_pss(&key, SHA256, sha256, 32)),
        ("pss no salt", by_pss(&key, SHA256, sha256, 0)),
        ("pss sha512", by_pss(&key, SHA512, sha512, 64)),
        ("p256", ecdsa(Nid::X9_62_PRIME256V1)),
        (
            "p384",
            by_curve(
                Nid::SECP384R1,
                "1.2.840.10045.4.3.3",
                MessageDigest::sha384(),
            ),
        ),
        ("p521", ecdsa(Nid::SECP521R1)),
        ("secp256k1", ecdsa(Nid::SECP256K1)),
        (
            "ed25519",
            by_edwards(&PKey::generate_ed25519().unwrap(), "1.3.101.112"),
        ),
        (
            "ed448",
            by_edwards(&PKey::generate_ed448().unwrap(), "1.3.101.113"),
        ),
    ]
}

#[test]
fn signatures_and_forgeries() {
    let (judge, all) = (OpenSslJudge::default(), good_ones());
    for (name, signed) in &all {
        assert_eq!(signed.judged(&judge), Judgement::Good, "{name}");
        let wrong = |change: &dyn Fn(&mut Signed)| {
            let mut forged = signed.clone();
            change(&mut forged);
            assert_eq!(forged.judged(&judge), Judgement::Wrong, "{name}");
        };
        wrong(&|it| it.message.push(0));
        wrong(&|it| it.message.clear());
        wrong(&|it| it.signature.push(0));
        wrong(&|it| it.signature.clear());
        wrong(&|it| it.signature.insert(0, 0));
        wrong(&|it| it.signature.fill(0));
        let middle = signed.signature.len() / 2;
        wrong(&|it| it.signature[middle] ^= 4);
        for (other, theirs) in &all {
            let mut forged = signed.clone();
            forged.key = theirs.key.clone();
            let is_same = forged.key == signed.key;
            let judgement = forged.judged(&judge);
            assert_eq!(
                judgement == Judgement::Good,
                is_same,
                "{name} by the key of {other}"
            );
            assert!(
                matches!(judgement, Judgement::Good | Judgement::Wrong),
                "{name} by the key of {other}"
            );
        }
    }
}

#[test]
fn policies() {
    let (sha1, sha256) = (MessageDigest::sha1(), MessageDigest::sha256());
    let strict = OpenSslJudge::default();
    let mut policy = Policy {
        minimum_rsa_bits: 512,
        ..Policy::default()
    };
    policy.digests.insert(Digest::Sha1);
    let lax = OpenSslJudge::new(policy.clone());
    let refused = [
        ("rsa sha1", by_rsa(&rsa(2048), SHA1_RSA, sha1)),
        ("pss sha1", by_pss(&rsa(2048), SHA1, sha1, 20)),
        ("rsa 1024", by_rsa(&rsa(1024), SHA256_RSA, sha256)),
        (
            "ecdsa sha1",
            by_curve(Nid::SECP384R1, "1.2.840.10045.4.1", sha1),
        ),
    ];
    for (name, mut signed) in refused {
        assert_eq!(signed.judged(&lax), Judgement::Good, "{name}");
        assert_eq!(signed.judged(&strict), Judgement::RefusedByPolicy, "{name}");
        // Whether it is right is not looked at.
        signed.message.push(0);
        assert_eq!(signed.judged(&strict), Judgement::RefusedByPolicy, "{name}");
        assert_eq!(signed.judged(&lax), Judgement::Wrong, "{name}");
    }
    policy.curves.remove(&Curve::P384);
    let without = OpenSslJudge::new(policy);
    let p384 = by_curve(Nid::SECP384R1, SHA256_ECDSA, sha256);
    assert_eq!(p384.judged(&without), Judgement::RefusedByPolicy);
    assert_eq!(p384.judged(&strict), Judgement::Good);
}

#[test]
fn what_is_not_served() {
    let (judge, sha256) = (OpenSslJudge::default(), MessageDigest::sha256());
    // md5WithRSAEncryption, which no policy lets.
    let md5 = by_rsa(&rsa(2048), "1.2.840.113549.1.1.4", MessageDigest::md5());
    assert_eq!(md5.judged(&judge), Judgement::NotServed);
    let prime192 = by_curve(Nid::X9_62_PRIME192V1, SHA256_ECDSA, sha256);
    assert_eq!(prime192.judged(&judge), Judgement::NotServed);
    let good = by_curve(Nid::X9_62_PRIME256V1, SHA256_ECDSA, sha256);
    let not_served = |change: &dyn Fn(&mut Signed)| {
        let mut changed = good.clone();
        change(&mut changed);
        assert_eq!(changed.judged(&judge), Judgement::NotServed);
    };
    not_served(&|it| it.algorithm.clear());
    not_served(&|it| it.algorithm.push(0));
    not_served(&|it| it.algorithm = identifier(SHA256_ECDSA, &[NULL]));
    not_served(&|it| it.algorithm = identifier("1.2.840.113549.1.1.10", &[]));
    not_served(&|it| it.key.clear());
    not_served(&|it| it.key.truncate(40));
    // A point that is not on the curve, and the first numbers that are those of none.
    not_served(&|it| *it.key.last_mut().unwrap() ^= 1);
    let point = good.key.len() - 65;
    let compressed = |x: u8| {
        let mut signed = good.clone();
        signed.key.truncate(point);
        signed.key.extend([&[2][..], &[0; 31], &[x]].concat());
        // (what stands around the point is 32 octets shorter)
        signed.key[1] -= 32;
        signed.key[point - 2] -= 32;
        signed.judged(&judge)
    };
    let judged: Vec<Judgement> = (0..8).map(compressed).collect();
    let (on_curve, others): (Vec<Judgement>, Vec<Judgement>) =
        judged.into_iter().partition(|it| *it == Judgement::Wrong);
    assert!(on_curve.len() > 1 && others.len() > 1);
    assert!(others.iter().all(|it| *it == Judgement::NotServed));
}

/// A modulus of so many bits, all of them set. It has no prime factors that anybody knows, and made no signature.
fn by_long_key(bits: usize) -> Signed {
    let modulus = [&[0][..], &vec![0xFF; bits / 8]].concat();
    let modulus = BigNum::from_slice(&modulus).unwrap();
    let exponent = BigNum::from_u32(65_537).unwrap();
    let key = Rsa::from_public_components(modulus, exponent).unwrap();
    Signed {
        algorithm: identifier(SHA256_RSA, &[NULL]),
        key: key.public_key_to_der().unwrap(),
        message: b"a message".to_vec(),
        signature: vec![1; bits / 8],
    }
}

#[test]
fn long_keys_are_served_if_a_policy_says_so() {
    let most = OpenSslJudge::new(Policy {
        maximum_rsa_bits: 16_384,
        ..Policy::default()
    });
    let little = OpenSslJudge::new(Policy {
        maximum_rsa_bits: 4_096,
        ..Policy::default()
    });
    let beyond = OpenSslJudge::new(Policy {
        maximum_rsa_bits: usize::MAX,
        ..Policy::default()
    });
    use Judgement::{NotServed, Wrong};
    for (bits, expected) in [
        (4_096, [Wrong, Wrong, Wrong, Wrong]),
        (4_104, [NotServed, Wrong, Wrong, Wrong]),
        (8_192, [NotServed, Wrong, Wrong, Wrong]),
        (8_200, [NotServed, NotServed, Wrong, Wrong]),
        (16_384, [NotServed, NotServed, Wrong, Wrong]),
        (16_392, [NotServed, NotServed, NotServed, NotServed]),
    ] {
        let signed = by_long_key(bits);
        let judges = [&little, &OpenSslJudge::default(), &most, &beyond];
        assert_eq!(judges.map(|judge| signed.judged(judge)), expected, "{bits}");
    }
}

#[test]
fn opinions_say_why() {
    let (judge, sha1) = (OpenSslJudge::default(), MessageDigest::sha1());
    let signed = by_rsa(&rsa(2048), SHA1_RSA, sha1);
    let (algorithm, key_info) = (&signed.algorithm[..], &signed.key[..]);
    let question = SignatureQuestion {
        algorithm,
        key_info,
        message: &signed.message,
        signature: &signed.signature,
        fingerprint: [0; 32],
    };
    let opinion = judge.opinion(&question);
    assert_eq!(opinion.judgement, Judgement::RefusedByPolicy);
    assert_eq!(opinion.why, "the digest Sha1");
}
