//! The judge.

use x509check::{Judge, Judgement, SignatureQuestion};

use crate::der::{not_served, value, NotServed, Served, SEQUENCE};
use crate::keys::{Key, Kind};
use crate::policy::{Curve, Digest, Policy};
use crate::schemes::{Pss, Scheme};
use crate::verification::{verify, Verification};

/// A judge of signatures by libcrypto, under a policy. It keeps nothing, and any number of threads may ask it.
///
/// What can be read comes first, then what the policy lets, and only then what is right. So a signature with SHA-1 is refused by the
/// default policy whether it is right or not. If libcrypto then fails, as for lack of memory, the judge cannot tell
/// ([`Judgement::CouldNotTell`]): what is served is decided here, and libcrypto only says of a point that it is not on its curve.
#[derive(Clone, Debug, Default, PartialEq, Eq)]
pub struct OpenSslJudge {
    policy: Policy,
}

/// A judgement, and what led to it.
#[derive(Clone, Debug, PartialEq, Eq)]
#[non_exhaustive]
#[must_use = "a signature counts only if it is Good"]
pub struct Opinion {
    /// What is said of the signature.
    pub judgement: Judgement,
    /// In words; empty for `Good`.
    pub why: String,
}

impl OpenSslJudge {
    /// The judge under this policy.
    pub fn new(policy: Policy) -> OpenSslJudge {
        OpenSslJudge { policy }
    }

    /// What is said of the signature, and why. The fingerprint of the question is not looked at.
    pub fn opinion(&self, question: &SignatureQuestion<'_>) -> Opinion {
        let told = |judgement, why| Opinion { judgement, why };
        match self.looked_at(question) {
            Ok(opinion) => opinion,
            Err(NotServed(why)) => told(Judgement::NotServed, why),
        }
    }

    fn looked_at(&self, question: &SignatureQuestion<'_>) -> Served<Opinion> {
        let told = |judgement, why| Ok(Opinion { judgement, why });
        let (scheme, key) = (
            Scheme::read(question.algorithm)?,
            Key::read(question.key_info)?,
        );
        self.check_length(&key)?;
        if let Some(why) = self.policy.refusal(&scheme, &key) {
            return told(Judgement::RefusedByPolicy, why);
        }
        if let Some(why) = wrong_by_itself(&scheme, &key, question.signature) {
            return told(Judgement::Wrong, why.into());
        }
        match verify(&scheme, &key, question.message, question.signature) {
            Verification::Good => told(Judgement::Good, String::new()),
            Verification::Wrong => told(
                Judgement::Wrong,
                "the key did not make it of this message".into(),
            ),
            Verification::NotOnCurve => not_served("the key: no point on its curve"),
            Verification::Failed(why) => told(Judgement::CouldNotTell, why.into()),
        }
    }

    fn check_length(&self, key: &Key<'_>) -> Served<()> {
        match key.kind {
            Kind::Rsa if key.bits > self.policy.maximum_rsa_bits => {
                not_served(&format!("the key: a modulus of {} bits", key.bits))
            }
            _ => Ok(()),
        }
    }
}

impl Judge for OpenSslJudge {
    fn judge(&self, question: &SignatureQuestion<'_>) -> Judgement {
        self.opinion(question).judgement
    }
}

/// Why the signature is wrong, whatever the message says; nothing if libcrypto has to look.
fn wrong_by_itself(scheme: &Scheme, key: &Key<'_>, signature: &[u8]) -> Option<&'static str> {
    let length = match (scheme, key.kind) {
        (Scheme::Pkcs1(_) | Scheme::Pss(_), Kind::Rsa) => {
            if let Some(why) = excluded_by_key(scheme, key) {
                return Some(why);
            }
            (key.bits + 7) / 8
        }
        (Scheme::EdDsa(Curve::Ed25519), Kind::Curve(Curve::Ed25519)) => 64,
        (Scheme::EdDsa(Curve::Ed448), Kind::Curve(Curve::Ed448)) => 114,
        (Scheme::Ecdsa(_), Kind::Curve(curve))
            if !matches!(curve, Curve::Ed25519 | Curve::Ed448) =>
        {
            return (!is_pair(signature)).then_some("it has not the form of an ECDSA signature");
        }
        _ => return Some("such a key makes no signature of this algorithm"),
    };
    (signature.len() != length).then_some("it has another length")
}

/// Why no signature of the scheme counts as one by the RSA key, if that is so (RFC 4055, 3.3).
fn excluded_by_key(scheme: &Scheme, key: &Key<'_>) -> Option<&'static str> {
    match (scheme, key.least) {
        (Scheme::Pkcs1(_), _) if key.is_only_pss => Some("the key is for RSASSA-PSS alone"),
        (Scheme::Pss(pss), Some(least)) if (pss.digest, pss.mask) != (least.digest, least.mask) => {
            Some("the key is for other digests")
        }
        (Scheme::Pss(pss), Some(least)) if pss.salt < least.salt => {
            Some("the key wants a longer salt")
        }
        _ => is_too_short(scheme, key.bits).then_some("the key is too short for it"),
    }
}

/// Whether no signature of the scheme fits such a modulus (RFC 8017, 9.1.1, step 3, and 9.2, step 3).
fn is_too_short(scheme: &Scheme, bits: usize) -> bool {
    match scheme {
        Scheme::Pss(Pss { digest, salt, .. }) => {
            (bits + 6) / 8 < (lengths(*digest).0 + 2).saturating_add(*salt)
        }
        Scheme::Pkcs1(digest) => (bits + 7) / 8 < lengths(*digest).0 + lengths(*digest).1 + 11,
        _ => false,
    }
}

/// Octets of the digest, and of what stands before it in a DigestInfo (RFC 8017, 9.2, note 1).
fn lengths(digest: Digest) -> (usize, usize) {
    match digest {
        Digest::Sha1 => (20, 15),
        Digest::Sha224 => (28, 19),
        Digest::Sha256 => (32, 19),
        Digest::Sha384 => (48, 19),
        Digest::Sha512 => (64, 19),
    }
}

/// Whether it is an ECDSA-Sig-Value, two numbers above 0 (RFC 3279, 2.2.3).
fn is_pair(signature: &[u8]) -> bool {
    let members = value(signature).and_then(|it| it.as_a(SEQUENCE)?.members(2));
    let is_above_zero = |digits: Result<&[u8], NotServed>| digits.is_ok_and(|it| !it.is_empty());
    members
        .is_ok_and(|it| it.len() == 2 && it.iter().all(|member| is_above_zero(member.unsigned())))
}
