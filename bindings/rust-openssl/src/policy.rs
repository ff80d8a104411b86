//! Which signatures are looked at.

use std::collections::BTreeSet;

use crate::keys::{Key, Kind};
use crate::schemes::Scheme;

/// A digest that is served.
#[derive(Clone, Copy, Debug, PartialEq, Eq, PartialOrd, Ord, Hash)]
#[non_exhaustive]
pub enum Digest {
    /// SHA-1 (FIPS 180-4), for which collisions were found.
    Sha1,
    /// SHA-224
    Sha224,
    /// SHA-256
    Sha256,
    /// SHA-384
    Sha384,
    /// SHA-512
    Sha512,
}

/// A curve that is served, of ECDSA or EdDSA.
#[derive(Clone, Copy, Debug, PartialEq, Eq, PartialOrd, Ord, Hash)]
#[non_exhaustive]
pub enum Curve {
    /// secp224r1
    P224,
    /// secp256r1
    P256,
    /// secp384r1
    P384,
    /// secp521r1
    P521,
    /// secp256k1
    Secp256k1,
    /// brainpoolP256r1
    BrainpoolP256r1,
    /// brainpoolP384r1
    BrainpoolP384r1,
    /// brainpoolP512r1
    BrainpoolP512r1,
    /// Ed25519
    Ed25519,
    /// Ed448
    Ed448,
}

pub(crate) const DIGESTS: [Digest; 5] = [
    Digest::Sha1,
    Digest::Sha224,
    Digest::Sha256,
    Digest::Sha384,
    Digest::Sha512,
];
const CURVES: [Curve; 10] = [
    Curve::P224,
    Curve::P256,
    Curve::P384,
    Curve::P521,
    Curve::Secp256k1,
    Curve::BrainpoolP256r1,
    Curve::BrainpoolP384r1,
    Curve::BrainpoolP512r1,
    Curve::Ed25519,
    Curve::Ed448,
];

/// Which signatures are looked at. One whose algorithm or key it does not let is
/// [`RefusedByPolicy`](x509check::Judgement::RefusedByPolicy), whoever made it. MD5 and what is older is not served at all, so no policy
/// lets it.
///
/// ```
/// use x509check_openssl::{Digest, OpenSslJudge, Policy};
///
/// let mut policy = Policy { minimum_rsa_bits: 3072, ..Policy::default() };
/// policy.digests.remove(&Digest::Sha224);
/// let judge = OpenSslJudge::new(policy);
/// # let _ = judge;
/// ```
#[derive(Clone, Debug, PartialEq, Eq)]
pub struct Policy {
    /// Of RSA and ECDSA: of the message, and of RSASSA-PSS also that of the mask generation function. All but SHA-1, if it is not said.
    pub digests: BTreeSet<Digest>,
    /// Of the modulus: 2048, if it is not said. Moduli of less than 512 bits are not served.
    pub minimum_rsa_bits: usize,
    /// Of the modulus: 8192, if it is not said. A longer one is not served, as it takes long; 16384 is the most that can be said.
    pub maximum_rsa_bits: usize,
    /// Of ECDSA and EdDSA: all, if it is not said.
    pub curves: BTreeSet<Curve>,
}

impl Default for Policy {
    fn default() -> Policy {
        Policy {
            digests: DIGESTS
                .into_iter()
                .filter(|it| *it != Digest::Sha1)
                .collect(),
            minimum_rsa_bits: 2048,
            maximum_rsa_bits: 8192,
            curves: CURVES.into(),
        }
    }
}

impl Policy {
    /// Why it refuses the scheme or the key, if it does.
    pub(crate) fn refusal(&self, scheme: &Scheme, key: &Key<'_>) -> Option<String> {
        let weak = scheme
            .digests()
            .into_iter()
            .find(|it| !self.digests.contains(it));
        if let Some(digest) = weak {
            return Some(format!("the digest {digest:?}"));
        }
        match key.kind {
            Kind::Rsa if key.bits < self.minimum_rsa_bits => Some(format!(
                "an RSA key of {} bits, which is less than {}",
                key.bits, self.minimum_rsa_bits
            )),
            Kind::Curve(curve) if !self.curves.contains(&curve) => {
                Some(format!("the curve {curve:?}"))
            }
            _ => None,
        }
    }
}
