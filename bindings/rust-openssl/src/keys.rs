//! What a subjectPublicKeyInfo says: which key (RFC 3279, 4055, 5480, 8410).

use crate::der::{
    bit_length, not_served, value, NotServed, Served, Value, OBJECT_IDENTIFIER, SEQUENCE,
};
use crate::policy::Curve;
use crate::schemes::{bare_scheme, identifier, identifiers, want_none, want_null, Pss, Scheme};

/// Of moduli. OpenSSL takes no longer one, and beside a long one no longer exponent.
const RSA_BITS: std::ops::RangeInclusive<usize> = 512..=16384;
const EXPONENT_BITS: usize = 64;
/// 1.2.840.10045.2.1, id-ecPublicKey
const EC: [u8; 7] = [0x2A, 0x86, 0x48, 0xCE, 0x3D, 2, 1];

/// Of a key.
#[derive(Clone, Copy, Debug, PartialEq, Eq)]
pub(crate) enum Kind {
    Rsa,
    Curve(Curve),
}

#[derive(Clone, Copy, Debug)]
pub(crate) struct Key<'a> {
    pub kind: Kind,
    /// The octets of subjectPublicKey: an RSAPublicKey (RFC 8017, A.1.1), a point, or the key of EdDSA as it is.
    pub octets: &'a [u8],
    /// Of the modulus of an RSA key.
    pub bits: usize,
    /// Whether an RSA key makes signatures of RSASSA-PSS alone.
    pub is_only_pss: bool,
    /// What such a key asks of the parameters of its signatures, if it does (RFC 4055, 3.3).
    pub least: Option<Pss>,
}

impl Key<'_> {
    /// The key in a whole subjectPublicKeyInfo.
    pub(crate) fn read(info: &[u8]) -> Served<Key<'_>> {
        key_of(info).map_err(|NotServed(why)| NotServed(format!("the key: {why}")))
    }
}

fn key_of(info: &[u8]) -> Served<Key<'_>> {
    let members = value(info)?.as_a(SEQUENCE)?.members(2)?;
    let [algorithm, key] = members[..] else {
        return not_served("no subjectPublicKeyInfo");
    };
    let (contents, parameters) = identifier(algorithm)?;
    let octets = key.whole_octets()?;
    // rsaEncryption
    if contents.strip_prefix(&identifiers::PKCS1) == Some(&[1]) {
        if parameters.is_none() {
            return not_served("an RSA key without NULL");
        }
        want_null(parameters)?;
        return rsa_key(octets);
    }
    if contents == identifiers::PSS {
        return Ok(Key {
            is_only_pss: true,
            least: parameters.map(Pss::of).transpose()?,
            ..rsa_key(octets)?
        });
    }
    if contents == EC {
        return ec_key(octets, parameters);
    }
    match bare_scheme(contents) {
        Some(Scheme::EdDsa(curve)) => {
            want_none(parameters).and_then(|()| edwards_key(curve, octets))
        }
        _ => not_served("keys of this kind are not served"),
    }
}

/// RSAPublicKey ::= SEQUENCE { modulus INTEGER, publicExponent INTEGER } (RFC 8017, A.1.1).
fn rsa_key(octets: &[u8]) -> Served<Key<'_>> {
    let members = value(octets)?.as_a(SEQUENCE)?.members(2)?;
    let [modulus, exponent] = members[..] else {
        return not_served("no RSA key");
    };
    let (modulus, exponent) = (modulus.unsigned()?, exponent.unsigned()?);
    let (bits, is_odd) = (bit_length(modulus), |digits: &[u8]| {
        digits.last().is_some_and(|it| it % 2 == 1)
    });
    if !RSA_BITS.contains(&bits) {
        return not_served(&format!("a modulus of {bits} bits"));
    }
    if !is_odd(modulus)
        || !is_odd(exponent)
        || exponent == [1]
        || bit_length(exponent) > EXPONENT_BITS
    {
        return not_served("a modulus or an exponent that is not served");
    }
    Ok(Key {
        kind: Kind::Rsa,
        octets,
        bits,
        is_only_pss: false,
        least: None,
    })
}

/// The curve of an OBJECT IDENTIFIER, and the octets of its field elements (RFC 5480, 2.1.1.1; RFC 5639, 3).
fn curve_of(contents: &[u8]) -> Option<(Curve, usize)> {
    match contents {
        [0x2B, 0x81, 4, 0, 33] => Some((Curve::P224, 28)),
        [0x2A, 0x86, 0x48, 0xCE, 0x3D, 3, 1, 7] => Some((Curve::P256, 32)),
        [0x2B, 0x81, 4, 0, 34] => Some((Curve::P384, 48)),
        [0x2B, 0x81, 4, 0, 35] => Some((Curve::P521, 66)),
        [0x2B, 0x81, 4, 0, 10] => Some((Curve::Secp256k1, 32)),
        [0x2B, 0x24, 3, 3, 2, 8, 1, 1, 7] => Some((Curve::BrainpoolP256r1, 32)),
        [0x2B, 0x24, 3, 3, 2, 8, 1, 1, 11] => Some((Curve::BrainpoolP384r1, 48)),
        [0x2B, 0x24, 3, 3, 2, 8, 1, 1, 13] => Some((Curve::BrainpoolP512r1, 64)),
        _ => None,
    }
}

fn on_curve(curve: Curve, octets: &[u8]) -> Key<'_> {
    Key {
        kind: Kind::Curve(curve),
        octets,
        bits: 0,
        is_only_pss: false,
        least: None,
    }
}

/// A point, whole or compressed, on a curve with a name (RFC 5480, 2.1.1 and 2.2).
fn ec_key<'a>(point: &'a [u8], parameters: Option<Value<'_>>) -> Served<Key<'a>> {
    let named = match parameters {
        Some(value) if value.identifier == OBJECT_IDENTIFIER => curve_of(value.contents),
        _ => return not_served("a curve that has no name"),
    };
    let Some((curve, octets)) = named else {
        return not_served("a curve that is not served");
    };
    let length = match point.first() {
        Some(4) => 1 + 2 * octets,
        Some(2 | 3) => 1 + octets,
        _ => return not_served("no point"),
    };
    if point.len() != length {
        return not_served("no point on its curve");
    }
    Ok(on_curve(curve, point))
}

fn edwards_key(curve: Curve, octets: &[u8]) -> Served<Key<'_>> {
    let length = if curve == Curve::Ed25519 { 32 } else { 57 };
    if octets.len() != length {
        return not_served("no key on its curve");
    }
    Ok(on_curve(curve, octets))
}
