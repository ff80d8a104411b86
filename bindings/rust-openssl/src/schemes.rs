//! What an algorithm identifier says: which scheme of signatures (RFC 3279, 4055, 5758, 8410).

use crate::der::{
    not_served, number, value, NotServed, Served, Value, NULL, OBJECT_IDENTIFIER, SEQUENCE,
};
use crate::policy::{Curve, Digest};

/// RSASSA-PSS-params (RFC 4055, 3.1); the trailer field is 1.
#[derive(Clone, Copy, Debug, PartialEq, Eq)]
pub(crate) struct Pss {
    pub digest: Digest,
    /// The digest of the mask generation function.
    pub mask: Digest,
    /// In octets.
    pub salt: usize,
}

/// A scheme of signatures.
#[derive(Clone, Copy, Debug, PartialEq, Eq)]
pub(crate) enum Scheme {
    /// RSASSA-PKCS1-v1_5 with the digest of the message.
    Pkcs1(Digest),
    /// RSASSA-PSS.
    Pss(Pss),
    /// ECDSA with the digest of the message.
    Ecdsa(Digest),
    /// Ed25519 or Ed448, which have digests of their own.
    EdDsa(Curve),
}

/// The contents of OBJECT IDENTIFIERs.
pub(crate) mod identifiers {
    /// 1.2.840.113549.1.1, PKCS #1: the arc above those of RSA.
    pub const PKCS1: [u8; 8] = [0x2A, 0x86, 0x48, 0x86, 0xF7, 0x0D, 0x01, 0x01];
    /// id-RSASSA-PSS
    pub const PSS: [u8; 9] = [0x2A, 0x86, 0x48, 0x86, 0xF7, 0x0D, 0x01, 0x01, 10];
    /// id-mgf1
    pub const MGF1: [u8; 9] = [0x2A, 0x86, 0x48, 0x86, 0xF7, 0x0D, 0x01, 0x01, 8];
    /// 1.2.840.10045.4.1, ecdsa-with-SHA1
    pub const ECDSA_SHA1: [u8; 7] = [0x2A, 0x86, 0x48, 0xCE, 0x3D, 0x04, 1];
    /// 1.2.840.10045.4.3: the arc above ecdsa-with-SHA224 and its like.
    pub const ECDSA_SHA2: [u8; 7] = [0x2A, 0x86, 0x48, 0xCE, 0x3D, 0x04, 3];
    /// 1.3.101.112
    pub const ED25519: [u8; 3] = [0x2B, 0x65, 112];
    /// 1.3.101.113
    pub const ED448: [u8; 3] = [0x2B, 0x65, 113];
    /// 1.3.14.3.2.26
    pub const SHA1: [u8; 5] = [0x2B, 0x0E, 3, 2, 26];
    /// 2.16.840.1.101.3.4.2: the arc above SHA-2.
    pub const SHA2: [u8; 8] = [0x60, 0x86, 0x48, 0x01, 0x65, 3, 4, 2];
}

impl Scheme {
    /// All digests that its strength rests on and that a policy may refuse.
    pub(crate) fn digests(&self) -> Vec<Digest> {
        match self {
            Scheme::Pkcs1(digest) | Scheme::Ecdsa(digest) => vec![*digest],
            Scheme::Pss(pss) => vec![pss.digest, pss.mask],
            Scheme::EdDsa(_) => Vec::new(),
        }
    }

    /// The scheme that a whole AlgorithmIdentifier names.
    pub(crate) fn read(octets: &[u8]) -> Served<Scheme> {
        scheme_of(octets).map_err(|NotServed(why)| NotServed(format!("the algorithm: {why}")))
    }
}

/// An AlgorithmIdentifier: the contents of its OBJECT IDENTIFIER, and the parameters if there are any (RFC 5280, 4.1.1.2).
pub(crate) fn identifier(value: Value<'_>) -> Served<(&[u8], Option<Value<'_>>)> {
    let members = value.as_a(SEQUENCE)?.members(2)?;
    match members.first() {
        Some(first) => Ok((
            first.as_a(OBJECT_IDENTIFIER)?.contents,
            members.get(1).copied(),
        )),
        None => not_served("no algorithm identifier"),
    }
}

/// NULL, or nothing: whoever verifies has to take both (RFC 4055, 2.1 and 5).
pub(crate) fn want_null(parameters: Option<Value<'_>>) -> Served<()> {
    match parameters {
        Some(value) if value.whole != NULL => not_served("parameters where NULL is wanted"),
        _ => Ok(()),
    }
}

pub(crate) fn want_none(parameters: Option<Value<'_>>) -> Served<()> {
    match parameters {
        Some(_) => not_served("parameters where none are wanted"),
        None => Ok(()),
    }
}

/// The last number of an OBJECT IDENTIFIER below this arc, if it has one octet.
fn last_below(arc: &[u8], contents: &[u8]) -> Option<u8> {
    match contents.strip_prefix(arc) {
        Some([last]) => Some(*last),
        _ => None,
    }
}

fn scheme_of(octets: &[u8]) -> Served<Scheme> {
    let (contents, parameters) = identifier(value(octets)?)?;
    if contents == identifiers::PSS {
        return match parameters {
            Some(parameters) => Ok(Scheme::Pss(Pss::of(parameters)?)),
            None => not_served("RSASSA-PSS without parameters"),
        };
    }
    let pkcs1 = last_below(&identifiers::PKCS1, contents).and_then(pkcs1_digest);
    if let Some(digest) = pkcs1 {
        want_null(parameters)?;
        return Ok(Scheme::Pkcs1(digest));
    }
    match bare_scheme(contents) {
        Some(scheme) => want_none(parameters).map(|()| scheme),
        None => not_served("it is none of those that are served"),
    }
}

/// sha1WithRSAEncryption and its like (RFC 4055, 5).
fn pkcs1_digest(last: u8) -> Option<Digest> {
    match last {
        5 => Some(Digest::Sha1),
        14 => Some(Digest::Sha224),
        11 => Some(Digest::Sha256),
        12 => Some(Digest::Sha384),
        13 => Some(Digest::Sha512),
        _ => None,
    }
}

/// The schemes whose identifiers have no parameters (RFC 5758, 3.2; RFC 8410, 3).
pub(crate) fn bare_scheme(contents: &[u8]) -> Option<Scheme> {
    if contents == identifiers::ECDSA_SHA1 {
        return Some(Scheme::Ecdsa(Digest::Sha1));
    }
    if contents == identifiers::ED25519 {
        return Some(Scheme::EdDsa(Curve::Ed25519));
    }
    if contents == identifiers::ED448 {
        return Some(Scheme::EdDsa(Curve::Ed448));
    }
    let digest = match last_below(&identifiers::ECDSA_SHA2, contents)? {
        1 => Digest::Sha224,
        2 => Digest::Sha256,
        3 => Digest::Sha384,
        4 => Digest::Sha512,
        _ => return None,
    };
    Some(Scheme::Ecdsa(digest))
}

fn digest_of(value: Value<'_>) -> Served<Digest> {
    let (contents, parameters) = identifier(value)?;
    let digest = match last_below(&identifiers::SHA2, contents) {
        Some(4) => Digest::Sha224,
        Some(1) => Digest::Sha256,
        Some(2) => Digest::Sha384,
        Some(3) => Digest::Sha512,
        None if contents == identifiers::SHA1 => Digest::Sha1,
        _ => return not_served("a digest that is not served"),
    };
    want_null(parameters)?;
    Ok(digest)
}

/// The digest of MGF1, the only mask generation function (RFC 4055, 2.2).
fn mask_of(value: Value<'_>) -> Served<Digest> {
    match identifier(value)? {
        (contents, Some(parameters)) if contents == identifiers::MGF1 => digest_of(parameters),
        _ => not_served("a mask generation function that is not served"),
    }
}

impl Pss {
    /// The parameters, of which whoever verifies has to take the defaults spelled out too (RFC 4055, 3.1).
    pub(crate) fn of(value: Value<'_>) -> Served<Pss> {
        let mut pss = Pss {
            digest: Digest::Sha1,
            mask: Digest::Sha1,
            salt: 20,
        };
        let mut next = 0xA0;
        for member in value.as_a(SEQUENCE)?.members(4)? {
            if !(next..=0xA3).contains(&member.identifier) {
                return not_served("parameters of RSASSA-PSS that are none");
            }
            next = member.identifier + 1;
            let inner = member.only_member()?;
            match member.identifier {
                0xA0 => pss.digest = digest_of(inner)?,
                0xA1 => pss.mask = mask_of(inner)?,
                0xA2 => pss.salt = number(inner.unsigned()?),
                _ if inner.unsigned()? != [1] => {
                    return not_served("a trailer field of RSASSA-PSS that is not 1")
                }
                _ => {}
            }
        }
        Ok(pss)
    }
}
