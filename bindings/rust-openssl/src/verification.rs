//! Signatures verified by libcrypto.

use std::os::raw::{c_int, c_ulong};

use foreign_types::{ForeignType, ForeignTypeRef};
use openssl::bn::BigNumContext;
use openssl::ec::{EcGroup, EcKey, EcPoint};
use openssl::error::ErrorStack;
use openssl::md::{Md, MdRef};
use openssl::md_ctx::MdCtx;
use openssl::nid::Nid;
use openssl::pkey::{Id, PKey, Public};
use openssl::pkey_ctx::PkeyCtxRef;
use openssl::rsa::{Padding, Rsa};
use openssl::version;

use crate::keys::{Key, Kind};
use crate::policy::{Curve, Digest};
use crate::schemes::{Pss, Scheme};

/// 3.0.0
const OLDEST: i64 = 0x3000_0000;
/// Bits of an error of libcrypto 3 (err.h): it is one of the system, or one that does not come from what the caller handed over.
const SYSTEM: c_ulong = 0x8000_0000;
const FATAL: c_ulong = 0x0004_0000;

const REASON: c_ulong = 0x007F_FFFF;
/// ERR_LIB_RSA, ERR_LIB_EC and EC_R_BAD_SIGNATURE (err.h, ecerr.h).
const RSA: c_ulong = 4;
const EC: c_ulong = 16;
const BAD_SIGNATURE: c_ulong = 156;
/// EC_R_INVALID_ENCODING, EC_R_POINT_IS_NOT_ON_CURVE, EC_R_INVALID_COMPRESSION_BIT and EC_R_INVALID_COMPRESSED_POINT (ecerr.h).
const NOT_ON_CURVE: [c_ulong; 4] = [102, 107, 109, 110];
/// EVP_MD_CTX_FLAG_FINALISE (evp.h): nothing comes behind this message, so the context is not copied before it is used up. A copy that
/// fails for lack of memory looks like a wrong signature.
const FINALISE: c_int = 0x0200;

extern "C" {
    fn EVP_MD_CTX_set_flags(context: *mut openssl_sys::EVP_MD_CTX, flags: c_int);
}

/// What libcrypto says of a signature by a scheme and a key that are served.
#[derive(Clone, Copy, Debug, PartialEq, Eq)]
pub(crate) enum Verification {
    Good,
    Wrong,
    /// The key is none.
    NotOnCurve,
    /// It says nothing, and why.
    Failed(&'static str),
}

fn md(digest: Digest) -> &'static MdRef {
    match digest {
        Digest::Sha1 => Md::sha1(),
        Digest::Sha224 => Md::sha224(),
        Digest::Sha256 => Md::sha256(),
        Digest::Sha384 => Md::sha384(),
        Digest::Sha512 => Md::sha512(),
    }
}

/// The name of a curve of ECDSA.
fn nid(curve: Curve) -> Nid {
    match curve {
        Curve::P224 => Nid::SECP224R1,
        Curve::P256 => Nid::X9_62_PRIME256V1,
        Curve::P384 => Nid::SECP384R1,
        Curve::P521 => Nid::SECP521R1,
        Curve::Secp256k1 => Nid::SECP256K1,
        Curve::BrainpoolP256r1 => Nid::BRAINPOOL_P256R1,
        Curve::BrainpoolP384r1 => Nid::BRAINPOOL_P384R1,
        Curve::BrainpoolP512r1 => Nid::BRAINPOOL_P512R1,
        Curve::Ed25519 | Curve::Ed448 => Nid::UNDEF,
    }
}

fn ec_key(curve: Curve, point: &[u8]) -> Result<PKey<Public>, ErrorStack> {
    let (group, mut room) = (EcGroup::from_curve_name(nid(curve))?, BigNumContext::new()?);
    let point = EcPoint::from_bytes(&group, point, &mut room)?;
    PKey::from_ec_key(EcKey::from_public_key(&group, &point)?)
}

fn public_key(key: &Key<'_>) -> Result<PKey<Public>, ErrorStack> {
    match key.kind {
        Kind::Rsa => PKey::from_rsa(Rsa::public_key_from_der_pkcs1(key.octets)?),
        Kind::Curve(Curve::Ed25519) => PKey::public_key_from_raw_bytes(key.octets, Id::ED25519),
        Kind::Curve(Curve::Ed448) => PKey::public_key_from_raw_bytes(key.octets, Id::ED448),
        Kind::Curve(curve) => ec_key(curve, key.octets),
    }
}

/// Whether all that the library says is that a point is not on its curve.
fn is_not_on_curve(errors: &ErrorStack) -> bool {
    let says_so = |code: c_ulong| library_of(code) == EC && NOT_ON_CURVE.contains(&(code & REASON));
    let mut codes = errors.errors().iter().map(|error| error.code());
    codes.len() > 0 && codes.all(says_so)
}

fn set_pss(context: &mut PkeyCtxRef<Public>, pss: &Pss) -> Result<(), ErrorStack> {
    context.set_rsa_padding(Padding::PKCS1_PSS)?;
    context.set_rsa_mgf1_md(md(pss.mask))?;
    // (a salt that fits below a modulus of 16384 bits fits into an int)
    let salt = c_int::try_from(pss.salt).unwrap_or(c_int::MAX);
    // The context lives as long as the reference to it.
    let is_set = unsafe { openssl_sys::EVP_PKEY_CTX_set_rsa_pss_saltlen(context.as_ptr(), salt) };
    if is_set == 1 {
        Ok(())
    } else {
        Err(ErrorStack::get())
    }
}

fn begin(context: &mut MdCtx, scheme: &Scheme, key: &PKey<Public>) -> Result<(), ErrorStack> {
    let digest = match scheme {
        Scheme::Pkcs1(digest) | Scheme::Ecdsa(digest) => Some(md(*digest)),
        Scheme::Pss(pss) => Some(md(pss.digest)),
        Scheme::EdDsa(_) => None,
    };
    let settings = context.digest_verify_init(digest, key)?;
    match scheme {
        Scheme::Pss(pss) => set_pss(settings, pss),
        _ => Ok(()),
    }
}

/// Whether the library itself failed, for lack of memory or otherwise: then nothing is known of the signature. Of one that is wrong the
/// routines of RSA say why; those of curves say nothing, or that it is bad. (A failure need not say that memory was lacking.)
fn is_failure(kind: Kind, errors: &ErrorStack) -> bool {
    let mut codes = errors.errors().iter().map(|error| error.code());
    let is_system = |code: c_ulong| code & (SYSTEM | FATAL) != 0;
    match kind {
        Kind::Rsa => {
            let codes: Vec<c_ulong> = codes.collect();
            codes.iter().any(|code| is_system(*code))
                || !codes.iter().any(|code| library_of(*code) == RSA)
        }
        Kind::Curve(_) => {
            codes.any(|code| (library_of(code), code & REASON) != (EC, BAD_SIGNATURE))
        }
    }
}

/// Whose an error is.
fn library_of(code: c_ulong) -> c_ulong {
    code >> 23 & 0xFF
}

/// Whether the key made the signature of the message, by the scheme. What can be said without the library was said before.
///
/// The library does not report each lack of memory: what speaks against a signature is looked at once more, from the beginning.
pub(crate) fn verify(
    scheme: &Scheme,
    key: &Key<'_>,
    message: &[u8],
    signature: &[u8],
) -> Verification {
    if version::number() < OLDEST {
        return Verification::Failed("libcrypto is older than 3.0");
    }
    match verify_once(scheme, key, message, signature) {
        Verification::Wrong | Verification::NotOnCurve => {
            verify_once(scheme, key, message, signature)
        }
        other => other,
    }
}

fn verify_once(scheme: &Scheme, key: &Key<'_>, message: &[u8], signature: &[u8]) -> Verification {
    // (what others left in the queue is not about this signature)
    drop(ErrorStack::get());
    let public = match public_key(key) {
        Ok(public) => public,
        Err(errors) if is_not_on_curve(&errors) => return Verification::NotOnCurve,
        Err(_) => return Verification::Failed("OpenSSL does not take the key"),
    };
    let Ok(mut context) = MdCtx::new() else {
        return Verification::Failed("OpenSSL fails");
    };
    if begin(&mut context, scheme, &public).is_err() {
        return Verification::Failed("OpenSSL does not take the algorithm");
    }
    // The context lives until the end of this function.
    unsafe { EVP_MD_CTX_set_flags(context.as_ptr(), FINALISE) };
    match context.digest_verify(message, signature) {
        Ok(true) => Verification::Good,
        Ok(false) => Verification::Wrong,
        Err(errors) if is_failure(key.kind, &errors) => Verification::Failed("OpenSSL fails"),
        Err(_) => Verification::Wrong,
    }
}
