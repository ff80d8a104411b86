//! Certificates (RFC 5280, 4), the fingerprints of signatures, and SHA-256.

use crate::fault::{error_of, Error};
use crate::identity::Identity;
use crate::library::{self, ExtensionFields, Fields, Part};

/// Whether the octets are the DER encoding of one value, or the first fault.
///
/// ```
/// assert!(x509check::check(&[0x30, 0x03, 0x02, 0x01, 0x05]).is_ok());
/// assert_eq!(x509check::check(&[0x05, 0x00, 0x00]).unwrap_err().to_string(), "7 Trailing at 2");
/// ```
pub fn check(octets: &[u8]) -> Result<(), Error> {
    // The pointer and the length are those of the slice, and the call only reads it.
    let answer = unsafe { library::x509check_check(octets.as_ptr(), octets.len()) };
    match answer.fault {
        0 => Ok(()),
        number => Err(error_of(number, 0, answer.offset, None)),
    }
}

/// The fingerprint of a signature: of its algorithm identifier and of the subjectPublicKeyInfo of the key, each the whole encoding, of the
/// message that was signed, and of the octets of the signature.
pub fn fingerprint(algorithm: &[u8], key: &[u8], message: &[u8], signature: &[u8]) -> [u8; 32] {
    let mut print = [0; 32];
    // The call reads the four slices and writes the 32 octets of the array, which lies apart from them.
    unsafe {
        library::x509check_fingerprint(
            algorithm.as_ptr(),
            algorithm.len(),
            key.as_ptr(),
            key.len(),
            message.as_ptr(),
            message.len(),
            signature.as_ptr(),
            signature.len(),
            print.as_mut_ptr(),
        );
    }
    print
}

/// The SHA-256 of the octets. Of the DER of a certificate it is what `openssl x509 -fingerprint -sha256` prints.
pub fn sha256(octets: &[u8]) -> [u8; 32] {
    let mut digest = [0; 32];
    // The call reads the slice and writes the 32 octets of the array, which lies apart from it.
    unsafe { library::x509check_sha256(octets.as_ptr(), octets.len(), digest.as_mut_ptr()) };
    digest
}

/// A certificate that was read. No signature is judged and no validity: one that is read is not one to be trusted.
#[derive(Clone, Copy)]
pub struct Certificate<'a> {
    octets: &'a [u8],
    fields: Fields,
}

/// The bits of a key usage (RFC 5280, 4.2.1.3): bit n of the number is bit n of the extension, of the nine that have names.
#[derive(Clone, Copy, Debug, PartialEq, Eq)]
pub struct KeyUsage(pub u32);

impl KeyUsage {
    /// Whether the bit of this number is there; 0 is digitalSignature.
    pub fn has(self, bit: u32) -> bool {
        bit < 32 && self.0 >> bit & 1 == 1
    }

    /// Whether the key may sign certificates.
    pub fn key_cert_sign(self) -> bool {
        self.has(5)
    }

    /// Whether the key may sign lists.
    pub fn crl_sign(self) -> bool {
        self.has(6)
    }
}

/// What the extensions of a certificate say. Of lists it is told how many items they have.
#[derive(Clone, Copy, Debug, PartialEq, Eq)]
pub struct Extensions {
    /// cA, if there are basicConstraints.
    pub is_authority: Option<bool>,
    /// pathLenConstraint, if it is there; 4294967295 if it is that or more.
    pub path_length: Option<u32>,
    /// keyUsage, if it is there.
    pub key_usage: Option<KeyUsage>,
    /// Whether policyMappings, policyConstraints or inhibitAnyPolicy is there.
    pub needs_policy_processing: bool,
    /// Whether id-pkix-ocsp-nocheck is there.
    pub no_check: bool,
    /// How many names subjectAltName has.
    pub alternative_names: usize,
    /// How many subtrees nameConstraints permits.
    pub permitted_subtrees: usize,
    /// How many subtrees nameConstraints excludes.
    pub excluded_subtrees: usize,
    /// How many purposes extKeyUsage has.
    pub purposes: usize,
    /// How many critical extensions are not recognised.
    pub unrecognised: usize,
}

impl Extensions {
    fn of(fields: &ExtensionFields) -> Extensions {
        Extensions {
            is_authority: fields.has_basic_constraints.then_some(fields.is_authority),
            path_length: fields.has_path_length.then_some(fields.path_length),
            key_usage: fields.has_key_usage.then_some(KeyUsage(fields.key_usage)),
            needs_policy_processing: fields.needs_policy_processing,
            no_check: fields.no_check,
            alternative_names: fields.alternative_names,
            permitted_subtrees: fields.permitted_subtrees,
            excluded_subtrees: fields.excluded_subtrees,
            purposes: fields.purposes,
            unrecognised: fields.unrecognised,
        }
    }
}

impl<'a> Certificate<'a> {
    /// The certificate that the octets are, or the first fault.
    pub fn read(octets: &'a [u8]) -> Result<Certificate<'a>, Error> {
        // As in `check`.
        let answer = unsafe { library::x509check_read_certificate(octets.as_ptr(), octets.len()) };
        match answer.fault {
            0 => Certificate::of(octets, answer.fields),
            number => Err(error_of(number, answer.der_fault, answer.offset, None)),
        }
    }

    /// The certificate of these fields, whose parts have to lie inside the octets.
    fn of(octets: &'a [u8], fields: Fields) -> Result<Certificate<'a>, Error> {
        let outside = fields
            .parts()
            .into_iter()
            .find(|part| part.of(octets).is_none());
        match outside {
            Some(part) => Err(Error::Unexpected("a part at the offset", part.offset)),
            None => Ok(Certificate { octets, fields }),
        }
    }

    fn part(&self, part: Part) -> &'a [u8] {
        part.of(self.octets)
            .expect("each part was looked at as the certificate was read")
    }

    /// The whole encoding of the certificate.
    pub fn octets(&self) -> &'a [u8] {
        self.octets
    }

    /// The version: 1 to 3.
    pub fn version(&self) -> u32 {
        self.fields.version
    }

    /// When it begins to hold, in seconds from 1970-01-01T00:00:00Z.
    pub fn not_before(&self) -> i64 {
        self.fields.not_before
    }

    /// When it holds for the last time, in seconds from 1970-01-01T00:00:00Z.
    pub fn not_after(&self) -> i64 {
        self.fields.not_after
    }

    /// The signed part: the whole encoding.
    pub fn tbs(&self) -> &'a [u8] {
        self.part(self.fields.tbs)
    }

    /// The serial number: the contents of the INTEGER, the highest octet first.
    pub fn serial(&self) -> &'a [u8] {
        self.part(self.fields.serial)
    }

    /// The algorithm identifier: the whole encoding.
    pub fn algorithm(&self) -> &'a [u8] {
        self.part(self.fields.algorithm)
    }

    /// The issuer: the whole encoding of the name.
    pub fn issuer(&self) -> &'a [u8] {
        self.part(self.fields.issuer)
    }

    /// The subject: the whole encoding of the name.
    pub fn subject(&self) -> &'a [u8] {
        self.part(self.fields.subject)
    }

    /// The subjectPublicKeyInfo: the whole encoding.
    pub fn subject_public_key_info(&self) -> &'a [u8] {
        self.part(self.fields.subject_public_key_info)
    }

    /// The octets of subjectPublicKey, without the count of unused bits.
    pub fn key(&self) -> &'a [u8] {
        self.part(self.fields.key)
    }

    /// The octets of the signature.
    pub fn signature(&self) -> &'a [u8] {
        self.part(self.fields.signature)
    }

    /// What the extensions say.
    pub fn extensions(&self) -> Extensions {
        Extensions::of(&self.fields.extensions)
    }

    /// The SHA-256 of the whole encoding, by which people and logs name the certificate.
    pub fn sha256(&self) -> [u8; 32] {
        sha256(self.octets)
    }

    /// Whom the certificate names, and by which numbers.
    pub fn identity(&self) -> Result<Identity, Error> {
        Identity::of(self)
    }

    /// The fingerprint of its signature, as one by the issuer's key.
    pub fn fingerprint_under(&self, issuer: &Certificate<'_>) -> [u8; 32] {
        fingerprint(
            self.algorithm(),
            issuer.subject_public_key_info(),
            self.tbs(),
            self.signature(),
        )
    }
}
