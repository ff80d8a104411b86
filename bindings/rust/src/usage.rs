//! For which purposes a key may be used (RFC 5280, 4.2.1.12).

use crate::certificate::{Certificate, KeyUsage};
use crate::fault::Error;

/// Bits of keyUsage (RFC 5280, 4.2.1.3).
const DIGITAL_SIGNATURE: u32 = 1 << 0;
const NON_REPUDIATION: u32 = 1 << 1;
const KEY_ENCIPHERMENT: u32 = 1 << 2;
const KEY_AGREEMENT: u32 = 1 << 4;

/// id-kp: the arc above the purposes.
const KP: [u8; 7] = [0x2B, 6, 1, 5, 5, 7, 3];

/// The bits of keyUsage that are consistent with a purpose; of a purpose that is not listed nobody knows.
fn bits_for(purpose: &[u8]) -> Option<u32> {
    match purpose.strip_prefix(&KP)? {
        // serverAuth
        [1] => Some(DIGITAL_SIGNATURE | KEY_ENCIPHERMENT | KEY_AGREEMENT),
        // clientAuth
        [2] => Some(DIGITAL_SIGNATURE | KEY_AGREEMENT),
        // codeSigning
        [3] => Some(DIGITAL_SIGNATURE),
        // emailProtection
        [4] => Some(DIGITAL_SIGNATURE | NON_REPUDIATION | KEY_ENCIPHERMENT | KEY_AGREEMENT),
        // timeStamping and OCSPSigning
        [8 | 9] => Some(DIGITAL_SIGNATURE | NON_REPUDIATION),
        _ => None,
    }
}

/// Whether a certificate may be used for the purpose, by its keyUsage: it has none, or one of the bits that are consistent with it.
pub(crate) fn allows(certificate: &[u8], purpose: Option<&[u8]>) -> Result<bool, Error> {
    let Some(bits) = purpose.and_then(bits_for) else {
        return Ok(true);
    };
    let usage = Certificate::read(certificate)?.extensions().key_usage;
    Ok(usage.map_or(true, |KeyUsage(usage)| usage & bits != 0))
}

#[cfg(test)]
mod tests {
    use super::*;
    use crate::identifier::ObjectIdentifier;

    /// RFC 5280, 4.2.1.12, purpose by purpose.
    #[test]
    fn bits_for_each_purpose() {
        let bits = |text: &str| bits_for(text.parse::<ObjectIdentifier>().unwrap().contents());
        for (purpose, expected) in [
            ("1.3.6.1.5.5.7.3.1", Some(0b10101)),
            ("1.3.6.1.5.5.7.3.2", Some(0b10001)),
            ("1.3.6.1.5.5.7.3.3", Some(0b00001)),
            ("1.3.6.1.5.5.7.3.4", Some(0b10111)),
            ("1.3.6.1.5.5.7.3.8", Some(0b00011)),
            ("1.3.6.1.5.5.7.3.9", Some(0b00011)),
            ("1.3.6.1.5.5.7.3.5", None),
            ("1.3.6.1.5.5.7.3", None),
            ("1.3.6.1.5.5.7.3.1.1", None),
            ("2.5.29.37.0", None),
        ] {
            assert_eq!(bits(purpose), expected, "{purpose}");
        }
    }
}
