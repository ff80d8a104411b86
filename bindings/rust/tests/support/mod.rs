//! Certificates, lists and responses of a small authority, made here. Their signatures are none: a judge of the tests says what they are.
//! No test uses all of it.
#![allow(dead_code)]

use x509check::{sha256, Judgement, SignatureQuestion};

/// 2025-06-15T00:00:00Z, in the middle of all validities.
pub const MIDDLE: i64 = 1_749_945_600;
const BEGIN: &[u8] = b"20250101000000Z";
const END: &[u8] = b"20251231000000Z";

/// Contents of OBJECT IDENTIFIERs: id-kp-serverAuth, id-kp-clientAuth and id-kp-OCSPSigning.
pub const SERVER_AUTH: &[u8] = &[0x2B, 6, 1, 5, 5, 7, 3, 1];
pub const CLIENT_AUTH: &[u8] = &[0x2B, 6, 1, 5, 5, 7, 3, 2];
pub const OCSP_SIGNING: &[u8] = &[0x2B, 6, 1, 5, 5, 7, 3, 9];

/// The encoding of a value of DER.
pub fn value(identifier: u8, parts: &[&[u8]]) -> Vec<u8> {
    let contents = parts.concat();
    let digits = contents.len().to_be_bytes();
    let skipped = digits.iter().take_while(|digit| **digit == 0).count();
    let mut octets = vec![identifier];
    if contents.len() >= 0x80 {
        octets.push(0x80 | (digits.len() - skipped) as u8);
    }
    octets.extend_from_slice(&digits[skipped.min(digits.len() - 1)..]);
    octets.extend_from_slice(&contents);
    octets
}

fn sequence(parts: &[&[u8]]) -> Vec<u8> {
    value(0x30, parts)
}

fn algorithm() -> Vec<u8> {
    sequence(&[&value(0x06, &[&[0x2A, 3]])])
}

fn name(text: &str) -> Vec<u8> {
    let attribute = sequence(&[&[0x06, 3, 0x55, 4, 3], &value(0x0C, &[text.as_bytes()])]);
    sequence(&[&value(0x31, &[&attribute])])
}

fn key(text: &str) -> Vec<u8> {
    sequence(&[&algorithm(), &value(0x03, &[&[0], text.as_bytes()])])
}

fn time(text: &[u8]) -> Vec<u8> {
    value(0x18, &[text])
}

/// What is signed, with a signature that is as good as another.
fn signed(part: &[u8], behind: &[u8]) -> Vec<u8> {
    sequence(&[part, &algorithm(), &[0x03, 2, 0, 0], behind])
}

/// An extension: the contents of its identifier and its value.
pub fn extension(kind: &[u8], is_critical: bool, octets: &[u8]) -> Vec<u8> {
    let critical: &[u8] = if is_critical { &[1, 1, 0xFF] } else { &[] };
    sequence(&[&value(0x06, &[kind]), critical, &value(0x04, &[octets])])
}

/// basicConstraints of an authority.
pub fn authority() -> Vec<u8> {
    extension(&[0x55, 0x1D, 19], true, &sequence(&[&[1, 1, 0xFF]]))
}

/// extKeyUsage.
pub fn purpose(contents: &[u8]) -> Vec<u8> {
    extension(
        &[0x55, 0x1D, 37],
        false,
        &sequence(&[&value(0x06, &[contents])]),
    )
}

/// keyUsage with this one bit, of the first seven.
pub fn usage(bit: u32) -> Vec<u8> {
    let unused = 7 - bit;
    extension(
        &[0x55, 0x1D, 15],
        true,
        &[0x03, 2, unused as u8, 1 << unused],
    )
}

/// What a delegate has (RFC 6960, 4.2.2.2): id-kp-OCSPSigning, and id-pkix-ocsp-nocheck.
pub fn delegate() -> [Vec<u8>; 2] {
    let no_check = extension(&[0x2B, 6, 1, 5, 5, 7, 0x30, 1, 5], false, &[5, 0]);
    [purpose(OCSP_SIGNING), no_check]
}

/// A certificate about the key `of`, which has the subject's name unless it is another.
pub fn certificate_of(
    of: &str,
    subject: &str,
    issuer: &str,
    serial: u8,
    extensions: &[Vec<u8>],
) -> Vec<u8> {
    let extensions = match extensions {
        [] => Vec::new(),
        _ => value(0xA3, &[&sequence(&[&extensions.concat()])]),
    };
    let version: &[u8] = &[0xA0, 3, 2, 1, 2];
    let validity = sequence(&[&time(BEGIN), &time(END)]);
    let part = sequence(&[
        version,
        &[2, 1, serial],
        &algorithm(),
        &name(issuer),
        &validity,
        &name(subject),
        &key(of),
        &extensions,
    ]);
    signed(&part, &[])
}

pub fn certificate(subject: &str, issuer: &str, serial: u8, extensions: &[Vec<u8>]) -> Vec<u8> {
    certificate_of(subject, subject, issuer, serial, extensions)
}

/// A list of the issuer with this number, which revokes these.
pub fn list(issuer: &str, number: u8, revoked: &[u8]) -> Vec<u8> {
    let entry = |serial: &u8| sequence(&[&[2, 1, *serial], &time(BEGIN)]);
    let entries = match revoked {
        [] => Vec::new(),
        _ => sequence(&[&revoked.iter().flat_map(entry).collect::<Vec<u8>>()]),
    };
    let number = extension(&[0x55, 0x1D, 20], false, &[2, 1, number]);
    let part = sequence(&[
        &[2, 1, 1],
        &algorithm(),
        &name(issuer),
        &time(BEGIN),
        &time(END),
        &entries,
        &value(0xA0, &[&sequence(&[&number])]),
    ]);
    signed(&part, &[])
}

/// What is said of a certificate in a response, from a month on: its issuer, its serial number, and whether it is revoked.
pub struct Single<'a> {
    pub issuer: &'a str,
    pub serial: u8,
    pub month: u8,
    pub is_revoked: bool,
}

/// A response of the responder, with these certificates. Its hashes are by SHA-256, which the wide profile takes.
pub fn response(responder: &str, singles: &[Single<'_>], certificates: &[&[u8]]) -> Vec<u8> {
    let singles: Vec<u8> = singles.iter().flat_map(single).collect();
    let part = sequence(&[
        &value(0xA1, &[&name(responder)]),
        &time(BEGIN),
        &sequence(&[&singles]),
    ]);
    let behind = match certificates {
        [] => Vec::new(),
        _ => value(0xA0, &[&sequence(certificates)]),
    };
    let basic = value(0x04, &[&signed(&part, &behind)]);
    let kind = value(0x06, &[&[0x2B, 6, 1, 5, 5, 7, 0x30, 1, 1]]);
    sequence(&[&[0x0A, 1, 0], &value(0xA0, &[&sequence(&[&kind, &basic])])])
}

fn single(single: &Single<'_>) -> Vec<u8> {
    let by_sha256 = sequence(&[&value(0x06, &[&[0x60, 0x86, 0x48, 1, 0x65, 3, 4, 2, 1]])]);
    let id = sequence(&[
        &by_sha256,
        &value(0x04, &[&sha256(&name(single.issuer))]),
        &value(0x04, &[&sha256(single.issuer.as_bytes())]),
        &[2, 1, single.serial],
    ]);
    let status = match single.is_revoked {
        true => value(0xA1, &[&time(BEGIN)]),
        false => vec![0x80, 0],
    };
    let from = format!("2025{:02}01000000Z", single.month);
    let until = value(0xA0, &[&time(END)]);
    sequence(&[&id, &status, &time(from.as_bytes()), &until])
}

/// The judge that says this of the signatures of what contains these octets, and that all others are good.
pub fn except<'a>(
    octets: &'a [u8],
    said: Judgement,
) -> impl Fn(&SignatureQuestion<'_>) -> Judgement + 'a {
    move |question| match contains(octets, question.message) {
        true => said,
        false => Judgement::Good,
    }
}

/// Whether the part lies in the octets.
pub fn contains(octets: &[u8], part: &[u8]) -> bool {
    octets.windows(part.len()).any(|window| window == part)
}

pub fn slices(values: &[Vec<u8>]) -> Vec<&[u8]> {
    values.iter().map(Vec::as_slice).collect()
}
