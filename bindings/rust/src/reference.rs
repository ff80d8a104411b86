//! Whom a certificate speaks for (RFC 9525; RFC 5280, 7.5).

use std::error;
use std::fmt;
use std::net::IpAddr;

use crate::certificate::Certificate;
use crate::fault::{error_of, Error};
use crate::library;

/// Whom a relying party means to speak to.
#[derive(Clone, Copy, Debug, PartialEq, Eq)]
#[non_exhaustive]
pub enum Reference<'a> {
    /// A host by its DNS name, in A-labels. A dot at its end is dropped.
    Host(&'a str),
    /// An IP address.
    Address(IpAddr),
    /// A mailbox, `local@host`.
    Mailbox(&'a str),
}

/// Why a text is no host or mailbox.
#[derive(Clone, Copy, Debug, PartialEq, Eq)]
#[non_exhaustive]
pub enum ReferenceRule {
    /// An octet other than a letter, a digit, `-`, `_` and `.`.
    HostOctet,
    /// A label that is empty or longer than 63 octets.
    Label,
    /// A host of more than 253 octets.
    Length,
    /// A host whose last label is a number.
    Number,
    /// A local part that is empty, or has a character that no local part may have.
    LocalPart,
    /// A mailbox with no `@` and no host behind it.
    NoHost,
}

/// Why nobody can say whether a certificate speaks for a reference.
#[derive(Clone, Copy, Debug, PartialEq, Eq)]
#[non_exhaustive]
pub enum SpeakingError {
    /// The reference breaks the rule, at the octet with this offset.
    Reference(ReferenceRule, usize),
    /// The library gives no answer.
    Library(Error),
}

impl fmt::Display for SpeakingError {
    fn fmt(&self, out: &mut fmt::Formatter<'_>) -> fmt::Result {
        match self {
            SpeakingError::Reference(rule, at) => {
                write!(out, "no reference identity: {rule:?} at {at}")
            }
            SpeakingError::Library(error) => error.fmt(out),
        }
    }
}

impl error::Error for SpeakingError {}

/// Calls with the kind of a reference and its octets (x509check.h).
fn with_octets<T>(reference: Reference<'_>, call: impl FnOnce(u32, &[u8]) -> T) -> T {
    match reference {
        Reference::Host(host) => call(1, host.as_bytes()),
        Reference::Address(IpAddr::V4(address)) => call(2, &address.octets()),
        Reference::Address(IpAddr::V6(address)) => call(2, &address.octets()),
        Reference::Mailbox(mailbox) => call(3, mailbox.as_bytes()),
    }
}

fn refused(number: u32, at: usize) -> SpeakingError {
    let rule = match number {
        1 => ReferenceRule::HostOctet,
        2 => ReferenceRule::Label,
        3 => ReferenceRule::Length,
        4 => ReferenceRule::Number,
        6 => ReferenceRule::LocalPart,
        7 => ReferenceRule::NoHost,
        _ => return unexpected("a rule of identities", number),
    };
    SpeakingError::Reference(rule, at)
}

fn unexpected(what: &'static str, number: u32) -> SpeakingError {
    SpeakingError::Library(Error::Unexpected(what, number as usize))
}

impl Certificate<'_> {
    /// Whether a name of its subjectAltName matches the reference (RFC 9525; RFC 5280, 7.5). A wildcard is the whole first label of a
    /// dNSName, and stands for one label. Common names are not looked at, and public suffixes are not known: `*.com` matches
    /// `example.com`. Whether the certificate can be trusted is not asked here.
    pub fn speaks_for(&self, reference: Reference<'_>) -> Result<bool, SpeakingError> {
        let certificate = self.octets();
        let answer = with_octets(reference, |kind, identity| {
            // The pointers and lengths are those of two slices, which the call only reads.
            unsafe {
                library::x509check_speaks_for(
                    certificate.as_ptr(),
                    certificate.len(),
                    kind,
                    identity.as_ptr(),
                    identity.len(),
                )
            }
        });
        match answer.speaks {
            1 => Ok(true),
            2 => Ok(false),
            3 => Err(refused(answer.fault, answer.offset)),
            4 => Err(SpeakingError::Library(error_of(
                answer.fault,
                answer.der_fault,
                answer.offset,
                None,
            ))),
            number => Err(unexpected("an answer of x509check_speaks_for", number)),
        }
    }
}
