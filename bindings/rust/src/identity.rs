//! Whom a certificate names.

use std::fmt;

use crate::certificate::Certificate;
use crate::fault::Error;
use crate::name::text_of;

/// Whom a certificate names, and by which numbers it is known. None of this was judged: what to believe of it says the verdict.
#[derive(Clone, Debug, PartialEq, Eq)]
#[non_exhaustive]
pub struct Identity {
    /// The subject: the whole encoding of the name.
    pub subject: Vec<u8>,
    /// The subject as one line of printable ASCII (RFC 4514), empty if the name is. All other octets are escaped by `\` and two digits, as
    /// are `, + ; = # " < > \` where they belong to a value.
    pub name: String,
    /// The contents of the INTEGER, the highest octet first.
    pub serial: Vec<u8>,
    /// The SHA-256 of the certificate, as `openssl x509 -fingerprint -sha256` prints it.
    pub sha256: [u8; 32],
}

impl Identity {
    pub(crate) fn of(certificate: &Certificate<'_>) -> Result<Identity, Error> {
        let subject = certificate.subject();
        Ok(Identity {
            subject: subject.to_vec(),
            name: text_of(subject).ok_or(Error::Unexpected("a name of length", subject.len()))?,
            serial: certificate.serial().to_vec(),
            sha256: certificate.sha256(),
        })
    }
}

fn print_hex(out: &mut fmt::Formatter<'_>, octets: &[u8]) -> fmt::Result {
    octets
        .iter()
        .try_for_each(|octet| write!(out, "{octet:02x}"))
}

/// On one line. The name ends it, and has no `;`, so what follows a `;` is not of the certificate.
impl fmt::Display for Identity {
    fn fmt(&self, out: &mut fmt::Formatter<'_>) -> fmt::Result {
        out.write_str("serial ")?;
        print_hex(out, &self.serial)?;
        out.write_str(" sha256 ")?;
        print_hex(out, &self.sha256)?;
        match &self.name[..] {
            "" => out.write_str(" subject (empty)"),
            name => write!(out, " subject {name}"),
        }
    }
}
