//! Why octets are refused.

use std::error;
use std::fmt;

use crate::judge::Judgement;
use crate::library::{x509check_fault_name, NAME_ROOM};

/// The number of want of memory.
const MEMORY: u32 = 33;

/// Which octets of a query or of a search are refused.
#[derive(Clone, Copy, Debug, PartialEq, Eq)]
pub enum Text {
    /// Of a query the anchor, which has the index 0, and the path behind it; of a search what the peer sent.
    Certificates,
    /// The lists and responses.
    Statements,
    /// The anchors of a search.
    Anchors,
}

/// The first fault of octets, and where it is.
#[derive(Clone, Copy, Debug, PartialEq, Eq)]
pub struct Fault {
    /// As docs/REFERENCE.md has it.
    pub number: u32,
    /// If the octets are no DER, the number of the rule that is broken.
    pub der: Option<u32>,
    /// Counts from the first octet of the value that is refused.
    pub offset: usize,
    /// Of a query or a search: what is refused, and which of them, from 0 on.
    pub value: Option<(Text, usize)>,
}

/// Why there is no answer. None of these is a verdict.
#[derive(Clone, Copy, Debug, PartialEq, Eq)]
#[non_exhaustive]
pub enum Error {
    /// Octets that cannot be read.
    Refused(Fault),
    /// The library was refused memory.
    Memory,
    /// The purpose is not the contents of an OBJECT IDENTIFIER; so are no octets. Whoever asks for no purpose says `None`.
    Purpose,
    /// The judge could not tell whether a signature is good ([`Judgement::CouldNotTell`]).
    CouldNotTell {
        /// That of the signature.
        fingerprint: [u8; 32],
    },
    /// The path is valid by the other statements, but nobody could judge the signature of this one, which may be by an issuer of the path: it
    /// may be the one that revokes.
    Unjudged {
        /// Which of the statements, from 0 on.
        statement: usize,
        /// What the judge said of its signature, or of that of its delegate's certificate.
        judgement: Judgement,
    },
    /// The path is valid by the order of the statements, of which the first with a number, or with a time, counts. But its issuer signed
    /// another one with that number or time, which contradicts it and revokes a certificate of the path.
    Contradicted {
        /// Which of the statements, from 0 on: the first of that issuer that revokes the certificate by itself.
        statement: usize,
    },
    /// The library answered a number that this crate has no meaning for: what it is, and the number. The library is of another version.
    Unexpected(&'static str, usize),
}

/// The name that the library has for a fault, or for a rule of DER.
fn name_of(number: u32) -> String {
    let mut name = [0u8; NAME_ROOM];
    // The call writes no more than the room that the array has.
    let length = unsafe { x509check_fault_name(number, name.as_mut_ptr().cast(), name.len()) };
    match name.get(..length) {
        None | Some([]) => "Unnamed".into(),
        Some(name) => String::from_utf8_lossy(name).into_owned(),
    }
}

impl Fault {
    /// The name that stands beside the number.
    pub fn name(&self) -> String {
        name_of(self.number)
    }
}

impl fmt::Display for Fault {
    fn fmt(&self, out: &mut fmt::Formatter<'_>) -> fmt::Result {
        match self.value {
            Some((Text::Certificates, index)) => write!(out, "certificates[{index}]: ")?,
            Some((Text::Statements, index)) => write!(out, "statements[{index}]: ")?,
            Some((Text::Anchors, index)) => write!(out, "anchors[{index}]: ")?,
            None => {}
        }
        write!(out, "{} {}", self.number, self.name())?;
        if let Some(der) = self.der {
            write!(out, " ({der} {})", name_of(der))?;
        }
        write!(out, " at {}", self.offset)
    }
}

impl fmt::Display for Error {
    fn fmt(&self, out: &mut fmt::Formatter<'_>) -> fmt::Result {
        match self {
            Error::Refused(fault) => fault.fmt(out),
            Error::Memory => out.write_str("no memory"),
            Error::Purpose => {
                out.write_str("the purpose is not the contents of an object identifier")
            }
            Error::CouldNotTell { fingerprint } => {
                out.write_str("the judge could not tell whether the signature is good: ")?;
                fingerprint
                    .iter()
                    .try_for_each(|octet| write!(out, "{octet:02x}"))
            }
            Error::Unjudged {
                statement,
                judgement,
            } => write!(
                out,
                "statements[{statement}]: nobody could judge its signature ({judgement}), and it may revoke"
            ),
            Error::Contradicted { statement } => write!(
                out,
                "statements[{statement}]: it revokes, and contradicts another one of its issuer"
            ),
            Error::Unexpected(what, number) => write!(
                out,
                "the library answered {what} {number}, of which this crate knows nothing"
            ),
        }
    }
}

impl error::Error for Fault {}

impl error::Error for Error {}

/// The error of these numbers.
pub(crate) fn error_of(
    number: u32,
    der: u32,
    offset: usize,
    value: Option<(Text, usize)>,
) -> Error {
    if number == MEMORY {
        return Error::Memory;
    }
    let der = if der == 0 { None } else { Some(der) };
    Error::Refused(Fault {
        number,
        der,
        offset,
        value,
    })
}
