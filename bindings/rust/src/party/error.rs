//! Why a party gives no answer.

use std::error;
use std::fmt;
use std::time::Duration;

use crate::fault::Error;
use crate::judge::Judgement;
use crate::party::Delivery;
use crate::reference::SpeakingError;

/// Why a party gives no answer. None of these is a verdict.
#[derive(Clone, Debug, PartialEq, Eq)]
#[non_exhaustive]
pub enum PartyError {
    /// The program cannot be started, or nobody listens on the socket; or it ended as soon as it was asked something: what the system says.
    CannotStart(String),
    /// The process ended before it answered, and so did the one that was started in its place: how the last one ended.
    Died(String),
    /// What came is no answer to the request: the request's first word and what came, cut and escaped. That process was ended.
    Garbled(String),
    /// The program refused the request, by a status and a text of docs/REFERENCE.md, "session". What was asked about stands in the text by
    /// its name in this crate: `issuer`, `statement`, `anchors`, `certificates`, ..
    Refused {
        /// 4, 5 or 6.
        status: u8,
        /// What the program says against it.
        text: String,
    },
    /// The program refused the statement, but nobody could judge its signature, so that it may be by the issuer. What it says is lost, and
    /// it may be what revokes.
    Unjudged {
        /// What the program says against it.
        text: String,
        /// What the judge said of its signature, or of that of its delegate's certificate.
        judgement: Judgement,
    },
    /// The statement says something else than what the store holds under the same number or time, which stays: the issuer signed both. If
    /// this is the one that revokes, no verdict shows it. The counts say what was taken all the same.
    Contradicted(Box<Delivery>),
    /// The party belongs to the process that made it, and this one was forked from that.
    Forked,
    /// No answer came within so much time. A delivery may have been taken all the same.
    TimedOut(Duration),
    /// A certificate or a statement cannot be read, the purpose is none, or the judge could not tell.
    Input(Error),
    /// The name that is asked for is none, or nobody can say whether the certificate speaks for it.
    Speaking(SpeakingError),
    /// No request says what is asked: why.
    Request(&'static str),
    /// A statement is too long for a request, and the file in which it is handed over cannot be written: what the system says.
    File(String),
}

impl From<Error> for PartyError {
    fn from(error: Error) -> PartyError {
        PartyError::Input(error)
    }
}

impl fmt::Display for PartyError {
    fn fmt(&self, out: &mut fmt::Formatter<'_>) -> fmt::Result {
        match self {
            PartyError::CannotStart(why) => write!(out, "the party cannot be started: {why}"),
            PartyError::Died(how) => write!(
                out,
                "the party ended before it answered, also a second time: {how}"
            ),
            PartyError::Garbled(what) => write!(out, "no answer to the request: {what}"),
            PartyError::Refused { status, text } => write!(out, "{status} {text}"),
            PartyError::Unjudged { text, judgement } => {
                write!(out, "{text}; signature {judgement}")
            }
            PartyError::Contradicted(delivery) => {
                write!(out, "contradicts what the store holds: {delivery}")
            }
            PartyError::Forked => {
                out.write_str("the party belongs to the process that this one was forked from")
            }
            PartyError::TimedOut(limit) => write!(out, "no answer within {} ms", limit.as_millis()),
            PartyError::Input(error) => error.fmt(out),
            PartyError::Speaking(error) => error.fmt(out),
            PartyError::Request(why) => out.write_str(why),
            PartyError::File(why) => write!(out, "the statement cannot be handed over: {why}"),
        }
    }
}

impl error::Error for PartyError {
    fn source(&self) -> Option<&(dyn error::Error + 'static)> {
        match self {
            PartyError::Input(error) => Some(error),
            PartyError::Speaking(error) => Some(error),
            _ => None,
        }
    }
}
