//! Answers to queries: a verdict, and whom it is about.

use std::error;
use std::fmt;

use crate::fault::{Error, Fault};
use crate::identity::Identity;
use crate::judge::Judgement;
use crate::policies::Policies;
use crate::verdict::Verdict;

/// The answer to a query: the verdict on the path, and whom it is about.
#[derive(Clone, Debug, PartialEq, Eq)]
#[non_exhaustive]
#[must_use = "a path may be believed only if the verdict on it is Valid"]
pub struct Answer {
    /// The verdict on the path.
    pub verdict: Verdict,
    /// Whom the last certificate of the path names. There is nobody if the path is empty or has more than 128 certificates.
    pub target: Option<Identity>,
    /// Whom the certificate names that decides: it breaks a condition, is revoked, or no statement speaks of it. There is nobody if the path
    /// is valid, or if the path itself decides.
    pub decides: Option<Identity>,
    /// What the judge said of the signature of that certificate, if the path is invalid because of it.
    pub signature: Option<Judgement>,
    /// The policies at the end of the path. There are none if the path is invalid, and none unless they were asked for, by
    /// [`QueryWithPolicies`](crate::QueryWithPolicies).
    pub policies: Option<Policies>,
    /// The statements that were left out, each with its fault: none unless the query was to be answered without them. Beside those that
    /// cannot be read these are the ones that may be by an issuer of the path and that nobody could judge: a list with the fault 54
    /// (BadSignature), a response with 57 (NoSigner). If the path is invalid, nobody looked at these.
    pub ignored: Vec<Fault>,
}

/// Why a query that has to be answered by valid is not.
#[derive(Clone, Debug, PartialEq, Eq)]
pub enum NotValid {
    /// The verdict is another.
    Answer(Box<Answer>),
    /// There is no verdict.
    Error(Error),
}

impl Answer {
    /// The answer if the path is valid, and else an error that carries it.
    pub fn require_valid(self) -> Result<Answer, NotValid> {
        match self.verdict {
            Verdict::Valid => Ok(self),
            _ => Err(NotValid::Answer(Box::new(self))),
        }
    }
}

/// On one line: the verdict, and behind a `; ` each whom it is about, the policies and what was left out. No name has a `;`.
impl fmt::Display for Answer {
    fn fmt(&self, out: &mut fmt::Formatter<'_>) -> fmt::Result {
        self.verdict.fmt(out)?;
        if let Some(judgement) = self.signature {
            write!(out, "; signature {judgement}")?;
        }
        if let Some(target) = &self.target {
            write!(out, "; target {target}")?;
        }
        if let Some(decides) = &self.decides {
            write!(out, "; decided by {decides}")?;
        }
        if let Some(policies) = &self.policies {
            write!(out, "; policies {policies}")?;
        }
        self.ignored
            .iter()
            .try_for_each(|fault| write!(out, "; left out {fault}"))
    }
}

impl fmt::Display for NotValid {
    fn fmt(&self, out: &mut fmt::Formatter<'_>) -> fmt::Result {
        match self {
            NotValid::Answer(answer) => answer.fmt(out),
            NotValid::Error(error) => error.fmt(out),
        }
    }
}

impl error::Error for NotValid {
    fn source(&self) -> Option<&(dyn error::Error + 'static)> {
        match self {
            NotValid::Answer(_) => None,
            NotValid::Error(error) => Some(error),
        }
    }
}

impl From<Error> for NotValid {
    fn from(error: Error) -> NotValid {
        NotValid::Error(error)
    }
}
