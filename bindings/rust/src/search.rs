//! From what a peer sends to a verdict: paths found among certificates in any order (RFC 4158), and names matched (RFC 9525).

use std::error;
use std::fmt;

use crate::calls::{diagnose, find, SearchCall};
use crate::certificate::Certificate;
use crate::fault::{Error, Fault, Text};
use crate::identity::Identity;
use crate::judge::{Heard, Judge, SignatureQuestions};
use crate::library::{FindingAnswer, GAVE_UP, NOT_FOUND};
use crate::pairs::are_within_limits;
use crate::query::{check_purpose, read_in, Profile, Query, Readable};
use crate::reference::{Reference, SpeakingError};
use crate::standing::{Grounds, Standings};
use crate::usage;
use crate::values::Values;
use crate::verdict::{Reason, Verdict};
use crate::why_not::WhyNot;

/// What a search may spend. It gives up if one of these is used up; paths that servers send take a small part of it.
#[derive(Clone, Copy, Debug, PartialEq, Eq)]
pub struct Limits {
    /// How many different questions a judge may be asked, about certificates and about statements. If there are more, it is asked none; and
    /// if there are more pairs of certificates of which one has the name of the other's issuer, the questions are not even made.
    pub signatures: usize,
    /// How many ends of paths may be looked at; each takes up to a kilobyte of memory.
    pub steps: usize,
    /// How many valid paths may be asked about.
    pub verdicts: usize,
}

impl Default for Limits {
    fn default() -> Limits {
        Limits {
            signatures: 1_000,
            steps: 10_000,
            verdicts: 32,
        }
    }
}

/// Certificates that come in any order, and what is asked about one of them.
#[derive(Clone, Copy, Debug)]
pub struct Search<'a> {
    /// The anchors, of which the names and the keys alone are used, each the DER of a certificate.
    pub anchors: &'a [&'a [u8]],
    /// What the peer sent, each in DER: the certificate in question first, as TLS sends it, and then others in any order, which may stand
    /// between it and an anchor or may not. None is [`SearchError::NoTarget`].
    pub certificates: &'a [&'a [u8]],
    /// Lists (CRLs) and OCSP responses in DER, in any order.
    pub statements: &'a [&'a [u8]],
    /// In seconds from 1970-01-01T00:00:00Z.
    pub moment: i64,
    /// The contents of an OBJECT IDENTIFIER, if a purpose is asked for.
    pub purpose: Option<&'a [u8]>,
    /// Whom the certificate has to speak for, if that is asked.
    pub name: Option<Reference<'a>>,
    /// What the search may spend.
    pub limits: Limits,
    /// In which certificates and statements are read. Anchors are read alike in both.
    pub profile: Profile,
}

/// What a search finds.
#[derive(Clone, Copy, Debug, PartialEq, Eq)]
#[must_use = "a certificate may be believed only if a path to it is found whose verdict is Valid"]
pub enum Finding {
    /// The first path whose verdict is `Valid`; if there is none, the first that meets the conditions of RFC 5280, 6.1, with its verdict.
    /// Its certificates are numbered from 1 on.
    Found(Verdict),
    /// A path whose verdict is `Valid`, to a certificate that does not speak for the name that was asked for.
    OtherName,
    /// No path meets the conditions, or the keyUsage of the certificate in question is not consistent with the purpose (RFC 5280,
    /// 4.2.1.12).
    NotFound,
    /// A limit is used up.
    GaveUp,
}

impl Finding {
    /// The verdict on the path, if one is found.
    fn on_path(self) -> Option<Verdict> {
        match self {
            Finding::Found(verdict) => Some(verdict),
            Finding::OtherName => Some(Verdict::Valid),
            Finding::NotFound | Finding::GaveUp => None,
        }
    }
}

/// As the program prints it.
impl fmt::Display for Finding {
    fn fmt(&self, out: &mut fmt::Formatter<'_>) -> fmt::Result {
        match self {
            Finding::Found(verdict) => verdict.fmt(out),
            Finding::OtherName => out.write_str("other name"),
            Finding::NotFound => out.write_str("not found"),
            Finding::GaveUp => out.write_str("gave up"),
        }
    }
}

/// What a search finds, and whom it is about.
#[derive(Clone, Debug, PartialEq, Eq)]
#[non_exhaustive]
#[must_use = "a certificate may be believed only if a path to it is found whose verdict is Valid"]
pub struct Peer {
    /// What is found.
    pub finding: Finding,
    /// Whom the certificates of the path name, from the anchor on to the one in question; none if no path is found.
    pub path: Vec<Identity>,
    /// Whom the certificate in question names.
    pub target: Identity,
    /// Why no path meets the conditions, if none is found for that.
    pub why_not: Option<WhyNot>,
    /// What was left out, each with its fault: nothing unless that was asked for. Beside what cannot be read these are the statements that
    /// may be by an issuer of the path that is found, and that nobody could judge: a list with the fault 54 (BadSignature), a response with
    /// 57 (NoSigner).
    pub ignored: Vec<Fault>,
}

/// Why a search that has to find a valid path does not.
#[derive(Clone, Debug, PartialEq, Eq)]
pub enum NotBelieved {
    /// Something else is found.
    Peer(Box<Peer>),
    /// Nothing is found, since nothing could be asked.
    Error(SearchError),
}

/// Why there is no finding. None of these is one.
#[derive(Clone, Copy, Debug, PartialEq, Eq)]
#[non_exhaustive]
pub enum SearchError {
    /// There is no certificate in question.
    NoTarget,
    /// There are more pairs of certificates of which one has the name of the other's issuer than [`Limits::signatures`] lets, or more
    /// statements beside them than this crate asks about. ([`Search::find`] answers [`Finding::GaveUp`] then.)
    TooManyQuestions,
    /// The name that is asked for is none, or the library gives no answer.
    Speaking(SpeakingError),
}

impl From<Error> for SearchError {
    fn from(error: Error) -> SearchError {
        SearchError::Speaking(SpeakingError::Library(error))
    }
}

impl fmt::Display for SearchError {
    fn fmt(&self, out: &mut fmt::Formatter<'_>) -> fmt::Result {
        match self {
            SearchError::NoTarget => out.write_str("no certificate is in question"),
            SearchError::TooManyQuestions => out.write_str("there are too many questions"),
            SearchError::Speaking(error) => error.fmt(out),
        }
    }
}

impl error::Error for SearchError {}

impl fmt::Display for NotBelieved {
    fn fmt(&self, out: &mut fmt::Formatter<'_>) -> fmt::Result {
        match self {
            NotBelieved::Peer(peer) => peer.fmt(out),
            NotBelieved::Error(error) => error.fmt(out),
        }
    }
}

impl error::Error for NotBelieved {}

impl From<SearchError> for NotBelieved {
    fn from(error: SearchError) -> NotBelieved {
        NotBelieved::Error(error)
    }
}

/// On one line: what is found, and behind a `; ` each whom it is about, why no path is found, and what was left out.
impl fmt::Display for Peer {
    fn fmt(&self, out: &mut fmt::Formatter<'_>) -> fmt::Result {
        write!(out, "{}; target {}", self.finding, self.target)?;
        if let Some(decides) = self.decides() {
            write!(out, "; decided by {decides}")?;
        }
        if let Some(why_not) = &self.why_not {
            write!(out, "; {why_not}")?;
        }
        self.ignored
            .iter()
            .try_for_each(|fault| write!(out, "; left out {fault}"))
    }
}

impl Peer {
    /// What is said of a certificate to which no path is found.
    pub(crate) fn without_path(finding: Finding, target: &[u8]) -> Result<Peer, Error> {
        Ok(Peer {
            finding,
            path: Vec::new(),
            target: Certificate::read(target)?.identity()?,
            why_not: None,
            ignored: Vec::new(),
        })
    }

    /// Whom the certificate names that decides, if the verdict is of one.
    pub fn decides(&self) -> Option<&Identity> {
        match self.finding {
            Finding::Found(verdict) => self.path.get(verdict.certificate()?),
            _ => None,
        }
    }

    /// This if a valid path is found, and else an error that carries it.
    pub fn require_valid(self) -> Result<Peer, NotBelieved> {
        match self.finding {
            Finding::Found(Verdict::Valid) => Ok(self),
            _ => Err(NotBelieved::Peer(Box::new(self))),
        }
    }
}

impl<'a> Search<'a> {
    /// What a judge may be asked, at whatever moment and for whatever purpose: about certificates whose names match, and about each
    /// statement under those that may have issued it.
    pub fn signature_questions(&self) -> Result<SignatureQuestions<'a>, SearchError> {
        let target = self.target()?;
        if !are_within_limits(self, target) {
            return Err(SearchError::TooManyQuestions);
        }
        Ok(SignatureQuestions::among(
            self.values(target),
            &self.call(target),
        )?)
    }

    /// The same, and none if there are more than the limits let.
    pub(crate) fn questions_within_limits(
        &self,
    ) -> Result<Option<SignatureQuestions<'a>>, SearchError> {
        match self.signature_questions() {
            Ok(questions) if questions.different() > self.limits.signatures => Ok(None),
            Ok(questions) => Ok(Some(questions)),
            Err(SearchError::TooManyQuestions) => Ok(None),
            Err(error) => Err(error),
        }
    }

    /// What is found by who believes the judge, or the first fault of a certificate or a statement that cannot be read.
    ///
    /// The judge is asked about each signature at most once.
    ///
    /// Instead of a path whose verdict is `Valid` the answer is an error if a statement that may be by an issuer of that path was judged by
    /// nobody ([`Error::Unjudged`]), or if an issuer of it signed two that contradict each other, one of which revokes a certificate of the
    /// path ([`Error::Contradicted`]; [`Query::answer`] says what that costs).
    pub fn find(&self, judge: &dyn Judge) -> Result<Peer, SearchError> {
        self.find_by(judge, false)
    }

    /// As [`find`](Search::find), but what cannot be read is left out, statements and certificates behind the first; so is a statement that
    /// nobody could judge. The answer names it among the `ignored`.
    ///
    /// What such a statement would have said is lost: an older one may speak in its place; and a path may not be found.
    pub fn find_by_readable(&self, judge: &dyn Judge) -> Result<Peer, SearchError> {
        let target = self.target()?;
        let mut readable = Readable::of(target, self.statements, self.profile)?;
        let mut certificates = vec![target];
        for (index, octets) in self.certificates.iter().enumerate().skip(1) {
            match read_in(self.profile, octets) {
                Ok(()) => certificates.push(octets),
                Err(Error::Refused(fault)) => readable.ignored.push(Fault {
                    value: Some((Text::Certificates, index)),
                    ..fault
                }),
                Err(error) => return Err(error.into()),
            }
        }
        let search = Search {
            certificates: &certificates,
            statements: &readable.statements,
            ..*self
        };
        let peer = search.find_by(judge, true).map_err(|error| match error {
            SearchError::Speaking(SpeakingError::Library(error)) => readable.in_place(error).into(),
            other => other,
        })?;
        let ignored = readable.all_ignored(&peer.ignored);
        Ok(Peer { ignored, ..peer })
    }

    /// What is found by who believes the judge. If that is asked for, statements that nobody could judge are left out.
    fn find_by(&self, judge: &dyn Judge, leaves_out: bool) -> Result<Peer, SearchError> {
        let target = self.target()?;
        let speaks = self.speaks(target)?;
        self.purpose.map_or(Ok(()), check_purpose)?;
        let Some(questions) = self.questions_within_limits()? else {
            return Ok(Peer::without_path(Finding::GaveUp, target)?);
        };
        if !usage::allows(target, self.purpose)? {
            let why_not = Some(self.why_no_purpose(target)?);
            let peer = Peer::without_path(Finding::NotFound, target)?;
            return Ok(Peer { why_not, ..peer });
        }
        let mut heard = Heard::nothing(judge);
        for question in questions.iter() {
            heard.ask(&question)?;
        }
        let (answer, numbers) = find(&self.call(target), &heard.good)?;
        let finding = finding_of(&answer, numbers.len(), speaks)?;
        let ignored = match finding.on_path() {
            Some(verdict) => self.left_out(verdict, &questions, &heard, &numbers, leaves_out)?,
            None => Vec::new(),
        };
        let why_not = match finding {
            Finding::NotFound => Some(self.why_not(target, &heard.good)?),
            _ => None,
        };
        let path: Result<Vec<Identity>, Error> = numbers
            .into_iter()
            .map(|number| identity_of(&questions.values, number))
            .collect();
        Ok(Peer {
            finding,
            path: path?,
            target: Certificate::read(target)?.identity()?,
            why_not,
            ignored,
        })
    }

    /// The statements that are left out beside the path with these numbers, or the error because of which it is not valid.
    fn left_out(
        &self,
        verdict: Verdict,
        questions: &SignatureQuestions<'a>,
        heard: &Heard<'_>,
        numbers: &[usize],
        is_asked: bool,
    ) -> Result<Vec<Fault>, Error> {
        let certificate = |number: &usize| questions.values.certificates[*number];
        let path: Vec<&[u8]> = numbers.iter().map(certificate).collect();
        let query = Query {
            anchor: path[0],
            path: &path[1..],
            statements: self.statements,
            moment: self.moment,
            purpose: self.purpose,
            profile: self.profile,
        };
        let grounds = Grounds {
            query,
            inputs: None,
            standings: Standings::of(questions, heard),
            issuers: numbers[..numbers.len() - 1].to_vec(),
            good: &heard.good,
        };
        grounds.left_out(verdict, is_asked)
    }

    /// Why no path meets the conditions if these signatures are good and no others.
    fn why_not(&self, target: &'a [u8], good: &[[u8; 32]]) -> Result<WhyNot, Error> {
        let (values, named) = (self.values(target), Certificate::read(target)?.identity()?);
        let diagnosis = diagnose(&self.call(target), good)?;
        WhyNot::of(&diagnosis, &named, |number| identity_of(&values, number))
    }

    /// The same if the keyUsage is not consistent with the purpose: whatever else is wrong with the certificate by itself may come first.
    fn why_no_purpose(&self, target: &'a [u8]) -> Result<WhyNot, Error> {
        match self.why_not(target, &[])? {
            WhyNot::Target(reason) if reason < Reason::Purpose => Ok(WhyNot::Target(reason)),
            _ => Ok(WhyNot::Target(Reason::Purpose)),
        }
    }

    /// What is found if that is a path whose verdict is `Valid`, to a certificate that speaks for the name. Everything else is an error,
    /// which carries what is found.
    pub fn require_valid(&self, judge: &dyn Judge) -> Result<Peer, NotBelieved> {
        self.find(judge)?.require_valid()
    }

    fn target(&self) -> Result<&'a [u8], SearchError> {
        self.certificates
            .first()
            .copied()
            .ok_or(SearchError::NoTarget)
    }

    /// Whether the certificate in question speaks for the name, if one is asked for.
    pub(crate) fn speaks(&self, target: &[u8]) -> Result<Option<bool>, SearchError> {
        let Some(name) = self.name else {
            return Ok(None);
        };
        let certificate = Certificate::read(target)?;
        certificate
            .speaks_for(name)
            .map(Some)
            .map_err(SearchError::Speaking)
    }

    /// The certificates by their numbers, and the statements.
    fn values(&self, target: &'a [u8]) -> Values<'a> {
        let certificates = [self.anchors, &[target], self.bag()].concat();
        Values {
            certificates,
            statements: self.statements.to_vec(),
        }
    }

    fn bag(&self) -> &'a [&'a [u8]] {
        self.certificates.get(1..).unwrap_or(&[])
    }

    /// What is handed to the library.
    fn call(&self, target: &'a [u8]) -> SearchCall<'a> {
        SearchCall {
            anchors: self.anchors,
            target,
            bag: self.bag(),
            statements: self.statements,
            moment: self.moment,
            purpose: self.purpose.unwrap_or(&[]),
            limits: self.limits,
            profile: self.profile,
        }
    }
}

/// Whom the certificate with this number names.
fn identity_of(values: &Values<'_>, number: usize) -> Result<Identity, Error> {
    match values.certificates.get(number) {
        Some(octets) => Certificate::read(octets)?.identity(),
        None => Err(Error::Unexpected("the certificate", number)),
    }
}

/// What the numbers of an answer say, where the path has so many certificates. A number without a meaning is an error, as 0 is.
fn finding_of(
    answer: &FindingAnswer,
    count: usize,
    speaks: Option<bool>,
) -> Result<Finding, Error> {
    match (answer.verdict.verdict, count) {
        (NOT_FOUND, 0) => Ok(Finding::NotFound),
        (GAVE_UP, 0) => Ok(Finding::GaveUp),
        (_, 2..) => match (Verdict::of(&answer.verdict, count - 1)?, speaks) {
            (Verdict::Valid, Some(false)) => Ok(Finding::OtherName),
            (verdict, _) => Ok(Finding::Found(verdict)),
        },
        (number, _) => Err(Error::Unexpected("the verdict", number as usize)),
    }
}

#[cfg(test)]
mod tests {
    use super::*;
    use crate::library::{Refusal, VerdictAnswer};

    fn finding(verdict: u32, count: usize, speaks: Option<bool>) -> Result<Finding, Error> {
        let verdict = VerdictAnswer {
            verdict,
            reason: 0,
            certificate: usize::from(verdict == 3 || verdict == 4),
            refusal: Refusal::default(),
        };
        let answer = FindingAnswer {
            verdict,
            path_count: count,
        };
        finding_of(&answer, count, speaks)
    }

    #[test]
    fn numbers_of_the_header() {
        for speaks in [None, Some(true)] {
            assert_eq!(finding(1, 2, speaks), Ok(Finding::Found(Verdict::Valid)));
        }
        assert_eq!(finding(1, 2, Some(false)), Ok(Finding::OtherName));
        let unknown = Finding::Found(Verdict::Unknown { certificate: 1 });
        for speaks in [None, Some(true), Some(false)] {
            assert_eq!(finding(4, 2, speaks), Ok(unknown));
            assert_eq!(finding(6, 0, speaks), Ok(Finding::NotFound));
            assert_eq!(finding(7, 0, speaks), Ok(Finding::GaveUp));
        }
    }

    #[test]
    fn numbers_without_a_meaning() {
        for number in [0, 5, 6, 7, 8, u32::MAX] {
            assert!(finding(number, 2, None).is_err(), "{number}");
        }
        for number in [0, 1, 2, 3, 4, 5, 8, u32::MAX] {
            assert!(finding(number, 0, None).is_err(), "{number}");
            assert!(finding(number, 1, None).is_err(), "{number}");
        }
    }
}
