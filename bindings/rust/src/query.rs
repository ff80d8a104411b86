//! The question about a path, and how it is answered.

use std::slice;

use crate::answer::{Answer, NotValid};
use crate::calls::{ask, validate, validate_with_policies};
use crate::certificate::Certificate;
use crate::fault::{Error, Fault, Text};
use crate::identifier::check_contents;
use crate::identity::Identity;
use crate::judge::{Heard, Judge, Judgement, SignatureQuestions};
use crate::library::{CERTIFICATES, STATEMENTS};
use crate::policies::{Policies, PolicyInputs};
use crate::standing::{Grounds, Standings};
use crate::usage;
use crate::values::Values;
use crate::verdict::{Reason, Verdict};

/// The certificates that a path may have.
pub(crate) const MOST_CERTIFICATES: usize = 128;
/// Of a longer path the library gets one more, which it answers by [`Reason::TooLong`], and reads none of the others.
pub(crate) const MOST_HANDED: usize = MOST_CERTIFICATES + 1;

/// How much of the standard is served (`docs/REFERENCE.md`, "The profile").
#[derive(Clone, Copy, Debug, Default, PartialEq, Eq)]
pub enum Profile {
    /// A list that is published at a point cannot be read, and responses count by SHA-1.
    #[default]
    Stated,
    /// Such a list is taken too, and speaks of the certificates whose cRLDistributionPoints name its point. A certificate in which these are
    /// malformed cannot be read, unless it is an anchor. Responses count by SHA-256 too. Name constraints on mail addresses and on hosts of
    /// URIs are processed, and malformed ones cannot be read (RFC 5280, 4.2.1.10). A list at a point with reasons or cRLIssuer only revokes.
    Wide,
}

impl Profile {
    /// As the library takes it.
    pub(crate) fn wide(self) -> u32 {
        (self == Profile::Wide).into()
    }
}

/// The question about a path.
///
/// There is no call that answers a bare [`Verdict`]: each answer says whom it is about, and a verdict that is left aside is a warning.
///
/// ```compile_fail
/// #![deny(unused_must_use)]
/// # fn ask(query: x509check::Query<'_>) -> Result<(), x509check::Error> {
/// query.answer(&x509check::Fingerprints(&[]))?;
/// # Ok(())
/// # }
/// ```
#[derive(Clone, Copy, Debug)]
pub struct Query<'a> {
    /// The anchor, of which the name and the key alone are used: the DER of a certificate.
    pub anchor: &'a [u8],
    /// The certificates below it, to the one in question, each in DER.
    pub path: &'a [&'a [u8]],
    /// Lists (CRLs) and OCSP responses in DER, in any order. One that no issuer of the path signed changes nothing.
    pub statements: &'a [&'a [u8]],
    /// In seconds from 1970-01-01T00:00:00Z.
    pub moment: i64,
    /// The contents of an OBJECT IDENTIFIER, if a purpose is asked for. Octets that are no such contents are [`Error::Purpose`]; so is an
    /// empty slice.
    pub purpose: Option<&'a [u8]>,
    /// In which path and statements are read.
    pub profile: Profile,
}

impl<'a> Query<'a> {
    /// What a judge may be asked, at whatever moment and for whatever purpose.
    pub fn signature_questions(&self) -> Result<SignatureQuestions<'a>, Error> {
        SignatureQuestions::about(self.handed())
    }

    /// The answer of who believes the judge, or the first fault of a certificate or a statement that cannot be read.
    ///
    /// The judge is asked about the statements only if the path is valid without them, and about each signature at most once. If a purpose
    /// is asked for, the keyUsage of the last certificate has to be consistent with it too (RFC 5280, 4.2.1.12).
    ///
    /// Instead of `Valid` the answer is an error if a statement that may be by an issuer of the path was judged by nobody
    /// ([`Error::Unjudged`]), or if an issuer of the path signed two that contradict each other, one of which revokes a certificate of the
    /// path ([`Error::Contradicted`]). To find the latter, the statements of each issuer that signed several are read once more, and all
    /// are read once more for each certificate of the path that one of them revokes by itself.
    pub fn answer(&self, judge: &dyn Judge) -> Result<Answer, Error> {
        Asking::of(self, None)?.answered(judge, false)
    }

    /// The same, with the policies of the path.
    pub(crate) fn answer_under(
        &self,
        inputs: PolicyInputs<'a>,
        judge: &dyn Judge,
    ) -> Result<Answer, Error> {
        Asking::of(self, Some(inputs))?.answered(judge, false)
    }

    /// As [`answer`](Query::answer), but a statement that cannot be read, or that nobody could judge, is left out, and the answer names it
    /// among the `ignored`.
    ///
    /// What such a statement would have said is lost: an older one may speak in its place.
    pub fn answer_by_readable(&self, judge: &dyn Judge) -> Result<Answer, Error> {
        self.answer_by_readable_under(None, judge)
    }

    /// The same, with the policies of the path if they are asked for.
    pub(crate) fn answer_by_readable_under(
        &self,
        inputs: Option<PolicyInputs<'_>>,
        judge: &dyn Judge,
    ) -> Result<Answer, Error> {
        let readable = Readable::of(self.anchor, self.statements, self.profile)?;
        let query = Query {
            statements: &readable.statements,
            ..*self
        };
        let asking = Asking::of(&query, inputs)?;
        let answer = asking
            .answered(judge, true)
            .map_err(|error| readable.in_place(error))?;
        let ignored = readable.all_ignored(&answer.ignored);
        Ok(Answer { ignored, ..answer })
    }

    /// The answer if the path is valid. Everything else is an error, which carries the answer if there is one.
    pub fn require_valid(&self, judge: &dyn Judge) -> Result<Answer, NotValid> {
        self.answer(judge)?.require_valid()
    }

    /// What of the query is handed to the library.
    fn handed(&self) -> Query<'a> {
        let path = &self.path[..self.path.len().min(MOST_HANDED)];
        Query { path, ..*self }
    }

    /// The certificate with this number: 0 is the anchor.
    fn certificate(&self, number: usize) -> Option<&'a [u8]> {
        match number.checked_sub(1) {
            None => Some(self.anchor),
            Some(index) => self.path.get(index).copied(),
        }
    }

    /// Its certificates by their numbers, and its statements.
    pub(crate) fn values(&self) -> Values<'a> {
        Values {
            certificates: [&[self.anchor], self.path].concat(),
            statements: self.statements.to_vec(),
        }
    }
}

/// The statements that can be read in the profile, where they stood among all, and the faults of the others.
#[derive(Default)]
pub(crate) struct Readable<'a> {
    pub statements: Vec<&'a [u8]>,
    places: Vec<usize>,
    pub ignored: Vec<Fault>,
}

impl<'a> Readable<'a> {
    /// Each is read alone, behind a certificate.
    pub(crate) fn of(
        anchor: &[u8],
        statements: &[&'a [u8]],
        profile: Profile,
    ) -> Result<Readable<'a>, Error> {
        let mut readable = Readable::default();
        for (index, statement) in statements.iter().enumerate() {
            let alone = Query {
                anchor,
                path: &[],
                statements: slice::from_ref(statement),
                moment: 0,
                purpose: None,
                profile,
            };
            match ask(&alone) {
                Ok(_) => {
                    readable.statements.push(*statement);
                    readable.places.push(index);
                }
                Err(Error::Refused(fault)) if is_of_statement(&fault) => {
                    let value = Some((Text::Statements, index));
                    readable.ignored.push(Fault { value, ..fault });
                }
                Err(error) => return Err(error),
            }
        }
        Ok(readable)
    }

    /// An error about one of those that can be read, by its place among all.
    pub(crate) fn in_place(&self, error: Error) -> Error {
        match error {
            Error::Contradicted { statement } => Error::Contradicted {
                statement: self.places[statement],
            },
            other => other,
        }
    }

    /// What was ignored, with what was left out of those that can be read, by the places among all.
    pub(crate) fn all_ignored(&self, left_out: &[Fault]) -> Vec<Fault> {
        let in_place = |fault: &Fault| Fault {
            value: fault.value.map(|(text, it)| (text, self.places[it])),
            ..*fault
        };
        let left_out = left_out.iter().map(in_place);
        self.ignored.iter().copied().chain(left_out).collect()
    }
}

fn is_of_statement(fault: &Fault) -> bool {
    matches!(fault.value, Some((Text::Statements, _)))
}

/// Reads a certificate in the profile, as one of a path. It stands below itself, and the library reads it twice.
pub(crate) fn read_in(profile: Profile, octets: &[u8]) -> Result<(), Error> {
    let alone = Query {
        anchor: octets,
        path: &[octets],
        statements: &[],
        moment: 0,
        purpose: None,
        profile,
    };
    ask(&alone).map(|_| ())
}

/// Refuses a purpose that is no contents of an OBJECT IDENTIFIER.
pub(crate) fn check_purpose(contents: &[u8]) -> Result<(), Error> {
    match check_contents(contents) {
        Err(Error::Refused(_)) => Err(Error::Purpose),
        other => other,
    }
}

/// A query whose certificates and statements were read.
pub(crate) struct Asking<'a> {
    query: Query<'a>,
    path_length: usize,
    questions: SignatureQuestions<'a>,
    /// What is asked of policies, if they are processed.
    inputs: Option<PolicyInputs<'a>>,
}

/// The verdict, and the policies at the end of the path if they are processed and it is not invalid.
type Said = (Verdict, Option<Policies>);

/// What the library says of a query if these signatures are good and no others.
pub(crate) fn verdict_by(
    query: &Query<'_>,
    inputs: Option<&PolicyInputs<'_>>,
    good: &[[u8; 32]],
) -> Result<Said, Error> {
    let Some(inputs) = inputs else {
        let verdict = Verdict::of(&validate(query, good)?, query.path.len())?;
        return Ok((verdict, None));
    };
    let (answer, written) = validate_with_policies(query, inputs, good)?;
    let verdict = Verdict::of(&answer, query.path.len())?;
    Ok((verdict, Policies::of(verdict, written)?))
}

impl<'a> Asking<'a> {
    pub(crate) fn of(
        query: &Query<'a>,
        inputs: Option<PolicyInputs<'a>>,
    ) -> Result<Asking<'a>, Error> {
        query.purpose.map_or(Ok(()), check_purpose)?;
        Ok(Asking {
            questions: query.signature_questions()?,
            query: query.handed(),
            path_length: query.path.len(),
            inputs,
        })
    }

    /// The answer of who believes the judge. If that is asked for, statements that nobody could judge are left out.
    fn answered(&self, judge: &dyn Judge, leaves_out: bool) -> Result<Answer, Error> {
        let mut heard = Heard::nothing(judge);
        let (verdict, policies) = self.verdict(&mut heard)?;
        self.check_length(verdict)?;
        let ignored = match verdict {
            Verdict::Invalid { .. } => Vec::new(),
            _ => self.grounds(&heard).left_out(verdict, leaves_out)?,
        };
        let answer = self.answer(verdict, &heard)?;
        Ok(Answer {
            policies,
            ignored,
            ..answer
        })
    }

    /// What the verdict on a path that is not invalid stands on.
    fn grounds<'q>(&'q self, heard: &'q Heard<'_>) -> Grounds<'q> {
        Grounds {
            query: self.query,
            inputs: self.inputs,
            standings: Standings::of(&self.questions, heard),
            issuers: (0..self.query.path.len()).collect(),
            good: &heard.good,
        }
    }

    /// Refuses a verdict on a part of the path, unless it is that the path is too long.
    fn check_length(&self, verdict: Verdict) -> Result<(), Error> {
        let too_long = Verdict::Invalid {
            certificate: 0,
            reason: Reason::TooLong,
        };
        if self.path_length > MOST_CERTIFICATES && verdict != too_long {
            return Err(Error::Unexpected(
                "a verdict on a path of length",
                self.path_length,
            ));
        }
        Ok(())
    }

    /// What the library says by these statements if these signatures are good and no others.
    fn verdict_by(&self, statements: &[&[u8]], good: &[[u8; 32]]) -> Result<Said, Error> {
        let query = Query {
            statements,
            ..self.query
        };
        verdict_by(&query, self.inputs.as_ref(), good)
    }

    pub(crate) fn ask_about(&self, text: u32, heard: &mut Heard<'_>) -> Result<(), Error> {
        let mut questions = self.questions.of_text(text);
        questions.try_for_each(|question| heard.ask(&question))
    }

    /// The verdict, as if the judge had been asked every question. A path is looked at before its statements, so a path that is invalid
    /// stays so whatever they say; and whether it is too long does not depend on signatures.
    fn verdict(&self, heard: &mut Heard<'_>) -> Result<Said, Error> {
        if self.path_length > MOST_CERTIFICATES {
            return self.verdict_by(&[], &[]);
        }
        self.ask_about(CERTIFICATES, heard)?;
        let (verdict, _) = self.verdict_by(&[], &heard.good)?;
        let on_path = self.with_usage(verdict)?;
        if matches!(on_path, Verdict::Invalid { .. }) {
            return Ok((on_path, None));
        }
        self.ask_about(STATEMENTS, heard)?;
        self.verdict_by(self.query.statements, &heard.good)
    }

    /// The verdict on the path, which is invalid too if the keyUsage of the last certificate is not consistent with the purpose.
    pub(crate) fn with_usage(&self, verdict: Verdict) -> Result<Verdict, Error> {
        let (Verdict::Valid | Verdict::Revoked { .. } | Verdict::Unknown { .. }, Some(last)) =
            (verdict, self.query.path.last())
        else {
            return Ok(verdict);
        };
        match usage::allows(last, self.query.purpose)? {
            true => Ok(verdict),
            false => Ok(Verdict::Invalid {
                certificate: self.query.path.len(),
                reason: Reason::Purpose,
            }),
        }
    }

    /// Whom the certificate with this number names.
    fn identity(&self, number: usize) -> Result<Identity, Error> {
        match self.query.certificate(number) {
            Some(octets) => Certificate::read(octets)?.identity(),
            None => Err(Error::Unexpected("the certificate", number)),
        }
    }

    /// What the judge said of the signature because of which the path is invalid.
    fn refused_signature(&self, verdict: Verdict, heard: &Heard<'_>) -> Option<Judgement> {
        let Verdict::Invalid {
            certificate,
            reason: Reason::Signature,
        } = verdict
        else {
            return None;
        };
        let question = self
            .questions
            .of_text(CERTIFICATES)
            .nth(certificate.checked_sub(1)?)?;
        heard.of(&question.fingerprint)
    }

    /// The answer, once the verdict is known.
    pub(crate) fn answer(&self, verdict: Verdict, heard: &Heard<'_>) -> Result<Answer, Error> {
        let target = match self.path_length {
            number @ 1..=MOST_CERTIFICATES => Some(self.identity(number)?),
            _ => None,
        };
        let decides = match verdict.certificate() {
            None | Some(0) => None,
            Some(number) => Some(self.identity(number)?),
        };
        Ok(Answer {
            verdict,
            target,
            decides,
            signature: self.refused_signature(verdict, heard),
            policies: None,
            ignored: Vec::new(),
        })
    }
}

#[cfg(test)]
mod tests {
    use super::*;

    #[test]
    fn purposes_are_contents_of_object_identifiers() {
        let long = [vec![0x2B], vec![1; 126]].concat();
        let longer = [vec![0x2B], vec![1; 999]].concat();
        for contents in [
            &[0x2B, 6, 1, 5, 5, 7, 3, 1][..],
            &[0x55, 0x1D, 0x25, 0],
            &[0x88, 0x37],
            &long,
            &longer,
        ] {
            assert_eq!(check_purpose(contents), Ok(()));
        }
        for contents in [
            &[][..],
            &[0x80],
            &[0x2B, 0x86],
            &[0x2B, 0x80, 1],
            &[0xFF; 300],
        ] {
            let refused = check_purpose(contents);
            assert_eq!(refused, Err(Error::Purpose), "{contents:02X?}");
        }
    }
}
