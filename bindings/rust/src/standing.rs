//! What is looked at before a path is valid by statements at hand: whether each of them was judged, and whether two contradict each other.

use crate::certificate::Certificate;
use crate::der::{is_response, signed_part, singles};
use crate::fault::{Error, Fault, Text};
use crate::judge::{Heard, Judgement, SignatureQuestions};
use crate::library::{Place, QuestionFields, STATEMENTS};
use crate::policies::PolicyInputs;
use crate::query::{verdict_by, Query};
use crate::verdict::Verdict;

/// The faults of a list, and of a response, whose signature is not accepted (docs/REFERENCE.md, "Faults").
const BAD_SIGNATURE: u32 = 54;
const NO_SIGNER: u32 = 57;

/// How a statement stands as one by an issuer.
#[derive(Clone, Copy, Debug, PartialEq, Eq)]
pub(crate) enum Standing {
    /// The issuer or a delegate of it signed the statement.
    Good,
    /// Nobody could judge that, so it may be so.
    Unjudged(Judgement),
    /// It is a forgery, or somebody else's.
    Wrong,
}

impl Standing {
    /// By what was said of one signature.
    fn of(judgement: Option<Judgement>) -> Standing {
        match judgement {
            Some(Judgement::Good) => Standing::Good,
            Some(Judgement::Wrong) => Standing::Wrong,
            Some(judgement) => Standing::Unjudged(judgement),
            None => Standing::Unjudged(Judgement::CouldNotTell),
        }
    }

    /// If both signatures count together.
    fn and(self, other: Standing) -> Standing {
        match (self, other) {
            (Standing::Wrong, _) | (_, Standing::Wrong) => Standing::Wrong,
            (Standing::Unjudged(said), _) | (_, Standing::Unjudged(said)) => {
                Standing::Unjudged(said)
            }
            (Standing::Good, Standing::Good) => Standing::Good,
        }
    }

    /// If one of two ways is enough.
    fn or(self, other: Standing) -> Standing {
        match (self, other) {
            (Standing::Good, _) | (_, Standing::Good) => Standing::Good,
            (Standing::Unjudged(said), _) | (_, Standing::Unjudged(said)) => {
                Standing::Unjudged(said)
            }
            (Standing::Wrong, Standing::Wrong) => Standing::Wrong,
        }
    }
}

/// The ways in which a statement may be by an issuer: the number of its certificate, and how the statement stands by that way.
type Ways = Vec<(usize, Standing)>;

/// The ways of a statement, by the questions about it: an issuer signed it; or a delegate did, whose certificate comes with a response and
/// was signed by the issuer.
fn ways_of(statement: &[u8], asked: &[&QuestionFields], heard: &Heard<'_>) -> Ways {
    let said = |question: &QuestionFields| Standing::of(heard.of(&question.fingerprint));
    let (of_delegates, of_issuers): (Vec<&QuestionFields>, Vec<&QuestionFields>) = asked
        .iter()
        .partition(|question| question.key_info.text == STATEMENTS);
    let own = signed_part(statement);
    let mut ways = Vec::new();
    for question in of_issuers {
        let issuer = question.key_info.index;
        if own.map_or(true, |own| question.message.offset == own) {
            ways.push((issuer, said(question)));
            continue;
        }
        let delegate = of_delegates
            .iter()
            .find(|it| lies_in(it.key_info, question.message));
        // (one that may not sign responses is not asked about any further)
        if let Some(by_delegate) = delegate {
            ways.push((issuer, said(question).and(said(by_delegate))));
        }
    }
    ways
}

fn lies_in(part: Place, whole: Place) -> bool {
    whole.offset <= part.offset && part.offset + part.length <= whole.offset + whole.length
}

/// The statements at hand, as far as judges have said something of them.
pub(crate) struct Standings {
    /// By statement.
    ways: Vec<Ways>,
}

impl Standings {
    pub(crate) fn of(questions: &SignatureQuestions<'_>, heard: &Heard<'_>) -> Standings {
        let statements = &questions.values.statements;
        let mut asked: Vec<Vec<&QuestionFields>> = vec![Vec::new(); statements.len()];
        for question in &questions.fields {
            let message = question.message;
            if let (STATEMENTS, Some(of_statement)) = (message.text, asked.get_mut(message.index)) {
                of_statement.push(question);
            }
        }
        let each = statements.iter().zip(&asked);
        Standings {
            ways: each
                .map(|(statement, asked)| ways_of(statement, asked, heard))
                .collect(),
        }
    }

    /// How a statement stands as one by any of the issuers with these numbers.
    pub(crate) fn under(&self, statement: usize, issuers: &[usize]) -> Standing {
        self.ways[statement]
            .iter()
            .filter(|(issuer, _)| issuers.contains(issuer))
            .fold(Standing::Wrong, |sum, (_, standing)| sum.or(*standing))
    }

    /// The statements that are by the issuer with this number.
    fn good_under(&self, issuer: usize) -> Vec<usize> {
        (0..self.ways.len())
            .filter(|statement| self.under(*statement, &[issuer]) == Standing::Good)
            .collect()
    }
}

/// A path that meets the conditions of RFC 5280, 6.1, with what was said of the statements beside it.
pub(crate) struct Grounds<'q> {
    pub query: Query<'q>,
    pub inputs: Option<PolicyInputs<'q>>,
    pub standings: Standings,
    /// The numbers of the certificates that issued those of the path, the anchor first.
    pub issuers: Vec<usize>,
    pub good: &'q [[u8; 32]],
}

impl Grounds<'_> {
    /// The statements that were left out since nobody could judge them, if that was asked for. If it was not, one of them is an error
    /// beside a path that is valid otherwise. So is a contradiction, in any case.
    pub(crate) fn left_out(&self, verdict: Verdict, is_asked: bool) -> Result<Vec<Fault>, Error> {
        let unjudged = self.unjudged();
        if verdict == Verdict::Valid {
            if let (false, Some((statement, judgement))) = (is_asked, unjudged.first()) {
                return Err(Error::Unjudged {
                    statement: *statement,
                    judgement: *judgement,
                });
            }
            if let Some(statement) = self.contradicting()? {
                return Err(Error::Contradicted { statement });
            }
        }
        match is_asked {
            true => Ok(unjudged.iter().map(|(it, _)| self.fault(*it)).collect()),
            false => Ok(Vec::new()),
        }
    }

    /// The statements that may be by issuers of the path, and that nobody could judge.
    fn unjudged(&self) -> Vec<(usize, Judgement)> {
        let statements = 0..self.query.statements.len();
        statements
            .filter_map(|it| match self.standings.under(it, &self.issuers) {
                Standing::Unjudged(judgement) => Some((it, judgement)),
                Standing::Good | Standing::Wrong => None,
            })
            .collect()
    }

    fn fault(&self, statement: usize) -> Fault {
        Fault {
            number: match is_response(self.query.statements[statement]) {
                true => NO_SIGNER,
                false => BAD_SIGNATURE,
            },
            der: None,
            offset: 0,
            value: Some((Text::Statements, statement)),
        }
    }

    /// A statement that revokes a certificate of the path, and whose place another took that contradicts it.
    ///
    /// Of statements with one number, or one time, the first counts. So those that revoke a certificate by themselves are put first: if
    /// they were kept out only by their place, the path is revoked then. If newer ones took their place it is as before.
    ///
    /// For each certificate whose issuer signed several statements, each of these is read once more beside that certificate; and only if
    /// one revokes it, all are read once more.
    fn contradicting(&self) -> Result<Option<usize>, Error> {
        for (position, issuer) in self.issuers.iter().enumerate() {
            let signed = self.standings.good_under(*issuer);
            if let Some(statement) = self.split(position, &signed)? {
                return Ok(Some(statement));
            }
            if signed.len() < 2 {
                continue;
            }
            let mut revoking = Vec::new();
            for statement in signed {
                if self.revokes(position, statement)? {
                    revoking.push(statement);
                }
            }
            if !revoking.is_empty() && self.is_revoked_by_first(&revoking)? {
                return self.which_revokes(&revoking);
            }
        }
        Ok(None)
    }

    /// The first of these by which the path is revoked if it comes before all others; the first of all if several have to.
    fn which_revokes(&self, revoking: &[usize]) -> Result<Option<usize>, Error> {
        for statement in revoking {
            if self.is_revoked_by_first(&[*statement])? {
                return Ok(Some(*statement));
            }
        }
        Ok(revoking.first().copied())
    }

    /// A response, of those that the issuer signed, by which the certificate of the path behind this position is revoked, while the newest
    /// single responses about it, of one time with this one, also say that it is not. (Inside of one response no order can be changed.)
    fn split(&self, position: usize, signed: &[usize]) -> Result<Option<usize>, Error> {
        let certificate = Certificate::read(self.query.path[position])?;
        let mut about = Vec::new();
        for statement in signed {
            let singles = singles(self.query.statements[*statement]).into_iter();
            let of_certificate = singles.filter(|it| it.serial == certificate.serial());
            about.extend(of_certificate.map(|it| (*statement, it)));
        }
        let newest = about.iter().map(|(_, it)| it.times).max();
        about.retain(|(_, it)| Some(it.times) == newest);
        let revoking = about.iter().find(|(_, it)| it.is_revoked);
        let is_good = about.iter().any(|(_, it)| !it.is_revoked);
        Ok(revoking
            .filter(|_| is_good)
            .map(|(statement, _)| *statement))
    }

    /// Whether the statement by itself revokes the certificate of the path behind this position.
    fn revokes(&self, position: usize, statement: usize) -> Result<bool, Error> {
        let issuer = match position.checked_sub(1) {
            None => self.query.anchor,
            Some(index) => self.query.path[index],
        };
        let link = Query {
            anchor: issuer,
            path: &self.query.path[position..=position],
            statements: &self.query.statements[statement..=statement],
            purpose: None,
            ..self.query
        };
        // (which policies are taken is no question of revocation)
        let inputs = self.inputs.map(|_| PolicyInputs::any());
        let (verdict, _) = verdict_by(&link, inputs.as_ref(), self.good)?;
        Ok(matches!(verdict, Verdict::Revoked { .. }))
    }

    /// Whether the path is revoked if these statements come before the others.
    fn is_revoked_by_first(&self, first: &[usize]) -> Result<bool, Error> {
        let all = 0..self.query.statements.len();
        let others = all.filter(|statement| !first.contains(statement));
        let order = first.iter().copied().chain(others);
        let statements: Vec<&[u8]> = order.map(|it| self.query.statements[it]).collect();
        let query = Query {
            statements: &statements,
            ..self.query
        };
        let (verdict, _) = verdict_by(&query, self.inputs.as_ref(), self.good)?;
        Ok(matches!(verdict, Verdict::Revoked { .. }))
    }
}
