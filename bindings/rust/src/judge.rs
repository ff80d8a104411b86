//! Who judges signatures, and what is asked (RFC 5280, 6; RFC 6960, 3.2).

use std::cell::RefCell;
use std::collections::{HashMap, HashSet};
use std::fmt;

use crate::calls::{ask, ask_among, SearchCall};
use crate::fault::Error;
use crate::library::{Place, QuestionFields};
use crate::query::Query;
use crate::values::Values;

/// What a judge is asked: whether this is the signature of the message, under the key, by the algorithm.
#[derive(Clone, Copy, Debug, PartialEq, Eq)]
pub struct SignatureQuestion<'a> {
    /// The algorithm identifier: the whole encoding.
    pub algorithm: &'a [u8],
    /// The subjectPublicKeyInfo: the whole encoding.
    pub key_info: &'a [u8],
    /// What was signed.
    pub message: &'a [u8],
    /// The octets of the signature.
    pub signature: &'a [u8],
    /// That of these four.
    pub fingerprint: [u8; 32],
}

/// What a judge says of a signature. Only a `Good` one counts. One that is `Wrong` is a forgery or somebody else's. Of a list or a response
/// that is `NotServed` or `RefusedByPolicy` nobody knows whether it counts, so that no path is valid beside it ([`Error::Unjudged`]).
#[derive(Clone, Copy, Debug, PartialEq, Eq, Hash)]
#[must_use = "a signature counts only if it is Good"]
pub enum Judgement {
    /// It is the signature of the message under the key.
    Good,
    /// It is not.
    Wrong,
    /// The judge does not know the algorithm, its parameters or the form of the key.
    NotServed,
    /// The judge knows the algorithm and the key, and does not accept signatures of this kind.
    RefusedByPolicy,
    /// The judge failed, as for lack of memory. This says nothing of the signature: the call that asked ends with
    /// [`Error::CouldNotTell`].
    CouldNotTell,
}

/// `true` is `Good`, `false` is `Wrong`: only who can judge each signature may say so. Of an algorithm that is not served, or refused, a
/// [`Judgement`] has to be answered, as nobody is warned of a list that is `Wrong`.
impl From<bool> for Judgement {
    fn from(is_good: bool) -> Judgement {
        if is_good {
            Judgement::Good
        } else {
            Judgement::Wrong
        }
    }
}

impl fmt::Display for Judgement {
    fn fmt(&self, out: &mut fmt::Formatter<'_>) -> fmt::Result {
        out.write_str(match self {
            Judgement::Good => "good",
            Judgement::Wrong => "wrong",
            Judgement::NotServed => "not served",
            Judgement::RefusedByPolicy => "refused by policy",
            Judgement::CouldNotTell => "could not tell",
        })
    }
}

/// Who judges signatures. One question has to get one answer, whenever it is asked.
///
/// A function or a closure that is called with the question and answers a [`Judgement`], or whether the signature is good, is a judge; one
/// that changes what it captures becomes one by [`judge_by`].
pub trait Judge {
    /// What is to be said of the signature.
    fn judge(&self, question: &SignatureQuestion<'_>) -> Judgement;
}

impl<F, A> Judge for F
where
    F: Fn(&SignatureQuestion<'_>) -> A,
    A: Into<Judgement>,
{
    fn judge(&self, question: &SignatureQuestion<'_>) -> Judgement {
        self(question).into()
    }
}

/// The judge that [`judge_by`] makes.
pub struct JudgeBy<F>(RefCell<F>);

/// The judge that calls the closure, which may change what it captures.
///
/// ```
/// use x509check::{judge_by, Judgement};
///
/// let mut messages = Vec::new();
/// let judge = judge_by(|question| {
///     messages.push(question.message.to_vec());
///     Judgement::NotServed
/// });
/// # let _: &dyn x509check::Judge = &judge;
/// ```
pub fn judge_by<F, A>(ask: F) -> JudgeBy<F>
where
    F: FnMut(&SignatureQuestion<'_>) -> A,
    A: Into<Judgement>,
{
    JudgeBy(RefCell::new(ask))
}

impl<F, A> Judge for JudgeBy<F>
where
    F: FnMut(&SignatureQuestion<'_>) -> A,
    A: Into<Judgement>,
{
    /// A closure that is called while it runs cannot tell.
    fn judge(&self, question: &SignatureQuestion<'_>) -> Judgement {
        match self.0.try_borrow_mut() {
            Ok(mut ask) => ask(question).into(),
            Err(_) => Judgement::CouldNotTell,
        }
    }
}

/// A judge that accepts the signatures with these fingerprints, which were found good elsewhere, and says of all others that they are wrong.
/// So each statement that is handed in has to have been judged there: one that nobody could judge is passed over here.
#[derive(Clone, Copy, Debug)]
pub struct Fingerprints<'a>(pub &'a [[u8; 32]]);

impl Judge for Fingerprints<'_> {
    fn judge(&self, question: &SignatureQuestion<'_>) -> Judgement {
        self.0.contains(&question.fingerprint).into()
    }
}

/// What a judge may be asked for a verdict or for what a search finds: about the certificates, in order, and then about each statement. One
/// question may be there twice.
pub struct SignatureQuestions<'a> {
    pub(crate) values: Values<'a>,
    pub(crate) fields: Vec<QuestionFields>,
}

impl<'a> SignatureQuestions<'a> {
    /// The questions about a query.
    pub(crate) fn about(query: Query<'a>) -> Result<SignatureQuestions<'a>, Error> {
        SignatureQuestions::of(query.values(), ask(&query)?)
    }

    /// The questions about a search, of which these are the values.
    pub(crate) fn among(
        values: Values<'a>,
        search: &SearchCall<'a>,
    ) -> Result<SignatureQuestions<'a>, Error> {
        SignatureQuestions::of(values, ask_among(search)?)
    }

    /// Questions about these values; those of which a part lies in none are refused.
    fn of(
        values: Values<'a>,
        fields: Vec<QuestionFields>,
    ) -> Result<SignatureQuestions<'a>, Error> {
        let mut places = fields.iter().flat_map(QuestionFields::places);
        match places.find(|place| values.part(*place).is_none()) {
            Some(place) => Err(Error::Unexpected(
                "a part of a question at the offset",
                place.offset,
            )),
            None => Ok(SignatureQuestions { values, fields }),
        }
    }

    /// How many questions there are.
    pub fn len(&self) -> usize {
        self.fields.len()
    }

    /// Whether there is no question, as there is none about an empty path.
    pub fn is_empty(&self) -> bool {
        self.fields.is_empty()
    }

    /// The questions, in order.
    pub fn iter(&self) -> impl Iterator<Item = SignatureQuestion<'a>> + '_ {
        self.fields.iter().map(|fields| self.question(fields))
    }

    /// The questions about signatures of certificates, or of statements.
    pub(crate) fn of_text(&self, text: u32) -> impl Iterator<Item = SignatureQuestion<'a>> + '_ {
        self.fields
            .iter()
            .filter(move |fields| fields.message.text == text)
            .map(|fields| self.question(fields))
    }

    /// How many different ones there are.
    pub(crate) fn different(&self) -> usize {
        let prints: HashSet<[u8; 32]> = self.fields.iter().map(|it| it.fingerprint).collect();
        prints.len()
    }

    fn question(&self, fields: &QuestionFields) -> SignatureQuestion<'a> {
        let part = |place: Place| {
            self.values
                .part(place)
                .expect("each place was looked at as the questions were taken")
        };
        SignatureQuestion {
            algorithm: part(fields.algorithm),
            key_info: part(fields.key_info),
            message: part(fields.message),
            signature: part(fields.signature),
            fingerprint: fields.fingerprint,
        }
    }
}

/// What a judge said so far. It is asked about each signature once.
pub(crate) struct Heard<'j> {
    judge: &'j dyn Judge,
    said: HashMap<[u8; 32], Judgement>,
    /// The fingerprints of the good ones.
    pub good: Vec<[u8; 32]>,
}

impl<'j> Heard<'j> {
    pub fn nothing(judge: &'j dyn Judge) -> Heard<'j> {
        Heard {
            judge,
            said: HashMap::new(),
            good: Vec::new(),
        }
    }

    /// Asks about a signature, unless that was done before. If the judge cannot tell, there is no answer to anything.
    pub fn ask(&mut self, question: &SignatureQuestion<'_>) -> Result<(), Error> {
        let fingerprint = question.fingerprint;
        if self.said.contains_key(&fingerprint) {
            return Ok(());
        }
        let judgement = self.judge.judge(question);
        match judgement {
            Judgement::CouldNotTell => return Err(Error::CouldNotTell { fingerprint }),
            Judgement::Good => self.good.push(fingerprint),
            Judgement::Wrong | Judgement::NotServed | Judgement::RefusedByPolicy => {}
        }
        self.said.insert(fingerprint, judgement);
        Ok(())
    }

    /// What was said of the signature with this fingerprint.
    pub fn of(&self, fingerprint: &[u8; 32]) -> Option<Judgement> {
        self.said.get(fingerprint).copied()
    }
}
