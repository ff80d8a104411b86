//! Deliveries: a list or a response, judged, and taken by the store.

use std::fmt;

use crate::certificate::sha256;
use crate::der::is_response;
use crate::fault::Error;
use crate::identity::Identity;
use crate::judge::{Heard, Judge, Judgement, SignatureQuestions};
use crate::library::STATEMENTS;
use crate::party::answers::{counts_in, fingerprint_in, Form, Reply};
use crate::party::channel::Request;
use crate::party::spool::Spooled;
use crate::party::words::{file_word, hex, octets_word, MOST_LINE};
use crate::party::{identity_of, Party, PartyError};
use crate::query::{Profile, Query};
use crate::standing::{Standing, Standings};

/// A certificate that each profile can read. Questions about statements are asked of a path, and this stands below the issuer there.
const BELOW: &[u8] = b"\x30\x4C\x30\x42\
    \x02\x01\x01\
    \x30\x03\x06\x01\x2A\
    \x30\x0C\x31\x0A\x30\x08\x06\x03\x55\x04\x03\x0C\x01-\
    \x30\x1E\x17\x0D700101000000Z\x17\x0D700101000000Z\
    \x30\x00\
    \x30\x08\x30\x03\x06\x01\x2A\x03\x01\x00\
    \x30\x03\x06\x01\x2A\x03\x01\x00";
/// Of the octets of a line so many are left to what is neither issuer nor statement.
const REST_OF_LINE: usize = 256;

/// How a store took a statement, and whose it is.
#[derive(Clone, Debug, PartialEq, Eq)]
#[non_exhaustive]
#[must_use = "the counts say whether anything was new"]
pub struct Delivery {
    /// Whom the issuer's certificate names.
    pub issuer: Identity,
    /// The SHA-256 of the statement.
    pub statement: [u8; 32],
    /// How many facts are newer than what the store held, and were stored.
    pub stored: u64,
    /// How many are not, as they are older or were there already.
    pub kept: u64,
    /// How many say something else than what the store holds under the same number or time: the issuer signed both. It is 0, unless the
    /// delivery comes with [`PartyError::Contradicted`].
    pub contradicted: u64,
}

/// A statement as the operand of requests; a file that it stands in is removed with it.
struct Operand {
    word: String,
    handed: usize,
    _file: Option<Spooled>,
}

/// On one line: the counts as the program prints them, and behind a `; ` whom they are about.
impl fmt::Display for Delivery {
    fn fmt(&self, out: &mut fmt::Formatter<'_>) -> fmt::Result {
        let Delivery {
            issuer,
            statement,
            stored,
            kept,
            contradicted,
        } = self;
        write!(
            out,
            "stored {stored} kept {kept} contradicted {contradicted}; statement "
        )?;
        statement
            .iter()
            .try_for_each(|octet| write!(out, "{octet:02x}"))?;
        write!(out, "; issuer {issuer}")
    }
}

impl Party {
    /// Delivers a list or a response under the certificate of its issuer. First the program is asked which signatures there are (`prints`),
    /// and the judge about each of them that counts under that issuer and is not believed; what is good is believed from now on. If none
    /// is, the program refuses the statement, and the error says what the judge said of its own signature; it is
    /// [`PartyError::Unjudged`] if the statement may be the issuer's all the same.
    ///
    /// A statement that contradicts what the store holds is [`PartyError::Contradicted`], so that `contradicted` of an answer is 0.
    ///
    /// A statement that does not fit into a line is handed over in a file of its own, in the folder for temporary files; over a socket
    /// it is an error.
    pub fn deliver(
        &self,
        issuer: &[u8],
        statement: &[u8],
        judge: &dyn Judge,
    ) -> Result<Delivery, PartyError> {
        let _call = self.call()?;
        let statements = [statement];
        let questions = statement_questions(issuer, &statements)?;
        let (word, operand) = (octets_word(issuer), self.operand(issuer, statement)?);
        let names = [(&word[..], "issuer"), (&operand.word[..], "statement")];
        let asked = self.asked(&word, &operand, is_response(statement), &names)?;
        let judge = self.judge_once(judge);
        let mut heard = Heard::nothing(&judge);
        for question in questions.of_text(STATEMENTS) {
            if !asked.contains(&question.fingerprint) {
                return Err(self.distrust_prints(&question.fingerprint));
            }
            heard.ask(&question)?;
        }
        let request = operand.request(format!("deliver {word} {}", operand.word), Form::Deliver);
        let own = asked.first().and_then(|own| heard.of(own));
        let standing = Standings::of(&questions, &heard).under(0, &[0]);
        let reply = self
            .ask_believing(&heard.good, request, &names)
            .map_err(|error| with_judgement(error, own, standing))?;
        let Some(counts) = counts_in(&reply.text) else {
            return Err(self.distrust("deliver", &reply));
        };
        let delivery = Delivery {
            issuer: identity_of(issuer)?,
            statement: sha256(statement),
            stored: counts.stored,
            kept: counts.kept,
            contradicted: counts.contradicted,
        };
        match delivery.contradicted {
            0 => Ok(delivery),
            _ => Err(PartyError::Contradicted(Box::new(delivery))),
        }
    }

    /// The statement as it stands in a line, or in a file if it is too long for that.
    fn operand(&self, issuer: &[u8], statement: &[u8]) -> Result<Operand, PartyError> {
        if 2 * (issuer.len() + statement.len()) + REST_OF_LINE <= MOST_LINE {
            return Ok(Operand {
                word: octets_word(statement),
                handed: 0,
                _file: None,
            });
        }
        if !self.shares_files {
            let why = "a statement that does not fit into a line cannot be sent to a socket";
            return Err(PartyError::Request(why));
        }
        let file = Spooled::new(statement).map_err(|error| PartyError::File(error.to_string()))?;
        Ok(Operand {
            word: file_word(file.path()),
            handed: statement.len(),
            _file: Some(file),
        })
    }

    /// The fingerprints that the program asks about, that of the statement's own signature first.
    fn asked(
        &self,
        issuer: &str,
        operand: &Operand,
        is_response: bool,
        names: &[(&str, &str)],
    ) -> Result<Vec<[u8; 32]>, PartyError> {
        let kind = if is_response { "ocsp" } else { "crl" };
        let line = format!("prints {kind} {issuer} {}", operand.word);
        let reply = self.ask_believing(&[], operand.request(line, Form::Prints), names)?;
        prints_in(&reply, is_response).ok_or_else(|| self.distrust("prints", &reply))
    }

    /// The error of lines in which a question is missing.
    fn distrust_prints(&self, missing: &[u8; 32]) -> PartyError {
        self.channel.distrust();
        PartyError::Garbled(format!("prints: no line {}", hex(missing)))
    }
}

impl Operand {
    fn request(&self, line: String, form: Form) -> Request {
        Request {
            line,
            form,
            handed: self.handed,
        }
    }
}

/// What may be asked about statements of an issuer, which is read as the program reads it: as an anchor is, in the stated profile. The
/// statements are read in the wide one, which reads what the stated one does alike. Whether the store serves a list at a point is the
/// program's to say.
fn statement_questions<'a>(
    issuer: &'a [u8],
    statements: &'a [&'a [u8]],
) -> Result<SignatureQuestions<'a>, Error> {
    let query = Query {
        anchor: issuer,
        path: &[BELOW],
        statements,
        moment: 0,
        purpose: None,
        profile: Profile::Wide,
    };
    query.signature_questions()
}

/// The fingerprints in the lines of `prints`: one of the value itself, and behind it two for each certificate that comes with a response.
fn prints_in(reply: &Reply, is_response: bool) -> Option<Vec<[u8; 32]>> {
    let (own, others) = reply.lines.split_first()?;
    if others.len() % 2 != 0 || !is_response && !others.is_empty() {
        return None;
    }
    let noun = if is_response { "response" } else { "crl" };
    let first = fingerprint_in(own, &format!("{noun} issuer"));
    let behind = others.chunks_exact(2).zip(1..).flat_map(|(pair, number)| {
        [
            fingerprint_in(&pair[0], &format!("certificate {number} issuer")),
            fingerprint_in(&pair[1], &format!("response certificate {number}")),
        ]
    });
    [first].into_iter().chain(behind).collect()
}

/// A refusal, with what was said of the statement's own signature unless that is good. If nobody could judge whether the statement is the
/// issuer's, that is an error of its own.
fn with_judgement(error: PartyError, own: Option<Judgement>, standing: Standing) -> PartyError {
    match (error, standing, own) {
        (PartyError::Refused { status: 4, text }, Standing::Unjudged(judgement), _) => {
            PartyError::Unjudged { text, judgement }
        }
        (PartyError::Refused { status: 4, text }, _, Some(judgement))
            if judgement != Judgement::Good =>
        {
            PartyError::Refused {
                status: 4,
                text: format!("{text}; signature {judgement}"),
            }
        }
        (error, _, _) => error,
    }
}
