//! A relying party that keeps what it is told: a process of the program over a store, or one behind a socket.

mod answers;
mod channel;
mod connection;
mod delivery;
mod error;
mod spool;
mod words;

use std::fmt;
use std::path::Path;
use std::process::Command;
use std::sync::{PoisonError, RwLock, RwLockReadGuard};
use std::time::Duration;

use crate::answer::Answer;
use crate::certificate::Certificate;
use crate::fault::Error;
use crate::identity::Identity;
use crate::judge::{Heard, Judge, Judgement, SignatureQuestion};
use crate::library::CERTIFICATES;
use crate::query::{check_purpose, Asking, Profile, Query, MOST_CERTIFICATES, MOST_HANDED};
use crate::reference::{Reference, SpeakingError};
use crate::search::{Finding, Limits, Peer, Search, SearchError};
use crate::usage;
use crate::verdict::Verdict;

use answers::{finding_in, verdict_in, Form, Reply, SearchWords};
use channel::{told, Channel, Request};
use connection::Target;
use words::{moment_word, octets_word, purpose_word, MOST_LINE};

pub use delivery::Delivery;
pub use error::PartyError;

/// An answer is waited for so long, unless a party has another limit.
const LIMIT: Duration = Duration::from_secs(30);

/// The question about a path, which a party answers by what its store holds.
#[derive(Clone, Copy, Debug)]
pub struct PartyQuery<'a> {
    /// The anchor, of which the name and the key alone are used: the DER of a certificate.
    pub anchor: &'a [u8],
    /// The certificates below it, to the one in question, each in DER. There has to be one.
    pub path: &'a [&'a [u8]],
    /// In seconds from 1970-01-01T00:00:00Z, in the years 0 to 9999.
    pub moment: i64,
    /// The contents of an OBJECT IDENTIFIER, if a purpose is asked for.
    pub purpose: Option<&'a [u8]>,
}

/// Certificates that come in any order, and what is asked about one of them, which a party answers by what its store holds.
#[derive(Clone, Copy, Debug)]
pub struct PartySearch<'a> {
    /// The anchors, of which the names and the keys alone are used, each the DER of a certificate. There has to be one.
    pub anchors: &'a [&'a [u8]],
    /// What the peer sent, each in DER: the certificate in question first, and then others in any order.
    pub certificates: &'a [&'a [u8]],
    /// In seconds from 1970-01-01T00:00:00Z, in the years 0 to 9999.
    pub moment: i64,
    /// The contents of an OBJECT IDENTIFIER, if a purpose is asked for.
    pub purpose: Option<&'a [u8]>,
    /// Whom the certificate has to speak for, if that is asked.
    pub name: Option<Reference<'a>>,
}

/// A relying party with a store: a process of `x509check session`, or one behind a socket.
///
/// Statements are delivered once, and every later question is answered by the newest of them. What was answered by a [`Delivery`] is in
/// the store whatever happens to the process. If the process ends, it is started again over the same store and told again what it
/// believed, and what was not answered is asked once more: a statement that is delivered twice is kept once. A request whose second
/// process ends too gets an error.
///
/// Any number of threads may call. Their requests go through one pipe without waiting for one another's answers, and are answered in
/// order. An answer that has not the form of its request's is an error, and that process is ended. So is one that answers nobody for the
/// time that a call may take. (A line has no name of its own: one that a process writes unasked is told only by its form.)
///
/// A signature that was found good stays so for all calls, whoever judged it, until [`forget`](Party::forget); it takes 40 octets of memory
/// in the process, and about as many here. A judge that is handed to a call must not call the party itself: it may wait for ever.
///
/// A party belongs to the process that made it. In one that is forked from that, each call is an error, [`PartyError::Forked`], and nothing
/// happens if the party is dropped; a new party may be made there. The process that answers ends if the party is dropped, or if the party's
/// own process ends, whatever was forked from that.
///
/// ```
/// # fn main() -> Result<(), Box<dyn std::error::Error>> {
/// # let authority = concat!(env!("CARGO_MANIFEST_DIR"), "/../testdata");
/// # let read = |name: &str| std::fs::read(format!("{authority}/{name}"));
/// # let (root, middle, leaf) = (read("root.der")?, read("middle.der")?, read("leaf.der")?);
/// # let (root_list, middle_list, good) = (read("root.crl")?, read("middle.crl")?, read("good")?);
/// # let fingerprints: Vec<[u8; 32]> = good.chunks_exact(32).map(|print| print.try_into().unwrap()).collect();
/// # let good = x509check::Fingerprints(&fingerprints);
/// # let folder = std::env::temp_dir().join(format!("x509check-party-{}", std::process::id()));
/// # std::fs::create_dir_all(&folder)?;
/// # let (program, store) = (concat!(env!("CARGO_MANIFEST_DIR"), "/../../x509check"), folder.join("store"));
/// use std::process::Command;
/// use x509check::{Party, PartyQuery, Verdict};
///
/// let party = Party::start(Command::new(program), &store)?;
/// let delivery = party.deliver(&root, &root_list, &good)?; // the judge is asked first
/// assert_eq!((delivery.stored, delivery.kept, delivery.contradicted), (1, 0, 0));
/// # assert_eq!(party.deliver(&middle, &middle_list, &good)?.stored, 1);
///
/// let query = PartyQuery {
///     anchor: &root,
///     path: &[&middle, &leaf],
///     moment: 1_796_083_200, // 2026-12-01T00:00:00Z
///     purpose: None,
/// };
/// let answer = party.check(&query, &good)?.require_valid()?; // an error unless the verdict is valid
/// assert_eq!(answer.target.expect("a valid path ends in somebody").name, "CN=leaf,O=Example");
/// # drop(party);
/// # std::fs::remove_dir_all(&folder)?;
/// # Ok(())
/// # }
/// ```
pub struct Party {
    channel: Channel,
    /// Held by each call, and by `forget` alone if it is called: what a call believes stays believed until it is answered.
    calls: RwLock<()>,
    limit: Duration,
    /// Whether the process sees the files that are written here.
    shares_files: bool,
}

impl fmt::Debug for Party {
    fn fmt(&self, out: &mut fmt::Formatter<'_>) -> fmt::Result {
        let limit = &self.limit;
        out.debug_struct("Party")
            .field("limit", limit)
            .finish_non_exhaustive()
    }
}

impl Party {
    /// Starts the program over the store, which it makes if there is no such file. The words `session --store STORE` are added to the
    /// command; its input and output are taken, and it keeps its standard error. A store has one process.
    ///
    /// The command may have words in front of `session` before: `--profile wide` for a store of the wide profile, `--wait SECONDS` for how
    /// long a store is waited for that another process has open.
    ///
    /// The command has to become the process that answers: of a script, that it runs the program by `exec`.
    pub fn start(program: Command, store: impl AsRef<Path>) -> Result<Party, PartyError> {
        let mut program = program;
        program.arg("session").arg("--store").arg(store.as_ref());
        Party::to(Target::program(program), true)
    }

    /// Connects to a socket behind which a session answers, and again whenever the connection was closed. What is believed there may be
    /// shared with others: what one of them forgets is told again only on a new connection.
    pub fn connect(socket: impl AsRef<Path>) -> Result<Party, PartyError> {
        Party::to(Target::Socket(socket.as_ref().to_path_buf()), false)
    }

    fn to(target: Target, shares_files: bool) -> Result<Party, PartyError> {
        let party = Party {
            channel: Channel::to(target)?,
            calls: RwLock::new(()),
            limit: LIMIT,
            shares_files,
        };
        match party.channel.ask(vec![Request::greeting()], party.limit) {
            Ok(_) => Ok(party),
            Err(PartyError::Died(how)) => Err(PartyError::CannotStart(how)),
            Err(error) => Err(error),
        }
    }

    /// The party with another limit of the time for which a call waits for each answer: 30 seconds, if it has not been set. A delivery
    /// waits for two, any other call for one; what a judge takes is its own.
    #[must_use]
    pub fn with_limit(self, limit: Duration) -> Party {
        Party { limit, ..self }
    }

    /// From now on a signature with this fingerprint is good.
    pub fn believe(&self, fingerprint: &[u8; 32]) -> Result<(), PartyError> {
        let _call = self.call()?;
        self.ask_believing(&[], Request::believe(fingerprint), &[])
            .map(drop)
    }

    /// No signature is good any more, until a judge is asked again. Waits for the calls of other threads. If there is an error, the process
    /// is ended, and none is good all the same.
    pub fn forget(&self) -> Result<(), PartyError> {
        self.channel.check_process()?;
        let _alone = self.calls.write().unwrap_or_else(PoisonError::into_inner);
        let told = self.ask_believing(&[], Request::forget(), &[]);
        if told.is_err() {
            self.channel.forget();
        }
        told.map(drop)
    }

    /// The verdict on a path by what the store holds, of who believes the judge (RFC 5280, 6; RFC 6960, 3.2). It is asked about the
    /// signature of each certificate, unless that was found good before.
    pub fn check(&self, query: &PartyQuery<'_>, judge: &dyn Judge) -> Result<Answer, PartyError> {
        let _call = self.call()?;
        let asking = Asking::of(&query.at_hand(), None)?;
        let words = query.words();
        let request = Request::of(query.line(&words)?, Form::Check);
        let judge = self.judge_once(judge);
        let mut heard = Heard::nothing(&judge);
        if query.path.len() <= MOST_CERTIFICATES {
            asking.ask_about(CERTIFICATES, &mut heard)?;
        }
        let numbered: Vec<String> = (0..words.len())
            .map(|number| format!("certificates[{number}]"))
            .collect();
        let names: Vec<(&str, &str)> = words
            .iter()
            .zip(&numbered)
            .map(|(word, name)| (&word[..], &name[..]))
            .collect();
        let reply = self.ask_believing(&heard.good, request, &names)?;
        match verdict_in(reply.status, &reply.text, query.path.len()) {
            Some(verdict) => Ok(asking.answer(asking.with_usage(verdict)?, &heard)?),
            None => Err(self.distrust("check", &reply)),
        }
    }

    /// A path to the first certificate with its verdict by what the store holds, of who believes the judge (RFC 4158). It is asked about
    /// each certificate under each that has its issuer's name, unless that was found good before. The program's own limits hold
    /// (docs/REFERENCE.md, "find"), and the judge is not asked if there are more questions. If no path is found, [`Search::find`] says why;
    /// `why_not` of the answer is empty.
    pub fn find(&self, search: &PartySearch<'_>, judge: &dyn Judge) -> Result<Peer, PartyError> {
        let _call = self.call()?;
        let at_hand = search.at_hand();
        search.purpose.map_or(Ok(()), check_purpose)?;
        let questions = at_hand.questions_within_limits().map_err(of_search)?;
        let target = search.certificates[0];
        let speaks = at_hand.speaks(target).map_err(of_search)?;
        let Some(questions) = questions else {
            return Ok(Peer::without_path(Finding::GaveUp, target)?);
        };
        if !usage::allows(target, search.purpose)? {
            return Ok(Peer::without_path(Finding::NotFound, target)?);
        }
        let judge = self.judge_once(judge);
        let mut heard = Heard::nothing(&judge);
        for question in questions.iter() {
            heard.ask(&question)?;
        }
        let (finding, path) = self.found(search, &heard.good)?;
        let path: Result<Vec<Identity>, Error> = path.into_iter().map(identity_of).collect();
        Ok(Peer {
            finding: match (finding, speaks) {
                (Finding::Found(Verdict::Valid), Some(false)) => Finding::OtherName,
                _ => finding,
            },
            path: path?,
            ..Peer::without_path(finding, target)?
        })
    }

    /// What the program finds by these good signatures, and the certificates of the path.
    fn found<'a>(
        &self,
        search: &PartySearch<'a>,
        good: &[[u8; 32]],
    ) -> Result<(Finding, Vec<&'a [u8]>), PartyError> {
        let (anchors, among, target) = search.words();
        let words = SearchWords {
            anchors: &anchors,
            among: among.as_deref(),
            target: &target,
        };
        let request = Request::of(search.line(&words)?, Form::Find);
        let among = words.among.unwrap_or(words.target);
        let names = [
            (words.target, "target"),
            (words.anchors, "anchors"),
            (among, "certificates"),
        ];
        let reply = self.ask_believing(good, request, &names)?;
        let found = finding_in(&reply, &words)
            .and_then(|(finding, places)| Some((finding, search.path_of(&places)?)));
        found.ok_or_else(|| self.distrust("find", &reply))
    }

    /// A call begins, unless this process was forked from the party's own.
    fn call(&self) -> Result<RwLockReadGuard<'_, ()>, PartyError> {
        self.channel.check_process()?;
        Ok(self.calls.read().unwrap_or_else(PoisonError::into_inner))
    }

    /// The judge, which is not asked about what is believed already.
    fn judge_once<'a>(
        &'a self,
        judge: &'a dyn Judge,
    ) -> impl Fn(&SignatureQuestion<'_>) -> Judgement + 'a {
        |question| {
            if self.channel.believes(&question.fingerprint) {
                Judgement::Good
            } else {
                judge.judge(question)
            }
        }
    }

    /// The answer to a request, in front of which the process is told that these signatures are good. Operands have the names that this
    /// crate has for them.
    fn ask_believing(
        &self,
        good: &[[u8; 32]],
        request: Request,
        operands: &[(&str, &str)],
    ) -> Result<Reply, PartyError> {
        let unbelieved = self.channel.unbelieved(good);
        let mut requests: Vec<Request> = unbelieved.iter().map(Request::believe).collect();
        requests.push(request);
        let mut replies = self.channel.ask(requests, self.limit)?;
        let last = replies
            .pop()
            .ok_or(PartyError::Request("nothing is asked"))?;
        for reply in replies {
            unless_refused(reply, &[])?;
        }
        unless_refused(last, operands)
    }

    /// The error of an answer that contradicts itself or its request; the process is ended.
    fn distrust(&self, asked: &str, reply: &Reply) -> PartyError {
        self.channel.distrust();
        let last = reply.lines.last().unwrap_or(&reply.text);
        PartyError::Garbled(format!("{asked}: {} {}", reply.status, told(last)))
    }
}

impl<'a> PartyQuery<'a> {
    /// The same question by no statements, which has the same certificates and signatures. Points are the program's matter.
    fn at_hand(&self) -> Query<'a> {
        Query {
            anchor: self.anchor,
            path: self.path,
            statements: &[],
            moment: self.moment,
            purpose: self.purpose,
            profile: Profile::Stated,
        }
    }

    /// The anchor and the path as words. Of a path that is too long one certificate too many is enough.
    fn words(&self) -> Vec<String> {
        let path = &self.path[..self.path.len().min(MOST_HANDED)];
        [&[self.anchor], path]
            .concat()
            .into_iter()
            .map(octets_word)
            .collect()
    }

    fn line(&self, words: &[String]) -> Result<String, PartyError> {
        if self.path.is_empty() {
            return Err(PartyError::Request("a path has at least one certificate"));
        }
        let (moment, purpose) = (moment_word(self.moment)?, purpose_word(self.purpose)?);
        one_line(format!("check {moment}{purpose} {}", words.join(" ")))
    }
}

impl<'a> PartySearch<'a> {
    /// The same search by no statements.
    fn at_hand(&self) -> Search<'a> {
        Search {
            anchors: self.anchors,
            certificates: self.certificates,
            statements: &[],
            moment: self.moment,
            purpose: self.purpose,
            name: self.name,
            limits: Limits::default(),
            profile: Profile::Stated,
        }
    }

    /// The anchors, the others if there are any, and the target as words.
    fn words(&self) -> (String, Option<String>, String) {
        let target = self.certificates.first().copied().unwrap_or_default();
        let others = self.certificates.get(1..).unwrap_or_default();
        let among = (!others.is_empty()).then(|| octets_word(&others.concat()));
        (
            octets_word(&self.anchors.concat()),
            among,
            octets_word(target),
        )
    }

    fn line(&self, words: &SearchWords<'_>) -> Result<String, PartyError> {
        if self.anchors.is_empty() {
            return Err(PartyError::Request("there is no anchor"));
        }
        let (moment, purpose) = (moment_word(self.moment)?, purpose_word(self.purpose)?);
        let among = words.among.map_or(String::new(), |word| format!(" {word}"));
        one_line(format!(
            "find {moment}{purpose} {}{among} {}",
            words.anchors, words.target
        ))
    }

    /// The certificates of a path, of which these are the places among the anchors, the others, and the target.
    fn path_of(&self, places: &[usize]) -> Option<Vec<&'a [u8]>> {
        let last = places.len().saturating_sub(1);
        let certificate = |(number, place): (usize, &usize)| match number {
            0 => self.anchors.get(*place),
            _ if number == last => self.certificates.first(),
            _ => self.certificates.get(1 + place),
        };
        places
            .iter()
            .enumerate()
            .map(|it| certificate(it).copied())
            .collect()
    }
}

/// The line, if it is not too long for one.
fn one_line(line: String) -> Result<String, PartyError> {
    if line.len() > MOST_LINE {
        return Err(PartyError::Request(
            "what is asked does not fit into a line of 2^20 octets",
        ));
    }
    Ok(line)
}

fn identity_of(octets: &[u8]) -> Result<Identity, Error> {
    Certificate::read(octets)?.identity()
}

fn of_search(error: SearchError) -> PartyError {
    match error {
        SearchError::NoTarget => PartyError::Request("no certificate is in question"),
        SearchError::TooManyQuestions => PartyError::Request("there are too many questions"),
        SearchError::Speaking(SpeakingError::Library(error)) => PartyError::Input(error),
        SearchError::Speaking(error) => PartyError::Speaking(error),
    }
}

/// The answer, or the error of a refusal, which names its operand by the name that this crate has for it and not by the octets.
fn unless_refused(reply: Reply, operands: &[(&str, &str)]) -> Result<Reply, PartyError> {
    if reply.status < 4 {
        return Ok(reply);
    }
    let (operand, why) = reply.text.split_once(": ").unwrap_or(("", &reply.text));
    let text = match operands.iter().find(|(word, _)| *word == operand) {
        Some((_, name)) => format!("{name}: {why}"),
        None => reply.text,
    };
    Err(PartyError::Refused {
        status: reply.status,
        text,
    })
}
