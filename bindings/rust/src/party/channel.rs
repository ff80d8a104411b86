//! Requests from many threads to one process, and its answers in the same order. A process that ends is started again.
//!
//! One thread writes the requests, and another reads the answers, so that neither waits for the other. The first of them lives as long as
//! the channel and starts the process; the second as long as that process.

use std::collections::{BTreeSet, VecDeque};
use std::io::{BufRead, BufReader, Read, Write};
use std::mem;
use std::process;
use std::sync::atomic::{AtomicBool, Ordering};
use std::sync::mpsc::{self, RecvTimeoutError};
use std::sync::{Arc, Condvar, Mutex, MutexGuard, PoisonError};
use std::thread::{self, JoinHandle};
use std::time::{Duration, Instant};

use crate::party::answers::{Form, Reply, GREETING};
use crate::party::connection::{Connection, End, Target};
use crate::party::words::hex;
use crate::party::PartyError;
use crate::query::MOST_CERTIFICATES;

/// The octets that an answer may have beside those that echo its request.
const MOST_ANSWER: usize = 1 << 16;
/// So many octets of an answer that is none are told.
const MOST_TOLD: usize = 80;

/// A line, and what its answer looks like.
pub(crate) struct Request {
    pub line: String,
    pub form: Form,
    /// How many octets a file has that it names.
    pub handed: usize,
}

impl Request {
    /// The request with no file that it names.
    pub(crate) fn of(line: String, form: Form) -> Request {
        Request {
            line,
            form,
            handed: 0,
        }
    }

    pub(crate) fn greeting() -> Request {
        Request::of(GREETING.into(), Form::Greeting)
    }

    pub(crate) fn forget() -> Request {
        Request::of("forget".into(), Form::Forget)
    }

    pub(crate) fn believe(print: &[u8; 32]) -> Request {
        Request::of(format!("believe {}", hex(print)), Form::Believe(*print))
    }

    /// The octets that its answer may have: `find` names octets as they stand in the line, once for each certificate of a path; `prints`
    /// has two lines for each certificate that comes with a response; and a failure names its operand.
    fn most(&self) -> usize {
        let longer = match self.form {
            Form::Find => self.line.len().saturating_mul(MOST_CERTIFICATES + 1),
            _ => (self.line.len().saturating_add(self.handed)).saturating_mul(16),
        };
        MOST_ANSWER.saturating_add(longer)
    }
}

/// Who waits for an answer.
struct Caller {
    heard: mpsc::Sender<Result<Reply, PartyError>>,
    is_gone: Arc<AtomicBool>,
}

/// A request that is not answered yet.
struct Pending {
    request: Request,
    /// Nobody, if a process is told again what the one before it knew.
    caller: Option<Caller>,
    /// How many processes ended when it was first in the row.
    deaths: u32,
    /// As in the state when it was asked.
    era: u64,
}

impl Pending {
    fn is_wanted(&self) -> bool {
        let is_gone = |it: &Caller| it.is_gone.load(Ordering::Relaxed);
        self.caller.as_ref().is_some_and(|it| !is_gone(it))
    }

    fn tell(&self, answer: Result<Reply, PartyError>) {
        if let Some(caller) = &self.caller {
            // (a caller that is gone hears nothing)
            let _ = caller.heard.send(answer);
        }
    }
}

struct State {
    /// What is not sent yet.
    queue: VecDeque<Pending>,
    /// What was sent, in the order of its answers.
    sent: VecDeque<Pending>,
    /// What the process has answered that it believes.
    believed: BTreeSet<[u8; 32]>,
    /// How often a request to forget has failed: what was asked to be believed before that is not believed by a late answer.
    era: u64,
    /// Whether the next process, or whoever is behind a socket, has to be asked to forget first.
    owes_forgetting: bool,
    end: Option<End>,
    /// Why nothing more is heard from this process.
    over: Option<PartyError>,
    /// When a request was answered last.
    answered: Instant,
    is_closing: bool,
}

struct Shared {
    state: Mutex<State>,
    changed: Condvar,
}

/// A process that answers lines, started again whenever it ended. Any number of threads may ask.
pub(crate) struct Channel {
    shared: Arc<Shared>,
    worker: Option<JoinHandle<()>>,
    /// The number of the process that has these threads.
    process: u32,
}

impl Channel {
    /// The channel; the process is started as soon as something is asked.
    pub(crate) fn to(target: Target) -> Result<Channel, PartyError> {
        let state = State {
            queue: VecDeque::new(),
            sent: VecDeque::new(),
            believed: BTreeSet::new(),
            era: 0,
            owes_forgetting: false,
            end: None,
            over: None,
            answered: Instant::now(),
            is_closing: false,
        };
        let shared = Arc::new(Shared {
            state: Mutex::new(state),
            changed: Condvar::new(),
        });
        let theirs = Arc::clone(&shared);
        let worker = thread::Builder::new()
            .name("x509check party".into())
            .spawn(move || theirs.work(target))
            .map_err(|error| PartyError::CannotStart(error.to_string()))?;
        Ok(Channel {
            shared,
            worker: Some(worker),
            process: process::id(),
        })
    }

    /// An error in a process that was forked from the one that has the threads. Nothing else may be touched there: a lock may be held for
    /// ever.
    pub(crate) fn check_process(&self) -> Result<(), PartyError> {
        match self.process == process::id() {
            true => Ok(()),
            false => Err(PartyError::Forked),
        }
    }

    /// The answers to requests that are sent one behind the other, with none of another caller's between them.
    pub(crate) fn ask(
        &self,
        requests: Vec<Request>,
        limit: Duration,
    ) -> Result<Vec<Reply>, PartyError> {
        let begun = Instant::now();
        let (count, is_gone) = (requests.len(), Arc::new(AtomicBool::new(false)));
        let (heard, answers) = mpsc::channel();
        self.shared.put(requests, heard, &is_gone);
        let next = || match answers.recv_timeout(limit.saturating_sub(begun.elapsed())) {
            Ok(answer) => answer,
            Err(RecvTimeoutError::Timeout) => Err(PartyError::TimedOut(limit)),
            Err(RecvTimeoutError::Disconnected) => {
                Err(PartyError::Died("its thread has ended".into()))
            }
        };
        let found = (0..count).map(|_| next()).collect();
        is_gone.store(true, Ordering::Relaxed);
        if matches!(found, Err(PartyError::TimedOut(_))) {
            self.shared.give_up(begun);
        }
        found
    }

    /// Which of the fingerprints the process does not believe yet.
    pub(crate) fn unbelieved(&self, prints: &[[u8; 32]]) -> Vec<[u8; 32]> {
        let state = self.shared.lock();
        prints
            .iter()
            .filter(|print| !state.believed.contains(*print))
            .copied()
            .collect()
    }

    pub(crate) fn believes(&self, print: &[u8; 32]) -> bool {
        self.shared.lock().believed.contains(print)
    }

    /// Ends the process, whose answer made no sense; the next request starts another.
    pub(crate) fn distrust(&self) {
        self.shared.cut();
    }

    /// Nothing is believed any more, whether the process has answered that or not: it is ended, and the next one is asked again.
    pub(crate) fn forget(&self) {
        let mut state = self.shared.lock();
        state.believed.clear();
        state.era += 1;
        state.owes_forgetting = true;
        drop(state);
        self.shared.cut();
    }
}

/// The process is killed, and not only left without input: whatever was forked from this one has the other end of that pipe too. What was
/// answered is in the store.
impl Drop for Channel {
    fn drop(&mut self) {
        let worker = self.worker.take();
        if self.check_process().is_err() {
            // (there is no such thread here, and the connection is the other's)
            mem::forget(worker);
            return;
        }
        self.shared.lock().is_closing = true;
        self.shared.changed.notify_all();
        self.shared.cut();
        if let Some(worker) = worker {
            let _ = worker.join();
        }
    }
}

impl Shared {
    /// The state; a thread that panicked left it whole, since each change of it is one statement.
    fn lock(&self) -> MutexGuard<'_, State> {
        self.state.lock().unwrap_or_else(PoisonError::into_inner)
    }

    /// Waits for a change as long as the condition holds.
    fn wait_while(&self, condition: impl Fn(&State) -> bool) -> MutexGuard<'_, State> {
        self.changed
            .wait_while(self.lock(), |state| condition(state))
            .unwrap_or_else(PoisonError::into_inner)
    }

    fn put(
        &self,
        requests: Vec<Request>,
        heard: mpsc::Sender<Result<Reply, PartyError>>,
        is_gone: &Arc<AtomicBool>,
    ) {
        let mut state = self.lock();
        let era = state.era;
        let pending = requests.into_iter().map(|request| Pending {
            request,
            caller: Some(Caller {
                heard: heard.clone(),
                is_gone: Arc::clone(is_gone),
            }),
            deaths: 0,
            era,
        });
        state.queue.extend(pending);
        drop(state);
        self.changed.notify_all();
    }

    fn cut(&self) {
        if let Some(end) = &mut self.lock().end {
            end.cut();
        }
    }

    /// Ends a process that has answered nobody since that moment: it hangs. Else the answer comes late, and nobody hears it.
    fn give_up(&self, since: Instant) {
        let mut state = self.lock();
        state.queue.retain(Pending::is_wanted);
        if state.answered < since && !state.sent.is_empty() {
            if let Some(end) = &mut state.end {
                end.cut();
            }
        }
    }

    /// Starts a process whenever something is asked and there is none, until the channel is closed.
    fn work(&self, mut target: Target) {
        loop {
            let state = self.wait_while(|it| it.queue.is_empty() && !it.is_closing);
            if state.is_closing {
                break;
            }
            drop(state);
            match target.connect() {
                Ok(connection) => self.serve(connection),
                Err(error) => self.refuse_all(&PartyError::CannotStart(error.to_string())),
            }
        }
    }

    fn refuse_all(&self, why: &PartyError) {
        let queue = mem::take(&mut self.lock().queue);
        queue.iter().for_each(|it| it.tell(Err(why.clone())));
    }

    /// The life of one process.
    fn serve(&self, connection: Connection) {
        let Connection {
            mut requests,
            answers,
            end,
        } = connection;
        self.begin(end);
        let text = self.opening();
        thread::scope(|scope| {
            let listener = thread::Builder::new().name("x509check answers".into());
            match listener.spawn_scoped(scope, || self.listen(answers)) {
                Ok(_) => self.speak(&mut *requests, text),
                Err(error) => self.refuse_all(&PartyError::CannotStart(error.to_string())),
            }
            drop(requests);
            self.cut_unless_over();
        });
        let end = self.lock().end.take();
        let how = end.map_or_else(String::new, End::wait);
        self.settle(how);
    }

    /// From now on the connection may be cut; it is, if the channel is closed already.
    fn begin(&self, mut end: End) {
        let mut state = self.lock();
        if state.is_closing {
            end.cut();
        }
        state.end = Some(end);
    }

    /// Cuts a connection that its other side has not ended.
    fn cut_unless_over(&self) {
        let mut state = self.lock();
        let is_over = state.over.is_some();
        if let (false, Some(end)) = (is_over, &mut state.end) {
            end.cut();
        }
    }

    /// Sends how it begins, and then what is asked, until the process ends or the channel is closed.
    fn speak(&self, requests: &mut dyn Write, opening: String) {
        let mut text = opening;
        while requests
            .write_all(text.as_bytes())
            .and_then(|()| requests.flush())
            .is_ok()
        {
            let state =
                self.wait_while(|it| it.queue.is_empty() && it.over.is_none() && !it.is_closing);
            if state.over.is_some() || state.is_closing {
                return;
            }
            text = sent(state);
        }
    }

    /// The lines with which a process begins: what is believed. Behind a socket somebody may believe what was said on a connection before.
    fn opening(&self) -> String {
        let mut state = self.lock();
        let forget = state.owes_forgetting.then(Request::forget);
        let believed = state.believed.iter().map(Request::believe);
        let pending = forget.into_iter().chain(believed).map(|request| Pending {
            request,
            caller: None,
            deaths: 0,
            era: state.era,
        });
        state.sent = pending.collect();
        lines_of(state.sent.iter())
    }

    /// Reads answers until there are no more, or one is none.
    fn listen(&self, answers: Box<dyn Read + Send>) {
        let mut answers = BufReader::new(answers);
        let why = loop {
            if let Err(why) = self.hear(&mut answers) {
                break why;
            }
        };
        let mut state = self.lock();
        if let (PartyError::Garbled(_), Some(end)) = (&why, &mut state.end) {
            end.cut();
        }
        state.over = Some(why);
        drop(state);
        self.changed.notify_all();
    }

    /// Reads the next answer and tells it to whom it is for.
    fn hear(&self, answers: &mut impl BufRead) -> Result<(), PartyError> {
        if !answers.fill_buf().is_ok_and(|octets| !octets.is_empty()) {
            return Err(PartyError::Died(String::new()));
        }
        let first = self.lock().sent.front().map(|it| {
            (
                it.request.form,
                it.request.most(),
                word_of(&it.request.line),
                it.caller.is_none(),
            )
        });
        let Some((form, most, asked, is_opening)) = first else {
            return Err(PartyError::Garbled("a line that answers nothing".into()));
        };
        let garbled = |line: &str| PartyError::Garbled(format!("{asked}: {}", told(line)));
        let mut answers = answers.take(most as u64);
        let line = line_from(&mut answers, &asked)?;
        let (status, text, more) = form.head(&line).ok_or_else(|| garbled(&line))?;
        if is_opening && form == Form::Forget && status != 0 {
            return Err(garbled(&line));
        }
        let lines: Result<Vec<String>, PartyError> =
            (0..more).map(|_| line_from(&mut answers, &asked)).collect();
        self.pass_on(Reply {
            status,
            text: text.into(),
            lines: lines?,
        });
        Ok(())
    }

    /// Gives an answer to the first that waits.
    fn pass_on(&self, reply: Reply) {
        let mut state = self.lock();
        let Some(pending) = state.sent.pop_front() else {
            return;
        };
        match pending.request.form {
            Form::Believe(print) if reply.status == 0 && pending.era == state.era => {
                state.believed.insert(print);
            }
            Form::Forget if reply.status == 0 => {
                state.believed.clear();
                state.owes_forgetting &= pending.caller.is_some();
            }
            _ => {}
        }
        if pending.caller.is_some() {
            state.answered = Instant::now();
        }
        drop(state);
        pending.tell(Ok(reply));
    }

    /// What becomes of requests whose process has ended: they are sent again, except that nobody waits for those of the process itself or
    /// of who is gone, and that the first has had its second chance.
    fn settle(&self, how: String) {
        let mut state = self.lock();
        let why = match state.over.take() {
            Some(PartyError::Garbled(what)) => PartyError::Garbled(what),
            _ => PartyError::Died(how),
        };
        let mut again: VecDeque<Pending> = mem::take(&mut state.sent);
        again.append(&mut state.queue);
        again.retain(Pending::is_wanted);
        if let Some(first) = again.front_mut() {
            first.deaths += 1;
            if first.deaths == 2 || matches!(why, PartyError::Garbled(_)) {
                again
                    .pop_front()
                    .into_iter()
                    .for_each(|it| it.tell(Err(why.clone())));
            }
        }
        state.queue = again;
    }
}

/// The lines of what is asked, which is sent now.
fn sent(mut state: MutexGuard<'_, State>) -> String {
    let mut queue = mem::take(&mut state.queue);
    queue.retain(Pending::is_wanted);
    let text = lines_of(queue.iter());
    state.sent.append(&mut queue);
    text
}

fn lines_of<'p>(pending: impl Iterator<Item = &'p Pending>) -> String {
    let mut text = String::new();
    for it in pending {
        text.push_str(&it.request.line);
        text.push('\n');
    }
    text
}

/// A line without its end; it ends before the limit of the reader.
fn line_from(
    answers: &mut std::io::Take<&mut impl BufRead>,
    asked: &str,
) -> Result<String, PartyError> {
    let mut octets = Vec::new();
    let is_read = answers.read_until(b'\n', &mut octets).is_ok();
    if octets.last() != Some(&b'\n') {
        let is_endless = is_read && answers.limit() == 0;
        return Err(match is_endless {
            true => PartyError::Garbled(format!("{asked}: more than an answer has")),
            false => PartyError::Died(String::new()),
        });
    }
    octets.pop();
    String::from_utf8(octets).map_err(|error| {
        let text = String::from_utf8_lossy(error.as_bytes());
        PartyError::Garbled(format!("{asked}: {}", told(&text)))
    })
}

/// The first word of a request.
fn word_of(line: &str) -> String {
    line.split(' ').next().unwrap_or_default().into()
}

/// The beginning of a line, in printable ASCII.
pub(crate) fn told(line: &str) -> String {
    let begin: String = line.chars().take(MOST_TOLD).collect();
    format!("\"{}\"", begin.escape_default())
}
