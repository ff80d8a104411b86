//! A process that answers lines, or a socket behind which somebody does.

use std::io::{self, Read, Write};
use std::net::Shutdown;
use std::os::raw::{c_int, c_ulong};
use std::os::unix::net::UnixStream;
use std::os::unix::process::CommandExt;
use std::path::PathBuf;
use std::process::{self, Child, Command, Stdio};
use std::thread;
use std::time::{Duration, Instant};

/// For so long a process that closed its output is waited for, so that it is known how it ended.
const ENDING: Duration = Duration::from_millis(200);

/// Whom lines are sent to.
pub(crate) enum Target {
    /// The program with its words.
    Program(Command),
    /// Whoever listens there.
    Socket(PathBuf),
}

/// The two ways of lines, and what ends both.
pub(crate) struct Connection {
    pub requests: Box<dyn Write + Send>,
    pub answers: Box<dyn Read + Send>,
    pub end: End,
}

/// What ends a connection.
pub(crate) enum End {
    Process(Child),
    Socket(UnixStream),
}

/// PR_SET_PDEATHSIG (prctl(2)) and SIGTERM.
const SET_SIGNAL_OF_DEATH: c_int = 1;
const TERMINATE: c_ulong = 15;

extern "C" {
    fn prctl(option: c_int, ...) -> c_int;
    fn getppid() -> c_int;
}

impl Target {
    /// The program, whose process ends with this one. That its input ends then does not suffice: whatever was forked from this process has
    /// the other end of that pipe too.
    pub(crate) fn program(mut program: Command) -> Target {
        let parent = process::id();
        let end_with_parent = move || {
            // (either call only speaks of the new process itself)
            let is_set = unsafe { prctl(SET_SIGNAL_OF_DEATH, TERMINATE) } == 0;
            let is_alive = u32::try_from(unsafe { getppid() }) == Ok(parent);
            match is_set && is_alive {
                true => Ok(()),
                false => Err(io::Error::last_os_error()),
            }
        };
        // Between fork and exec it makes two calls to the system and takes no memory.
        unsafe { program.pre_exec(end_with_parent) };
        Target::Program(program)
    }

    pub(crate) fn connect(&mut self) -> io::Result<Connection> {
        match self {
            Target::Program(program) => started(program),
            Target::Socket(path) => {
                let stream = UnixStream::connect(path)?;
                Ok(Connection {
                    requests: Box::new(stream.try_clone()?),
                    answers: Box::new(stream.try_clone()?),
                    end: End::Socket(stream),
                })
            }
        }
    }
}

fn started(program: &mut Command) -> io::Result<Connection> {
    let mut child = program
        .stdin(Stdio::piped())
        .stdout(Stdio::piped())
        .spawn()?;
    match (child.stdin.take(), child.stdout.take()) {
        (Some(requests), Some(answers)) => Ok(Connection {
            requests: Box::new(requests),
            answers: Box::new(answers),
            end: End::Process(child),
        }),
        _ => Err(io::Error::new(
            io::ErrorKind::Other,
            "a process without pipes",
        )),
    }
}

impl End {
    /// Ends the connection: whoever reads or writes it finds its end.
    pub(crate) fn cut(&mut self) {
        // (either fails only if it has ended already)
        match self {
            End::Process(child) => {
                let _ = child.kill();
            }
            End::Socket(stream) => {
                let _ = stream.shutdown(Shutdown::Both);
            }
        }
    }

    /// Waits for the end of a process whose pipes have ended, and says how it ended.
    pub(crate) fn wait(mut self) -> String {
        let End::Process(child) = &mut self else {
            return "the connection was closed".into();
        };
        let begun = Instant::now();
        while begun.elapsed() < ENDING {
            match child.try_wait() {
                Ok(None) => thread::sleep(Duration::from_millis(2)),
                _ => break,
            }
        }
        let _ = child.kill();
        match child.wait() {
            Ok(status) => status.to_string(),
            Err(error) => error.to_string(),
        }
    }
}
