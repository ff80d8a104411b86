//! A party in a process that is forked from its own, as by servers that fork before they serve.

use std::os::raw::c_int;
use std::os::unix::net::UnixListener;
use std::path::{Path, PathBuf};
use std::process::{self, Command};
use std::time::{Duration, Instant};
use std::{env, fs, ptr, thread};

use x509check::{Fingerprints, Party, PartyError, PartyQuery, PartySearch, Verdict};

const PROGRAM: &str = concat!(env!("CARGO_MANIFEST_DIR"), "/../../x509check");
/// WNOHANG (waitpid(2)) and SIGKILL.
const DO_NOT_WAIT: c_int = 1;
const KILL: c_int = 9;
const SOON: Duration = Duration::from_secs(10);

extern "C" {
    fn fork() -> c_int;
    fn _exit(status: c_int) -> !;
    fn waitpid(process: c_int, status: *mut c_int, options: c_int) -> c_int;
    fn kill(process: c_int, signal: c_int) -> c_int;
}

/// A process that is forked from this one, does this, and ends with the status 0 if that is so.
fn forked(work: impl FnOnce() -> bool) -> c_int {
    // The other process has this thread alone, and the locks of the allocator are free there.
    match unsafe { fork() } {
        0 => {
            let status = c_int::from(!work());
            unsafe { _exit(status) }
        }
        process => process,
    }
}

/// Whether the process ends soon with the status 0. It is killed if it does not end.
fn succeeds(process: c_int) -> bool {
    let (mut status, begun) = (0, Instant::now());
    loop {
        // The status is written to this variable.
        if unsafe { waitpid(process, &mut status, DO_NOT_WAIT) } == process {
            return status == 0;
        }
        if begun.elapsed() > SOON {
            end(process);
            return false;
        }
        thread::sleep(Duration::from_millis(2));
    }
}

fn end(process: c_int) {
    // These only speak of a process of this test.
    unsafe {
        kill(process, KILL);
        waitpid(process, ptr::null_mut(), 0);
    }
}

fn sleep() -> bool {
    thread::sleep(Duration::from_secs(60));
    true
}

fn read(name: &str) -> Vec<u8> {
    fs::read(format!("{}/../testdata/{name}", env!("CARGO_MANIFEST_DIR"))).expect(name)
}

/// A party whose process writes its number to a file.
fn start(folder: &Path) -> Party {
    let script = r#"echo $$ >"$0.new" && mv "$0.new" "$0" && exec "$@""#;
    let mut program = Command::new("sh");
    program.args(["-c", script]).arg(folder.join("pid"));
    program.arg(PROGRAM);
    Party::start(program, folder.join("store")).unwrap()
}

fn process_of(folder: &Path) -> c_int {
    let number = fs::read_to_string(folder.join("pid")).unwrap();
    number.trim().parse().unwrap()
}

/// Whether there is a process that is no zombie.
fn is_alive(process: c_int) -> bool {
    let stat = fs::read_to_string(format!("/proc/{process}/stat")).unwrap_or_default();
    let state = stat.rsplit(") ").next().unwrap_or_default();
    !state.is_empty() && !state.starts_with('Z')
}

fn ends_soon(process: c_int) -> bool {
    let begun = Instant::now();
    while is_alive(process) && begun.elapsed() < SOON {
        thread::sleep(Duration::from_millis(2));
    }
    !is_alive(process)
}

fn verdict(party: &Party) -> Result<Verdict, PartyError> {
    let (root, middle, leaf) = (read("root.der"), read("middle.der"), read("leaf.der"));
    let query = PartyQuery {
        anchor: &root,
        path: &[&middle, &leaf],
        moment: 1_796_083_200, // 2026-12-01T00:00:00Z
        purpose: None,
    };
    let good = read("good");
    let good: Vec<[u8; 32]> = good
        .chunks_exact(32)
        .map(|print| print.try_into().unwrap())
        .collect();
    party
        .check(&query, &Fingerprints(&good))
        .map(|answer| answer.verdict)
}

const UNKNOWN: Result<Verdict, PartyError> = Ok(Verdict::Unknown { certificate: 1 });

/// Whether each call is refused at once.
fn is_refused(party: &Party) -> bool {
    let (root, nobody) = (read("root.der"), Fingerprints(&[]));
    let search = PartySearch {
        anchors: &[&root],
        certificates: &[&root],
        moment: 0,
        purpose: None,
        name: None,
    };
    let each = [
        verdict(party).map(drop),
        party.find(&search, &nobody).map(drop),
        party.deliver(&root, &read("root.crl"), &nobody).map(drop),
        party.believe(&[0; 32]),
        party.forget(),
    ];
    each.iter().all(|told| told == &Err(PartyError::Forked))
}

/// One test, so that no other one has threads while this forks.
#[test]
fn a_process_that_is_forked() {
    let folder = env::temp_dir().join(format!("x509check-fork-{}", process::id()));
    fs::create_dir(&folder).unwrap();
    has_no_party(&folder);
    has_no_connection(&folder.join("socket"));
    keeps_no_process_alive(&folder);
    keeps_no_process_of_a_dead_one_alive(&folder);
    fs::remove_dir_all(&folder).unwrap();
}

fn has_no_party(folder: &Path) {
    let party = start(folder);
    assert_eq!(verdict(&party), UNKNOWN);
    let answering = process_of(folder);
    assert!(succeeds(forked(|| is_refused(&party))));
    // A copy that is dropped is that of a process which drops nothing else.
    let drops = || {
        drop(unsafe { ptr::read(&party) });
        true
    };
    assert!(succeeds(forked(drops)));
    let has_its_own = || {
        let other = folder.join("other");
        fs::create_dir(&other).unwrap();
        verdict(&start(&other)) == UNKNOWN
    };
    assert!(succeeds(forked(has_its_own)));
    assert_eq!(verdict(&party), UNKNOWN);
    assert_eq!(process_of(folder), answering);
}

fn has_no_connection(socket: &PathBuf) {
    let listener = UnixListener::bind(socket).unwrap();
    let greets = thread::spawn(move || {
        use std::io::{BufRead, BufReader, Write};
        let (stream, _) = listener.accept().unwrap();
        for line in BufReader::new(&stream).lines() {
            let answer = match &line.unwrap()[..] {
                "greeting" => "5 bad line",
                line if line.starts_with("believe ") => "0 believed",
                _ => "3 unknown 1",
            };
            writeln!(&stream, "{answer}").unwrap();
        }
    });
    let party = Party::connect(socket).unwrap();
    assert_eq!(verdict(&party), UNKNOWN);
    let refuses_and_drops = || {
        let is_refused = is_refused(&party);
        drop(unsafe { ptr::read(&party) });
        is_refused
    };
    assert!(succeeds(forked(refuses_and_drops)));
    // (nobody listens for another connection)
    assert_eq!(verdict(&party), UNKNOWN);
    drop(party);
    greets.join().unwrap();
}

/// The worker has the end of the pipe that the party closes.
fn keeps_no_process_alive(folder: &Path) {
    let party = start(folder);
    let answering = process_of(folder);
    let worker = forked(sleep);
    let begun = Instant::now();
    drop(party);
    assert!(begun.elapsed() < Duration::from_millis(1_500));
    assert!(!is_alive(answering));
    end(worker);
}

/// The process with the party ends without having dropped it, and its worker lives on.
fn keeps_no_process_of_a_dead_one_alive(folder: &Path) {
    let main = forked(|| {
        let party = start(folder);
        let worker = forked(sleep);
        let is_noted = fs::write(folder.join("worker"), worker.to_string()).is_ok();
        std::mem::forget(party);
        is_noted
    });
    assert!(succeeds(main));
    let answering = process_of(folder);
    assert!(ends_soon(answering));
    let worker: c_int = fs::read_to_string(folder.join("worker"))
        .unwrap()
        .parse()
        .unwrap();
    assert!(is_alive(worker));
    end(worker);
}
