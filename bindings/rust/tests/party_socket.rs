//! A party behind a socket, whose server starts the program for each connection; and what parties leave behind.

use std::fs;
use std::io::{Read, Write};
use std::net::Shutdown;
use std::os::unix::net::{UnixListener, UnixStream};
use std::path::{Path, PathBuf};
use std::process::{Child, Command, Stdio};
use std::sync::{Arc, Mutex};
use std::thread;
use std::time::Duration;

use x509check::{Fingerprints, Party, PartyError, PartyQuery, Verdict};

const PROGRAM: &str = concat!(env!("CARGO_MANIFEST_DIR"), "/../../x509check");

fn read(name: &str) -> Vec<u8> {
    fs::read(format!("{}/../testdata/{name}", env!("CARGO_MANIFEST_DIR"))).expect(name)
}

fn good() -> Vec<[u8; 32]> {
    read("good")
        .chunks_exact(32)
        .map(|print| print.try_into().unwrap())
        .collect()
}

/// The process of a connection, and that connection.
type Served = Arc<Mutex<Option<(Child, UnixStream)>>>;

/// Copies until one side ends, piece by piece.
fn copy(mut from: impl Read, mut to: impl Write) {
    let mut piece = [0; 4096];
    while let Ok(length @ 1..) = from.read(&mut piece) {
        if to
            .write_all(&piece[..length])
            .and_then(|()| to.flush())
            .is_err()
        {
            return;
        }
    }
}

/// Serves one connection after the other, each by a process over the store.
fn serve(listener: UnixListener, store: PathBuf, served: Served) {
    for stream in listener.incoming() {
        let stream = stream.unwrap();
        let mut child = Command::new(PROGRAM)
            .arg("session")
            .arg("--store")
            .arg(&store)
            .stdin(Stdio::piped())
            .stdout(Stdio::piped())
            .spawn()
            .unwrap();
        let (requests, answers) = (child.stdin.take().unwrap(), child.stdout.take().unwrap());
        let (reading, writing) = (stream.try_clone().unwrap(), stream.try_clone().unwrap());
        *served.lock().unwrap() = Some((child, stream));
        let asks = thread::spawn(move || copy(reading, requests));
        copy(answers, writing);
        if let Some((mut child, stream)) = served.lock().unwrap().take() {
            let _ = stream.shutdown(Shutdown::Both);
            let _ = child.wait();
        }
        asks.join().unwrap();
    }
}

fn verdict(party: &Party, good: &[[u8; 32]]) -> Result<Verdict, PartyError> {
    let (root, middle, leaf) = (read("root.der"), read("middle.der"), read("leaf.der"));
    let query = PartyQuery {
        anchor: &root,
        path: &[&middle, &leaf],
        moment: 1_796_083_200, // 2026-12-01T00:00:00Z
        purpose: None,
    };
    party
        .check(&query, &Fingerprints(good))
        .map(|answer| answer.verdict)
}

fn deliver(party: &Party) {
    for name in ["root", "middle"] {
        let (issuer, list) = (read(&format!("{name}.der")), read(&format!("{name}.crl")));
        let delivery = party
            .deliver(&issuer, &list, &Fingerprints(&good()))
            .unwrap();
        assert_eq!(delivery.contradicted, 0);
    }
}

/// What of a process's number of open descriptors, of threads and of children there is.
fn held() -> (usize, usize, usize) {
    let entries = |path: &str| fs::read_dir(path).unwrap().count();
    let mine = std::process::id().to_string();
    let is_child = |path: &Path| {
        let stat = fs::read_to_string(path.join("stat")).unwrap_or_default();
        let behind = stat.rsplit(") ").next().unwrap_or_default().to_string();
        behind.split(' ').nth(1) == Some(&mine)
    };
    let children = fs::read_dir("/proc")
        .unwrap()
        .filter(|it| is_child(&it.as_ref().unwrap().path()));
    (
        entries("/proc/self/fd"),
        entries("/proc/self/task"),
        children.count(),
    )
}

/// One test, so that no other one opens or starts anything beside it.
#[test]
fn a_socket_and_what_is_left_behind() {
    let folder = std::env::temp_dir().join(format!("x509check-socket-{}", std::process::id()));
    fs::create_dir(&folder).unwrap();
    let before = held();
    for round in 0..20 {
        let store = folder.join(format!("{}", round % 2));
        let party = Party::start(Command::new(PROGRAM), store).unwrap();
        deliver(&party);
        assert_eq!(verdict(&party, &good()), Ok(Verdict::Valid));
    }
    for script in [
        "exit 1",
        "cat",
        "read -r line; echo '5 bad line'; exec sleep 1000",
        "read -r line; echo '5 bad line'; exec >&-; exec sleep 1000",
    ] {
        let mut program = Command::new("sh");
        program.args(["-c", script]);
        if let Ok(party) = Party::start(program, folder.join("store")) {
            let party = party.with_limit(Duration::from_millis(100));
            assert!(verdict(&party, &good()).is_err());
        }
    }
    // (the system takes a moment to forget a thread that was waited for)
    for _ in 0..200 {
        if held() == before {
            break;
        }
        thread::sleep(Duration::from_millis(10));
    }
    assert_eq!(held(), before);
    over_a_socket(&folder);
    fs::remove_dir_all(&folder).unwrap();
}

fn over_a_socket(folder: &Path) {
    let served = Served::default();
    let listener = UnixListener::bind(folder.join("socket")).unwrap();
    let (store, theirs) = (folder.join("socket.store"), Arc::clone(&served));
    thread::spawn(move || serve(listener, store, theirs));
    let party = Party::connect(folder.join("socket")).unwrap();
    deliver(&party);
    assert_eq!(verdict(&party, &good()), Ok(Verdict::Valid));
    for round in 0..6 {
        if let Some((child, stream)) = served.lock().unwrap().as_mut() {
            match round % 2 {
                0 => child.kill().unwrap(),
                _ => stream.shutdown(Shutdown::Both).unwrap(),
            }
        }
        // What is believed is told again over the new connection.
        assert_eq!(verdict(&party, &[]), Ok(Verdict::Valid));
    }
    let long = [read("middle.crl"), vec![0; 1 << 20]].concat();
    let unreadable = party.deliver(&read("middle.der"), &long, &Fingerprints(&[]));
    assert!(
        matches!(unreadable, Err(PartyError::Input(_))),
        "{unreadable:?}"
    );
}
