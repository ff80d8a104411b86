//! A party behind a socket, whose server answers with lines that are damaged: an answer is believed only if it came as it should.

use std::fs;
use std::io::{BufRead, BufReader, Write};
use std::os::unix::net::{UnixListener, UnixStream};
use std::sync::{Arc, Mutex};
use std::thread;
use std::time::Duration;

use x509check::{Fingerprints, Party, PartyError, PartyQuery};

/// What a session may answer about a path of two certificates.
const ANSWERS: [&str; 6] = [
    "0 valid",
    "1 invalid 1 2 Signature",
    "1 invalid 0 16 TooLong",
    "2 revoked 2 1",
    "3 unknown 2",
    "6 no memory",
];
const ROUNDS: usize = 1_500;

/// A generator of numbers that repeat in each run (xorshift).
struct Numbers(u64);

impl Numbers {
    fn below(&mut self, bound: usize) -> usize {
        self.0 ^= self.0 << 13;
        self.0 ^= self.0 >> 7;
        self.0 ^= self.0 << 17;
        usize::try_from(self.0 >> 33).unwrap() % bound
    }

    fn octet(&mut self) -> u8 {
        let octets = b" 0123456789\n\r\x00\xFFabcvl-+";
        octets[self.below(octets.len())]
    }

    /// An answer with its end, of which often something is changed.
    fn answer(&mut self) -> Vec<u8> {
        let line = ANSWERS[self.below(ANSWERS.len())];
        let mut octets = [line.as_bytes(), b"\n"].concat();
        for _ in 0..self.below(3) {
            let at = self.below(octets.len());
            match self.below(4) {
                0 => octets[at] = self.octet(),
                1 => octets.insert(at, self.octet()),
                2 if octets.len() > 1 => drop(octets.remove(at)),
                _ => octets.swap(at, 0),
            }
        }
        octets
    }
}

/// Answers one connection, and notes what it answered last; a line without an end is the last.
fn answer(stream: UnixStream, numbers: &mut Numbers, last: &Mutex<Vec<u8>>) {
    let mut writing = stream.try_clone().unwrap();
    for line in BufReader::new(stream).lines() {
        let octets = match line.as_deref() {
            Ok("greeting") => b"5 bad line\n".to_vec(),
            Ok(line) if line.starts_with("believe ") => b"0 believed\n".to_vec(),
            Ok(_) => numbers.answer(),
            Err(_) => return,
        };
        *last.lock().unwrap() = octets.clone();
        if writing.write_all(&octets).is_err() || octets.last() != Some(&b'\n') {
            return;
        }
    }
}

fn read(name: &str) -> Vec<u8> {
    fs::read(format!("{}/../testdata/{name}", env!("CARGO_MANIFEST_DIR"))).expect(name)
}

#[test]
fn damaged_answers_are_never_believed() {
    let folder = std::env::temp_dir().join(format!("x509check-fuzz-{}", std::process::id()));
    fs::create_dir(&folder).unwrap();
    let listener = UnixListener::bind(folder.join("socket")).unwrap();
    let last = Arc::new(Mutex::new(Vec::new()));
    let noted = Arc::clone(&last);
    thread::spawn(move || {
        let mut numbers = Numbers(0x9E37_79B9_7F4A_7C15);
        for stream in listener.incoming() {
            answer(stream.unwrap(), &mut numbers, &noted);
        }
    });
    let party = Party::connect(folder.join("socket")).unwrap();
    let party = party.with_limit(Duration::from_secs(10));
    let (root, middle, leaf) = (read("root.der"), read("middle.der"), read("leaf.der"));
    let query = PartyQuery {
        anchor: &root,
        path: &[&middle, &leaf],
        moment: 1_796_083_200, // 2026-12-01T00:00:00Z
        purpose: None,
    };
    let (mut answered, mut garbled) = (0, 0);
    for _ in 0..ROUNDS {
        let answer = party.check(&query, &Fingerprints(&[]));
        let answer = answer.map(|answer| answer.verdict.to_string());
        let sent = last.lock().unwrap().clone();
        match is_answer(&answer, &sent) {
            true => answered += 1,
            false => garbled += 1,
        }
    }
    let each = ROUNDS / 10;
    assert!(answered > each && garbled > each, "{answered} {garbled}");
    drop(party);
    fs::remove_dir_all(&folder).unwrap();
}

/// Whether there is an answer; then it is what was sent.
fn is_answer(answer: &Result<String, PartyError>, sent: &[u8]) -> bool {
    let line = sent.split(|octet| *octet == b'\n').next().unwrap();
    let line = String::from_utf8_lossy(line);
    match answer {
        Ok(verdict) => assert!(says(&line, verdict), "{line:?}: {verdict}"),
        Err(PartyError::Refused { status, text }) => {
            assert_eq!(format!("{status} {text}"), line);
            assert!((4..=6).contains(status));
        }
        Err(PartyError::Garbled(_) | PartyError::Died(_)) => return false,
        Err(error) => panic!("{error}"),
    }
    true
}

/// Whether a line says just this verdict (docs/REFERENCE.md, "session"): behind a status of its own, and the name of a reason behind it.
fn says(line: &str, verdict: &str) -> bool {
    let (status, text) = line.split_once(' ').unwrap_or_default();
    match verdict.split(' ').next() {
        Some("valid") => status == "0" && text == verdict,
        Some("invalid") => status == "1" && text.rsplit_once(' ').map(|it| it.0) == Some(verdict),
        Some("revoked") => status == "2" && text == verdict,
        _ => status == "3" && text == verdict,
    }
}
