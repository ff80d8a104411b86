//! Parties over the program and the small authority of the repository, and over stand-ins that answer something else.

use std::cell::Cell;
use std::path::{Path, PathBuf};
use std::process::{self, Command};
use std::sync::atomic::{AtomicBool, AtomicU64, AtomicUsize, Ordering};
use std::time::{Duration, Instant};
use std::{env, fs, thread};

use x509check::{
    Certificate, Error, Finding, Fingerprints, Judge, Party, PartyError, PartyQuery, PartySearch,
    Reason, Reference, SignatureQuestion, Text, Verdict,
};

/// 2026-12-01T00:00:00Z
const DECEMBER: i64 = 1_796_083_200;
/// id-kp-clientAuth (RFC 5280, 4.2.1.12).
const CLIENT_AUTH: &[u8] = &[0x2B, 0x06, 0x01, 0x05, 0x05, 0x07, 0x03, 0x02];
const PROGRAM: &str = concat!(env!("CARGO_MANIFEST_DIR"), "/../../x509check");

fn read(name: &str) -> Vec<u8> {
    fs::read(format!("{}/../testdata/{name}", env!("CARGO_MANIFEST_DIR"))).expect(name)
}

fn good() -> Vec<[u8; 32]> {
    read("good")
        .chunks_exact(32)
        .map(|print| print.try_into().unwrap())
        .collect()
}

/// A folder that is removed in the end.
struct Folder(PathBuf);

impl Folder {
    fn new() -> Folder {
        static FOLDERS: AtomicU64 = AtomicU64::new(0);
        let number = FOLDERS.fetch_add(1, Ordering::Relaxed);
        let path = env::temp_dir().join(format!("x509check-test-{}-{number}", process::id()));
        fs::create_dir(&path).unwrap();
        Folder(path)
    }

    fn path(&self, name: &str) -> PathBuf {
        self.0.join(name)
    }
}

impl Drop for Folder {
    fn drop(&mut self) {
        let _ = fs::remove_dir_all(&self.0);
    }
}

struct Authority {
    root: Vec<u8>,
    middle: Vec<u8>,
    leaf: Vec<u8>,
    good: Vec<[u8; 32]>,
}

impl Authority {
    fn read() -> Authority {
        Authority {
            root: read("root.der"),
            middle: read("middle.der"),
            leaf: read("leaf.der"),
            good: good(),
        }
    }

    fn judge(&self) -> Fingerprints<'_> {
        Fingerprints(&self.good)
    }

    fn query<'a>(&'a self, path: &'a [&'a [u8]]) -> PartyQuery<'a> {
        PartyQuery {
            anchor: &self.root,
            path,
            moment: DECEMBER,
            purpose: None,
        }
    }

    fn search<'a>(
        &'a self,
        anchors: &'a [&'a [u8]],
        certificates: &'a [&'a [u8]],
    ) -> PartySearch<'a> {
        PartySearch {
            anchors,
            certificates,
            moment: DECEMBER,
            purpose: None,
            name: None,
        }
    }

    fn verdict(&self, party: &Party) -> Result<Verdict, PartyError> {
        let path = [&self.middle[..], &self.leaf];
        party
            .check(&self.query(&path), &self.judge())
            .map(|answer| answer.verdict)
    }

    fn deliver_lists(&self, party: &Party) {
        for (issuer, list) in [(&self.root, "root.crl"), (&self.middle, "middle.crl")] {
            let delivery = party.deliver(issuer, &read(list), &self.judge()).unwrap();
            assert_eq!(delivery.contradicted, 0);
        }
    }
}

const REVOKED: Verdict = Verdict::Revoked {
    certificate: 2,
    reason: 1,
};

#[test]
fn verdicts_follow_deliveries() {
    let (folder, authority) = (Folder::new(), Authority::read());
    let party = Party::start(Command::new(PROGRAM), folder.path("store")).unwrap();
    let unknown = Verdict::Unknown { certificate: 1 };
    assert_eq!(authority.verdict(&party), Ok(unknown));
    authority.deliver_lists(&party);
    let path = [&authority.middle[..], &authority.leaf];
    let valid = party
        .check(&authority.query(&path), &authority.judge())
        .unwrap();
    assert_eq!(valid.verdict, Verdict::Valid);
    let leaf = Certificate::read(&authority.leaf).unwrap().identity();
    assert_eq!((valid.target, valid.decides), (leaf.clone().ok(), None));
    let purpose = Some(CLIENT_AUTH);
    let query = PartyQuery {
        purpose,
        ..authority.query(&path)
    };
    let other = party.check(&query, &authority.judge()).unwrap();
    let (certificate, reason) = (2, Reason::Purpose);
    let invalid = Verdict::Invalid {
        certificate,
        reason,
    };
    assert_eq!((other.verdict, other.decides), (invalid, leaf.ok()));
    let delivery = party
        .deliver(&authority.middle, &read("middle2.crl"), &authority.judge())
        .unwrap();
    let counts = (delivery.stored, delivery.kept, delivery.contradicted);
    assert_eq!(counts, (1, 0, 0));
    assert_eq!(delivery.issuer.name, "CN=middle,O=Example");
    assert_eq!(delivery.statement, x509check::sha256(&read("middle2.crl")));
    assert_eq!(authority.verdict(&party), Ok(REVOKED));
    let again = party
        .deliver(&authority.middle, &read("middle.crl"), &authority.judge())
        .unwrap();
    assert_eq!((again.stored, again.kept), (0, 1));
    assert_eq!(authority.verdict(&party), Ok(REVOKED));
}

#[test]
fn a_response_by_a_delegate() {
    let (folder, authority) = (Folder::new(), Authority::read());
    let party = Party::start(Command::new(PROGRAM), folder.path("store")).unwrap();
    let judge = authority.judge();
    let list = party
        .deliver(&authority.root, &read("root.crl"), &judge)
        .unwrap();
    let response = party
        .deliver(&authority.middle, &read("leaf.ocsp"), &judge)
        .unwrap();
    assert_eq!((list.stored, response.stored), (1, 1));
    assert_eq!(authority.verdict(&party), Ok(REVOKED));
}

#[test]
fn paths_are_found_and_named() {
    let (folder, authority) = (Folder::new(), Authority::read());
    let party = Party::start(Command::new(PROGRAM), folder.path("store")).unwrap();
    authority.deliver_lists(&party);
    let (constraints, delegate) = (read("constraints.der"), read("delegate.der"));
    let anchors = [&constraints[..], &authority.root];
    let sent = [&authority.leaf[..], &delegate, &authority.middle];
    let search = authority.search(&anchors, &sent);
    let found = party.find(&search, &authority.judge()).unwrap();
    assert_eq!(found.finding, Finding::Found(Verdict::Valid));
    let names: Vec<&str> = found.path.iter().map(|it| &it.name[..]).collect();
    let path = [
        "CN=Root,O=Example",
        "CN=middle,O=Example",
        "CN=leaf,O=Example",
    ];
    assert_eq!(names, path);
    assert_eq!(found.target, found.path[2]);
    let alone = party.find(&authority.search(&anchors, &sent[..1]), &authority.judge());
    let alone = alone.unwrap();
    assert_eq!((alone.finding, alone.path), (Finding::NotFound, vec![]));
    let itself = authority.search(&anchors[1..], &anchors[1..]);
    let itself = party.find(&itself, &authority.judge());
    assert_eq!(itself.unwrap().finding, Finding::NotFound);
}

#[test]
fn names_only_change_what_is_valid() {
    let (folder, authority) = (Folder::new(), Authority::read());
    let party = Party::start(Command::new(PROGRAM), folder.path("store")).unwrap();
    authority.deliver_lists(&party);
    let (anchors, sent) = (
        [&authority.root[..]],
        [&authority.leaf[..], &authority.middle],
    );
    let search = authority.search(&anchors, &sent);
    let named = |name| {
        let name = Some(name);
        let found = party.find(&PartySearch { name, ..search }, &authority.judge());
        found.map(|peer| peer.finding)
    };
    let valid = Finding::Found(Verdict::Valid);
    assert_eq!(named(Reference::Host("www.example")), Ok(valid));
    assert_eq!(
        named(Reference::Host("mail.example")),
        Ok(Finding::OtherName)
    );
    let address = Reference::Address("192.0.2.1".parse().unwrap());
    assert_eq!(named(address), Ok(Finding::OtherName));
    assert!(matches!(
        named(Reference::Host("a..b")),
        Err(PartyError::Speaking(_))
    ));
}

#[test]
fn a_judge_is_asked_once_until_it_is_forgotten() {
    let (folder, authority) = (Folder::new(), Authority::read());
    let party = Party::start(Command::new(PROGRAM), folder.path("store")).unwrap();
    let asked = Cell::new(0);
    let judge = |question: &SignatureQuestion<'_>| {
        asked.set(asked.get() + 1);
        authority.good.contains(&question.fingerprint)
    };
    let check = |judge: &dyn Judge| {
        let path = [&authority.middle[..], &authority.leaf];
        party.check(&authority.query(&path), judge).unwrap()
    };
    let unknown = Verdict::Unknown { certificate: 1 };
    assert_eq!((check(&judge).verdict, asked.get()), (unknown, 2));
    assert_eq!((check(&judge).verdict, asked.get()), (unknown, 2));
    party.forget().unwrap();
    let nobody = Fingerprints(&[]);
    let invalid = check(&nobody);
    assert_eq!(invalid.verdict.to_string(), "invalid 1 2");
    assert_eq!(invalid.signature, Some(x509check::Judgement::Wrong));
    assert_eq!((check(&judge).verdict, asked.get()), (unknown, 4));
    party.forget().unwrap();
    for print in &authority.good {
        party.believe(print).unwrap();
    }
    assert_eq!(check(&nobody).verdict, unknown);
}

#[test]
fn refusals_name_what_was_handed_in() {
    let (folder, authority) = (Folder::new(), Authority::read());
    let party = Party::start(Command::new(PROGRAM), folder.path("store")).unwrap();
    let (nobody, list) = (Fingerprints(&[]), read("root.crl"));
    let refused = |text: &str| PartyError::Refused {
        status: 4,
        text: text.into(),
    };
    assert_eq!(
        party.deliver(&authority.root, &list, &nobody),
        Err(refused(
            "statement: refused 54 BadSignature; signature wrong"
        ))
    );
    assert_eq!(
        party.deliver(&authority.middle, &list, &authority.judge()),
        Err(refused("statement: refused 53 OtherIssuer"))
    );
    let unreadable = party.deliver(&authority.root, &list[..20], &nobody);
    let Err(PartyError::Input(Error::Refused(fault))) = unreadable else {
        panic!("{unreadable:?}");
    };
    assert_eq!(fault.value, Some((Text::Statements, 0)));
}

#[test]
fn questions_that_no_request_asks() {
    let (folder, authority) = (Folder::new(), Authority::read());
    let party = Party::start(Command::new(PROGRAM), folder.path("store")).unwrap();
    let nobody = Fingerprints(&[]);
    let no_path = party.check(&authority.query(&[]), &nobody);
    assert!(
        matches!(no_path, Err(PartyError::Request(_))),
        "{no_path:?}"
    );
    let path = [&authority.leaf[..]];
    let late = PartyQuery {
        moment: i64::MAX,
        ..authority.query(&path)
    };
    assert!(matches!(
        party.check(&late, &nobody),
        Err(PartyError::Request(_))
    ));
    let purpose = Some(&[0x80][..]);
    let none = PartyQuery {
        purpose,
        ..authority.query(&path)
    };
    assert_eq!(
        party.check(&none, &nobody),
        Err(PartyError::Input(Error::Purpose))
    );
    let long = vec![&authority.leaf[..]; 200];
    let answer = party.check(&authority.query(&long), &nobody).unwrap();
    assert_eq!(answer.verdict.to_string(), "invalid 0 16");
    assert!(party.find(&authority.search(&[], &path), &nobody).is_err());
    assert!(party.find(&authority.search(&path, &[]), &nobody).is_err());
}

/// The encoding of a value of DER.
fn value(identifier: u8, contents: &[u8]) -> Vec<u8> {
    let digits = contents.len().to_be_bytes();
    let skipped = digits.iter().take_while(|digit| **digit == 0).count();
    let mut octets = vec![identifier];
    if contents.len() >= 0x80 {
        octets.push(0x80 | (digits.len() - skipped) as u8);
    }
    octets.extend_from_slice(&digits[skipped..]);
    octets.extend_from_slice(contents);
    octets
}

/// A list with so many entries, of no issuer's making: middle.crl, with revokedCertificates in it.
fn long_list(entries: u32) -> Vec<u8> {
    let list = read("middle.crl");
    // SEQUENCE { tbsCertList SEQUENCE { .., crlExtensions [0] }, algorithm, signature }, each shorter than 256 octets.
    assert_eq!((list[0], list[1], list[3]), (0x30, 0x81, 0x30));
    let begin = if list[4] == 0x81 { 6 } else { 5 };
    let end = begin + usize::from(list[begin - 1]);
    let extensions = list[..end]
        .iter()
        .rposition(|octet| *octet == 0xA0)
        .unwrap();
    assert_eq!(extensions + 2 + usize::from(list[extensions + 1]), end);
    let date = value(0x17, b"261110000000Z");
    let entries: Vec<u8> = (0..entries)
        .flat_map(|number| {
            let serial = [&[1][..], &number.to_be_bytes()].concat();
            value(0x30, &[value(0x02, &serial), date.clone()].concat())
        })
        .collect();
    let signed = [
        &list[begin..extensions],
        &value(0x30, &entries),
        &list[extensions..end],
    ]
    .concat();
    value(0x30, &[&value(0x30, &signed)[..], &list[end..]].concat())
}

#[test]
fn a_long_list_goes_by_a_file() {
    let (folder, authority) = (Folder::new(), Authority::read());
    let party = Party::start(Command::new(PROGRAM), folder.path("store")).unwrap();
    let list = long_list(40_000);
    assert!(list.len() > 1 << 19);
    let trusting = |_: &SignatureQuestion<'_>| true;
    let delivery = party.deliver(&authority.middle, &list, &trusting).unwrap();
    assert_eq!((delivery.stored, delivery.kept), (1, 0));
    let refused = party.deliver(&authority.root, &list, &trusting);
    assert_eq!(
        refused,
        Err(PartyError::Refused {
            status: 4,
            text: "statement: refused 53 OtherIssuer".into()
        })
    );
}

/// The program, of which each process writes its number to a file.
fn numbered(folder: &Folder) -> Command {
    let mut program = Command::new("sh");
    let script = r#"echo $$ >"$0.new" && mv "$0.new" "$0" && exec "$@""#;
    program
        .args(["-c", script])
        .arg(folder.path("pid"))
        .arg(PROGRAM);
    program
}

fn kill(folder: &Folder) {
    let pid = fs::read_to_string(folder.path("pid")).unwrap();
    let killed = Command::new("kill").args(["-9", pid.trim()]).output();
    assert!(killed.is_ok());
}

#[test]
fn a_process_that_is_killed_is_started_again() {
    let (folder, authority) = (Folder::new(), Authority::read());
    let party = Party::start(numbered(&folder), folder.path("store")).unwrap();
    authority.deliver_lists(&party);
    let nobody = Fingerprints(&[]);
    assert_eq!(authority.verdict(&party), Ok(Verdict::Valid));
    for _ in 0..10 {
        kill(&folder);
        // What is believed is told again, so that nobody has to judge.
        let path = [&authority.middle[..], &authority.leaf];
        let answer = party.check(&authority.query(&path), &nobody).unwrap();
        assert_eq!(answer.verdict, Verdict::Valid);
    }
    party.forget().unwrap();
    kill(&folder);
    let path = [&authority.middle[..], &authority.leaf];
    let answer = party.check(&authority.query(&path), &nobody).unwrap();
    assert_eq!(answer.verdict.to_string(), "invalid 1 2");
}

/// Eight threads ask and deliver while the process is killed again and again, each time after it has answered some: each call is answered,
/// and by its own answer.
#[test]
fn threads_are_answered_each_its_own_while_processes_die() {
    const KILLS: usize = 25;
    let (folder, authority) = (Folder::new(), Authority::read());
    let party = Party::start(numbered(&folder), folder.path("store")).unwrap();
    authority.deliver_lists(&party);
    let (over, answered) = (AtomicBool::new(false), AtomicUsize::new(0));
    thread::scope(|scope| {
        for number in 0..8 {
            let (party, authority, over, answered) = (&party, &authority, &over, &answered);
            scope.spawn(move || {
                while !over.load(Ordering::Relaxed) {
                    ask_one_of(number, party, authority).unwrap();
                    answered.fetch_add(1, Ordering::Relaxed);
                }
            });
        }
        for _ in 0..KILLS {
            // Counted from the last kill, so that no request meets two. (A thread that panics ends the test soon.)
            let enough = answered.load(Ordering::Relaxed) + 30;
            wait_until(|| answered.load(Ordering::Relaxed) >= enough);
            kill(&folder);
        }
        over.store(true, Ordering::Relaxed);
    });
    assert!(answered.load(Ordering::Relaxed) >= 30 * KILLS);
}

/// Waits for half a minute at most.
fn wait_until(is_so: impl Fn() -> bool) {
    let begun = Instant::now();
    while !is_so() && begun.elapsed() < Duration::from_secs(30) {
        thread::sleep(Duration::from_millis(1));
    }
}

/// One call whose answer differs from that of the other kinds.
fn ask_one_of(kind: usize, party: &Party, authority: &Authority) -> Result<(), PartyError> {
    let (leaf, middle, judge) = (
        &authority.leaf[..],
        &authority.middle[..],
        authority.judge(),
    );
    match kind % 4 {
        0 => {
            let path = [middle, leaf];
            let answer = party.check(&authority.query(&path), &judge)?;
            assert_eq!(answer.verdict, Verdict::Valid);
        }
        1 => {
            let path = [leaf];
            let answer = party.check(&authority.query(&path), &judge)?;
            assert_eq!(answer.verdict.to_string(), "invalid 1 2");
        }
        2 => {
            let (anchors, sent) = ([&authority.root[..]], [leaf, middle]);
            let peer = party.find(&authority.search(&anchors, &sent), &judge)?;
            assert_eq!((peer.path.len(), peer.require_valid().is_ok()), (3, true));
        }
        _ => {
            let delivery = party.deliver(middle, &read("middle.crl"), &judge)?;
            assert_eq!((delivery.stored, delivery.kept), (0, 1));
        }
    }
    Ok(())
}

/// A party over a shell script, which gets each request in `line`. It greets as it should.
fn stand_in(folder: &Folder, answers: &str) -> Party {
    let script = format!(
        "while read -r line; do case $line in greeting) echo '5 bad line';; *) {answers};; esac; done"
    );
    let mut program = Command::new("sh");
    program.args(["-c", &script]);
    let party = Party::start(program, folder.path("store")).unwrap();
    party.with_limit(Duration::from_secs(10))
}

#[test]
fn answers_that_are_none() {
    let (folder, authority) = (Folder::new(), Authority::read());
    for answers in [
        "echo",
        "echo nonsense",
        "echo valid",
        "echo 0",
        "echo '0 valid '",
        "echo '0 believed'",
        "echo '1 valid'",
        "echo '0 1'",
        "echo '0 VALID'",
        "echo '2 revoked 3 1'",
        "echo '7 same valid'",
        "echo '4 '",
        "printf '\\377\\n'",
        "printf '0 valid\\r\\n'",
        "printf '%070000d\\n' 0; printf '%070000d\\n' 0",
        "cat /dev/zero",
    ] {
        let party = stand_in(
            &folder,
            &format!("case $line in believe*) echo '0 believed';; *) {answers};; esac"),
        );
        let verdict = authority.verdict(&party);
        assert!(
            matches!(verdict, Err(PartyError::Garbled(_))),
            "{answers}: {verdict:?}"
        );
    }
}

#[test]
fn lines_that_are_none() {
    let (folder, authority) = (Folder::new(), Authority::read());
    let (anchors, sent) = ([&authority.root[..]], [&authority.leaf[..]]);
    for answers in [
        "echo '0 1'; echo valid",
        "echo '0 1'; echo 'not found'",
        "echo '0 2'; echo '0 hex:00 1'; echo valid",
        "echo '0 3'; echo '0 hex:00 1'; echo '1 hex:00 1'; echo valid",
        "set -- $line; echo '0 3'; echo \"0 $3 2\"; echo \"1 $4 1\"; echo valid",
        "set -- $line; echo '3 3'; echo \"0 $3 1\"; echo \"1 $4 1\"; echo valid",
        "set -- $line; echo '0 2'; echo \"0 $3 1\"; echo \"1 $4 1\"; echo valid",
    ] {
        let party = stand_in(&folder, answers);
        let peer = party.find(&authority.search(&anchors, &sent), &Fingerprints(&[]));
        assert!(
            matches!(peer, Err(PartyError::Garbled(_))),
            "{answers}: {peer:?}"
        );
    }
    let delivery = |answers: &str| {
        let party = stand_in(&folder, answers);
        party.deliver(&authority.root, &read("root.crl"), &authority.judge())
    };
    // (whatever it prints, it takes the list)
    let other = format!("echo '0 1'; echo '{} crl issuer'", "00".repeat(32));
    for prints in ["echo '0 0'", "echo '0 1'; echo", &other] {
        let taken = "echo '0 stored 1 kept 0 contradicted 0'";
        let found = delivery(&format!(
            "case $line in prints*) {prints};; believe*) echo '0 believed';; *) {taken};; esac"
        ));
        assert!(
            matches!(found, Err(PartyError::Garbled(_))),
            "{prints}: {found:?}"
        );
    }
}

#[test]
fn a_line_that_nobody_asked_for() {
    let (folder, authority) = (Folder::new(), Authority::read());
    let party = stand_in(
        &folder,
        "case $line in believe*) echo '0 believed';; *) echo '0 valid'; echo '0 valid';; esac",
    );
    assert_eq!(authority.verdict(&party), Ok(Verdict::Valid));
    // The second line came from a process that is ended; each question has an answer of its own, or an error.
    for _ in 0..3 {
        let verdict = authority.verdict(&party);
        assert!(
            matches!(verdict, Ok(Verdict::Valid) | Err(PartyError::Garbled(_))),
            "{verdict:?}"
        );
    }
}

#[test]
fn a_process_that_says_nothing() {
    let (folder, authority) = (Folder::new(), Authority::read());
    let silent = stand_in(&folder, "exec sleep 1000").with_limit(Duration::from_millis(200));
    for _ in 0..2 {
        let begun = Instant::now();
        let verdict = authority.verdict(&silent);
        let timed_out = PartyError::TimedOut(Duration::from_millis(200));
        assert_eq!(verdict, Err(timed_out));
        assert!(begun.elapsed() < Duration::from_secs(2));
    }
}

/// The first process hangs, the second one answers.
#[test]
fn a_process_that_hangs_is_ended() {
    let (folder, authority) = (Folder::new(), Authority::read());
    let script = r#"[ -e "$0" ] || { : >"$0"; read -r line; echo '5 bad line'; exec sleep 1000; }; shift; exec "$@""#;
    let mut program = Command::new("sh");
    program
        .args(["-c", script])
        .arg(folder.path("hung"))
        .args(["-", PROGRAM]);
    let party = Party::start(program, folder.path("store")).unwrap();
    let party = party.with_limit(Duration::from_millis(300));
    assert!(matches!(
        authority.verdict(&party),
        Err(PartyError::TimedOut(_))
    ));
    let party = party.with_limit(Duration::from_secs(20));
    let unknown = Verdict::Unknown { certificate: 1 };
    assert_eq!(authority.verdict(&party), Ok(unknown));
}

#[test]
fn a_process_that_dies_of_each_question() {
    let (folder, authority) = (Folder::new(), Authority::read());
    let party = stand_in(&folder, "exit 6");
    let verdict = authority.verdict(&party);
    assert_eq!(verdict, Err(PartyError::Died("exit status: 6".into())));
    let torn = stand_in(&folder, "printf '0 bel'; exit 0");
    let verdict = authority.verdict(&torn);
    assert_eq!(verdict, Err(PartyError::Died("exit status: 0".into())));
}

#[test]
fn programs_that_cannot_be_started() {
    let folder = Folder::new();
    let start = |program: Command, store: &str| match Party::start(program, folder.path(store)) {
        Ok(_) => panic!("it started"),
        Err(error) => error,
    };
    let missing = start(Command::new("/nonexistent"), "store");
    assert!(matches!(missing, PartyError::CannotStart(_)), "{missing}");
    let ends = start(Command::new("false"), "store");
    assert_eq!(ends, PartyError::CannotStart("exit status: 1".into()));
    fs::write(folder.path("no store"), b"no database").unwrap();
    let refused = start(Command::new(PROGRAM), "no store");
    assert_eq!(refused, PartyError::CannotStart("exit status: 6".into()));
    let mut other = Command::new("sh");
    other.args(["-c", "cat"]);
    let echo = start(other, "store");
    assert!(matches!(echo, PartyError::Garbled(_)), "{echo}");
    let socket = Party::connect(Path::new("/nonexistent"));
    assert!(matches!(socket, Err(PartyError::CannotStart(_))));
}
