//! What a party does with statements that it cannot take, with judges that cannot tell, and if it could not forget.

mod support;

use std::io::{BufRead, BufReader, Write};
use std::os::unix::net::UnixListener;
use std::path::PathBuf;
use std::process::{self, Command};
use std::sync::atomic::{AtomicU64, Ordering};
use std::sync::mpsc;
use std::time::Duration;
use std::{env, fs, thread};

use support::{authority, certificate, except, extension, list, response, value, Single, MIDDLE};
use x509check::{
    judge_by, Error, Fault, Judgement, Party, PartyError, PartyQuery, PartySearch, Profile, Query,
    Text, Verdict,
};

const PROGRAM: &str = concat!(env!("CARGO_MANIFEST_DIR"), "/../../x509check");

/// A folder that is removed in the end.
struct Folder(PathBuf);

impl Folder {
    fn new() -> Folder {
        static FOLDERS: AtomicU64 = AtomicU64::new(0);
        let number = FOLDERS.fetch_add(1, Ordering::Relaxed);
        let path = env::temp_dir().join(format!("x509check-refusals-{}-{number}", process::id()));
        fs::create_dir(&path).unwrap();
        Folder(path)
    }

    fn party(&self, words: &[&str]) -> Party {
        let mut program = Command::new("sh");
        let script = r#"echo $$ >"$0.new" && mv "$0.new" "$0" && exec "$@""#;
        program.args(["-c", script]).arg(self.0.join("pid"));
        program.arg(PROGRAM).args(words);
        Party::start(program, self.0.join("store")).unwrap()
    }

    /// Sends a signal to the process of the party.
    fn signal(&self, name: &str) {
        let number = fs::read_to_string(self.0.join("pid")).unwrap();
        let sent = Command::new("kill").args([name, number.trim()]).status();
        assert!(sent.unwrap().success());
    }
}

impl Drop for Folder {
    fn drop(&mut self) {
        let _ = fs::remove_dir_all(&self.0);
    }
}

fn root() -> Vec<u8> {
    certificate("Root", "Root", 1, &[authority()])
}

fn leaf() -> Vec<u8> {
    certificate("Leaf", "Root", 3, &[])
}

/// What is said of the leaf below the root by a judge who says this of everything.
fn verdict(party: &Party, said: Judgement) -> Result<Verdict, PartyError> {
    let (root, leaf) = (root(), leaf());
    let query = PartyQuery {
        anchor: &root,
        path: &[&leaf],
        moment: MIDDLE,
        purpose: None,
    };
    let answer = party.check(&query, &judge_by(|_| said));
    answer.map(|answer| answer.verdict)
}

#[test]
fn a_statement_that_nobody_could_judge_is_told_apart_from_one_of_somebody_else() {
    let folder = Folder::new();
    let party = folder.party(&["--profile", "wide"]);
    let revoked = Single {
        issuer: "Root",
        serial: 3,
        month: 3,
        is_revoked: true,
    };
    let its = certificate("Delegate", "Root", 9, &support::delegate());
    let by_delegate = response("Delegate", &[revoked], &[&its]);
    for statement in [list("Root", 1, &[3]), by_delegate.clone()] {
        for judgement in [Judgement::NotServed, Judgement::RefusedByPolicy] {
            let told = party.deliver(&root(), &statement, &except(&statement, judgement));
            let Err(PartyError::Unjudged {
                text,
                judgement: said,
            }) = told
            else {
                panic!("{told:?}");
            };
            assert_eq!(said, judgement);
            assert!(text.starts_with("statement: refused 5"), "{text}");
        }
        let told = party.deliver(&root(), &statement, &except(&statement, Judgement::Wrong));
        assert!(matches!(told, Err(PartyError::Refused { status: 4, .. })));
    }
    // The delegate signed it, and nobody can tell whose delegate that is.
    let told = party.deliver(&root(), &by_delegate, &except(&its, Judgement::NotServed));
    assert!(matches!(told, Err(PartyError::Unjudged { .. })), "{told:?}");
    let other = list("Other", 1, &[3]);
    let told = party.deliver(&root(), &other, &except(&other, Judgement::NotServed));
    assert!(matches!(told, Err(PartyError::Refused { status: 4, .. })));
}

/// An issuer is read as an anchor is, in the stated profile; the wide one refuses these two for their extensions.
#[test]
fn issuers_that_the_wide_profile_refuses_deliver_to_a_stated_store() {
    let points = extension(&[0x55, 0x1D, 31], false, &[0x05, 0x00]);
    let mailbox = value(0x81, &[b"nobody"]);
    let constraints = value(0xA0, &[&value(0x30, &[&value(0x81, &[b"a@b@c"])])]);
    let constraints = extension(&[0x55, 0x1D, 30], true, &value(0x30, &[&constraints]));
    let names = extension(&[0x55, 0x1D, 17], false, &value(0x30, &[&mailbox]));
    for (name, odd) in [("Points", vec![points]), ("Mail", vec![names, constraints])] {
        let issuer = certificate(name, name, 1, &[vec![authority()], odd].concat());
        let judge = judge_by(|_| Judgement::Good);
        let query = Query {
            anchor: &root(),
            path: &[&issuer],
            statements: &[],
            moment: MIDDLE,
            purpose: None,
            profile: Profile::Wide,
        };
        assert!(matches!(query.answer(&judge), Err(Error::Refused(_))));
        let folder = Folder::new();
        let party = folder.party(&[]);
        let delivery = party
            .deliver(&issuer, &list(name, 1, &[3]), &judge)
            .unwrap();
        assert_eq!((delivery.stored, delivery.kept), (1, 0), "{name}");
    }
    let folder = Folder::new();
    let told = folder.party(&[]).deliver(
        &[5, 0],
        &list("Root", 1, &[]),
        &judge_by(|_| Judgement::Good),
    );
    let unreadable = Fault {
        number: 22,
        der: None,
        offset: 0,
        value: Some((Text::Certificates, 0)),
    };
    assert_eq!(told, Err(PartyError::Input(Error::Refused(unreadable))));
}

/// The store is of the wide profile, in which the second certificate of the path cannot be read.
#[test]
fn refusals_say_which_certificate() {
    let folder = Folder::new();
    let party = folder.party(&["--profile", "wide"]);
    let points = extension(&[0x55, 0x1D, 31], false, &[0x05, 0x00]);
    let middle = certificate("Middle", "Root", 2, &[authority()]);
    let odd = certificate("Odd", "Middle", 3, &[points]);
    let query = PartyQuery {
        anchor: &root(),
        path: &[&middle, &odd],
        moment: MIDDLE,
        purpose: None,
    };
    let Err(PartyError::Refused { status: 4, text }) =
        party.check(&query, &judge_by(|_| Judgement::Good))
    else {
        panic!("the certificate is read");
    };
    assert!(text.starts_with("certificates[2]: refused 29 "), "{text}");
}

#[test]
fn a_judge_that_cannot_tell_ends_the_call() {
    let folder = Folder::new();
    let party = folder.party(&[]);
    let (root, leaf) = (root(), leaf());
    let judge = judge_by(|_| Judgement::CouldNotTell);
    let search = PartySearch {
        anchors: &[&root],
        certificates: &[&leaf],
        moment: MIDDLE,
        purpose: None,
        name: None,
    };
    for told in [
        verdict(&party, Judgement::CouldNotTell).map(drop),
        party.find(&search, &judge).map(drop),
        party
            .deliver(&root, &list("Root", 1, &[]), &judge)
            .map(drop),
    ] {
        let is_so = matches!(told, Err(PartyError::Input(Error::CouldNotTell { .. })));
        assert!(is_so, "{told:?}");
    }
    let unknown = Ok(Verdict::Unknown { certificate: 1 });
    assert_eq!(verdict(&party, Judgement::Good), unknown);
}

/// The process hangs as it has to forget, and the one behind it is told nothing of what was believed.
#[test]
fn what_could_not_be_forgotten_is_not_believed() {
    let folder = Folder::new();
    let party = folder.party(&[]);
    let judge = judge_by(|_| Judgement::Good);
    assert_eq!(
        party
            .deliver(&root(), &list("Root", 1, &[]), &judge)
            .unwrap()
            .stored,
        1
    );
    assert_eq!(verdict(&party, Judgement::Good), Ok(Verdict::Valid));
    folder.signal("-STOP");
    let limit = Duration::from_millis(200);
    let party = party.with_limit(limit);
    assert_eq!(party.forget(), Err(PartyError::TimedOut(limit)));
    let party = party.with_limit(Duration::from_secs(20));
    let invalid = verdict(&party, Judgement::Wrong).map(|it| it.to_string());
    assert_eq!(invalid, Ok("invalid 1 2".into()));
    assert_eq!(verdict(&party, Judgement::Good), Ok(Verdict::Valid));
}

/// Behind the socket is one session for all connections, which goes on to believe what was said on the first. It refuses to forget once.
#[test]
fn a_new_connection_begins_with_what_could_not_be_forgotten() {
    let folder = Folder::new();
    let socket = folder.0.join("socket");
    let listener = UnixListener::bind(&socket).unwrap();
    let (heard, lines) = mpsc::channel();
    thread::spawn(move || {
        let mut refusals = 1;
        for (number, stream) in listener.incoming().enumerate() {
            let stream = stream.unwrap();
            for line in BufReader::new(&stream).lines().map_while(Result::ok) {
                let word = line.split(' ').next().unwrap().to_string();
                let answer = match &word[..] {
                    "greeting" => "5 bad line",
                    "believe" => "0 believed",
                    "forget" if refusals > 0 => {
                        refusals -= 1;
                        "6 no memory"
                    }
                    "forget" => "0 forgotten",
                    _ => "1 invalid 1 2 Signature",
                };
                heard.send((number, word)).unwrap();
                if writeln!(&stream, "{answer}").is_err() {
                    break;
                }
            }
        }
    });
    let party = Party::connect(&socket).unwrap();
    let invalid = Ok("invalid 1 2".to_string());
    let said = |party: &Party, said| verdict(party, said).map(|it| it.to_string());
    assert_eq!(said(&party, Judgement::Good), invalid);
    assert!(matches!(
        party.forget(),
        Err(PartyError::Refused { status: 6, .. })
    ));
    assert_eq!(said(&party, Judgement::Wrong), invalid);
    drop(party);
    let told: Vec<(usize, String)> = lines.try_iter().collect();
    let words = |number| {
        let of_one = told.iter().filter(move |it| it.0 == number);
        of_one.map(|it| &it.1[..]).collect::<Vec<&str>>()
    };
    assert_eq!(words(0), ["greeting", "believe", "check", "forget"]);
    assert_eq!(words(1), ["forget", "check"]);
}
