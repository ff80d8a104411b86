//! libcrypto is refused memory, one allocation after the other, while a search, a handshake and a delivery ask its judge: none of them
//! takes a certificate for valid that the newest list revokes.
//!
//! Places are refused in turn in a process whose libcrypto has what it keeps, and some in processes of which that is the first call, where
//! libcrypto may forget an algorithm. With `X509CHECK_STARVED=all`, which takes two or three minutes, these are all places of the first
//! kind, with more keys, and more of the second; `--nocapture` shows the counts. There is one test in this file, as the library takes
//! another allocator only before it has allocated anything.

#[path = "../../rust-openssl/tests/support/rationed.rs"]
mod rationed;
mod support;

use std::env;
use std::fs;
use std::path::{Path, PathBuf};
use std::process::{Command, ExitStatus};
use std::time::SystemTime;

use rationed::refused_behind;
use rustls::client::ServerCertVerifier;
use rustls::{Certificate, Error, ServerName};
use support::Authority;
use x509check::{
    Delivery, Error as LibraryError, Finding, Limits, Party, PartyError, Profile, Reference,
    Search, SearchError, SpeakingError, Verdict,
};
use x509check_openssl::OpenSslJudge;
use x509check_rustls::PeerVerifier;

const PROGRAM: &str = concat!(env!("CARGO_MANIFEST_DIR"), "/../../x509check");
/// Options of `openssl genpkey`.
const P256: &str = "-algorithm EC -pkeyopt ec_paramgen_curve:P-256";
const P384: &str = "-algorithm EC -pkeyopt ec_paramgen_curve:P-384";
const RSA: &str = "-algorithm RSA -pkeyopt rsa_keygen_bits:2048";
/// The folder of the files, and how many allocations are granted, for a process of which that is the first call.
const FILES: &str = "X509CHECK_STARVED_FILES";
const GRANTED: &str = "X509CHECK_STARVED_BEHIND";
const ALL: &str = "X509CHECK_STARVED";

/// The files of an authority: its lists, of which the last revokes the server.
struct Files {
    root: Vec<u8>,
    sent: [Vec<u8>; 2],
    lists: [Vec<u8>; 3],
}

const NAMES: [&str; 6] = ["root", "www", "middle", "1", "2", "3"];

impl Files {
    /// Made by an authority whose keys are made so, and written to the folder.
    fn make(folder: &Path, keys: &str) {
        let authority = Authority::by(keys);
        authority.issue("www", "middle", "server", "");
        let older = [authority.list("root"), authority.list("middle")];
        authority.revoke("www", "middle");
        let newest = authority.list("middle");
        let certificates = NAMES[..3].iter().map(|name| authority.certificate(name));
        for (name, octets) in NAMES.iter().zip(certificates.chain(older).chain([newest])) {
            fs::write(folder.join(name), octets).unwrap();
        }
    }

    fn read(folder: &Path) -> Files {
        let [root, www, middle, first, second, newest] =
            NAMES.map(|name| fs::read(folder.join(name)).unwrap());
        Files {
            root,
            sent: [www, middle],
            lists: [first, second, newest],
        }
    }

    /// Whether the search says that it is revoked: it does, or it says that the judge could not tell.
    fn search(&self) -> bool {
        let ([www, middle], [first, second, newest]) = (&self.sent, &self.lists);
        let search = Search {
            anchors: &[&self.root],
            certificates: &[www, middle],
            statements: &[first, second, newest],
            moment: now(),
            purpose: None,
            name: Some(Reference::Host("www.example")),
            limits: Limits::default(),
            profile: Profile::Stated,
        };
        match search.find(&OpenSslJudge::default()) {
            Ok(peer) => match peer.finding {
                Finding::Found(Verdict::Revoked { .. }) => true,
                other => panic!("{other}"),
            },
            Err(SearchError::Speaking(SpeakingError::Library(LibraryError::CouldNotTell {
                ..
            }))) => false,
            Err(error) => panic!("{error}"),
        }
    }

    /// The same of a handshake.
    fn verify(&self, verifier: &PeerVerifier<OpenSslJudge>) -> bool {
        let [www, middle] = &self.sent;
        let told = verifier.verify_server_cert(
            &Certificate(www.clone()),
            &[Certificate(middle.clone())],
            &ServerName::try_from("www.example").unwrap(),
            &mut std::iter::empty(),
            &[],
            SystemTime::now(),
        );
        match told {
            Err(Error::InvalidCertificateData(why)) if why.starts_with("revoked 2 ") => true,
            Err(Error::General(why)) if why.starts_with("the judge could not tell ") => false,
            other => panic!("{:?}", other.map(drop)),
        }
    }

    /// Whether the store of a party takes the newest list.
    fn deliver(&self, party: &Party) -> bool {
        let middle = &self.sent[1];
        match party.deliver(middle, &self.lists[2], &OpenSslJudge::default()) {
            Ok(Delivery { stored, kept, .. }) => stored + kept == 1,
            Err(PartyError::Input(LibraryError::CouldNotTell { .. })) => false,
            Err(error) => panic!("{error}"),
        }
    }
}

fn now() -> i64 {
    let since = SystemTime::now().duration_since(SystemTime::UNIX_EPOCH);
    i64::try_from(since.unwrap().as_secs()).unwrap()
}

/// How many places were refused, and after how many of these there was no answer.
#[derive(Clone, Copy, Debug, Default)]
struct Counts {
    places: usize,
    unanswered: usize,
}

impl Counts {
    /// Refuses each of the allocations of a call in turn, or one of so many. The call answers whether there is an answer.
    fn of(step: usize, mut call: impl FnMut() -> bool) -> Counts {
        assert!(call(), "nothing is refused");
        let mut counts = Counts::default();
        for granted in (0..).step_by(step) {
            let (is_answered, is_short) = refused_behind(granted, &mut call);
            if !is_short {
                assert!(is_answered);
                break;
            }
            counts.places += 1;
            counts.unanswered += usize::from(!is_answered);
        }
        counts
    }

    fn and(self, other: Counts) -> Counts {
        Counts {
            places: self.places + other.places,
            unanswered: self.unanswered + other.unanswered,
        }
    }
}

/// A search is the first call of this process, and is asked once more without lack.
fn as_the_first_call(folder: PathBuf, granted: usize) {
    let files = Files::read(&folder);
    rationed::take();
    let (_, is_short) = refused_behind(granted, || files.search());
    files.search();
    fs::write(folder.join("short"), [u8::from(is_short)]).unwrap();
}

/// How many places there are in first calls, of which one of so many is refused, and how many of these processes libcrypto made crash.
fn first_calls(folder: &Path, step: usize) -> (usize, usize) {
    let (mut places, mut crashes) = (0, 0);
    for granted in (0..).step_by(step) {
        let _ = fs::remove_file(folder.join("short"));
        let status = process_behind(folder, granted);
        if status.success() && fs::read(folder.join("short")).unwrap() == [0] {
            return (places, crashes);
        }
        // (a process without an exit code was ended by a signal, and answered nothing)
        assert!(status.code().map_or(true, |code| code == 0), "{granted}");
        places += 1;
        crashes += usize::from(status.code().is_none());
    }
    unreachable!()
}

fn process_behind(folder: &Path, granted: usize) -> ExitStatus {
    let mut process = Command::new(env::current_exe().unwrap());
    process.args(["--exact", "nobody_is_valid_for_lack_of_memory"]);
    process.env(FILES, folder).env(GRANTED, granted.to_string());
    let done = process.output().unwrap();
    if done.status.code().is_some_and(|code| code != 0) {
        println!("{}", String::from_utf8_lossy(&done.stdout));
    }
    done.status
}

#[test]
fn nobody_is_valid_for_lack_of_memory() {
    if let (Some(folder), Ok(granted)) = (env::var_os(FILES), env::var(GRANTED)) {
        return as_the_first_call(folder.into(), granted.parse().unwrap());
    }
    rationed::take();
    let is_long = env::var_os(ALL).is_some();
    let keys = match is_long {
        true => vec![P256, P384, RSA],
        false => vec![P256],
    };
    // (each allocation of a search, of a handshake and a delivery, and of a process)
    let steps = if is_long { [1, 1, 7] } else { [2, 5, 499] };
    let counts = keys
        .iter()
        .fold(Counts::default(), |sum, keys| sum.and(starved(keys, steps)));
    println!("{} places, {} unanswered", counts.places, counts.unanswered);
    let least = if is_long { 5_000 } else { 1_000 };
    assert!(counts.places > least, "{} places", counts.places);
    assert!(
        counts.unanswered > counts.places / 4,
        "{}",
        counts.unanswered
    );
}

/// Refuses one of so many allocations, of an authority whose keys are made so.
fn starved(keys: &str, [of_search, of_others, of_process]: [usize; 3]) -> Counts {
    let folder = env::temp_dir().join(format!("x509check-starved-{}", std::process::id()));
    fs::create_dir(&folder).unwrap();
    Files::make(&folder, keys);
    let files = Files::read(&folder);
    let search = Counts::of(of_search, || files.search());
    let verifier = PeerVerifier::new(vec![files.root.clone()], OpenSslJudge::default());
    let verifier = verifier.unwrap();
    verifier.set_statements(files.lists.to_vec()).unwrap();
    let handshake = Counts::of(of_others, || files.verify(&verifier));
    let party = Party::start(Command::new(PROGRAM), folder.join("store")).unwrap();
    let delivery = Counts::of(of_others, || {
        party.forget().unwrap();
        files.deliver(&party)
    });
    drop(party);
    let (first_calls, crashes) = first_calls(&folder, of_process);
    println!("{keys}: search {search:?}, handshake {handshake:?}, delivery {delivery:?}");
    println!("{keys}: {first_calls} first calls of a process, of which {crashes} crashed");
    assert!(first_calls > 10, "{first_calls}");
    fs::remove_dir_all(&folder).unwrap();
    search.and(handshake).and(delivery)
}
