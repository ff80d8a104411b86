//! What a stranger can make a search do: a judge is asked no more than the limits let, and questions are not made without bound. One of
//! these tests measures the memory of the process, of which the others take little.

mod support;

use std::cell::Cell;
use std::process::{self, Command};

use support::{authority, certificate, certificate_of, list, response, slices, Single, MIDDLE};
use x509check::{
    judge_by, Finding, Judgement, Limits, Party, PartySearch, Peer, Profile, Search, SearchError,
    SignatureQuestion, Verdict,
};

/// A search for a leaf below a root, with other anchors and other certificates, and with statements.
struct Case {
    anchors: Vec<Vec<u8>>,
    certificates: Vec<Vec<u8>>,
    statements: Vec<Vec<u8>>,
    limits: Limits,
}

impl Case {
    fn of(issuer: &str, others: Vec<Vec<u8>>) -> Case {
        Case {
            anchors: vec![certificate("Root", "Root", 1, &[authority()])],
            certificates: [vec![certificate("Leaf", issuer, 3, &[])], others].concat(),
            statements: Vec::new(),
            limits: Limits::default(),
        }
    }

    fn ask<T>(&self, call: impl FnOnce(Search<'_>) -> T) -> T {
        call(Search {
            anchors: &slices(&self.anchors),
            certificates: &slices(&self.certificates),
            statements: &slices(&self.statements),
            moment: MIDDLE,
            purpose: None,
            name: None,
            limits: self.limits,
            profile: Profile::Wide,
        })
    }

    /// What is found, and how often the judge was asked, who finds everything good.
    fn found(&self) -> (Peer, usize) {
        let asked = Cell::new(0);
        let judge = |_: &SignatureQuestion<'_>| {
            asked.set(asked.get() + 1);
            Judgement::Good
        };
        let peer = self.ask(|search| search.find(&judge)).unwrap();
        (peer, asked.get())
    }
}

/// Authorities of one name that certify one another, each with a key of its own.
fn crowd(count: usize, name: &str) -> Vec<Vec<u8>> {
    (0..count)
        .map(|number| certificate_of(&format!("key {number}"), name, name, 4, &[authority()]))
        .collect()
}

#[test]
fn a_judge_is_asked_no_more_than_the_limit_lets() {
    let mut case = Case::of("Root", vec![]);
    // One question about the leaf, and one about each different list.
    case.statements = (0..7).map(|number| list("Root", number, &[])).collect();
    case.statements.extend(case.statements.clone());
    for (signatures, asked) in [(8, 8), (7, 0), (1, 0), (0, 0)] {
        case.limits.signatures = signatures;
        let (peer, count) = case.found();
        let finding = match asked {
            0 => Finding::GaveUp,
            _ => Finding::Found(Verdict::Valid),
        };
        assert_eq!((peer.finding, count), (finding, asked), "{signatures}");
        assert_eq!(peer.target.name, "CN=Leaf");
        assert!(peer.require_valid().is_err() || asked > 0);
    }
}

#[test]
fn certificates_that_issue_one_another_are_counted_before() {
    let case = Case::of("Crowd", crowd(100, "Crowd"));
    let (peer, asked) = case.found();
    assert_eq!((peer.finding, asked), (Finding::GaveUp, 0));
    let questions = case.ask(|search| search.signature_questions().map(|it| it.len()));
    assert_eq!(questions, Err(SearchError::TooManyQuestions));
    // Names that match are spelled otherwise: 20 of each spelling would be few.
    let spelled = |name: &str| {
        let crowd = (0..20).map(|it| certificate_of(&format!("{it}"), name, "Crowd", 4, &[]));
        crowd.collect::<Vec<Vec<u8>>>()
    };
    let others = [spelled("crowd"), spelled(" CROWD "), spelled("Crowd")].concat();
    let case = Case::of("Crowd", others);
    let questions = case.ask(|search| search.signature_questions().map(|it| it.len()));
    assert_eq!(questions, Err(SearchError::TooManyQuestions));
    // Those from which no name leads to the target are not counted.
    let (peer, asked) = Case::of("Root", crowd(100, "Crowd")).found();
    let unknown = Finding::Found(Verdict::Unknown { certificate: 1 });
    assert_eq!((peer.finding, asked), (unknown, 1));
}

/// As many anchors as a system has, and as many certificates as a peer may send.
#[test]
fn what_peers_send_is_not_given_up() {
    let mut case = Case::of("Issuer 0", vec![]);
    case.anchors = (0..150)
        .map(|number| certificate(&format!("Anchor {number}"), "x", 1, &[authority()]))
        .collect();
    case.certificates.extend((0..14).map(|number| {
        let issuer = format!("Issuer {}", number + 1);
        certificate(&format!("Issuer {number}"), &issuer, 5, &[authority()])
    }));
    case.certificates
        .push(certificate("Issuer 14", "Anchor 99", 5, &[authority()]));
    case.statements = (0..14)
        .map(|number| list(&format!("Issuer {number}"), 1, &[]))
        .collect();
    case.statements.push(list("Issuer 14", 1, &[]));
    case.statements.push(list("Anchor 99", 1, &[]));
    assert_eq!(case.certificates.len(), 16);
    let (peer, asked) = case.found();
    assert_eq!(peer.finding, Finding::Found(Verdict::Valid));
    assert_eq!((peer.path.len(), asked), (17, 32));
}

/// 3,000 certificates of one name make nine million pairs; and 900 that may have issued the target, beside 128 responses by a delegate that
/// each of these may have, 230,000 questions about responses.
#[test]
fn questions_take_little_memory() {
    let case = Case::of("Crowd", crowd(3_000, "Crowd"));
    assert_eq!(case.found().0.finding, Finding::GaveUp);
    let others = (0..900).map(|it| certificate_of(&format!("key {it}"), "Crowd", "x", 4, &[]));
    let mut case = Case::of("Crowd", others.collect());
    let delegate = certificate("Delegate", "Crowd", 6, &support::delegate());
    let says = |serial| Single {
        issuer: "Crowd",
        serial,
        month: 2,
        is_revoked: false,
    };
    case.statements = (0..=127u8)
        .map(|serial| response("Delegate", &[says(serial)], &[&delegate]))
        .collect();
    assert_eq!(case.found().0.finding, Finding::GaveUp);
    let status = std::fs::read_to_string("/proc/self/status").unwrap();
    let most = status.lines().find(|it| it.starts_with("VmHWM:")).unwrap();
    let kilobytes: usize = most.split_whitespace().nth(1).unwrap().parse().unwrap();
    assert!(kilobytes < 60_000, "{kilobytes} kilobytes");
}

#[test]
fn a_party_gives_up_before_it_asks_a_judge() {
    let folder = std::env::temp_dir().join(format!("x509check-limits-{}", process::id()));
    std::fs::create_dir(&folder).unwrap();
    let program = concat!(env!("CARGO_MANIFEST_DIR"), "/../../x509check");
    let party = Party::start(Command::new(program), folder.join("store")).unwrap();
    let case = Case::of("Crowd", crowd(100, "Crowd"));
    let search = PartySearch {
        anchors: &slices(&case.anchors),
        certificates: &slices(&case.certificates),
        moment: MIDDLE,
        purpose: None,
        name: None,
    };
    let mut asked = 0;
    let judge = judge_by(|_| {
        asked += 1;
        Judgement::Good
    });
    let found = party.find(&search, &judge).unwrap();
    assert_eq!((found.finding, asked), (Finding::GaveUp, 0));
    drop(party);
    std::fs::remove_dir_all(&folder).unwrap();
}
