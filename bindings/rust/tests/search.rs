//! Searches over the small authority of the repository, whose signatures OpenSSL found good.

use std::cell::Cell;
use std::fs;

use x509check::{
    Certificate, Error, Finding, Fingerprints, Judge, Limits, NotBelieved, Peer, Profile, Reason,
    Reference, ReferenceRule, Search, SearchError, SignatureQuestion, SpeakingError, Text, Verdict,
    WhyNot,
};

/// 2026-12-01T00:00:00Z
const DECEMBER: i64 = 1_796_083_200;

fn read(name: &str) -> Vec<u8> {
    fs::read(format!("{}/../testdata/{name}", env!("CARGO_MANIFEST_DIR"))).expect(name)
}

fn good() -> Vec<[u8; 32]> {
    read("good")
        .chunks_exact(32)
        .map(|print| print.try_into().unwrap())
        .collect()
}

/// What is found for the first of the certificates, after a change of the search.
fn found_by(
    certificates: &[&str],
    statements: &[&str],
    change: impl FnOnce(&mut Search<'_>),
    judge: &dyn Judge,
) -> Result<Peer, SearchError> {
    let (root, constraints) = (read("root.der"), read("constraints.der"));
    let certificates: Vec<Vec<u8>> = certificates.iter().map(|name| read(name)).collect();
    let statements: Vec<Vec<u8>> = statements.iter().map(|name| read(name)).collect();
    let certificates: Vec<&[u8]> = certificates.iter().map(|it| &it[..]).collect();
    let statements: Vec<&[u8]> = statements.iter().map(|it| &it[..]).collect();
    let mut search = Search {
        anchors: &[&constraints, &root],
        certificates: &certificates,
        statements: &statements,
        moment: DECEMBER,
        purpose: None,
        name: None,
        limits: Limits::default(),
        profile: Profile::Stated,
    };
    change(&mut search);
    search.find(judge)
}

fn found(certificates: &[&str], statements: &[&str]) -> Peer {
    found_by(certificates, statements, |_| {}, &Fingerprints(&good())).unwrap()
}

const LISTS: [&str; 2] = ["root.crl", "middle.crl"];

#[test]
fn order_is_of_no_account_and_the_path_is_named() {
    for bag in [
        ["middle.der", "constraints.der", "delegate.der"],
        ["delegate.der", "constraints.der", "middle.der"],
        ["root.der", "middle.der", "delegate.der"],
    ] {
        let peer = found(&[&["leaf.der"], &bag[..]].concat(), &LISTS);
        assert_eq!(peer.finding, Finding::Found(Verdict::Valid));
        let names: Vec<_> = peer.path.iter().map(|it| &it.name[..]).collect();
        assert_eq!(
            names,
            [
                "CN=Root,O=Example",
                "CN=middle,O=Example",
                "CN=leaf,O=Example"
            ]
        );
        assert_eq!(peer.path.last(), Some(&peer.target));
        assert!(peer.require_valid().is_ok());
    }
}

#[test]
fn findings() {
    let chain = ["leaf.der", "middle.der"];
    let revoked = found(&chain, &["root.crl", "middle2.crl"]);
    let verdict = Verdict::Revoked {
        certificate: 2,
        reason: 1,
    };
    assert_eq!(revoked.finding, Finding::Found(verdict));
    assert_eq!(revoked.decides(), Some(&revoked.target));
    let unknown = found(&chain, &LISTS[1..]);
    assert_eq!(unknown.decides(), Some(&unknown.path[1]));
    assert_eq!(unknown.finding.to_string(), "unknown 1");
    let nothing = found(&chain[..1], &LISTS);
    assert_eq!(
        (nothing.finding, nothing.path.len()),
        (Finding::NotFound, 0)
    );
    assert!(nothing
        .to_string()
        .starts_with("not found; target serial 03 "));
    assert!(matches!(nothing.require_valid(), Err(NotBelieved::Peer(_))));
    for limits in [
        Limits {
            signatures: 0,
            ..Limits::default()
        },
        Limits {
            steps: 0,
            ..Limits::default()
        },
        Limits {
            verdicts: 0,
            ..Limits::default()
        },
    ] {
        let peer = found_by(
            &chain,
            &LISTS,
            |it| it.limits = limits,
            &Fingerprints(&good()),
        );
        assert_eq!(peer.unwrap().finding, Finding::GaveUp);
    }
}

/// The names of the certificates above the one in question, of the anchors and of the obstacles.
fn told_end(peer: &Peer) -> (Vec<&str>, Vec<&str>, Vec<(&str, Reason)>) {
    let Some(WhyNot::End(end)) = &peer.why_not else {
        panic!("{peer}");
    };
    assert_eq!(&end.top, end.above.last().unwrap_or(&peer.target));
    (
        end.above.iter().map(|it| &it.name[..]).collect(),
        end.anchors.iter().map(|it| &it.name[..]).collect(),
        end.obstacles
            .iter()
            .map(|(it, reason)| (&it.name[..], *reason))
            .collect(),
    )
}

#[test]
fn why_no_path_is_found() {
    let (chain, good) = (["leaf.der", "root.der", "middle.der"], good());
    let why = |certificates: &[&str], prints: &[[u8; 32]], moment| {
        let judge = Fingerprints(prints);
        found_by(certificates, &[], |it| it.moment = moment, &judge).unwrap()
    };
    let missing = why(&chain[..2], &good, DECEMBER);
    assert_eq!(told_end(&missing), (vec![], vec![], vec![]));
    assert!(missing
        .to_string()
        .contains("; no certificate at hand has the name of the issuer of serial 03 "));
    let unsigned = why(&chain, &[], DECEMBER);
    let middle = ("CN=middle,O=Example", Reason::Signature);
    assert_eq!(told_end(&unsigned), (vec![], vec![], vec![middle]));
    let (root, above) = ("CN=Root,O=Example", vec!["CN=middle,O=Example"]);
    assert_eq!(
        told_end(&why(&chain, &good[1..2], DECEMBER)),
        (above, vec![root], vec![(root, Reason::Signature)])
    );
    let early = why(&chain, &good, 0);
    assert_eq!(early.why_not, Some(WhyNot::Target(Reason::NotYet)));
    assert_eq!(why(&chain, &good, DECEMBER).why_not, None);
}

#[test]
fn names_only_change_what_is_valid() {
    let (chain, good) = (["leaf.der", "middle.der"], good());
    let with_name = |name, statements: &[&str]| {
        found_by(
            &chain,
            statements,
            |it| it.name = Some(name),
            &Fingerprints(&good),
        )
        .map(|peer| peer.finding)
    };
    let valid = Finding::Found(Verdict::Valid);
    assert_eq!(with_name(Reference::Host("www.example"), &LISTS), Ok(valid));
    let other = Reference::Host("mail.example");
    assert_eq!(with_name(other, &LISTS), Ok(Finding::OtherName));
    let unknown = Finding::Found(Verdict::Unknown { certificate: 1 });
    assert_eq!(with_name(other, &[]), Ok(unknown));
    let refused = SpeakingError::Reference(ReferenceRule::Label, 2);
    assert_eq!(
        with_name(Reference::Host("a..b"), &LISTS),
        Err(SearchError::Speaking(refused))
    );
}

#[test]
fn each_signature_is_asked_once_if_names_match() {
    let (asked, good) = (Cell::new(0), good());
    let judge = |question: &SignatureQuestion<'_>| {
        asked.set(asked.get() + 1);
        good.contains(&question.fingerprint)
    };
    let peer = found_by(
        &["leaf.der", "delegate.der", "middle.der"],
        &LISTS,
        |_| {},
        &judge,
    );
    assert_eq!(peer.unwrap().finding, Finding::Found(Verdict::Valid));
    assert_eq!(asked.get(), 4);
}

#[test]
fn what_cannot_be_read_is_refused_or_told() {
    let (root, leaf, middle) = (read("root.der"), read("leaf.der"), read("middle.der"));
    let (lists, good) = (LISTS.map(read), good());
    let (bad, empty) = (&[0x30, 0x00][..], &[][..]);
    let statements = [&lists[0][..], &lists[1]];
    let search = Search {
        anchors: &[&root],
        certificates: &[&leaf, bad, &middle],
        statements: &statements,
        moment: DECEMBER,
        purpose: None,
        name: None,
        limits: Limits::default(),
        profile: Profile::Stated,
    };
    let refused = |search: Search<'_>| match search.find(&Fingerprints(&good)) {
        Err(SearchError::Speaking(SpeakingError::Library(Error::Refused(fault)))) => fault.value,
        other => panic!("{other:?}"),
    };
    assert_eq!(refused(search), Some((Text::Certificates, 1)));
    let target = Search {
        certificates: &[bad],
        ..search
    };
    assert_eq!(refused(target), Some((Text::Certificates, 0)));
    let anchor = Search {
        anchors: &[&root, empty],
        ..search
    };
    assert_eq!(refused(anchor), Some((Text::Anchors, 1)));
    let statement = Search {
        certificates: &[&leaf, &middle],
        statements: &[&lists[0], bad],
        ..search
    };
    assert_eq!(refused(statement), Some((Text::Statements, 1)));
    let none = Search {
        certificates: &[],
        ..search
    };
    let judge = Fingerprints(&good);
    assert_eq!(none.find(&judge), Err(SearchError::NoTarget));
    let told = search.find_by_readable(&judge).unwrap();
    assert_eq!(told.finding, Finding::Found(Verdict::Valid));
    assert_eq!(told.ignored.len(), 1);
    assert_eq!(told.ignored[0].value, Some((Text::Certificates, 1)));
    assert!(told
        .to_string()
        .ends_with("; left out certificates[1]: 22 Layout at 2"));
    assert!(target.find_by_readable(&judge).is_err());
    assert_eq!(
        told.target,
        Certificate::read(&leaf).unwrap().identity().unwrap()
    );
}
