//! Statements that contradict each other, with one number or one time: the first counts, and if another one revokes, no path is valid.

mod support;

use std::path::PathBuf;
use std::process::{self, Command};

use support::{authority, certificate, certificate_of, list, response, slices, Single, MIDDLE};
use x509check::{
    judge_by, Error, Finding, Judgement, Limits, NotValid, Party, PartyError, PartyQuery,
    PolicyInputs, Profile, Query, QueryWithPolicies, Search, SearchError, SpeakingError, Verdict,
};

const VALID: Result<Verdict, Error> = Ok(Verdict::Valid);

fn revoked(certificate: usize) -> Result<Verdict, Error> {
    Ok(Verdict::Revoked {
        certificate,
        reason: 0,
    })
}

fn contradicted(statement: usize) -> Result<Verdict, Error> {
    Err(Error::Contradicted { statement })
}

/// What is answered of a path below a root, whose signatures are all good: of a query, of one with policies, and of a search.
fn answers(path: &[Vec<u8>], statements: &[Vec<u8>]) -> [Result<Verdict, Error>; 3] {
    let (root, judge) = (root(), judge_by(|_| Judgement::Good));
    let (path, statements) = (slices(path), slices(statements));
    let query = Query {
        anchor: &root,
        path: &path,
        statements: &statements,
        moment: MIDDLE,
        purpose: None,
        profile: Profile::Wide,
    };
    let inputs = PolicyInputs {
        initial_policies: None,
        require_explicit_policy: false,
        inhibit_policy_mapping: false,
        inhibit_any_policy: false,
    };
    let sent: Vec<&[u8]> = path.iter().rev().copied().collect();
    let search = Search {
        anchors: &[&root],
        certificates: &sent,
        statements: &statements,
        moment: MIDDLE,
        purpose: None,
        name: None,
        limits: Limits::default(),
        profile: Profile::Wide,
    };
    let with_policies = QueryWithPolicies { query, inputs };
    [
        query.answer(&judge).map(|answer| answer.verdict),
        with_policies.answer(&judge).map(|answer| answer.verdict),
        match search.find(&judge) {
            Ok(peer) => match peer.finding {
                Finding::Found(verdict) => Ok(verdict),
                other => panic!("{other}"),
            },
            Err(SearchError::Speaking(SpeakingError::Library(error))) => Err(error),
            Err(error) => panic!("{error}"),
        },
    ]
}

fn root() -> Vec<u8> {
    certificate("Root", "Root", 1, &[authority()])
}

fn leaf() -> Vec<u8> {
    certificate("Leaf", "Root", 3, &[])
}

#[test]
fn lists_of_one_number() {
    let (good, revoking) = (list("Root", 5, &[]), list("Root", 5, &[3]));
    let (same, older, newer) = (
        list("Root", 5, &[4]),
        list("Root", 4, &[3]),
        list("Root", 6, &[]),
    );
    for (statements, expected) in [
        (vec![&good, &revoking], contradicted(1)),
        (vec![&revoking, &good], revoked(1)),
        // Neither the first nor the last of its number.
        (vec![&good, &revoking, &same], contradicted(1)),
        (vec![&older, &same, &good, &revoking], contradicted(3)),
        // A list that does not revoke may contradict another, and a newer one takes the place of all.
        (vec![&good, &same], VALID),
        (vec![&older, &good], VALID),
        (vec![&good, &revoking, &newer], VALID),
        (vec![&newer, &older, &good, &revoking], VALID),
        (vec![&revoking, &good, &newer, &older], VALID),
    ] {
        let statements: Vec<Vec<u8>> = statements.into_iter().cloned().collect();
        assert_eq!(answers(&[leaf()], &statements), [expected; 3]);
    }
}

/// What a response says of the leaf, from a month on.
fn says(month: u8, is_revoked: bool) -> Single<'static> {
    Single {
        issuer: "Root",
        serial: 3,
        month,
        is_revoked,
    }
}

#[test]
fn responses_of_one_time() {
    let good = response("Root", &[says(3, false)], &[]);
    let revoking = response("Root", &[says(3, true)], &[]);
    let newer = response("Root", &[says(4, false)], &[]);
    // Two single responses in one response.
    let both = response("Root", &[says(3, false), says(3, true)], &[]);
    let reversed = response("Root", &[says(3, true), says(3, false)], &[]);
    for (statements, expected) in [
        (vec![&good, &revoking], contradicted(1)),
        (vec![&revoking, &good], revoked(1)),
        (vec![&good, &revoking, &good], contradicted(1)),
        (vec![&good, &revoking, &newer], VALID),
        (vec![&both], contradicted(0)),
        (vec![&reversed], revoked(1)),
        (vec![&both, &newer], VALID),
    ] {
        let statements: Vec<Vec<u8>> = statements.into_iter().cloned().collect();
        assert_eq!(answers(&[leaf()], &statements), [expected; 3]);
    }
}

/// An authority certifies itself by its old key, so that one key issued both certificates of the path. One response says of both what is
/// right of the first, and hides what another says of the second.
#[test]
fn statements_about_several_certificates_of_one_issuer() {
    let itself = certificate_of("Root", "Root", "Root", 2, &[authority()]);
    let of_itself = |month, is_revoked| Single {
        serial: 2,
        ..says(month, is_revoked)
    };
    let newer = response("Root", &[of_itself(5, false)], &[]);
    let hides = response("Root", &[of_itself(2, true), says(3, false)], &[]);
    let revoking = response("Root", &[says(3, true)], &[]);
    let path = [itself, leaf()];
    assert_eq!(answers(&path, &[newer.clone(), hides.clone()]), [VALID; 3]);
    for statements in [
        [newer.clone(), hides.clone(), revoking.clone()],
        [hides.clone(), revoking.clone(), newer.clone()],
    ] {
        let which = statements.iter().position(|it| *it == revoking).unwrap();
        assert_eq!(answers(&path, &statements), [contradicted(which); 3]);
    }
}

#[test]
fn what_is_told_has_the_places_of_what_was_handed_in() {
    let root = root();
    let leaf = leaf();
    let lists = [list("Root", 5, &[]), list("Root", 5, &[3])];
    let query = Query {
        anchor: &root,
        path: &[&leaf],
        statements: &[&[5, 0], &lists[0], &[5, 0], &lists[1]],
        moment: MIDDLE,
        purpose: None,
        profile: Profile::Stated,
    };
    let judge = judge_by(|_| Judgement::Good);
    let told = query.answer_by_readable(&judge).unwrap_err();
    assert_eq!(told, Error::Contradicted { statement: 3 });
    assert_eq!(
        told.to_string(),
        "statements[3]: it revokes, and contradicts another one of its issuer"
    );
    let search = Search {
        anchors: &[&root],
        certificates: &[&leaf],
        statements: query.statements,
        moment: MIDDLE,
        purpose: None,
        name: None,
        limits: Limits::default(),
        profile: Profile::Stated,
    };
    let told = search.find_by_readable(&judge).unwrap_err();
    assert_eq!(told, Error::Contradicted { statement: 3 }.into());
    let statements = &query.statements[..2];
    let readable = Query {
        statements,
        ..query
    };
    assert!(matches!(
        readable.require_valid(&judge),
        Err(NotValid::Error(Error::Refused(_)))
    ));
    let answer = readable.answer_by_readable(&judge).unwrap();
    assert_eq!((answer.verdict, answer.ignored.len()), (Verdict::Valid, 1));
}

/// The store keeps what came first, as the program says; the delivery is an error, and says what it counted.
#[test]
fn a_delivery_that_contradicts_is_an_error() {
    let folder: PathBuf = std::env::temp_dir().join(format!("x509check-both-{}", process::id()));
    std::fs::create_dir(&folder).unwrap();
    let program = concat!(env!("CARGO_MANIFEST_DIR"), "/../../x509check");
    let party = Party::start(Command::new(program), folder.join("store")).unwrap();
    let (root, leaf, judge) = (root(), leaf(), judge_by(|_| Judgement::Good));
    let deliver = |list: &[u8]| party.deliver(&root, list, &judge);
    let delivery = deliver(&list("Root", 5, &[])).unwrap();
    assert_eq!((delivery.stored, delivery.contradicted), (1, 0));
    let revoking = list("Root", 5, &[3]);
    let Err(PartyError::Contradicted(delivery)) = deliver(&revoking) else {
        panic!("a list of one number was taken");
    };
    let counts = (delivery.stored, delivery.kept, delivery.contradicted);
    assert_eq!(counts, (0, 0, 1));
    assert_eq!(delivery.statement, x509check::sha256(&revoking));
    let query = PartyQuery {
        anchor: &root,
        path: &[&leaf],
        moment: MIDDLE,
        purpose: None,
    };
    assert_eq!(party.check(&query, &judge).unwrap().verdict, Verdict::Valid);
    assert_eq!(deliver(&list("Root", 6, &[3])).unwrap().stored, 1);
    let verdict = party.check(&query, &judge).unwrap().verdict;
    assert_eq!(Ok(verdict), revoked(1));
    drop(party);
    std::fs::remove_dir_all(&folder).unwrap();
}
