//! Both profiles, over lists that are published at the point of a certificate (RFC 5280, 5.2.5), and over constraints on mail addresses
//! (4.2.1.10). All signatures count as good.

use std::fs;

use x509check::{
    judge_by, Answer, Error, Finding, Judgement, Limits, Peer, PolicyInputs, Profile, Query,
    QueryWithPolicies, Reason, Search, SearchError, SpeakingError, Text, Verdict,
};

/// 2025-06-15T00:00:00Z
const MIDDLE: i64 = 1_749_945_600;
const REVOKED: Verdict = Verdict::Revoked {
    certificate: 1,
    reason: 1,
};

fn read_in(folder: &str, name: &str) -> Vec<u8> {
    fs::read(format!(
        "{}/../testdata/{folder}/{name}",
        env!("CARGO_MANIFEST_DIR")
    ))
    .expect(name)
}

fn read(name: &str) -> Vec<u8> {
    read_in("points", name)
}

/// What is said of a query about this leaf and by this list.
fn ask<T>(profile: Profile, leaf: &str, list: &str, call: impl FnOnce(Query<'_>) -> T) -> T {
    let (root, leaf, list) = (read("root.der"), read(leaf), read(list));
    call(Query {
        anchor: &root,
        path: &[&leaf],
        statements: &[&list],
        moment: MIDDLE,
        purpose: None,
        profile,
    })
}

fn answer(profile: Profile, leaf: &str, list: &str) -> Result<Answer, Error> {
    let judge = judge_by(|_| Judgement::Good);
    ask(profile, leaf, list, |query| query.answer(&judge))
}

fn refused(error: Error) -> (Option<(Text, usize)>, u32) {
    match error {
        Error::Refused(fault) => (fault.value, fault.number),
        other => panic!("{other}"),
    }
}

#[test]
fn a_list_at_a_point_counts_in_the_wide_profile() {
    for (list, verdict) in [("list.crl", Verdict::Valid), ("revoking.crl", REVOKED)] {
        let told = answer(Profile::Wide, "leaf.der", list).unwrap();
        assert_eq!(told.verdict, verdict);
        let refusal = answer(Profile::default(), "leaf.der", list).unwrap_err();
        assert_eq!(refused(refusal), (Some((Text::Statements, 0)), 48));
    }
}

/// limited.der is leaf.der, and its point has reasons.
#[test]
fn a_list_at_a_point_with_reasons_revokes_and_covers_nothing() {
    for (list, verdict) in [
        ("list.crl", Verdict::Unknown { certificate: 1 }),
        ("revoking.crl", REVOKED),
    ] {
        let told = answer(Profile::Wide, "limited.der", list).unwrap();
        assert_eq!(told.verdict, verdict);
    }
}

/// critical.der is leaf.der with critical points; unprocessed.der also has a critical certificatePolicies without policies.
#[test]
fn critical_extensions_are_processed_in_the_wide_profile() {
    let invalid = Verdict::Invalid {
        certificate: 1,
        reason: Reason::CriticalUnknown,
    };
    for (leaf, verdict) in [("critical.der", Verdict::Valid), ("unprocessed.der", invalid)] {
        let told = answer(Profile::Wide, leaf, "list.crl").unwrap();
        assert_eq!(told.verdict, verdict);
    }
}

#[test]
fn points_are_read_in_the_wide_profile() {
    let refusal = answer(Profile::Wide, "malformed.der", "list.crl").unwrap_err();
    assert_eq!(refused(refusal), (Some((Text::Certificates, 1)), 29));
    let refusal = answer(Profile::Stated, "malformed.der", "list.crl").unwrap_err();
    assert_eq!(refused(refusal), (Some((Text::Statements, 0)), 48));
}

#[test]
fn constraints_on_mail_addresses_are_processed_in_the_wide_profile() {
    let (root, authority) = (
        read_in("mail", "root.der"),
        read_in("mail", "authority.der"),
    );
    let judge = judge_by(|_| Judgement::Good);
    let answer = |profile, leaf| {
        let leaf = read_in("mail", leaf);
        let query = Query {
            anchor: &root,
            path: &[&authority, &leaf],
            statements: &[],
            moment: MIDDLE,
            purpose: None,
            profile,
        };
        query.answer(&judge)
    };
    let invalid = |reason| Verdict::Invalid {
        certificate: 2,
        reason,
    };
    let told = answer(Profile::Stated, "leaf.der").unwrap();
    assert_eq!(told.verdict, invalid(Reason::ConstraintForm));
    let told = answer(Profile::Wide, "leaf.der").unwrap();
    assert_eq!(told.verdict, Verdict::Unknown { certificate: 1 });
    let told = answer(Profile::Wide, "stranger.der").unwrap();
    assert_eq!(told.verdict, invalid(Reason::NotPermitted));
    let told = answer(Profile::Wide, "malformed.der").unwrap();
    assert_eq!(told.verdict, invalid(Reason::ConstraintForm));
}

#[test]
fn what_can_be_read_depends_on_the_profile() {
    let judge = judge_by(|_| Judgement::Good);
    for (profile, verdict, ignored) in [
        (Profile::Stated, Verdict::Unknown { certificate: 1 }, 1),
        (Profile::Wide, REVOKED, 0),
    ] {
        let told = ask(profile, "leaf.der", "revoking.crl", |query| {
            query.answer_by_readable(&judge)
        });
        let told = told.unwrap();
        assert_eq!((told.verdict, told.ignored.len()), (verdict, ignored));
    }
}

#[test]
fn policies_are_processed_in_the_profile() {
    let judge = judge_by(|_| Judgement::Good);
    let inputs = PolicyInputs {
        initial_policies: None,
        require_explicit_policy: false,
        inhibit_policy_mapping: false,
        inhibit_any_policy: false,
    };
    let told = ask(Profile::Wide, "leaf.der", "revoking.crl", |query| {
        QueryWithPolicies { query, inputs }.answer(&judge)
    });
    assert_eq!(told.unwrap().verdict, REVOKED);
}

/// What is found for the first of these certificates, the others beside it. The malformed one is an anchor too, of which no list speaks.
fn found(
    profile: Profile,
    certificates: &[&str],
    call: impl FnOnce(Search<'_>) -> Result<Peer, SearchError>,
) -> Result<Peer, SearchError> {
    let (root, malformed, list) = (
        read("root.der"),
        read("malformed.der"),
        read("revoking.crl"),
    );
    let certificates: Vec<Vec<u8>> = certificates.iter().map(|name| read(name)).collect();
    let certificates: Vec<&[u8]> = certificates.iter().map(|it| &it[..]).collect();
    call(Search {
        anchors: &[&malformed, &root],
        certificates: &certificates,
        statements: &[&list],
        moment: MIDDLE,
        purpose: None,
        name: None,
        limits: Limits::default(),
        profile,
    })
}

fn search_refused(found: Result<Peer, SearchError>) -> (Option<(Text, usize)>, u32) {
    match found {
        Err(SearchError::Speaking(SpeakingError::Library(error))) => refused(error),
        other => panic!("{other:?}"),
    }
}

#[test]
fn a_search_is_in_a_profile() {
    let judge = judge_by(|_| Judgement::Good);
    let peer = found(Profile::Wide, &["leaf.der"], |search| search.find(&judge)).unwrap();
    assert_eq!(peer.finding, Finding::Found(REVOKED));
    let stated = found(Profile::Stated, &["leaf.der"], |search| search.find(&judge));
    assert_eq!(search_refused(stated), (Some((Text::Statements, 0)), 48));
    let bag = ["leaf.der", "malformed.der"];
    let wide = found(Profile::Wide, &bag, |search| search.find(&judge));
    assert_eq!(search_refused(wide), (Some((Text::Certificates, 1)), 29));
}

#[test]
fn a_search_leaves_out_what_the_profile_cannot_read() {
    let judge = judge_by(|_| Judgement::Good);
    let bag = ["leaf.der", "malformed.der"];
    let readable = |profile| found(profile, &bag, |search| search.find_by_readable(&judge));
    let wide = readable(Profile::Wide).unwrap();
    assert_eq!(wide.finding, Finding::Found(REVOKED));
    let left_out: Vec<_> = wide
        .ignored
        .iter()
        .map(|it| (it.value, it.number))
        .collect();
    assert_eq!(left_out, [(Some((Text::Certificates, 1)), 29)]);
    let stated = readable(Profile::Stated).unwrap();
    let unknown = Verdict::Unknown { certificate: 1 };
    assert_eq!(stated.finding, Finding::Found(unknown));
    assert_eq!(stated.ignored[0].value, Some((Text::Statements, 0)));
}
