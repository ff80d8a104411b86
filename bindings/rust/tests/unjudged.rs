//! Lists and responses that nobody could judge: each may be the one that revokes, so that no path is valid beside it.

mod support;

use support::{
    authority, certificate, certificate_of, contains, delegate, except, list, response, slices,
    Single, MIDDLE,
};
use x509check::{
    Answer, Error, Finding, Judge, Judgement, Limits, NotValid, Peer, PolicyInputs, Profile, Query,
    QueryWithPolicies, Search, SearchError, SignatureQuestion, SpeakingError, Text, Verdict,
};

const UNJUDGED: [Judgement; 2] = [Judgement::NotServed, Judgement::RefusedByPolicy];

/// A leaf below a root, with statements.
struct Case {
    root: Vec<u8>,
    leaf: Vec<u8>,
    statements: Vec<Vec<u8>>,
}

impl Case {
    fn of(statements: Vec<Vec<u8>>) -> Case {
        Case {
            root: certificate("Root", "Root", 1, &[authority()]),
            leaf: certificate("Leaf", "Root", 3, &[]),
            statements,
        }
    }

    fn ask<T>(&self, call: impl FnOnce(Query<'_>) -> T) -> T {
        call(Query {
            anchor: &self.root,
            path: &[&self.leaf],
            statements: &slices(&self.statements),
            moment: MIDDLE,
            purpose: None,
            profile: Profile::Wide,
        })
    }

    fn ask_with_policies<T>(&self, call: impl FnOnce(QueryWithPolicies<'_>) -> T) -> T {
        let inputs = PolicyInputs {
            initial_policies: None,
            require_explicit_policy: false,
            inhibit_policy_mapping: false,
            inhibit_any_policy: false,
        };
        self.ask(|query| call(QueryWithPolicies { query, inputs }))
    }

    fn search<T>(&self, others: &[&[u8]], call: impl FnOnce(Search<'_>) -> T) -> T {
        call(Search {
            anchors: &[&self.root],
            certificates: &[&[&self.leaf[..]], others].concat(),
            statements: &slices(&self.statements),
            moment: MIDDLE,
            purpose: None,
            name: None,
            limits: Limits::default(),
            profile: Profile::Wide,
        })
    }

    /// What each way to ask answers: of a query, of one with policies, and of a search.
    fn all(&self, judge: &dyn Judge) -> [Result<Verdict, Error>; 3] {
        [
            self.ask(|query| query.answer(judge)).map(verdict_of),
            self.ask_with_policies(|query| query.answer(judge))
                .map(verdict_of),
            found(self.search(&[], |search| search.find(judge))),
        ]
    }
}

fn verdict_of(answer: Answer) -> Verdict {
    assert_eq!(answer.ignored, []);
    answer.verdict
}

fn found(peer: Result<Peer, SearchError>) -> Result<Verdict, Error> {
    match peer {
        Ok(Peer {
            finding: Finding::Found(verdict),
            ..
        }) => Ok(verdict),
        Err(SearchError::Speaking(SpeakingError::Library(error))) => Err(error),
        other => panic!("{other:?}"),
    }
}

#[test]
fn a_list_that_nobody_could_judge() {
    for judgement in UNJUDGED {
        for statement in [0, 1] {
            let mut statements = vec![list("Root", 1, &[])];
            statements.insert(statement, list("Root", 2, &[3]));
            let case = Case::of(statements);
            let judge = except(&case.statements[statement], judgement);
            let unjudged = Error::Unjudged {
                statement,
                judgement,
            };
            assert_eq!(case.all(&judge), [Err(unjudged); 3]);
            let required = case.ask(|query| query.require_valid(&judge));
            assert_eq!(required, Err(NotValid::Error(unjudged)));
        }
    }
}

#[test]
fn it_is_left_out_and_named_if_that_is_asked_for() {
    let unreadable = vec![5, 0];
    let case = Case::of(vec![
        unreadable,
        list("Root", 1, &[]),
        list("Root", 2, &[3]),
    ]);
    let judge = except(&case.statements[2], Judgement::NotServed);
    let expected = [
        (42, Some((Text::Statements, 0))),
        (54, Some((Text::Statements, 2))),
    ];
    let answers = [
        case.ask(|query| query.answer_by_readable(&judge)),
        case.ask_with_policies(|query| query.answer_by_readable(&judge)),
    ];
    for answer in answers {
        let answer = answer.unwrap();
        let ignored: Vec<_> = answer
            .ignored
            .iter()
            .map(|it| (it.number, it.value))
            .collect();
        assert_eq!(
            (answer.verdict, &ignored[..]),
            (Verdict::Valid, &expected[..])
        );
        assert!(answer
            .to_string()
            .ends_with("; left out statements[2]: 54 BadSignature at 0"));
    }
    let peer = case.search(&[], |search| search.find_by_readable(&judge));
    let peer = peer.unwrap();
    let ignored: Vec<_> = peer
        .ignored
        .iter()
        .map(|it| (it.number, it.value))
        .collect();
    assert_eq!(ignored, expected);
    assert_eq!(peer.finding, Finding::Found(Verdict::Valid));
}

/// A forgery, one whose signature is good under another key of the path, and a list of somebody else.
#[test]
fn what_was_judged_or_is_of_somebody_else_stops_nobody() {
    let case = Case::of(vec![list("Root", 1, &[]), list("Root", 2, &[3])]);
    let judge = except(&case.statements[1], Judgement::Wrong);
    assert_eq!(case.all(&judge), [Ok(Verdict::Valid); 3]);
    let case = Case::of(vec![list("Root", 1, &[]), list("Other", 2, &[3])]);
    let judge = except(&case.statements[1], Judgement::NotServed);
    assert_eq!(case.all(&judge), [Ok(Verdict::Valid); 3]);
}

/// The key of another certificate with the issuer's name, which is not on the path, may have made the list.
#[test]
fn only_issuers_on_the_path_count() {
    let case = Case::of(vec![list("Root", 1, &[]), list("Root", 2, &[3])]);
    let other = certificate_of("other key", "Root", "Root", 4, &[authority()]);
    let judge = |question: &SignatureQuestion<'_>| {
        let is_list = contains(&case.statements[1], question.message);
        match (is_list, contains(question.key_info, b"other key")) {
            (true, true) => Judgement::NotServed,
            (true, false) | (false, true) => Judgement::Wrong,
            (false, false) => Judgement::Good,
        }
    };
    let peer = case.search(&[&other], |search| search.find(&judge));
    assert_eq!(found(peer), Ok(Verdict::Valid));
}

/// A path that is not valid without the list has its verdict.
#[test]
fn other_verdicts_stay() {
    let unknown = Ok(Verdict::Unknown { certificate: 1 });
    let case = Case::of(vec![list("Root", 2, &[3])]);
    let judge = except(&case.statements[0], Judgement::NotServed);
    assert_eq!(case.all(&judge), [unknown; 3]);
    let revoked = Ok(Verdict::Revoked {
        certificate: 1,
        reason: 0,
    });
    let case = Case::of(vec![list("Root", 1, &[3]), list("Root", 2, &[])]);
    let judge = except(&case.statements[1], Judgement::NotServed);
    assert_eq!(case.all(&judge), [revoked; 3]);
}

/// A list, and a response that revokes.
fn with_response(responder: &str, certificates: &[&[u8]]) -> Case {
    let revoked = Single {
        issuer: "Root",
        serial: 3,
        month: 3,
        is_revoked: true,
    };
    Case::of(vec![
        list("Root", 1, &[]),
        response(responder, &[revoked], certificates),
    ])
}

/// What is answered if this is said of the response under the issuer's key, of its delegate's certificate, and under the delegate's key.
fn with_said(case: &Case, said: [Judgement; 3]) -> [Result<Verdict, Error>; 3] {
    let judge = |question: &SignatureQuestion<'_>| {
        let is_about_response = contains(question.message, b"20250301000000Z");
        let is_by_delegate = contains(question.key_info, b"delegate's");
        match (is_about_response, is_by_delegate) {
            (true, false) => said[0],
            (true, true) => said[2],
            _ if contains(question.message, b"delegate's") => said[1],
            _ => Judgement::Good,
        }
    };
    case.all(&judge)
}

#[test]
fn responses_of_an_issuer_and_of_a_delegate() {
    use Judgement::{Good, NotServed, RefusedByPolicy, Wrong};
    let revoked = Ok(Verdict::Revoked {
        certificate: 1,
        reason: 0,
    });
    let unjudged = |judgement| {
        Err(Error::Unjudged {
            statement: 1,
            judgement,
        })
    };
    let valid = Ok(Verdict::Valid);
    // The delegate has the issuer's name, so that both may have signed the response.
    let its = certificate_of("delegate's", "Root", "Root", 9, &delegate());
    let case = with_response("Root", &[&its]);
    for (said, expected) in [
        ([Wrong, Good, Good], revoked),
        ([Good, Wrong, Wrong], revoked),
        ([NotServed, Good, Good], revoked),
        ([Good, NotServed, NotServed], revoked),
        ([NotServed, Wrong, Wrong], unjudged(NotServed)),
        ([Wrong, NotServed, Good], unjudged(NotServed)),
        ([Wrong, Good, RefusedByPolicy], unjudged(RefusedByPolicy)),
        ([Wrong, NotServed, NotServed], unjudged(NotServed)),
        ([Wrong, Wrong, NotServed], valid),
        ([Wrong, NotServed, Wrong], valid),
        ([Wrong, Good, Wrong], valid),
    ] {
        assert_eq!(with_said(&case, said), [expected; 3], "{said:?}");
    }
    // One that may not sign responses is none, whoever certified it; nor is one of another name.
    let no_delegate = certificate_of("delegate's", "Root", "Root", 9, &[]);
    let case = with_response("Root", &[&no_delegate]);
    assert_eq!(with_said(&case, [Wrong, Good, Good]), [valid; 3]);
    assert_eq!(with_said(&case, [Wrong, NotServed, Good]), [valid; 3]);
    let case = with_response("Other", &[&its]);
    assert_eq!(with_said(&case, [NotServed; 3]), [valid; 3]);
}

#[test]
fn a_response_that_is_left_out() {
    let case = with_response("Root", &[]);
    let judge = except(&case.statements[1], Judgement::RefusedByPolicy);
    let answer = case.ask(|query| query.answer_by_readable(&judge));
    let answer = answer.unwrap();
    assert_eq!(
        (answer.verdict, answer.ignored[0].number),
        (Verdict::Valid, 57)
    );
    assert!(answer
        .to_string()
        .ends_with("; left out statements[1]: 57 NoSigner at 0"));
}

/// The judge ends whatever asks it, of a certificate or of a statement.
#[test]
fn a_judge_that_cannot_tell_ends_the_call() {
    let case = Case::of(vec![list("Root", 1, &[]), list("Root", 2, &[3])]);
    for octets in [&case.leaf, &case.statements[1]] {
        let judge = except(octets, Judgement::CouldNotTell);
        for told in case.all(&judge) {
            let Err(Error::CouldNotTell { fingerprint }) = told else {
                panic!("{told:?}");
            };
            let is_asked = |query: Query<'_>| {
                let questions = query.signature_questions().unwrap();
                let asked = questions.iter().find(|it| it.fingerprint == fingerprint);
                asked.is_some_and(|it| contains(octets, it.message))
            };
            assert!(case.ask(is_asked));
        }
        let readable = case.ask(|query| query.answer_by_readable(&judge));
        assert!(matches!(readable, Err(Error::CouldNotTell { .. })));
    }
}

/// The closure asks itself about the list that revokes.
#[test]
fn a_closure_that_is_called_while_it_runs_cannot_tell() {
    let case = Case::of(vec![list("Root", 1, &[]), list("Root", 2, &[3])]);
    let again: std::cell::RefCell<Option<&dyn Judge>> = std::cell::RefCell::new(None);
    let judge = x509check::judge_by(|question| match *again.borrow() {
        Some(judge) if contains(&case.statements[1], question.message) => judge.judge(question),
        _ => Judgement::Good,
    });
    *again.borrow_mut() = Some(&judge);
    let told = case.ask(|query| query.answer(&judge));
    assert!(matches!(told, Err(Error::CouldNotTell { .. })), "{told:?}");
}
