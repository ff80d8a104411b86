//! Tests over the small authority of the repository, whose signatures OpenSSL found good.

use std::cell::RefCell;
use std::fs;
use x509check::{
    fingerprint, judge_by, sha256, Answer, Certificate, Error, Extensions, Fault, Fingerprints,
    Judge, Judgement, NotValid, Profile, Query, Reason, Reference, ReferenceRule,
    SignatureQuestion, SpeakingError, Text, Verdict,
};

/// 2026-12-01T00:00:00Z
const DECEMBER: i64 = 1_796_083_200;
/// id-kp-clientAuth and id-kp-serverAuth (RFC 5280, 4.2.1.12).
const CLIENT_AUTH: &[u8] = &[0x2B, 0x06, 0x01, 0x05, 0x05, 0x07, 0x03, 0x02];
const SERVER_AUTH: &[u8] = &[0x2B, 0x06, 0x01, 0x05, 0x05, 0x07, 0x03, 0x01];

/// The SHA-256 of leaf.der.
const LEAF: &str = "a21bb633ad33f0f8110a2e4526a9bd1ac59cc9dab50e9d118bcf19baef433686";

fn read(name: &str) -> Vec<u8> {
    fs::read(format!("{}/../testdata/{name}", env!("CARGO_MANIFEST_DIR"))).expect(name)
}

struct Authority {
    root: Vec<u8>,
    middle: Vec<u8>,
    leaf: Vec<u8>,
    root_list: Vec<u8>,
    middle_list: Vec<u8>,
    revoking_list: Vec<u8>,
    response: Vec<u8>,
    /// Of middle and leaf, of the three lists, of the delegate's certificate and of the response.
    good: Vec<[u8; 32]>,
}

impl Authority {
    fn read() -> Authority {
        let good = read("good");
        Authority {
            root: read("root.der"),
            middle: read("middle.der"),
            leaf: read("leaf.der"),
            root_list: read("root.crl"),
            middle_list: read("middle.crl"),
            revoking_list: read("middle2.crl"),
            response: read("leaf.ocsp"),
            good: good
                .chunks_exact(32)
                .map(|print| print.try_into().unwrap())
                .collect(),
        }
    }

    fn path(&self) -> [&[u8]; 2] {
        [&self.middle, &self.leaf]
    }

    fn query<'a>(&'a self, path: &'a [&'a [u8]], statements: &'a [&'a [u8]]) -> Query<'a> {
        Query {
            anchor: &self.root,
            path,
            statements,
            moment: DECEMBER,
            purpose: None,
            profile: Profile::Stated,
        }
    }

    fn answer(
        &self,
        statements: &[&[u8]],
        change: impl FnOnce(&mut Query<'_>),
    ) -> Result<Answer, Error> {
        let path = self.path();
        let mut query = self.query(&path, &[]);
        change(&mut query);
        Query {
            statements,
            ..query
        }
        .answer(&Fingerprints(&self.good))
    }

    fn ask(
        &self,
        statements: &[&[u8]],
        change: impl FnOnce(&mut Query<'_>),
    ) -> Result<Verdict, Error> {
        self.answer(statements, change).map(|answer| answer.verdict)
    }

    fn verdict(&self, statements: &[&[u8]]) -> Verdict {
        self.ask(statements, |_| {}).unwrap()
    }
}

fn invalid(certificate: usize, reason: Reason) -> Result<Verdict, Error> {
    Ok(Verdict::Invalid {
        certificate,
        reason,
    })
}

#[test]
fn fields_are_those_that_openssl_prints() {
    let authority = Authority::read();
    let leaf = Certificate::read(&authority.leaf).unwrap();
    let middle = Certificate::read(&authority.middle).unwrap();
    assert_eq!(leaf.version(), 3);
    assert_eq!(leaf.serial(), [3]);
    assert_eq!(leaf.not_before(), 1_795_458_428); // 2026-11-23T18:27:08Z
    assert_eq!(leaf.not_after(), 1_826_994_428); // 2027-11-23T18:27:08Z
    assert_eq!(leaf.issuer(), middle.subject());
    assert_eq!(leaf.extensions().alternative_names, 1);
    assert_eq!(middle.extensions().is_authority, Some(true));
    assert_eq!(middle.extensions().path_length, Some(0));
    assert!(middle.extensions().key_usage.unwrap().key_cert_sign());
    assert!(middle.extensions().key_usage.unwrap().crl_sign());
    assert_eq!(leaf.extensions().is_authority, None);
}

/// What `openssl x509 -text` prints of an authority with constraints, and of a delegate for OCSP.
#[test]
fn extensions_differ_in_each_field() {
    let (constraints, delegate) = (read("constraints.der"), read("delegate.der"));
    let constrained = Extensions {
        is_authority: Some(true),
        path_length: None,
        key_usage: None,
        needs_policy_processing: true,
        no_check: false,
        alternative_names: 3,
        permitted_subtrees: 1,
        excluded_subtrees: 2,
        purposes: 4,
        unrecognised: 5,
    };
    let delegated = Extensions {
        is_authority: Some(false),
        path_length: Some(7),
        key_usage: None,
        needs_policy_processing: false,
        no_check: true,
        alternative_names: 0,
        permitted_subtrees: 0,
        excluded_subtrees: 0,
        purposes: 0,
        unrecognised: 0,
    };
    assert_eq!(
        Certificate::read(&constraints).unwrap().extensions(),
        constrained
    );
    assert_eq!(
        Certificate::read(&delegate).unwrap().extensions(),
        delegated
    );
}

fn hex(octets: &[u8]) -> String {
    octets.iter().map(|octet| format!("{octet:02x}")).collect()
}

/// As `sha256sum` prints it of no octets, and of three.
#[test]
fn digests_are_those_of_sha256() {
    let nothing = "e3b0c44298fc1c149afbf4c8996fb92427ae41e4649b934ca495991b7852b855";
    let abc = "ba7816bf8f01cfea414140de5dae2223b00361a396177a9cb410ff61f20015ad";
    assert_eq!(
        (hex(&sha256(b"")), hex(&sha256(b"abc"))),
        (nothing.into(), abc.into())
    );
}

/// The number is what `openssl x509 -fingerprint -sha256` prints, and the name what `-subject -nameopt RFC2253` does.
#[test]
fn identities_are_those_that_openssl_prints() {
    let authority = Authority::read();
    let leaf = Certificate::read(&authority.leaf).unwrap();
    let identity = leaf.identity().unwrap();
    assert_eq!(identity.name, "CN=leaf,O=Example");
    assert_eq!(identity.subject, leaf.subject());
    assert_eq!(identity.serial, [3]);
    assert_eq!(hex(&identity.sha256), LEAF);
    assert_eq!(
        identity.to_string(),
        format!("serial 03 sha256 {LEAF} subject CN=leaf,O=Example")
    );
}

/// The leaf with another common name of as many octets, which its signature does not cover.
#[test]
fn a_name_stays_in_its_place_on_the_line() {
    let authority = Authority::read();
    let is_name = |octets: &[u8]| octets == b"leaf";
    let at = authority.leaf.windows(4).position(is_name).unwrap();
    for (name, text) in [(b"a;\nb", r"a\3B\0Ab"), (b" \0,=", r"\20\00\2C\3D")] {
        let mut leaf = authority.leaf.clone();
        leaf[at..at + 4].copy_from_slice(name);
        let path: [&[u8]; 2] = [&authority.middle, &leaf];
        let query = authority.query(&path, &[]);
        let answer = query.answer(&Fingerprints(&authority.good)).unwrap();
        let ends = format!(
            "; decided by serial 03 sha256 {} subject CN={text},O=Example",
            hex(&sha256(&leaf))
        );
        assert!(answer.to_string().ends_with(&ends), "{answer}");
    }
}

#[test]
fn fingerprints_are_those_of_the_verdicts_file() {
    let authority = Authority::read();
    let [root, middle, leaf] = [&authority.root, &authority.middle, &authority.leaf]
        .map(|octets| Certificate::read(octets).unwrap());
    assert_eq!(middle.fingerprint_under(&root), authority.good[0]);
    assert_eq!(leaf.fingerprint_under(&middle), authority.good[1]);
    let parts = (
        leaf.algorithm(),
        middle.subject_public_key_info(),
        leaf.tbs(),
        leaf.signature(),
    );
    assert_eq!(
        fingerprint(parts.0, parts.1, parts.2, parts.3),
        authority.good[1]
    );
}

#[test]
fn verdicts_by_lists_and_responses() {
    let authority = Authority::read();
    let (root, middle, revoking) = (
        &authority.root_list[..],
        &authority.middle_list[..],
        &authority.revoking_list[..],
    );
    assert_eq!(authority.verdict(&[root, middle]), Verdict::Valid);
    assert_eq!(authority.verdict(&[middle, root]), Verdict::Valid);
    let revoked = Verdict::Revoked {
        certificate: 2,
        reason: 1,
    };
    assert_eq!(authority.verdict(&[root, revoking, middle]), revoked);
    assert_eq!(authority.verdict(&[root, &authority.response]), revoked);
    assert_eq!(authority.verdict(&[]), Verdict::Unknown { certificate: 1 });
    assert_eq!(
        authority.verdict(&[root]),
        Verdict::Unknown { certificate: 2 }
    );
}

#[test]
fn answers_name_whom_they_are_about() {
    let authority = Authority::read();
    let identity = |octets: &[u8]| Some(Certificate::read(octets).unwrap().identity().unwrap());
    let (leaf, middle) = (identity(&authority.leaf), identity(&authority.middle));
    let lists = [&authority.root_list[..], &authority.middle_list];
    let valid = authority.answer(&lists, |_| {}).unwrap();
    assert_eq!(
        (&valid.target, &valid.decides, valid.signature),
        (&leaf, &None, None)
    );
    assert_eq!(
        valid.to_string(),
        format!("valid; target serial 03 sha256 {LEAF} subject CN=leaf,O=Example")
    );
    let unknown = authority.answer(&lists[1..], |_| {}).unwrap();
    assert_eq!(unknown.verdict, Verdict::Unknown { certificate: 1 });
    assert_eq!((&unknown.target, &unknown.decides), (&leaf, &middle));
    assert!(unknown
        .to_string()
        .starts_with("unknown 1; target serial 03 "));
    assert!(unknown
        .to_string()
        .ends_with(" subject CN=middle,O=Example"));
    let revoked = authority
        .answer(&[&authority.root_list, &authority.revoking_list], |_| {})
        .unwrap();
    assert_eq!((&revoked.target, &revoked.decides), (&leaf, &leaf));
    let short = authority
        .answer(&lists, |it| it.path = &it.path[..1])
        .unwrap();
    assert_eq!((&short.verdict, &short.target), (&Verdict::Valid, &middle));
    let empty = authority.answer(&lists, |it| it.path = &[]).unwrap();
    assert_eq!((&empty.target, &empty.decides), (&None, &None));
    assert_eq!(empty.to_string(), "invalid 0 15");
}

#[test]
fn invalid_paths() {
    let authority = Authority::read();
    let (root, middle) = (&authority.root_list[..], &authority.middle_list[..]);
    let leaf: [&[u8]; 1] = [&authority.leaf];
    let lists = [root, middle];
    assert_eq!(
        authority.ask(&lists, |it| it.moment = 0),
        invalid(1, Reason::NotYet)
    );
    assert_eq!(
        authority.ask(&lists, |it| it.moment = 1_893_456_000),
        invalid(2, Reason::Expired)
    );
    assert_eq!(
        authority.ask(&lists, |it| it.path = &[]),
        invalid(0, Reason::Empty)
    );
    assert_eq!(
        authority.ask(&lists, |it| it.purpose = Some(CLIENT_AUTH)),
        invalid(2, Reason::Purpose)
    );
    assert_eq!(
        authority.ask(&lists, |it| it.purpose = Some(SERVER_AUTH)),
        Ok(Verdict::Valid)
    );
    let alone = authority
        .query(&leaf, &lists)
        .answer(&Fingerprints(&authority.good))
        .unwrap();
    assert_eq!(Ok(alone.verdict), invalid(1, Reason::Signature));
    assert_eq!(alone.signature, Some(Judgement::Wrong));
}

#[test]
fn a_purpose_that_is_none_is_an_error() {
    let authority = Authority::read();
    let lists = [&authority.root_list[..], &authority.middle_list];
    for contents in [&[][..], &[0x80], &SERVER_AUTH[..2], &[0x2B, 0x86]] {
        let answer = authority.ask(&lists, |it| it.purpose = Some(contents));
        // The first two octets of a purpose are contents too, of another object identifier.
        let expected = if contents == &SERVER_AUTH[..2] {
            invalid(2, Reason::Purpose)
        } else {
            Err(Error::Purpose)
        };
        assert_eq!(answer, expected, "{contents:02X?}");
    }
}

#[test]
fn what_is_not_valid_is_an_error_where_valid_is_required() {
    let authority = Authority::read();
    let (path, good) = (authority.path(), Fingerprints(&authority.good));
    let lists = [&authority.root_list[..], &authority.middle_list];
    let valid = authority.query(&path, &lists).require_valid(&good).unwrap();
    assert_eq!(valid.verdict, Verdict::Valid);
    let Err(NotValid::Answer(answer)) = authority.query(&path, &lists[..1]).require_valid(&good)
    else {
        panic!("the leaf has no list");
    };
    assert_eq!(answer.verdict, Verdict::Unknown { certificate: 2 });
    let error = authority
        .query(&path, &[&[0x05]])
        .require_valid(&good)
        .unwrap_err();
    assert_eq!(
        error.to_string(),
        "statements[0]: 41 Der (4 Truncated) at 0"
    );
    let boxed: Box<dyn std::error::Error> = error.into();
    assert!(boxed.source().unwrap().downcast_ref::<Error>().is_some());
}

/// The octets of the questions that a judge is asked for the answer, in order, if it says this of each.
fn asked_of(
    query: &Query<'_>,
    judgement: impl Fn(usize) -> Judgement,
) -> (Result<Answer, Error>, Vec<Vec<u8>>) {
    let asked = RefCell::new(Vec::new());
    let judge = |one: &SignatureQuestion<'_>| {
        let print = fingerprint(one.algorithm, one.key_info, one.message, one.signature);
        assert_eq!(print, one.fingerprint);
        asked.borrow_mut().push(one.message.to_vec());
        judgement(asked.borrow().len())
    };
    let answer = query.answer(&judge);
    (answer, asked.into_inner())
}

#[test]
fn a_judge_is_asked_each_question_once_and_only_if_it_counts() {
    let authority = Authority::read();
    let path = authority.path();
    let statements: [&[u8]; 4] = [
        &authority.root_list,
        &authority.middle_list,
        &authority.response,
        &authority.root_list,
    ];
    let query = authority.query(&path, &statements);
    let questions = query.signature_questions().unwrap();
    // Two about the path, one about each list, two about the delegate's certificate and the response.
    assert_eq!((questions.len(), questions.is_empty()), (7, false));
    assert!(questions
        .iter()
        .all(|question| authority.good.contains(&question.fingerprint)));
    let first = questions.iter().next().unwrap();
    let middle = Certificate::read(&authority.middle).unwrap();
    assert_eq!(
        (first.message, first.signature),
        (middle.tbs(), middle.signature())
    );
    let revoked = Verdict::Revoked {
        certificate: 2,
        reason: 1,
    };
    let (answer, asked) = asked_of(&query, |_| Judgement::Good);
    assert_eq!((answer.unwrap().verdict, asked.len()), (revoked, 6));
    // The statements do not count once the path is invalid.
    for (from, judgement) in [(1, Judgement::NotServed), (2, Judgement::RefusedByPolicy)] {
        let (answer, asked) = asked_of(&query, |number| {
            if number < from {
                Judgement::Good
            } else {
                judgement
            }
        });
        let answer = answer.unwrap();
        assert_eq!(
            (Ok(answer.verdict), asked.len()),
            (invalid(from, Reason::Signature), 2)
        );
        assert_eq!(answer.signature, Some(judgement));
    }
    let (answer, asked) = asked_of(&Query { moment: 0, ..query }, |_| Judgement::Good);
    assert_eq!(
        (answer.map(|it| it.verdict), asked.len()),
        (invalid(1, Reason::NotYet), 2)
    );
    let (answer, asked) = asked_of(&Query { path: &[], ..query }, |_| Judgement::Good);
    assert_eq!(
        (answer.map(|it| it.verdict), asked.len()),
        (invalid(0, Reason::Empty), 0)
    );
}

#[test]
fn more_questions_than_there_is_room_for_at_first() {
    let authority = Authority::read();
    let (path, lists) = (
        vec![&authority.root[..]; 127],
        vec![&authority.root_list[..]; 40],
    );
    let query = authority.query(&path, &lists);
    let questions = query.signature_questions().unwrap();
    // One about each certificate, and about each list one for each issuer of its name.
    assert_eq!(questions.len(), 127 + 40 * 127);
    let last = questions.iter().last().unwrap();
    assert_eq!(last.fingerprint, authority.good[2]);
    let parts = (last.algorithm, last.key_info, last.message, last.signature);
    let print = fingerprint(parts.0, parts.1, parts.2, parts.3);
    assert_eq!(print, authority.good[2]);
}

#[test]
fn judges_are_types_closures_and_objects() {
    let authority = Authority::read();
    let path = authority.path();
    let query = authority.query(&path, &[]);
    let unknown = Ok(Verdict::Unknown { certificate: 1 });
    let verdict = |judge: &dyn Judge| query.answer(judge).map(|answer| answer.verdict);
    let mut count = 0;
    let counting = judge_by(|_| {
        count += 1;
        Judgement::Good
    });
    assert_eq!(verdict(&counting), unknown);
    assert_eq!(count, 2);
    let boxed: Box<dyn Judge> = Box::new(|_: &SignatureQuestion<'_>| true);
    assert_eq!(verdict(&*boxed), unknown);
    fn nobody(_: &SignatureQuestion<'_>) -> bool {
        false
    }
    assert_eq!(verdict(&nobody), invalid(1, Reason::Signature));
    assert_eq!(
        (Judgement::from(true), Judgement::from(false)),
        (Judgement::Good, Judgement::Wrong)
    );
}

/// The library reads no more than 130 certificates: what stands behind them may be anything.
#[test]
fn paths_that_are_too_long() {
    let authority = Authority::read();
    let null: &[u8] = &[0x05, 0x00];
    let most = vec![&authority.leaf[..]; 128];
    let more = [&most[..], &[&authority.leaf]].concat();
    let broken = [&more[..], &[null]].concat();
    let (answer, asked) = asked_of(&authority.query(&most, &[]), |_| Judgement::Good);
    assert_eq!(answer.map(|it| it.verdict), invalid(1, Reason::Issuer));
    assert_eq!(asked.len(), 2); // the leaf by the root's key, and by its own
    for path in [&more, &broken] {
        let (answer, asked) = asked_of(&authority.query(path, &[]), |_| Judgement::Good);
        let answer = answer.unwrap();
        assert_eq!(Ok(answer.verdict), invalid(0, Reason::TooLong));
        assert_eq!(
            (answer.target, answer.decides, asked.len()),
            (None, None, 0)
        );
    }
    let unread = [&most[..], &[null]].concat();
    let (answer, _) = asked_of(&authority.query(&unread, &[]), |_| Judgement::Good);
    assert_eq!(
        answer.map(|it| it.verdict),
        refused(Text::Certificates, 129, 22, None, 0)
    );
}

fn refused(
    text: Text,
    index: usize,
    number: u32,
    der: Option<u32>,
    offset: usize,
) -> Result<Verdict, Error> {
    Err(Error::Refused(Fault {
        number,
        der,
        offset,
        value: Some((text, index)),
    }))
}

#[test]
fn refusals_name_the_value_and_the_place_in_it() {
    let authority = Authority::read();
    let (root, middle) = (&authority.root_list[..], &authority.middle_list[..]);
    let short = &middle[..middle.len() - 1];
    let null: &[u8] = &[0x05, 0x00];
    assert_eq!(
        authority.ask(&[root, short], |_| {}),
        refused(Text::Statements, 1, 41, Some(4), 0)
    );
    assert_eq!(
        authority.ask(&[root, null, middle], |_| {}),
        refused(Text::Statements, 1, 42, None, 0)
    );
    assert_eq!(
        authority.ask(&[&[]], |_| {}),
        refused(Text::Statements, 0, 41, Some(4), 0)
    );
    let unsuccessful: &[u8] = &[0x30, 0x03, 0x0A, 0x01, 0x06];
    assert_eq!(
        authority.ask(&[unsuccessful], |_| {}),
        refused(Text::Statements, 0, 55, None, 2)
    );
    // So is a statement of a path that is invalid whatever it says.
    assert_eq!(
        authority.ask(&[null], |it| it.moment = 0),
        refused(Text::Statements, 0, 42, None, 0)
    );
    // A fault at the end of a value has its offset there, and not at the begin of the next.
    let ends: &[u8] = &[0x30, 0x02, 0x30, 0x00];
    let ask = |path: [&[u8]; 2]| {
        let answer = authority.query(&path, &[]).answer(&Fingerprints(&[]));
        answer.map(|it| it.verdict)
    };
    assert_eq!(
        ask([ends, &authority.leaf]),
        refused(Text::Certificates, 1, 22, None, 4)
    );
    assert_eq!(
        ask([&authority.middle, null]),
        refused(Text::Certificates, 2, 22, None, 0)
    );
}

#[test]
fn statements_that_cannot_be_read_are_left_out_if_asked_for() {
    let authority = Authority::read();
    let (path, good) = (authority.path(), Fingerprints(&authority.good));
    let cut = &authority.revoking_list[..100];
    let statements = [
        &[0x05, 0x00][..],
        &authority.root_list,
        cut,
        &authority.middle_list,
    ];
    let query = authority.query(&path, &statements);
    assert_eq!(
        query.answer(&good).map(|it| it.verdict),
        refused(Text::Statements, 0, 42, None, 0)
    );
    let answer = query.answer_by_readable(&good).unwrap();
    assert_eq!(answer.verdict, Verdict::Valid);
    let ignored: Vec<_> = answer.ignored.iter().map(Fault::to_string).collect();
    assert_eq!(
        ignored,
        [
            "statements[0]: 42 Layout at 0",
            "statements[2]: 41 Der (4 Truncated) at 0"
        ]
    );
    assert!(answer.to_string().ends_with(&format!(
        "; left out {}; left out {}",
        ignored[0], ignored[1]
    )));
    let none = authority
        .query(&path, &statements[..1])
        .answer_by_readable(&good)
        .unwrap();
    assert_eq!(
        (none.verdict, none.ignored.len()),
        (Verdict::Unknown { certificate: 1 }, 1)
    );
    // Certificates that cannot be read are refused as ever.
    let broken: [&[u8]; 1] = [&[0x05, 0x00]];
    let refusal = authority
        .query(&broken, &statements)
        .answer_by_readable(&good);
    assert_eq!(
        refusal.map(|it| it.verdict),
        refused(Text::Certificates, 1, 22, None, 0)
    );
    let anchor = Query {
        anchor: &[],
        ..query
    };
    assert_eq!(
        anchor.answer_by_readable(&good).map(|it| it.verdict),
        refused(Text::Certificates, 0, 21, Some(4), 0)
    );
}

#[test]
fn errors_are_said_in_words() {
    let error = Certificate::read(&[0x30, 0x04, 0x05, 0x00, 0x03, 0x00])
        .err()
        .unwrap();
    assert_eq!(error.to_string(), "21 Der (6 Content) at 4");
    for (number, name) in [
        (1, "TagForm"),
        (17, "MaskForm"),
        (59, "TooManySingles"),
        (0, "Unnamed"),
        (999, "Unnamed"),
    ] {
        let fault = Fault {
            number,
            der: None,
            offset: 0,
            value: None,
        };
        assert_eq!(fault.name(), name);
    }
    let boxed: Box<dyn std::error::Error> = error.into();
    assert!(boxed.downcast_ref::<Error>().is_some());
    assert_eq!(
        Error::Purpose.to_string(),
        "the purpose is not the contents of an object identifier"
    );
}

#[test]
fn a_certificate_speaks_for_its_host_alone() {
    let octets = read("leaf.der");
    let leaf = Certificate::read(&octets).unwrap();
    for (reference, said) in [
        (Reference::Host("www.example"), true),
        (Reference::Host("WWW.Example."), true),
        (Reference::Host("example"), false),
        (Reference::Address("192.0.2.1".parse().unwrap()), false),
        (Reference::Address("2001:db8::1".parse().unwrap()), false),
        (Reference::Mailbox("who@www.example"), false),
    ] {
        assert_eq!(leaf.speaks_for(reference), Ok(said), "{reference:?}");
    }
    for (reference, rule, at) in [
        (Reference::Host("a..example"), ReferenceRule::Label, 2),
        (Reference::Host("*.example"), ReferenceRule::HostOctet, 0),
        (Reference::Mailbox("example"), ReferenceRule::NoHost, 7),
    ] {
        let refused = Err(SpeakingError::Reference(rule, at));
        assert_eq!(leaf.speaks_for(reference), refused, "{reference:?}");
    }
}
