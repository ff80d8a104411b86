//! Paths whose policies are processed, over copies of examples/policies: what OpenSSL says of the same certificates.

use std::cell::RefCell;
use std::fs;

use x509check::{
    Answer, Certificate, Error, Fingerprints, Judgement, NotValid, ObjectIdentifier, Policies,
    PolicyInputs, Profile, Query, QueryWithPolicies, Reason, SignatureQuestion, Text, Verdict,
};

/// 2026-12-01T00:00:00Z
const DECEMBER: i64 = 1_796_083_200;
/// Of the root's domain, of which the partner issues under both and maps the first to its own; and of the partner's domain.
const FIRST: &str = "2.999.1.1";
const SECOND: &str = "2.999.1.2";
const OWN: &str = "2.999.2.7";
const ANY: &str = "2.5.29.32.0";

fn read(name: &str) -> Vec<u8> {
    fs::read(format!(
        "{}/../testdata/policies/{name}",
        env!("CARGO_MANIFEST_DIR")
    ))
    .expect(name)
}

fn policies(texts: &[&str]) -> Vec<ObjectIdentifier> {
    texts.iter().map(|text| text.parse().unwrap()).collect()
}

/// The certificate with another policy in place of one, whose contents have the same length, where those stand first.
fn changed(octets: &[u8], old: &str, new: &str) -> Vec<u8> {
    let [old, new] = [old, new].map(|text| text.parse::<ObjectIdentifier>().unwrap());
    let (old, new) = (old.contents(), new.contents());
    assert_eq!(old.len(), new.len());
    let at = octets.windows(old.len()).position(|part| part == old);
    let at = at.expect("the policy stands there");
    [&octets[..at], new, &octets[at + new.len()..]].concat()
}

struct Case {
    root: Vec<u8>,
    path: Vec<Vec<u8>>,
    statements: Vec<Vec<u8>>,
    good: Vec<[u8; 32]>,
}

impl Case {
    /// The files. The signatures of certificates count as good whatever is in them.
    fn of(change: impl FnOnce(&mut Vec<Vec<u8>>)) -> Case {
        let (root, mut path) = (
            read("root.der"),
            vec![read("partner.der"), read("leaf.der")],
        );
        change(&mut path);
        let good = read("good");
        let mut good: Vec<[u8; 32]> = good
            .chunks_exact(32)
            .map(|print| print.try_into().unwrap())
            .collect();
        let mut issuer = &root;
        for octets in &path {
            let above = Certificate::read(issuer).unwrap();
            good.push(Certificate::read(octets).unwrap().fingerprint_under(&above));
            issuer = octets;
        }
        Case {
            statements: vec![read("root.crl"), read("partner.crl")],
            root,
            path,
            good,
        }
    }

    fn files() -> Case {
        Case::of(|_| {})
    }

    /// What is answered, if these policies are taken, or every one, and the inputs are changed so.
    fn ask(
        &self,
        taken: Option<&[&str]>,
        change: impl FnOnce(&mut PolicyInputs<'_>),
    ) -> Result<Answer, Error> {
        self.ask_by(taken, change, |query| {
            query.answer(&Fingerprints(&self.good))
        })
    }

    fn ask_by<T>(
        &self,
        taken: Option<&[&str]>,
        change: impl FnOnce(&mut PolicyInputs<'_>),
        call: impl FnOnce(QueryWithPolicies<'_>) -> T,
    ) -> T {
        let path: Vec<&[u8]> = self.path.iter().map(Vec::as_slice).collect();
        let statements: Vec<&[u8]> = self.statements.iter().map(Vec::as_slice).collect();
        let taken = taken.map(policies);
        let mut inputs = PolicyInputs {
            initial_policies: taken.as_deref(),
            require_explicit_policy: true,
            inhibit_policy_mapping: false,
            inhibit_any_policy: false,
        };
        change(&mut inputs);
        call(QueryWithPolicies {
            query: Query {
                anchor: &self.root,
                path: &path,
                statements: &statements,
                moment: DECEMBER,
                purpose: None,
                profile: Profile::Stated,
            },
            inputs,
        })
    }
}

fn told(user: &[&str], authority: &[&str]) -> Option<Policies> {
    Some(Policies {
        authority: policies(authority),
        user: policies(user),
    })
}

fn expect(answer: Result<Answer, Error>, verdict: Verdict, policies: Option<Policies>) {
    let answer = answer.unwrap();
    assert_eq!((answer.verdict, &answer.policies), (verdict, &policies));
    assert_eq!(
        answer.clone().require_valid().is_ok(),
        verdict == Verdict::Valid
    );
    assert_eq!(answer.to_string().contains("policies"), policies.is_some());
}

fn invalid(certificate: usize, reason: Reason) -> Verdict {
    Verdict::Invalid {
        certificate,
        reason,
    }
}

#[test]
fn the_policies_at_the_end_and_whom_they_are_about() {
    let case = Case::files();
    let answer = case.ask(Some(&[FIRST]), |_| {}).unwrap();
    assert_eq!(answer.policies, told(&[FIRST], &[FIRST]));
    let target = answer.target.clone().unwrap();
    assert_eq!(target.name, "CN=leaf,O=Partner");
    assert_eq!(
        answer.to_string(),
        format!("valid; target {target}; policies of the user: 2.999.1.1; of the authorities: 2.999.1.1")
    );
    let good = Fingerprints(&case.good);
    let plain = case.ask_by(None, |_| {}, |query| query.query.answer(&good));
    expect(plain, invalid(1, Reason::Policy), None);
}

#[test]
fn which_policies_the_user_takes() {
    let case = Case::files();
    for taken in [
        None,
        Some(&[ANY][..]),
        Some(&[SECOND, ANY]),
        Some(&[SECOND, FIRST]),
        Some(&[FIRST, FIRST]),
    ] {
        expect(
            case.ask(taken, |_| {}),
            Verdict::Valid,
            told(&[FIRST], &[FIRST]),
        );
    }
    for none in [&[][..], &[SECOND], &[OWN]] {
        let refused = invalid(2, Reason::NoUserPolicy);
        expect(case.ask(Some(none), |_| {}), refused, None);
        let lax = case.ask(Some(none), |inputs| inputs.require_explicit_policy = false);
        expect(lax, Verdict::Valid, told(&[], &[FIRST]));
    }
}

#[test]
fn reasons() {
    let mapped = invalid(2, Reason::NoValidPolicy);
    let inhibited = Case::files().ask(None, |inputs| inputs.inhibit_policy_mapping = true);
    expect(inhibited, mapped, None);
    let other = Case::of(|path| path[1] = changed(&path[1], OWN, "2.999.2.8"));
    expect(other.ask(None, |_| {}), mapped, None);
    let to_any = Case::of(|path| path[0] = changed(&path[0], OWN, ANY));
    let refused = invalid(1, Reason::AnyPolicyMapped);
    expect(to_any.ask(None, |_| {}), refused, None);
    let lax = to_any.ask(None, |inputs| inputs.require_explicit_policy = false);
    expect(lax, refused, None);
    let empty = Case::of(Vec::clear);
    expect(empty.ask(None, |_| {}), invalid(0, Reason::Empty), None);
    let long = Case::of(|path| *path = vec![path[1].clone(); 129]);
    expect(long.ask(None, |_| {}), invalid(0, Reason::TooLong), None);
    let mut unsigned = Case::files();
    unsigned.good.remove(0);
    unsigned.good.remove(3);
    expect(
        unsigned.ask(None, |_| {}),
        invalid(1, Reason::Signature),
        None,
    );
}

/// OpenSSL tells anyPolicy alone of the authorities where it is among theirs; RFC 5280, 6.1.5 (g), has the others beside it.
#[test]
fn any_policy_in_certificates() {
    let case = Case::of(|path| {
        path[0] = changed(&path[0], SECOND, ANY);
        path[1] = changed(&path[1], OWN, ANY);
    });
    let both = [ANY, FIRST];
    expect(
        case.ask(Some(&[SECOND]), |_| {}),
        Verdict::Valid,
        told(&[SECOND], &both),
    );
    expect(case.ask(None, |_| {}), Verdict::Valid, told(&both, &both));
    let inhibited = case.ask(Some(&[SECOND]), |inputs| inputs.inhibit_any_policy = true);
    expect(inhibited, invalid(2, Reason::NoValidPolicy), None);
}

#[test]
fn policies_come_with_each_verdict_on_a_path_that_is_not_invalid() {
    let mut case = Case::files();
    case.statements.truncate(1);
    let unknown = Verdict::Unknown { certificate: 2 };
    expect(case.ask(None, |_| {}), unknown, told(&[FIRST], &[FIRST]));
    let good = Fingerprints(&case.good);
    let refused = case.ask_by(None, |_| {}, |query| query.require_valid(&good));
    assert!(matches!(refused, Err(NotValid::Answer(answer)) if answer.policies.is_some()));
}

#[test]
fn malformed_extensions_refuse_their_certificate() {
    let mut case = Case::of(|path| path[0] = changed(&path[0], SECOND, FIRST));
    let refused = |error: Error| match error {
        Error::Refused(fault) => (fault.value, fault.number, fault.offset > 0),
        other => panic!("{other}"),
    };
    let fault = case.ask(None, |_| {}).unwrap_err();
    let of_partner = (Some((Text::Certificates, 1)), 29, true);
    assert_eq!(refused(fault), of_partner);
    case.statements.push(vec![0x05, 0x00]);
    let fault = case.ask(None, |_| {}).unwrap_err();
    assert_eq!(refused(fault), (Some((Text::Statements, 2)), 42, false));
    let good = Fingerprints(&case.good);
    let fault = case.ask_by(None, |_| {}, |query| query.answer_by_readable(&good));
    assert_eq!(refused(fault.unwrap_err()), of_partner);
}

#[test]
fn statements_that_cannot_be_read_are_left_out_and_named() {
    let mut case = Case::files();
    case.statements.insert(1, vec![0x05, 0x00]);
    let good = Fingerprints(&case.good);
    let answer = case.ask_by(None, |_| {}, |query| query.answer_by_readable(&good));
    let answer = answer.unwrap();
    assert_eq!((answer.verdict, answer.ignored.len()), (Verdict::Valid, 1));
    assert_eq!(answer.policies, told(&[FIRST], &[FIRST]));
    assert!(answer
        .to_string()
        .ends_with("of the authorities: 2.999.1.1; left out statements[1]: 42 Layout at 0"));
}

#[test]
fn a_judge_is_asked_as_without_policies() {
    let case = Case::files();
    for (taken, asked) in [(&[FIRST][..], 4), (&[SECOND], 2)] {
        let questions = RefCell::new(Vec::new());
        let judge = |question: &SignatureQuestion<'_>| {
            questions.borrow_mut().push(question.fingerprint);
            Judgement::Good
        };
        let answer = case.ask_by(Some(taken), |_| {}, |query| query.answer(&judge));
        assert_eq!(answer.unwrap().policies.is_some(), asked == 4);
        assert_eq!(questions.into_inner(), case.good[..asked]);
    }
}
