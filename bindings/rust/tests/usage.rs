//! A certificate whose keyUsage is not consistent with the purpose is none for that purpose (RFC 5280, 4.2.1.12), in each way to ask.

mod support;

use std::process::{self, Command};

use support::{
    authority, certificate, list, purpose, usage, CLIENT_AUTH, MIDDLE, OCSP_SIGNING, SERVER_AUTH,
};
use x509check::{
    judge_by, Finding, Judgement, Limits, Party, PartyQuery, PartySearch, Peer, PolicyInputs,
    Profile, Query, QueryWithPolicies, Reason, Search, Verdict, WhyNot,
};

const DIGITAL_SIGNATURE: u32 = 0;
const KEY_ENCIPHERMENT: u32 = 2;
const DATA_ENCIPHERMENT: u32 = 3;
const KEY_AGREEMENT: u32 = 4;
const KEY_CERT_SIGN: u32 = 5;

const NO_PURPOSE: Verdict = Verdict::Invalid {
    certificate: 1,
    reason: Reason::Purpose,
};

/// A leaf with this bit of keyUsage, if one, and for this purpose, below a root; and a list, which may revoke it.
struct Case {
    root: Vec<u8>,
    leaf: Vec<u8>,
    list: Vec<u8>,
}

impl Case {
    fn of(bit: Option<u32>, contents: &[u8], revoked: &[u8]) -> Case {
        let mut extensions: Vec<Vec<u8>> = bit.into_iter().map(usage).collect();
        extensions.push(purpose(contents));
        Case {
            root: certificate("Root", "Root", 1, &[authority()]),
            leaf: certificate("Leaf", "Root", 3, &extensions),
            list: list("Root", 1, revoked),
        }
    }

    /// The verdict for the purpose, alike in both profiles and with policies.
    fn verdict(&self, purpose: Option<&[u8]>, moment: i64) -> Verdict {
        let judge = judge_by(|_| Judgement::Good);
        let verdicts = [Profile::Stated, Profile::Wide].map(|profile| {
            let query = Query {
                anchor: &self.root,
                path: &[&self.leaf],
                statements: &[&self.list],
                moment,
                purpose,
                profile,
            };
            let inputs = PolicyInputs {
                initial_policies: None,
                require_explicit_policy: false,
                inhibit_policy_mapping: false,
                inhibit_any_policy: false,
            };
            let answer = query.answer(&judge).unwrap();
            let named = answer.decides.is_some();
            assert_eq!(named, answer.verdict != Verdict::Valid);
            let with_policies = QueryWithPolicies { query, inputs }.answer(&judge).unwrap();
            assert_eq!(with_policies.verdict, answer.verdict);
            let is_invalid = matches!(answer.verdict, Verdict::Invalid { .. });
            assert_eq!(with_policies.policies.is_none(), is_invalid);
            answer.verdict
        });
        assert_eq!(verdicts[0], verdicts[1]);
        verdicts[0]
    }

    fn peer(&self, purpose: Option<&[u8]>, moment: i64) -> Peer {
        let search = Search {
            anchors: &[&self.root],
            certificates: &[&self.leaf],
            statements: &[&self.list],
            moment,
            purpose,
            name: None,
            limits: Limits::default(),
            profile: Profile::Stated,
        };
        search.find(&judge_by(|_| Judgement::Good)).unwrap()
    }
}

#[test]
fn one_of_the_bits_has_to_be_there() {
    for (bit, purpose, is_consistent) in [
        (None, SERVER_AUTH, true),
        (Some(DIGITAL_SIGNATURE), SERVER_AUTH, true),
        (Some(KEY_ENCIPHERMENT), SERVER_AUTH, true),
        (Some(DATA_ENCIPHERMENT), SERVER_AUTH, false),
        (Some(KEY_CERT_SIGN), SERVER_AUTH, false),
        (Some(KEY_AGREEMENT), CLIENT_AUTH, true),
        (Some(KEY_ENCIPHERMENT), CLIENT_AUTH, false),
        (Some(KEY_AGREEMENT), OCSP_SIGNING, false),
    ] {
        let case = Case::of(bit, purpose, &[]);
        let (expected, finding) = match is_consistent {
            true => (Verdict::Valid, Finding::Found(Verdict::Valid)),
            false => (NO_PURPOSE, Finding::NotFound),
        };
        assert_eq!(case.verdict(Some(purpose), MIDDLE), expected, "{bit:?}");
        let peer = case.peer(Some(purpose), MIDDLE);
        assert_eq!(
            (peer.finding, peer.path.len()),
            (finding, 2 * usize::from(is_consistent))
        );
        let why_not = (!is_consistent).then_some(WhyNot::Target(Reason::Purpose));
        assert_eq!(peer.why_not, why_not);
        // Who asks for no purpose is told nothing of it.
        assert_eq!(case.verdict(None, MIDDLE), Verdict::Valid);
    }
}

/// What is not valid in another way: revoked becomes invalid, and what is invalid already stays so.
#[test]
fn beside_other_reasons() {
    let revoked = Case::of(Some(KEY_CERT_SIGN), SERVER_AUTH, &[3]);
    assert_eq!(revoked.verdict(Some(SERVER_AUTH), MIDDLE), NO_PURPOSE);
    let early = Verdict::Invalid {
        certificate: 1,
        reason: Reason::NotYet,
    };
    assert_eq!(revoked.verdict(Some(SERVER_AUTH), 0), early);
    let peer = revoked.peer(Some(SERVER_AUTH), 0);
    assert_eq!(peer.why_not, Some(WhyNot::Target(Reason::NotYet)));
}

#[test]
fn parties_look_at_it_too() {
    let folder = std::env::temp_dir().join(format!("x509check-usage-{}", process::id()));
    std::fs::create_dir(&folder).unwrap();
    let program = concat!(env!("CARGO_MANIFEST_DIR"), "/../../x509check");
    let party = Party::start(Command::new(program), folder.join("store")).unwrap();
    let judge = judge_by(|_| Judgement::Good);
    for (bit, expected, finding) in [
        (KEY_CERT_SIGN, NO_PURPOSE, Finding::NotFound),
        (
            DIGITAL_SIGNATURE,
            Verdict::Valid,
            Finding::Found(Verdict::Valid),
        ),
    ] {
        let case = Case::of(Some(bit), SERVER_AUTH, &[]);
        let _taken = party.deliver(&case.root, &case.list, &judge).unwrap();
        let query = PartyQuery {
            anchor: &case.root,
            path: &[&case.leaf],
            moment: MIDDLE,
            purpose: Some(SERVER_AUTH),
        };
        assert_eq!(party.check(&query, &judge).unwrap().verdict, expected);
        let search = PartySearch {
            anchors: &[&case.root],
            certificates: &[&case.leaf],
            moment: MIDDLE,
            purpose: Some(SERVER_AUTH),
            name: None,
        };
        assert_eq!(party.find(&search, &judge).unwrap().finding, finding);
    }
    drop(party);
    std::fs::remove_dir_all(&folder).unwrap();
}
