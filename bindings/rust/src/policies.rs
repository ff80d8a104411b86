//! The question about a path whose certificate policies are processed (RFC 5280, 6.1; RFC 9618).

use std::fmt;

use crate::answer::{Answer, NotValid};
use crate::fault::Error;
use crate::identifier::ObjectIdentifier;
use crate::judge::Judge;
use crate::query::Query;
use crate::verdict::Verdict;

/// The contents of anyPolicy (RFC 5280, 4.2.1.4).
const ANY_POLICY: &[u8] = &[0x55, 0x1D, 0x20, 0x00];

/// What the user asks of policies (RFC 5280, 6.1.1 (c), (e), (f) and (g)).
#[derive(Clone, Copy, Debug)]
pub struct PolicyInputs<'a> {
    /// user-initial-policy-set: the policies that the user takes. `None` takes every policy, as 2.5.29.32.0 among them does, and an empty
    /// slice takes none.
    pub initial_policies: Option<&'a [ObjectIdentifier]>,
    /// Whether the path is invalid if none of them is valid at its end. If it is not set, this still holds where a certificate requires it.
    pub require_explicit_policy: bool,
    /// Whether no policy is mapped to another.
    pub inhibit_policy_mapping: bool,
    /// Whether anyPolicy counts only in self-issued certificates before the last.
    pub inhibit_any_policy: bool,
}

impl<'a> PolicyInputs<'a> {
    /// Takes every policy, and requires none.
    pub(crate) fn any() -> PolicyInputs<'static> {
        PolicyInputs {
            initial_policies: None,
            require_explicit_policy: false,
            inhibit_policy_mapping: false,
            inhibit_any_policy: false,
        }
    }

    /// The contents of the policies that the user takes.
    pub(crate) fn contents(&self) -> Vec<&'a [u8]> {
        match self.initial_policies {
            None => vec![ANY_POLICY],
            Some(policies) => policies.iter().map(ObjectIdentifier::contents).collect(),
        }
    }
}

/// The policies at the end of a path, each once, in the order of their octets. 2.5.29.32.0, anyPolicy, stands for every policy.
#[derive(Clone, Debug, PartialEq, Eq)]
pub struct Policies {
    /// authority_constrained_policy_set (RFC 5280, 6.1.5 (g), by RFC 9618): under which policies the authorities have issued.
    pub authority: Vec<ObjectIdentifier>,
    /// user_constrained_policy_set: those that the user takes. There may be none though the path is valid, unless a policy is required.
    pub user: Vec<ObjectIdentifier>,
}

/// The question about a path whose policies are processed, so that no path is invalid for [`Reason::Policy`](crate::Reason::Policy). It may be
/// for the three reasons of policies. The calls are those of [`Query`], and an answer has policies unless the path is invalid.
///
/// A certificate whose extensions about policies are malformed is refused, after the certificates and statements that cannot be read.
///
/// ```
/// # fn main() -> Result<(), Box<dyn std::error::Error>> {
/// # let folder = concat!(env!("CARGO_MANIFEST_DIR"), "/../testdata/policies");
/// # let read = |name: &str| std::fs::read(format!("{folder}/{name}"));
/// # let (root, partner, leaf) = (read("root.der")?, read("partner.der")?, read("leaf.der")?);
/// # let (lists, good) = ([read("root.crl")?, read("partner.crl")?], read("good")?);
/// # let fingerprints: Vec<[u8; 32]> = good.chunks_exact(32).map(|print| print.try_into().unwrap()).collect();
/// # let judge = x509check::Fingerprints(&fingerprints);
/// use x509check::{PolicyInputs, Profile, Query, QueryWithPolicies};
///
/// let query = QueryWithPolicies {
///     query: Query {
///         anchor: &root,
///         path: &[&partner, &leaf],
///         statements: &[&lists[0], &lists[1]],
///         moment: 1_796_083_200, // 2026-12-01T00:00:00Z
///         purpose: None,
///         profile: Profile::Stated,
///     },
///     inputs: PolicyInputs {
///         initial_policies: Some(&["2.999.1.1".parse()?]),
///         require_explicit_policy: true,
///         inhibit_policy_mapping: false,
///         inhibit_any_policy: false,
///     },
/// };
/// let answer = query.require_valid(&judge)?;
/// let policies = answer.policies.expect("a valid path has policies, if they are asked for");
/// assert_eq!(policies.to_string(), "of the user: 2.999.1.1; of the authorities: 2.999.1.1");
/// # Ok(())
/// # }
/// ```
#[derive(Clone, Copy, Debug)]
pub struct QueryWithPolicies<'a> {
    /// The question about the path.
    pub query: Query<'a>,
    /// What is asked of policies.
    pub inputs: PolicyInputs<'a>,
}

impl QueryWithPolicies<'_> {
    /// As [`Query::answer`].
    pub fn answer(&self, judge: &dyn Judge) -> Result<Answer, Error> {
        self.query.answer_under(self.inputs, judge)
    }

    /// As [`Query::answer_by_readable`].
    pub fn answer_by_readable(&self, judge: &dyn Judge) -> Result<Answer, Error> {
        self.query
            .answer_by_readable_under(Some(self.inputs), judge)
    }

    /// As [`Query::require_valid`].
    pub fn require_valid(&self, judge: &dyn Judge) -> Result<Answer, NotValid> {
        self.answer(judge)?.require_valid()
    }
}

impl fmt::Display for Policies {
    fn fmt(&self, out: &mut fmt::Formatter<'_>) -> fmt::Result {
        let (user, authority) = (listed(&self.user), listed(&self.authority));
        write!(out, "of the user: {user}; of the authorities: {authority}")
    }
}

fn listed(policies: &[ObjectIdentifier]) -> String {
    let texts: Vec<String> = policies.iter().map(ObjectIdentifier::to_string).collect();
    match texts.is_empty() {
        true => "none".into(),
        false => texts.join(", "),
    }
}

/// What the library writes of policies: the length of each, and the octets of all. Once they are taken, only those that were written are there.
pub(crate) struct Written {
    pub lengths: Vec<usize>,
    pub octets: Vec<u8>,
    authority_count: usize,
}

impl Written {
    /// Room for so many policies and octets.
    pub(crate) fn with_room(policies: usize, octets: usize) -> Written {
        Written {
            lengths: vec![0; policies],
            octets: vec![0; octets],
            authority_count: 0,
        }
    }

    /// Takes what was written, if there was room for so many; else makes room.
    pub(crate) fn take(
        &mut self,
        authority_count: usize,
        user_count: usize,
        octet_count: usize,
    ) -> Result<bool, Error> {
        let Some(count) = authority_count.checked_add(user_count) else {
            return Err(Error::Unexpected("a number of policies", authority_count));
        };
        let fits = count <= self.lengths.len() && octet_count <= self.octets.len();
        self.lengths.resize(count, 0);
        self.octets.resize(octet_count, 0);
        self.authority_count = authority_count;
        Ok(fits)
    }

    /// Each policy that was written.
    fn policies(&self) -> Result<Vec<ObjectIdentifier>, Error> {
        let (mut policies, mut octets) = (Vec::new(), &self.octets[..]);
        for length in &self.lengths {
            let unexpected = Error::Unexpected("a policy of length", *length);
            let contents = octets.get(..*length).ok_or(unexpected)?;
            policies.push(ObjectIdentifier::from_contents(contents).map_err(|_| unexpected)?);
            octets = &octets[*length..];
        }
        match octets.len() {
            0 => Ok(policies),
            more => Err(Error::Unexpected("octets behind the policies", more)),
        }
    }
}

/// Refuses policies that do not ascend: one could be there twice.
fn check_order(policies: &[ObjectIdentifier]) -> Result<(), Error> {
    match policies.windows(2).position(|pair| pair[0] >= pair[1]) {
        Some(index) => Err(Error::Unexpected("policies out of order at", index)),
        None => Ok(()),
    }
}

impl Policies {
    /// Those that were written beside this verdict. A path that is invalid has none.
    pub(crate) fn of(verdict: Verdict, written: Written) -> Result<Option<Policies>, Error> {
        let mut authority = written.policies()?;
        if matches!(verdict, Verdict::Invalid { .. }) {
            return match authority.len() {
                0 => Ok(None),
                count => Err(Error::Unexpected("policies of an invalid path", count)),
            };
        }
        let user = authority.split_off(written.authority_count);
        check_order(&authority)?;
        check_order(&user)?;
        Ok(Some(Policies { authority, user }))
    }
}

#[cfg(test)]
mod tests {
    use super::*;
    use crate::verdict::Reason;

    const INVALID: Verdict = Verdict::Invalid {
        certificate: 1,
        reason: Reason::NoValidPolicy,
    };

    fn of(
        verdict: Verdict,
        lengths: &[usize],
        octets: &[u8],
        authority_count: usize,
    ) -> Result<Option<Policies>, Error> {
        let written = Written {
            lengths: lengths.to_vec(),
            octets: octets.to_vec(),
            authority_count,
        };
        Policies::of(verdict, written)
    }

    fn policies(texts: &[&str]) -> Vec<ObjectIdentifier> {
        texts.iter().map(|text| text.parse().unwrap()).collect()
    }

    #[test]
    fn policies_are_cut_from_what_is_written() {
        let all = [0x2A, 0x01, 0x2A, 0x02, 0x03, 0x2A, 0x01];
        let told = of(Verdict::Valid, &[2, 3, 2], &all, 2).unwrap().unwrap();
        assert_eq!(told.authority, policies(&["1.2.1", "1.2.2.3"]));
        assert_eq!(told.user, policies(&["1.2.1"]));
        let none = of(Verdict::Valid, &[], &[], 0).unwrap().unwrap();
        assert_eq!(
            none.to_string(),
            "of the user: none; of the authorities: none"
        );
        assert_eq!(of(INVALID, &[], &[], 0), Ok(None));
    }

    #[test]
    fn what_cannot_have_been_written_is_an_error() {
        let (one, two) = ([0x2A, 0x01], [0x2A, 0x01, 0x2A, 0x01]);
        for (verdict, lengths, octets, authority_count) in [
            (INVALID, &[2][..], &one[..], 1),
            (INVALID, &[2], &one, 0),
            (Verdict::Valid, &[1], &one, 1),
            (Verdict::Valid, &[3], &one, 1),
            (Verdict::Valid, &[usize::MAX], &one, 1),
            (Verdict::Valid, &[], &one, 0),
            (Verdict::Valid, &[2, 0], &one, 1),
            (Verdict::Valid, &[0], &[], 1),
            (Verdict::Valid, &[2], &[0x2A, 0x81], 1),
            (Verdict::Valid, &[2, 2], &two, 2),
            (Verdict::Valid, &[2, 2], &two, 0),
        ] {
            let told = of(verdict, lengths, octets, authority_count);
            assert!(told.is_err(), "{verdict} {lengths:?} {octets:X?}");
        }
        let twice = of(Verdict::Valid, &[2, 2], &two, 1);
        assert!(twice.is_ok(), "one of the authorities is the user's");
    }

    #[test]
    fn room_grows_to_what_there_is() {
        let mut written = Written::with_room(2, 4);
        assert_eq!(written.take(1, 2, 4), Ok(false));
        assert_eq!(written.take(1, 2, 5), Ok(false));
        assert_eq!((written.lengths.len(), written.octets.len()), (3, 5));
        assert_eq!(written.take(2, 1, 5), Ok(true));
        assert!(written.take(usize::MAX, 1, 5).is_err());
    }

    #[test]
    fn no_policies_are_not_any_policy() {
        let inputs = |initial_policies| PolicyInputs {
            initial_policies,
            require_explicit_policy: false,
            inhibit_policy_mapping: false,
            inhibit_any_policy: false,
        };
        assert_eq!(inputs(None).contents(), [ANY_POLICY]);
        assert_eq!(inputs(Some(&[])).contents(), [&[][..]; 0]);
        assert_eq!(
            inputs(Some(&policies(&["1.2.1"]))).contents(),
            [[0x2A, 0x01]]
        );
    }
}
