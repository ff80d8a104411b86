//! How many questions a search may have. They are counted before they are made, as a stranger may send the certificates.

use std::collections::{HashMap, HashSet};

use crate::certificate::Certificate;
use crate::name::loose_key;
use crate::search::Search;

/// How often an issuer and a statement may stand together, of which a question may be made: these take some 20 megabytes.
const MOST_STATEMENTS: usize = 1 << 16;

/// Whether a search for the target has no more pairs of a certificate and one that has its issuer's name than its limit of signatures lets,
/// and not too many statements beside such issuers.
pub(crate) fn are_within_limits(search: &Search<'_>, target: &[u8]) -> bool {
    // (all certificates are read only if there are many)
    Pairs::at_most(search).are_within(search) || Pairs::among(search, target).are_within(search)
}

/// Pairs of a certificate and one that has its issuer's name.
#[derive(Default)]
struct Pairs {
    count: usize,
    /// How many certificates have such a name.
    issuers: usize,
}

/// The certificates with one name.
#[derive(Default)]
struct Named {
    count: usize,
    /// The names of the issuers of those that are no anchors.
    issuers: Vec<Vec<u8>>,
}

impl Pairs {
    fn are_within(&self, search: &Search<'_>) -> bool {
        let most = search.limits.signatures;
        let statements = self.issuers.saturating_mul(search.statements.len());
        self.count <= most && statements <= MOST_STATEMENTS.max(most)
    }

    /// If each certificate had the name of each issuer.
    fn at_most(search: &Search<'_>) -> Pairs {
        let issuers = search.anchors.len() + search.certificates.len();
        Pairs {
            count: search.certificates.len().saturating_mul(issuers),
            issuers,
        }
    }

    /// Among the certificates that lead to the target by names. One that cannot be read is not counted, as the search is refused for it.
    fn among(search: &Search<'_>, target: &[u8]) -> Pairs {
        let mut named: HashMap<Vec<u8>, Named> = HashMap::new();
        for anchor in readable(search.anchors) {
            named.entry(loose_key(anchor.subject())).or_default().count += 1;
        }
        for other in readable(search.certificates.get(1..).unwrap_or(&[])) {
            let same = named.entry(loose_key(other.subject())).or_default();
            same.count += 1;
            same.issuers.push(loose_key(other.issuer()));
        }
        let mut pairs = Pairs::default();
        for target in readable(&[target]) {
            pairs.add_above(loose_key(target.issuer()), &named);
        }
        pairs
    }

    /// Adds those of a certificate whose issuer has the name, and of all that lead to it.
    fn add_above(&mut self, issuer: Vec<u8>, named: &HashMap<Vec<u8>, Named>) {
        let (mut next, mut seen) = (vec![issuer], HashSet::new());
        while let Some(name) = next.pop() {
            let Some(issuers) = named.get(&name) else {
                continue;
            };
            self.count = self.count.saturating_add(issuers.count);
            if seen.insert(name) {
                self.issuers += issuers.count;
                next.extend(issuers.issuers.iter().cloned());
            }
        }
    }
}

fn readable<'a>(certificates: &'a [&'a [u8]]) -> impl Iterator<Item = Certificate<'a>> {
    let read = |octets: &&'a [u8]| Certificate::read(octets).ok();
    certificates.iter().filter_map(read)
}
