//! X.509 certificates, and whether a path of them may be believed at a moment (RFC 5280; RFC 6960).
//!
//! The work is done by the library for C of x509check, whose code is proved; this crate calls it and depends on nothing else. No call keeps
//! anything, except that a [`Party`] has a process of the program with a store. Any number of threads may call. Octets are DER.
//!
//! ```
//! # fn main() -> Result<(), Box<dyn std::error::Error>> {
//! # let authority = concat!(env!("CARGO_MANIFEST_DIR"), "/../testdata");
//! # let read = |name: &str| std::fs::read(format!("{authority}/{name}"));
//! # let (anchor, middle, leaf) = (read("root.der")?, read("middle.der")?, read("leaf.der")?);
//! # let (lists, good) = ([read("root.crl")?, read("middle.crl")?], read("good")?);
//! # let fingerprints: Vec<[u8; 32]> = good.chunks_exact(32).map(|print| print.try_into().unwrap()).collect();
//! use x509check::{judge_by, Fingerprints, Judgement, Profile, Query, Verdict};
//!
//! let query = Query {
//!     anchor: &anchor,
//!     path: &[&middle, &leaf],
//!     statements: &[&lists[0], &lists[1]],
//!     moment: 1_796_083_200, // 2026-12-01T00:00:00Z
//!     purpose: None,
//!     profile: Profile::Stated,
//! };
//! let good = Fingerprints(&fingerprints); // of signatures that were found good elsewhere
//! let answer = query.require_valid(&good)?; // an error unless the verdict is valid
//! let target = answer.target.expect("a valid path ends in somebody");
//! assert_eq!((&target.name[..], &target.serial[..]), ("CN=leaf,O=Example", &[3][..]));
//!
//! let nobody = judge_by(|_| Judgement::NotServed); // or ask a library for signatures
//! let answer = query.answer(&nobody)?; // whatever the verdict is
//! assert_eq!(answer.verdict.to_string(), "invalid 1 2");
//! assert_eq!(answer.decides.expect("a certificate decides").name, "CN=middle,O=Example");
//! assert_ne!(answer.verdict, Verdict::Valid);
//! # Ok(())
//! # }
//! ```
#![deny(missing_docs)]

mod answer;
mod calls;
mod certificate;
mod der;
mod fault;
mod identifier;
mod identity;
mod judge;
mod library;
mod name;
mod pairs;
mod party;
mod policies;
mod query;
mod reference;
mod search;
mod standing;
mod usage;
mod values;
mod verdict;
mod why_not;

pub use answer::{Answer, NotValid};
pub use certificate::{check, fingerprint, sha256, Certificate, Extensions, KeyUsage};
pub use fault::{Error, Fault, Text};
pub use identifier::{IdentifierError, ObjectIdentifier};
pub use identity::Identity;
pub use judge::{
    judge_by, Fingerprints, Judge, JudgeBy, Judgement, SignatureQuestion, SignatureQuestions,
};
pub use party::{Delivery, Party, PartyError, PartyQuery, PartySearch};
pub use policies::{Policies, PolicyInputs, QueryWithPolicies};
pub use query::{Profile, Query};
pub use reference::{Reference, ReferenceRule, SpeakingError};
pub use search::{Finding, Limits, NotBelieved, Peer, Search, SearchError};
pub use verdict::{Reason, Verdict};
pub use why_not::{End, WhyNot};
