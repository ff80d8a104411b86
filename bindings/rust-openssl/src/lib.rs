//! A judge of signatures for [`x509check`], by OpenSSL's libcrypto (3.0 or later).
//!
//! ```
//! # fn main() -> Result<(), Box<dyn std::error::Error>> {
//! # let authority = concat!(env!("CARGO_MANIFEST_DIR"), "/../testdata");
//! # let read = |name: &str| std::fs::read(format!("{authority}/{name}"));
//! # let (anchor, middle, leaf) = (read("root.der")?, read("middle.der")?, read("leaf.der")?);
//! # let lists = [read("root.crl")?, read("middle.crl")?];
//! use x509check::{Limits, Profile, Reference, Search};
//! use x509check_openssl::OpenSslJudge;
//!
//! let search = Search {
//!     anchors: &[&anchor],
//!     certificates: &[&leaf, &middle], // as the peer sent them
//!     statements: &[&lists[0], &lists[1]],
//!     moment: 1_796_083_200, // 2026-12-01T00:00:00Z
//!     purpose: None,
//!     name: Some(Reference::Host("www.example")),
//!     limits: Limits::default(),
//!     profile: Profile::Stated,
//! };
//! let peer = search.require_valid(&OpenSslJudge::default())?; // an error unless a valid path is found
//! assert_eq!(peer.target.name, "CN=leaf,O=Example");
//! # Ok(())
//! # }
//! ```
//!
//! Served are RSA (PKCS #1 v1.5, and RSASSA-PSS with all parameters of RFC 4055) with moduli of 512 to 8192 bits, or to 16384 if the
//! [`Policy`] says so, ECDSA on named curves, both with SHA-1 and SHA-2, Ed25519 and Ed448. What is served and what the policy lets is
//! decided here; libcrypto is asked about the signature alone. If it fails, the call that asked ends with an error.
#![deny(missing_docs)]

mod der;
mod judge;
mod keys;
mod policy;
mod schemes;
mod verification;

pub use judge::{OpenSslJudge, Opinion};
pub use policy::{Curve, Digest, Policy};
