//! Peers of TLS connections believed by [`x509check`], in rustls 0.20.
//!
//! A [`PeerVerifier`] takes the place of the verifiers of rustls: a client's of servers, and a server's of clients. It believes a peer
//! only if a path from an anchor to its certificate is found whose verdict is `Valid`, by revocation lists and OCSP responses at hand and
//! by what the server stapled, and if the certificate speaks for the server's name. A [`PartyVerifier`] does the same by what the store of
//! a [`Party`](x509check::Party) holds. The signature with which the peer shows that it has the key stays with rustls.
//!
//! ```
//! # fn main() -> Result<(), Box<dyn std::error::Error>> {
//! # let authority = concat!(env!("CARGO_MANIFEST_DIR"), "/../testdata");
//! # let read = |name: &str| std::fs::read(format!("{authority}/{name}"));
//! # let (root, root_list, middle_list) = (read("root.der")?, read("root.crl")?, read("middle.crl")?);
//! use std::sync::Arc;
//! use x509check_openssl::OpenSslJudge;
//! use x509check_rustls::{client_config, PeerVerifier};
//!
//! let verifier = Arc::new(PeerVerifier::new(vec![root], OpenSslJudge::default())?);
//! verifier.set_statements(vec![root_list, middle_list])?; // again whenever a newer list has come
//! let config = client_config(verifier); // each connection shows its server's certificate
//! # let _ = config;
//! # Ok(())
//! # }
//! ```
//!
//! # Resumption
//!
//! A verifier is asked only if a peer shows a certificate. If a session of an earlier connection is resumed, the peer shows none, and
//! rustls asks nobody: a peer that was revoked since then is believed again. The configurations that rustls makes resume sessions, in TLS
//! 1.2 and 1.3, of clients and of servers. Those of [`client_config`] and [`server_config`] do not; [`client_without_resumption`] and
//! [`server_without_resumption`] change any other one so that it does not.
//!
//! # Alerts
//!
//! What a peer whose certificate is not believed is told, rustls 0.20 says by the error alone. A client sends `decode_error` if a
//! certificate cannot be read ([`rustls::Error::InvalidCertificateEncoding`]), and `bad_certificate` for everything else
//! ([`InvalidCertificateData`](rustls::Error::InvalidCertificateData), whose text says what was found, and of whom). A server sends
//! `handshake_failure`, whatever is wrong.
#![deny(missing_docs)]

mod config;
mod errors;
mod party;
mod peers;
mod verifier;

pub use config::{
    client_config, client_without_resumption, server_config, server_without_resumption,
};
pub use party::PartyVerifier;
pub use verifier::PeerVerifier;
