//! Configurations in which each connection shows its peer's certificate.

use std::sync::Arc;

use rustls::client::{NoClientSessionStorage, ServerCertVerifier};
use rustls::server::{ClientCertVerifier, NoServerSessionStorage, ProducesTickets};
use rustls::{Certificate, ClientConfig, Error, PrivateKey, ServerConfig};

/// The configuration of a client without a certificate of its own, whose servers this verifier believes or not, each time that they are
/// connected to.
pub fn client_config(verifier: Arc<dyn ServerCertVerifier>) -> ClientConfig {
    client_without_resumption(
        ClientConfig::builder()
            .with_safe_defaults()
            .with_custom_certificate_verifier(verifier)
            .with_no_client_auth(),
    )
}

/// The configuration of a server with this chain and key, whose clients this verifier believes or not, each time that they connect.
pub fn server_config(
    verifier: Arc<dyn ClientCertVerifier>,
    chain: Vec<Certificate>,
    key: PrivateKey,
) -> Result<ServerConfig, Error> {
    let config = ServerConfig::builder()
        .with_safe_defaults()
        .with_client_cert_verifier(verifier)
        .with_single_cert(chain, key)?;
    Ok(server_without_resumption(config))
}

/// The configuration, of which no connection resumes a session, nor sends anything before the handshake.
///
/// If a session is resumed, rustls asks no verifier: a server whose certificate was revoked since the first handshake is believed again,
/// for as long as the session is kept.
pub fn client_without_resumption(config: ClientConfig) -> ClientConfig {
    let mut config = config;
    config.session_storage = Arc::new(NoClientSessionStorage {});
    config.enable_tickets = false;
    config.enable_early_data = false;
    config
}

/// The configuration, by which no session is kept or resumed, no ticket is given out or taken, and nothing is read or sent before the
/// handshake.
///
/// If a session is resumed, rustls asks no verifier: a client whose certificate was revoked since the first handshake is believed again,
/// for as long as the session or its ticket is good.
pub fn server_without_resumption(config: ServerConfig) -> ServerConfig {
    let mut config = config;
    config.session_storage = Arc::new(NoServerSessionStorage {});
    config.ticketer = Arc::new(NoTickets);
    config.max_early_data_size = 0;
    config.send_half_rtt_data = false;
    config
}

/// Gives out no tickets, and takes none.
struct NoTickets;

impl ProducesTickets for NoTickets {
    fn enabled(&self) -> bool {
        false
    }

    fn lifetime(&self) -> u32 {
        0
    }

    fn encrypt(&self, _plain: &[u8]) -> Option<Vec<u8>> {
        None
    }

    fn decrypt(&self, _cipher: &[u8]) -> Option<Vec<u8>> {
        None
    }
}
