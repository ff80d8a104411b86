//! A peer is revoked between two connections. With the configurations of this crate the second one is refused. With those that rustls
//! makes it resumes the session of the first, in TLS 1.2 and 1.3, and no verifier is asked.

mod support;

use std::sync::Arc;

use rustls::internal::msgs::enums::AlertDescription;
use rustls::{
    ClientConfig, ClientConnection, Error, ServerConfig, ServerConnection, SupportedProtocolVersion,
};
use support::{handshake, Authority, Sides, VERSIONS};
use x509check_openssl::OpenSslJudge;
use x509check_rustls::{
    client_config, client_without_resumption, server_config, server_without_resumption,
    PeerVerifier,
};

/// An authority, and who believes its servers and clients by its lists.
struct Case {
    authority: Authority,
    verifier: Arc<PeerVerifier<OpenSslJudge>>,
}

impl Case {
    /// With servers or clients of these names.
    fn of(servers: &[&str], clients: &[&str]) -> Case {
        let authority = Authority::new();
        for name in servers {
            authority.issue(name, "middle", "server", "");
        }
        for name in clients {
            authority.issue(name, "middle", "client", "");
        }
        let anchors = vec![authority.certificate("root")];
        let verifier = PeerVerifier::new(anchors, OpenSslJudge::default()).unwrap();
        let case = Case {
            authority,
            verifier: Arc::new(verifier),
        };
        case.renew();
        case
    }

    /// Sets the newest lists.
    fn renew(&self) {
        let lists = ["root", "middle"].map(|issuer| self.authority.list(issuer));
        self.verifier.set_statements(lists.to_vec()).unwrap();
    }

    /// A client that has this certificate, as rustls makes it.
    fn client(&self, version: &'static SupportedProtocolVersion, name: &str) -> ClientConfig {
        ClientConfig::builder()
            .with_safe_default_cipher_suites()
            .with_safe_default_kx_groups()
            .with_protocol_versions(&[version])
            .unwrap()
            .with_custom_certificate_verifier(self.verifier.clone())
            .with_single_cert(
                self.authority.chain(&[name, "middle"]),
                self.authority.private_key(name),
            )
            .unwrap()
    }

    /// The same of a server.
    fn server(&self, version: &'static SupportedProtocolVersion, name: &str) -> ServerConfig {
        ServerConfig::builder()
            .with_safe_default_cipher_suites()
            .with_safe_default_kx_groups()
            .with_protocol_versions(&[version])
            .unwrap()
            .with_client_cert_verifier(self.verifier.clone())
            .with_single_cert(
                self.authority.chain(&[name, "middle"]),
                self.authority.private_key(name),
            )
            .unwrap()
    }

    /// Two connections, between which this certificate is revoked.
    fn connected_twice(&self, client: ClientConfig, server: ServerConfig, revoked: &str) -> Sides {
        let (client, server) = (Arc::new(client), Arc::new(server));
        let connect = || {
            let name = "www.example".try_into().unwrap();
            handshake(
                ClientConnection::new(client.clone(), name).unwrap(),
                ServerConnection::new(server.clone()).unwrap(),
            )
        };
        assert_eq!(connect(), (Ok(()), Ok(())));
        self.authority.revoke(revoked, "middle");
        self.renew();
        connect()
    }
}

fn assert_revoked(said: &Result<(), Error>) {
    match said {
        Err(Error::InvalidCertificateData(why)) => assert!(why.starts_with("revoked 2 "), "{why}"),
        other => panic!("{other:?}"),
    }
}

#[test]
fn a_server_that_is_revoked_is_not_resumed() {
    let servers = ["plain1", "plain2", "checked1", "checked2", "made"];
    let case = Case::of(&servers, &["user"]);
    for (version, plain, checked) in [
        (VERSIONS[0], "plain1", "checked1"),
        (VERSIONS[1], "plain2", "checked2"),
    ] {
        let client = || case.client(version, "user");
        let resumed = case.connected_twice(client(), case.server(version, plain), plain);
        assert_eq!(resumed, (Ok(()), Ok(())), "rustls by itself resumes");
        let client = client_without_resumption(client());
        let refused = case.connected_twice(client, case.server(version, checked), checked);
        assert_revoked(&refused.0);
        let alert = Error::AlertReceived(AlertDescription::BadCertificate);
        assert_eq!(refused.1, Err(alert));
    }
    let server = ServerConfig::builder()
        .with_safe_defaults()
        .with_no_client_auth()
        .with_single_cert(
            case.authority.chain(&["made", "middle"]),
            case.authority.private_key("made"),
        );
    let client = client_config(case.verifier.clone());
    let refused = case.connected_twice(client, server.unwrap(), "made");
    assert_revoked(&refused.0);
}

#[test]
fn a_client_that_is_revoked_is_not_resumed() {
    let clients = ["plain1", "plain2", "checked1", "checked2", "made"];
    let case = Case::of(&["www"], &clients);
    for (version, plain, checked) in [
        (VERSIONS[0], "plain1", "checked1"),
        (VERSIONS[1], "plain2", "checked2"),
    ] {
        let server = || case.server(version, "www");
        let resumed = case.connected_twice(case.client(version, plain), server(), plain);
        assert_eq!(resumed, (Ok(()), Ok(())), "rustls by itself resumes");
        let server = server_without_resumption(server());
        let refused = case.connected_twice(case.client(version, checked), server, checked);
        assert_revoked(&refused.1);
        let alert = Error::AlertReceived(AlertDescription::HandshakeFailure);
        assert_eq!(refused.0, Err(alert));
    }
    let chain = case.authority.chain(&["www", "middle"]);
    let key = case.authority.private_key("www");
    let server = server_config(case.verifier.clone(), chain, key).unwrap();
    let client = case.client(&rustls::version::TLS13, "made");
    let refused = case.connected_twice(client, server, "made");
    assert_revoked(&refused.1);
}
