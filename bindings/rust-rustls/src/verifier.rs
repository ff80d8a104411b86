//! Peers believed by statements at hand.

use std::fmt;
use std::sync::{Arc, PoisonError, RwLock};
use std::time::SystemTime;

use rustls::client::{ServerCertVerified, ServerCertVerifier, ServerName};
use rustls::server::{ClientCertVerified, ClientCertVerifier};
use rustls::{DistinguishedNames, Error};
use x509check::{Judge, Limits, Peer, Profile, Search};

use crate::errors::of_search;
use crate::peers::{
    read_anchors, read_statements, sent, subjects, verify_client, verify_server, Asked, Finds,
    CERTIFICATES,
};

/// Believes the peers of TLS connections by revocation lists and OCSP responses at hand, and by the judge's word on signatures (RFC 5280,
/// 6; RFC 6960, 3.2; RFC 9525, 6). Any number of connections may use it at once.
///
/// It takes what the peer sent in any order, and of a server the stapled response too. A certificate that is sent and cannot be read is an
/// error, also one that no path needs; so are more than 16 certificates, and a stapled response that cannot be read. One that no issuer of
/// the path signed changes nothing. Nobody is believed if the judge fails, if a statement may be by an issuer of the path and the judge does
/// not serve or refuses its signature, or if two contradict each other and one of them revokes.
///
/// Signed certificate timestamps are not asked for. A server that has it as its verifier of clients ends each connection whose client
/// has no certificate that is believed.
///
/// It is asked only by a handshake in which the peer shows its certificate: take it by [`client_config`](crate::client_config) or
/// [`server_config`](crate::server_config), in which each one does.
pub struct PeerVerifier<J> {
    anchors: Vec<Vec<u8>>,
    judge: J,
    statements: RwLock<Arc<Vec<Vec<u8>>>>,
    limits: Limits,
    certificate_limit: usize,
}

impl<J> fmt::Debug for PeerVerifier<J> {
    fn fmt(&self, out: &mut fmt::Formatter<'_>) -> fmt::Result {
        let anchors = self.anchors.len();
        out.debug_struct("PeerVerifier")
            .field("anchors", &anchors)
            .finish_non_exhaustive()
    }
}

impl<J: Judge + Send + Sync> PeerVerifier<J> {
    /// Believes who has a valid path from one of the anchors, each the DER of a certificate, or answers the first fault of one.
    ///
    /// There are no statements yet: until they are set, nobody is believed but a server that staples, under an anchor that issued its
    /// certificate itself.
    pub fn new(anchors: Vec<Vec<u8>>, judge: J) -> Result<PeerVerifier<J>, x509check::Error> {
        read_anchors(&anchors)?;
        Ok(PeerVerifier {
            anchors,
            judge,
            statements: RwLock::default(),
            limits: Limits::default(),
            certificate_limit: CERTIFICATES,
        })
    }

    /// The verifier with other limits of what a search may spend.
    #[must_use]
    pub fn with_limits(self, limits: Limits) -> PeerVerifier<J> {
        PeerVerifier { limits, ..self }
    }

    /// The verifier for peers that may send so many certificates, their own with them: 16, if it has not been set.
    #[must_use]
    pub fn with_certificate_limit(self, certificate_limit: usize) -> PeerVerifier<J> {
        PeerVerifier {
            certificate_limit,
            ..self
        }
    }

    /// From now on handshakes are decided by these lists and responses, each in DER, and no others. If one cannot be read, its fault is
    /// answered, and nothing changes. Each handshake reads all of them again; a [`PartyVerifier`](crate::PartyVerifier) reads each once.
    pub fn set_statements(&self, statements: Vec<Vec<u8>>) -> Result<(), x509check::Error> {
        if let Some(anchor) = self.anchors.first() {
            let each: Vec<&[u8]> = statements.iter().map(|it| &it[..]).collect();
            read_statements(anchor, &each)?;
        }
        *self
            .statements
            .write()
            .unwrap_or_else(PoisonError::into_inner) = Arc::new(statements);
        Ok(())
    }
}

impl<J: Judge> Finds for PeerVerifier<J> {
    fn certificate_limit(&self) -> usize {
        self.certificate_limit
    }

    fn find(&self, asked: &Asked<'_>) -> Result<Peer, Error> {
        let held = Arc::clone(
            &self
                .statements
                .read()
                .unwrap_or_else(PoisonError::into_inner),
        );
        let anchors: Vec<&[u8]> = self.anchors.iter().map(|it| &it[..]).collect();
        let statements: Vec<&[u8]> = held.iter().map(|it| &it[..]).chain(asked.stapled).collect();
        let search = Search {
            anchors: &anchors,
            certificates: &asked.certificates,
            statements: &statements,
            moment: asked.moment,
            purpose: Some(asked.purpose),
            name: asked.name,
            limits: self.limits,
            profile: Profile::Stated,
        };
        search.find(&self.judge).map_err(|error| of_search(&error))
    }
}

impl<J: Judge + Send + Sync> ServerCertVerifier for PeerVerifier<J> {
    fn verify_server_cert(
        &self,
        end_entity: &rustls::Certificate,
        intermediates: &[rustls::Certificate],
        server_name: &ServerName,
        _scts: &mut dyn Iterator<Item = &[u8]>,
        ocsp_response: &[u8],
        now: SystemTime,
    ) -> Result<ServerCertVerified, Error> {
        verify_server(
            self,
            sent(end_entity, intermediates),
            server_name,
            ocsp_response,
            now,
        )
    }

    fn request_scts(&self) -> bool {
        false
    }
}

impl<J: Judge + Send + Sync> ClientCertVerifier for PeerVerifier<J> {
    fn client_auth_root_subjects(&self) -> Option<DistinguishedNames> {
        subjects(&self.anchors)
    }

    fn verify_client_cert(
        &self,
        end_entity: &rustls::Certificate,
        intermediates: &[rustls::Certificate],
        now: SystemTime,
    ) -> Result<ClientCertVerified, Error> {
        verify_client(self, sent(end_entity, intermediates), now)
    }
}
