//! Peers believed by what the store of a party holds.

use std::fmt;
use std::sync::Arc;
use std::time::SystemTime;

use rustls::client::{ServerCertVerified, ServerCertVerifier, ServerName};
use rustls::server::{ClientCertVerified, ClientCertVerifier};
use rustls::{DistinguishedNames, Error};
use x509check::{sha256, Judge, Party, PartyError, PartySearch, Peer};

use crate::errors::{of_doubt, of_party, of_stapled};
use crate::peers::{
    read_anchors, read_statements, sent, subjects, verify_client, verify_server, Asked, Finds,
    CERTIFICATES,
};

/// Believes the peers of TLS connections by what the store of a party holds, and by the judge's word on signatures. What is said of a
/// [`PeerVerifier`](crate::PeerVerifier) holds here too.
///
/// A stapled response that the issuer on the path signed is delivered to the store; if it contradicts what the store holds, the peer is not
/// believed. A handshake waits for the party's answers, each as long as its limit lets it, and fails if one does not come.
pub struct PartyVerifier<J> {
    anchors: Vec<Vec<u8>>,
    judge: J,
    party: Arc<Party>,
    certificate_limit: usize,
}

impl<J> fmt::Debug for PartyVerifier<J> {
    fn fmt(&self, out: &mut fmt::Formatter<'_>) -> fmt::Result {
        let anchors = self.anchors.len();
        out.debug_struct("PartyVerifier")
            .field("anchors", &anchors)
            .finish_non_exhaustive()
    }
}

impl<J: Judge + Send + Sync> PartyVerifier<J> {
    /// Believes who has a valid path from one of the anchors, each the DER of a certificate, or answers the first fault of one.
    pub fn new(
        anchors: Vec<Vec<u8>>,
        judge: J,
        party: Arc<Party>,
    ) -> Result<PartyVerifier<J>, x509check::Error> {
        read_anchors(&anchors)?;
        Ok(PartyVerifier {
            anchors,
            judge,
            party,
            certificate_limit: CERTIFICATES,
        })
    }

    /// The verifier for peers that may send so many certificates, their own with them: 16, if it has not been set.
    #[must_use]
    pub fn with_certificate_limit(self, certificate_limit: usize) -> PartyVerifier<J> {
        PartyVerifier {
            certificate_limit,
            ..self
        }
    }
}

impl<J: Judge> PartyVerifier<J> {
    /// Whether the store took the stapled response, as one that the issuer or its delegate signed.
    fn takes(&self, issuer: &[u8], stapled: &[u8]) -> Result<bool, Error> {
        match self.party.deliver(issuer, stapled, &self.judge) {
            Ok(_) => Ok(true),
            // (it was read before, so that it is only another's)
            Err(PartyError::Refused { status: 4, .. }) => Ok(false),
            Err(error @ (PartyError::Unjudged { .. } | PartyError::Contradicted(_))) => {
                Err(of_doubt(&error))
            }
            Err(error) => Err(of_party(&error)),
        }
    }

    /// The certificate with this SHA-256, of those that were sent behind the first and of the anchors.
    fn certificate<'a>(&'a self, asked: &Asked<'a>, digest: &[u8; 32]) -> Option<&'a [u8]> {
        let sent = asked.certificates.iter().skip(1).copied();
        let anchors = self.anchors.iter().map(|it| &it[..]);
        sent.chain(anchors).find(|it| sha256(it) == *digest)
    }
}

impl<J: Judge> Finds for PartyVerifier<J> {
    fn certificate_limit(&self) -> usize {
        self.certificate_limit
    }

    /// What the party finds, and once more if it took the response about the path that was found first.
    fn find(&self, asked: &Asked<'_>) -> Result<Peer, Error> {
        let anchors: Vec<&[u8]> = self.anchors.iter().map(|it| &it[..]).collect();
        let search = PartySearch {
            anchors: &anchors,
            certificates: &asked.certificates,
            moment: asked.moment,
            purpose: Some(asked.purpose),
            name: asked.name,
        };
        let find = || {
            self.party
                .find(&search, &self.judge)
                .map_err(|error| of_party(&error))
        };
        let found = find()?;
        let Some(stapled) = asked.stapled else {
            return Ok(found);
        };
        read_statements(asked.certificates[0], &[stapled]).map_err(|error| of_stapled(&error))?;
        let above = found.path.iter().rev().nth(1);
        let issuer = above.and_then(|issuer| self.certificate(asked, &issuer.sha256));
        match issuer {
            Some(issuer) if self.takes(issuer, stapled)? => find(),
            _ => Ok(found),
        }
    }
}

impl<J: Judge + Send + Sync> ServerCertVerifier for PartyVerifier<J> {
    fn verify_server_cert(
        &self,
        end_entity: &rustls::Certificate,
        intermediates: &[rustls::Certificate],
        server_name: &ServerName,
        _scts: &mut dyn Iterator<Item = &[u8]>,
        ocsp_response: &[u8],
        now: SystemTime,
    ) -> Result<ServerCertVerified, Error> {
        verify_server(
            self,
            sent(end_entity, intermediates),
            server_name,
            ocsp_response,
            now,
        )
    }

    fn request_scts(&self) -> bool {
        false
    }
}

impl<J: Judge + Send + Sync> ClientCertVerifier for PartyVerifier<J> {
    fn client_auth_root_subjects(&self) -> Option<DistinguishedNames> {
        subjects(&self.anchors)
    }

    fn verify_client_cert(
        &self,
        end_entity: &rustls::Certificate,
        intermediates: &[rustls::Certificate],
        now: SystemTime,
    ) -> Result<ClientCertVerified, Error> {
        verify_client(self, sent(end_entity, intermediates), now)
    }
}
