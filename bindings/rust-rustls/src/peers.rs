//! What rustls asks about a peer, and how the answer is told.

use std::time::{SystemTime, UNIX_EPOCH};

use rustls::client::{ServerCertVerified, ServerName};
use rustls::server::ClientCertVerified;
use rustls::{DistinguishedNames, Error, OwnedTrustAnchor, RootCertStore};
use x509check::{Certificate, Peer, Profile, Query, Reference};

use crate::errors::{of_count, of_not_believed};

/// So many certificates a peer may send, if it is not said.
pub(crate) const CERTIFICATES: usize = 16;

/// id-kp-serverAuth and id-kp-clientAuth (RFC 5280, 4.2.1.12).
const SERVER_AUTH: &[u8] = &[0x2B, 6, 1, 5, 5, 7, 3, 1];
const CLIENT_AUTH: &[u8] = &[0x2B, 6, 1, 5, 5, 7, 3, 2];

/// The certificates that a peer sent, and what is asked of the first.
pub(crate) struct Asked<'a> {
    pub certificates: Vec<&'a [u8]>,
    pub moment: i64,
    pub purpose: &'a [u8],
    pub name: Option<Reference<'a>>,
    /// A server's OCSP response (RFC 6066, 8; RFC 8446, 4.4.2.1).
    pub stapled: Option<&'a [u8]>,
}

/// Whoever finds paths to peers.
pub(crate) trait Finds {
    /// How many certificates a peer may send.
    fn certificate_limit(&self) -> usize;

    fn find(&self, asked: &Asked<'_>) -> Result<Peer, Error>;
}

/// A server, whose certificate has to speak for the name.
pub(crate) fn verify_server(
    finder: &impl Finds,
    certificates: Vec<&[u8]>,
    name: &ServerName,
    stapled: &[u8],
    now: SystemTime,
) -> Result<ServerCertVerified, Error> {
    let name = match name {
        ServerName::DnsName(host) => Reference::Host(host.as_ref()),
        ServerName::IpAddress(address) => Reference::Address(*address),
        _ => return Err(Error::UnsupportedNameType),
    };
    let asked = Asked {
        certificates,
        moment: moment(now)?,
        purpose: SERVER_AUTH,
        name: Some(name),
        stapled: (!stapled.is_empty()).then_some(stapled),
    };
    believe(finder, &asked).map(|()| ServerCertVerified::assertion())
}

/// A client. Whom it is believed to be, its certificate says.
pub(crate) fn verify_client(
    finder: &impl Finds,
    certificates: Vec<&[u8]>,
    now: SystemTime,
) -> Result<ClientCertVerified, Error> {
    let asked = Asked {
        certificates,
        moment: moment(now)?,
        purpose: CLIENT_AUTH,
        name: None,
        stapled: None,
    };
    believe(finder, &asked).map(|()| ClientCertVerified::assertion())
}

/// Only a valid path, to a certificate whose name is right.
fn believe(finder: &impl Finds, asked: &Asked<'_>) -> Result<(), Error> {
    let (sent, most) = (asked.certificates.len(), finder.certificate_limit());
    if sent > most {
        return Err(of_count(sent, most));
    }
    match finder.find(asked)?.require_valid() {
        Ok(_) => Ok(()),
        Err(not_believed) => Err(of_not_believed(&not_believed)),
    }
}

/// What was sent, in its order.
pub(crate) fn sent<'a>(
    end_entity: &'a rustls::Certificate,
    others: &'a [rustls::Certificate],
) -> Vec<&'a [u8]> {
    [end_entity]
        .into_iter()
        .chain(others)
        .map(|it| &it.0[..])
        .collect()
}

/// In seconds from 1970-01-01T00:00:00Z.
fn moment(now: SystemTime) -> Result<i64, Error> {
    let since = now
        .duration_since(UNIX_EPOCH)
        .map_err(|_| Error::FailedToGetCurrentTime)?;
    i64::try_from(since.as_secs()).map_err(|_| Error::FailedToGetCurrentTime)
}

/// Whether each can be read, as a certificate.
pub(crate) fn read_anchors(anchors: &[Vec<u8>]) -> Result<(), x509check::Error> {
    anchors
        .iter()
        .try_for_each(|it| Certificate::read(it).map(drop))
}

/// Whether each can be read, as a list or a response; a certificate stands beside them, as for any question.
pub(crate) fn read_statements(
    certificate: &[u8],
    statements: &[&[u8]],
) -> Result<(), x509check::Error> {
    let query = Query {
        anchor: certificate,
        path: &[],
        statements,
        moment: 0,
        purpose: None,
        profile: Profile::Stated,
    };
    query.signature_questions().map(drop)
}

/// The subjects of the anchors, which a client is told (RFC 8446, 4.2.4).
pub(crate) fn subjects(anchors: &[Vec<u8>]) -> Option<DistinguishedNames> {
    let mut store = RootCertStore::empty();
    for anchor in anchors {
        let subject = contents(Certificate::read(anchor).ok()?.subject())?;
        let named = OwnedTrustAnchor::from_subject_spki_name_constraints(
            subject,
            Vec::new(),
            None::<Vec<u8>>,
        );
        store.roots.push(named);
    }
    // (rustls puts the head of the value in front again; it offers no other public way to make these names)
    #[allow(deprecated)]
    let subjects = store.subjects();
    Some(subjects)
}

/// The contents of a value of DER that was read before.
fn contents(value: &[u8]) -> Option<&[u8]> {
    let head = match *value.get(1)? {
        length @ 0x80.. => 2 + usize::from(length & 0x7F),
        _ => 2,
    };
    value.get(head..)
}
