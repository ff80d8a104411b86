//! Errors of rustls, which decide about the alert.

use rustls::Error;
use x509check::{NotBelieved, PartyError, SearchError, SpeakingError, Text};

/// The error for what a peer sent and nobody can read, or for what is found otherwise.
fn of_reading(error: &x509check::Error) -> Error {
    match error {
        x509check::Error::Refused(fault) => match fault.value {
            Some((Text::Certificates, _)) => Error::InvalidCertificateEncoding,
            Some((Text::Statements, _)) => of_stapled(error),
            _ => Error::General(error.to_string()),
        },
        _ => Error::General(error.to_string()),
    }
}

/// The error for a stapled response that nobody can read; all other statements were read before.
pub(crate) fn of_stapled(error: &x509check::Error) -> Error {
    Error::InvalidCertificateData(format!("the stapled response cannot be read: {error}"))
}

/// The error for a stapled response that may be the issuer's and whose signature nobody could judge, or that contradicts what is held.
pub(crate) fn of_doubt(error: &PartyError) -> Error {
    Error::InvalidCertificateData(format!("the stapled response: {error}"))
}

/// The error for more certificates than a peer may send.
pub(crate) fn of_count(sent: usize, most: usize) -> Error {
    Error::InvalidCertificateData(format!("{sent} certificates were sent, more than {most}"))
}

pub(crate) fn of_search(error: &SearchError) -> Error {
    match error {
        SearchError::NoTarget => Error::NoCertificatesPresented,
        SearchError::Speaking(SpeakingError::Library(error)) => of_reading(error),
        SearchError::Speaking(SpeakingError::Reference(..)) => Error::UnsupportedNameType,
        _ => Error::General(error.to_string()),
    }
}

pub(crate) fn of_party(error: &PartyError) -> Error {
    match error {
        PartyError::Input(error) => of_reading(error),
        PartyError::Speaking(error) => of_search(&SearchError::Speaking(*error)),
        _ => Error::General(error.to_string()),
    }
}

pub(crate) fn of_not_believed(not_believed: &NotBelieved) -> Error {
    match not_believed {
        NotBelieved::Peer(peer) => Error::InvalidCertificateData(peer.to_string()),
        NotBelieved::Error(error) => of_search(error),
    }
}
