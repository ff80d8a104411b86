//! Verdicts on paths (RFC 5280, 6; RFC 6960, 3.2).

use std::fmt;

use crate::fault::Error;
use crate::library::{VerdictAnswer, INVALID, REVOKED, UNKNOWN, VALID};

/// What is said of a path. Certificates are numbered from 1 on; 0 is the path itself.
#[derive(Clone, Copy, Debug, PartialEq, Eq)]
#[must_use = "a path may be believed only if the verdict on it is Valid"]
pub enum Verdict {
    /// It meets all conditions, and of each certificate a statement speaks, and none revokes it.
    Valid,
    /// The path breaks a condition.
    Invalid {
        /// The first certificate that breaks one.
        certificate: usize,
        /// Which one.
        reason: Reason,
    },
    /// The path meets all conditions, and a certificate of it is revoked.
    Revoked {
        /// The first certificate that is revoked.
        certificate: usize,
        /// The number of the reason (RFC 5280, 5.3.1).
        reason: u32,
    },
    /// The path meets all conditions, and none of its certificates is revoked.
    Unknown {
        /// The first certificate of which no current statement speaks.
        certificate: usize,
    },
}

/// As the program prints it: a word, the certificate, and the number of the reason.
impl fmt::Display for Verdict {
    fn fmt(&self, out: &mut fmt::Formatter<'_>) -> fmt::Result {
        match self {
            Verdict::Valid => out.write_str("valid"),
            Verdict::Invalid {
                certificate,
                reason,
            } => write!(out, "invalid {certificate} {}", *reason as u32),
            Verdict::Revoked {
                certificate,
                reason,
            } => write!(out, "revoked {certificate} {reason}"),
            Verdict::Unknown { certificate } => write!(out, "unknown {certificate}"),
        }
    }
}

/// Why a path is invalid, by rank.
#[derive(Clone, Copy, Debug, PartialEq, Eq, PartialOrd, Ord)]
#[repr(u32)]
pub enum Reason {
    /// The certificate stands in the path before.
    Repeated = 1,
    /// Its signature under the issuer's key is not among the good ones.
    Signature = 2,
    /// Its validity has not begun.
    NotYet = 3,
    /// Its validity has ended.
    Expired = 4,
    /// It names another issuer than the certificate before it.
    Issuer = 5,
    /// A name of it lies in no permitted subtree.
    NotPermitted = 6,
    /// A name of it lies in an excluded subtree.
    Excluded = 7,
    /// A constraint speaks of a form of names that is not processed.
    ConstraintForm = 8,
    /// It issues, and is no CA's.
    NotCa = 9,
    /// More certificates follow than a path length allows.
    PathLength = 10,
    /// It issues, and its key may not sign certificates.
    KeyCertSign = 11,
    /// It needs policies to be processed.
    Policy = 12,
    /// A critical extension is not recognised.
    CriticalUnknown = 13,
    /// The purpose that is asked for is not among its purposes.
    Purpose = 14,
    /// The path has no certificates.
    Empty = 15,
    /// The path has more than 128 certificates.
    TooLong = 16,
    /// A policy is required, and none is valid. This reason and the next two are for who asks for policies
    /// ([`QueryWithPolicies`](crate::QueryWithPolicies)), and `Policy` is for all others.
    NoValidPolicy = 17,
    /// It maps anyPolicy, or a policy to anyPolicy.
    AnyPolicyMapped = 18,
    /// A policy is required, and none of the user's is valid at the end of the path.
    NoUserPolicy = 19,
}

const REASONS: [Reason; 19] = [
    Reason::Repeated,
    Reason::Signature,
    Reason::NotYet,
    Reason::Expired,
    Reason::Issuer,
    Reason::NotPermitted,
    Reason::Excluded,
    Reason::ConstraintForm,
    Reason::NotCa,
    Reason::PathLength,
    Reason::KeyCertSign,
    Reason::Policy,
    Reason::CriticalUnknown,
    Reason::Purpose,
    Reason::Empty,
    Reason::TooLong,
    Reason::NoValidPolicy,
    Reason::AnyPolicyMapped,
    Reason::NoUserPolicy,
];

/// The reason of this rank.
pub(crate) fn reason_of(rank: u32) -> Result<Reason, Error> {
    let found = REASONS.iter().find(|reason| **reason as u32 == rank);
    found
        .copied()
        .ok_or(Error::Unexpected("the reason", rank as usize))
}

/// The same, which is one of the path itself or one of a certificate.
fn reason_at(certificate: usize, rank: u32) -> Result<Reason, Error> {
    let (of_path, reason) = (certificate == 0, reason_of(rank)?);
    if matches!(reason, Reason::Empty | Reason::TooLong) == of_path {
        return Ok(reason);
    }
    Err(Error::Unexpected("the reason", rank as usize))
}

/// The reason of a revocation, if it is one of RFC 5280, 5.3.1.
fn revocation_reason(reason: u32) -> Result<u32, Error> {
    match reason {
        0..=6 | 8..=10 => Ok(reason),
        _ => Err(Error::Unexpected(
            "the reason of a revocation",
            reason as usize,
        )),
    }
}

impl Verdict {
    /// The verdict of these numbers on a path of so many certificates. A number without a meaning is an error, as 0 is.
    pub(crate) fn of(answer: &VerdictAnswer, certificates: usize) -> Result<Verdict, Error> {
        let certificate = answer.certificate;
        if certificate > certificates {
            return Err(Error::Unexpected("the certificate", certificate));
        }
        match (answer.verdict, certificate) {
            (VALID, 0) => Ok(Verdict::Valid),
            (INVALID, _) => Ok(Verdict::Invalid {
                certificate,
                reason: reason_at(certificate, answer.reason)?,
            }),
            (REVOKED, 1..) => Ok(Verdict::Revoked {
                certificate,
                reason: revocation_reason(answer.reason)?,
            }),
            (UNKNOWN, 1..) => Ok(Verdict::Unknown { certificate }),
            _ => Err(Error::Unexpected("the verdict", answer.verdict as usize)),
        }
    }

    /// The certificate that decides: none if the path is valid, 0 if the path itself does.
    pub fn certificate(&self) -> Option<usize> {
        match self {
            Verdict::Valid => None,
            Verdict::Invalid { certificate, .. }
            | Verdict::Revoked { certificate, .. }
            | Verdict::Unknown { certificate } => Some(*certificate),
        }
    }
}

#[cfg(test)]
mod tests {
    use super::*;
    use crate::library::{Refusal, NAME_ROOM, REFUSED};
    use std::ffi::c_char;

    fn verdict(verdict: u32, reason: u32, certificate: usize) -> Result<Verdict, Error> {
        let answer = VerdictAnswer {
            verdict,
            reason,
            certificate,
            refusal: Refusal::default(),
        };
        Verdict::of(&answer, 2)
    }

    #[test]
    fn numbers_of_the_header() {
        let (certificate, reason) = (2, Reason::Purpose);
        assert_eq!(verdict(1, 0, 0), Ok(Verdict::Valid));
        assert_eq!(
            verdict(2, 14, 2),
            Ok(Verdict::Invalid {
                certificate,
                reason
            })
        );
        let (certificate, reason) = (0, Reason::TooLong);
        assert_eq!(
            verdict(2, 16, 0),
            Ok(Verdict::Invalid {
                certificate,
                reason
            })
        );
        let certificate = 2;
        assert_eq!(
            verdict(3, 0, 2),
            Ok(Verdict::Revoked {
                certificate,
                reason: 0
            })
        );
        assert_eq!(verdict(4, 0, 2), Ok(Verdict::Unknown { certificate }));
    }

    #[test]
    fn numbers_without_a_meaning() {
        for number in [0, REFUSED, 6, u32::MAX] {
            assert_eq!(
                verdict(number, 0, 0),
                Err(Error::Unexpected("the verdict", number as usize))
            );
        }
        for rank in [0, 15, 16, 20, u32::MAX] {
            assert_eq!(
                verdict(2, rank, 1),
                Err(Error::Unexpected("the reason", rank as usize))
            );
        }
        assert_eq!(verdict(2, 14, 0), Err(Error::Unexpected("the reason", 14)));
        for reason in [7, 11, u32::MAX] {
            assert!(verdict(3, reason, 1).is_err());
        }
        for (number, certificate) in [
            (1, 1),
            (2, 3),
            (3, 3),
            (3, 0),
            (4, 3),
            (4, 0),
            (4, usize::MAX),
        ] {
            assert!(
                verdict(number, 1, certificate).is_err(),
                "{number} {certificate}"
            );
        }
    }

    extern "C" {
        fn x509check_reason_name(
            verdict: u32,
            reason: u32,
            name: *mut c_char,
            room: usize,
        ) -> usize;
    }

    /// The name that the library has for a reason; none if no reason has the number.
    fn name_of(verdict: u32, reason: u32) -> Option<String> {
        let mut name = [0u8; NAME_ROOM];
        // The call writes no more than the room that the array has.
        let length =
            unsafe { x509check_reason_name(verdict, reason, name.as_mut_ptr().cast(), name.len()) };
        (length > 0).then(|| String::from_utf8(name[..length].to_vec()).unwrap())
    }

    #[test]
    fn reasons_are_those_of_the_library() {
        for number in 0..=40 {
            let ours = REASONS.iter().find(|reason| **reason as u32 == number);
            assert_eq!(
                ours.map(|reason| format!("{reason:?}")),
                name_of(INVALID, number)
            );
            assert_eq!(
                revocation_reason(number).is_ok(),
                name_of(REVOKED, number).is_some()
            );
        }
    }
}
