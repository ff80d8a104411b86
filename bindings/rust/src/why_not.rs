//! Why no path to a certificate is found.

use std::fmt;

use crate::calls::Diagnosis;
use crate::fault::Error;
use crate::identity::Identity;
use crate::library::{GAVE_UP, PATHS_END, TARGET_AT_FAULT};
use crate::verdict::{reason_of, Reason};

/// Why no path to the certificate in question meets the conditions of RFC 5280, 6.1.
#[derive(Clone, Debug, PartialEq, Eq)]
#[non_exhaustive]
pub enum WhyNot {
    /// It cannot stand at the end of any path: the condition of the least rank that it does not meet by itself.
    Target(Reason),
    /// It can, and nobody at hand can stand above an end of a path that got furthest.
    End(End),
    /// A limit is used up.
    GaveUp,
}

/// The longest end of a path whose certificates all meet the conditions, and who has the name of the issuer of its top. If nobody has it,
/// the certificate of that issuer is missing. Of ends of one length it is the one whose certificates were sent earlier, from the one in
/// question upward.
#[derive(Clone, Debug, PartialEq, Eq)]
#[non_exhaustive]
pub struct End {
    /// The top: the last of those above the certificate in question, or that one.
    pub top: Identity,
    /// The certificates above the one in question, from it upward.
    pub above: Vec<Identity>,
    /// The anchors with the name of the top's issuer, which did not sign it.
    pub anchors: Vec<Identity>,
    /// The other certificates with that name, each with the condition of the least rank that it does not meet above that end.
    /// `Repeated`, `Signature`, `PathLength` and those of names are about it and the certificates below it.
    pub obstacles: Vec<(Identity, Reason)>,
}

impl WhyNot {
    /// What the numbers say of a certificate, where this names each. A number without a meaning is an error, as 0 is.
    pub(crate) fn of(
        diagnosis: &Diagnosis,
        target: &Identity,
        identity_of: impl Fn(usize) -> Result<Identity, Error>,
    ) -> Result<WhyNot, Error> {
        match diagnosis.answer.why {
            TARGET_AT_FAULT => Ok(WhyNot::Target(reason_of(diagnosis.answer.reason)?)),
            PATHS_END => Ok(WhyNot::End(End::of(diagnosis, target, identity_of)?)),
            GAVE_UP => Ok(WhyNot::GaveUp),
            number => Err(Error::Unexpected("why no path is found", number as usize)),
        }
    }
}

impl End {
    fn of(
        diagnosis: &Diagnosis,
        target: &Identity,
        identity_of: impl Fn(usize) -> Result<Identity, Error>,
    ) -> Result<End, Error> {
        let each = |numbers: &[usize]| -> Result<Vec<Identity>, Error> {
            numbers.iter().map(|number| identity_of(*number)).collect()
        };
        let above = each(&diagnosis.above)?;
        let obstacles: Result<Vec<(Identity, Reason)>, Error> = diagnosis
            .obstacles
            .iter()
            .map(|it| Ok((identity_of(it.certificate)?, reason_of(it.reason)?)))
            .collect();
        Ok(End {
            top: above.last().unwrap_or(target).clone(),
            anchors: each(&diagnosis.anchors)?,
            obstacles: obstacles?,
            above,
        })
    }
}

/// On one line. A name ends what is said of it, and has no `;`, so what follows a `;` is not of the certificate.
impl fmt::Display for WhyNot {
    fn fmt(&self, out: &mut fmt::Formatter<'_>) -> fmt::Result {
        match self {
            WhyNot::Target(reason) => write!(
                out,
                "the target cannot stand at the end of any path: {} {reason:?}",
                *reason as u32
            ),
            WhyNot::End(end) => end.fmt(out),
            WhyNot::GaveUp => {
                out.write_str("the limits were used up before it was known where paths end")
            }
        }
    }
}

impl fmt::Display for End {
    fn fmt(&self, out: &mut fmt::Formatter<'_>) -> fmt::Result {
        if self.anchors.is_empty() && self.obstacles.is_empty() {
            return write!(
                out,
                "no certificate at hand has the name of the issuer of {}",
                self.top
            );
        }
        write!(out, "no certificate at hand can stand above {}", self.top)?;
        self.anchors
            .iter()
            .try_for_each(|it| write!(out, "; not signed by the anchor {it}"))?;
        self.obstacles.iter().try_for_each(|(it, reason)| {
            write!(out, "; barred by {} {reason:?}: {it}", *reason as u32)
        })
    }
}

#[cfg(test)]
mod tests {
    use super::*;
    use crate::library::{DiagnosisAnswer, ObstacleFields, Refusal};

    fn named(number: usize) -> Result<Identity, Error> {
        Ok(Identity {
            subject: Vec::new(),
            name: format!("CN={number}"),
            serial: vec![number as u8],
            sha256: [0; 32],
        })
    }

    fn told(why: u32, reason: u32, obstacles: &[(usize, u32)]) -> Result<WhyNot, Error> {
        let obstacles = obstacles
            .iter()
            .map(|&(certificate, reason)| ObstacleFields {
                certificate,
                reason,
            });
        let diagnosis = Diagnosis {
            answer: DiagnosisAnswer {
                why,
                reason,
                above_count: 0,
                anchor_count: 0,
                obstacle_count: 0,
                refusal: Refusal::default(),
            },
            above: vec![4],
            anchors: vec![1],
            obstacles: obstacles.collect(),
        };
        WhyNot::of(&diagnosis, &named(2)?, named)
    }

    #[test]
    fn numbers_of_the_header() {
        assert_eq!(told(7, 0, &[]), Ok(WhyNot::GaveUp));
        assert_eq!(told(8, 14, &[]), Ok(WhyNot::Target(Reason::Purpose)));
        let Ok(WhyNot::End(end)) = told(9, 0, &[(3, 16)]) else {
            panic!("an end is told");
        };
        assert_eq!(end.top, end.above[0]);
        assert_eq!(end.obstacles, [(named(3).unwrap(), Reason::TooLong)]);
        assert_eq!(end.anchors, [named(1).unwrap()]);
    }

    #[test]
    fn numbers_without_a_meaning() {
        for number in [0, 1, 5, 6, 10, u32::MAX] {
            assert!(told(number, 0, &[]).is_err(), "{number}");
        }
        for rank in [0, 20, u32::MAX] {
            assert!(told(8, rank, &[]).is_err(), "{rank}");
            assert!(told(9, 0, &[(3, rank)]).is_err(), "{rank}");
        }
    }
}
