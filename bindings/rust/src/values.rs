//! What was handed to the library, by the numbers that it has for each.

use crate::library::{Part, Place, CERTIFICATES, STATEMENTS};

/// Certificates by their numbers, and statements by their indices.
pub(crate) struct Values<'a> {
    pub certificates: Vec<&'a [u8]>,
    pub statements: Vec<&'a [u8]>,
}

impl<'a> Values<'a> {
    /// The octets of the place, if there are any.
    pub(crate) fn part(&self, place: Place) -> Option<&'a [u8]> {
        let part = Part {
            offset: place.offset,
            length: place.length,
        };
        let values = match place.text {
            CERTIFICATES => &self.certificates,
            STATEMENTS => &self.statements,
            _ => return None,
        };
        part.of(values.get(place.index).copied()?)
    }
}
