//! Object identifiers, as text and as DER has them (X.690, 8.19).

use std::error;
use std::fmt;
use std::str::FromStr;

use crate::certificate::check;
use crate::fault::Error;
use crate::name::{add_hex, dotted};

/// An OBJECT IDENTIFIER, which is read from its dotted form, or from the contents that DER has of it.
///
/// Printed, it has its dotted form. One with a number of more than 128 bits is printed as `#` and its whole encoding in hexadecimal, and only
/// read from contents.
///
/// ```
/// use x509check::ObjectIdentifier;
///
/// let policy: ObjectIdentifier = "2.999.1.1".parse()?;
/// assert_eq!(policy.contents(), [0x88, 0x37, 1, 1]);
/// assert_eq!(policy.to_string(), "2.999.1.1");
/// assert!("2.999.01".parse::<ObjectIdentifier>().is_err());
/// # Ok::<(), x509check::IdentifierError>(())
/// ```
#[derive(Clone, Debug, PartialEq, Eq, Hash, PartialOrd, Ord)]
pub struct ObjectIdentifier(Vec<u8>);

/// A text, or octets in hexadecimal, that are no object identifier.
#[derive(Clone, Debug, PartialEq, Eq)]
pub struct IdentifierError(String);

impl ObjectIdentifier {
    /// The one with these contents: the library says whether they are DER.
    pub fn from_contents(contents: &[u8]) -> Result<ObjectIdentifier, IdentifierError> {
        match check_contents(contents) {
            Ok(()) => Ok(ObjectIdentifier(contents.to_vec())),
            Err(_) => {
                let mut text = String::from("#");
                add_hex(&mut text, contents);
                Err(IdentifierError(text))
            }
        }
    }

    /// Its contents.
    pub fn contents(&self) -> &[u8] {
        &self.0
    }
}

/// From the dotted form: two numbers or more, the first 0, 1 or 2, the second below 40 unless the first is 2, each below 2^128 and in digits
/// of ASCII without a zero in front.
impl FromStr for ObjectIdentifier {
    type Err = IdentifierError;

    fn from_str(text: &str) -> Result<ObjectIdentifier, IdentifierError> {
        match contents_of(text) {
            Some(contents) => Ok(ObjectIdentifier(contents)),
            None => Err(IdentifierError(text.to_string())),
        }
    }
}

impl fmt::Display for ObjectIdentifier {
    fn fmt(&self, out: &mut fmt::Formatter<'_>) -> fmt::Result {
        if let Some(numbers) = dotted(&self.0) {
            return out.write_str(&numbers);
        }
        let mut text = String::from("#");
        add_hex(&mut text, &encoding(&self.0));
        out.write_str(&text)
    }
}

impl fmt::Display for IdentifierError {
    fn fmt(&self, out: &mut fmt::Formatter<'_>) -> fmt::Result {
        write!(out, "{:?} is no object identifier", self.0)
    }
}

impl error::Error for IdentifierError {}

/// The number that a word of the dotted form is.
fn number(word: &str) -> Option<u128> {
    let is_plain = word.bytes().all(|digit| digit.is_ascii_digit());
    if !is_plain || word.len() > 1 && word.starts_with('0') {
        return None;
    }
    word.parse().ok()
}

/// Adds a number in groups of 7 bits, of which all but the last have the highest bit set.
fn add_number(contents: &mut Vec<u8>, number: u128) {
    let bits = 128 - number.leading_zeros();
    for group in (1..(bits + 6) / 7).rev() {
        contents.push((number >> (7 * group)) as u8 | 0x80);
    }
    contents.push(number as u8 & 0x7F);
}

/// The contents of the object identifier with this dotted form.
fn contents_of(text: &str) -> Option<Vec<u8>> {
    let numbers: Option<Vec<u128>> = text.split('.').map(number).collect();
    let numbers = numbers?;
    let [first, second, others @ ..] = &numbers[..] else {
        return None;
    };
    if *first > 2 || *first < 2 && *second > 39 {
        return None;
    }
    let mut contents = Vec::new();
    add_number(&mut contents, (40 * first).checked_add(*second)?);
    others
        .iter()
        .for_each(|other| add_number(&mut contents, *other));
    Some(contents)
}

/// The whole encoding of an OBJECT IDENTIFIER with these contents.
fn encoding(contents: &[u8]) -> Vec<u8> {
    let digits = contents.len().to_be_bytes();
    let skipped = digits.iter().take_while(|digit| **digit == 0).count();
    let mut octets = vec![0x06];
    if contents.len() >= 0x80 {
        octets.push(0x80 | (digits.len() - skipped) as u8);
    }
    octets.extend_from_slice(&digits[skipped.min(digits.len() - 1)..]);
    octets.extend_from_slice(contents);
    octets
}

/// Refuses octets that are no contents of an OBJECT IDENTIFIER; the library says whether they are.
pub(crate) fn check_contents(contents: &[u8]) -> Result<(), Error> {
    check(&encoding(contents))
}

#[cfg(test)]
mod tests {
    use super::*;

    #[test]
    fn texts_are_read_and_printed_as_they_are() {
        let most = format!("2.{}", u128::MAX - 80);
        let uuid = format!("2.25.{}", u128::MAX);
        for (text, contents) in [
            ("0.0", &[0x00][..]),
            ("0.39.40.79", &[0x27, 0x28, 0x4F]),
            ("1.39.0", &[0x4F, 0x00]),
            ("2.0", &[0x50]),
            ("2.47", &[0x7F]),
            ("2.48", &[0x81, 0x00]),
            ("2.999.1.128", &[0x88, 0x37, 0x01, 0x81, 0x00]),
            ("2.5.29.32.0", &[0x55, 0x1D, 0x20, 0x00]),
        ] {
            let read: ObjectIdentifier = text.parse().unwrap();
            assert_eq!(read.contents(), contents, "{text}");
            assert_eq!(read.to_string(), text);
            assert_eq!(ObjectIdentifier::from_contents(contents), Ok(read));
        }
        for text in [&most[..], &uuid] {
            let read: ObjectIdentifier = text.parse().unwrap();
            assert_eq!(read.to_string(), text);
            assert_eq!(check_contents(read.contents()), Ok(()));
        }
    }

    #[test]
    fn texts_that_are_none_are_named() {
        let over = format!("2.{}", u128::MAX - 79);
        let more = format!("2.5.3402823669209384634633746074317682114{}", 56);
        for text in [
            "",
            ".",
            "2",
            "2.",
            ".2",
            "3.1",
            "0.40",
            "1.40.1",
            "02.5",
            "2.05",
            "2.5.029",
            "2.5.00",
            "2.5.+29",
            "2.5.-1",
            "2.5. 29",
            " 2.5",
            "2.5\n",
            "2.5..29",
            "2.5.\u{662}",
            "2.5.\u{b2}",
            "2.5.1_0",
            "2.5.x",
            "any",
            &over,
            &more,
        ] {
            let refused = text.parse::<ObjectIdentifier>().unwrap_err();
            assert_eq!(
                refused.to_string(),
                format!("{text:?} is no object identifier")
            );
        }
    }

    #[test]
    fn contents_that_are_none_are_named() {
        for contents in [
            &[][..],
            &[0x80],
            &[0x2B, 0x86],
            &[0x2B, 0x80, 1],
            &[0xFF; 3],
        ] {
            assert!(ObjectIdentifier::from_contents(contents).is_err());
        }
        let refused = ObjectIdentifier::from_contents(&[0x2B, 0x86]).unwrap_err();
        assert_eq!(refused.to_string(), "\"#2B86\" is no object identifier");
    }

    #[test]
    fn numbers_of_more_than_128_bits_are_printed_as_octets() {
        let contents = [&[0x2B][..], &[0xFF; 19], &[0x7F]].concat();
        let long = ObjectIdentifier::from_contents(&contents).unwrap();
        assert_eq!(long.to_string(), format!("#06152B{}7F", "FF".repeat(19)));
    }

    /// Whatever octets the library takes for contents, the text of them is read as the same; and none of the others is one.
    #[test]
    fn texts_and_contents_go_together() {
        let pool = [0x00, 0x01, 0x27, 0x28, 0x2A, 0x50, 0x7F, 0x80, 0x81, 0xFF];
        let mut read = 0;
        for pick in 0..10_000usize {
            let contents: Vec<u8> = (0..4)
                .map(|place| pool[pick / 10usize.pow(place) % 10])
                .collect();
            match ObjectIdentifier::from_contents(&contents) {
                Ok(identifier) => {
                    read += 1;
                    assert_eq!(identifier.to_string().parse(), Ok(identifier));
                }
                Err(_) => {
                    let again = dotted(&contents).and_then(|text| contents_of(&text));
                    assert_ne!(again, Some(contents));
                }
            }
        }
        assert!(3000 < read && read < 9000, "{read}");
    }
}
