//! Names as text (RFC 4514).
//!
//! A name was read by the library before it comes here. It is taken apart again for print, and to count the names that may match; no
//! verdict rests on it.

use std::fmt::Write;

use crate::der::{inside, values, Value, OBJECT_IDENTIFIER, SEQUENCE, SET};

/// Types of attributes that have a short name (RFC 4514, 3), by the contents of the OBJECT IDENTIFIER.
const SHORT_NAMES: [(&[u8], &str); 9] = [
    (&[0x55, 4, 3], "CN"),
    (&[0x55, 4, 7], "L"),
    (&[0x55, 4, 8], "ST"),
    (&[0x55, 4, 10], "O"),
    (&[0x55, 4, 11], "OU"),
    (&[0x55, 4, 6], "C"),
    (&[0x55, 4, 9], "STREET"),
    (
        &[0x09, 0x92, 0x26, 0x89, 0x93, 0xF2, 0x2C, 0x64, 1, 25],
        "DC",
    ),
    (
        &[0x09, 0x92, 0x26, 0x89, 0x93, 0xF2, 0x2C, 0x64, 1, 1],
        "UID",
    ),
];

const BMP_STRING: u8 = 0x1E;
/// UTF8String, NumericString, PrintableString, IA5String and VisibleString: their contents are text as they are.
const PLAIN_STRINGS: [u8; 5] = [0x0C, 0x12, 0x13, 0x16, 0x1A];

/// The numbers of an OBJECT IDENTIFIER with dots between them; none if one has more than 128 bits, or the last is cut off.
pub(crate) fn dotted(contents: &[u8]) -> Option<String> {
    if *contents.last()? >= 0x80 {
        return None;
    }
    let (mut text, mut number) = (String::new(), 0u128);
    for octet in contents {
        number = number.checked_mul(128)? + u128::from(octet & 0x7F);
        if octet & 0x80 != 0 {
            continue;
        }
        if text.is_empty() {
            let first = (number / 40).min(2);
            text = format!("{first}.{}", number - first * 40);
        } else {
            write!(text, ".{number}").ok()?;
        }
        number = 0;
    }
    Some(text)
}

pub(crate) fn add_hex(text: &mut String, octets: &[u8]) {
    for octet in octets {
        let _ = write!(text, "{octet:02X}");
    }
}

/// The whole encoding, as RFC 4514, 2.4, prints a value that is no text.
fn add_encoding(text: &mut String, value: &Value<'_>) {
    text.push('#');
    add_hex(text, value.octets);
}

/// The value's text in UTF-8, if it is of a type that has one.
fn text_in(value: &Value<'_>) -> Option<Vec<u8>> {
    if PLAIN_STRINGS.contains(&value.identifier) {
        return Some(value.contents.to_vec());
    }
    if value.identifier != BMP_STRING || value.contents.len() % 2 != 0 {
        return None;
    }
    let units = value
        .contents
        .chunks_exact(2)
        .map(|unit| u16::from_be_bytes([unit[0], unit[1]]));
    let text: Result<String, _> = char::decode_utf16(units).collect();
    Some(text.ok()?.into_bytes())
}

/// Adds the text with each octet escaped, as `\` and two digits, that RFC 4514 has a meaning for or that is no printable ASCII; so are
/// spaces that stand at an end or behind another.
fn add_escaped(text: &mut String, octets: &[u8]) {
    for (index, octet) in octets.iter().enumerate() {
        let plain = match octet {
            b' ' => index > 0 && index + 1 < octets.len() && octets[index - 1] != b' ',
            b'"' | b'+' | b',' | b';' | b'<' | b'=' | b'>' | b'\\' | b'#' => false,
            _ => octet.is_ascii_graphic(),
        };
        if plain {
            text.push(char::from(*octet));
        } else {
            let _ = write!(text, "\\{octet:02X}");
        }
    }
}

/// An attribute: its type, `=`, and its value. A type without a short name has its numbers, and then the value its encoding.
fn add_attribute(text: &mut String, attribute: &Value<'_>) -> Option<()> {
    let members = inside(attribute, SEQUENCE)?;
    let [kind, value] = &members[..] else {
        return None;
    };
    if kind.identifier != OBJECT_IDENTIFIER {
        return None;
    }
    let short = SHORT_NAMES
        .iter()
        .find(|(contents, _)| *contents == kind.contents);
    match (short, dotted(kind.contents)) {
        (Some((_, short)), _) => text.push_str(short),
        (None, Some(numbers)) => text.push_str(&numbers),
        (None, None) => add_encoding(text, kind),
    }
    text.push('=');
    match text_in(value) {
        Some(octets) if short.is_some() => add_escaped(text, &octets),
        _ => add_encoding(text, value),
    }
    Some(())
}

/// The whole encoding of a name as text: the last relative name first, `,` between them and `+` inside them. It is one line of printable
/// ASCII, in which these two, `;` and spaces at an end stand for themselves alone.
pub(crate) fn text_of(name: &[u8]) -> Option<String> {
    let outermost = values(name)?;
    let [sequence] = &outermost[..] else {
        return None;
    };
    let mut text = String::new();
    for (index, relative) in inside(sequence, SEQUENCE)?.iter().rev().enumerate() {
        if index > 0 {
            text.push(',');
        }
        for (index, attribute) in inside(relative, SET)?.iter().enumerate() {
            if index > 0 {
                text.push('+');
            }
            add_attribute(&mut text, attribute)?;
        }
    }
    Some(text)
}

/// A key that two names have in common if they match (RFC 5280, 7.1), and perhaps if they do not: only to count which may.
pub(crate) fn loose_key(name: &[u8]) -> Vec<u8> {
    loose_key_of(name).unwrap_or_else(|| name.to_vec())
}

fn loose_key_of(name: &[u8]) -> Option<Vec<u8>> {
    let outermost = values(name)?;
    let mut key = Vec::new();
    for relative in inside(outermost.first()?, SEQUENCE)? {
        let attributes: Option<Vec<Vec<u8>>> = inside(&relative, SET)?
            .iter()
            .map(loose_attribute)
            .collect();
        // (their order in DER is that of texts which match without being the same)
        let mut attributes = attributes?;
        attributes.sort();
        key.extend(attributes.concat());
    }
    Some(key)
}

/// An attribute: a text without regard to its type, the case of ASCII letters, and spaces.
fn loose_attribute(attribute: &Value<'_>) -> Option<Vec<u8>> {
    let members = inside(attribute, SEQUENCE)?;
    let [kind, value] = &members[..] else {
        return None;
    };
    let mut key = kind.octets.to_vec();
    match PLAIN_STRINGS.contains(&value.identifier) {
        true => key.extend(
            value
                .contents
                .iter()
                .filter(|octet| **octet != b' ')
                .map(u8::to_ascii_lowercase),
        ),
        false => key.extend(value.octets),
    }
    Some(key)
}

#[cfg(test)]
mod tests {
    use super::*;

    fn value(identifier: u8, contents: &[u8]) -> Vec<u8> {
        let length = u8::try_from(contents.len()).unwrap();
        let length = if length < 0x80 {
            vec![length]
        } else {
            vec![0x81, length]
        };
        [&[identifier], &length[..], contents].concat()
    }

    fn attribute(kind: &[u8], identifier: u8, contents: &[u8]) -> Vec<u8> {
        let members = [value(OBJECT_IDENTIFIER, kind), value(identifier, contents)];
        value(SEQUENCE, &members.concat())
    }

    fn name(relative_names: &[&[Vec<u8>]]) -> Vec<u8> {
        let sets: Vec<Vec<u8>> = relative_names
            .iter()
            .map(|it| value(SET, &it.concat()))
            .collect();
        value(SEQUENCE, &sets.concat())
    }

    fn common_name(identifier: u8, contents: &[u8]) -> String {
        text_of(&name(&[&[attribute(&[0x55, 4, 3], identifier, contents)]])).unwrap()
    }

    /// The examples of RFC 4514, 4, where escapes have two digits.
    #[test]
    fn names_of_the_rfc() {
        let domain = |text: &[u8]| attribute(SHORT_NAMES[7].0, 0x16, text);
        let user = attribute(SHORT_NAMES[8].0, 0x0C, b"jsmith");
        let two = [
            attribute(&[0x55, 4, 11], 0x13, b"Sales"),
            attribute(&[0x55, 4, 3], 0x13, b"J.  Smith"),
        ];
        let (com, org) = ([domain(b"net")], [domain(b"example")]);
        assert_eq!(
            text_of(&name(&[&com, &org, &[user]])).unwrap(),
            "UID=jsmith,DC=example,DC=net"
        );
        assert_eq!(
            text_of(&name(&[&com, &org, &two])).unwrap(),
            "OU=Sales+CN=J. \\20Smith,DC=example,DC=net"
        );
        assert_eq!(
            common_name(0x0C, b"James \"Jim\" Smith, III"),
            "CN=James \\22Jim\\22 Smith\\2C III"
        );
        assert_eq!(common_name(0x0C, b"Before\rAfter"), "CN=Before\\0DAfter");
        assert_eq!(
            common_name(0x0C, b"Lu\xC4\x8Di\xC4\x87"),
            "CN=Lu\\C4\\8Di\\C4\\87"
        );
        let other = attribute(&[0x2B, 6, 1, 4, 1, 0x8B, 0x3A, 0], 0x04, b"Hi");
        assert_eq!(
            text_of(&name(&[&[other]])).unwrap(),
            "1.3.6.1.4.1.1466.0=#04024869"
        );
        assert_eq!(text_of(&name(&[])).unwrap(), "");
    }

    #[test]
    fn values_that_pretend_to_be_more() {
        assert_eq!(
            common_name(0x0C, b"a,O=b+C=c;d"),
            "CN=a\\2CO\\3Db\\2BC\\3Dc\\3Bd"
        );
        assert_eq!(common_name(0x0C, b"#30\\00<>"), "CN=\\2330\\5C00\\3C\\3E");
        assert_eq!(common_name(0x0C, b"  a  "), "CN=\\20\\20a \\20");
        assert_eq!(
            common_name(0x0C, b"a\nvalid\x1B[2K\x7F\0"),
            "CN=a\\0Avalid\\1B[2K\\7F\\00"
        );
        // A right-to-left override, and a line separator.
        assert_eq!(
            common_name(0x0C, "\u{202E}\u{2028}".as_bytes()),
            "CN=\\E2\\80\\AE\\E2\\80\\A8"
        );
        assert_eq!(common_name(BMP_STRING, b"\0a\x20\x28"), "CN=a\\E2\\80\\A8");
        assert_eq!(common_name(BMP_STRING, b"\xD8\0"), "CN=#1E02D800");
        assert_eq!(common_name(BMP_STRING, b"\0"), "CN=#1E0100");
        assert_eq!(common_name(0x14, b"a"), "CN=#140161");
        assert_eq!(common_name(0x0C, b""), "CN=");
    }

    /// Two names that match (RFC 5280, 7.1), whose attributes stand in another order, and two that do not.
    #[test]
    fn loose_keys_of_names_that_match() {
        let pair = |unit: &[u8], other: u8, name: &[u8]| {
            [
                attribute(&[0x55, 4, 11], 0x13, unit),
                attribute(&[0x55, 4, 3], other, name),
            ]
        };
        let [unit, common] = pair(b"SALES", 0x0C, b"  j.   Smith ");
        let matching = [
            name(&[&pair(b"sales", 0x13, b"J. Smith")]),
            name(&[&[common, unit]]),
        ];
        assert_eq!(loose_key(&matching[0]), loose_key(&matching[1]));
        let others = [
            name(&[&pair(b"sales", 0x13, b"J. Smyth")]),
            name(&[&pair(b"sales", 0x1E, b"J. Smith")]),
            name(&[
                &pair(b"sales", 0x13, b"J. Smith"),
                &[attribute(&[0x55, 4, 6], 0x13, b"XX")],
            ]),
        ];
        for other in others {
            assert_ne!(loose_key(&other), loose_key(&matching[0]));
        }
    }

    #[test]
    fn types_of_many_numbers() {
        assert_eq!(dotted(&[0x88, 0x37, 3]).unwrap(), "2.999.3");
        assert_eq!(dotted(&[0x27, 0x28, 0x4F]).unwrap(), "0.39.40.79");
        assert_eq!(dotted(&[]), None);
        assert_eq!(dotted(&[0x2B, 0x88]), None);
        assert_eq!(dotted(&[0xFF; 20]), None);
        let large = [&[0xFF; 20][..], &[0x7F]].concat();
        let text = text_of(&name(&[&[attribute(&large, 0x0C, b"a")]])).unwrap();
        assert!(
            text.starts_with("#0615FFFF") && text.ends_with("7F=#0C0161"),
            "{text}"
        );
    }

    #[test]
    fn octets_that_are_no_name() {
        let rows: [&[u8]; 12] = [
            &[],
            &[0x30],
            &[0x30, 0x80, 0, 0],
            &[0x30, 0x81, 0x00],
            &[0x30, 0x82, 0, 0],
            &[0x30, 0x85, 1, 0, 0, 0, 0],
            &[0x31, 0],
            &[0x30, 0, 0x30, 0],
            &[0x30, 2, 0x30, 0],
            &[0x30, 4, 0x31, 2, 0x30, 0],
            &[0x30, 6, 0x31, 4, 0x30, 2, 0x06, 0],
            &[0x30, 8, 0x31, 6, 0x30, 4, 0x05, 0, 0x05, 0],
        ];
        for row in rows {
            assert_eq!(text_of(row), None, "{row:02X?}");
        }
    }

    /// A generator of numbers that repeat in each run (xorshift).
    struct Numbers(u64);

    impl Numbers {
        fn below(&mut self, bound: usize) -> usize {
            self.0 ^= self.0 << 13;
            self.0 ^= self.0 >> 7;
            self.0 ^= self.0 << 17;
            usize::try_from(self.0 >> 33).unwrap() % bound
        }

        fn octet(&mut self) -> u8 {
            u8::try_from(self.below(256)).unwrap()
        }
    }

    /// Names with octets changed, cut off or added: none stops the walk, and none gets more than its own line.
    #[test]
    fn damaged_names_are_refused_or_are_one_line() {
        let mut numbers = Numbers(0x9E37_79B9_7F4A_7C15);
        let two = [
            attribute(&[0x55, 4, 11], 0x13, b"Sales"),
            attribute(&[0x55, 4, 3], BMP_STRING, b"\0J\0."),
        ];
        let whole = name(&[&[attribute(&[0x2B, 6, 1], 0x0C, b"net")], &two]);
        let mut read = 0;
        for _ in 0..200_000 {
            let mut octets = whole.clone();
            for _ in 0..numbers.below(4) {
                let at = numbers.below(octets.len());
                octets[at] = numbers.octet();
            }
            if numbers.below(8) == 0 {
                octets.truncate(numbers.below(octets.len()));
            }
            if let Some(text) = text_of(&octets) {
                read += 1;
                assert!(
                    text.bytes()
                        .all(|octet| octet == b' ' || octet.is_ascii_graphic()),
                    "{octets:02X?}"
                );
                assert!(!text.contains([';', '"', '<', '>']), "{octets:02X?}");
            }
        }
        assert!(read > 10_000);
    }
}
