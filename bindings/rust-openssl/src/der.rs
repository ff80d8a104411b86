//! DER values inside octets (X.690). The proved reader looks at the octets first; this walk takes them apart.

/// Why nobody here can tell whether a signature is good.
#[derive(Clone, Debug, PartialEq, Eq)]
pub(crate) struct NotServed(pub String);

/// What is read, or why it is not served.
pub(crate) type Served<T> = Result<T, NotServed>;

/// The error that says so.
pub(crate) fn not_served<T>(why: &str) -> Served<T> {
    Err(NotServed(why.into()))
}

pub(crate) const INTEGER: u8 = 0x02;
pub(crate) const BIT_STRING: u8 = 0x03;
pub(crate) const NULL: &[u8] = &[0x05, 0x00];
pub(crate) const OBJECT_IDENTIFIER: u8 = 0x06;
pub(crate) const SEQUENCE: u8 = 0x30;

/// A value: its identifier octet, its contents, and its whole encoding.
#[derive(Clone, Copy, Debug)]
pub(crate) struct Value<'a> {
    pub identifier: u8,
    pub contents: &'a [u8],
    pub whole: &'a [u8],
}

/// The one value that the octets are the encoding of.
pub(crate) fn value(octets: &[u8]) -> Served<Value<'_>> {
    if let Err(error) = x509check::check(octets) {
        return not_served(&error.to_string());
    }
    first(octets).map_or_else(|| not_served("no DER value"), |(value, _)| Ok(value))
}

/// The value with which octets begin that were checked before, and the octets behind it.
fn first(octets: &[u8]) -> Option<(Value<'_>, &[u8])> {
    let (identifier, length) = (*octets.first()?, usize::from(*octets.get(1)?));
    let (begin, length) = if length < 0x80 {
        (2, length)
    } else {
        let digits = octets.get(2..2 + length - 0x80)?;
        let number = digits.iter().try_fold(0usize, |sum, digit| {
            Some(sum.checked_mul(256)? + usize::from(*digit))
        });
        (2 + digits.len(), number?)
    };
    let end = begin.checked_add(length)?;
    let value = Value {
        identifier,
        contents: octets.get(begin..end)?,
        whole: &octets[..end],
    };
    Some((value, &octets[end..]))
}

impl<'a> Value<'a> {
    /// The value itself, if it has this identifier.
    pub(crate) fn as_a(self, identifier: u8) -> Served<Value<'a>> {
        if self.identifier == identifier {
            Ok(self)
        } else {
            not_served(&format!(
                "a value {:02x} where {identifier:02x} is wanted",
                self.identifier
            ))
        }
    }

    /// The values inside a constructed value, of which there may be so many.
    pub(crate) fn members(self, most: usize) -> Served<Vec<Value<'a>>> {
        if self.identifier & 0x20 == 0 {
            return not_served("a primitive value where values inside are wanted");
        }
        let (mut found, mut left) = (Vec::new(), self.contents);
        while !left.is_empty() {
            match first(left) {
                Some((value, behind)) if found.len() < most => {
                    found.push(value);
                    left = behind;
                }
                _ => return not_served(&format!("more than {most} values")),
            }
        }
        Ok(found)
    }

    /// The one value inside, as explicit tagging has it.
    pub(crate) fn only_member(self) -> Served<Value<'a>> {
        match self.members(1)?.first() {
            Some(value) => Ok(*value),
            None => not_served("nothing where a value is wanted"),
        }
    }

    /// The digits of an INTEGER that is not negative, the highest octet first, without zeros in front (8.3).
    pub(crate) fn unsigned(self) -> Served<&'a [u8]> {
        match self.as_a(INTEGER)?.contents {
            [0, digits @ ..] => Ok(digits),
            digits @ [0x01..=0x7F, ..] => Ok(digits),
            _ => not_served("no number from 0 on"),
        }
    }

    /// The octets of a BIT STRING that has no unused bits (8.6).
    pub(crate) fn whole_octets(self) -> Served<&'a [u8]> {
        match self.as_a(BIT_STRING)?.contents {
            [0, octets @ ..] => Ok(octets),
            _ => not_served("bits that are not whole octets"),
        }
    }
}

/// The number of these digits, or the greatest if it is greater.
pub(crate) fn number(digits: &[u8]) -> usize {
    digits.iter().fold(0, |sum: usize, digit| {
        sum.saturating_mul(256).saturating_add(usize::from(*digit))
    })
}

/// How many bits the number of these digits has.
pub(crate) fn bit_length(digits: &[u8]) -> usize {
    digits
        .first()
        .map_or(0, |first| 8 * digits.len() - first.leading_zeros() as usize)
}
