//! DER values inside octets that the library has read before (X.690).

pub(crate) const OBJECT_IDENTIFIER: u8 = 0x06;
pub(crate) const SEQUENCE: u8 = 0x30;
pub(crate) const SET: u8 = 0x31;
/// ENUMERATED, with which an OCSP response begins (RFC 6960, 4.2.1).
const ENUMERATED: u8 = 0x0A;
const GENERALIZED_TIME: u8 = 0x18;
/// The identifier octet of `revoked`, of CertStatus.
const REVOKED: u8 = 0xA1;

/// A value of DER.
pub(crate) struct Value<'a> {
    pub identifier: u8,
    pub contents: &'a [u8],
    pub octets: &'a [u8],
}

/// The contents of the length octets, and how many octets they are (X.690, 8.1.3 and 10.1).
fn length_in(octets: &[u8]) -> Option<(usize, usize)> {
    let first = usize::from(*octets.first()?);
    if first < 0x80 {
        return Some((first, 1));
    }
    let count = first - 0x80;
    let digits = octets.get(1..1 + count)?;
    if !(1..=4).contains(&count) || digits[0] == 0 {
        return None;
    }
    let length = digits
        .iter()
        .fold(0, |sum, digit| sum << 8 | usize::from(*digit));
    (length >= 0x80).then_some((length, 1 + count))
}

/// The value with which the octets begin, and the octets behind it.
pub(crate) fn first_value(octets: &[u8]) -> Option<(Value<'_>, &[u8])> {
    let identifier = *octets.first()?;
    if identifier & 0x1F == 0x1F {
        return None;
    }
    let (length, count) = length_in(&octets[1..])?;
    let end = (1 + count).checked_add(length)?;
    let value = Value {
        identifier,
        contents: octets.get(1 + count..end)?,
        octets: &octets[..end],
    };
    Some((value, &octets[end..]))
}

/// The values of the octets, one behind the other to the end.
pub(crate) fn values(mut octets: &[u8]) -> Option<Vec<Value<'_>>> {
    let mut found = Vec::new();
    while !octets.is_empty() {
        let (value, behind) = first_value(octets)?;
        found.push(value);
        octets = behind;
    }
    Some(found)
}

/// The values inside a value with this identifier.
pub(crate) fn inside<'a>(value: &Value<'a>, identifier: u8) -> Option<Vec<Value<'a>>> {
    if value.identifier == identifier {
        values(value.contents)
    } else {
        None
    }
}

/// Whether a statement is a response: the first value inside says so.
pub(crate) fn is_response(statement: &[u8]) -> bool {
    let first = first_value(statement).and_then(|(outer, _)| first_value(outer.contents));
    first.is_some_and(|(value, _)| value.identifier == ENUMERATED)
}

/// The offset of the signed part of a statement: of tbsCertList, with which a list begins (RFC 5280, 5.1), or of the tbsResponseData of a
/// response (RFC 6960, 4.2.1).
pub(crate) fn signed_part(statement: &[u8]) -> Option<usize> {
    let (outer, _) = first_value(statement)?;
    let contents = match is_response(statement) {
        false => outer.contents,
        true => basic_response(outer.contents)?,
    };
    // (what is behind them ends the statement)
    Some(statement.len() - contents.len())
}

/// The contents of the BasicOCSPResponse, which stands at the end of the contents of a response.
fn basic_response(contents: &[u8]) -> Option<&[u8]> {
    let (_status, behind) = first_value(contents)?;
    let (tagged, _) = first_value(behind)?;
    let (bytes, _) = first_value(tagged.contents)?;
    let (_kind, behind) = first_value(bytes.contents)?;
    let (string, _) = first_value(behind)?;
    let (basic, _) = first_value(string.contents)?;
    Some(basic.contents)
}

/// A single response (RFC 6960, 4.2.1).
pub(crate) struct Single<'a> {
    pub serial: &'a [u8],
    /// thisUpdate and producedAt, each YYYYMMDDHHMMSSZ.
    pub times: (&'a [u8], &'a [u8]),
    pub is_revoked: bool,
}

/// The single responses of a response that the library has read; none of a list.
pub(crate) fn singles(statement: &[u8]) -> Vec<Single<'_>> {
    single_responses(statement).unwrap_or_default()
}

fn single_responses(statement: &[u8]) -> Option<Vec<Single<'_>>> {
    if !is_response(statement) {
        return None;
    }
    let (outer, _) = first_value(statement)?;
    let (data, _) = first_value(basic_response(outer.contents)?)?;
    let parts = inside(&data, SEQUENCE)?;
    let of = |identifier| parts.iter().find(|it| it.identifier == identifier);
    let produced_at = of(GENERALIZED_TIME)?.contents;
    let responses = inside(of(SEQUENCE)?, SEQUENCE)?;
    responses
        .iter()
        .map(|it| single_in(it, produced_at))
        .collect()
}

fn single_in<'a>(single: &Value<'a>, produced_at: &'a [u8]) -> Option<Single<'a>> {
    let parts = inside(single, SEQUENCE)?;
    let (id, status, this_update) = (parts.first()?, parts.get(1)?, parts.get(2)?);
    Some(Single {
        serial: inside(id, SEQUENCE)?.get(3)?.contents,
        times: (this_update.contents, produced_at),
        is_revoked: status.identifier == REVOKED,
    })
}
