"""Until when a statement counts, and in which order: times and numbers of lists and of responses, of which the program or the library has
taken or read the octets.

What is read here says when to ask again, and what to ask about a second time, and nothing of what is believed: that the store or the library
says by itself.
"""

import calendar
import re
import time
from typing import List, NamedTuple, Optional, Tuple

from ._der import OBJECT_IDENTIFIER, SEQUENCE, Value, contents_of, first_identifier, value

_INTEGER, _UTC_TIME, _GENERALIZED_TIME, _OCTET_STRING = 0x02, 0x17, 0x18, 0x04
_EXPLICIT_0, _EXPLICIT_1 = 0xA0, 0xA1
# The identifier octet of responseStatus, the first value in a response (RFC 6960, 4.2.1); a list begins with a SEQUENCE.
_ENUMERATED = 0x0A
_CRL_NUMBER = contents_of("2.5.29.20")
# Without nextUpdate a response counts so long (docs/REFERENCE.md, "Profile").
_DAY = 86_400


def seconds_of_time(it: Value) -> int:
    """The seconds from 1970-01-01T00:00:00Z of a UTCTime or GeneralizedTime to the second (RFC 5280, 4.1.2.5)."""
    text = bytes(it.contents).decode("ascii", "replace")
    if it.identifier == _UTC_TIME:
        text = ("19" if text[:2] >= "50" else "20") + text
    elif it.identifier != _GENERALIZED_TIME:
        raise ValueError(f"a value {it.identifier:02x} where a time is wanted")
    if not re.fullmatch("[0-9]{14}Z", text):
        raise ValueError(f"{text!r} is no time")
    return calendar.timegm(time.strptime(text, "%Y%m%d%H%M%SZ"))


def _octets(it: bytes) -> Value:
    # A view, so that the entries of a long list are not copied.
    return value(memoryview(it))  # type: ignore[arg-type]


def _first(it: Value, most: int) -> Value:
    """The first of the values inside."""
    found = it.as_a(SEQUENCE).members(most)
    if not found:
        raise ValueError("nothing where a value is wanted")
    return found[0]


def list_until(octets: bytes) -> int:
    """nextUpdate of a revocation list (RFC 5280, 5.1.2.5). Raises ValueError if it cannot be read."""
    return list_window(octets)[1]


def list_window(octets: bytes) -> Tuple[int, int]:
    """thisUpdate and nextUpdate of a revocation list (RFC 5280, 5.1.2.4 and 5.1.2.5). Raises ValueError if they cannot be read."""
    signed = _first(_octets(octets), 3).as_a(SEQUENCE).members()
    if signed[:1] and signed[0].identifier == _INTEGER:
        del signed[0]
    # signature, issuer, thisUpdate, nextUpdate
    if len(signed) < 4:
        raise ValueError("a list without nextUpdate")
    return seconds_of_time(signed[2]), seconds_of_time(signed[3])


def list_issuer_and_number(octets: bytes) -> Tuple[bytes, int]:
    """The issuer's name, whole, and the CRL number of a revocation list (RFC 5280, 5.1.2.3 and 5.2.3). Raises ValueError if they cannot be
    read."""
    signed = _first(_octets(octets), 3).as_a(SEQUENCE).members()
    # version (in lists of version 2, which have numbers), signature, issuer
    version, _, issuer, *others = signed
    version.as_a(_INTEGER)
    for it in others:
        for extension in it.only_member().as_a(SEQUENCE).members() if it.identifier == _EXPLICIT_0 else ():
            name, *_, contents = extension.as_a(SEQUENCE).members(3)
            if bytes(name.as_a(OBJECT_IDENTIFIER).contents) == _CRL_NUMBER:
                number = value(bytes(contents.as_a(_OCTET_STRING).contents)).as_a(_INTEGER).contents
                return bytes(issuer.whole), int.from_bytes(number, "big")
    raise ValueError("a list without a number")


def is_response(octets: bytes) -> bool:
    """Whether octets are meant as a response and not as a list: by their first value inside, as the program's `deliver` says."""
    return first_identifier(octets) == _ENUMERATED


def _basic(octets: bytes) -> Value:
    """The BasicOCSPResponse of a response."""
    _, wrapped = _octets(octets).as_a(SEQUENCE).members(2)
    _, inner = wrapped.only_member().as_a(SEQUENCE).members(2)
    return value(inner.as_a(_OCTET_STRING).contents)


def response_signed(octets: bytes) -> Optional[bytes]:
    """What the responder of a response signed; None of a list. Raises ValueError if it cannot be read."""
    return bytes(_first(_basic(octets), 4).whole) if is_response(octets) else None


class Single(NamedTuple):
    """A single response (RFC 6960, 4.2.1)."""

    serial: bytes
    times: Tuple[bytes, bytes]
    """thisUpdate and producedAt."""
    is_revoked: bool


def singles_in(octets: bytes) -> List[Single]:
    """The single responses of a response. Raises ValueError if it cannot be read."""
    parts = _first(_basic(octets), 4).as_a(SEQUENCE).members(5)
    produced = [bytes(it.contents) for it in parts if it.identifier == _GENERALIZED_TIME]
    singles = [it for it in parts if it.identifier == SEQUENCE]
    if len(produced) != 1 or len(singles) != 1:
        raise ValueError("a response without its time or its single responses")
    found = []
    for single in singles[0].members():
        identifier, status, this_update, *_ = single.as_a(SEQUENCE).members(5)
        serial = bytes(identifier.as_a(SEQUENCE).members(4)[3].contents)
        found.append(Single(serial, (bytes(this_update.contents), produced[0]), status.identifier == _EXPLICIT_1))
    return found


def _single_until(single: Value, serial: bytes) -> Optional[int]:
    """Until when a single response counts, if it is about that certificate: certID, certStatus, thisUpdate, nextUpdate [0]."""
    identifier, _, this_update, *rest = single.as_a(SEQUENCE).members(5)
    _, _, _, number = identifier.as_a(SEQUENCE).members(4)
    if bytes(number.contents) != serial:
        return None
    following = [seconds_of_time(it.only_member()) for it in rest if it.identifier == _EXPLICIT_0]
    return following[0] if following else seconds_of_time(this_update) + _DAY


def response_until(octets: bytes, serial: bytes) -> Optional[int]:
    """The first moment at which what an OCSP response says of a certificate counts no more (RFC 6960, 4.2.2.1); None if it says nothing
    of the serial number. Raises ValueError if it cannot be read."""
    basic = _first(_basic(octets), 4).as_a(SEQUENCE)
    singles: List[Value] = [it for it in basic.members(4) if it.identifier == SEQUENCE]
    if len(singles) != 1:
        raise ValueError("a response without its single responses")
    found = [until for until in (_single_until(it, serial) for it in singles[0].members()) if until is not None]
    return min(found, default=None)
