"""What a store says that it holds: the lines of `list` (docs/REFERENCE.md, "list")."""

import calendar
import hashlib
import re
from typing import NamedTuple, Optional, Sequence, Tuple

from ._certificates import Certificate

_DAYS_OF_400_YEARS = 146_097
_MOMENT = "(?:[0-9]{14}Z|-?[0-9]+)"
_STATE = "(?: (?:not-yet|current|lapsed))?"
_LIST = re.compile(
    f"crl ([0-9a-f]{{64}}|-) (all|user|ca)(?: point [ -~]+?)? number ([0-9a-f]+) from ({_MOMENT}) until ({_MOMENT}) entries ([0-9]+){_STATE}")
_RESPONSE = re.compile(
    f"ocsp ([0-9a-f]{{64}}|-) ([0-9a-f]*) serial ([0-9a-f]+) this ({_MOMENT}) produced ({_MOMENT}) from ({_MOMENT}) until ({_MOMENT}) "
    f"(good|revoked [0-9]+|unknown){_STATE}")


def key_of(issuer: Certificate) -> str:
    """The SHA-256 of its subjectPublicKeyInfo, in hexadecimal digits, by which a listing names an issuer."""
    return hashlib.sha256(issuer.subject_public_key_info).hexdigest()


class HeldList(NamedTuple):
    """A revocation list that a store holds, without its entries."""

    issuer: Optional[str]
    """Whose, as `key_of` says; None if the listing has no such issuer."""
    scope: str
    number: int
    since: int
    until: int
    """thisUpdate and nextUpdate, in seconds from 1970-01-01T00:00:00Z."""
    entries: int


class HeldResponse(NamedTuple):
    """What a response that a store holds says of one certificate."""

    issuer: Optional[str]
    serial: bytes
    """The contents of its serial number."""
    since: int
    until: int
    status: str
    """`good`, `unknown`, or `revoked` and the number of the reason."""


class Listing(NamedTuple):
    """All that a store holds."""

    lists: Tuple[HeldList, ...]
    responses: Tuple[HeldResponse, ...]

    def of_issuer(self, key: str) -> "Listing":
        """What of it is of an issuer, as `key_of` says, or of nobody knows whom."""
        return Listing(tuple(one for one in self.lists if one.issuer in (None, key)),
                       tuple(one for one in self.responses if one.issuer in (None, key)))


def is_line(line: str) -> bool:
    """Whether it is a line of a listing."""
    return (_LIST.fullmatch(line) or _RESPONSE.fullmatch(line)) is not None


def _seconds(text: str) -> int:
    if not text.endswith("Z"):
        return int(text)
    year, *rest = int(text[:4]), *(int(text[at:at + 2]) for at in range(4, 14, 2))
    if year > 0:
        return calendar.timegm((year, *rest))
    return calendar.timegm((400, *rest)) - _DAYS_OF_400_YEARS * 86_400    # (Python's calendar begins with the year 1)


def _issuer(text: str) -> Optional[str]:
    return None if text == "-" else text


def listing_in(lines: Sequence[str]) -> Listing:
    """What the lines say. Raises ValueError for one that is none of a listing."""
    lists, responses = [], []
    for line in lines:
        found = _LIST.fullmatch(line)
        if found:
            issuer, scope, number, since, until, entries = found.groups()
            lists.append(HeldList(_issuer(issuer), scope, int(number, 16), _seconds(since), _seconds(until), int(entries)))
            continue
        found = _RESPONSE.fullmatch(line)
        if not found:
            raise ValueError(f"no line of a listing: {line[:80]!r}")
        issuer, _, serial, _, _, since, until, status = found.groups()
        responses.append(HeldResponse(_issuer(issuer), bytes.fromhex(serial), _seconds(since), _seconds(until), status))
    return Listing(tuple(lists), tuple(responses))
