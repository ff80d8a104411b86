"""What callers hand in: octets, lists of them, moments and purposes. A mistake ends in a TypeError or a ValueError that says what is wanted."""

import datetime
import itertools
import operator
import os
import re
import time
from typing import Any, Iterable, List, Optional, Protocol, SupportsIndex, Union

from ._der import arcs_of, contents_of
from ._pem import Encoded, Octets, is_pem
from ._profile import Profile

_EPOCH = datetime.datetime(1970, 1, 1, tzinfo=datetime.timezone.utc)


class HasPublicBytes(Protocol):
    """A certificate, a list or a response of the package cryptography."""

    def public_bytes(self, encoding: Any) -> bytes:
        """Its encoding."""


Value = Union[Octets, Encoded, HasPublicBytes]
Moment = Union[datetime.datetime, SupportsIndex, str]


def octets_of(one: Value, what: str = "octets") -> bytes:
    """The octets of a value: of what was loaded or read, of an object of the package cryptography, or as they are."""
    if isinstance(one, (bytes, bytearray, memoryview, Encoded)):
        return bytes(one)
    if isinstance(one, (str, os.PathLike)):
        raise TypeError(f"{what}: octets are wanted, not the name of a file: x509check.load reads files")
    if not isinstance(one, type) and hasattr(one, "public_bytes"):
        return _public_bytes(one, what)
    raise TypeError(f"{what}: octets are wanted, not {type(one).__name__}")


def der_of(one: Value, what: str = "octets") -> bytes:
    """The same of a value of DER: PEM is a mistake. Whether the octets are DER is for the library to say."""
    octets = octets_of(one, what)
    # 30 is the identifier octet of certificates, lists and responses.
    if octets[:1] != b"\x30" and is_pem(octets):
        raise ValueError(f"{what}: DER is wanted, and this is PEM: x509check.load reads it")
    return octets


def _public_bytes(one: HasPublicBytes, what: str) -> bytes:
    # The package is there where an object of it is.
    from cryptography.hazmat.primitives.serialization import Encoding
    octets = one.public_bytes(Encoding.DER)
    if not isinstance(octets, bytes):
        raise TypeError(f"{what}: public_bytes of {type(one).__name__} answers no octets")
    return octets


def listed(what: str, many: Iterable[Value], most: Optional[int] = None) -> List[Value]:
    """The values, at most as many as that; a single one handed in for all is a mistake, and so is a set, which has no order."""
    is_one = isinstance(many, (bytes, bytearray, memoryview, str, os.PathLike, Encoded)) or hasattr(many, "public_bytes")
    if is_one or isinstance(many, (set, frozenset, dict)):
        raise TypeError(f"{what}: a list is wanted, not {type(many).__name__}")
    try:
        values = iter(many)
    except TypeError:
        raise TypeError(f"{what}: a list is wanted, not {type(many).__name__}") from None
    return list(values if most is None else itertools.islice(values, most))


_ISO = re.compile(r"(\d{4})-(\d\d)-(\d\d)[T ](\d\d):(\d\d)(?::(\d\d)(?:\.\d+)?)?(?:Z|([+-])(\d\d):(\d\d))", re.ASCII)
_PLAIN = re.compile(r"(\d{4})(\d\d)(\d\d)(\d\d)(\d\d)(\d\d)Z", re.ASCII)


def _written(text: str) -> datetime.datetime:
    """A moment as it is written: YYYYMMDDHHMMSSZ, or ISO 8601 with a zone."""
    plain, iso = _PLAIN.fullmatch(text), _ISO.fullmatch(text)
    found = plain or iso
    if found is None:
        raise ValueError(f"{text!r} is no moment: YYYYMMDDHHMMSSZ, ISO 8601 with a zone, or now")
    zone = datetime.timezone.utc
    if iso and iso[7]:
        shift = datetime.timedelta(hours=int(iso[8]), minutes=int(iso[9]))
        zone = datetime.timezone(shift if iso[7] == "+" else -shift)
    year, month, day, hour, minute, second = (int(part or 0) for part in found.groups()[:6])
    return datetime.datetime(year, month, day, hour, minute, second, tzinfo=zone)


def seconds_of(at: Moment) -> int:
    """The moment in seconds from 1970-01-01T00:00:00Z, fractions cut off."""
    if isinstance(at, str):
        return int(time.time()) if at == "now" else seconds_of(_written(at))
    if isinstance(at, datetime.datetime):
        if at.utcoffset() is None:
            raise ValueError("the moment has no time zone")
        return (at - _EPOCH) // datetime.timedelta(seconds=1)
    if isinstance(at, bool) or not hasattr(at, "__index__"):
        raise TypeError(f"the moment: an int of seconds or a datetime with a zone is wanted, not {type(at).__name__}")
    seconds = operator.index(at)
    if not -2**63 <= seconds < 2**63:
        raise ValueError("the moment is out of range")
    return seconds


def moment_text(at: Moment) -> str:
    """The moment as the program takes it (docs/REFERENCE.md, "Moments, purposes ..")."""
    try:
        when = _EPOCH + datetime.timedelta(seconds=seconds_of(at))
    except OverflowError:
        raise ValueError("the moment is out of range: the years 1 to 9999 are wanted") from None
    return f"{when.year:04}{when:%m%d%H%M%S}Z"


# Of RFC 5280, 4.2.1.12, and RFC 6960, 4.2.2.2.
PURPOSES = {
    "serverAuth": "1.3.6.1.5.5.7.3.1",
    "clientAuth": "1.3.6.1.5.5.7.3.2",
    "codeSigning": "1.3.6.1.5.5.7.3.3",
    "emailProtection": "1.3.6.1.5.5.7.3.4",
    "timeStamping": "1.3.6.1.5.5.7.3.8",
    "OCSPSigning": "1.3.6.1.5.5.7.3.9",
}


def dotted_purpose(text: str) -> str:
    """The object identifier of a purpose, which is named or written in dotted form."""
    if not isinstance(text, str):
        raise TypeError(f"the purpose: the name of one or a dotted object identifier is wanted, not {type(text).__name__}")
    if text == "anyExtendedKeyUsage":
        raise ValueError("anyExtendedKeyUsage is no purpose to ask for; leave the purpose out to ask for none")
    dotted = PURPOSES.get(text, text)
    try:
        _want_identifier(dotted)
    except ValueError:
        raise ValueError(f"{text!r} is no purpose: one of {', '.join(PURPOSES)}, or a dotted object identifier") from None
    return dotted


def _want_identifier(dotted: str) -> None:
    """Raises ValueError unless the text is an object identifier as the program takes it (docs/REFERENCE.md, "Moments, purposes ..")."""
    first, second, *others = arcs_of(dotted)
    if max(40 * first + second, *others, 0) >= 2**63:
        raise ValueError("a number that the program does not take")


def purpose_of(text: Optional[str]) -> bytes:
    """The contents of the OBJECT IDENTIFIER of a purpose (X.690, 8.19). Of None there are no octets, which asks for none."""
    if text is None:
        return b""
    return contents_of(dotted_purpose(text))


def is_wide(profile: Profile) -> bool:
    """Whether the profile is the wide one."""
    if not isinstance(profile, Profile):
        raise TypeError(f"profile: a Profile is wanted, not {type(profile).__name__}")
    return profile is Profile.WIDE


# anyPolicy (RFC 5280, 4.2.1.4).
ANY_POLICY = "2.5.29.32.0"


def policies_of(what: str, policies: Optional[Iterable[str]]) -> List[bytes]:
    """The contents of the OBJECT IDENTIFIERs of policies in dotted form. None stands for every policy, and no policies stand for none."""
    if policies is None:
        return [contents_of(ANY_POLICY)]
    if isinstance(policies, (str, bytes, bytearray, memoryview, dict)) or not isinstance(policies, Iterable):
        raise TypeError(f"{what}: a list of dotted object identifiers or None is wanted, not {type(policies).__name__}")
    return [_policy(what, one) for one in policies]


def _policy(what: str, dotted: str) -> bytes:
    if not isinstance(dotted, str):
        raise TypeError(f"{what}: a dotted object identifier is wanted, not {type(dotted).__name__}")
    try:
        return contents_of(dotted)
    except ValueError as cause:
        raise ValueError(f"{what}: {cause}") from None
