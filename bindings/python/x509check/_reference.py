"""Whom a certificate speaks for (RFC 9525; RFC 5280, 7.5)."""

import enum
import ipaddress
from typing import Optional, Tuple, Union

from ._faults import refusal
from ._library import LibraryMissing, library
from ._pem import Loaded

Reference = Union[str, ipaddress.IPv4Address, ipaddress.IPv6Address]
"""A host by its DNS name, an IP address, or a mailbox."""

# What the numbers of x509check_speaks_for mean (x509check.h).
_HOST, _ADDRESS, _MAILBOX = 1, 2, 3
_SPEAKS, _DOES_NOT_SPEAK, _IDENTITY_REFUSED, _CERTIFICATE_REFUSED = 1, 2, 3, 4


class ReferenceRule(enum.IntEnum):
    """Why a text is no host, address or mailbox."""

    HOST_OCTET = 1
    """An octet other than a letter, a digit, `-`, `_` and `.`: a name of other letters is written in A-labels (RFC 5890)."""
    LABEL = 2
    """A label that is empty or longer than 63 octets."""
    LENGTH = 3
    """A host of more than 253 octets."""
    NUMBER = 4
    """A host whose last label is a number."""
    ADDRESS = 5
    LOCAL_PART = 6
    NO_HOST = 7
    """A mailbox with no `@` and no host behind it."""


class BadReference(ValueError):
    """A text that is no host, address or mailbox: the rule that it breaks, and the offset of the octet at which it does."""

    def __init__(self, reference: str, rule: ReferenceRule, offset: int):
        self.reference = reference
        self.rule = rule
        self.offset = offset
        super().__init__(f"{reference!r} is no reference identity: {rule.name} at {offset}")

    def __reduce__(self) -> Tuple[object, ...]:
        return type(self), (self.reference, self.rule, self.offset)


def _address(text: str) -> Optional[bytes]:
    """The octets of an address that is written as text, if it is; one with a zone is none."""
    try:
        return ipaddress.ip_address(text).packed if "%" not in text else None
    except ValueError:
        return None


def _kind_and_octets(reference: Reference) -> Tuple[int, bytes]:
    if isinstance(reference, (ipaddress.IPv4Address, ipaddress.IPv6Address)):
        return _ADDRESS, reference.packed
    if not isinstance(reference, str):
        raise TypeError(f"a reference identity is a str or an address of ipaddress, and not {type(reference).__name__}")
    octets = reference.encode("utf-8", "surrogatepass")
    if "@" in reference:
        return _MAILBOX, octets
    address = _address(reference)
    return (_HOST, octets) if address is None else (_ADDRESS, address)


def speaks_for(certificate: bytes, reference: Reference, origin: Optional[Loaded] = None) -> bool:
    """As `Certificate.speaks_for` says, of the octets of a certificate."""
    kind, octets = _kind_and_octets(reference)
    answer = library().x509check_speaks_for(certificate, len(certificate), kind, octets, len(octets))
    if answer.speaks == _SPEAKS:
        return True
    if answer.speaks == _DOES_NOT_SPEAK:
        return False
    if answer.speaks == _IDENTITY_REFUSED:
        raise BadReference(str(reference), ReferenceRule(answer.fault), answer.offset)
    if answer.speaks == _CERTIFICATE_REFUSED:
        raise refusal(answer.fault, answer.offset, answer.der_fault, origin=origin)
    raise LibraryMissing(f"x509check_speaks_for answered {answer.speaks}: the library is of another version than this module")
