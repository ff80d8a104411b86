"""DER values inside octets that the library has read: algorithm identifiers, keys, names (X.690).

Whoever calls holds octets in which the proved readers found these values. This reader is strict all the same: what it cannot take
apart as definite lengths in their shortest form raises ValueError. It takes time in proportion to the octets.
"""

import re
from typing import List, NamedTuple, Optional

INTEGER, BIT_STRING, NULL, OBJECT_IDENTIFIER = 0x02, 0x03, 0x05, 0x06
SEQUENCE, SET = 0x30, 0x31
# An arc of an OBJECT IDENTIFIER has at most so many octets here: the time for a number grows faster than its octets.
_ARC_MOST = 512
_ARC, _ARC_DIGITS = re.compile("0|[1-9][0-9]*"), len(str(1 << 7 * _ARC_MOST))


class Value(NamedTuple):
    """A value: its identifier octet, its contents, and its whole encoding."""

    identifier: int
    contents: bytes
    whole: bytes

    def members(self, most: Optional[int] = None) -> List["Value"]:
        """The values inside a constructed value, of which there may be so many."""
        if not self.identifier & 0x20:
            raise ValueError(f"a primitive value {self.identifier:02x} where values inside are wanted")
        return values(self.contents, most)

    def as_a(self, identifier: int) -> "Value":
        """The value itself, if it has this identifier."""
        if self.identifier != identifier:
            raise ValueError(f"a value {self.identifier:02x} where {identifier:02x} is wanted")
        return self

    def only_member(self) -> "Value":
        """The one value inside, as explicit tagging has it."""
        found = self.members(1)
        if not found:
            raise ValueError("nothing where a value is wanted")
        return found[0]

    def unsigned(self) -> int:
        """The number of an INTEGER that is not negative (8.3)."""
        octets = self.as_a(INTEGER).contents
        if not octets or octets[0] >= 0x80:
            raise ValueError("no number from 0 on")
        if octets[0] == 0 and len(octets) > 1 and octets[1] < 0x80:
            raise ValueError("a number with a zero octet too many")
        return int.from_bytes(octets, "big")

    def whole_octets(self) -> bytes:
        """The octets of a BIT STRING that has no unused bits (8.6)."""
        octets = self.as_a(BIT_STRING).contents
        if octets[:1] != b"\0":
            raise ValueError("bits that are not whole octets")
        return octets[1:]


def _at(octets: bytes, at: int) -> Value:
    """The value at an offset."""
    if len(octets) - at < 2 or octets[at] & 0x1F == 0x1F:
        raise ValueError("no DER value")
    begin, length = at + 2, octets[at + 1]
    if length >= 0x80:
        digits = octets[begin:begin + length - 0x80]
        begin += length - 0x80
        length = int.from_bytes(digits, "big")
        if begin > len(octets) or digits[:1] in (b"", b"\0") or length < 0x80:
            raise ValueError("a length that DER does not have")
    end = begin + length
    if end > len(octets):
        raise ValueError("a value that is cut short")
    return Value(octets[at], octets[begin:end], octets[at:end])


def values(octets: bytes, most: Optional[int] = None) -> List[Value]:
    """The values that the octets are, one behind the other. With `most`, a reader that wants few takes no memory for many."""
    found: List[Value] = []
    at = 0
    while at < len(octets):
        if most is not None and len(found) == most:
            raise ValueError(f"more than {most} values")
        found.append(_at(octets, at))
        at += len(found[-1].whole)
    return found


def value(octets: bytes) -> Value:
    """The one value that the octets are."""
    found = _at(octets, 0)
    if len(found.whole) != len(octets):
        raise ValueError("octets behind a value")
    return found


def first_identifier(octets: bytes) -> Optional[int]:
    """The identifier octet of the first value inside the value that the octets begin with, if there is one. Nothing else is looked at."""
    if len(octets) < 2:
        return None
    begin = 2 + (octets[1] - 0x80 if octets[1] >= 0x80 else 0)
    return octets[begin] if begin < len(octets) else None


def encoded(identifier: int, *parts: bytes) -> bytes:
    """The value with this identifier octet and these contents."""
    contents = b"".join(parts)
    if len(contents) < 0x80:
        return bytes([identifier, len(contents)]) + contents
    digits = len(contents).to_bytes((len(contents).bit_length() + 7) // 8, "big")
    return bytes([identifier, 0x80 | len(digits)]) + digits + contents


def dotted(contents: bytes) -> str:
    """The dotted form of the contents of an OBJECT IDENTIFIER (8.19)."""
    arcs: List[int] = []
    arc, begun = 0, 0
    for at, octet in enumerate(contents):
        if at == begun and octet == 0x80:
            raise ValueError("an arc that begins with zeros")
        if at - begun >= _ARC_MOST:
            raise ValueError(f"an arc of more than {_ARC_MOST} octets")
        arc = arc << 7 | octet & 0x7F
        if octet < 0x80:
            arcs.append(arc)
            arc, begun = 0, at + 1
    if not contents or contents[-1] >= 0x80:
        raise ValueError("an object identifier that is cut short")
    first = min(arcs[0] // 40, 2)
    return ".".join(str(arc) for arc in (first, arcs[0] - 40 * first, *arcs[1:]))


def arcs_of(text: str) -> List[int]:
    """The numbers of the OBJECT IDENTIFIER with this dotted form (8.19): two or more, the first 0, 1 or 2, and the second below 40 unless the
    first is 2. Each is written in digits of ASCII, without a zero in front."""
    words = text.split(".")
    if len(words) < 2 or not all(_ARC.fullmatch(word) and len(word) <= _ARC_DIGITS for word in words):
        raise ValueError(f"{text!r} is no object identifier")
    arcs = [int(word) for word in words]
    if arcs[0] > 2 or arcs[0] < 2 and arcs[1] > 39 or max(40 * arcs[0] + arcs[1], *arcs[2:], 0) >= 1 << 7 * _ARC_MOST:
        raise ValueError(f"{text!r} is no object identifier")
    return arcs


def contents_of(text: str) -> bytes:
    """The contents of the OBJECT IDENTIFIER with this dotted form (8.19), which `dotted` makes of them again."""
    first, second, *others = arcs_of(text)
    octets = bytearray()
    for arc in (first * 40 + second, *others):
        groups = [arc & 0x7F]
        while arc := arc >> 7:
            groups.append(arc & 0x7F | 0x80)
        octets += bytes(reversed(groups))
    return bytes(octets)
