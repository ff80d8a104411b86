"""Names as text (RFC 4514), and whom an answer is about."""

import dataclasses

from ._der import SEQUENCE, SET, Value, dotted, value

# RFC 4514, 3, and the attributes beside them that certificates have.
_SHORT = {
    "2.5.4.3": "CN", "2.5.4.6": "C", "2.5.4.7": "L", "2.5.4.8": "ST", "2.5.4.9": "STREET", "2.5.4.10": "O", "2.5.4.11": "OU",
    "0.9.2342.19200300.100.1.1": "UID", "0.9.2342.19200300.100.1.25": "DC", "1.2.840.113549.1.9.1": "emailAddress",
    "2.5.4.5": "serialNumber",
}
# The most octets of a type of an attribute that is written in dotted form.
_LONG = 64
# What the program shows as it is, and RFC 4514 escapes.
_SEPARATING = '",;<>'
# UTF8String, NumericString, PrintableString, TeletexString, IA5String, VisibleString: their octets are the text, mostly of ASCII. Values of
# other types are written in hexadecimal.
_TEXTS = (0x0C, 0x12, 0x13, 0x14, 0x16, 0x1A)


def _octet(text: bytes, at: int) -> str:
    """An octet of a text. What is no printable ASCII is escaped, and a space that could be missed."""
    one = text[at:at + 1]
    if one in b'"+,;<=>\\':
        return "\\" + one.decode("ascii")
    is_plain = 0x20 < one[0] < 0x7F and not (at == 0 and one == b"#")
    if is_plain or one == b" " and 0 < at < len(text) - 1 and text[at - 1:at] != b" ":
        return one.decode("ascii")
    return f"\\{one[0]:02X}"


def _type(contents: bytes) -> str:
    """The type of an attribute. One that is too long to be read is in hexadecimal."""
    if len(contents) > _LONG:
        return "#" + contents.hex()
    oid = dotted(contents)
    return _SHORT.get(oid, oid)


def _attribute(attribute: Value) -> str:
    kind, text = attribute.as_a(SEQUENCE).members()
    shown = "".join(_octet(text.contents, at) for at in range(len(text.contents))) if text.identifier in _TEXTS else "#" + text.whole.hex()
    return f"{_type(kind.contents)}={shown}"


def name_text(name: bytes) -> str:
    """The text of a Name, the whole encoding, that the library has read: the last RDN first, as RFC 4514 has it.

    It is printable ASCII on one line, with no `"` and no `,` but those behind a backslash and between RDNs.
    """
    rdns = value(name).as_a(SEQUENCE).members()
    return ",".join("+".join(_attribute(one) for one in rdn.as_a(SET).members()) for rdn in reversed(rdns))


def name_from_shown(shown: str) -> str:
    """The text of a name that the program shows (docs/REFERENCE.md, "show"), in the order and with the words of `name_text`. What the program
    escapes stays so; RFC 4514 reads it alike."""
    def attribute(text: str) -> str:
        oid, _, value = text.partition("=")
        return f"{_SHORT.get(oid, oid)}={''.join(chr(92) + one if one in _SEPARATING else one for one in value)}"
    if shown == "-":
        return ""
    return ",".join("+".join(map(attribute, rdn.split("+"))) for rdn in reversed(shown.split("/")[1:]))


@dataclasses.dataclass(frozen=True)
class Identity:
    """Which certificate an answer is about."""

    subject: str
    """The name as text (RFC 4514), printable ASCII; what is not is escaped. It may be empty, and anybody may have chosen it."""
    serial: str
    """The contents of the serial number, in hexadecimal."""
    sha256: str
    """The SHA-256 of the whole certificate, in hexadecimal, as `openssl x509 -fingerprint -sha256` prints it with colons."""

    def __str__(self) -> str:
        return f'"{self.subject}" serial {self.serial} sha256 {self.sha256}'


# All octets but digits and small letters.
_NO_WORDS = bytes(octet for octet in range(256) if octet not in b"0123456789abcdefghijklmnopqrstuvwxyz")


def coarse_name(name: bytes) -> object:
    """The same of two names (whole encodings) if the library takes them for one name, and of some others: their attributes without what it
    folds or passes over. Raises ValueError for octets that are no name."""
    return tuple(
        tuple(sorted((attribute.members(2)[0].contents, attribute.members(2)[1].contents.lower().translate(None, _NO_WORDS))
                     for attribute in part.members()))
        for part in value(name).members())
