"""Files with values: read up to a bound, told apart as PEM or DER, and PEM taken apart line by line (RFC 7468).

Nothing here needs the library for C. Whether the octets of a block are DER is for whoever reads them on: `load` asks the library.
"""

import base64
import binascii
import dataclasses
import enum
import os
from typing import Collection, Iterable, Iterator, List, NamedTuple, Optional, Tuple, Union

from ._outside import hidden_at

Octets = Union[bytes, bytearray, memoryview]
Path = Union[str, "os.PathLike[str]"]

LIMIT = 2**28 + 5
"""The octets of the longest value that is read: 2^28 - 1 of contents behind six of a header."""
_PIECE = 1 << 20
_BYTE_ORDER_MARK = b"\xef\xbb\xbf"
# Lines of text hold none of these; DER does, if only as identifiers of numbers.
_CONTROLS = bytes(octet for octet in [*range(0x20), 0x7F] if octet not in b"\t\n\r")
_BASE64 = b"ABCDEFGHIJKLMNOPQRSTUVWXYZabcdefghijklmnopqrstuvwxyz0123456789+/"
# Base64 of so many characters is taken for a part of a block, and of fewer if it ends in `=`.
_LONG_LINE, _LONG_END = 40, 16


class Kind(enum.Enum):
    """What a value is, by the label of its block."""

    CERTIFICATE = "certificate"
    LIST = "list"
    """A revocation list (CRL)."""
    RESPONSE = "response"
    """An OCSP response."""


# The labels that are read: those of RFC 7468, and older ones that OpenSSL reads (its pem.h) or RFC 7468, 5.2 and 6, mentions.
SERVED = {
    "CERTIFICATE": Kind.CERTIFICATE, "X509 CERTIFICATE": Kind.CERTIFICATE, "X.509 CERTIFICATE": Kind.CERTIFICATE,
    "X509 CRL": Kind.LIST, "CRL": Kind.LIST,
    "OCSP RESPONSE": Kind.RESPONSE,
}
# Blocks that may hold a certificate in another form: whoever passed over one would take the next for the one in question.
_CONVERTED_BY = {
    "TRUSTED CERTIFICATE": "it has trust settings behind the certificate; `openssl x509 -in FILE` writes the certificate alone",
    "PKCS7": "it may hold certificates and lists; `openssl pkcs7 -in FILE -print_certs` writes them",
    "PKCS #7 SIGNED DATA": "it may hold certificates and lists; `openssl pkcs7 -in FILE -print_certs` writes them",
    "CMS": "it may hold certificates and lists; `openssl cms -cmsout -in FILE -inform PEM -outform DER` and then"
           " `openssl pkcs7 -inform DER -print_certs` write them",
}
# The other labels of RFC 7468 and of OpenSSL's pem.h that hold no certificate: keys, parameters and requests.
_WITHOUT_CERTIFICATES = frozenset((
    "ANY PRIVATE KEY", "CERTIFICATE REQUEST", "DH PARAMETERS", "DSA PARAMETERS", "DSA PRIVATE KEY", "DSA PUBLIC KEY", "EC PARAMETERS",
    "EC PRIVATE KEY", "ECDSA PUBLIC KEY", "ENCRYPTED PRIVATE KEY", "NEW CERTIFICATE REQUEST", "PARAMETERS", "PRIVATE KEY", "PUBLIC KEY",
    "RSA PRIVATE KEY", "RSA PUBLIC KEY", "SM2 PARAMETERS", "SM2 PRIVATE KEY", "X9.42 DH PARAMETERS",
))


def printable(text: str) -> str:
    """The text on one line: what is not printable is escaped, so that the name of a file cannot forge a line."""
    return "".join(one if one.isprintable() else one.encode("unicode_escape").decode("ascii") for one in text)


def _named(source: Optional[str]) -> str:
    return "octets" if source is None else printable(source)


class NotLoaded(ValueError):
    """A file, or octets, whose values cannot be read, and why.

    `source` is the name of the file, if it is one. `line` is the line of PEM that is at fault, from 1; of DER there is none. `cause` is
    the Fault of octets that are no DER.
    """

    def __init__(self, why: str, source: Optional[str] = None, line: Optional[int] = None, cause: Optional[Exception] = None):
        self.why = why
        self.source = source
        self.line = line
        self.cause = cause
        where = "" if line is None else f", line {line}"
        super().__init__(f"{_named(source)}{where}: {why}")

    def __reduce__(self) -> Tuple[object, ...]:
        return type(self), (self.why, self.source, self.line, self.cause)


class Encoded:
    """What was read and has the octets that it was read from."""

    def __bytes__(self) -> bytes:
        raise NotImplementedError


@dataclasses.dataclass(frozen=True)
class Loaded(Encoded):
    """A value, and where it came from."""

    octets: bytes = dataclasses.field(repr=False)
    """Its DER."""
    source: Optional[str] = None
    """The name of the file, if it came from one."""
    index: int = 0
    """Which of the values that were loaded from there it is, from 0."""
    place: int = 0
    """In PEM the line of its BEGIN, from 1; in DER its offset."""
    label: Optional[str] = None
    """The label of its PEM block; None in DER."""

    def __str__(self) -> str:
        where = f"offset {self.place}" if self.label is None else f"{self.label}, line {self.place}"
        return f"{_named(self.source)}, value {self.index + 1} ({where})"

    def __bytes__(self) -> bytes:
        return self.octets


class Contents(NamedTuple):
    """Octets that were read, and the name of the file that they are from, if it was one."""

    octets: bytes
    source: Optional[str] = None


def read(source: Union[Path, Octets], limit: int = LIMIT) -> Contents:
    """The octets of a file, or those that are handed in. More than `limit` are refused, of which one more is read."""
    if not isinstance(source, (str, os.PathLike)):
        if not isinstance(source, (bytes, bytearray, memoryview)):
            raise TypeError(f"the name of a file or octets are wanted, not {type(source).__name__}")
        return Contents(_bounded(bytes(source), None, limit))
    name = os.fsdecode(source)
    pieces: List[bytes] = []
    left = limit + 1
    with open(name, "rb") as file:
        while left > 0:
            piece = file.read(min(left, _PIECE))
            if not piece:
                break
            pieces.append(piece)
            left -= len(piece)
    return Contents(_bounded(b"".join(pieces), name, limit), name)


def _bounded(octets: bytes, source: Optional[str], limit: int) -> bytes:
    if len(octets) > limit:
        raise NotLoaded(f"more than {limit} octets; allow more by `limit`", source)
    return octets


def is_pem(octets: bytes) -> bool:
    """Whether a line begins with `-----BEGIN `: such octets are PEM, and all others DER."""
    if octets.startswith(_BYTE_ORDER_MARK + b"-----BEGIN "):
        return True
    at = octets.find(b"-----BEGIN ")
    while at > 0 and octets[at - 1] not in b"\r\n":
        at = octets.find(b"-----BEGIN ", at + 1)
    return at >= 0


class _Frame(NamedTuple):
    """A line that begins a block or ends it."""

    begins: bool
    label: str


class _Block(NamedTuple):
    """A block: its label, the line of its BEGIN, and the lines in it."""

    label: str
    line: int
    lines: List[bytes]


def _lines(contents: Contents) -> Iterator[Tuple[int, bytes]]:
    """The lines of a text, from 1, without white space at their ends. They end in LF, CR LF or CR."""
    octets = contents.octets[len(_BYTE_ORDER_MARK):] if contents.octets.startswith(_BYTE_ORDER_MARK) else contents.octets
    if octets.translate(None, _CONTROLS) != octets:
        raise NotLoaded("octets that are no text stand beside PEM", contents.source)
    for number, line in enumerate(octets.splitlines(), 1):
        yield number, line.rstrip(b" \t")


def _frame(line: bytes, number: int, source: Optional[str]) -> Optional[_Frame]:
    """What a line begins or ends, if it does. A line that looks so and does not is refused."""
    if b"-" not in line:
        return None
    for word in (b"-----BEGIN ", b"-----END "):
        label = line[len(word):-5]
        if line.startswith(word) and line.endswith(b"-----") and label and b"--" not in label:
            return _Frame(word == b"-----BEGIN ", label.decode("ascii", "backslashreplace"))
    compact = b"".join(line.split()).upper()
    if line.startswith(b"-----") or b"--BEGIN" in compact or b"--END" in compact:
        raise NotLoaded("the line is no BEGIN and no END of a block, and looks like one", source, number)
    return None


def _outside(line: bytes, number: int, source: Optional[str]) -> None:
    """Refuses a line between blocks that looks like a part of one whose BEGIN and END are lost: base64, and no digest in hexadecimal."""
    text = line.strip()
    bare = text.rstrip(b"=")
    is_long = len(bare) >= (_LONG_LINE if bare == text else _LONG_END)
    if is_long and not bare.strip(_BASE64) and bare.strip(b"0123456789abcdefABCDEF"):
        raise NotLoaded("base64 outside of a block", source, number)


def _want_prose(lines: List[bytes], end: int, source: Optional[str]) -> None:
    """Refuses lines between blocks, before the line with the number `end`, that hold what begins as a certificate, a list or a response in
    base64 or in hexadecimal, or PEM in base64, however they are quoted and broken."""
    found = hidden_at(lines)
    if found is not None:
        at, digits = found
        raise NotLoaded(f"a value in {digits} outside of a block", source, end - len(lines) + at)


def _begun(before: Optional[_Block], label: str, number: int, source: Optional[str]) -> _Block:
    if before is not None:
        raise NotLoaded(f"a BEGIN inside the block {before.label} of line {before.line}", source, number)
    return _Block(label, number, [])


def _ended(block: Optional[_Block], label: str, number: int, source: Optional[str]) -> _Block:
    if block is None:
        raise NotLoaded(f"an END {label} without its BEGIN", source, number)
    if label != block.label:
        raise NotLoaded(f"an END {label} behind the BEGIN {block.label} of line {block.line}", source, number)
    return block


def _blocks(contents: Contents) -> Iterator[_Block]:
    """The blocks of PEM, in order."""
    source = contents.source
    block: Optional[_Block] = None
    last = 0
    between: List[bytes] = []    # the lines outside of blocks since the last one
    for number, line in _lines(contents):
        frame = _frame(line, number, source)
        if frame is None:
            if block is None:
                _outside(line, number, source)
                between.append(line)
            else:
                block.lines.append(line)
        elif frame.begins:
            _want_prose(between, number, source)
            between.clear()
            block = _begun(block, frame.label, number, source)
        else:
            yield _ended(block, frame.label, number, source)
            block = None
        last = number
    if block is not None:
        raise NotLoaded(f"the BEGIN {block.label} has no END", source, block.line)
    _want_prose(between, last + 1, source)


def _bad_line(block: _Block, source: Optional[str]) -> NotLoaded:
    """Why a block, which is more than lines of base64, is refused: its first other line."""
    for number, line in enumerate(block.lines, block.line + 1):
        if not line or b":" in line:
            return NotLoaded(f"an empty line or a header inside the block {block.label}, as an encrypted one has it", source, number)
        if line.translate(None, _BASE64 + b"="):
            return NotLoaded(f"no base64 inside the block {block.label}", source, number)
    return NotLoaded(f"no base64 inside the block {block.label}", source, block.line)


def _decoded(block: _Block, source: Optional[str]) -> bytes:
    """The octets of a block: base64 as RFC 4648, 4, has it, and nothing else."""
    text = b"".join(block.lines)
    if b"" in block.lines or text.translate(None, _BASE64 + b"="):
        raise _bad_line(block, source)
    try:
        octets = base64.b64decode(text, validate=True)
    except binascii.Error as cause:
        raise NotLoaded(f"the base64 of the block {block.label} is wrong: {cause}", source, block.line) from cause
    if base64.b64encode(octets) != text:
        raise NotLoaded(f"the base64 of the block {block.label} is not that of its octets", source, block.line)
    if not octets:
        raise NotLoaded(f"the block {block.label} is empty", source, block.line)
    return octets


def _kind(block: _Block, source: Optional[str], some: bool) -> Optional[Kind]:
    """The kind of a block; None of one that holds none of the kinds, and is passed over where some are asked for."""
    if block.label in SERVED:
        return SERVED[block.label]
    if block.label in _CONVERTED_BY:
        raise NotLoaded(f"a {block.label} is not read: {_CONVERTED_BY[block.label]}", source, block.line)
    if some and block.label in _WITHOUT_CERTIFICATES:
        return None
    raise NotLoaded(f"a {printable(block.label)} is no certificate, list or response", source, block.line)


def kinds_of(kinds: Union[None, Kind, Iterable[Kind]]) -> Collection[Kind]:
    """The kinds that are asked for, as a set; nothing asked for is all of them."""
    if kinds is None:
        return frozenset(Kind)
    found = frozenset([kinds] if isinstance(kinds, Kind) else kinds)
    if not found or not all(isinstance(one, Kind) for one in found):
        raise TypeError("a Kind is wanted, or several")
    return found


def pem_values(contents: Contents, kinds: Union[None, Kind, Iterable[Kind]] = None) -> List[Loaded]:
    """The values of PEM of these kinds, in order.

    Without `kinds` each block has to be a certificate, a list or a response. With it, whole blocks of the other kinds are read and left
    out, and those of keys, parameters and requests are passed over; no other block ever is. Whether the octets are DER is not looked at.
    """
    wanted = kinds_of(kinds)
    found: List[Loaded] = []
    for block in _blocks(contents):
        kind = _kind(block, contents.source, kinds is not None)
        if kind is None:
            continue
        octets = _decoded(block, contents.source)
        if kind in wanted:
            found.append(Loaded(octets, contents.source, len(found), block.line, block.label))
    if not found:
        raise NotLoaded("no block holds a " + " or a ".join(sorted(one.value for one in wanted)), contents.source)
    return found


def unchecked_values(source: Union[Path, Octets], kinds: Union[None, Kind, Iterable[Kind]] = None) -> List[Loaded]:
    """The values of PEM, or the octets of DER as one value, for programs that read DER themselves: nobody has looked whether it is.

    Raises NotLoaded for what is no PEM and does not begin as DER, and OSError.
    """
    contents = read(source)
    if is_pem(contents.octets):
        return pem_values(contents, kinds)
    # The identifier octet of a SEQUENCE: certificates, lists and responses begin with it.
    if contents.octets[:1] != b"\x30":
        raise NotLoaded("no PEM and no DER value", contents.source)
    return [Loaded(contents.octets, contents.source)]
