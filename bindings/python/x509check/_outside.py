"""Text outside of the blocks of PEM that holds a certificate all the same: in base64 or in hexadecimal, quoted, with markup, in lines of any
length.

A certificate, a list or a response begins with a SEQUENCE and one of a few values in it. Where the text, without all that may stand between
its digits, has these octets, there is one; prose has not.
"""

import base64
import bisect
import re
from typing import List, Optional, Pattern, Sequence, Tuple

# Of base64 so many characters are looked at behind a beginning: they hold the headers of the outermost values.
_HEAD = 24
_MARKUP = re.compile(rb"<[^<>]*>|&[#0-9A-Za-z]{1,8};|\\[nrt]")
_BASE64_URL = bytes.maketrans(b"-_", b"+/")
_NO_BASE64 = bytes(octet for octet in range(256) if not re.match(rb"[A-Za-z0-9+/]", bytes([octet])))
# What may stand between hexadecimal digits; letters may not.
_NO_HEXADECIMAL = bytes(octet for octet in range(256) if not bytes([octet]).isalnum())
_BEFORE_DIGITS = re.compile(rb"0[xX]|\\x")

# A SEQUENCE of 128 octets or more, and the first value in it: one of DER is a SEQUENCE, an INTEGER, an OBJECT IDENTIFIER or an ENUMERATED.
_LONG = rb"0(?:\x81[\x80-\xff]|\x82..|\x83...|\x84....)"
_DER = re.compile(_LONG + rb"(?:0[\x04-\x84]|\x02[\x01-\x21\x40-\x84]|\x06[\x03-\x14]|\x0a\x01)", re.DOTALL)
# In hexadecimal there are signatures and numbers too, which hold none: of a certificate, a list, a response, and what may hold the first two.
_LONG_HEXADECIMAL = b"30(?:81[89a-f].|82.{4}|83.{6}|84.{8})"
_HEXADECIMAL = re.compile(
    _LONG_HEXADECIMAL + b"(?:30(?:8[1-4])?(?:..){1,4}?(?:a0030201|02[012].|300[0-9a-f]06)|0a010|06092a864886f70d0107|0201033)", re.IGNORECASE)
_SEQUENCE_IN_BASE64 = re.compile(b"MI[GHIMQ]")


def _starts_of_pem() -> Pattern[bytes]:
    """What `-----BEGIN ` is in base64, wherever it stands among octets."""
    found = []
    for shift in range(3):
        text = base64.b64encode(bytes(shift) + b"-----BEGIN ")
        found.append(text[(4 * shift + 2) // 3:len(text) - 4])
    return re.compile(b"|".join(map(re.escape, found)))


_PEM_IN_BASE64 = _starts_of_pem()


def _in_base64(text: bytes) -> Optional[int]:
    """Where DER or PEM begins in a text that has characters of base64 alone."""
    found = _PEM_IN_BASE64.search(text)
    if found is not None:
        return found.start()
    for begin in _SEQUENCE_IN_BASE64.finditer(text):
        head = text[begin.start():begin.start() + _HEAD]
        if _DER.match(base64.b64decode(head[:len(head) // 4 * 4])):
            return begin.start()
    return None


def _in_hexadecimal(text: bytes) -> Optional[int]:
    found = _HEXADECIMAL.search(text)
    return None if found is None else found.start()


def hidden_at(lines: Sequence[bytes]) -> Optional[Tuple[int, str]]:
    """Which of the lines holds, or begins to hold, what is no prose, and in which digits; None if none does."""
    bare = [_MARKUP.sub(b"", line) for line in lines]
    for what, texts, look in (
        ("base64", [line.translate(None, _NO_BASE64) for line in bare], _in_base64),
        ("base64", [line.translate(_BASE64_URL).translate(None, _NO_BASE64) for line in bare], _in_base64),
        ("hexadecimal", [_BEFORE_DIGITS.sub(b"", line).translate(None, _NO_HEXADECIMAL) for line in bare], _in_hexadecimal),
    ):
        at = look(b"".join(texts))
        if at is not None:
            return _line_of(texts, at), what
    return None


def _line_of(texts: List[bytes], at: int) -> int:
    """The line that has the octet at a place of all of them together."""
    ends, end = [], 0
    for text in texts:
        end += len(text)
        ends.append(end)
    return bisect.bisect_right(ends, at)
