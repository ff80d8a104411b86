"""The lines of `x509check session`: requests as they are written, and which answers belong to them (docs/REFERENCE.md, "session")."""

import contextlib
import enum
import os
import re
import tempfile
from typing import Dict, Iterator, List, Mapping, NamedTuple, NoReturn, Optional, Sequence, Tuple, Union

from . import _held
from ._pem import LIMIT
from ._verdicts import Reason, RevocationReason, Verdict

MOST = 1 << 20
"""The octets that a line of a session may have, without its end."""
LONGEST = 2 * LIMIT + MOST
"""Those of a line to the server of a party, which may hold a value of the longest kind."""
Word = Union[str, bytes]
"""A word that stands in a line as it is, or the octets of an operand."""
FINGERPRINT_DIGITS = 64
UNKNOWN = 3
"""The highest status of a verdict. Those above are failures."""


class Answer(NamedTuple):
    """The status that the command would have ended with, what it would have written, and the lines of `prints`, `find`, `list` and `check`
    with policies, of which the text is the number then. It has no truth of its own: its status is compared."""

    status: int
    text: str
    lines: Tuple[str, ...] = ()

    def __bool__(self) -> NoReturn:
        raise TypeError("an answer has no truth of its own: compare its status")

    def __str__(self) -> str:
        return f"{self.status} {self.text}"

    def renamed(self, names: Mapping[str, str]) -> "Answer":
        """The same about operands that have other names."""
        def line(text: str) -> str:
            words = [(word[:-1], ":") if word.endswith(":") else (word, "") for word in text.split(" ")]
            return " ".join(names.get(word, word) + end for word, end in words)
        return Answer(self.status, line(self.text), tuple(map(line, self.lines)))


TOO_MANY = Answer(6, "too many believed")
"""What the server of a party answers to `believe` if a connection said that of as many signatures as it may."""

CONTRADICTED = Answer(6, "contradicted: a statement that is not held revokes a certificate of the path")
"""What a party answers in place of a verdict that would be valid or unknown: the issuer signed two statements with one number or the same
times, and has to say which counts."""


class Form(enum.Enum):
    """In which form a request is answered."""

    BELIEVE = "believe"
    FORGET = "forget"
    QUIT = "quit"
    DELIVER = "deliver"
    CHECK = "check"
    CHECK_POLICIES = "check with policies"
    FIND = "find"
    PRINTS = "prints"
    LIST = "list"
    NONE = "none"
    """No session has such a request: it is a bad line."""


# What an answer that is no failure says, by its form and the status.
_NUMBER = "[0-9]{1,6}"
_CHECKED = {"0": "valid", "1": "invalid [0-9]+ [0-9]+ [A-Za-z]+", "2": "revoked [0-9]+ [0-9]+", "3": "unknown [0-9]+"}
_ANSWERS: Dict[Form, Dict[str, str]] = {
    Form.BELIEVE: {"0": "believed"}, Form.FORGET: {"0": "forgotten"}, Form.QUIT: {"0": "ended"}, Form.PRINTS: {"0": _NUMBER},
    Form.DELIVER: {"0": "stored [0-9]+ kept [0-9]+ contradicted [0-9]+"}, Form.CHECK: _CHECKED,
    Form.CHECK_POLICIES: dict.fromkeys(_CHECKED, _NUMBER), Form.FIND: dict.fromkeys(_CHECKED, _NUMBER),
    Form.LIST: {"0": _NUMBER}, Form.NONE: {},
}
_COUNTED = (Form.PRINTS, Form.FIND, Form.CHECK_POLICIES, Form.LIST)
_FAILURES = ("4", "5", "6")
# The verdicts of `find` behind a path, and those without one.
_FOUND = {**_CHECKED, "1": f"{_CHECKED['1']}|other name"}
_NO_PATH = {"1": "not found", "3": "gave up"}
_PRINTED = "[0-9a-f]{64} [ -~]+"
# The policies behind the verdict of `check`: those of the authorities, and then those of the user.
_POLICIES = r"(?:policy [0-9.#a-f]+\n)*(?:user-policy [0-9.#a-f]+\n)*"

_VALUE = "hex:"
"""With this an operand begins that stands in the line itself. Any other is the name of a file."""
_POLICY_FLAGS = ("require-policy", "inhibit-mapping", "inhibit-any-policy")


class Request(NamedTuple):
    """A request as it stands in a line: in which form it is answered, its words, and from which of them on they are operands."""

    form: Form
    words: Tuple[str, ...]
    operands_from: int

    @property
    def operands(self) -> Tuple[str, ...]:
        return self.words[self.operands_from:]

    @property
    def files(self) -> List[str]:
        """The operands that name files."""
        return [word for word in self.operands if not word.startswith(_VALUE)]

    @property
    def length(self) -> int:
        """The octets of its line."""
        return sum(len(word.encode("utf-8", "surrogatepass")) for word in self.words) + len(self.words) - 1

    def with_octets(self) -> Optional[List[Word]]:
        """Its words, with the octets of its values; None if a word is no value."""
        words: List[Word] = list(self.words[:self.operands_from])
        for word in self.operands:
            if not re.fullmatch(f"{_VALUE}(?:[0-9a-fA-F]{{2}})*", word):
                return None
            words.append(bytes.fromhex(word[len(_VALUE):]))
        return words


def _after(words: Sequence[str], at: int, *beginnings: str) -> int:
    """The place behind those of the options, each there once at most and in this order, that stand at a place."""
    for beginning in beginnings:
        at += words[at:at + 1] != [] and words[at].startswith(beginning)
    return at


def _check_request(words: Sequence[str]) -> Tuple[Form, int]:
    begin = at = _after(words, 2, "purpose=")
    while _after(words, at, "policy=") > at:
        at += 1
    if at == begin:
        return Form.CHECK, at
    for flag in _POLICY_FLAGS:
        at += list(words[at:at + 1]) == [flag]
    return Form.CHECK_POLICIES, at


def request_in(line: str) -> Request:
    """What a line asks for. Where the session would take a word for the name of a file, so does this; whether a line has as many words as
    its request wants is for the session to say."""
    words = line.split(" ")
    name, form, at = words[0], Form.NONE, len(words)
    if name in ("believe", "forget", "list", "quit"):
        form = Form(name)
    elif name == "deliver":
        form, at = Form.DELIVER, 1
    elif name == "check":
        form, at = _check_request(words)
    elif name == "find":
        form, at = Form.FIND, _after(words, 2, "purpose=", "name=")
    elif name == "prints":
        form, at = Form.PRINTS, 3 if words[1:2] == ["parts"] else 2
    return Request(form, tuple(words), at)


def file_word(name: str) -> str:
    """The name of a file as it stands in a line, with what could be read otherwise escaped."""
    octets = os.fsencode(name)
    return "".join(chr(octet) if 0x20 < octet < 0x7F and octet not in b"\\:=" else f"\\{octet:02x}" for octet in octets)


def name_in(word: str) -> Optional[bytes]:
    """The name of a file that a word writes; None if it writes none."""
    if not re.fullmatch(r"(?:[!-\[\]-~]|\\[0-9a-fA-F]{2})+", word):
        return None
    return re.sub(rb"\\(..)", lambda found: bytes.fromhex(found[1].decode("ascii")), word.encode("ascii"))


def is_fingerprint(text: str) -> bool:
    """Whether a word is a fingerprint, in hexadecimal digits of either case."""
    return len(text) == FINGERPRINT_DIGITS and not text.strip("0123456789abcdefABCDEF")


def plain(text: str) -> str:
    """A word that stands in a line as it is: one with a space would be two."""
    if not isinstance(text, str) or not re.fullmatch("[!-~]+", text):
        raise ValueError(f"one word is wanted and not {text!r}")
    return text


def check_request(line: str, most: Optional[int] = MOST) -> None:
    """Raises ValueError for a line that has no answer, or two, or that ends the session: its neighbours would be left the wrong ones."""
    if not isinstance(line, str) or not line or line.startswith("#") or "\n" in line or line == "quit":
        raise ValueError(f"not one request: {line[:80]!r}")
    if most is not None and len(line.encode("utf-8", "surrogatepass")) > most:
        raise ValueError(f"a line of more than {most} octets: {line[:80]!r}")


def _length(words: Sequence[Word]) -> int:
    """The octets of the line that has these words."""
    return sum(len(word) if isinstance(word, str) else len(_VALUE) + 2 * len(word) for word in words) + len(words) - 1


def _file_with(octets: bytes, folder: Optional[str], stack: contextlib.ExitStack) -> str:
    """The word for a file that holds the octets as long as the stack is open."""
    file = stack.enter_context(tempfile.NamedTemporaryFile(prefix="x509check-", suffix=".der", dir=folder))
    file.write(octets)
    file.flush()
    # The process may be another user's, as by sudo; certificates and lists are no secrets.
    os.chmod(file.name, 0o644)
    return file_word(os.path.abspath(file.name))


@contextlib.contextmanager
def written(words: Sequence[Word], folder: Optional[str] = None, most: Optional[int] = MOST) -> Iterator[List[str]]:
    """The words of a request as text. Octets stand in it themselves; if the line had more than `most` octets, the longest of them stand in
    files, which are removed behind the block."""
    with contextlib.ExitStack() as stack:
        left = list(words)
        operands = sorted((at for at, word in enumerate(left) if isinstance(word, bytes)), key=lambda at: len(left[at]))
        while most is not None and _length(left) > most and operands:
            at = operands.pop()
            octets = left[at]
            assert isinstance(octets, bytes)
            left[at] = _file_with(octets, folder, stack)
        yield [word if isinstance(word, str) else f"{_VALUE}{word.hex()}" for word in left]


def is_answer(form: Form, status: str, text: str) -> bool:
    """Whether the first line of an answer is one of this form."""
    if status in _FAILURES:
        return re.fullmatch("[ -~]+", text) is not None
    wanted = _ANSWERS[form].get(status)
    return wanted is not None and re.fullmatch(wanted, text) is not None


def more_lines(form: Form, status: str, text: str) -> int:
    """How many lines follow the first line of an answer."""
    return int(text) if form in _COUNTED and status not in _FAILURES else 0


def are_lines(form: Form, status: str, lines: Sequence[str]) -> bool:
    """Whether the lines behind the first one belong to its status: those of `find` are a path from its anchor on, and a verdict; those of
    `check` a verdict, and policies unless it is invalid."""
    if form not in _COUNTED or status in _FAILURES:
        return not lines
    if form is Form.PRINTS:
        return all(re.fullmatch(_PRINTED, line) for line in lines)
    if form is Form.LIST:
        return all(map(_held.is_line, lines))
    if form is Form.CHECK_POLICIES:
        policies = "".join(f"{line}\n" for line in lines[1:])
        return bool(lines) and re.fullmatch(_CHECKED[status], lines[0]) is not None \
            and re.fullmatch("" if status == "1" else _POLICIES, policies) is not None
    if len(lines) < 2:
        return list(lines) == [_NO_PATH.get(status)]
    *path, verdict = lines
    numbered = all(re.fullmatch(f"{number} [!-~]+ [1-9][0-9]*", line) for number, line in enumerate(path))
    return numbered and re.fullmatch(_FOUND[status], verdict) is not None


class Said(NamedTuple):
    """What a verdict's line says: the certificate that decides, by its number on the path, and the reason."""

    verdict: Verdict
    certificate: Optional[int] = None
    reason: Union[Reason, RevocationReason, None] = None


def said_in(line: str, most: int) -> Said:
    """What the line of a verdict says of a path whose last certificate has the number `most`. Raises ValueError for a number that has no
    meaning."""
    if line in (Verdict.VALID.value, Verdict.OTHER_NAME.value, Verdict.NOT_FOUND.value, Verdict.GAVE_UP.value):
        return Said(Verdict(line))
    word, number, *rest = line.split(" ")
    verdict, certificate = Verdict(word), int(number)
    if not (verdict is not Verdict.INVALID) <= certificate <= most:
        raise ValueError(f"no certificate of the path has the number {certificate}")
    if verdict is Verdict.UNKNOWN:
        return Said(verdict, certificate)
    kind = Reason if verdict is Verdict.INVALID else RevocationReason
    return Said(verdict, certificate, kind(int(rest[0])))


class Refusal(NamedTuple):
    """What the line of a refusal says: the operand as it stands in the request, and the fault."""

    operand: str
    number: int
    name: str
    offset: Optional[int]
    told: str
    """Number, name and place, or the status of a response that is not successful."""


_REFUSED = re.compile(r"([!-~]+): refused (([0-9]{1,4}) ([A-Za-z0-9]+)(?: at ([0-9]+)| [0-9]+)?)")


def refusal_in(text: str) -> Optional[Refusal]:
    """What the line of a failure says, if it refuses an operand."""
    found = _REFUSED.fullmatch(text)
    if found is None:
        return None
    operand, told, number, name, offset = found.groups()
    return Refusal(operand, int(number), name, None if offset is None else int(offset), told)
