"""What the program shows of a value (`show --all`, `tree`): its lines, and the values of DER around an offset."""

import dataclasses
import os
import subprocess
import tempfile
from typing import List, NamedTuple, Optional, Tuple

from ._pem import Kind
from ._profile import Profile
from ._program import ProgramMissing, front_of, program_path

_SECONDS = 60
# Of what the program prints so much is read; the entries of a list stand at its end.
_MOST_OUTPUT = 1 << 20
_REFUSED = 4
_KINDS = {Kind.CERTIFICATE: "cert", Kind.LIST: "crl", Kind.RESPONSE: "ocsp"}
# Values of DER that are told around an offset, on each side of it, and octets where there are no values.
_VALUES_AROUND, _OCTETS_AROUND = 4, 24


@dataclasses.dataclass(frozen=True)
class Shown:
    """The lines of `show --all`, as words and what follows each; `is_cut` if there are more than are kept here."""

    kind: Kind
    lines: Tuple[Tuple[str, str], ...]
    is_cut: bool

    def all(self, word: str) -> List[str]:
        """What the lines with this word say."""
        return [rest for it, rest in self.lines if it == word]

    def one(self, word: str) -> Optional[str]:
        """What the line with this word says, if there is one."""
        return next(iter(self.all(word)), None)


class Piece(NamedTuple):
    """A value around an offset, or octets: where it begins, how deep it stands, and its text."""

    at: int
    depth: int
    text: str
    is_meant: bool


def _run(words: List[str], octets: bytes) -> Tuple[int, str, bool]:
    """The status of a command over a file of these octets, the front of what it prints, and whether that is cut."""
    found = program_path()
    with tempfile.TemporaryDirectory(prefix="x509check.") as folder:
        path = os.path.join(folder, "value.der")
        with open(path, "wb") as file:
            file.write(octets)
        try:
            with subprocess.Popen([found, *words, path], stdin=subprocess.DEVNULL, stdout=subprocess.PIPE, stderr=subprocess.DEVNULL) as ran:
                assert ran.stdout is not None
                said = ran.stdout.read(_MOST_OUTPUT + 1)
                is_cut = len(said) > _MOST_OUTPUT
                if is_cut:
                    ran.kill()
                return ran.wait(_SECONDS), said[:_MOST_OUTPUT].decode("ascii", "backslashreplace"), is_cut
        except (OSError, subprocess.TimeoutExpired) as cause:
            raise ProgramMissing(f"the program x509check cannot be asked: {cause}") from cause


def _lines(words: List[str], octets: bytes) -> Optional[Tuple[List[str], bool]]:
    """The lines of a command that succeeds, and whether there are more; none if it refuses the octets."""
    status, said, is_cut = _run(words, octets)
    if status == _REFUSED:
        return None
    if status and not is_cut:
        raise ProgramMissing(f"the program x509check does not answer `{words[0]}`: status {status}")
    lines = said.splitlines()
    return (lines[:-1] if is_cut else lines), is_cut


def shown_as(kind: Kind, octets: bytes, profile: Profile = Profile.STATED) -> Optional[Shown]:
    """What the program shows of a value of this kind, if it is one in the profile."""
    found = _lines([*front_of(profile), "show", "--as", _KINDS[kind], "--all"], octets)
    if found is None:
        return None
    lines, is_cut = found
    words = [(word, rest) for word, _, rest in (line.partition(" ") for line in lines if not line.startswith(" "))]
    return Shown(kind, tuple(words), is_cut)


def shown_statement(octets: bytes, profile: Profile) -> Shown:
    """What it shows of a list or a response that the library has read in the profile."""
    found = shown_as(Kind.LIST, octets, profile) or shown_as(Kind.RESPONSE, octets, profile)
    if found is None:
        raise ProgramMissing("the program x509check refuses a statement that the library reads")
    return found


def windows_of(statement: Shown) -> List[Tuple[int, Optional[int]]]:
    """When a list, or each part of a response, speaks: from and until, in seconds."""
    if statement.kind is Kind.LIST:
        return [(int(statement.one("from") or 0), int(statement.one("until") or 0))]
    parts = [rest.split() for rest in statement.all("single")]
    return [(int(words[-2]), None if words[-1] == "-" else int(words[-1])) for words in parts]


def _tree(octets: bytes) -> Optional[List[Piece]]:
    """The values that the octets are, where they begin and how deep they stand; none if they are not DER."""
    found = _lines(["tree"], octets)
    if found is None:
        return None
    pieces, at = [], 0
    for line in found[0]:
        text = line.lstrip(" ")
        identifier, length = text.split(" ")[:2]
        pieces.append(Piece(at, (len(line) - len(text)) // 2, text, False))
        header = 2 if int(length) < 0x80 else 2 + (int(length).bit_length() + 7) // 8
        is_constructed = int(identifier[:2], 16) & 0x20
        at += header + (0 if is_constructed else int(length))
    return pieces


def _around(pieces: List[Piece], offset: int) -> List[Piece]:
    """The pieces near an offset, and which of them holds it."""
    meant = max((at for at, piece in enumerate(pieces) if piece.at <= offset), default=0)
    near = pieces[max(0, meant - _VALUES_AROUND):meant + _VALUES_AROUND + 1]
    return [piece._replace(is_meant=piece is pieces[meant]) for piece in near]


def pieces_around(octets: bytes, offset: int) -> List[Piece]:
    """The values around an offset; the octets, if they are not DER."""
    pieces = _tree(octets)
    if pieces:
        return _around(pieces, offset)
    begin = max(0, offset - _OCTETS_AROUND)
    rows = [Piece(at, 0, octets[at:at + 8].hex(" "), at <= offset < at + 8) for at in range(begin, min(len(octets), offset + _OCTETS_AROUND), 8)]
    return rows or [Piece(len(octets), 0, "(the octets end here)", True)]
