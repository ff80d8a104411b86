"""Files that other processes read or write at the same time: each is replaced whole, and added to under a lock."""

import contextlib
import fcntl
import os
import secrets
import stat
from typing import Iterable, Iterator, List, Set

from ._pem import Path

_DIGITS = 64    # of a fingerprint, at the front of a line of a file of verdicts


@contextlib.contextmanager
def _locked(path: str) -> Iterator[None]:
    """Whoever changes the file waits for the others. The lock is that of a file beside it, since the file itself is replaced."""
    with open(f"{os.path.realpath(path)}.lock", "ab") as lock:
        fcntl.flock(lock, fcntl.LOCK_EX)
        yield


def _octets_in(path: str) -> bytes:
    with contextlib.suppress(FileNotFoundError):
        with open(path, "rb") as file:
            return file.read()
    return b""


def replace_file(path: Path, octets: bytes) -> None:
    """Writes a file whole or not at all: whoever reads it meanwhile finds what it held before. It keeps its permissions, and its owner if
    this process may give it away. What is there and is no regular file, a device say, is written to as it is. Raises OSError."""
    name = os.path.realpath(os.fsdecode(path))
    held = os.stat(name) if os.path.exists(name) else None
    if held is not None and not stat.S_ISREG(held.st_mode):
        with open(name, "wb") as device:
            device.write(octets)
        return
    new = f"{name}.{os.getpid()}.{secrets.token_hex(4)}"
    number = os.open(new, os.O_WRONLY | os.O_CREAT | os.O_EXCL | os.O_CLOEXEC, 0o666)
    try:
        with open(number, "wb") as file:
            if held is not None:
                with contextlib.suppress(PermissionError):
                    os.fchown(file.fileno(), held.st_uid, held.st_gid)
                os.fchmod(file.fileno(), stat.S_IMODE(held.st_mode))
            file.write(octets)
            file.flush()
            os.fsync(file.fileno())
        os.replace(new, name)
    except BaseException:
        with contextlib.suppress(FileNotFoundError):
            os.unlink(new)
        raise


def add_text(path: Path, text: str) -> None:
    """Adds text behind what a file holds, on a line of its own, whole or not at all. Raises OSError."""
    name = os.fsdecode(path)
    with _locked(name):
        held = _octets_in(name)
        between = b"\n" if held and not held.endswith(b"\n") else b""
        replace_file(name, held + between + text.encode("ascii"))


def _is_verdict(line: bytes) -> bool:
    digits, behind = line[:_DIGITS], line[_DIGITS:]
    return len(digits) == _DIGITS and not digits.strip(b"0123456789abcdefABCDEF") and behind[:1] in (b"", b" ")


def _fingerprints_of(lines: Iterable[bytes]) -> Set[bytes]:
    return {bytes.fromhex(line[:_DIGITS].decode("ascii")) for line in lines if _is_verdict(line)}


def fingerprints_in(path: Path) -> Set[bytes]:
    """The fingerprints in a file of verdicts; none if it is not there. Raises OSError."""
    return _fingerprints_of(_octets_in(os.fsdecode(path)).split(b"\n"))


def add_verdicts(path: Path, fingerprints: Iterable[bytes], word: str) -> None:
    """Adds fingerprints to a file of verdicts, which is made if it is not there, each with a word behind it that says who judged.

    A last line without its end that is none of such a file was cut off as it was written, and goes: every later run would stop at it.
    Raises OSError.
    """
    name = os.fsdecode(path)
    with _locked(name):
        held = _octets_in(name)
        lines: List[bytes] = held.split(b"\n")
        cut = lines.pop()
        if _is_verdict(cut):
            lines.append(cut)
        known = _fingerprints_of(lines)
        new = [one for one in dict.fromkeys(fingerprints) if one not in known]
        wanted = b"".join(line + b"\n" for line in [*lines, *(f"{one.hex()} {word}".encode("ascii") for one in new)])
        if wanted != held or not os.path.exists(name):
            replace_file(name, wanted)
