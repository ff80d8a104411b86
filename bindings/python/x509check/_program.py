"""What a fault, a reason or a verdict means, in the words of the program."""

import enum
import os
import shutil
import subprocess
from typing import List, Union

from ._faults import Fault
from ._profile import Profile
from ._verdicts import Reason, RevocationReason

_HERE = os.path.dirname(os.path.realpath(__file__))
# Where the program is in the repository, built here or unpacked from dist/ by `make`, and where `make install` puts it, from this folder.
PLACES = (
    os.path.join(_HERE, "..", "..", "..", "crates", "x509check", "out", "x509check"),
    os.path.join(_HERE, "..", "..", "..", "dist", "out", "x509check"),
    os.path.join(_HERE, "..", "..", "..", "..", "bin", "x509check"),
)
_SECONDS = 30
_BAD_TOPIC = 5


class ProgramMissing(RuntimeError):
    """The program is at none of the places where it is looked for, or it does not answer."""


def program_path() -> str:
    """The program that X509CHECK names; else the repository's, the installed one, or that of the path."""
    named = os.environ.get("X509CHECK")
    found = named or next(filter(os.path.isfile, PLACES), None) or shutil.which("x509check")
    if not found:
        raise ProgramMissing("the program x509check is not there; build it by `make`, or name it in X509CHECK")
    return found


def front_of(profile: Profile) -> List[str]:
    """The words in front of a command in the profile."""
    return ["--profile", profile.value] if profile is Profile.WIDE else []


def _topic(it: Union[int, Fault, Reason, RevocationReason]) -> str:
    kinds = {Reason: "rank", RevocationReason: "reason"}
    if isinstance(it, Fault):
        return f"fault {it.number}"
    if isinstance(it, bool) or not isinstance(it, int) or isinstance(it, enum.Enum) and type(it) not in kinds:
        raise TypeError(f"a Fault, the number of one, or a reason is wanted, not {type(it).__name__}")
    return f"{kinds.get(type(it), 'fault')} {int(it)}"


def explain(it: Union[int, Fault, Reason, RevocationReason]) -> str:
    """What a fault, or the number of one, or a reason means, what to do about it, and where the standard speaks of it.

    The program says it. Raises ProgramMissing without it, and ValueError for a number that has no meaning.
    """
    topic = _topic(it)
    try:
        done = subprocess.run([program_path(), "explain", *topic.split()], stdin=subprocess.DEVNULL, stdout=subprocess.PIPE,
                              stderr=subprocess.PIPE, encoding="utf-8", timeout=_SECONDS, check=False)
    except (OSError, subprocess.TimeoutExpired, UnicodeDecodeError) as cause:
        raise ProgramMissing(f"the program x509check cannot be asked: {cause}") from cause
    if done.returncode == _BAD_TOPIC:
        raise ValueError(f"there is no {topic}")
    if done.returncode or not done.stdout.startswith(f"{topic} "):
        raise ProgramMissing(f"the program x509check does not explain {topic}: status {done.returncode}")
    return done.stdout.strip()


def version_lines() -> List[str]:
    """What the program says of its version: version, kit, and digest of its sources."""
    try:
        done = subprocess.run([program_path(), "--version"], stdin=subprocess.DEVNULL, stdout=subprocess.PIPE, stderr=subprocess.DEVNULL,
                              encoding="ascii", errors="backslashreplace", timeout=_SECONDS, check=True)
    except (OSError, subprocess.SubprocessError) as cause:
        raise ProgramMissing(f"the program x509check cannot be asked: {cause}") from cause
    return done.stdout.split("\n")[:-1]
