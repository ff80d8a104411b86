"""Two statements of one issuer that contradict each other: the store keeps the first, and somebody has to hear of the second."""

import contextlib
import hashlib
from typing import TYPE_CHECKING, Callable, Dict, Iterable, Set, Tuple

from ._arguments import Moment, Value, der_of
from ._certificates import Certificate
from ._faults import Fault
from ._policies import validate_with_policies
from ._profile import Profile
from ._statement_times import is_response, singles_in
from ._verdicts import Verdict

if TYPE_CHECKING:
    from ._party import Delivery

# So many octets of statements are kept. Behind them no path through the issuer of another one is accepted.
_MOST = 1 << 26


def would_revoke(statement: Value, issuer: Value, certificates: Iterable[Value], at: Moment) -> bool:
    """Whether a statement says at a moment of one of these certificates, which its issuer issued, that it is revoked.

    It is asked about a statement that a store counted as `contradicted`, so its signature is good. If nobody can read what it says here, it
    counts as one that revokes.
    """
    return any(_says_revoked(statement, one) or _revokes(statement, issuer, one, at) for one in certificates)


def _says_revoked(statement: Value, certificate: Value) -> bool:
    # (beside something else that it says of the certificate at the same time, perhaps)
    octets, serial = der_of(statement), Certificate.from_der(certificate).serial
    with contextlib.suppress(ValueError):
        return is_response(octets) and any(it.is_revoked and it.serial == serial for it in singles_in(octets))
    return True


def _revokes(statement: Value, issuer: Value, certificate: Value, at: Moment) -> bool:
    # The wide profile reads more statements, and the stated one more certificates. (A path may be valid by its policies alone.)
    for profile in (Profile.WIDE, Profile.STATED):
        try:
            said = validate_with_policies(issuer, [certificate], [statement], at, verify=lambda _: True, initial_policies=None,
                                          require_explicit_policy=False, profile=profile)
        except Fault:
            continue
        return said.verdict not in (Verdict.VALID, Verdict.UNKNOWN)
    return True


class Contradictions:
    """The statements that a party's store did not take, as each contradicts one that it holds. Any number of threads may call, and none holds
    a lock, which an exception of a signal handler could leave taken: each step on a dict or a set is whole."""

    def __init__(self) -> None:
        # By the issuer's key, and the SHA-256 of the statement: the certificate under which it came, and the statement. (A peer chooses
        # which certificate of an issuer it sends, a renewed one say: what it issued is revoked under each.)
        self._noted: Dict[Tuple[bytes, bytes], Tuple[bytes, bytes]] = {}
        self._left_out: Set[bytes] = set()                     # keys of issuers, of whose statements one was too many

    def note(self, issuer: bytes, statement: bytes) -> None:
        key = Certificate.from_der(issuer).subject_public_key_info
        if sum(len(held) for _, held in list(self._noted.values())) + len(statement) > _MOST:
            self._left_out.add(key)
        else:
            self._noted[key, hashlib.sha256(statement).digest()] = issuer, statement

    def are_alarms(self, issuer: bytes, certificate: bytes, at: Moment, deliver: "Callable[[bytes, bytes], Delivery]") -> bool:
        """Whether one of them, by an issuer, revokes a certificate. It is delivered once more: if the store then counts it as `kept`, a newer
        statement has taken the place of both."""
        public = Certificate.from_der(issuer).subject_public_key_info
        for key, (deliverer, statement) in list(self._noted.items()):
            if key[0] == public and would_revoke(statement, issuer, [certificate], at):
                if deliver(deliverer, statement).contradicted:
                    return True
                self._noted.pop(key, None)
        return public in self._left_out
