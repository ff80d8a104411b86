"""What a judge of signatures may be asked (RFC 5280, 6; RFC 6960, 3.2)."""

import dataclasses
from typing import Dict, Iterable, List, Optional, Tuple, Union

from ._arguments import Value
from ._library import Place, QuestionFields
from ._profile import Profile
from ._query import Query, Search


@dataclasses.dataclass(frozen=True)
class SignatureQuestion:
    """Is this the signature of the message, under the key, by the algorithm?

    `algorithm` is the whole encoding of the algorithm identifier, `key` that of the subjectPublicKeyInfo. The fingerprint is the one of
    these four, 32 octets.
    """

    algorithm: bytes
    key: bytes
    message: bytes
    signature: bytes
    fingerprint: bytes


def _built(query: Union[Query, Search], fields: Iterable[QuestionFields]) -> List[SignatureQuestion]:
    """Questions, as octets. Those of one place are there once: a response is asked about under the key of each certificate in it."""
    parts: Dict[Tuple[int, int, int, int], bytes] = {}

    def part(it: Place) -> bytes:
        key = it.text, it.index, it.offset, it.length
        if key not in parts:
            parts[key] = query.part(it)
        return parts[key]
    return [SignatureQuestion(part(it.algorithm), part(it.key_info), part(it.message), part(it.signature), bytes(it.fingerprint)) for it in fields]


def ask(query: Union[Query, Search]) -> List[SignatureQuestion]:
    """The questions, as octets."""
    return _built(query, query.questions())


def ask_within(search: Search, most: int) -> Optional[List[SignatureQuestion]]:
    """Each different question of a search, once; None if there are more than so many. Not many more are ever built."""
    if search.may_ask_more(most):
        return None
    found = {bytes(it.fingerprint): it for it in search.questions()}
    return _built(search, found.values()) if len(found) <= most else None


def questions(
    anchor: Value, chain: Iterable[Value], statements: Iterable[Value], *, profile: Profile = Profile.STATED,
) -> List[SignatureQuestion]:
    """What a judge of signatures may be asked for the verdict on a path by statements, at whatever moment and for whatever purpose: about
    the certificates of the chain, in order, and then about each statement. One question may be there twice. The profile is that of the
    verdict.

    Raises a Fault if a certificate or a statement cannot be read.
    """
    return ask(Query(anchor, chain, statements, profile=profile))
