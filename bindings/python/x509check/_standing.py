"""How the statements at hand stand under the issuers of a path, and whether some of them contradict each other.

The library keeps those whose signatures are good, and of two that contradict each other the first. Around its verdict there is more to say:
a statement that nobody could judge may be the one that revokes, and so may the second of the two.
"""

import enum
from typing import Callable, Dict, FrozenSet, Iterator, List, NamedTuple, Sequence, Set, Tuple

from ._der import INTEGER
from ._faults import Text
from ._library import QuestionFields
from ._names import coarse_name
from ._query import Query
from ._statement_times import Single, is_response, list_issuer_and_number, response_signed, singles_in
from .signatures import Judgement

# So many statements about one thing may contradict each other; among more nobody looks.
_MOST = 16


class Standing(enum.IntEnum):
    """Of several ways in which a statement may be an issuer's, the best one counts; of several signatures on one way, the worst."""

    WRONG = 0
    """A forgery, or somebody else's."""
    UNJUDGED = 1
    """Nobody could tell."""
    GOOD = 2


_STANDINGS = {Judgement.GOOD: Standing.GOOD, Judgement.WRONG: Standing.WRONG}


class Stands(NamedTuple):
    """How a statement stands, and under which issuers of the path, by their numbers, it is good."""

    standing: Standing
    issuers: FrozenSet[int]


def standing_of(query: Query, said: Callable[[bytes], Judgement]) -> List[Stands]:
    """How each statement stands, by what is said of each question with a fingerprint. The issuers are the certificates of the path before
    the last."""
    ways: List[Dict[int, Standing]] = [{} for _ in query.statements]
    delegate = Standing.WRONG
    for it in query.questions():
        if it.message.text != Text.STATEMENTS:
            continue
        standing = _STANDINGS.get(said(bytes(it.fingerprint)), Standing.UNJUDGED)
        if it.key_info.text == Text.CERTIFICATES:
            issuer = it.key_info.index
            if _is_about_delegate(query, it):
                delegate = standing    # which counts if the response is asked about under its key, next
                continue
        else:
            standing = min(delegate, standing)
        found = ways[it.message.index]
        found[issuer] = max(found.get(issuer, Standing.WRONG), standing)
    return [Stands(max(it.values(), default=Standing.WRONG), frozenset(at for at, standing in it.items() if standing is Standing.GOOD))
            for it in ways]


def _is_about_delegate(query: Query, it: QuestionFields) -> bool:
    """Whether a question under an issuer's key is about a certificate that comes with a response, and not about the statement itself."""
    signed = response_signed(query.statements[it.message.index])
    return signed is not None and query.part(it.message) != signed


class Rivals:
    """The statements that may contradict each other: lists of a name with one number, and responses about one serial number with the same
    times, also inside of one response. Each different one counts once."""

    def __init__(self, statements: Sequence[bytes], serials: Set[bytes]) -> None:
        self._statements, self._serials = statements, serials
        groups: Dict[Tuple[object, ...], Dict[bytes, int]] = {}
        for at, octets in enumerate(statements):
            for key in _keys(octets, serials):
                groups.setdefault(key, {}).setdefault(octets, at)
        self._groups = [list(group.values()) for group in groups.values() if len(group) > 1]
        self._singles = [(at, _singles_about(octets, serials)) for at, octets in enumerate(statements)]

    def __bool__(self) -> bool:
        return bool(self._groups) or any(_are_split(singles) for _, singles in self._singles)

    def are_split(self, stands: Sequence[Stands]) -> bool:
        """Whether the newest that responses of an issuer say of a certificate is that it is revoked, and that it is not."""
        issuers = {issuer for it in stands for issuer in it.issuers}
        return any(_are_split([one for at, singles in self._singles if issuer in stands[at].issuers for one in singles]) for issuer in issuers)

    def orders(self, stands: Sequence[Stands]) -> Iterator[List[int]]:
        """Orders of the statements in which each of those that contradict others of an issuer stands before these, once. Raises ValueError
        if more than 16 do so."""
        issuers = {issuer for it in stands for issuer in it.issuers}
        groups = [self._few([at for at in group if issuer in stands[at].issuers]) for group in self._groups for issuer in issuers]
        most = max(map(len, groups), default=0)
        if most > _MOST:
            raise ValueError(f"{most} statements about one thing with one number or the same times")
        for number in range(1, most):
            front = list(dict.fromkeys(group[number] for group in groups if number < len(group)))
            yield [*front, *(at for at in range(len(self._statements)) if at not in front)]

    def _few(self, group: List[int]) -> List[int]:
        """Of many the first, and those that may revoke: an issuer may have lists of one number for many distribution points."""
        return group if len(group) <= _MOST else [group[0], *(at for at in group[1:] if self._may_revoke(at))]

    def _may_revoke(self, at: int) -> bool:
        """Whether the serial number of one of the certificates stands somewhere in a statement."""
        return any(bytes((INTEGER, len(serial))) + serial in self._statements[at] for serial in self._serials)


def _singles_about(octets: bytes, serials: Set[bytes]) -> List[Single]:
    """What a response says of these certificates; nothing if it cannot be taken apart."""
    try:
        return [it for it in singles_in(octets) if it.serial in serials] if is_response(octets) else []
    except ValueError:
        return []


def _are_split(singles: Sequence[Single]) -> bool:
    """Whether the newest of them about some certificate say that it is revoked, and that it is not."""
    newest: Dict[bytes, Tuple[bytes, bytes]] = {}
    for it in singles:
        newest[it.serial] = max(it.times, newest.get(it.serial, it.times))
    said = {(it.serial, it.is_revoked) for it in singles if it.times == newest[it.serial]}
    return len(said) > len(newest)


def _keys(octets: bytes, serials: Set[bytes]) -> List[Tuple[object, ...]]:
    """What a statement must share with another one to contradict it. Of one that cannot be taken apart here nothing is known: it may
    contradict each other one that cannot."""
    try:
        if not is_response(octets):
            issuer, number = list_issuer_and_number(octets)
            return [("list", coarse_name(issuer), number)]
        return [("response", it.serial, it.times) for it in singles_in(octets) if it.serial in serials]
    except ValueError:
        return [()]
