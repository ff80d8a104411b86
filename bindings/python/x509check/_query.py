"""Questions about a path, and searches for one: what was handed in, as the library for C takes it, and which value it refuses."""

import collections
import copy
import ctypes
import dataclasses
import itertools
from typing import Any, Callable, Dict, Iterable, List, NamedTuple, Optional, Sequence, Tuple, Union

from ._alarms import Alarm, Handed
from ._arguments import Value, der_of, is_wide, listed
from ._certificates import Certificate, origin_of
from ._faults import MEMORY, Fault, Text, refusal
from ._library import (
    REFUSED, AskedAnswer, DiagnosisAnswer, FindingAnswer, LimitFields, ObstacleFields, Place, PoliciesAnswer, PolicyInputFields, QueryFields,
    QuestionFields, Refusal, SearchFields, VerdictAnswer, library, text_array, text_fields,
)
from ._names import coarse_name
from ._pem import Loaded
from ._profile import Profile

# So many questions there is room for at most when they are asked for first.
_MOST_ROOM = 4096
# A path has at most so many certificates, its anchor with it.
_PATH_ROOM = 129
# There is room for so many policies first, and for so many octets of them.
_POLICY_ROOM, _POLICY_OCTETS = 64, 1024

Ignored = Tuple[Union[Loaded, int], Union[Fault, Alarm]]
"""A value that was left out, as it was loaded or by its number from 0, and why."""


@dataclasses.dataclass(frozen=True)
class Limits:
    """What a search for a path may spend. It gives up if one is used up; paths that servers send take a small part of it."""

    signatures: int = 1_000
    """How often a judge may be asked. If there is more to ask, about pairs of certificates whose names match and about statements, the search
    gives up before anything is asked."""
    steps: int = 10_000
    """How many ends of paths may be looked at; each takes up to a kilobyte of memory."""
    verdicts: int = 32
    """How many valid paths may be asked about."""

    def __post_init__(self) -> None:
        for name, value in dataclasses.asdict(self).items():
            if isinstance(value, bool) or not isinstance(value, int):
                raise TypeError(f"{name}: an int is wanted, not {type(value).__name__}")
            if not 0 <= value < 2**64:
                raise ValueError(f"{name} is out of range")


class PolicyInputs(NamedTuple):
    """What is asked of policies (RFC 5280, 6.1.1 (c), (e), (f) and (g)): which, each by the contents of its OBJECT IDENTIFIER, and flags."""

    initial_policies: List[bytes]
    inhibit_policy_mapping: bool
    require_explicit_policy: bool
    inhibit_any_policy: bool


class PolicySets(NamedTuple):
    """The verdict on a path, in the numbers of the header, and the policies at its end, each by its contents."""

    verdict: VerdictAnswer
    authority: List[bytes]
    user: List[bytes]


class Diagnosis(NamedTuple):
    """Why no path is found, in the numbers of the header, and the certificates that are told of."""

    why: int
    reason: int
    above: List[bytes]
    anchors: List[bytes]
    obstacles: List[Tuple[bytes, int]]


class _HandedIn:
    """Certificates and statements that were handed in, each by its title in the arguments, and the profile in which they are read."""

    def __init__(self, certificates: Sequence[Value], titles: Sequence[str], statements: Iterable[Value], profile: Profile):
        handed_in = listed("statements", statements)
        self._wide = is_wide(profile)
        self.certificates: List[bytes] = [der_of(one, title) for one, title in zip(certificates, titles)]
        self.statements: List[bytes] = [der_of(one, f"statements[{at}]") for at, one in enumerate(handed_in)]
        self._numbers = list(range(len(self.statements)))
        self._origins = {Text.CERTIFICATES: [*map(origin_of, certificates)], Text.STATEMENTS: [*map(origin_of, handed_in)]}

    def leave_out_unreadable(self) -> Tuple[Ignored, ...]:
        """Leaves out the statements that cannot be read, and says which these are, and why. Each is tried alone, beside a certificate."""
        alone = QueryFields(text_fields(self.certificates[0]), wide=self._wide)
        ignored: List[Ignored] = []
        kept: List[int] = []
        for at, (statement, origin) in enumerate(zip(self.statements, self._origins[Text.STATEMENTS])):
            answer: AskedAnswer = library().x509check_questions(alone, text_array([statement]), 1, None, 0)
            refused = answer.refusal
            if refused.text == Text.STATEMENTS:
                fault = Fault(refused.fault, refused.offset, refused.der_fault, Text.STATEMENTS, at, origin)
                ignored.append((at if origin is None else origin, fault))
            elif refused.fault == MEMORY:
                raise refusal(MEMORY, 0)
            else:
                kept.append(at)
        # (these can be read: none of them is refused any more)
        self.statements, self._numbers = [self.statements[at] for at in kept], kept
        return tuple(ignored)

    def handed(self, at: int) -> Handed:
        """A statement as its caller knows it."""
        number = self._numbers[at]
        origin = self._origins[Text.STATEMENTS][number]
        return number if origin is None else origin

    def questions(self) -> List[QuestionFields]:
        """What may be asked. If there is more than there was room for, everything is read a second time."""
        raise NotImplementedError

    def _asked(self, call: Callable[..., AskedAnswer], fields: Any, room: int) -> List[QuestionFields]:
        """What the call writes, which has room for so many at first."""
        while True:
            written = (QuestionFields * room)()
            answer = call(fields, text_array(self.statements), len(self.statements), written, room)
            if answer.refusal.fault:
                raise self._refused(answer.refusal)
            if answer.count <= room:
                return written[:answer.count]
            room = answer.count

    def part(self, place: Place) -> bytes:
        """The octets at a place."""
        values = self.certificates if place.text == Text.CERTIFICATES else self.statements
        return values[place.index][place.offset:place.offset + place.length]

    def _refused(self, refused: Refusal) -> Exception:
        """What is raised for the refusal of one of the values that were handed in."""
        if not refused.text:
            return refusal(refused.fault, 0)
        text, at = Text(refused.text), refused.index
        return refusal(refused.fault, refused.offset, refused.der_fault, text, at, self._origins[text][at])


class Query(_HandedIn):
    """A path and statements, a moment, a purpose and a profile."""

    def __init__(self, anchor: Value, chain: Iterable[Value], statements: Iterable[Value], moment: int = 0, purpose: bytes = b"",
                 profile: Profile = Profile.STATED):
        certificates = [anchor, *listed("chain", chain)]
        super().__init__(certificates, ["anchor", *(f"chain[{at}]" for at in range(len(certificates) - 1))], statements, profile)
        path = self.certificates[1:]
        self._fields = QueryFields(text_fields(self.certificates[0]), text_array(path), len(path), moment, text_fields(purpose), self._wide)

    def questions(self) -> List[QuestionFields]:
        # Enough for lists, and for responses that come with one certificate.
        room = min(self._fields.path_count * (1 + 3 * len(self.statements)), _MOST_ROOM)
        return self._asked(library().x509check_questions, self._fields, room)

    def in_order(self, order: Sequence[int]) -> "Query":
        """The same, with the statements in another order."""
        other = copy.copy(self)
        other.statements, other._numbers = ([values[at] for at in order] for values in (self.statements, self._numbers))
        return other

    def verdict(self, fingerprints: bytes) -> VerdictAnswer:
        """The verdict, if the signatures with these fingerprints, of 32 octets each, are good."""
        statements, count = text_array(self.statements), len(self.statements)
        answer: VerdictAnswer = library().x509check_validate(self._fields, statements, count, fingerprints, len(fingerprints) // 32)
        if answer.verdict == REFUSED:
            raise self._refused(answer.refusal)
        return answer

    def verdict_with_policies(self, fingerprints: bytes, inputs: PolicyInputs) -> PolicySets:
        """The same of a path whose policies are processed. If there are more of them than there was room for, it is asked a second time."""
        asked = PolicyInputFields(text_array(inputs.initial_policies), len(inputs.initial_policies), *map(int, inputs[1:]))
        statements, count = text_array(self.statements), len(self.statements)
        room, octet_room = _POLICY_ROOM, _POLICY_OCTETS
        while True:
            lengths, octets = (ctypes.c_size_t * room)(), ctypes.create_string_buffer(octet_room)
            answer: PoliciesAnswer = library().x509check_validate_with_policies(
                self._fields, asked, statements, count, fingerprints, len(fingerprints) // 32, lengths, room, octets, octet_room)
            if answer.verdict.verdict == REFUSED:
                raise self._refused(answer.verdict.refusal)
            policies = answer.authority_count + answer.user_count
            if policies <= room and answer.octet_count <= octet_room:
                found = _cut(octets.raw[:answer.octet_count], lengths[:policies])
                return PolicySets(answer.verdict, found[:answer.authority_count], found[answer.authority_count:])
            room, octet_room = max(room, policies), max(octet_room, answer.octet_count)


def _cut(octets: bytes, lengths: Sequence[int]) -> List[bytes]:
    """The octets cut into parts of these lengths, which have to be all of them."""
    if sum(lengths) != len(octets):
        raise RuntimeError(f"the library for C answered {len(octets)} octets of policies that have {sum(lengths)}")
    ends = list(itertools.accumulate(lengths))
    return [octets[end - length:end] for end, length in zip(ends, lengths)]


def _coarse_names(octets: bytes) -> Tuple[object, object]:
    """Subject and issuer, each the same of two names if the library takes these for one name: attributes without what it passes over or
    folds."""
    try:
        certificate = Certificate.from_der(octets)
        return coarse_name(certificate.subject), coarse_name(certificate.issuer)
    except ValueError:
        return None, None


class Search(_HandedIn):
    """Anchors, the target, and other certificates in any order; statements, a moment, a purpose, limits and a profile."""

    def __init__(self, anchors: Iterable[Value], target: Value, bag: Iterable[Value], statements: Iterable[Value], moment: int = 0,
                 purpose: bytes = b"", limits: Optional[Limits] = None, profile: Profile = Profile.STATED):
        tops, others, most = listed("anchors", anchors), listed("certificates", bag), limits or Limits()
        titles = [*(f"anchors[{at}]" for at in range(len(tops))), *(f"certificates[{at}]" for at in range(1 + len(others)))]
        super().__init__([*tops, target, *others], titles, statements, profile)
        self.target = self.certificates[len(tops)]
        top, bag_texts = self.certificates[:len(tops)], self.certificates[len(tops) + 1:]
        self._fields = SearchFields(
            text_array(top), len(top), text_fields(self.target), text_array(bag_texts), len(bag_texts), moment, text_fields(purpose),
            LimitFields(most.signatures, most.steps, most.verdicts), self._wide)

    def may_ask_more(self, most: int) -> bool:
        """Whether the library may ask about more pairs of certificates than so many."""
        tops, bag = self._fields.anchor_count, self._fields.bag_count
        return (1 + bag) * (tops + bag) > most and self.most_pairs() > most

    def most_pairs(self) -> int:
        """How many pairs of certificates the library will ask about, or somewhat more. Names are compared more coarsely than it compares them,
        and of a certificate that cannot be read nothing is counted: the library refuses it before it looks at pairs."""
        above = [_coarse_names(octets) for octets in (*self.certificates[:self._fields.anchor_count],
                                                      *self.certificates[self._fields.anchor_count + 1:])]
        subjects = collections.Counter(subject for subject, _ in above)
        issuers_of: Dict[object, List[object]] = {}
        for subject, issuer in above[self._fields.anchor_count:]:
            issuers_of.setdefault(subject, []).append(issuer)
        left, seen, pairs = [_coarse_names(self.target)[1]], set(), 0
        pairs += subjects[left[0]]
        while left:
            name = left.pop()
            if name not in seen:
                seen.add(name)
                pairs += sum(subjects[issuer] for issuer in issuers_of.get(name, ()))
                left += issuers_of.get(name, [])
        return pairs

    def questions(self) -> List[QuestionFields]:
        # Enough for a few pairs of certificates, and lists of their issuers.
        room = min(64 + 16 * len(self.statements), _MOST_ROOM)
        return self._asked(library().x509check_find_questions, self._fields, room)

    def _refused(self, refused: Refusal) -> Exception:
        """The same, where the anchors are told apart from the certificates."""
        tops = self._fields.anchor_count
        if refused.text != Text.CERTIFICATES:
            return super()._refused(refused)
        text, at = (Text.ANCHORS, refused.index) if refused.index < tops else (Text.CERTIFICATES, refused.index - tops)
        return refusal(refused.fault, refused.offset, refused.der_fault, text, at, self._origins[Text.CERTIFICATES][refused.index])

    def finding(self, fingerprints: bytes) -> Tuple[VerdictAnswer, List[bytes]]:
        """The verdict on the path that is found, and its certificates from the anchor on, if these signatures are good; no path has none."""
        path = (ctypes.c_size_t * _PATH_ROOM)()
        statements, count = text_array(self.statements), len(self.statements)
        answer: FindingAnswer = library().x509check_find(
            self._fields, statements, count, fingerprints, len(fingerprints) // 32, path, _PATH_ROOM)
        if answer.verdict.verdict == REFUSED:
            raise self._refused(answer.verdict.refusal)
        if answer.path_count > _PATH_ROOM:
            raise RuntimeError(f"the library for C answered a path of {answer.path_count} certificates")
        return answer.verdict, [self.certificates[at] for at in path[:answer.path_count]]

    def on_path(self, path: Sequence[bytes], moment: int, purpose: bytes, profile: Profile) -> Query:
        """The question about a path that was found, by the same statements."""
        query = Query(path[0], path[1:], self.statements, moment, purpose, profile)
        query._numbers, query._origins = self._numbers, self._origins
        return query

    def diagnosis(self, fingerprints: bytes) -> Diagnosis:
        """Why no path is found, if these signatures are good."""
        tops, others = self._fields.anchor_count, self._fields.bag_count
        above, anchors, obstacles = (ctypes.c_size_t * _PATH_ROOM)(), (ctypes.c_size_t * tops)(), (ObstacleFields * others)()
        answer: DiagnosisAnswer = library().x509check_why_not(
            self._fields, fingerprints, len(fingerprints) // 32, above, _PATH_ROOM, anchors, tops, obstacles, others)
        if answer.why == REFUSED:
            raise self._refused(answer.refusal)
        counts = answer.above_count, answer.anchor_count, answer.obstacle_count
        if any(count > room for count, room in zip(counts, (_PATH_ROOM, tops, others))):
            raise RuntimeError(f"the library for C answered an end of a path with {counts} certificates")
        return Diagnosis(
            answer.why, answer.reason, [self.certificates[at] for at in above[:counts[0]]],
            [self.certificates[at] for at in anchors[:counts[1]]],
            [(self.certificates[it.certificate], it.reason) for it in obstacles[:counts[2]]])
