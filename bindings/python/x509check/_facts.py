"""What a report says: answers of the library on certificates that a peer sent, now and over time. Nothing here judges or draws."""

import dataclasses
import time
from typing import Iterator, List, NamedTuple, Optional, Sequence, Set, Tuple

from ._arguments import Value, der_of, purpose_of
from ._certificates import Certificate, origin_of
from ._faults import Fault, Text
from ._peers import PathQuestion, certificate_in, found_by, gave_up
from ._pem import Kind
from ._profile import Profile
from ._program import ProgramMissing
from ._query import Limits, Query, Search
from ._questions import ask_within
from ._reference import Reference, speaks_for
from ._shown import Piece, Shown, pieces_around, shown_as, shown_statement, windows_of
from ._verdicts import Judge, Result, Verdict, WhyNot, check_flag, judged_by, validate
from .signatures import Judgement

# A report says of so many at most, and says how many more there are.
MOST_STRETCHES, MOST_STATEMENTS, MOST_REFUSED, MOST_OTHERS = 64, 64, 64, 256
# Asking about further moments ends after so many seconds.
_SECONDS = 8.0


class Asked(NamedTuple):
    """What a report is about."""

    certificates: Sequence[Value]
    anchors: Sequence[Value]
    statements: Sequence[Value]
    moment: int
    purpose: Optional[str]
    name: Optional[Reference]
    limits: Optional[Limits]
    ignore_unreadable: bool
    ignore_unreadable_certificates: bool
    profile: Profile


@dataclasses.dataclass(frozen=True)
class Refused:
    """A value that cannot be read, and the values of DER around its fault."""

    title: str
    fault: Fault
    pieces: Tuple[Piece, ...]


@dataclasses.dataclass(frozen=True)
class Card:
    """A certificate, what the program shows of it, and what the judge said of its signature under the one above."""

    certificate: Certificate
    shown: Shown
    judgement: Optional[Judgement]


@dataclasses.dataclass(frozen=True)
class Said:
    """What one statement by itself says of one certificate of the path: the library's verdict on it under its issuer by this statement alone."""

    number: int
    result: Result


@dataclasses.dataclass(frozen=True)
class Statement:
    """A list or a response, and what it says of the certificates of the path at the moment."""

    title: str
    octets: bytes
    shown: Shown
    said: Tuple[Said, ...]

    @property
    def windows(self) -> List[Tuple[int, Optional[int]]]:
        return windows_of(self.shown)


@dataclasses.dataclass(frozen=True)
class Stretch:
    """A stretch of time in which nothing begins and nothing ends, from its first second on to its last, and the library's answer in it.

    `result` is none if the library answers one thing at its beginning and another at its end.
    """

    first: Optional[int]
    last: Optional[int]
    result: Optional[Result]


@dataclasses.dataclass(frozen=True)
class OverTime:
    """The answers over time. `is_cut` if there are moments about which the library was not asked."""

    stretches: Tuple[Stretch, ...]
    is_cut: bool


@dataclasses.dataclass(frozen=True)
class Facts:
    """All that a report says. Without a result something was refused, and there is no verdict."""

    asked: Asked
    result: Optional[Result]
    path: Tuple[Card, ...]
    others: Tuple[Certificate, ...]
    statements: Tuple[Statement, ...]
    refused: Tuple[Refused, ...]
    over_time: Optional[OverTime]
    anchors: Tuple[Certificate, ...]

    @property
    def has_path(self) -> bool:
        """Whether a path was found: `path` is then the path, and else the end of one."""
        return self.result is not None and self.result.path != ()


def facts_of(asked: Asked, verify: Optional[Judge]) -> Facts:
    """The answers of the library. What cannot be read is told; there is no verdict then, unless it was to be left out."""
    check_flag("ignore_unreadable", asked.ignore_unreadable)
    check_flag("ignore_unreadable_certificates", asked.ignore_unreadable_certificates)
    anchors, sent, statements, refused = _readable(asked)
    texts = {it.fault.text for it in refused}
    may_answer = bool(sent) and Text.ANCHORS not in texts and (Text.STATEMENTS not in texts or asked.ignore_unreadable) \
        and (Text.CERTIFICATES not in texts or asked.ignore_unreadable_certificates) \
        and not any(it.fault.text is Text.CERTIFICATES and it.fault.index == 0 for it in refused)
    if not may_answer:
        unasked = tuple(
            Statement(title, octets, shown_statement(octets, asked.profile), ()) for title, octets in statements[:MOST_STATEMENTS])
        return Facts(asked, None, (), tuple(sent), unasked, tuple(refused), None, tuple(anchors))
    return _Answers(asked, anchors, sent, statements, verify).facts(tuple(refused))


Titled = Tuple[str, bytes]


def _title(text: str, at: int, value: Value) -> str:
    origin = origin_of(value)
    return f"{text} {at}" if origin is None else f"{text} {at} ({origin})"


def _readable(asked: Asked) -> Tuple[List[Certificate], List[Certificate], List[Titled], List[Refused]]:
    """The anchors, the certificates and the statements that can be read, and the values that cannot."""
    refused: List[Refused] = []
    anchors = _certificates(asked.anchors, "anchor", Text.ANCHORS, Profile.STATED, refused)
    sent = _certificates(asked.certificates, "certificate", Text.CERTIFICATES, asked.profile, refused)
    beside = next(iter(anchors + sent), None)
    return anchors, sent, _statements(asked, beside, refused), refused


def _certificates(values: Sequence[Value], word: str, text: Text, profile: Profile, refused: List[Refused]) -> List[Certificate]:
    found = []
    for at, one in enumerate(values):
        octets = der_of(one, f"{word}s[{at}]")
        try:
            found.append(certificate_in(octets, profile))
        except Fault as fault:
            refused.append(_refusal(_title(word, at, one), octets, Fault(fault.number, fault.offset, fault.der, text, at)))
    return found


def _statements(asked: Asked, beside: Optional[Certificate], refused: List[Refused]) -> List[Titled]:
    """The statements that can be read, which the library looks at beside a certificate: without one none is looked at."""
    octets = [der_of(one, f"statements[{at}]") for at, one in enumerate(asked.statements)]
    titled = [(_title("statement", at, one), it) for at, (one, it) in enumerate(zip(asked.statements, octets))]
    if beside is None:
        return []
    faults = {fault.index: fault for _, fault in Query(beside, [], octets, profile=asked.profile).leave_out_unreadable()}
    refused += [_refusal(*titled[at], fault) for at, fault in faults.items() if at is not None]
    return [it for at, it in enumerate(titled) if at not in faults]


def _refusal(title: str, octets: bytes, fault: Fault) -> Refused:
    return Refused(title, fault, tuple(pieces_around(octets, fault.offset)))


class _Answers:
    """The library's answers on what was sent. Signatures are judged once, since no moment changes them."""

    def __init__(self, asked: Asked, anchors: List[Certificate], sent: List[Certificate], statements: List[Titled], verify: Optional[Judge]):
        self.asked, self.anchors, self.sent, self.statements = asked, anchors, sent, statements
        self.texts = [octets for _, octets in statements]
        search = self._search(asked.moment)
        questions = ask_within(search, (asked.limits or Limits()).signatures)
        self.judged = judged_by(questions or [], verify)
        self.gave_up = gave_up(search) if questions is None else None
        self.judgements = {question.fingerprint: judgement for question, judgement in self.judged}
        self.good = [print for print, judgement in self.judgements.items() if judgement is Judgement.GOOD]
        self.speaks = None if asked.name is None else speaks_for(sent[0].octets, asked.name)
        messages = {question.message for question, _ in self.judged}
        self.leading = [one for one in sent if one.tbs in messages]

    def _search(self, moment: int) -> Search:
        return Search(self.anchors, self.sent[0], self.sent[1:], self.texts, moment, purpose_of(self.asked.purpose), self.asked.limits,
                      self.asked.profile)

    def at(self, moment: int) -> Result:
        """The answer at a moment, with its alarms: a report tells them, and does not raise them."""
        asked = self.asked
        if self.gave_up is not None:
            return self.gave_up
        question = PathQuestion(moment, asked.purpose, self.speaks, asked.ignore_unreadable, asked.profile)
        result = found_by(self._search(moment), question, self.judged, b"".join(self.good))
        return dataclasses.replace(result, name=None if asked.name is None else str(asked.name))

    def facts(self, refused: Tuple[Refused, ...]) -> Facts:
        result = self.at(self.asked.moment)
        path = self._path(result)
        on_path = {one.octets for one in path}
        cards = tuple(self._card(one, above) for one, above in zip(path, [None, *path]))
        statements = tuple(self._statement(title, octets, path if result.path else []) for title, octets in self.statements[:MOST_STATEMENTS])
        others = tuple(one for one in self.sent if one.octets not in on_path)
        return Facts(self.asked, result, cards, others, statements, refused, self._over_time(result, statements), tuple(self.anchors))

    def _path(self, result: Result) -> List[Certificate]:
        """The certificates of the path; without one, those of the end of a path that got furthest, from its top on."""
        known = {one.identity.sha256: one for one in self.anchors + self.sent}
        why = result.why_not or WhyNot(self.sent[0].identity)
        named = result.path or (*reversed(why.above), why.target)
        return [known[it.sha256] for it in named]

    def _card(self, one: Certificate, above: Optional[Certificate]) -> Card:
        shown = shown_as(Kind.CERTIFICATE, one.octets)
        if shown is None:
            raise ProgramMissing("the program x509check refuses a certificate that the library reads")
        return Card(one, shown, None if above is None else self.judgements.get(one.fingerprint_under(above)))

    def _statement(self, title: str, octets: bytes, path: List[Certificate]) -> Statement:
        """A statement, with the library's verdict on each certificate of the path under its issuer by this statement alone."""
        said = []
        for number, (above, one) in enumerate(zip(path, path[1:]), 1):
            result = validate(above, [one], [octets], self.asked.moment, fingerprints=self.good, profile=self.asked.profile)
            if result.verdict in (Verdict.VALID, Verdict.REVOKED):
                said.append(Said(number, result))
        return Statement(title, octets, shown_statement(octets, self.asked.profile), tuple(said))

    def _over_time(self, result: Result, statements: Tuple[Statement, ...]) -> OverTime:
        """The answers in all stretches between the moments at which a certificate or a statement begins or ends to count."""
        ends: Set[int] = set()
        for one in self.leading:
            ends |= {one.not_before, one.not_after}
        for it in statements:
            ends |= {moment for window in it.windows for moment in window if moment is not None}
        cuts = sorted({cut for end in ends for cut in (end, end + 1)})
        begins, is_cut = _near([None, *cuts], self.asked.moment)
        return self._stretches(begins, cuts, result, is_cut or len(self.statements) > len(statements))

    def _stretches(self, begins: List[Optional[int]], cuts: List[int], result: Result, is_cut: bool) -> OverTime:
        until = time.monotonic() + _SECONDS
        found: List[Stretch] = []
        for begin in sorted(begins, key=lambda it: _distance(it, cuts, self.asked.moment)):
            if time.monotonic() > until:
                is_cut = True
                break
            found.append(self._stretch(begin, next((cut - 1 for cut in cuts if begin is None or cut > begin), None)))
        return OverTime(tuple(_joined(sorted(found, key=lambda it: (it.first is not None, it.first)))), is_cut)

    def _stretch(self, first: Optional[int], last: Optional[int]) -> Stretch:
        """The answer in a stretch: at its first and at its last second it has to be the same."""
        moments = [moment for moment in (first, last) if moment is not None] or [self.asked.moment]
        answers = [self.at(moment) for moment in dict.fromkeys(moments)]
        is_one = all(_same(it, answers[0]) for it in answers)
        return Stretch(first, last, answers[0] if is_one else None)


def _same(one: Result, other: Result) -> bool:
    """Whether two answers are the same, about the same path."""
    return (one, one.path, one.why_not, bool(one.alarms)) == (other, other.path, other.why_not, bool(other.alarms))


def _near(begins: List[Optional[int]], moment: int) -> Tuple[List[Optional[int]], bool]:
    """Those of the beginnings of stretches that are nearest to the moment, and whether there are others."""
    if len(begins) <= MOST_STRETCHES:
        return begins, False
    at = sum(it is None or it <= moment for it in begins) - 1
    low = min(max(0, at - MOST_STRETCHES // 2), len(begins) - MOST_STRETCHES)
    return begins[low:low + MOST_STRETCHES], True


def _distance(begin: Optional[int], cuts: List[int], moment: int) -> int:
    """How many stretches lie between the one that begins there and the one that holds the moment."""
    def place(at: Optional[int]) -> int:
        return sum(at is not None and cut <= at for cut in cuts)
    return abs(place(begin) - place(moment))


def _joined(stretches: List[Stretch]) -> Iterator[Stretch]:
    """The stretches, those of one second as a part of the neighbour with the same answer."""
    held: Optional[Stretch] = None
    for one in stretches:
        if held is not None and _is_next(held, one):
            held = dataclasses.replace(held, last=one.last)
            continue
        if held is not None:
            yield held
        held = one
    if held is not None:
        yield held


def _is_next(held: Stretch, one: Stretch) -> bool:
    """Whether one begins where the other ends, one of them has one second, and both have the same answer about the same path."""
    if held.result is None or one.result is None or held.last is None or one.first != held.last + 1:
        return False
    return (held.first == held.last or one.first == one.last) and _same(held.result, one.result)
