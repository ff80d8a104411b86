"""Verdicts on paths (RFC 5280, 6; RFC 6960, 3.2)."""

import dataclasses
import enum
import inspect
from typing import Callable, Iterable, List, Mapping, NamedTuple, Optional, Sequence, Tuple, TypeVar, Union

from ._alarms import Alarm, Contradiction, Unjudged
from ._arguments import Moment, Value, der_of, listed, octets_of, purpose_of, seconds_of
from ._certificates import Certificate
from ._key_usage import goes_with
from ._library import GAVE_UP, PATHS_END, TARGET_AT_FAULT, VERDICT_WORDS, VerdictAnswer
from ._names import Identity
from ._profile import Profile
from ._query import Diagnosis, Ignored, Query
from ._questions import SignatureQuestion, ask
from ._standing import Rivals, Standing, standing_of
from .signatures import Judgement, judge_all

# A path has at most so many certificates.
_MOST = 128
Judge = Callable[[SignatureQuestion], Union[bool, Judgement]]
Judged = Tuple[SignatureQuestion, Judgement]


class Verdict(enum.Enum):
    """What is said of a path, in the word that the program prints. VALID alone is true."""

    VALID = "valid"
    INVALID = "invalid"
    REVOKED = "revoked"
    UNKNOWN = "unknown"
    """It meets all conditions, none is revoked, and of some certificate no current statement speaks."""
    OTHER_NAME = "other name"
    """The path is valid, and its last certificate does not speak for the name that was asked for (`validate_peer`)."""
    NOT_FOUND = "not found"
    """No path from an anchor to the certificate meets all conditions (`validate_peer`)."""
    GAVE_UP = "gave up"
    """The limits of a search were used up before a path was found (`validate_peer`)."""

    def __bool__(self) -> bool:
        return self is Verdict.VALID


class Reason(enum.IntEnum):
    """Why a path is invalid, by rank."""

    REPEATED = 1
    SIGNATURE = 2
    NOT_YET = 3
    EXPIRED = 4
    ISSUER = 5
    NOT_PERMITTED = 6
    EXCLUDED = 7
    CONSTRAINT_FORM = 8
    NOT_CA = 9
    PATH_LENGTH = 10
    KEY_CERT_SIGN = 11
    POLICY = 12
    CRITICAL_UNKNOWN = 13
    PURPOSE = 14
    EMPTY = 15
    TOO_LONG = 16
    NO_VALID_POLICY = 17
    """This reason and the next two are for who asks for policies (`validate_with_policies`), and POLICY is for all others."""
    ANY_POLICY_MAPPED = 18
    NO_USER_POLICY = 19


class RevocationReason(enum.IntEnum):
    """Why a certificate is revoked (RFC 5280, 5.3.1)."""

    UNSPECIFIED = 0
    KEY_COMPROMISE = 1
    CA_COMPROMISE = 2
    AFFILIATION_CHANGED = 3
    SUPERSEDED = 4
    CESSATION_OF_OPERATION = 5
    CERTIFICATE_HOLD = 6
    REMOVE_FROM_CRL = 8
    PRIVILEGE_WITHDRAWN = 9
    AA_COMPROMISE = 10


class NotValid(ValueError):
    """A path that is not valid; `result` says what it is."""

    def __init__(self, result: "Result"):
        self.result = result
        super().__init__(str(result))

    def __reduce__(self) -> Tuple[object, ...]:
        return type(self), (self.result,)


def _in_words(name: str) -> str:
    return name.lower().replace("_", " ")


def _named(identity: Identity) -> str:
    return f'"{identity.subject}" serial {identity.serial}'


@dataclasses.dataclass(frozen=True)
class WhyNot:
    """Why no path to a certificate meets the conditions (RFC 5280, 6.1). Printed, it is one sentence.

    Either the certificate in question cannot stand at the end of any path, for a `reason`; or its paths end somewhere: at the longest end
    whose certificates all meet the conditions on them nobody at hand can stand above the `top`. If there are no `anchors` and no `obstacles`
    then, the certificate of the top's issuer is missing. Which of two ends of one length is told of depends on the order of the certificates.
    """

    target: Identity
    """The certificate in question."""
    reason: Optional[Reason] = None
    """What is wrong with the certificate in question by itself."""
    above: Tuple[Identity, ...] = ()
    """The certificates of that end above the one in question, from it upward."""
    anchors: Tuple[Identity, ...] = ()
    """The anchors that have the name of the top's issuer, but did not sign the top."""
    obstacles: Tuple[Tuple[Identity, Reason], ...] = ()
    """The other certificates that have that name, each with the first condition that it does not meet there: REPEATED, SIGNATURE,
    NOT_PERMITTED, EXCLUDED, CONSTRAINT_FORM and PATH_LENGTH are about it and the certificates below it."""
    gave_up: bool = False
    """Whether the limits of the search were used up before this was known."""

    @property
    def top(self) -> Identity:
        """The certificate whose issuer is looked for: the last of those above, or the one in question."""
        return self.above[-1] if self.above else self.target

    def __str__(self) -> str:
        if self.gave_up:
            return f"the limits were used up before it was known where the paths to {_named(self.target)} end"
        if self.reason is not None:
            return f"{_named(self.target)} cannot stand at the end of any path ({_in_words(self.reason.name)})"
        others = [f"the anchor {_named(it)} did not sign it" for it in self.anchors]
        others += [f"{_named(it)} cannot stand there ({_in_words(reason.name)})" for it, reason in self.obstacles]
        if not others:
            return f"no certificate at hand has the name of the issuer of {_named(self.top)}"
        return f"no certificate at hand can stand above {_named(self.top)}: {', '.join(others)}"


Some = TypeVar("Some", bound="Result")


@dataclasses.dataclass(frozen=True)
class Result:
    """The verdict on a path, and whom it is about. A result is true if its verdict is VALID.

    Two results are equal if verdict, certificate and reason are, whomever they are about.
    """

    verdict: Verdict
    certificate: Optional[int] = None
    """Of a verdict that is not VALID, which certificate decides: the first of the chain has 1, and 0 is the path itself."""
    reason: Union[Reason, RevocationReason, None] = None
    target: Optional[Identity] = dataclasses.field(default=None, compare=False)
    """The certificate in question, the last of the chain. A path without certificates, or with more than 128, has none."""
    decides: Optional[Identity] = dataclasses.field(default=None, compare=False)
    """The certificate that decides, if `certificate` is not 0."""
    judgements: Tuple[Judged, ...] = dataclasses.field(default=(), compare=False, repr=False)
    """What the judge said of each question that was asked."""
    ignored: Tuple[Ignored, ...] = dataclasses.field(default=(), compare=False)
    """What could not be read, or judged, and was left out (`ignore_unreadable`, `ignore_unreadable_certificates`)."""
    path: Tuple[Identity, ...] = dataclasses.field(default=(), compare=False)
    """The certificates of the path, from the anchor on to the one in question; none if no path was found. `certificate` counts along it."""
    name: Optional[str] = dataclasses.field(default=None, compare=False)
    """The host, address or mailbox that was asked for, if one was."""
    why_not: Optional[WhyNot] = dataclasses.field(default=None, compare=False)
    """Why no path meets the conditions, if the verdict is NOT_FOUND."""
    alarms: Tuple[Alarm, ...] = dataclasses.field(default=(), compare=False)
    """What stands against an UNKNOWN that somebody would accept: a statement that nobody could judge, or statements that contradict each
    other. For a VALID verdict the call raises it."""

    def __bool__(self) -> bool:
        return bool(self.verdict) and not self.alarms

    def __str__(self) -> str:
        reason = "" if self.reason is None else f" ({_in_words(self.reason.name)})"
        about = "the path" if self.target is None else str(self.target)
        name = "" if self.name is None else f", asked for {self.name}"
        by = "" if self.certificate is None else f", by certificate {self.certificate}: {self.decides}" if self.decides else ", by the path itself"
        why = "" if self.why_not is None else f"; {self.why_not}"
        alarms = "".join(f"; alarm: {alarm}" for alarm in self.alarms)
        return f"{self.verdict.value}{reason}: {about}{name}{by}{why}{alarms}"

    def require_valid(self: "Some") -> "Some":
        """The result itself; raises NotValid unless the verdict is VALID."""
        if not self:
            raise NotValid(self)
        return self


def _prints(fingerprints: Iterable[Value]) -> bytes:
    values = [octets_of(one, "fingerprint") for one in fingerprints]
    for index, value in enumerate(values):
        if len(value) != 32:
            raise ValueError(f"fingerprint {index} has {len(value)} octets and not 32")
    return b"".join(values)


def _judgement(answer: object) -> Judgement:
    """The answer of a judge. What is neither yes nor no is a mistake, and never counts as either."""
    if isinstance(answer, Judgement):
        return answer
    if answer is True or answer is False:
        return Judgement.GOOD if answer else Judgement.WRONG
    if inspect.iscoroutine(answer):
        answer.close()  # as nobody awaits it
    raise TypeError(f"a judge answers True, False or a Judgement, not {type(answer).__name__}")


def judged_by(questions: Sequence[SignatureQuestion], verify: Optional[Judge]) -> Tuple[Judged, ...]:
    """What the judge says of each question."""
    if verify is not None:
        return tuple((question, _judgement(verify(question))) for question in questions)
    judgements = judge_all(questions)
    if len(judgements) != len(questions):
        raise RuntimeError(f"{len(judgements)} judgements for {len(questions)} questions")
    return tuple((question, _judgement(judgement)) for question, judgement in zip(questions, judgements))


def different(questions: List[SignatureQuestion]) -> List[SignatureQuestion]:
    """Each question once."""
    return list({question.fingerprint: question for question in questions}.values())


def good_prints(judged: Iterable[Judged]) -> bytes:
    """The fingerprints of the signatures that are good."""
    return b"".join(question.fingerprint for question, judgement in judged if judgement is Judgement.GOOD)


def given_prints(verify: Optional[Judge], fingerprints: Optional[Iterable[Value]]) -> Optional[bytes]:
    """The fingerprints that were handed in, if they were: nobody is asked then."""
    if verify is not None and fingerprints is not None:
        raise ValueError("verify and fingerprints exclude each other")
    return None if fingerprints is None else _prints(fingerprints)


def check_flag(name: str, flag: bool) -> None:
    if not isinstance(flag, bool):
        raise TypeError(f"{name}: True or False is wanted, not {type(flag).__name__}")


def identity_of(octets: bytes) -> Identity:
    return Certificate.from_der(octets).identity


def _check_target(query: Query, target: Optional[Value]) -> None:
    """Raises ValueError if the last certificate of the path is not the one that the caller names."""
    path = query.certificates[1:]
    if target is None or len(path) > _MOST:
        return
    named = der_of(target, "target")
    if path[-1:] != [named]:
        query.questions()  # what cannot be read is refused first
        there = f"that is {identity_of(path[-1])}" if path else "the chain is empty"
        raise ValueError(f"the target is not the last certificate of the chain: it is {identity_of(named)}; {there}")


def result_of(answer: VerdictAnswer, words: Mapping[int, str], certificates: Sequence[bytes]) -> Result:
    """The verdict of an answer about these certificates, the anchor first, with its numbers in words. A number that has none raises."""
    if answer.verdict not in words:
        raise RuntimeError(f"the library for C answered {answer.verdict}, which is no verdict")
    verdict = Verdict(words[answer.verdict])
    if verdict in (Verdict.VALID, Verdict.NOT_FOUND, Verdict.GAVE_UP):
        return Result(verdict)
    reason: Union[Reason, RevocationReason, None] = None
    if verdict is not Verdict.UNKNOWN:
        reason = Reason(answer.reason) if verdict is Verdict.INVALID else RevocationReason(answer.reason)
    decides = identity_of(certificates[answer.certificate]) if answer.certificate else None
    return Result(verdict, answer.certificate, reason, decides=decides)


def why_not_of(diagnosis: Diagnosis, target: Identity) -> WhyNot:
    """What the numbers say in words. One that has none raises."""
    if diagnosis.why == TARGET_AT_FAULT:
        return WhyNot(target, Reason(diagnosis.reason))
    if diagnosis.why == GAVE_UP:
        return WhyNot(target, gave_up=True)
    if diagnosis.why != PATHS_END:
        raise RuntimeError(f"the library for C answered {diagnosis.why}, which does not say why no path is found")
    above, anchors = (tuple(map(identity_of, them)) for them in (diagnosis.above, diagnosis.anchors))
    return WhyNot(target, None, above, anchors, tuple((identity_of(one), Reason(rank)) for one, rank in diagnosis.obstacles))


def with_alarms(result: Result, query: Query, judged: Sequence[Judged], good: bytes, leave_out: bool,
                verdict_of: Callable[[Query], VerdictAnswer]) -> Result:
    """A result that somebody may accept, with what stands against it. Statements that nobody could judge are left out if that was asked for,
    and the result names them.

    The library is asked once more for its questions, if some statements may contradict each other or nobody could judge a signature; and for
    the verdict at most 15 times more, if so many statements of an issuer have one number or the same times.
    """
    if result.verdict not in (Verdict.VALID, Verdict.UNKNOWN):
        return result
    serials = {Certificate.from_der(one).serial for one in query.certificates[1:]}
    rivals = Rivals(query.statements, serials)
    if not rivals and all(judgement in (Judgement.GOOD, Judgement.WRONG) for _, judgement in judged):
        return result
    stands = standing_of(query, _said_of(judged, good))
    unjudged = tuple(query.handed(at) for at, it in enumerate(stands) if it.standing is Standing.UNJUDGED)
    alarms: List[Alarm] = []
    if unjudged and leave_out:
        result = dataclasses.replace(result, ignored=result.ignored + tuple((it, Unjudged((it,))) for it in unjudged))
    elif unjudged:
        alarms.append(Unjudged(unjudged))
    try:
        for order in rivals.orders(stands):
            other = result_of(verdict_of(query.in_order(order)), VERDICT_WORDS, query.certificates)
            if other != result:
                alarms.append(Contradiction(dataclasses.replace(other, target=result.target)))
                break
    except ValueError:
        alarms.append(Contradiction())
    if rivals.are_split(stands) and not any(isinstance(it, Contradiction) for it in alarms):
        alarms.append(Contradiction())
    return dataclasses.replace(result, alarms=tuple(alarms))


Raising = TypeVar("Raising", bound="Result")


def without_alarms(result: Raising) -> Raising:
    """The result itself; raises the first alarm of one that is valid."""
    if result.verdict is Verdict.VALID and result.alarms:
        raise result.alarms[0]
    return result


def _said_of(judged: Sequence[Judged], good: bytes) -> Callable[[bytes], Judgement]:
    """What is said of a question with a fingerprint: if nobody was asked, those that were handed in are good and all others are wrong."""
    if judged:
        said = {question.fingerprint: judgement for question, judgement in judged}
        return lambda fingerprint: said.get(fingerprint, Judgement.NOT_SERVED)
    prints = {good[at:at + 32] for at in range(0, len(good), 32)}
    return lambda fingerprint: Judgement.GOOD if fingerprint in prints else Judgement.WRONG


class Case(NamedTuple):
    """A query whose signatures were judged: the fingerprints of the good ones, what the judge said, and what was left out."""

    query: Query
    good: bytes
    judged: Tuple[Judged, ...]
    ignored: Tuple[Ignored, ...]
    purpose: Optional[str]
    leave_out: bool

    def result(self, answer: VerdictAnswer, verdict_of: Callable[[Query], VerdictAnswer]) -> Result:
        """What the library answered, and whom it is about, as far as keyUsage and the statements let it; `verdict_of` answers the same with
        the statements in another order. Raises an Alarm."""
        path = self.query.certificates
        about = identity_of(path[-1]) if 1 < len(path) <= 1 + _MOST else None
        result = dataclasses.replace(result_of(answer, VERDICT_WORDS, path), target=about, judgements=self.judged, ignored=self.ignored)
        if result.verdict is not Verdict.INVALID and not goes_with(path[-1], self.purpose):
            return dataclasses.replace(result, verdict=Verdict.INVALID, certificate=len(path) - 1, reason=Reason.PURPOSE, decides=about)
        return without_alarms(with_alarms(result, self.query, self.judged, self.good, self.leave_out, verdict_of))


def judged_case(anchor: Value, chain: Iterable[Value], statements: Iterable[Value], at: Moment, purpose: Optional[str], verify: Optional[Judge],
                fingerprints: Optional[Iterable[Value]], target: Optional[Value], ignore_unreadable: bool, profile: Profile) -> Case:
    """The query of `validate`, and what the judge says of its questions."""
    given = given_prints(verify, fingerprints)
    check_flag("ignore_unreadable", ignore_unreadable)
    moment, asked_for = seconds_of(at), purpose_of(purpose)
    # Of a longer path so many certificates are handed on that the library says that it is too long.
    query = Query(anchor, listed("chain", chain, _MOST + 1), statements, moment, asked_for, profile)
    ignored = query.leave_out_unreadable() if ignore_unreadable else ()
    _check_target(query, target)
    judged = judged_by(different(ask(query)), verify) if given is None else ()
    return Case(query, good_prints(judged) if given is None else given, judged, ignored, purpose, ignore_unreadable)


def validate(
    anchor: Value,
    chain: Iterable[Value],
    statements: Iterable[Value],
    at: Moment,
    purpose: Optional[str] = None,
    verify: Optional[Judge] = None,
    *,
    fingerprints: Optional[Iterable[Value]] = None,
    target: Optional[Value] = None,
    ignore_unreadable: bool = False,
    profile: Profile = Profile.STATED,
) -> Result:
    """The verdict on a path by statements at hand, without a store.

    Of the anchor the name and the key alone are used. The chain goes from the anchor's side to the certificate in question, which is the
    last; if a target is given, it has to be that one. `path_to` puts certificates in this order. Statements are lists (CRLs) and OCSP
    responses in any order; one that no issuer of the path signed changes nothing. Values are octets of DER, what `load` or
    `Certificate.from_der` answered, or objects of the package cryptography.

    The moment is in seconds from 1970-01-01T00:00:00Z, a datetime with a zone, or a text: ISO 8601 with a zone, YYYYMMDDHHMMSSZ, or
    `now`. The purpose is a name (`serverAuth`, `clientAuth`, `codeSigning`, `emailProtection`, `timeStamping`, `OCSPSigning`) or an object
    identifier in dotted form; None asks for none.

    `verify` is called with each `SignatureQuestion` that counts, once, and answers True or False or a `Judgement`; it has to give one question
    one answer. Without it `signatures.judge_all` judges. If fingerprints are given, nobody is asked: they are those of the signatures
    that were found good elsewhere, and no other is accepted.

    A statement that cannot be read refuses the question. With `ignore_unreadable` it is left out, as if it had not been handed in, and
    `Result.ignored` names it: the verdict may then rest on an older statement. The same holds of a statement that may be of an issuer of the
    path, and whose signature nobody could judge (NOT_SERVED, REFUSED): Unjudged is raised if the verdict would be valid.

    Of two statements of one issuer that contradict each other, with one number or the same times, the first counts. If the verdict would be
    valid, and in another order is not, Contradiction is raised. Where the verdict is UNKNOWN both are in `Result.alarms`.

    With one of the six purposes that have a name, the keyUsage of the certificate in question has to go with it too (RFC 5280, 4.2.1.12).

    In the profile WIDE a list that is published at a point speaks of the certificates whose cRLDistributionPoints name that point; in STATED
    it cannot be read. In WIDE alone responses by SHA-256 count, and name constraints on mail addresses and on hosts of URIs are processed.
    It refuses certificates of the chain in which points or these constraints are malformed.

    Raises a Fault if a certificate or a statement cannot be read, Unjudged and Contradiction, ValueError for a moment, a purpose, a target or
    a fingerprint that is none, and TypeError for arguments and answers of a judge that are of another kind.
    """
    case = judged_case(anchor, chain, statements, at, purpose, verify, fingerprints, target, ignore_unreadable, profile)
    return case.result(case.query.verdict(case.good), lambda query: query.verdict(case.good))
