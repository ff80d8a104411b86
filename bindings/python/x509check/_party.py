"""A relying party with a store that lasts: the process of `x509check session` that has it open, for any number of threads."""

import contextlib
import dataclasses
import functools
import os
import stat
import threading
import warnings
from typing import Callable, Dict, Iterable, Iterator, List, Mapping, NamedTuple, NoReturn, Optional, Sequence, Tuple, TypeVar, Union

from . import _lines
from ._arguments import Moment, Value, der_of, dotted_purpose, listed, moment_text, octets_of, purpose_of, seconds_of
from ._certificates import Certificate
from ._contradictions import Contradictions
from ._desk import Desk
from ._faults import Fault
from ._held import Listing, key_of, listing_in
from ._key_usage import goes_with
from ._lines import Answer, Word
from ._link import Ends, Forked, Garbled, Link, PartyError, ProcessEnds, PartyEnded, SocketEnds
from ._names import Identity
from ._peers import for_purpose, gave_up, sent_by
from ._pem import Path
from ._profile import Profile
from ._program import front_of, program_path
from ._query import Limits, Search
from ._questions import SignatureQuestion, ask_within
from ._reference import Reference, speaks_for
from ._statement_times import is_response
from ._verdicts import Judge, Judged, Reason, Result, Verdict, good_prints, identity_of, judged_by, why_not_of
from .signatures import BadLine, Judgement, Printed, read_printed

T = TypeVar("T")
# How often a call begins anew because another one made the party forget what was said of signatures.
_TRIES = 8
_FINGERPRINT_OCTETS = _lines.FINGERPRINT_DIGITS // 2
# A path has at most so many certificates, its anchor with it.
_MOST = 129
# So many links behind a name are followed, as systems do.
_MOST_LINKS = 40
# Of so many certificates it is kept whom they name.
_NAMED = 1024


class _Named(NamedTuple):
    """A certificate, and whom it names."""

    octets: bytes
    identity: Identity


class Refused(PartyError):
    """The program refused a request, or a verdict is withheld, as a statement that the store did not take contradicts it (the answer is `6
    contradicted: ..`). Of a certificate or a statement that is refused, `what` says which argument it is, and `number`,
    `name` and `offset` are its first fault; of other failures they are None (no memory, a store that fails)."""

    def __init__(self, answer: Answer, titles: Optional[Dict[str, str]] = None, judgements: Tuple[Judged, ...] = ()):
        self.answer = answer
        self.judgements = judgements
        """What was said of the signatures of a statement that was then refused."""
        found = _lines.refusal_in(answer.text)
        self.what: Optional[str] = None if found is None else (titles or {}).get(found.operand, found.operand)
        self.number: Optional[int] = None if found is None else found.number
        self.name: Optional[str] = None if found is None else found.name
        self.offset: Optional[int] = None if found is None else found.offset
        super().__init__(str(answer) if found is None else f"{self.what}: {found.told}")


@dataclasses.dataclass(frozen=True)
class Delivery:
    """What became of the facts of a statement that was taken: the store holds what is newest. Printed, it is the program's line.

    It has no truth of its own: a statement of which nothing is new is taken too.
    """

    stored: int
    kept: int
    """Facts that changed nothing, since what is held is as new."""
    contradicted: int
    """Facts that say something else under the same number or time: two statements of one issuer contradict each other. Such a fact was not
    taken: the store keeps what it held, and this one may be the one that revokes (`alarm`)."""
    judgements: Tuple[Judged, ...] = dataclasses.field(default=(), compare=False, repr=False)
    """What was said of each signature that was asked about."""

    @property
    def alarm(self) -> Optional[str]:
        """Why the statement does not count as taken: it contradicts what the store holds."""
        if not self.contradicted:
            return None
        return (f"{self.contradicted} of what the statement says contradicts what the store holds under the same number or time: the issuer"
                " signed both, and the store keeps the first")

    def require_taken(self) -> "Delivery":
        """The delivery itself; raises Contradicted if there is an alarm."""
        if self.contradicted:
            raise Contradicted(self)
        return self

    def __bool__(self) -> NoReturn:
        raise TypeError("a delivery has no truth of its own: look at its counts")

    def __str__(self) -> str:
        return f"stored {self.stored} kept {self.kept} contradicted {self.contradicted}"


class Contradicted(ValueError):
    """A statement contradicts what the store holds; `delivery` has the counts."""

    def __init__(self, delivery: Delivery):
        self.delivery = delivery
        super().__init__(delivery.alarm)

    def __reduce__(self) -> Tuple[object, ...]:
        return type(self), (self.delivery,)


@dataclasses.dataclass(frozen=True)
class PartyLimits:
    """How long a call may take, in seconds."""

    seconds: float = 30.0
    """From the call to its answer, without the time in which a process is started."""
    start_seconds: float = 60.0
    """Until a process that is started has opened the store and been told what is believed."""

    def __post_init__(self) -> None:
        for name, value in dataclasses.asdict(self).items():
            if isinstance(value, bool) or not isinstance(value, (int, float)):
                raise TypeError(f"{name}: seconds are wanted, not {type(value).__name__}")
            if not 0 < value <= threading.TIMEOUT_MAX:
                raise ValueError(f"{name} is out of range")


class Party:
    """A store, and the process of `x509check session` that has it open. A store has one process at a time.

        with x509check.Party("store") as party:
            party.deliver(issuer, revocation_list)
            print(party.validate_peer(certificates, anchors, "now", "serverAuth", name="www.example"))

    Any number of threads may call; their questions are in flight at once. If the process ends, it is started again over the same store and
    told again what is believed, and the requests without an answer are sent once more: a statement that is delivered twice is kept once. A
    call that takes longer than its limit ends the process, since what that still writes would be read as the answer to another request. An
    exception that a signal handler raises in a call leaves the party as it was; its request may be answered or not.

    In a forked child a party over a store raises Forked: the child has to make one over another store, or connect to one that is served. A
    party that is connected to a socket connects anew there.

    What was said of signatures is believed as long as the party is there, or until `forget`: 40 octets in the process and some 200 here for
    each signature. What a store holds outlives both. A verdict takes the program a third of a millisecond and Python about as much, however
    long the lists are; a value of more than half a megabyte is written to a file first.

    Values are octets of DER, what `load` or `Certificate.from_der` answered, or objects of the package cryptography. All calls raise
    PartyEnded if the process ended and does not come back, Garbled for an answer that is none, Refused if the program refuses the request,
    and TimeIsUp; all are PartyErrors.
    """

    def __init__(
        self, store: Path, verdicts: Optional[Path] = None, *, program: Union[None, str, Sequence[str]] = None,
        verify: Optional[Judge] = None, limits: PartyLimits = PartyLimits(), folder: Optional[str] = None,
        profile: Profile = Profile.STATED,
    ) -> None:
        """Opens the store, or makes it if no file is there.

        `verdicts` names a file of fingerprints whose signatures are good. `program` is the program, or its name and words in front of the
        command; without it, it is looked for as by `explain`. `verify` judges signatures, as for `validate`. `folder` is where a value is
        kept, as long as it is asked about, that is too long for a line of 2^20 octets; without it, it is where the system keeps such files.
        A store is made in `profile`, and opened only in the one that it was made in.

        Raises PartyEnded if the store cannot be opened, ProgramMissing, and TimeIsUp.
        """
        front = [program] if isinstance(program, str) else list(program or [program_path()])
        options = [] if verdicts is None else ["--verdicts", os.fsdecode(verdicts)]
        words = [*front, *front_of(_profile(profile)), "session", "--store", os.fsdecode(store), *options]
        # The first request of a process is answered once the store is open, and changes nothing in it.
        self._begin(lambda: ProcessEnds(words), ["forget"], verify, limits, folder, profile)

    @classmethod
    def connect(
        cls, path: Path, *, verify: Optional[Judge] = None, limits: PartyLimits = PartyLimits(), folder: Optional[str] = None,
        profile: Profile = Profile.STATED,
    ) -> "Party":
        """The party that `python3 -m x509check.party` serves at a Unix socket. Several processes of a host share its store, and what it
        believes: whoever may connect is trusted to judge signatures. `forget` is about what this party said.

        Requests carry values and name no files: one that is longer than the server takes is Refused (`5 line too long`), and `folder` has
        no meaning any more. `profile` is that of the store, in which `why_not` is explained. Raises PartyEnded if nobody is
        there.
        """
        party, name = cls.__new__(cls), os.fsdecode(path)
        party._begin(lambda: SocketEnds(name, limits.start_seconds), [], verify, limits, None, _profile(profile), is_connected=True)
        return party

    def _begin(
        self, open_ends: Callable[[], Ends], greeting: List[str], verify: Optional[Judge], limits: PartyLimits, folder: Optional[str],
        profile: Profile, is_connected: bool = False,
    ) -> None:
        if not isinstance(limits, PartyLimits):
            raise TypeError(f"limits: PartyLimits are wanted, not {type(limits).__name__}")
        self._open_ends, self._greeting, self.verify, self._limits, self._folder = open_ends, greeting, verify, limits, folder
        self._profile, self._is_connected, self._most = profile, is_connected, None if is_connected else _lines.MOST
        self._process_folder = os.getcwd()
        self._contradictions = Contradictions()
        self._is_closed = False
        self._desk = Desk(open_ends, greeting)
        try:
            self._desk.ask([], self._limits)
        except BaseException:
            self._is_closed = True
            self._desk.close(0)
            raise

    @property
    def _link(self) -> Optional[Link]:
        return self._desk.link

    @property
    def _believed(self) -> Mapping[str, None]:
        return self._desk.believed

    @property
    def _forgotten(self) -> int:
        return self._desk.forgotten

    def _here(self) -> Desk:
        """The desk of this process. That of a forked child begins with what its parent's believed."""
        if self._desk.process_id == os.getpid():
            return self._desk
        if not self._is_connected:
            raise Forked("the party was made before a fork, and its store is open in the parent: make another one in the child")
        with _renewing:
            if self._desk.process_id != os.getpid():
                self._desk = Desk(self._open_ends, self._greeting, list(self._desk.believed))
        return self._desk

    # ---- one request

    def ask(self, line: str) -> Answer:
        """The answer to a request as it stands in a line (docs/REFERENCE.md, "session"). Names of files in it are the process's, and have to
        be those of regular files: a request to a socket names none.

        An answer may be a failure of the program. Raises ValueError for a line that is no request, for another file, and for `quit`, which
        is `close`.
        """
        return self.ask_together([line])[0]

    def ask_together(self, lines: Sequence[str]) -> List[Answer]:
        """The answers to requests between which none of another caller is answered; otherwise as `ask`."""
        for line in lines:
            _lines.check_request(line, self._most)
            for word in _lines.request_in(line).files:
                self._check_file(word)
        return self._ask(lines)

    def _check_file(self, word: str) -> None:
        """Raises ValueError for a file of which the process would not come to the end, or that is a pipe of its own."""
        if self._is_connected:
            raise ValueError(f"a request to a socket names no file: {word[:80]!r}")
        name = _lines.name_in(word)
        if name is None:
            return    # (the process says so)
        path = os.path.join(os.fsencode(self._process_folder), name)
        try:
            is_regular = not _is_of_a_process(path) and stat.S_ISREG(os.stat(path).st_mode)
        except (OSError, ValueError):
            return    # (the process cannot read it either, and says so)
        if not is_regular:
            raise ValueError(f"no regular file: {word[:80]!r}")

    @contextlib.contextmanager
    def _written(self, words: Sequence[Word]) -> Iterator[List[str]]:
        """The words of a request as text. What is too long for a line of a process stands in files; to a socket everything is written."""
        with _lines.written(words, self._folder, self._most) as texts:
            yield texts

    def _request(self, words: Sequence[str]) -> Answer:
        """The answer to a request of these words, whose files are ours."""
        line = " ".join(words)
        _lines.check_request(line, self._most)
        return self._ask([line])[0]

    def _ask(self, lines: Sequence[str]) -> List[Answer]:
        """The answers to requests that are written together, if need be by a second process."""
        desk = self._here()
        try:
            return desk.ask(lines, self._limits)
        except PartyEnded as cause:
            if cause.is_final:
                raise
            return desk.ask(lines, self._limits)

    def _undisturbed(self, work: Callable[[], T]) -> T:
        """What work answers if nobody made the party forget meanwhile what the work rests on."""
        for _ in range(_TRIES):
            before = self._forgotten
            try:
                found = work()
            except Refused:
                if self._forgotten == before:
                    raise
            else:
                if self._forgotten == before:
                    return found
        raise PartyError(f"others made the party forget {_TRIES} times during one call")

    # ---- signatures

    def believe(self, fingerprints: Iterable[Value]) -> None:
        """Signatures with these fingerprints, of 32 octets each, are good from now on."""
        texts = []
        for at, one in enumerate(listed("fingerprints", fingerprints)):
            octets = octets_of(one, f"fingerprints[{at}]")
            if len(octets) != _FINGERPRINT_OCTETS:
                raise ValueError(f"fingerprints[{at}] has {len(octets)} octets and not {_FINGERPRINT_OCTETS}")
            texts.append(octets.hex())
        self._believe(list(dict.fromkeys(texts)))

    def _believe(self, texts: Sequence[str]) -> None:
        if texts:
            for answer in self._ask([f"believe {text}" for text in texts]):
                if answer.status != 0:
                    raise Refused(answer)

    def forget(self) -> None:
        """What was said of signatures is not believed any more; what is in the file of verdicts stays so, and so does what the store holds.
        A `deliver` or `validate_peer` that is at work judges anew."""
        answer = self._ask(["forget"])[0]
        if answer.status != 0:
            raise Refused(answer)

    def judge(self, kind: str, issuer: Value, value: Value) -> Tuple[Judged, ...]:
        """Judges the signatures that count for a value of the kind `cert`, `crl` or `ocsp` under an issuer, and believes the good ones:
        each question with its judgement, in the order of `prints` (docs/REFERENCE.md).

        Raises Refused if the issuer or the value cannot be read, and JudgeMissing if nothing is there that judges.
        """
        return self._undisturbed(lambda: self._judge(kind, der_of(issuer, "issuer"), der_of(value, "value"), "value"))

    def _judge(self, kind: str, issuer: bytes, value: bytes, title: str) -> Tuple[Judged, ...]:
        with self._written(["prints", "parts", _lines.plain(kind), issuer, value]) as words:
            answer = self._request(words)
            if answer.status != 0:
                raise Refused(answer, {words[4]: title, words[3]: "issuer"})
        try:
            asked = read_printed(kind, answer.lines)
        except BadLine as cause:
            raise Garbled(f"asked about a {kind}, the program printed other lines: {cause}") from cause
        for one in asked:
            _check_parts(one, issuer, value)
        return self._judged([one.question for one in asked])

    def _judged(self, questions: Sequence[SignatureQuestion]) -> Tuple[Judged, ...]:
        """What the judge says of each question, of which those that are believed are not asked again; and believes what is good."""
        known = {one.fingerprint for one in questions if one.fingerprint.hex() in self._believed}
        unknown = [one for one in questions if one.fingerprint not in known]
        judged = judged_by(unknown, self.verify) if unknown else ()
        try:
            self._believe([one.fingerprint.hex() for one, judgement in judged if judgement is Judgement.GOOD])
        except Refused as refused:
            if refused.answer == _lines.TOO_MANY:
                self.forget()    # (and whoever asks begins anew)
            raise
        said = {one.fingerprint: judgement for one, judgement in judged}
        return tuple((one, said.get(one.fingerprint, Judgement.GOOD)) for one in questions)

    # ---- statements and verdicts

    def deliver(self, issuer: Value, statement: Value) -> Delivery:
        """Judges the signatures of a revocation list or an OCSP response under the certificate of its issuer, and delivers it. Once the
        call has returned, the store has it, whatever happens to the process; but what contradicts what it holds it does not take:
        `Delivery.alarm` says so, and `Delivery.require_taken` raises.

        Raises Refused if it cannot be read, or if its signature is not good or the like: `number` and `name` say so (docs/REFERENCE.md,
        "Faults"), and `judgements` has what was said of its signatures.
        """
        return self._undisturbed(lambda: self._deliver(der_of(issuer, "issuer"), der_of(statement, "statement")))

    def _deliver(self, issuer: bytes, statement: bytes) -> Delivery:
        judged = self._judge(kind_of(statement), issuer, statement, "statement")
        with self._written(["deliver", issuer, statement]) as words:
            answer = self._request(words)
            if answer.status != 0:
                raise Refused(answer, {words[2]: "statement", words[1]: "issuer"}, judged)
        _, stored, _, kept, _, contradicted = answer.text.split(" ")
        if int(contradicted):
            self._contradictions.note(issuer, statement)
        return Delivery(int(stored), int(kept), int(contradicted), judged)

    def check(self, anchor: Value, chain: Iterable[Value], at: Moment, purpose: Optional[str] = None) -> Result:
        """The verdict on a path, by what is believed and what the store holds: no signature is judged. The chain goes from the anchor's
        side to the certificate in question, as for `validate`; moment and purpose are as there too, and so is keyUsage.

        Raises a Fault if a certificate cannot be read, and Refused if it can in the stated profile alone, and the store is wide.
        """
        certificates = [_named(one) for one in (anchor, *listed("chain", chain, _MOST))]
        if not 1 < len(certificates) <= _MOST:
            raise ValueError(f"chain: 1 to {_MOST - 1} certificates are wanted")
        with self._written(["check", *_asked(at, purpose), *(one.octets for one in certificates)]) as words:
            answer = self._request(words)
        if answer.status > _lines.UNKNOWN:
            raise Refused(answer, {**dict.fromkeys(words, "chain"), words[-len(certificates)]: "anchor"})
        result = _result(answer.text, [one.identity for one in certificates])
        self._check_contradictions(result, certificates, at)
        if result.verdict is Verdict.INVALID or goes_with(certificates[-1].octets, purpose):
            return result
        return dataclasses.replace(result, verdict=Verdict.INVALID, certificate=len(certificates) - 1, reason=Reason.PURPOSE,
                                   decides=result.target)

    def find(
        self, target: Value, anchors: Iterable[Value], others: Iterable[Value], at: Moment, purpose: Optional[str] = None, *,
        name: Optional[Reference] = None,
    ) -> Result:
        """A path from one of the anchors to the certificate in question, among others in any order, and its verdict, by what is believed
        and what the store holds: no signature is judged. Path, verdict, name and keyUsage are as for `x509check.validate_peer`;
        `Result.why_not` is None, unless keyUsage is why.

        Raises a Fault if a certificate cannot be read, and Refused if it can in the stated profile alone, and the store is wide.
        """
        tops, read = ([_named(one) for one in listed(what, many)] for what, many in (("anchors", anchors), ("others", others)))
        last = _named(target)
        if not tops:
            raise ValueError("anchors: one at least is wanted")
        speaks = None if name is None else speaks_for(last.octets, name)
        result = for_purpose(self._find([tops, read, [last]] if read else [tops, [last]], at, purpose), last.octets, purpose)
        if result.verdict is Verdict.VALID and speaks is False:
            result = dataclasses.replace(result, verdict=Verdict.OTHER_NAME)
        return dataclasses.replace(result, target=last.identity, name=None if name is None else str(name))

    def _find(self, rows: Sequence[Sequence[_Named]], at: Moment, purpose: Optional[str]) -> Result:
        """What is found in rows of certificates: the anchors first, and the target last."""
        asked = _asked(at, purpose)
        with self._written(["find", *asked, *(b"".join(one.octets for one in row) for row in rows)]) as words:
            answer = self._request(words)
        names = words[1 + len(asked):]
        if answer.status > _lines.UNKNOWN:
            raise Refused(answer, {**dict.fromkeys(names, "others"), names[-1]: "target", names[0]: "anchors"})
        places = [line.split(" ")[1:] for line in answer.lines[:-1]]
        if places and (places[0][0], places[-1]) != (names[0], [names[-1], "1"]):
            raise Garbled("a path that does not go from an anchor to the certificate in question")
        path = [_named_at(word, int(number), dict(zip(names, rows))) for word, number in places]
        result = _result(answer.lines[-1], [one.identity for one in path])
        self._check_contradictions(result, path, at)
        return result

    def _check_contradictions(self, result: Result, path: Sequence[_Named], at: Moment) -> None:
        if result.verdict in (Verdict.VALID, Verdict.UNKNOWN) and self.contradicted([one.octets for one in path], at):
            raise Refused(_lines.CONTRADICTED)

    def validate_peer(
        self, certificates: Iterable[Value], anchors: Iterable[Value], at: Moment, purpose: Optional[str] = None, *,
        name: Optional[Reference] = None,
    ) -> Result:
        """The verdict on what a peer sent, by what the store holds: `certificates` has the one in question first, as TLS sends it, and
        then others in any order. Path, verdict, name and `Result.why_not` are as for `x509check.validate_peer`. The signatures of the
        certificates are judged first, each once as long as it is believed; those of statements were when they were delivered. If there are
        more to judge than `Limits().signatures`, nobody is asked, and the verdict is GAVE_UP.

        Raises a Fault if a certificate cannot be read, Refused as `find`, BadReference for a name that is none, and JudgeMissing.
        """
        sent, tops, moment, asked_for = sent_by(certificates), listed("anchors", anchors), seconds_of(at), purpose_of(purpose)

        def work() -> Result:
            # (in the stated profile whatever the party reads can be read: what is refused in the wide one, the party refuses)
            search = Search(tops, sent[0], sent[1:], [], moment, asked_for)
            asked = ask_within(search, Limits().signatures)
            if asked is None:
                return dataclasses.replace(gave_up(search), name=None if name is None else str(name))
            judged = self._judged(asked)
            result = self.find(sent[0], tops, sent[1:], moment, purpose, name=name)
            if result.verdict is Verdict.NOT_FOUND and result.target is not None and result.why_not is None:
                explained = Search(tops, sent[0], sent[1:], [], moment, asked_for, profile=self._profile)
                result = dataclasses.replace(result, why_not=why_not_of(explained.diagnosis(good_prints(judged)), result.target))
            return dataclasses.replace(result, judgements=judged)
        return self._undisturbed(work)

    # ---- what the store holds

    def listing(self) -> Listing:
        """The lists and the responses that the store holds, without their entries. Raises Refused if the program is older than 1.0.1."""
        answer = self.ask("list")
        if answer.status != 0:
            raise Refused(answer)
        return listing_in(answer.lines)

    def revoked_when_lapsed(self, path: Iterable[Value]) -> bool:
        """Whether a statement that the store holds keeps a path shut that is UNKNOWN, and that somebody would accept for that: it revoked a
        certificate of the path when it spoke, or may have done so. `path` goes from the anchor to the certificate in question.

        For each certificate, and each statement of its issuer, the party is asked for the verdict on it alone under its issuer, without a
        purpose, at the end of the statement, or of the certificate if that comes first. False only if each of these verdicts is VALID or
        UNKNOWN; a statement that ended before the certificate began says nothing of it.

        The signatures of the certificates are judged. Raises a Fault, and other errors as `check` and `listing`: then nothing may be
        accepted.
        """
        certificates = [Certificate.from_der(one) for one in listed("path", path, _MOST)]
        if not 1 < len(certificates):
            raise ValueError("path: an anchor and a certificate are wanted")

        def work() -> bool:
            held = self.listing()
            for issuer, certificate in zip(certificates, certificates[1:]):
                self._judge("cert", issuer.octets, certificate.octets, "path")
                of_issuer = held.of_issuer(key_of(issuer))
                about = [one for one in of_issuer.responses if one.serial == certificate.serial]
                if not all(self._clears(one.since, one.until, issuer, certificate) for one in (*of_issuer.lists, *about)):
                    return True
            return False
        return self._undisturbed(work)

    def _clears(self, since: int, until: int, issuer: Certificate, certificate: Certificate) -> bool:
        """Whether a statement does not revoke a certificate, at the last moment at which both count."""
        if until < certificate.not_before:
            return True
        moment = min(until, certificate.not_after)
        if moment < max(since, certificate.not_before):
            return False
        return self.check(issuer, [certificate], moment).verdict in (Verdict.VALID, Verdict.UNKNOWN)

    # ---- statements that contradict held ones

    def note_contradicted(self, issuer: bytes, statement: bytes) -> None:
        """Remembers a statement that was delivered by `ask` and counted as `contradicted`; `deliver` does so itself."""
        self._contradictions.note(issuer, statement)

    def contradicted(self, path: Sequence[bytes], at: Moment) -> bool:
        """Whether a statement revokes a certificate of a path, from the anchor on, that was delivered to this party and contradicts what the
        store holds: nothing may be accepted on the path then. What the store holds a newer statement in place of counts no more."""
        return any(self._contradictions.are_alarms(issuer, certificate, at, self.deliver) for issuer, certificate in zip(path, path[1:]))

    # ---- the end

    def close(self) -> None:
        """Ends the process, once it has answered what it was asked, or the limit of a call has passed. No call follows. In a forked child
        nothing ends: the process is the parent's."""
        if self._desk.process_id == os.getpid():
            self._desk.close(self._limits.seconds)
            self._is_closed = True

    def __enter__(self) -> "Party":
        return self

    def __exit__(self, *_: object) -> None:
        self.close()

    def __del__(self) -> None:
        desk = getattr(self, "_desk", None)
        if desk is not None and not self._is_closed and desk.process_id == os.getpid():
            warnings.warn(f"{self!r} was not closed", ResourceWarning, source=self)
            self.close()


def _is_of_a_process(path: bytes) -> bool:
    """Whether a file that is there is named as a descriptor, which is another one in another process: /dev/stdin is its own requests there."""
    for _ in range(_MOST_LINKS):
        folder = os.path.realpath(os.path.dirname(path))
        if (folder + b"/").startswith((b"/dev/", b"/proc/")):
            return True
        path = os.path.join(folder, os.path.basename(path))
        if not os.path.islink(path):
            return False
        path = os.path.join(folder, os.readlink(path))
    return True


def kind_of(statement: bytes) -> str:
    """Whether octets are meant as a response or as a list, in the word for `prints`: by their first value inside, as `deliver` says."""
    return "ocsp" if is_response(statement) else "crl"


def _profile(profile: Profile) -> Profile:
    if not isinstance(profile, Profile):
        raise TypeError(f"profile: a Profile is wanted, not {type(profile).__name__}")
    return profile


# A forked child makes it anew, as a thread that it does not have may hold it.
_renewing = threading.Lock()


def _renew() -> None:
    global _renewing
    _renewing = threading.Lock()


os.register_at_fork(after_in_child=_renew)


@functools.lru_cache(maxsize=_NAMED)
def _identity_of(octets: bytes) -> Identity:
    return identity_of(octets)


def _named(value: Value) -> _Named:
    """A certificate and whom it names. Raises a Fault if it cannot be read."""
    octets = der_of(value)
    try:
        return _Named(octets, _identity_of(octets))
    except Fault:
        Certificate.from_der(value)  # which says where it came from too
        raise


def _check_parts(printed: Printed, issuer: bytes, value: bytes) -> None:
    """Raises Garbled unless the texts of a question are parts of the octets that were handed in."""
    question, signer = printed.question, issuer if printed.words.endswith("issuer") else value
    parts = ((question.message, value), (question.signature, value), (question.algorithm, value), (question.key, signer))
    if not all(part in whole for part, whole in parts):
        raise Garbled(f"{printed.words}: asked about other octets than those that were handed in")


def _asked(at: Moment, purpose: Optional[str]) -> List[Word]:
    """The words for a moment and a purpose."""
    return [moment_text(at), *([] if purpose is None else [f"purpose={dotted_purpose(purpose)}"])]


def _named_at(word: str, number: int, rows: Mapping[str, Sequence[_Named]]) -> _Named:
    row = rows.get(word, ())
    if not 0 < number <= len(row):
        raise Garbled(f"a path has a certificate that was not handed in: the one with the number {number} of {word[-80:]!r}")
    return row[number - 1]


def _result(line: str, path: Sequence[Identity]) -> Result:
    """What a verdict's line says of a path, of which there is none if nothing was found."""
    try:
        said = _lines.said_in(line, len(path) - 1)
    except ValueError as cause:
        raise Garbled(f"of a path of {len(path)} certificates it was answered {line[:80]!r}: {cause}") from cause
    decides = path[said.certificate] if said.certificate else None
    return Result(said.verdict, said.certificate, said.reason, path[-1] if path else None, decides, path=tuple(path))
