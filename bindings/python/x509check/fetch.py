"""Lists that come by themselves: what certificates say of where lists, responders and issuers are is asked over HTTP, and what comes is
delivered to a party.

    with x509check.Party("store") as party:
        report = x509check.fetch.Fetcher(party).fetch(certificates, anchors)
        for line in report.fetched:
            print(line)
        print(report.result)    # the party's verdict, by what it holds now

The party judges each signature before it takes anything. Addresses are taken from the certificates of a path that meets the conditions of
RFC 5280, 6.1, alone, except those of missing issuers (caIssuers). What cannot be had, is refused or is not served is told with its
address, and nothing is passed over. Addresses that are not public are not asked unless `Client.allow_private` says so.
"""

import dataclasses
import enum
import json
import os
import random
import time
from typing import Callable, Dict, Iterable, List, NamedTuple, NoReturn, Optional, Sequence, Set, Tuple

from . import _ocsp
from ._arguments import Moment, Value, listed, seconds_of
from ._certificates import Certificate
from ._contradictions import would_revoke
from ._held import HeldList, Listing, key_of
from ._http import Body, Client, HttpLimits, NotFetched, NotServed, Validators, is_public
from ._kept_files import replace_file
from ._lines import CONTRADICTED
from ._locations import BadLocations, Locations, Point, locations_of
from ._names import Identity
from ._party import Delivery, Party, Refused
from ._peers import sent_by, validate_peer
from ._pem import Kind, Path
from ._statement_times import list_until, list_window, response_until
from ._verdicts import Result
from .signatures import Judgement

__all__ = [
    "BadLocations", "BadMemory", "Body", "Client", "Fetched", "Fetcher", "HttpLimits", "Locations", "Memory", "NotFetched", "NotServed",
    "Outcome", "Point", "Report", "Schedule", "Validators", "is_public", "locations_of",
]
# Octets of a response and of a certificate, at most.
_SMALL = 1 << 20
# A path is completed by at most so many issuers that are fetched, and so many paths are asked about.
_MOST_ISSUERS, _MOST_PATHS = 8, 8


class Outcome(enum.Enum):
    """What became of an address. It has no truth of its own."""

    TAKEN = "taken"
    """A list or a response came, and the party took it; or a certificate came that signed the one that named the address."""
    UNCHANGED = "unchanged"
    """The server has what the party took before, and holds."""
    CONTRADICTED = "contradicted"
    """What came is signed, and says something else under the number or the times of a statement that the party holds: it counts for nothing,
    and its issuer has to say which of the two does."""
    REFUSED = "refused"
    """Octets came, and the party refused them, or they are no certificate of the issuer."""
    NOT_FETCHED = "not fetched"
    NOT_SERVED = "not served"
    """It was not asked: another scheme than http and https, an address that is not public, a list of a kind that is not served."""

    def __bool__(self) -> NoReturn:
        raise TypeError("an outcome has no truth of its own: compare it with Outcome.TAKEN")


@dataclasses.dataclass(frozen=True)
class Fetched:
    """An address, whose it is, and what became of it. Printed, it is one line."""

    outcome: Outcome
    kind: Kind
    url: str
    """Empty for a certificate that names no address, or whose addresses cannot be read."""
    about: Identity
    """The certificate that names the address."""
    why: str = ""
    delivery: Optional[Delivery] = None
    refused: Optional[Refused] = None
    """Of what the party refused, with its fault and offset."""
    until: Optional[int] = None
    """nextUpdate of what was taken or is unchanged, in seconds from 1970-01-01T00:00:00Z."""
    is_alarm: bool = False
    """Whether it is contradicted, and would revoke the certificate that names the address."""

    def __bool__(self) -> NoReturn:
        raise TypeError("what was fetched has no truth of its own: compare its outcome")

    def __str__(self) -> str:
        told = "" if self.until is None else f" until {_written(self.until)}"
        why = self.why or ("" if self.delivery is None else str(self.delivery))
        alarm = ": ALARM, it revokes the certificate and contradicts what is held" if self.is_alarm else ""
        return f"{self.outcome.value} {self.kind.value} {self.url or '-'}: {why}{alarm}{told}; named by {self.about}"


@dataclasses.dataclass(frozen=True)
class Report:
    """What became of each address, and the verdict of the party behind it. It has no truth of its own."""

    fetched: Tuple[Fetched, ...]
    result: Result
    """The verdict on the path to the certificate in question, behind all that was fetched: UNKNOWN says that of some certificate no current
    statement is held."""
    issuers: Tuple[bytes, ...]
    """Certificates that were fetched (caIssuers) and belong to the chain, as DER."""
    again: int
    """When to come again, in seconds from 1970-01-01T00:00:00Z."""

    def __bool__(self) -> NoReturn:
        raise TypeError("a report has no truth of its own: look at its result")


@dataclasses.dataclass(frozen=True)
class Schedule:
    """When to come again: a random part of a tenth of the time before the first nextUpdate of what was taken, within bounds, in seconds."""

    least: int = 300
    most: int = 86_400
    after_failure: int = 900
    """At most so long if an address failed."""
    whole: int = 86_400
    """A list is asked for whole at least once in so long, and in a quarter of the time for which it counts, whatever a server says of what it
    has: an answer on the way may have been somebody else's."""

    def again(self, now: int, fetched: Sequence[Fetched], chance: Callable[[], float] = random.random) -> int:
        """The moment, of a fetch at `now`. `chance` answers a number from 0 to 1."""
        untils = [one.until for one in fetched if one.until is not None]
        wait = float(self.most)
        if untils:
            left = min(untils) - now
            wait = left - 0.1 * left * chance()
        if any(one.outcome in (Outcome.REFUSED, Outcome.CONTRADICTED, Outcome.NOT_FETCHED) for one in fetched):
            wait = min(wait, self.after_failure)
        return now + int(min(max(wait, self.least), self.most))


class BadMemory(ValueError):
    """A file that does not hold what was noted of earlier fetches."""


class _Noted(NamedTuple):
    """What is noted of an address, under an issuer: what the server said, the list that it brought, and when it was sent whole."""

    validators: Validators
    number: int
    since: int
    until: int
    moment: int

    def is_held(self, lists: Iterable[HeldList]) -> bool:
        return any((one.number, one.since, one.until) == self[1:4] for one in lists)


class Memory:
    """What servers said of lists that were taken, so that they are not sent again: for each address, and the issuer under which it was
    delivered. What is noted counts as long as the store holds the list that it is about, and for a time (`Schedule.whole`)."""

    def __init__(self) -> None:
        self._noted: Dict[str, _Noted] = {}

    @staticmethod
    def _key(url: str, issuer: Certificate) -> str:
        return f"{issuer.identity.sha256} {url}"

    def of(self, url: str, issuer: Certificate) -> Optional[_Noted]:
        return self._noted.get(self._key(url, issuer))

    def note(self, url: str, issuer: Certificate, validators: Validators, held: Optional[HeldList], moment: int) -> None:
        """Notes what came whole at a moment, if the store holds that list now; else nothing is known of the address any more."""
        self._noted.pop(self._key(url, issuer), None)
        if held is not None and validators.headers():
            self._noted[self._key(url, issuer)] = _Noted(validators, held.number, held.since, held.until, moment)

    @classmethod
    def load(cls, path: Path) -> "Memory":
        """What a file holds. Raises BadMemory, and OSError."""
        memory = cls()
        with open(path, encoding="utf-8") as file:
            try:
                rows = json.load(file)
                for key, etag, last_modified, *numbers in rows:
                    texts = [key, *(it for it in (etag, last_modified) if it is not None)]
                    if not all(isinstance(it, str) for it in texts) or not all(type(it) in (int, type(None)) for it in numbers):
                        raise ValueError("a row is of another form")
                    # (a row of version 1.0.0 has one number: it does not say which list it is about, and counts for nothing)
                    if len(numbers) != 1:
                        number, since, until, moment = map(int, numbers)
                        memory._noted[key] = _Noted(Validators(etag, last_modified), number, since, until, moment)
            except (TypeError, ValueError, RecursionError) as cause:
                raise BadMemory(f"{os.fsdecode(path)}: {cause}") from cause
        return memory

    def save(self, path: Path) -> None:
        """Writes it to a file, which it is wholly or not at all. Raises OSError."""
        rows = [[key, it.validators.etag, it.validators.last_modified, *it[1:]] for key, it in sorted(self._noted.items())]
        replace_file(path, json.dumps(rows, indent=0).encode("ascii"))


class _Pair(NamedTuple):
    """A certificate, and one whose key signed it."""

    certificate: Certificate
    issuer: Certificate


class _Source(NamedTuple):
    """Addresses at which the same is to be had, one after the other."""

    kind: Kind
    urls: Tuple[str, ...]
    pair: _Pair


class Fetcher:
    """Fetches for a party."""

    def __init__(
        self, party: Party, client: Client = Client(), *, memory: Optional[Memory] = None, schedule: Schedule = Schedule(),
        seconds: float = 300.0, addresses: int = 64,
    ) -> None:
        """`client` has the limits of one address, and says whether private ones are asked. The addresses of one `fetch` take `seconds` at
        most, and are so many. The party's judge judges all signatures."""
        self._party, self._client, self._schedule = party, client, schedule
        self._seconds, self._addresses = seconds, addresses
        self.memory = Memory() if memory is None else memory

    def fetch(
        self, certificates: Iterable[Value], anchors: Iterable[Value], at: Moment = "now", *, lists: bool = True, responses: bool = True,
        issuers: bool = True,
    ) -> Report:
        """Fetches what speaks of the certificates on the path to a certificate: `certificates` has that one first, and others in any order.
        If no path is found that meets the conditions (RFC 5280, 6.1), nothing is asked, but issuers that are missing where paths end.

        Each distribution point is asked; of the names of one point, and of the responders of a certificate, one after the other until what
        one has is taken. `lists`, `responses` and `issuers` say what is asked for. `now` is the moment at which the party is asked, so that
        a response counts that was signed meanwhile.

        Raises a Fault if a certificate cannot be read, Refused if it can in the stated profile alone, and the store is wide, JudgeMissing,
        and other PartyErrors.
        """
        seconds_of(at)  # whether it is a moment
        return _Run(self, [Certificate.from_der(one) for one in sent_by(certificates)],
                    [Certificate.from_der(one) for one in listed("anchors", anchors)], at).report(lists, responses, issuers)


class _Run:
    """One fetch: what was asked so far, and when it has to end."""

    def __init__(self, fetcher: Fetcher, sent: List[Certificate], anchors: List[Certificate], at: Moment) -> None:
        self._party, self._client, self._memory = fetcher._party, fetcher._client, fetcher.memory
        self._schedule, self._left, self._until = fetcher._schedule, fetcher._addresses, time.monotonic() + fetcher._seconds
        self._sent, self._anchors, self._at = sent, anchors, at
        self._issuers: List[Certificate] = []
        self._fetched: List[Fetched] = []
        self._asked: Set[Tuple[Kind, str, bytes]] = set()

    def report(self, lists: bool, responses: bool, issuers: bool) -> Report:
        if issuers:
            self._complete()
        left_out: List[Identity] = []
        for _ in range(_MOST_PATHS):
            for pair in self._pairs(self._verdict(left_out)):
                for source in self._sources(pair, lists, responses):
                    self._ask_in_turn(source)
            decides = self._verdict(left_out).decides
            if decides in (None, self._sent[0].identity):
                break
            # Of an issuer that is revoked, or of which nothing is known, another certificate may be at hand.
            left_out.append(decides)
        again = self._schedule.again(seconds_of(self._at), self._fetched)
        return Report(tuple(self._fetched), self._verdict(), tuple(one.octets for one in self._issuers), again)

    # ---- the path

    def _verdict(self, left_out: Sequence[Identity] = ()) -> Result:
        """The party's verdict, without these certificates. If it withholds one, as a statement contradicts what it holds, that is as if it
        held nothing: what is newer than both may be fetched."""
        sent, anchors = ([one for one in them if one.identity not in left_out] for them in ([*self._sent, *self._issuers], self._anchors))
        try:
            return self._party.validate_peer(sent, anchors, self._at)
        except Refused as refusal:
            if refusal.answer != CONTRADICTED:
                raise
            return validate_peer(sent, anchors, [], self._at, verify=self._party.verify)

    def _named(self, identity: Identity) -> Certificate:
        """The certificate at hand that an answer names."""
        return next(one for one in (*self._anchors, *self._sent, *self._issuers) if one.identity == identity)

    def _pairs(self, result: Result) -> List[_Pair]:
        """The certificates of the path that was found, from the anchor on, each with its issuer."""
        path = [self._named(identity) for identity in result.path]
        return [_Pair(below, above) for above, below in zip(path, path[1:])]

    def _complete(self) -> None:
        """Fetches issuers that are missing where the paths end, until one is found or nobody knows more."""
        for _ in range(_MOST_ISSUERS):
            why = self._verdict().why_not
            if why is None or why.reason is not None or why.gave_up or not self._fetch_issuer(self._named(why.top)):
                return

    def _fetch_issuer(self, certificate: Certificate) -> bool:
        """Whether an issuer of a certificate came."""
        for url in self._locations(certificate).issuers:
            if not self._is_new(Kind.CERTIFICATE, url, certificate.octets):
                continue
            body = self._fetch(Kind.CERTIFICATE, url, certificate)
            if body is not None and body.octets is not None and self._take_issuer(certificate, url, body.octets):
                return True
        return False

    def _take_issuer(self, certificate: Certificate, url: str, octets: bytes) -> bool:
        try:
            issuer = Certificate.from_der(octets)
        except ValueError as refusal:  # a Fault, or PEM
            self._tell(Outcome.REFUSED, Kind.CERTIFICATE, url, certificate, str(refusal))
            return False
        (_, judgement), = self._party.judge("cert", issuer, certificate)
        if judgement is not Judgement.GOOD:
            self._tell(Outcome.REFUSED, Kind.CERTIFICATE, url, certificate, f"{issuer.identity} did not sign it: {judgement.value}")
            return False
        self._issuers.append(issuer)
        try:
            self._verdict()
        except Refused as refusal:  # in the wide profile alone
            self._issuers.pop()
            self._tell(Outcome.REFUSED, Kind.CERTIFICATE, url, certificate, str(refusal), refused=refusal)
            return False
        self._tell(Outcome.TAKEN, Kind.CERTIFICATE, url, certificate, str(issuer.identity))
        return True

    # ---- addresses

    def _locations(self, certificate: Certificate) -> Locations:
        """What a certificate says of addresses; nothing if that cannot be read, which is told."""
        try:
            return locations_of(certificate)
        except BadLocations as bad:
            self._tell(Outcome.REFUSED, Kind.CERTIFICATE, "", certificate, str(bad))
            return Locations()

    def _sources(self, pair: _Pair, lists: bool, responses: bool) -> List[_Source]:
        found = self._locations(pair.certificate)
        sources: List[_Source] = []
        for point in found.points if lists else ():
            what = "a list for some reasons" if point.is_for_some_reasons else "an indirect list" if point.is_indirect else ""
            if what or not point.uris:
                self._tell(Outcome.NOT_SERVED, Kind.LIST, " ".join(point.uris), pair.certificate, what or _forms(point.others))
            else:
                sources.append(_Source(Kind.LIST, point.uris, pair))
        if responses and found.responders:
            sources.append(_Source(Kind.RESPONSE, found.responders, pair))
        if responses and found.others:
            self._tell(Outcome.NOT_SERVED, Kind.RESPONSE, "", pair.certificate, _forms(found.others))
        return sources

    def _ask_in_turn(self, source: _Source) -> None:
        """Asks one address after the other, until what one has is taken."""
        for url in source.urls:
            # A list is of an issuer's name and key, whichever certificates name it; a response is about one certificate.
            issuer, certificate = source.pair.issuer, source.pair.certificate
            whose = issuer.subject + issuer.subject_public_key_info if source.kind is Kind.LIST else certificate.octets
            if not self._is_new(source.kind, url, whose):
                return
            if self._ask(source.kind, url, source.pair):
                return

    def _is_new(self, kind: Kind, url: str, whose: bytes) -> bool:
        """Whether this was not asked yet; it has been from now on."""
        key = (kind, url, whose)
        is_new = key not in self._asked
        self._asked.add(key)
        return is_new

    def _ask(self, kind: Kind, url: str, pair: _Pair) -> bool:
        """Whether what an address has was taken, or is unchanged."""
        noted = self._noted(url, pair.issuer) if kind is Kind.LIST else None
        request = None if kind is Kind.LIST else _ocsp.request_for(pair.certificate, pair.issuer)
        body = self._fetch(kind, url, pair.certificate, Validators() if noted is None else noted.validators, request)
        if body is None:
            return False
        if body.octets is None:
            if noted is None:
                self._tell(Outcome.NOT_FETCHED, kind, url, pair.certificate, "the server says that nothing changed, and was not asked that")
                return False
            until = noted.until
            self._tell(Outcome.UNCHANGED, kind, url, pair.certificate, "the server has what was taken before", until=until)
            return True
        return self._deliver(kind, url, pair, body)

    # ---- what the party holds

    def _listing(self, issuer: Certificate) -> Listing:
        """What the party holds of an issuer; nothing if it cannot say so: then each list is asked for whole."""
        try:
            return self._party.listing().of_issuer(key_of(issuer))
        except Refused:
            return Listing((), ())

    def _noted(self, url: str, issuer: Certificate) -> Optional[_Noted]:
        """What is noted of an address, if the party still holds the list that came, and it was sent whole not long ago."""
        noted = self._memory.of(url, issuer)
        if noted is None:
            return None
        passed = int(time.time()) - noted.moment
        if not 0 <= passed < min(self._schedule.whole, (noted.until - noted.since) // 4):
            return None
        return noted if noted.is_held(self._listing(issuer).lists) else None

    def _held(self, issuer: Certificate, octets: bytes) -> Optional[HeldList]:
        """The list that the party holds, if it is the one that was delivered."""
        try:
            window = list_window(octets)
        except ValueError:
            return None
        return next((one for one in self._listing(issuer).lists if (one.since, one.until) == window), None)

    def _deliver(self, kind: Kind, url: str, pair: _Pair, body: Body) -> bool:
        assert body.octets is not None
        try:
            delivery = self._party.deliver(pair.issuer, body.octets)
        except (Refused, ValueError) as refusal:
            refused = refusal if isinstance(refusal, Refused) else None
            self._tell(Outcome.REFUSED, kind, url, pair.certificate, str(refusal), refused=refused)
            return False
        if delivery.contradicted:
            is_alarm = would_revoke(body.octets, pair.issuer, [pair.certificate], self._at)
            self._tell(Outcome.CONTRADICTED, kind, url, pair.certificate, delivery=delivery, is_alarm=is_alarm)
            return False
        until = _until(kind, body.octets, pair.certificate)
        if kind is Kind.LIST:
            self._memory.note(url, pair.issuer, body.validators, self._held(pair.issuer, body.octets), int(time.time()))
        is_about_it = kind is Kind.LIST or until is not None
        why = "" if is_about_it else f"{delivery}, and nothing about the certificate that was asked about"
        self._tell(Outcome.TAKEN, kind, url, pair.certificate, why, delivery=delivery, until=until)
        return is_about_it

    def _fetch(
        self, kind: Kind, url: str, certificate: Certificate, validators: Validators = Validators(), request: Optional[bytes] = None,
    ) -> Optional[Body]:
        """What an address has; None if it cannot be had, which is told."""
        if self._left == 0:
            self._tell(Outcome.NOT_FETCHED, kind, url, certificate, "as many addresses were asked as are allowed")
            return None
        self._left -= 1
        try:
            if request is not None:
                return self._responded(url, request)
            most = None if kind is Kind.LIST else _SMALL
            return self._client.get(url, validators, most=most, until=self._until)
        except NotServed as cause:
            self._tell(Outcome.NOT_SERVED, kind, url, certificate, cause.why)
        except NotFetched as cause:
            self._tell(Outcome.NOT_FETCHED, kind, url, certificate, cause.why)
        return None

    def _responded(self, url: str, request: bytes) -> Body:
        """By GET if the request is short, which caches serve; by POST if it is not, or if that fails."""
        address = _ocsp.get_address(url, request)
        if address is not None:
            try:
                return self._client.get(address, accept=_ocsp.RESPONSE_TYPE, most=_SMALL, until=self._until)
            except NotFetched as cause:
                if cause.status is None:
                    raise
                # A responder need not serve GET: what it answers to POST is told.
        return self._client.post(url, request, _ocsp.REQUEST_TYPE, accept=_ocsp.RESPONSE_TYPE, most=_SMALL, until=self._until)

    def _tell(
        self, outcome: Outcome, kind: Kind, url: str, certificate: Certificate, why: str = "", *, delivery: Optional[Delivery] = None,
        refused: Optional[Refused] = None, until: Optional[int] = None, is_alarm: bool = False,
    ) -> None:
        told = Fetched(outcome, kind, url, certificate.identity, why, delivery, refused, until, is_alarm)
        # (a certificate that stands in several paths says the same in each)
        if told not in self._fetched:
            self._fetched.append(told)


def _until(kind: Kind, octets: bytes, certificate: Certificate) -> Optional[int]:
    """nextUpdate of a statement that was taken, if it can be read."""
    try:
        return list_until(octets) if kind is Kind.LIST else response_until(octets, certificate.serial)
    except ValueError:
        return None     # it is asked for again as if it had no end, at the latest bound


def _forms(forms: Sequence[str]) -> str:
    return f"named by {', '.join(forms)} and no URI" if forms else "no address is named"


def _written(seconds: int) -> str:
    return time.strftime("%Y-%m-%dT%H:%M:%SZ", time.gmtime(seconds))
