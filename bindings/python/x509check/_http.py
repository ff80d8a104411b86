"""Octets by HTTP, within bounds (RFC 9110, RFC 9112): so many octets, so much time in all, so many redirections, and no address of a
network that is not public unless the caller allows it: a URL in a peer's certificate is the peer's."""

import dataclasses
import http.client
import io
import ipaddress
import queue
import re
import socket
import ssl
import threading
import time
import urllib.parse
from typing import Any, Dict, List, NamedTuple, Optional, Tuple, Union

from ._pem import printable

_PORTS = {"http": 80, "https": 443}
_PIECE = 1 << 16
_NOT_MODIFIED, _OK = 304, 200
# Where to go on, of a request that changes nothing; those that keep the method serve POST too.
_REDIRECTED, _REDIRECTED_AS_IT_IS = (301, 302, 303, 307, 308), (307, 308)
# Behind one of these stands an IPv4 address, which is the one that is asked (RFC 6052, 2.1).
_NAT64 = ipaddress.IPv6Network("64:ff9b::/96")


class NotFetched(Exception):
    """Why nothing came from an address. `status` is that of HTTP, if the server answered one that is not served."""

    def __init__(self, url: str, why: str, status: Optional[int] = None):
        self.url = url
        # (what a server said stands in it, also the address of a redirection)
        self.why = printable(why)
        self.status = status
        super().__init__(f"{printable(url)}: {self.why}")

    def __reduce__(self) -> Tuple[object, ...]:
        return type(self), (self.url, self.why, self.status)


class NotServed(NotFetched):
    """An address that is not asked: its scheme is another than http and https, it is no address, or it is that of a network that is not
    allowed."""


@dataclasses.dataclass(frozen=True)
class HttpLimits:
    """What one address may cost, redirections with it."""

    seconds: float = 30.0
    """In all, from the look-up of its name to the last octet."""
    octets: int = 1 << 26
    """Of what is fetched."""
    redirections: int = 4

    def __post_init__(self) -> None:
        for name, at_most in (("seconds", threading.TIMEOUT_MAX), ("octets", 1 << 40), ("redirections", 100)):
            value = getattr(self, name)
            if isinstance(value, bool) or not isinstance(value, (int, float) if name == "seconds" else int):
                raise TypeError(f"{name}: a number is wanted, not {type(value).__name__}")
            if not (0 if name == "redirections" else 1e-3) <= value <= at_most:
                raise ValueError(f"{name} is out of range")


@dataclasses.dataclass(frozen=True)
class Validators:
    """By what a server can say that nothing has changed (RFC 9110, 8.8)."""

    etag: Optional[str] = None
    last_modified: Optional[str] = None

    def headers(self) -> Dict[str, str]:
        found = (("If-None-Match", self.etag), ("If-Modified-Since", self.last_modified))
        return {name: text for name, text in found if text is not None}


class Body(NamedTuple):
    """What came: the address from which it came in the end, the octets, or None if they have not changed, and their validators."""

    url: str
    octets: Optional[bytes]
    validators: Validators


class _Target(NamedTuple):
    """A URL taken apart."""

    url: str
    scheme: str
    host: str
    port: int
    path: str


def target_of(url: str) -> _Target:
    """The parts of a URL that is served. Raises NotServed for any other."""
    try:
        parts = urllib.parse.urlsplit(url)
        host, port = parts.hostname, parts.port
    except ValueError as cause:
        raise NotServed(url, f"no URL: {cause}") from None
    if parts.scheme.lower() not in _PORTS:
        raise NotServed(url, f"the scheme {parts.scheme or 'that is missing'} is not served")
    # What a request line may hold (RFC 3986, 2); a space or a control character would begin another.
    if not re.fullmatch(r"[A-Za-z0-9._~:/?#\[\]@!$&'()*+,;=%-]+", url) or not host:
        raise NotServed(url, "no URL: it has no host, or characters that a URL has not")
    if "@" in parts.netloc:
        raise NotServed(url, "a URL with a user is not served")
    path = (parts.path or "/") + (f"?{parts.query}" if parts.query else "")
    return _Target(url, parts.scheme.lower(), host, port or _PORTS[parts.scheme.lower()], path)


def is_public(address: str) -> bool:
    """Whether an address is one of the public internet: not loopback, link-local, private, shared, reserved or multicast. Of an IPv6 address
    that stands for an IPv4 address that one is looked at; those of tunnels (6to4, Teredo) are none."""
    parsed = ipaddress.ip_address(address.partition("%")[0])
    if isinstance(parsed, ipaddress.IPv4Address):
        return _is_public(parsed)
    if parsed.ipv4_mapped is not None:
        return _is_public(parsed.ipv4_mapped)
    if parsed in _NAT64:
        return _is_public(ipaddress.IPv4Address(parsed.packed[-4:]))
    is_tunnel = parsed.sixtofour is not None or parsed.teredo is not None
    return _is_public(parsed) and not (is_tunnel or parsed.is_site_local)


def _is_public(address: Union[ipaddress.IPv4Address, ipaddress.IPv6Address]) -> bool:
    return address.is_global and not (address.is_multicast or address.is_reserved)


class _Deadline:
    """The moment at which the time for an address is used up."""

    def __init__(self, url: str, moment: float) -> None:
        self._url, self._moment = url, moment

    def left(self) -> float:
        left = self._moment - time.monotonic()
        if left <= 0:
            raise NotFetched(self._url, "the time is used up")
        return left


class _Received(io.RawIOBase):
    """What comes on a connection; each piece has to come before the deadline, and not only some time after the piece before."""

    def __init__(self, connection: socket.socket, deadline: _Deadline) -> None:
        self._connection, self._deadline = connection, deadline

    def readable(self) -> bool:
        return True

    def readinto(self, room: Any) -> int:
        self._connection.settimeout(self._deadline.left())
        return self._connection.recv_into(room)


class _Wire:
    """A connection as http.client takes it. Whoever made it closes it."""

    def __init__(self, connection: socket.socket, deadline: _Deadline) -> None:
        self._connection, self._deadline = connection, deadline

    def makefile(self, *_: object) -> io.BufferedReader:
        return io.BufferedReader(_Received(self._connection, self._deadline))

    def sendall(self, octets: bytes) -> None:
        self._connection.settimeout(self._deadline.left())
        self._connection.sendall(octets)

    def close(self) -> None:
        pass


def _looked_up(target: _Target, deadline: _Deadline) -> List[Tuple[Any, ...]]:
    """The addresses of a host, each its family and what connect takes. The look-up of the system has no limit, so it has a thread."""
    answers: "queue.SimpleQueue[object]" = queue.SimpleQueue()

    def look_up() -> None:
        try:
            answers.put(socket.getaddrinfo(target.host, target.port, type=socket.SOCK_STREAM))
        except (OSError, UnicodeError) as cause:
            answers.put(cause)
    threading.Thread(target=look_up, daemon=True).start()
    try:
        found = answers.get(timeout=deadline.left())
    except queue.Empty:
        raise NotFetched(target.url, "the time is used up: its host was not found yet") from None
    if not isinstance(found, list):
        raise NotFetched(target.url, f"its host is not found: {found}")
    return [(family, address) for family, _, _, _, address in found]


@dataclasses.dataclass(frozen=True)
class Client:
    """Asks servers."""

    limits: HttpLimits = HttpLimits()
    allow_private: bool = False
    """Whether addresses that are not public are asked (`is_public`)."""
    tls: Optional[ssl.SSLContext] = None
    """For https; without it the anchors of the system."""
    agent: str = "x509check"

    def get(self, url: str, validators: Validators = Validators(), *, accept: str = "*/*", most: Optional[int] = None,
            until: Optional[float] = None) -> Body:
        """What a server has at an address. `most` and `until`, a moment of time.monotonic, are bounds beside the limits.

        Raises NotFetched if nothing whole comes within them: also for a status that is neither 200 nor 304, and for a body that is shorter
        than the server said.
        """
        return self._ask("GET", url, None, {"Accept": accept, **validators.headers()}, most, until)

    def post(self, url: str, octets: bytes, kind: str, *, accept: str = "*/*", most: Optional[int] = None,
             until: Optional[float] = None) -> Body:
        """What a server answers to octets of a media type."""
        return self._ask("POST", url, octets, {"Accept": accept, "Content-Type": kind}, most, until)

    def _ask(
        self, method: str, url: str, sent: Optional[bytes], headers: Dict[str, str], most: Optional[int], until: Optional[float],
    ) -> Body:
        moment = time.monotonic() + self.limits.seconds
        deadline = _Deadline(url, moment if until is None else min(moment, until))
        bound = self.limits.octets if most is None else min(most, self.limits.octets)
        at = url
        for _ in range(1 + self.limits.redirections):
            try:
                found = self._ask_once(method, target_of(at), sent, headers, bound, deadline)
            except NotFetched as cause:
                raise cause if cause.url == url else type(cause)(url, f"redirected to {cause.url}: {cause.why}", cause.status) from None
            if isinstance(found, Body):
                return found
            at = found
        raise NotFetched(url, f"redirected more than {self.limits.redirections} times")

    def _ask_once(self, method: str, target: _Target, sent: Optional[bytes], headers: Dict[str, str], most: int,
                  deadline: _Deadline) -> Union[Body, str]:
        """The body, or the address to go on with."""
        try:
            with self._connected(target, deadline) as connection:
                asking = http.client.HTTPConnection(target.host, target.port)
                asking.sock = _Wire(connection, deadline)  # type: ignore[assignment]
                asking.default_port = _PORTS[target.scheme]  # (with which the field Host has no port)
                told = {"User-Agent": self.agent, "Accept-Encoding": "identity", "Connection": "close", **headers}
                asking.request(method, target.path, sent, told)
                with asking.getresponse() as response:
                    return _taken(method, target.url, response, headers, most)
        except (TimeoutError, socket.timeout):
            raise NotFetched(target.url, "the time is used up") from None
        except http.client.IncompleteRead as cause:
            raise NotFetched(target.url, f"the answer is cut short: {cause}") from None
        except http.client.HTTPException as cause:
            raise NotFetched(target.url, f"no answer of HTTP: {cause!r:.200}") from None
        except (OSError, ValueError) as cause:
            raise NotFetched(target.url, f"{getattr(cause, 'strerror', None) or cause!r:.200}") from None

    def _connected(self, target: _Target, deadline: _Deadline) -> socket.socket:
        """A connection to the first address that answers, of those that are allowed. What was looked up is what is connected to."""
        addresses = _looked_up(target, deadline)
        allowed = [(family, address) for family, address in addresses if self.allow_private or is_public(address[0])]
        if not allowed:
            raise NotServed(target.url, f"the address {addresses[0][1][0]} is not public" if addresses else "its host has no address")
        for at, (family, address) in enumerate(allowed, 1):
            connection = socket.socket(family, socket.SOCK_STREAM)
            try:
                connection.settimeout(deadline.left() / (len(allowed) - at + 1))
                connection.connect(address)
                return connection if target.scheme == "http" else self._secured(connection, target.host, deadline)
            except BaseException as cause:
                connection.close()
                if at == len(allowed) or not isinstance(cause, OSError):
                    raise
        raise NotFetched(target.url, "none of its addresses answers")

    def _secured(self, connection: socket.socket, host: str, deadline: _Deadline) -> socket.socket:
        connection.settimeout(deadline.left())
        return (self.tls or ssl.create_default_context()).wrap_socket(connection, server_hostname=host)


def _taken(method: str, url: str, response: http.client.HTTPResponse, asked: Dict[str, str], most: int) -> Union[Body, str]:
    """What a response says, by its status."""
    if response.status in (_REDIRECTED if method == "GET" else _REDIRECTED_AS_IT_IS):
        place = response.headers.get("Location")
        if not place:
            raise NotFetched(url, f"answered {response.status} without a Location")
        try:
            return urllib.parse.urljoin(url, place)
        except ValueError as cause:
            raise NotServed(place, f"no URL: {cause}") from None
    is_conditional = "If-None-Match" in asked or "If-Modified-Since" in asked
    if response.status == _NOT_MODIFIED and is_conditional:
        return Body(url, None, _validators(response))
    if response.status != _OK:
        raise NotFetched(url, f"answered {response.status} {response.reason[:80]!r}", response.status)
    if response.headers.get("Content-Encoding", "identity").lower() != "identity":
        raise NotFetched(url, f"the coding {response.headers['Content-Encoding']!r:.80} is not served")
    return Body(url, _octets(url, response, most), _validators(response))


def _validators(response: http.client.HTTPResponse) -> Validators:
    return Validators(*(_plain(response.headers.get(name)) for name in ("ETag", "Last-Modified")))


def _plain(text: Optional[str]) -> Optional[str]:
    """A field that can be sent back as it came."""
    return text if text and len(text) <= 200 and re.fullmatch("[ -~]+", text) else None


def _declared(url: str, response: http.client.HTTPResponse) -> Optional[int]:
    """How many octets the server says will come; None if it does not say."""
    fields = set(response.headers.get_all("Content-Length", []))
    if not fields or response.headers.get("Transfer-Encoding"):
        return None
    text = fields.pop().strip()
    if fields or not re.fullmatch("[0-9]{1,18}", text):
        raise NotFetched(url, "a Content-Length that is none")
    return int(text)


def _octets(url: str, response: http.client.HTTPResponse, most: int) -> bytes:
    declared = _declared(url, response)
    if declared is not None and declared > most:
        raise NotFetched(url, f"{declared} octets, which is more than {most}")
    pieces: List[bytes] = []
    count = 0
    while count <= most:
        piece = response.read(min(_PIECE, most + 1 - count))
        if not piece:
            break
        pieces.append(piece)
        count += len(piece)
    if count > most:
        raise NotFetched(url, f"more than {most} octets")
    if declared is not None and count != declared:
        raise NotFetched(url, f"the answer is cut short: {count} of {declared} octets came")
    return b"".join(pieces)
