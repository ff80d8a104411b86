"""Serves one party to several processes of a host, over a Unix socket.

    python3 -m x509check.party --store STORE [--profile PROFILE] [--verdicts VERDICTS] [--listen SOCKET] [--mode MODE]
                               [--connections N] [--octets N] [--seconds SECONDS]

`x509check.Party.connect(SOCKET)` is a party there. Each line that comes is a request of `x509check session` (docs/REFERENCE.md,
"session"), and is answered as a session answers it; but no request names a file: one that does is answered `6 cannot read NAME`, whatever
else it says, and the file is not looked at. `quit` ends the connection, and not the session, and `forget` is about what came by `believe`
on this connection: what others said stays. All connections together may have 16384 signatures believed, each of them its share, and at least
64; one more is answered `6 too many believed`. A line of more than N octets (2^24) is answered `5 line too long`; a value takes two octets
of it for each of its own. If the session cannot answer, also after it was started again, the connection is shut without an answer.

A delivery that is counted `contradicted` is remembered as long as the server runs. A verdict that would be valid or unknown is answered `6
contradicted: ..` if such a statement revokes a certificate of the path, until the store holds a newer one in place of both.

Without --listen the socket is the one that systemd hands over (a socket unit with `Accept=no`). The file SOCKET is made with the
permissions MODE, in octal (600): its owner alone may connect. Whoever may connect may say which signatures are good, for all, and deliver
statements. N connections (64) are served at once. For a new one the connection is shut of which nothing has come for longest, a second at
least, while its next line was waited for; if there is none, the new one waits.

PROFILE is that of the store, `stated` (the default) or `wide`.

A request is answered within SECONDS (30), in which also a line that was begun has to end, and an answer has to be taken. The status is 0
after SIGTERM or SIGINT, 5 for words that are none, and 6 if the store cannot be opened or SOCKET cannot be listened at.
"""

import argparse
import contextlib
import errno
import os
import signal
import socket
import stat
import sys
import threading
import time
from typing import Dict, List, Optional, Sequence, Set

from . import _lines
from ._guard import guarded
from ._lines import Form, is_fingerprint
from ._link import PartyError
from ._party import Party, PartyLimits
from ._profile import Profile
from ._program import ProgramMissing

# The first descriptor that systemd hands over (sd_listen_fds(3)).
_FIRST_HANDED_OVER = 3
_WORDS_ARE_NONE, _FAILED = 5, 6
_TOO_LONG, _BAD_LINE = b"5 line too long\n", b"5 bad line\n"
_PIECE = 1 << 16
# A line has so many octets at most if the words of the command do not say more.
_LINE_MOST = 1 << 24
# So many signatures may be believed by what all connections said: `forget` on one tells the session again what the others said.
_BELIEVED_MOST, _SAID_LEAST = 1 << 14, 64
# A connection of which nothing came so long, in seconds, may be shut for a new one.
_REST_LEAST = 1.0
_WAIT = 0.1
# What is wrong with the socket itself; other failures of accept pass (accept(2)).
_NO_SOCKET = (errno.EBADF, errno.EINVAL, errno.ENOTSOCK, errno.EOPNOTSUPP)


class TooLong(Exception):
    """A line of more octets than one may have; it was read to its end."""


class Lines:
    """The lines that come on a connection, each of which has to end some seconds after it was begun."""

    def __init__(self, connection: socket.socket, most: int, seconds: float) -> None:
        self.connection, self._most, self._seconds = connection, most, seconds
        self._left = bytearray()
        self.rests_since: Optional[float] = None
        """Since when nothing has come, while something is waited for."""

    def next(self) -> Optional[bytes]:
        """The next line, without its end; None at the end of the connection, also within a line."""
        passed_over, searched = False, 0
        until: Optional[float] = None
        while True:
            at = self._left.find(b"\n", searched)
            if at >= 0:
                line = bytes(self._left[:at])
                del self._left[:at + 1]
                if passed_over or len(line) > self._most:
                    raise TooLong
                return line
            if len(self._left) > self._most:
                self._left.clear()
                passed_over = True
            searched = len(self._left)
            if until is None and (passed_over or searched > 0):
                until = time.monotonic() + self._seconds
            if not self._receive(until):
                return None

    def _receive(self, until: Optional[float]) -> bool:
        """Whether something came, until then. Between lines a connection may rest as long as it likes."""
        self.rests_since = time.monotonic()
        self.connection.settimeout(None if until is None else max(0.001, until - time.monotonic()))
        try:
            piece = self.connection.recv(_PIECE)
        finally:
            self.rests_since = None
        self._left += piece
        return bool(piece)

    def shut(self) -> None:
        with contextlib.suppress(OSError):
            self.connection.shutdown(socket.SHUT_RDWR)


class Beliefs:
    """A party, and which connection said of which signature that it is good."""

    def __init__(self, party: Party, connections: int) -> None:
        self._party = party
        self._most = max(_SAID_LEAST, _BELIEVED_MOST // connections)
        self._lock = threading.Lock()
        self._said: Dict[int, Set[str]] = {}      # by the number of the connection
        self._left = 0                            # how many signatures are believed, at most, that only connections which are gone spoke of

    def ask(self, connection: int, line: str) -> _lines.Answer:
        """The answer to a request of a connection."""
        if line == "forget":
            return self._forget(connection)
        word, _, fingerprint = line.partition(" ")
        if word == "believe" and is_fingerprint(fingerprint):
            with self._lock:
                said = self._said.setdefault(connection, set())
                if len(said) >= self._most and fingerprint.lower() not in said:
                    return _lines.TOO_MANY
                said.add(fingerprint.lower())
        return self._party.ask(line)

    def _forget(self, connection: int) -> _lines.Answer:
        with self._lock:
            self._said.pop(connection, None)
            return self._forget_others()

    def _forget_others(self) -> _lines.Answer:
        """What those said who are there is told again, before any other request is answered."""
        self._left = 0
        kept = sorted(set().union(*self._said.values()))
        return self._party.ask_together(["forget", *(f"believe {fingerprint}" for fingerprint in kept)])[0]

    def end(self, connection: int) -> None:
        """A connection is gone. What it said is believed until somebody forgets, or what is left of such ones is too much."""
        with self._lock:
            self._left += len(self._said.pop(connection, ()))
            if self._left > _BELIEVED_MOST:
                with contextlib.suppress(PartyError):    # (then its process is gone, with what it believed)
                    self._forget_others()


class Server:
    """A party, and those who are connected to it."""

    def __init__(self, party: Party, listening: socket.socket, connections: int, octets: int, seconds: float) -> None:
        self._party, self._beliefs = party, Beliefs(party, connections)
        self._listening, self._octets, self._seconds = listening, octets, seconds
        self._room = threading.BoundedSemaphore(connections)
        self._lock = threading.Lock()
        self._connected: List[Lines] = []
        self._ending = threading.Event()

    def serve(self) -> None:
        """Takes connections, until `end`."""
        while not self._ending.is_set():
            connection = self._accepted()
            if connection is not None and self._has_room():
                self._begin(connection)
            elif connection is not None:
                connection.close()

    def _accepted(self) -> Optional[socket.socket]:
        try:
            return self._listening.accept()[0]
        except OSError as cause:
            if cause.errno in _NO_SOCKET and not self._ending.is_set():
                raise
            # (no descriptor is left, say: one comes back when a connection ends)
            self._ending.wait(_WAIT)
            return None

    def _has_room(self) -> bool:
        """Waits until there is room for one more, for which one that rests may have to go. False at the end."""
        while not self._room.acquire(blocking=False):
            if self._ending.is_set():
                return False
            self._shut_one_that_rests()
            self._ending.wait(_WAIT)
        return True

    def _shut_one_that_rests(self) -> None:
        with self._lock:
            resting = [(since, at) for at, one in enumerate(self._connected) for since in (one.rests_since,) if since is not None]
            since, at = min(resting, default=(time.monotonic(), 0))
            if since + _REST_LEAST <= time.monotonic():
                self._connected[at].shut()

    def _begin(self, connection: socket.socket) -> None:
        lines = Lines(connection, self._octets, self._seconds)
        with self._lock:
            self._connected.append(lines)
        try:
            threading.Thread(target=self._serve_one, args=(lines,), daemon=True).start()
        except RuntimeError as cause:    # (the system has no room for another thread)
            print(f"party: a connection is shut: {cause}", file=sys.stderr, flush=True)
            self._end_one(lines)

    def end(self) -> None:
        """Takes no connection any more, and shuts those that are there."""
        self._ending.set()
        with contextlib.suppress(OSError):
            self._listening.shutdown(socket.SHUT_RDWR)
        self._listening.close()
        with self._lock:
            for one in self._connected:
                one.shut()

    def _serve_one(self, lines: Lines) -> None:
        try:
            self._answer_all(lines)
        except PartyError as cause:
            print(f"party: a connection is shut without an answer: {cause}", file=sys.stderr, flush=True)
        except OSError:
            pass    # whoever was connected is gone, or was too slow
        finally:
            self._end_one(lines)

    def _end_one(self, lines: Lines) -> None:
        with self._lock:
            self._connected.remove(lines)
        self._beliefs.end(id(lines))
        lines.connection.close()
        self._room.release()

    def _answer_all(self, lines: Lines) -> None:
        while True:
            try:
                line = lines.next()
                answer = None if line is None else self._answer(id(lines), line)
            except TooLong:
                line, answer = b"", _TOO_LONG
            if line is None:
                return
            if answer is not None:
                lines.connection.settimeout(self._seconds)
                lines.connection.sendall(answer)
            if line == b"quit":
                return

    def _answer(self, connection: int, line: bytes) -> Optional[bytes]:
        """The answer to a line, with its ends of lines; an empty line and a comment have none."""
        if not line or line.startswith(b"#"):
            return None
        if line == b"quit":
            return b"0 ended\n"
        try:
            request = _lines.request_in(line.decode("utf-8"))
        except UnicodeDecodeError:
            return _BAD_LINE
        if request.form is Form.NONE or not all(request.words):
            return _BAD_LINE
        # A file may be a pipe, of the session itself or one without an end: whoever connects sends values.
        if request.files:
            return f"6 cannot read {request.files[0]}\n".encode("ascii", "backslashreplace")
        answer = self._asked(connection, request)
        if answer is None:
            return _BAD_LINE
        return "".join(f"{one}\n" for one in (str(answer), *answer.lines)).encode("ascii", "backslashreplace")

    def _asked(self, connection: int, request: _lines.Request) -> Optional[_lines.Answer]:
        """The session's answer; None to a value that is none. In a line that is too long for the session the longest values stand in files
        of ours, and the answer names them as the request does."""
        words = request.with_octets()
        if words is None:
            return None
        if request.length <= _lines.MOST:
            answer = self._beliefs.ask(connection, " ".join(request.words))
        else:
            with _lines.written(words) as shorter:
                answer = self._beliefs.ask(connection, " ".join(shorter)).renamed(dict(zip(shorter, request.words)))
        return guarded(self._party, request, words, answer)


def handed_over() -> socket.socket:
    """The socket that systemd hands over. Raises OSError if there is not just one."""
    if os.environ.get("LISTEN_PID") != str(os.getpid()) or os.environ.get("LISTEN_FDS") != "1":
        raise OSError("--listen is missing, and systemd hands over no socket")
    listening = socket.socket(fileno=_FIRST_HANDED_OVER)
    if listening.family != socket.AF_UNIX or listening.type != socket.SOCK_STREAM:
        listening.close()
        raise OSError("the socket that systemd hands over is no Unix socket for streams")
    os.set_inheritable(_FIRST_HANDED_OVER, False)
    return listening


def listen(path: str, mode: int) -> socket.socket:
    """A socket that listens at a path. A socket that was left there, at which nobody listens, makes way. Raises OSError."""
    with contextlib.suppress(FileNotFoundError):
        if stat.S_ISSOCK(os.lstat(path).st_mode) and not _is_served(path):
            os.unlink(path)
    listening = socket.socket(socket.AF_UNIX, socket.SOCK_STREAM)
    try:
        # Made for nobody first: between bind and chmod no other may connect.
        before = os.umask(0o777)
        try:
            listening.bind(path)
        finally:
            os.umask(before)
        listening.listen()
        os.chmod(path, mode)
    except BaseException:
        listening.close()
        raise
    return listening


def _is_served(path: str) -> bool:
    with socket.socket(socket.AF_UNIX, socket.SOCK_STREAM) as probe:
        try:
            probe.connect(path)
        except ConnectionRefusedError:
            return False
    return True


def _positive(text: str) -> int:
    if not text.isascii() or not text.isdigit() or int(text) == 0:
        raise ValueError("no number from 1 on")
    return int(text)


def _mode(text: str) -> int:
    mode = int(text, 8)
    if not 0 <= mode <= 0o777:
        raise ValueError("no permissions")
    return mode


def words_of(arguments: Sequence[str]) -> argparse.Namespace:
    parser = argparse.ArgumentParser(prog="python3 -m x509check.party", description=__doc__,
                                     formatter_class=argparse.RawDescriptionHelpFormatter, allow_abbrev=False)
    parser.add_argument("--store", required=True, metavar="STORE")
    parser.add_argument("--profile", type=Profile, default=Profile.STATED, metavar="PROFILE")
    parser.add_argument("--verdicts", metavar="VERDICTS")
    parser.add_argument("--listen", metavar="SOCKET")
    parser.add_argument("--mode", type=_mode, default=0o600, metavar="MODE")
    parser.add_argument("--connections", type=_positive, default=64, metavar="N")
    parser.add_argument("--octets", type=_positive, default=_LINE_MOST, metavar="N")
    parser.add_argument("--seconds", type=_positive, default=30, metavar="SECONDS")
    words = parser.parse_args(arguments)
    if words.octets > _lines.LONGEST:
        parser.error(f"--octets: a line has {_lines.LONGEST} octets at most")
    return words


def _serve(words: argparse.Namespace) -> None:
    with Party(words.store, words.verdicts, limits=PartyLimits(seconds=words.seconds), profile=words.profile) as party:
        with handed_over() if words.listen is None else listen(words.listen, words.mode) as listening:
            server = Server(party, listening, words.connections, words.octets, words.seconds)
            for number in (signal.SIGTERM, signal.SIGINT):
                signal.signal(number, lambda *_: threading.Thread(target=server.end).start())
            print("party: listening", file=sys.stderr, flush=True)
            try:
                server.serve()
            finally:
                if words.listen is not None:
                    with contextlib.suppress(OSError):
                        os.unlink(words.listen)


def main(arguments: Sequence[str]) -> int:
    try:
        words = words_of(arguments)
    except SystemExit as end:
        return _WORDS_ARE_NONE if end.code else 0
    try:
        _serve(words)
    except (PartyError, ProgramMissing, OSError) as cause:
        print(f"party: {cause}", file=sys.stderr)
        return _FAILED
    return 0


if __name__ == "__main__":
    sys.exit(main(sys.argv[1:]))
