"""Whom a party asks: a process of `x509check session`, or a socket behind which one is. Requests are lines, and are answered in order.

Any number of requests are in flight at once. One thread at a time writes; a thread of the link reads, and hands each answer to the request
that is the first without one.
"""

import collections
import contextlib
import os
import queue
import select
import socket
import subprocess
import tempfile
import threading
import time
from typing import Callable, Deque, List, NamedTuple, Optional, Sequence, Set, Tuple, Union

from ._lines import Answer, Form, are_lines, is_answer, more_lines, request_in
from ._pem import LIMIT, printable

# The longest line of an answer has the texts of a question about a value of the longest kind, in hexadecimal.
_LINE_MOST = 4 * LIMIT + 4096
_SHOWN = 80            # characters of a line in a message
ENDING_SECONDS = 5.0   # for a process to end by itself once its input has ended
_COMPLAINT_MOST = 1000
_PIECE = 1 << 16


class PartyError(Exception):
    """Why a party has no answer."""


class PartyEnded(PartyError):
    """The process ended, or the socket was shut, before it answered, also after it was started again; or the party is closed."""

    is_final = False
    """Whether another process would fare no better: this one did not open its store, or the party is closed."""


class Garbled(PartyError):
    """What came is no answer to the request. The process was ended, so that no later request reads what is left of it."""


class TimeIsUp(PartyError, TimeoutError):
    """The time limit of the call has passed. If its request had been sent, the process was ended."""


class Forked(PartyError):
    """The party was made before a fork, and is its parent's: a store has one process at a time. The child makes a party of its own."""


class Ends:
    """The two ends of a link."""

    def fileno(self) -> int:
        """Of what requests are written to."""
        raise NotImplementedError

    def write_some(self, octets: memoryview) -> int:
        """Writes as much as there is room for; BlockingIOError if there is none."""
        raise NotImplementedError

    def read_some(self) -> bytes:
        """What was answered, once there is something; nothing at the end. The link's thread alone reads."""
        raise NotImplementedError

    def finish_requests(self) -> None:
        """No request follows: whoever answers ends by itself."""
        raise NotImplementedError

    def let_go(self) -> None:
        """Closes the copies that a forked child has, which would keep whoever answers alive. No lock is taken: another thread of the parent
        may have had it."""
        raise NotImplementedError

    def kill(self) -> None:
        """Nobody answers any more. May be called at any time, and more than once."""
        raise NotImplementedError

    def release(self) -> str:
        """Gives back what the ends hold, behind the last answer, and says how it came to the end."""
        raise NotImplementedError


class ProcessEnds(Ends):
    """The pipes of a process."""

    def __init__(self, words: Sequence[str]) -> None:
        self._title = " ".join(words)
        self._ending = threading.Lock()    # (a process that was waited for must not be killed: its number may be another's)
        self._writing = threading.Lock()   # (nor may a pipe that was closed be written to)
        self._complaints = tempfile.TemporaryFile()
        try:
            # (without buffers, which have locks)
            self._process = subprocess.Popen(
                list(words), bufsize=0, stdin=subprocess.PIPE, stdout=subprocess.PIPE, stderr=self._complaints)
        except OSError as cause:
            self._complaints.close()
            raise PartyEnded(f"{self._title}: cannot be run: {cause.strerror}") from cause
        assert self._process.stdin is not None and self._process.stdout is not None
        self._requests, self._answers = self._process.stdin, self._process.stdout
        _open_ends.add(self)
        os.set_blocking(self._requests.fileno(), False)

    @property
    def process_id(self) -> int:
        return self._process.pid

    def fileno(self) -> int:
        return self._requests.fileno()

    def write_some(self, octets: memoryview) -> int:
        with self._writing:
            return os.write(self._requests.fileno(), octets)

    def read_some(self) -> bytes:
        return os.read(self._answers.fileno(), _PIECE)

    def finish_requests(self) -> None:
        with self._writing, contextlib.suppress(OSError):
            self._requests.close()

    def kill(self) -> None:
        with self._ending:
            self._process.kill()

    def release(self) -> str:
        with self._ending:
            try:
                status = self._process.wait(ENDING_SECONDS)
            except subprocess.TimeoutExpired:
                self._process.kill()
                status = self._process.wait()
        self.finish_requests()
        self._answers.close()
        _open_ends.discard(self)
        with self._complaints as file:
            file.seek(0)
            complaint = printable(file.read(_COMPLAINT_MOST).decode("utf-8", "backslashreplace").strip())
        how = f"was killed by signal {-status}" if status < 0 else f"ended with status {status}"
        return f"{self._title}: {how}{': ' if complaint else ''}{complaint}"

    def let_go(self) -> None:
        self._requests.close()
        self._answers.close()
        self._process.returncode = 0    # (the process is the parent's, which waits for it)


class SocketEnds(Ends):
    """A connection to a Unix socket."""

    def __init__(self, path: str, seconds: float) -> None:
        self._title = path
        self._writing = threading.Lock()   # (a socket that was closed must not be written to: its number may be another's)
        self._socket = socket.socket(socket.AF_UNIX, socket.SOCK_STREAM)
        try:
            self._socket.settimeout(seconds)
            self._socket.connect(path)
            self._socket.settimeout(None)
        except OSError as cause:
            self._socket.close()
            raise PartyEnded(f"{path}: cannot be connected to: {cause.strerror or cause}") from cause
        _open_ends.add(self)

    def fileno(self) -> int:
        return self._socket.fileno()

    def write_some(self, octets: memoryview) -> int:
        with self._writing:
            return self._socket.send(octets, socket.MSG_DONTWAIT)

    def read_some(self) -> bytes:
        return self._socket.recv(_PIECE)

    def finish_requests(self) -> None:
        with contextlib.suppress(OSError):
            self._socket.shutdown(socket.SHUT_WR)

    def kill(self) -> None:
        with contextlib.suppress(OSError):
            self._socket.shutdown(socket.SHUT_RDWR)

    def release(self) -> str:
        with self._writing:
            self._socket.close()
        _open_ends.discard(self)
        return f"{self._title}: the connection was shut"

    def let_go(self) -> None:
        self._socket.close()


_open_ends: Set[Ends] = set()


def _let_go() -> None:
    for ends in list(_open_ends):
        ends.let_go()
    _open_ends.clear()


os.register_at_fork(after_in_child=_let_go)


class Asked:
    """Requests that are written together, and where their answers go: all of them at once, or why there are none."""

    def __init__(self, lines: Sequence[str], not_believed: Callable[[str], None] = lambda _: None) -> None:
        self.lines = lines
        self.outcome: "queue.SimpleQueue[Union[List[Answer], BaseException]]" = queue.SimpleQueue()
        self.link: Optional["Link"] = None    # to which they were written
        self.failure: Optional[BaseException] = None
        self._answers: List[Answer] = []
        self._not_believed = not_believed     # is told of each fingerprint that could not be kept

    def take(self, request: "_Waiting", answer: Answer) -> None:
        """The answer to the next one of them."""
        if request.form is Form.BELIEVE and answer.status != 0:
            self._not_believed(request.shown.partition(" ")[2])
        self._answers.append(answer)
        if len(self._answers) == len(self.lines):
            self.outcome.put(self._answers)

    def fail(self, cause: BaseException) -> None:
        """There are no answers for this reason, whatever else is said."""
        self.failure = cause
        self.outcome.put(cause)


class _Waiting(NamedTuple):
    """A request without an answer: the form of that, its beginning, and where the answer goes."""

    form: Form
    shown: str
    asked: Asked


class Link:
    """Requests to one process or socket, and their answers."""

    def __init__(self, ends: Ends) -> None:
        self.ends = ends
        self._lock = threading.Lock()      # (of the two fields below)
        self._waiting: Deque[_Waiting] = collections.deque()
        self._failure: Optional[PartyError] = None
        self._left = bytearray()           # (what was read and is no line yet: of the reader alone)
        self._reader = threading.Thread(target=self._read_answers, name="x509check answers", daemon=True)
        self._reader.start()

    @property
    def failure(self) -> Optional[PartyError]:
        """Why nobody answers any more, if so: PartyEnded, or Garbled if what came last was asked for by nobody."""
        return self._failure

    def send(self, asked: Asked, deadline: float) -> None:
        """Writes requests, each of which has an answer. One thread at a time may call, and no main thread: a request that waits for its
        answer and was not written would take that of the next one.

        Raises the failure if there is one, and TimeIsUp. If anything is raised the link ends.
        """
        waiting = [_Waiting(request_in(line).form, line[:_SHOWN], asked) for line in asked.lines]
        octets = "".join(f"{line}\n" for line in asked.lines).encode("utf-8", "surrogatepass")
        try:
            with self._lock:
                if self._failure is not None:
                    raise self._failure
                asked.link = self
                self._waiting.extend(waiting)
            self._write(octets, deadline)
        except (OSError, ValueError):
            # (of a pipe without a reader, or that was closed) The reader meets the end, and says so to those who wait.
            self.ends.kill()
        except BaseException as cause:
            asked.failure = cause
            self.ends.kill()
            raise

    def _write(self, octets: bytes, deadline: float) -> None:
        left = memoryview(octets)
        while left:
            try:
                left = left[self.ends.write_some(left):]
            except BlockingIOError:
                room = select.poll()
                room.register(self.ends.fileno(), select.POLLOUT)
                if not room.poll(max(0.0, deadline - time.monotonic()) * 1000):
                    raise TimeIsUp("the request could not be written in time") from None

    def end(self) -> None:
        """Ends whoever answers, whatever is asked still."""
        self.ends.kill()
        self._reader.join(2 * ENDING_SECONDS)

    def close(self, seconds: float) -> None:
        """Lets whoever answers answer what was asked, and end."""
        self.ends.finish_requests()
        self._reader.join(seconds)
        self.end()

    # ---- the link's thread

    def _read_answers(self) -> None:
        failure: Optional[PartyError] = None
        try:
            while failure is None and self._read_answer():
                pass
        except Garbled as cause:
            failure = cause
        except Exception as cause:  # whatever it is, those who wait have to hear of it
            failure = PartyEnded(f"the answer cannot be read: {cause!r}")
        if failure is not None:
            self.ends.kill()
        self._fail(failure, self.ends.release())

    def _fail(self, failure: Optional[PartyError], how: str) -> None:
        """Tells those who wait that no answer comes."""
        with self._lock:
            waiting, self._waiting = self._waiting, collections.deque()
            is_asked = isinstance(failure, Garbled) and bool(waiting)
            # What is no answer to the first request is told to whoever made it; what nobody asked for, to whoever asks next.
            self._failure = PartyEnded(how) if failure is None or is_asked else failure
        for number, one in enumerate(waiting):
            one.asked.outcome.put(failure if is_asked and number == 0 and failure is not None else PartyEnded(how))

    def _read_answer(self) -> bool:
        """Reads an answer and hands it on; False at the end."""
        line = self._read_line()
        if line is None:
            return False
        status, _, text = line.partition(" ")
        with self._lock:
            if not self._waiting:
                raise Garbled(f"answered {line[:_SHOWN]!r}, which nobody asked for")
            first = self._waiting[0]
        if not is_answer(first.form, status, text):
            raise Garbled(f"{first.shown!r} was answered {line[:_SHOWN]!r}")
        lines = self._read_lines(more_lines(first.form, status, text))
        if lines is None:
            return False
        if not are_lines(first.form, status, lines):
            raise Garbled(f"{first.shown!r} was answered {status} and {[one[:_SHOWN] for one in lines[-3:]]!r}")
        with self._lock:
            self._waiting.popleft()
        first.asked.take(first, Answer(int(status), text, lines))
        return True

    def _read_lines(self, count: int) -> Optional[Tuple[str, ...]]:
        lines = []
        for _ in range(count):
            line = self._read_line()
            if line is None:
                return None
            lines.append(line)
        return tuple(lines)

    def _read_line(self) -> Optional[str]:
        """The next line, without its end; None if it has none, which is what a process leaves that was killed."""
        searched = 0
        while True:
            at = self._left.find(b"\n", searched)
            if at >= 0:
                line = bytes(self._left[:at])
                del self._left[:at + 1]
                return line.decode("ascii", "backslashreplace")
            searched = len(self._left)
            if searched >= _LINE_MOST:
                raise Garbled(f"answered a line of more than {_LINE_MOST} octets: {bytes(self._left[:_SHOWN])!r}")
            piece = self.ends.read_some()
            if not piece:
                return None
            self._left += piece
