"""The thread of a party that starts its process, writes its requests, and keeps what is believed.

A signal handler's exception comes in the main thread, at any line. So a thread that asks takes no lock, and changes nothing that another
one reads: it hands its requests over to a thread that no handler interrupts, and waits.
"""

import os
import queue
import sys
import threading
import time
from typing import Callable, Dict, Iterable, List, NamedTuple, Optional, Sequence, Tuple, Union

from ._lines import Answer, is_fingerprint
from ._link import ENDING_SECONDS, Asked, Ends, Garbled, Link, PartyEnded, TimeIsUp

# Whoever waits looks that often whether the thread is there still.
_LOOK_SECONDS = 1.0


class Limits(NamedTuple):
    """How long a request may take, in seconds, and the start of a process (`PartyLimits`)."""

    seconds: float
    start_seconds: float


class _Request(Asked):
    """Requests of one call, and until when they may be written, but for the time that starts take."""

    def __init__(self, lines: Sequence[str], limits: Limits, not_believed: Callable[[str], None], starting: float) -> None:
        super().__init__(lines, not_believed)
        self.limits, self.begun, self.starting = limits, time.monotonic(), starting
        self.is_given_up = False

    def deadline(self, starting: float) -> float:
        """When the time is up, if all starts together have taken so long."""
        return self.begun + self.limits.seconds + min(starting - self.starting, self.limits.start_seconds)


class _End(NamedTuple):
    """Nobody waits for the answers of a link any more: it is ended."""

    link: Optional[Link]
    done: "queue.SimpleQueue[None]"


class _Close(NamedTuple):
    """The last task: what was asked before is answered within this time."""

    seconds: float
    done: "queue.SimpleQueue[None]"


class Desk:
    """The link of a party, which is made anew if its other end is gone, and what is believed there."""

    def __init__(self, open_ends: Callable[[], Ends], greeting: Sequence[str], believed: Iterable[str] = ()) -> None:
        self.process_id = os.getpid()
        self.believed: Dict[str, None] = dict.fromkeys(believed)   # (in the order in which they came)
        self.forgotten = 0                                         # how often
        self.link: Optional[Link] = None
        self._open_ends, self._greeting = open_ends, greeting
        self._is_closed = False
        self._starts: Tuple[float, Optional[float]] = 0.0, None    # how long all took together, and when one began that is under way
        self._tasks: "queue.SimpleQueue[Union[_Request, _End, _Close]]" = queue.SimpleQueue()
        self._thread = threading.Thread(target=self._work, name="x509check requests", daemon=True)
        self._thread.start()

    # ---- for the threads that ask

    def ask(self, lines: Sequence[str], limits: Limits) -> List[Answer]:
        """The answers to requests that are written together. Of no lines there are none, once the link is there."""
        if self._is_closed:
            raise final(PartyEnded("the party is closed"))
        asked = _Request(lines, limits, self._not_believed, self._starting())
        self._tasks.put(asked)
        found = self._outcome(asked)
        if isinstance(found, BaseException):
            raise asked.failure or found
        return found

    def _outcome(self, asked: _Request) -> Union[List[Answer], BaseException]:
        while True:
            left = asked.deadline(self._starting()) - time.monotonic()
            try:
                return asked.outcome.get(timeout=min(max(0.0, left), _LOOK_SECONDS))
            except queue.Empty:
                if not self._thread.is_alive():
                    raise final(PartyEnded("the party is closed")) from None
                if left <= 0:
                    break
        asked.is_given_up = True
        if asked.link is None:
            raise TimeIsUp("other requests were written all the time")
        # (what it would still write must not be read as the answer to another request)
        self._wait_for(_End(asked.link, queue.SimpleQueue()), 2 * ENDING_SECONDS)
        raise TimeIsUp(f"no answer within {asked.limits.seconds} seconds to {asked.lines[0][:80]!r}")

    def close(self, seconds: float) -> None:
        """Ends the link, once what was asked was answered, or the time has passed."""
        self._is_closed = True
        if sys.is_finalizing():
            # (no thread but this one runs any more)
            if self.link is not None:
                self.link.ends.kill()
            return
        self._wait_for(_Close(seconds, queue.SimpleQueue()), seconds + 3 * ENDING_SECONDS)

    def _wait_for(self, task: Union[_End, _Close], seconds: float) -> None:
        self._tasks.put(task)
        until = time.monotonic() + seconds
        while self._thread.is_alive() and threading.current_thread() is not self._thread and time.monotonic() < until:
            try:
                return task.done.get(timeout=_LOOK_SECONDS)
            except queue.Empty:
                pass

    def _starting(self) -> float:
        """How long all starts took together until now."""
        took, begun = self._starts
        return took if begun is None else took + time.monotonic() - begun

    # ---- the thread

    def _work(self) -> None:
        while True:
            task = self._tasks.get()
            if isinstance(task, _Request):
                self._serve(task)
                continue
            if isinstance(task, _Close):
                link, self.link = self.link, None
                if link is not None:
                    link.close(task.seconds)
            elif task.link is not None:
                task.link.end()
            task.done.put(None)
            if isinstance(task, _Close):
                return

    def _serve(self, asked: _Request) -> None:
        """Writes requests. Why that cannot be done, whatever it is, is told to whoever asks."""
        try:
            if "forget" in asked.lines:
                # Also if nobody can be told: a process that is started later must not be told what was to be forgotten.
                self._forget()
            link = self._living_link(asked.limits.start_seconds)
            deadline = asked.deadline(self._starting())
            if asked.is_given_up or deadline <= time.monotonic() and asked.lines:
                raise TimeIsUp("other requests were written all the time")
            # Noted first: if they cannot be written, the link ends, and the next process is told what was noted.
            for line in asked.lines:
                self._note(line)
            if asked.lines:
                link.send(asked, deadline)
            else:
                asked.outcome.put([])
        except BaseException as cause:
            asked.fail(cause)

    def _living_link(self, start_seconds: float) -> Link:
        """The link, which is made anew if its other end is gone."""
        if self.link is not None and self.link.failure is not None:
            link, self.link = self.link, None
            link.end()
            if isinstance(link.failure, Garbled):
                raise link.failure
        if self.link is None:
            took, begun = self._starts[0], time.monotonic()
            self._starts = took, begun
            try:
                self.link = self._started(begun + start_seconds, start_seconds)
            finally:
                self._starts = took + time.monotonic() - begun, None
        return self.link

    def _started(self, deadline: float, start_seconds: float) -> Link:
        """A link whose other end has opened the store and been told what is believed."""
        link: Optional[Link] = None
        try:
            link = Link(self._open_ends())
            asked = Asked([*self._greeting, *(f"believe {fingerprint}" for fingerprint in list(self.believed))])
            link.send(asked, deadline)
            answers = asked.outcome.get(timeout=max(0.0, deadline - time.monotonic())) if asked.lines else []
            if isinstance(answers, BaseException):
                raise answers
            for line, answer in zip(asked.lines, answers):
                if answer.status != 0:
                    raise Garbled(f"{line!r}, which was answered before, was answered {answer}")
            return link
        except BaseException as cause:
            if link is not None:
                link.end()
            if isinstance(cause, (queue.Empty, TimeIsUp)):
                raise TimeIsUp(f"the store was not open after {start_seconds} seconds") from None
            raise final(cause)

    def _note(self, line: str) -> None:
        """Keeps for the next process what this one believes once it has read the line."""
        word, _, fingerprint = line.partition(" ")
        if word == "believe" and is_fingerprint(fingerprint):
            self.believed[fingerprint.lower()] = None
        elif line == "forget":
            self._forget()

    def _forget(self) -> None:
        self.believed.clear()
        self.forgotten += 1

    def _not_believed(self, fingerprint: str) -> None:
        """The process could not keep what it was told to believe."""
        self.believed.pop(fingerprint.lower(), None)


def final(cause: BaseException) -> BaseException:
    """The cause, after which another process would fare no better."""
    if isinstance(cause, PartyEnded):
        cause.is_final = True
    return cause
