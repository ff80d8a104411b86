"""The processes of a fleet: a broker, the relay and the nodes. Each is ended by its own id. It is imported by `run`."""

import os
import select
import shutil
import signal
import socket
import subprocess
import sys
import time
from typing import List, Optional

HERE = os.path.dirname(os.path.realpath(__file__))


class Stop(Exception):
    """Why the run ends, in one line."""


def program_at(name: str) -> str:
    """Where a program is, looked for in the folders of servers too."""
    found = shutil.which(name, path=os.environ.get("PATH", "") + ":/usr/sbin:/usr/local/sbin")
    if found is None:
        raise Stop(f"{name} is not there: apt-get install mosquitto, or name it by --broker")
    return found


class Broker:
    """mosquitto on the loopback, at a port that was free."""

    def __init__(self, folder: str, name: str) -> None:
        self.program, self.process = program_at(name), None
        self.settings, self.messages = os.path.join(folder, "broker.conf"), os.path.join(folder, "broker.log")
        with socket.socket() as free:
            free.bind(("127.0.0.1", 0))
            self.port = free.getsockname()[1]
        with open(self.settings, "w", encoding="ascii") as out:
            out.write(f"listener {self.port} 127.0.0.1\nallow_anonymous true\nmax_inflight_messages 200\nmax_queued_messages 0\n"
                      "log_type error\nlog_type warning\n")
        self.start()

    def start(self) -> None:
        try:
            with open(self.messages, "ab") as out:
                self.process = subprocess.Popen([self.program, "-c", self.settings], stdin=subprocess.DEVNULL, stdout=out, stderr=out)
        except OSError as cause:
            raise Stop(f"{self.program}: {cause.strerror}") from cause
        for _ in range(100):
            time.sleep(0.05)
            with socket.socket() as tried:
                if tried.connect_ex(("127.0.0.1", self.port)) == 0:
                    return
        self.end()
        raise Stop(f"{self.program} does not answer at 127.0.0.1:{self.port}")

    def ended(self) -> Optional[int]:
        """The status with which it ended, if it did."""
        return self.process.poll()

    def end(self) -> None:
        self.process.terminate()
        self.process.wait()


class Spoken:
    """A process that reads lines, and answers some of them."""

    def __init__(self, words: List[str], errors: str) -> None:
        with open(errors, "ab") as out:
            self.process = subprocess.Popen([sys.executable, "-B", *words], stdin=subprocess.PIPE, stdout=subprocess.PIPE, stderr=out,
                                            start_new_session=True, text=True, bufsize=1)

    def say(self, line: str) -> None:
        try:
            self.process.stdin.write(line + "\n")
        except OSError:
            pass          # it ended, which `heard` will show

    def heard(self, seconds: float) -> str:
        """The line that it answers within this time, or nothing."""
        ready, _, _ = select.select([self.process.stdout], [], [], seconds)
        return self.process.stdout.readline().strip() if ready else ""

    def kill(self) -> None:
        """Kills it with the processes that it started: it is the first of its group."""
        if self.process.poll() is None:
            os.killpg(self.process.pid, signal.SIGKILL)
        self.close()

    def end(self) -> str:
        """Ends its input, waits for its end, and gives what it said last."""
        try:
            said, _ = self.process.communicate(timeout=20)
            return said.strip()
        except (subprocess.TimeoutExpired, OSError):
            self.kill()
            return ""

    def close(self) -> None:
        for end in (self.process.stdin, self.process.stdout):
            try:
                end.close()
            except OSError:
                pass
        self.process.wait()


class Relay(Spoken):
    def __init__(self, folder: str, broker: int, seed: int) -> None:
        super().__init__([os.path.join(HERE, "relay.py"), str(broker), str(seed)], os.path.join(folder, "relay.errors"))
        self.port = int(self.heard(20) or 0)
        if not self.port:
            self.kill()
            raise Stop("the relay does not start: see relay.errors")


class Node:
    """A node, which is started and killed many times over one folder."""

    def __init__(self, folder: str, name: str, *rule: str) -> None:
        self.folder, self.name, self.rule = folder, name, rule
        self.home = os.path.join(folder, "nodes", name)
        self.spoken: Optional[Spoken] = None
        os.makedirs(self.home)

    def file(self, name: str) -> str:
        return os.path.join(self.home, name)

    def start(self) -> None:
        if self.spoken is None:
            self.spoken = Spoken([os.path.join(HERE, "node.py"), self.folder, self.name, *self.rule], self.file("errors"))

    def kill(self) -> None:
        if self.spoken is not None:
            self.spoken.kill()
            self.spoken = None

    def look(self) -> None:
        """Stops the run if the node ended by itself."""
        if self.spoken is not None and self.spoken.process.poll() is not None:
            with open(self.file("errors"), encoding="utf-8", errors="replace") as file:
                last = (file.read().strip().splitlines() or ["nothing"])[-1]
            raise Stop(f"{self.name} ended with status {self.spoken.process.returncode}, and said: {last}")

    def end(self) -> None:
        if self.spoken is not None:
            self.spoken.end()
            self.spoken = None


def say_to_all(nodes: List[Node], line: str) -> List[Node]:
    """Says the line to all nodes that run, and waits until each has done it; which these are."""
    running = [node for node in nodes if node.spoken is not None]
    for node in running:
        node.spoken.say(line)
    for node in running:
        if node.spoken.heard(120) != "done":
            node.look()
            raise Stop(f"{node.name} does not answer to `{line}`")
    return running
