"""A party that several processes share, over a Unix socket."""

import fcntl
import os
import random
import shlex
import signal
import socket
import stat
import subprocess
import sys
import threading
import time
import unittest
from unittest import mock

import x509check
from x509check import Answer, Garbled, Party, PartyEnded, PartyLimits, Refused, Result, Verdict
from x509check import party as server

from . import authority
from .authority import GOOD_PRINTS, LEAF, MIDDLE, MIDDLE_LIST, ROOT, ROOT_LIST
from .test_party import ASKED, AT, PATH, PROGRAM, STAND_IN, InFolder, ask_all_that_is_documented, children

MODULE = os.path.join(authority.HERE, "..")
# What a process does that shares the party: it asks N times, and each answer has to be the one.
CLIENT = """
import sys
sys.path[:0] = [sys.argv[1]]
import x509check
from tests.authority import LEAF, MIDDLE, ROOT, ROOT_LIST
with x509check.Party.connect(sys.argv[2]) as party:
    for number in range(int(sys.argv[3])):
        name, says = (("www.example", "valid"), ("mx.example", "other name"))[number % 2]
        found = party.validate_peer([LEAF, MIDDLE], [ROOT], "2026-12-01T00:00:00Z", name=name).verdict.value
        kept = party.deliver(ROOT, ROOT_LIST).kept
        if (found, kept) != (says, 1):
            sys.exit(f"answered {found} and kept {kept}")
print("done")
"""


class Served(InFolder):
    """A server that runs as a process."""

    def setUp(self):
        super().setUp()
        self.socket = self.file("socket")
        self.servers = []
        self.addCleanup(self.end_all)

    def end_all(self):
        for one in self.servers:
            one.kill()
            one.wait()
            one.stderr.close()

    def serve(self, *words, program=PROGRAM, front=(), environment=None, listening=None):
        """Starts a server, and waits until it listens or has ended."""
        listening = ["--listen", self.socket] if listening or not front else []
        words = [*front, sys.executable, "-B", "-m", "x509check.party", "--store", self.file("store"), *listening, *words]
        environment = {**os.environ, "PYTHONPATH": MODULE, "X509CHECK": program, **(environment or {})}
        self.servers.append(subprocess.Popen(words, env=environment, stderr=subprocess.PIPE, text=True))
        self.told = self.servers[-1].stderr.readline()
        return self.servers[-1]

    def raw(self):
        connection = socket.socket(socket.AF_UNIX)
        self.addCleanup(connection.close)
        connection.settimeout(20)
        connection.connect(self.socket)
        return connection

    @staticmethod
    def all_of(connection):
        pieces = []
        while True:
            piece = connection.recv(1 << 16)
            if not piece:
                return b"".join(pieces)
            pieces.append(piece)


@unittest.skipUnless(PROGRAM, "the program is missing")
class OverTheProgram(Served):
    def deliver(self):
        with Party.connect(self.socket) as party:
            party.deliver(ROOT, ROOT_LIST)
            self.assertEqual(party.deliver(MIDDLE, MIDDLE_LIST).stored, 1)
            self.assertTrue(party.validate_peer([LEAF, MIDDLE], [ROOT], AT, "serverAuth", name="www.example"))

    def test_several_processes_at_once(self):
        self.serve()
        self.assertEqual(self.told, "party: listening\n")
        self.deliver()
        words = [sys.executable, "-B", "-c", CLIENT, MODULE, self.socket, "100"]
        clients = [subprocess.Popen(words, stdout=subprocess.PIPE, stderr=subprocess.STDOUT, text=True) for _ in range(4)]
        for one in clients:
            self.assertEqual((one.communicate(timeout=120)[0], one.returncode), ("done\n", 0))

    def test_lines_are_answered_as_by_a_session(self):
        self.serve("--verdicts", authority.GOOD, "--octets", str(1 << 20))
        asked = [b"check 20261201000000Z " + b" ".join(b"hex:" + one.hex().encode() for one in (ROOT, MIDDLE, LEAF)), b"", b"# nothing",
                 b"nothing",
                 b"believe \xff", b"believe 00", b"deliver nothing nothing",
                 b"prints cert hex:" + ROOT.hex().encode() + b" hex:" + MIDDLE.hex().encode(),
                 b"0" * ((1 << 20) + 1), b"forget", b"0" * (3 << 20), b"quit", b"forget"]
        with open(self.file("asked"), "wb") as file:
            file.write(b"\n".join(asked) + b"\n")
        with open(self.file("asked"), "rb") as file:
            wanted = subprocess.run([PROGRAM, "session", "--store", self.file("other"), "--verdicts", authority.GOOD], stdin=file,
                                    stdout=subprocess.PIPE, check=True).stdout
        connection = self.raw()
        sender = threading.Thread(target=connection.sendall, args=(b"\n".join(asked[:-1]) + b"\n",))
        sender.start()
        self.assertEqual(self.all_of(connection), wanted)
        sender.join()
        self.assertIn(b"5 line too long", wanted)
        self.assertTrue(wanted.endswith(b"0 ended\n"))

    def test_a_server_that_is_started_again(self):
        first = self.serve()
        with Party.connect(self.socket) as party:
            party.deliver(ROOT, ROOT_LIST)
            party.deliver(MIDDLE, MIDDLE_LIST)
            self.assertTrue(party.validate_peer([LEAF, MIDDLE], [ROOT], AT))
            for number in (signal.SIGKILL, signal.SIGTERM):
                first.send_signal(number)
                first.wait()
                # (what a server left that was killed makes way)
                first = self.serve()
                self.assertEqual(self.told, "party: listening\n")
                self.assertTrue(party.check(ROOT, [MIDDLE, LEAF], AT), "what is believed was told again")
            first.send_signal(signal.SIGTERM)
            self.assertEqual((first.wait(), os.path.exists(self.socket)), (0, False))
            with self.assertRaises(PartyEnded):
                party.check(ROOT, [MIDDLE, LEAF], AT)

    def test_each_forgets_what_it_said(self):
        self.serve()
        self.deliver()
        with Party.connect(self.socket) as one, Party.connect(self.socket) as other:
            self.assertTrue(one.validate_peer([LEAF, MIDDLE], [ROOT], AT))
            other.believe([bytes(32)])
            other.forget()
            self.assertTrue(one.check(ROOT, [MIDDLE, LEAF], AT), "what another said stays")
            other.believe(GOOD_PRINTS.values())
            one.forget()
            self.assertTrue(one.check(ROOT, [MIDDLE, LEAF], AT), "and what another said too")
            other.forget()
            self.assertEqual(one.check(ROOT, [MIDDLE, LEAF], AT).verdict, Verdict.INVALID)
            self.assertTrue(one.validate_peer([LEAF, MIDDLE], [ROOT], AT))

    def test_its_process_is_killed(self):
        served = self.serve()
        self.deliver()
        with Party.connect(self.socket) as party:
            self.assertTrue(party.validate_peer([LEAF, MIDDLE], [ROOT], AT))
            for _ in range(3):
                session, = children(served.pid)
                os.kill(session, signal.SIGKILL)
                self.assertTrue(party.check(ROOT, [MIDDLE, LEAF], AT))

    def test_values_that_are_too_long_for_a_line(self):
        served = self.serve(environment={"TMPDIR": self.folder})
        before = os.listdir(self.folder)
        with Party.connect(self.socket, folder="/nowhere") as party:
            party.believe(GOOD_PRINTS.values())
            found = party.find(LEAF, [ROOT], [*[authority.DELEGATE] * 2500, MIDDLE], AT)
            self.assertEqual((found, len(found.path)), (Result(Verdict.UNKNOWN, 1), 3))
            with self.assertRaises(Refused) as caught:
                party.deliver(ROOT, ROOT_LIST + bytes(1 << 20))
            self.assertEqual((caught.exception.what, caught.exception.name), ("statement", "Trailing"))
        self.assertEqual(os.listdir(self.folder), before, "files are removed")
        served.kill()
        served.wait()
        self.serve("--octets", str(1 << 20))
        with Party.connect(self.socket) as party, self.assertRaises(Refused) as caught:
            party.find(LEAF, [ROOT], [*[authority.DELEGATE] * 2500, MIDDLE], AT)
        self.assertEqual(str(caught.exception), "5 line too long")

    def test_no_request_names_a_file(self):
        served = self.serve("--verdicts", authority.GOOD)
        self.deliver()
        hostile, innocent = self.raw(), self.raw()
        pipe = self.file("pipe")
        os.mkfifo(pipe)
        checks = [f"check {ASKED} {PATH}\n".encode(), f"check 20281201000000Z {PATH}\n".encode()]
        for name in ("/dev/stdin", "/proc/self/fd/0", pipe, self.file("socket")):
            for line in (f"deliver {name} hex:30", f"deliver hex:30 {name}", f"check {ASKED} {name} hex:30", f"find {ASKED} {name} hex:30",
                         f"check {ASKED} policy=1.2.3 {name} hex:30", f"prints cert {name} hex:30", f"prints search {name} hex:30"):
                hostile.sendall(f"{line}\n".encode())
                for check, wanted in zip(checks, (b"0 valid\n", b"1 invalid 2 4 Expired\n")):
                    innocent.sendall(check)
                    self.assertEqual(innocent.recv(100), wanted, line)
                self.assertEqual(hostile.recv(1000), f"6 cannot read {name}\n".encode(), line)
        with Party.connect(self.socket) as party, self.assertRaises(ValueError):
            party.ask("deliver root.der hex:30")
        self.assertEqual(served.poll(), None)

    def test_each_request_that_is_documented(self):
        self.serve()
        with Party.connect(self.socket) as party:
            ask_all_that_is_documented(self, party)
            self.assertEqual(len(children(self.servers[0].pid)), 1)

    def test_a_forked_child_connects_anew(self):
        self.serve()
        self.deliver()
        with Party.connect(self.socket, limits=PartyLimits(5, 5)) as party:
            party.believe(GOOD_PRINTS.values())
            here, there = os.pipe()
            child = os.fork()
            if child == 0:
                said = set()
                for _ in range(200):
                    said.add(str(party.check(ROOT, [MIDDLE, LEAF], "2028-12-01T00:00:00Z").reason))
                os.write(there, " ".join(said).encode())
                os._exit(0)
            for _ in range(200):
                self.assertTrue(party.check(ROOT, [MIDDLE, LEAF], AT))
            os.waitpid(child, 0)
            self.assertEqual(os.read(here, 100), str(x509check.Reason.EXPIRED).encode())
            self.assertTrue(party.check(ROOT, [MIDDLE, LEAF], AT))
            os.close(here)
            os.close(there)

    def test_what_one_connection_may_believe(self):
        self.serve("--connections", "200")    # (of which each may believe 81)
        connection = self.raw()
        connection.sendall(b"".join(b"believe %064x\n" % number for number in range(90)) + b"believe %064x\nforget\nbelieve %064x\nquit\n" % (0, 99))
        self.assertEqual(self.all_of(connection).decode().splitlines(), [
            *["0 believed"] * 81, *["6 too many believed"] * 9, "0 believed", "0 forgotten", "0 believed", "0 ended"])
        with Party.connect(self.socket) as party:
            party.believe([number.to_bytes(32, "big") for number in range(80)])
            with self.assertRaises(Refused):
                party.believe([number.to_bytes(32, "big") for number in range(80, 90)])
            # A call that judges begins anew.
            self.assertEqual(party.validate_peer([LEAF, MIDDLE], [ROOT], AT).verdict, Verdict.UNKNOWN)

    def test_systemd_hands_over_the_socket(self):
        # (descriptor 3, and the number of the process itself in LISTEN_PID: sd_listen_fds(3))
        with socket.socket(socket.AF_UNIX) as listening:
            listening.bind(self.socket)
            listening.listen()
            handed = fcntl.fcntl(listening, fcntl.F_DUPFD, 20)
            script = f"exec 3<&{handed} {handed}<&-; LISTEN_PID=$$ exec \"$@\""
            words = [sys.executable, "-B", "-m", "x509check.party", "--store", self.file("store")]
            environment = {**os.environ, "PYTHONPATH": MODULE, "X509CHECK": PROGRAM, "LISTEN_FDS": "1"}
            self.servers.append(subprocess.Popen(
                ["bash", "-c", script, "bash", *words], env=environment, stderr=subprocess.PIPE, text=True, pass_fds=[handed]))
            os.close(handed)
        self.assertEqual(self.servers[0].stderr.readline(), "party: listening\n")
        self.deliver()
        self.servers[0].send_signal(signal.SIGTERM)
        self.assertEqual((self.servers[0].wait(), os.path.exists(self.socket)), (0, True), "the socket is systemd's")

    def test_who_may_connect(self):
        for words, mode in ((["--mode", "660"], 0o660), ([], 0o600)):
            served = self.serve(*words)
            self.assertEqual(stat.S_IMODE(os.stat(self.socket).st_mode), mode)
            served.send_signal(signal.SIGTERM)
            served.wait()

    def test_what_does_not_start(self):
        served = self.serve()
        for words, status, why in (
            (["--store", self.file("second")], 6, "in use"), (["--mode", "888"], 5, ""), (["--octets", "0"], 5, ""),
            (["--octets", str(1 << 30)], 5, ""), (["--connections", "x"], 5, ""), (["--store", self.file("nowhere/x")], 6, "store fault 71"),
            (["--profile", "narrow"], 5, ""),
        ):
            with self.subTest(words):
                done = self.serve(*words)
                rest = done.stderr.read()
                self.assertEqual(done.wait(), status, rest)
                self.assertIn(why, self.told + rest)
        with open(self.file("file"), "w", encoding="ascii"):
            pass
        done = self.serve("--listen", self.file("file"), "--store", self.file("second"))
        self.assertEqual((done.wait(), os.path.exists(self.file("file"))), (6, True), "no file but a socket makes way")
        self.assertIsNone(served.poll())
        done = subprocess.run([sys.executable, "-B", "-m", "x509check.party", "--store", self.file("third")], stderr=subprocess.PIPE,
                              check=False,
                              env={**os.environ, "PYTHONPATH": MODULE, "X509CHECK": PROGRAM})
        self.assertEqual((done.returncode, b"systemd hands over no socket" in done.stderr), (6, True))
        with self.assertRaises(PartyEnded):
            Party.connect(self.file("nothing"))


class OverAStandIn(Served):
    """Limits, over a program that is slow."""

    def setUp(self):
        super().setUp()
        program = self.file("program")
        words = " ".join(map(shlex.quote, [sys.executable, "-B", STAND_IN, self.folder]))
        with open(program, "w", encoding="ascii") as file:
            file.write(f"#!/bin/sh\nexec {words} \"$@\"\n")
        os.chmod(program, 0o755)
        self.program = program

    def plan(self, text):
        with open(self.file("plan"), "w", encoding="ascii") as file:
            file.write(text)

    def test_the_profile(self):
        for words, front in (([], ""), (["--profile", "stated"], ""), (["--profile", "wide"], "--profile wide ")):
            served = self.serve(*words, program=self.program)
            with open(self.file("words"), encoding="latin-1") as file:
                self.assertEqual(file.read().splitlines()[-1], f"{front}session --store {self.file('store')}")
            served.kill()
            served.wait()

    def test_lines_that_are_too_long_or_too_slow(self):
        self.serve("--octets", "100", "--seconds", "1", program=self.program)
        connection = self.raw()
        connection.sendall(b"check " + b"0" * 94 + b"\ncheck " + b"0" * 95 + b"\nforget\n")
        time.sleep(1.5)    # between lines a connection may rest
        connection.sendall(b"check hex:30\nche")
        begun = time.monotonic()
        self.assertEqual(self.all_of(connection), b"0 valid\n5 line too long\n0 forgotten\n0 valid\n")
        self.assertLess(time.monotonic() - begun, 5, "a line that was begun has to end")

    def test_no_answer_is_made_up(self):
        self.serve("--seconds", "1", program=self.program)
        for plan in ('[["check", {"sleep": 5}]]', '[["check", {"exit": 0, "again": true}]]', '[["check", {"write": "0 believed\\n"}]]'):
            self.plan(plan)
            connection = self.raw()
            connection.sendall(b"check hex:30\nforget\n")
            self.assertEqual(self.all_of(connection), b"", plan)
        self.plan("[]")
        with Party.connect(self.socket) as party:
            self.assertEqual(party.ask("check hex:30"), Answer(0, "valid"))

    def test_no_more_connections_than_are_allowed(self):
        self.serve("--connections", "2", program=self.program)
        self.plan('[["check", {"sleep": 3, "write": "0 valid\\n"}]]')
        first, second, third = self.raw(), self.raw(), self.raw()
        first.sendall(b"forget\n")
        self.assertEqual(first.recv(100), b"0 forgotten\n")
        first.sendall(b"check hex:30\n")
        second.sendall(b"forg")
        third.sendall(b"forget\n")
        third.settimeout(0.5)
        with self.assertRaises(OSError):
            third.recv(100)    # (the first is at work, and the second has begun a line, a moment ago)
        third.settimeout(20)
        self.assertEqual(third.recv(100), b"0 forgotten\n")
        self.assertEqual(second.recv(100), b"", "of which nothing came any more")
        self.assertEqual(first.recv(100), b"0 valid\n")

    def test_who_rests_makes_way(self):
        self.serve("--connections", "3", program=self.program)
        resting = [self.raw() for _ in range(3)]
        for one in resting:
            one.sendall(b"forget\n")
            self.assertEqual(one.recv(100), b"0 forgotten\n")
        resting[0].sendall(b"forget\n")
        self.assertEqual(resting[0].recv(100), b"0 forgotten\n")
        fourth = self.raw()
        fourth.sendall(b"forget\n")
        self.assertEqual(fourth.recv(100), b"0 forgotten\n")
        self.assertEqual(resting[1].recv(100), b"", "the one that rested longest was shut")
        for one in (resting[0], resting[2]):
            one.sendall(b"forget\n")
            self.assertEqual(one.recv(100), b"0 forgotten\n")

    def test_a_line_has_to_end_however_it_comes(self):
        self.serve("--seconds", "1", program=self.program)
        connection, begun = self.raw(), time.monotonic()
        with self.assertRaises(OSError):
            while time.monotonic() < begun + 10:
                connection.sendall(b"a")
                time.sleep(0.2)
        self.assertLess(time.monotonic() - begun, 5)

    def test_no_descriptor_is_left(self):
        served = self.serve("--connections", "100", program=self.program, front=["prlimit", "--nofile=24"], listening=True)
        many = [self.raw() for _ in range(30)]
        time.sleep(0.5)
        self.assertIsNone(served.poll())
        for one in many:
            one.close()
        with Party.connect(self.socket) as party:
            self.assertEqual(party.ask("forget"), Answer(0, "forgotten"))

    def test_who_does_not_take_answers(self):
        self.serve("--seconds", "1", program=self.program)
        connection = self.raw()
        connection.setsockopt(socket.SOL_SOCKET, socket.SO_RCVBUF, 4096)
        connection.settimeout(10)
        with self.assertRaises(OSError):
            for _ in range(200):
                connection.sendall(b"forget\n" * 10_000)
        with Party.connect(self.socket) as party:
            self.assertEqual(party.ask("forget"), Answer(0, "forgotten"))


class OverASocket(InFolder):
    """A party whose socket is a stand-in's."""

    def answered(self, *answers):
        """A party of a socket where each connection is written one of the answers, once a line came, or at once if it begins with `!`."""
        listening = socket.socket(socket.AF_UNIX)
        self.addCleanup(listening.close)
        listening.bind(self.file("socket"))
        listening.listen()

        def answer():
            for text in answers:
                connection, _ = listening.accept()
                with connection:
                    time.sleep(0.1)
                    while not text.startswith("!") and not connection.recv(1 << 20).endswith(b"\n"):
                        pass
                    connection.sendall(text.lstrip("!").encode("ascii"))
                    connection.recv(1 << 20)
        answering = threading.Thread(target=answer, daemon=True)
        self.addCleanup(answering.join, 5)
        answering.start()
        party = Party.connect(self.file("socket"), limits=PartyLimits(2, 2))
        self.addCleanup(party.close)
        return party

    def test_answers_that_are_none(self):
        party = self.answered("!0 valid\n", "0 believed\n", "0 val", "6 store fault 71\n", "0 valid\n")
        # (the first answer, which nobody asked for, has to be read before anybody asks)
        until = time.monotonic() + 20
        while party._link.failure is None and time.monotonic() < until:
            time.sleep(0.01)
        for kind in (Garbled, Garbled, x509check.TimeIsUp, Refused):
            with self.assertRaises(kind):
                party.check(ROOT, [MIDDLE, LEAF], AT)
            if kind is Refused:
                party._link.end()
        self.assertTrue(party.check(ROOT, [MIDDLE, LEAF], AT))


class Lines(unittest.TestCase):
    def test_lines_cut_anywhere(self):
        rng = random.Random(1)
        for _ in range(200):
            lines = [bytes(rng.choices(b"abc \r\xff", k=rng.choice((0, 1, 5, 20, 21, 60)))) for _ in range(rng.randrange(6))]
            octets, found = b"".join(line + b"\n" for line in lines) + rng.choice((b"", b"rest")), []
            here, there = socket.socketpair()
            with here, there:
                read = server.Lines(there, 20, 5)
                with mock.patch.object(server, "_PIECE", rng.choice((1, 3, 1000))):
                    here.sendall(octets)
                    here.shutdown(socket.SHUT_WR)
                    while not found or found[-1] is not None:
                        try:
                            found.append(read.next())
                        except server.TooLong:
                            found.append("too long")
            self.assertEqual(found, [*("too long" if len(line) > 20 else line for line in lines), None])


class Handed(unittest.TestCase):
    def test_modes(self):
        self.assertEqual(server.words_of(["--store", "s", "--mode", "0660"]).mode, 0o660)


if __name__ == "__main__":
    unittest.main()
