"""examples/gateway/check_peer: its status for whatever a peer sent, and whatever became of the party."""

import base64
import enum
import importlib.machinery
import importlib.util
import os
import random
import re
import signal
import socket
import subprocess
import sys
import threading
import time
import unittest
from unittest import mock

from x509check import Certificate, Party, Result, Verdict

from . import authority
from .authority import GOOD_PRINTS, LEAF, MIDDLE, MIDDLE_LIST, REVOKING_LIST, ROOT, ROOT_LIST
from .fetch_authority import FOR_AUTHORITY, FOR_SERVER, Authority
from .test_loading import KEY, pem
from .test_party import AT, PROGRAM, InFolder
from .test_party_server import Served

SCRIPT = os.path.join(authority.TOP, "examples", "gateway", "check_peer")
ANCHOR = ["--anchor", os.path.join(authority.FOLDER, "root.pem")]
MOST = 256 * 1024
SENT = pem(LEAF) + pem(MIDDLE)
# Long enough for a machine that does much else.
SECONDS = 120


class Ends(enum.IntEnum):
    """The statuses, by sysexits.h and the script's own words."""

    VALID = 0
    REJECTED = 1
    USAGE = 64
    UNAVAILABLE = 69
    TEMPFAIL = 75


def script():
    """The script as a module."""
    loader = importlib.machinery.SourceFileLoader("check_peer", SCRIPT)
    found = importlib.util.module_from_spec(importlib.util.spec_from_loader("check_peer", loader))
    loader.exec_module(found)
    return found


def padded(size):
    """What was sent, with text between, in so many octets."""
    left = size - len(SENT)
    return SENT + b"text\n" * (left // 5) + b"\n" * (left % 5)


class Calls(Served):
    def words(self, *words, anchors=tuple(ANCHOR)):
        return [sys.executable, "-B", SCRIPT, "--connect", self.socket, "--seconds", "60", "--at", AT, *anchors, *words]

    def call(self, sent, *words, anchors=tuple(ANCHOR), environment=None, **options):
        """The status, and the one line."""
        given = {"stdin": sent} if hasattr(sent, "fileno") else {"input": sent}
        done = subprocess.run(self.words(*words, anchors=anchors), stdout=subprocess.PIPE, stderr=subprocess.PIPE, check=False,
                              timeout=SECONDS, env={**os.environ, **(environment or {})}, **given, **options)
        self.assertRegex(done.stdout, rb"\A[ -~]+\n\Z", done.stderr)
        return done.returncode, done.stdout.decode("ascii")[:-1]

    def ends(self, status, begins, sent, *words, holds="", **options):
        found, line = self.call(sent, *words, **options)
        self.assertEqual((found, line[:len(begins)]), (status, begins), line)
        self.assertIn(holds, line)
        return line


@unittest.skipUnless(PROGRAM, "the program is missing")
class OverTheProgram(Calls):
    def deliver(self, *pairs):
        with Party.connect(self.socket) as party:
            for issuer, statement in pairs:
                self.assertEqual(party.deliver(issuer, statement).stored, 1)

    def test_each_verdict(self):
        self.serve()
        leaf = str(Certificate.from_der(LEAF).identity)
        self.ends(Ends.TEMPFAIL, f"unknown: {leaf}", SENT)
        for words in (["--accept-unknown"], ["--accept-unknown", "--name", "www.example"]):
            self.ends(Ends.VALID, f"unknown: {leaf}", SENT, *words, holds="no list of its issuer is held")
        self.ends(Ends.REJECTED, f"unknown: {leaf}", SENT, "--accept-unknown", "--name", "mx.example", holds="does not speak for that name")
        self.deliver((ROOT, ROOT_LIST), (MIDDLE, MIDDLE_LIST))
        self.ends(Ends.VALID, f"valid: {leaf}", SENT, "--purpose", "serverAuth", "--name", "www.example")
        self.ends(Ends.VALID, f"valid: {leaf}", pem(LEAF), "--chain", os.path.join(authority.FOLDER, "middle.pem"))
        self.ends(Ends.VALID, f"valid: {leaf}", SENT, anchors=["--system-anchors"], environment={"SSL_CERT_FILE": ANCHOR[1]})
        self.ends(Ends.REJECTED, f"other name: {leaf}", SENT, "--name", "mx.example")
        self.ends(Ends.REJECTED, f"not found: {leaf}", SENT, "--purpose", "clientAuth", holds="(purpose)")
        self.ends(Ends.REJECTED, f"not found: {leaf}", pem(LEAF), holds="no certificate at hand has the name of the issuer")
        self.ends(Ends.REJECTED, f"not found: {leaf}", SENT, "--at", "2028-01-01T00:00:00Z", holds="(expired)")
        self.ends(Ends.TEMPFAIL, f"unknown: {leaf}", SENT, "--at", "2027-01-01T00:00:00Z")
        self.deliver((MIDDLE, REVOKING_LIST))
        self.ends(Ends.REJECTED, f"revoked (key compromise): {leaf}", SENT)
        self.ends(Ends.REJECTED, f"revoked (key compromise): {leaf}", SENT, "--accept-unknown")

    def test_a_list_that_has_ended_and_revoked_keeps_the_door_shut(self):
        self.serve()
        later, leaf = ["--at", "2027-01-01T00:00:00Z", "--accept-unknown"], str(Certificate.from_der(LEAF).identity)
        self.ends(Ends.VALID, f"unknown: {leaf}", SENT, *later, holds="no list of its issuer is held")
        self.deliver((ROOT, ROOT_LIST), (MIDDLE, MIDDLE_LIST))
        self.ends(Ends.VALID, f"unknown: {leaf}", SENT, *later, holds="what is held of its issuer ended at 2026-12-")
        self.deliver((MIDDLE, REVOKING_LIST))
        self.ends(Ends.TEMPFAIL, f"unknown: {leaf}", SENT, *later, holds="revoked a certificate of the path")

    def test_a_statement_that_contradicts_a_held_one_is_an_alarm(self):
        self.serve()
        made = Authority(self.folder)
        root, target = made.root(), made.certificate("Server", "Root", FOR_SERVER)
        first, second = made.revocation_list("Root", 1), made.revocation_list("Root", 1, [made.serial])
        words = ["--at", "now", "--accept-unknown"]
        sent, anchor = pem(target), ["--anchor", made.path("Root.pem")]
        with Party.connect(self.socket) as party:
            self.assertEqual(str(party.deliver(root, first)), "stored 1 kept 0 contradicted 0")
            self.ends(Ends.VALID, "valid: ", sent, *words, anchors=anchor)
            self.assertEqual(str(party.deliver(root, second)), "stored 0 kept 0 contradicted 1")
            self.ends(Ends.TEMPFAIL, "ALARM: ", sent, *words, anchors=anchor, holds="contradicted: ")
            # Also below another certificate of the same issuer, which a peer may send, and if an operand holds several.
            made.certificate("Middle", "Root", FOR_AUTHORITY)
            below = made.certificate("Below", "Middle", FOR_SERVER)
            old, renewed = made.der("Middle"), made.certificate("Middle", "Root", FOR_AUTHORITY)
            party.deliver(old, made.revocation_list("Middle", 1))
            self.assertEqual(str(party.deliver(old, made.revocation_list("Middle", 1, [made.serial - 1]))), "stored 0 kept 0 contradicted 1")
            # What is newer than both decides.
            self.assertEqual(str(party.deliver(root, made.revocation_list("Root", 2))), "stored 1 kept 0 contradicted 0")
            for middle in (old, renewed):
                self.ends(Ends.TEMPFAIL, "ALARM: ", pem(below) + pem(middle), *words, anchors=anchor, holds="contradicted: ")
            for issuer, certificate in ((root, renewed), (renewed, below)):
                party.judge("cert", issuer, certificate)
            moment = time.strftime("%Y%m%d%H%M%SZ", time.gmtime())
            self.assertEqual(party.ask(f"check {moment} hex:{root.hex()} hex:{(renewed + below).hex()}").status, 6)
            self.ends(Ends.VALID, "valid: ", sent, *words, anchors=anchor)

    def test_the_bounds(self):
        self.serve()
        self.deliver((ROOT, ROOT_LIST), (MIDDLE, MIDDLE_LIST))
        self.ends(Ends.VALID, "valid: ", padded(MOST))
        self.ends(Ends.VALID, "valid: ", SENT + pem(MIDDLE) * 30)
        self.ends(Ends.REJECTED, "unreadable: ", SENT + pem(MIDDLE) * 31, holds="33 certificates")
        self.ends(Ends.REJECTED, "unreadable: more than 262144 octets were sent", padded(MOST + 1))

    def test_the_party_keeps_nothing_of_a_peer(self):
        self.serve()
        self.deliver((ROOT, ROOT_LIST), (MIDDLE, MIDDLE_LIST))
        self.ends(Ends.VALID, "valid: ", SENT)
        with Party.connect(self.socket) as party:
            self.assertEqual(party.check(ROOT, [MIDDLE, LEAF], AT).verdict, Verdict.INVALID)
            party.believe(GOOD_PRINTS.values())
            self.ends(Ends.VALID, "valid: ", SENT)
            self.assertTrue(party.check(ROOT, [MIDDLE, LEAF], AT), "what others said stays")

    def test_two_at_once(self):
        self.serve()
        self.deliver((ROOT, ROOT_LIST), (MIDDLE, MIDDLE_LIST))
        found = {"www.example": [], "mx.example": []}

        def ask(name):
            for _ in range(3):
                found[name].append(self.call(SENT, "--name", name)[0])
        asking = [threading.Thread(target=ask, args=(name,)) for name in found]
        for one in asking:
            one.start()
        for one in asking:
            one.join()
        self.assertEqual(found, {"www.example": [Ends.VALID] * 3, "mx.example": [Ends.REJECTED] * 3})

    def test_a_line_that_cannot_be_written(self):
        self.serve()
        self.deliver((ROOT, ROOT_LIST), (MIDDLE, MIDDLE_LIST))
        with open("/dev/full", "wb") as full:
            done = subprocess.run(self.words(), input=SENT, stdout=full, stderr=subprocess.PIPE, check=False, timeout=SECONDS)
            self.assertEqual(done.returncode, Ends.TEMPFAIL, done.stderr)
            done = subprocess.run(self.words(), input=SENT, stdout=full, stderr=full, check=False, timeout=SECONDS)
            self.assertEqual(done.returncode, Ends.TEMPFAIL)

    def test_a_party_that_was_ended(self):
        served = self.serve()
        self.deliver((ROOT, ROOT_LIST), (MIDDLE, MIDDLE_LIST))
        served.send_signal(signal.SIGSTOP)
        self.ends(Ends.TEMPFAIL, "no answer on ", SENT, "--seconds", "3", holds="within 3 seconds")
        served.kill()
        served.wait()
        self.ends(Ends.TEMPFAIL, "no answer on ", SENT, holds="Connection refused")
        self.serve()
        self.ends(Ends.VALID, "valid: ", SENT)


class WithoutAParty(Calls):
    """What is rejected, deferred or refused before a party has answered."""

    def listening(self, *answers):
        """A socket that writes one of the answers to each line; behind the last nothing."""
        here = socket.socket(socket.AF_UNIX)
        self.addCleanup(here.close)
        here.bind(self.socket)
        here.listen()
        held = []

        def answer():
            connection, _ = here.accept()
            held.append(connection)
            with connection.makefile("rb") as lines:
                for text in answers:
                    lines.readline()
                    connection.sendall(text)
                lines.read()
            connection.close()
        threading.Thread(target=answer, daemon=True).start()
        self.addCleanup(lambda: [one.close() for one in held])

    def test_what_cannot_be_read(self):
        damaged = pem(LEAF[:-1])
        for sent, why in (
            (b"", "no certificate was sent"), (b"hello", "no PEM, and no DER"), (b"\x00" * MOST, "no DER"), (KEY + SENT, "EC PRIVATE KEY"),
            (SENT[:-30], "line"), (damaged + pem(MIDDLE), "4 Truncated"), (pem(LEAF) + pem(ROOT_LIST, "X509 CRL"), "22 Layout"),
            (pem(LEAF) + pem(LEAF, "PKCS7"), "PKCS7"), (b"-----BEGIN CERTIFICATE-----\n-----END CERTIFICATE-----\n", "empty"),
        ):
            with self.subTest(why):
                line = self.ends(Ends.REJECTED, "unreadable: ", sent, holds=why)
                self.assertTrue(not sent or f"{len(sent)} octets, sha256 " in line)

    def test_input_without_an_end(self):
        with open("/dev/zero", "rb") as zeros:
            self.ends(Ends.REJECTED, "unreadable: more than 262144 octets were sent", zeros)
        reads, writes = os.pipe()
        with open(reads, "rb") as waiting, open(writes, "wb"):
            self.ends(Ends.TEMPFAIL, "no answer within 2 seconds", waiting, "--seconds", "2")
        with open(os.devnull, "wb") as not_for_reading:
            self.ends(Ends.REJECTED, "unreadable: standard input: ", not_for_reading)

    def test_no_party(self):
        self.ends(Ends.TEMPFAIL, "no answer on ", SENT, holds=f"{Certificate.from_der(LEAF).identity.sha256}: {self.socket}: cannot be")
        with socket.socket(socket.AF_UNIX) as left:
            left.bind(self.socket)
        self.ends(Ends.TEMPFAIL, "no answer on ", SENT, holds="Connection refused")

    def test_a_party_that_hangs(self):
        self.listening(b"0 believed\n", b"0 believed\n")

        def blocked():
            signal.pthread_sigmask(signal.SIG_BLOCK, [signal.SIGALRM])
        begun = time.monotonic()
        self.ends(Ends.TEMPFAIL, "no answer on ", SENT, "--seconds", "5", holds="within 5 seconds", preexec_fn=blocked)
        self.assertLess(time.monotonic() - begun, 9, "not twice as long")

    def test_answers_that_are_none(self):
        for answers in ((b"0 valid\n",), (b"0 believed\n", b"0 believed\n", b"0 1\nvalid\n"), (b"0 believed\n", b"0 believed\n", b"0 0\n"),
                        (b"0 believed\n", b"0 believed\n", b"6 store fault 71\n"), (b"4 x: refused 4 Truncated at 0\n",)):
            with self.subTest(answers):
                self.listening(*answers)
                self.ends(Ends.TEMPFAIL, "no answer on ", SENT, "--seconds", "10")
                os.unlink(self.socket)

    def test_words_that_are_none(self):
        for words in (["--help"], ["-h"], [], ["--connect", "x"], ["--connect", "x", *ANCHOR, "--system-anchors"],
                      *(["--connect", "x", *ANCHOR, *more]
                        for more in (["--seconds", "0"], ["--purpose", "x"], ["--at", "x"], ["more"], ["--acc"]))):
            with self.subTest(words):
                done = subprocess.run([sys.executable, "-B", SCRIPT, *words], input=SENT, stdout=subprocess.PIPE, stderr=subprocess.PIPE,
                                      check=False, timeout=SECONDS)
                self.assertEqual(done.returncode, Ends.USAGE, done.stderr)
        for name in ("", "a b", "@", "a@", "1.2.3"):
            self.ends(Ends.USAGE, "bad name: ", SENT, "--name", name)

    def test_what_a_party_refuses(self):
        """As one of the wide profile does of a certificate whose distribution points cannot be read."""
        chain = ["--chain", os.path.join(authority.FOLDER, "middle.pem")]
        for octets, sent, offset, begins in (
            (LEAF, SENT, 8, "unreadable: "), (MIDDLE, SENT, 8, "unreadable: "), (MIDDLE + MIDDLE, SENT, len(MIDDLE) - 1, "unreadable: "),
            (MIDDLE + MIDDLE, SENT, len(MIDDLE), "no answer on "), (ROOT, SENT, 8, "no answer on "),
            (MIDDLE, pem(LEAF), 8, "no answer on "),
        ):
            with self.subTest(begins=begins, offset=offset):
                self.listening(b"0 believed\n", b"0 believed\n", f"4 hex:{octets.hex()}: refused 29 ExtensionValue at {offset}\n".encode(),
                               b"0 forgotten\n")
                words = [] if octets in (LEAF, ROOT) or octets == MIDDLE and sent == SENT else chain
                status = Ends.REJECTED if begins == "unreadable: " else Ends.TEMPFAIL
                self.ends(status, begins + str(Certificate.from_der(LEAF).identity), sent, *words, holds="29 ExtensionValue")
                os.unlink(self.socket)

    def test_what_is_not_installed(self):
        broken = self.file("broken.pem")
        with open(broken, "wb") as file:
            file.write(pem(LEAF)[:-30])
        for words in (["--chain", broken], ["--chain", "/nowhere"], ["--anchor", broken], ["--anchor", "/nowhere"]):
            self.ends(Ends.UNAVAILABLE, "not installed: ", SENT, *words, holds=words[1])
        self.ends(Ends.UNAVAILABLE, "not installed: ", SENT, environment={"X509CHECK_LIBRARY": "/nowhere/libx.so"}, holds="libx.so")
        self.ends(Ends.UNAVAILABLE, "not installed: ", SENT, anchors=["--system-anchors"], environment={"SSL_CERT_FILE": "/nowhere"})
        # The script alone, without the module.
        alone = self.file("check_peer")
        with open(SCRIPT, "rb") as source, open(alone, "wb") as file:
            file.write(source.read())
        done = subprocess.run([sys.executable, "-I", "-B", alone, *self.words()[3:]], input=SENT, stdout=subprocess.PIPE, check=False,
                              timeout=SECONDS)
        self.assertEqual((done.returncode, done.stdout), (Ends.UNAVAILABLE, b"not installed: No module named 'x509check'\n"))


class InProcess(InFolder):
    def test_the_status_of_each_verdict(self):
        it, leaf = script(), Certificate.from_der(LEAF)
        wanted = {Verdict.VALID: 0, Verdict.UNKNOWN: 75, Verdict.GAVE_UP: 75,
                  **dict.fromkeys((Verdict.INVALID, Verdict.REVOKED, Verdict.OTHER_NAME, Verdict.NOT_FOUND), 1)}
        for more, differing in (([], {}), (["--accept-unknown"], {Verdict.UNKNOWN: 0}),
                                (["--accept-unknown", "--name", "mx.example"], {Verdict.UNKNOWN: 1})):
            words = it.words_of(["--connect", "x", *ANCHOR, *more])
            results = {verdict: Result(verdict, target=leaf.identity) for verdict in Verdict}
            for is_shut in (False, True):
                results[Verdict.UNKNOWN] = it.Unknown(Result(Verdict.UNKNOWN, target=leaf.identity), "what is held", is_shut)
                found = {verdict: it.outcome_on(words, result, leaf).status for verdict, result in results.items()}
                shut = {Verdict.UNKNOWN: 75} if is_shut and differing == {Verdict.UNKNOWN: 0} else {}
                self.assertEqual(found, {**wanted, **differing, **shut})

    def test_spoilt_input(self):
        """Whatever was sent, it is certificates or a rejection."""
        it, rng, read = script(), random.Random(1), 0
        for _ in range(400):
            octets = bytearray(SENT)
            for _ in range(rng.choice((1, 1, 2, 5))):
                at = rng.randrange(len(octets))
                octets[at:at + rng.choice((0, 1, 1, 30))] = bytes(rng.choices(b"A=-\n\x00 " + SENT[:40], k=rng.choice((0, 1, 1, 3))))
            with mock.patch.object(it, "octets_sent", return_value=bytes(octets)):
                try:
                    sent = it.certificates_sent()
                except it.Stop as stop:
                    self.assertEqual(stop.outcome.status, Ends.REJECTED)
                    self.assertTrue(stop.outcome.line.startswith("unreadable: "))
                else:
                    blocks = re.findall(rb"-----BEGIN [^\n]*-----(.*?)-----END", octets, re.S)
                    self.assertEqual([one.octets for one in sent], [base64.b64decode(block) for block in blocks])
                    read += 1
        self.assertLess(0, read)

    def test_a_long_name(self):
        made = Authority(self.folder)
        made.openssl("req", "-x509", "-newkey", "ec", "-pkeyopt", "ec_paramgen_curve:P-256", "-nodes", "-keyout", "key",
                     "-subj", f"/O={'x' * 60}" * 40, "-out", "Long.pem")
        target = Certificate.from_der(made.der("Long")).identity
        line = script().told(Result(Verdict.UNKNOWN, 1, target=target, decides=target), "; more")
        self.assertTrue(line.startswith('unknown: "O=xxx'))
        self.assertTrue(line.endswith(f"..; sha256 {target.sha256}; more"), line)
        self.assertLess(len(line), 1100)


if __name__ == "__main__":
    unittest.main()
