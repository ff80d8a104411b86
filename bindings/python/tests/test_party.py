"""A party: its process started, killed and started again, its answers, its limits, and many threads."""

import concurrent.futures
import contextlib
import gc
import json
import os
import random
import select
import shutil
import signal
import subprocess
import sys
import tempfile
import threading
import time
import unittest
import warnings

import x509check
from x509check import (
    Answer, BadReference, Certificate, Fault, Forked, Garbled, Judgement, Party, PartyEnded, PartyLimits, Profile, Reason, Refused, Result,
    RevocationReason, TimeIsUp, Verdict, WhyNot,
)
from x509check import _der, _lines
from x509check._program import PLACES

from . import authority
from .fetch_authority import FOR_SERVER, Authority
from .authority import DECEMBER, GOOD_PRINTS, LEAF, MIDDLE, MIDDLE_LIST, RESPONSE, REVOKING_LIST, ROOT, ROOT_LIST

PROGRAM = next(filter(os.path.exists, PLACES), None)
if PROGRAM is None:
    print("test_party: left out: parties, fetches and what the guide says of them, as the program is missing", file=sys.stderr)
STAND_IN = os.path.join(authority.HERE, "party_stand_in.py")
ROOT_NAMED, MIDDLE_NAMED, LEAF_NAMED = (Certificate.from_der(one).identity for one in (ROOT, MIDDLE, LEAF))
AT = "2026-12-01T00:00:00Z"


def descriptors():
    return len(os.listdir("/proc/self/fd"))


def children(process_id=None):
    """The processes below one, also those that ended and were not waited for."""
    found = []
    for name in filter(str.isdigit, os.listdir("/proc")):
        with contextlib.suppress(OSError), open(f"/proc/{name}/stat", encoding="ascii", errors="replace") as file:
            # (the name of a program stands in parentheses, and may hold spaces)
            if int(file.read().rpartition(")")[2].split()[1]) == (process_id or os.getpid()):
                found.append(int(name))
    return found


def is_running(process_id):
    try:
        os.kill(process_id, 0)
    except ProcessLookupError:
        return False
    return True


class InFolder(unittest.TestCase):
    def setUp(self):
        self.folder = tempfile.mkdtemp()
        self.addCleanup(shutil.rmtree, self.folder)

    def file(self, name):
        return os.path.join(self.folder, name)


def process_of(party):
    return party._link.ends.process_id


@unittest.skipUnless(PROGRAM, "the program is missing")
class OverTheProgram(InFolder):
    def party(self, **words):
        party = Party(self.file("store"), program=PROGRAM, **words)
        self.addCleanup(party.close)
        return party

    def test_verdicts_are_those_of_the_library(self):
        party = self.party()
        held = []
        for issuer, statement in ((None, None), (ROOT, ROOT_LIST), (MIDDLE, MIDDLE_LIST), (MIDDLE, REVOKING_LIST)):
            if issuer is not None:
                self.assertEqual(str(party.deliver(issuer, statement)), "stored 1 kept 0 contradicted 0")
                held.append(statement)
            for purpose, name in ((None, None), ("serverAuth", "www.example"), ("serverAuth", "mx.example"), ("clientAuth", None),
                                  (None, "192.0.2.1"), (None, "post@www.example")):
                asked = ([LEAF, MIDDLE], [authority.CONSTRAINTS, ROOT])
                found = party.validate_peer(*asked, AT, purpose, name=name)
                wanted = x509check.validate_peer(*asked, held, AT, purpose, name=name)
                for field in ("verdict", "certificate", "reason", "target", "decides", "path", "name", "why_not"):
                    self.assertEqual(getattr(found, field), getattr(wanted, field), (field, purpose, name))
            self.assertEqual(party.check(ROOT, [MIDDLE, LEAF], AT), x509check.validate(ROOT, [MIDDLE, LEAF], held, AT))
        self.assertEqual(found.judgements[0][1], Judgement.GOOD)

    def test_no_file_is_a_descriptor(self):
        """Also if it is a regular file here: in the process it is the pipe of its requests."""
        with open(self.file("plain"), "wb") as file:
            file.write(ROOT)
        os.symlink("/dev/stdin", self.file("link"))
        os.symlink("round", self.file("round"))
        kept, plain = os.dup(0), os.open(self.file("plain"), os.O_RDONLY)
        self.addCleanup(lambda: (os.dup2(kept, 0), os.close(kept), os.close(plain)))
        os.dup2(plain, 0)
        party = self.party()
        for name in ("/dev/stdin", "/dev/fd/0", "/proc/self/fd/0", "/dev/../dev/stdin", self.file("link"), self.file("round"), "/dev/stdout"):
            with self.subTest(name), self.assertRaises(ValueError):
                party.ask(f"check {ASKED} {name} {value(LEAF)}")
        self.assertEqual(party.ask(f"check {ASKED} {self.file('plain')} {value(LEAF)}"), Answer(1, "invalid 1 2 Signature"))

    def test_verdicts_that_are_known(self):
        party = self.party(verdicts=authority.GOOD)
        self.assertEqual(party.check(ROOT, [MIDDLE, LEAF], DECEMBER), Result(Verdict.UNKNOWN, 1))
        self.assertEqual(party.check(ROOT, [MIDDLE, LEAF], "2028-01-01T00:00:00Z"), Result(Verdict.INVALID, 2, Reason.EXPIRED))
        self.assertEqual(party.check(ROOT, [LEAF], DECEMBER), Result(Verdict.INVALID, 1, Reason.SIGNATURE))
        party.deliver(ROOT, ROOT_LIST)
        party.deliver(MIDDLE, MIDDLE_LIST)
        found = party.check(ROOT, [MIDDLE, LEAF], DECEMBER, "serverAuth")
        self.assertTrue(found)
        self.assertEqual((found, found.target, found.path), (Result(Verdict.VALID), LEAF_NAMED, (ROOT_NAMED, MIDDLE_NAMED, LEAF_NAMED)))
        self.assertEqual(party.find(LEAF, [ROOT], [MIDDLE], DECEMBER), Result(Verdict.VALID))
        self.assertEqual(party.find(LEAF, [ROOT], [], DECEMBER), Result(Verdict.NOT_FOUND))
        self.assertEqual(party.find(LEAF, [ROOT], [MIDDLE], DECEMBER, name="mx.example").verdict, Verdict.OTHER_NAME)
        self.assertEqual(party.find(MIDDLE, [ROOT], [], DECEMBER).path, (ROOT_NAMED, MIDDLE_NAMED))
        party.deliver(MIDDLE, RESPONSE)
        found = party.check(ROOT, [MIDDLE, LEAF], DECEMBER)
        self.assertEqual((found, found.decides, bool(found)), (Result(Verdict.REVOKED, 2, RevocationReason.KEY_COMPROMISE), LEAF_NAMED,
                                                               False))

    def test_why_no_path_is_found(self):
        found = self.party().validate_peer([LEAF], [ROOT], AT)
        self.assertEqual((found, found.target, found.path, found.why_not), (Result(Verdict.NOT_FOUND), LEAF_NAMED, (), WhyNot(LEAF_NAMED)))

    def test_deliveries_that_are_refused(self):
        party = self.party()
        forged = ROOT_LIST[:-1] + bytes([ROOT_LIST[-1] ^ 1])
        for issuer, statement, what, number, name, offset in (
            (ROOT, forged, "statement", 54, "BadSignature", None), (ROOT, MIDDLE_LIST, "statement", 53, "OtherIssuer", None),
            (ROOT, ROOT_LIST[:-1], "statement", 4, "Truncated", 0), (ROOT[:-1], ROOT_LIST, "issuer", 4, "Truncated", 0),
            (ROOT, b"\x30\x03\x02\x01\x00", "statement", 42, "Layout", 2), (ROOT, RESPONSE, "statement", 57, "NoSigner", None),
        ):
            with self.subTest(name), self.assertRaises(Refused) as caught:
                party.deliver(issuer, statement)
            refused = caught.exception
            self.assertEqual((refused.what, refused.number, refused.name, refused.offset), (what, number, name, offset))
        with self.assertRaises(Refused) as caught:
            party.deliver(ROOT, forged)
        self.assertEqual([judgement for _, judgement in caught.exception.judgements], [Judgement.WRONG])
        delivery = party.deliver(ROOT, ROOT_LIST)
        self.assertEqual((delivery.stored, [judgement for _, judgement in delivery.judgements]), (1, [Judgement.GOOD]))
        with self.assertRaises(TypeError):
            bool(delivery)
        self.assertEqual(party.deliver(ROOT, ROOT_LIST).kept, 1)

    def test_a_judge_of_the_caller(self):
        asked = []

        def nobody(question):
            asked.append(question)
            return False
        party = self.party(verify=nobody)
        with self.assertRaises(Refused):
            party.deliver(ROOT, ROOT_LIST)
        self.assertEqual(len(asked), 1)
        self.assertEqual(party.validate_peer([LEAF, MIDDLE], [ROOT], AT).verdict, Verdict.NOT_FOUND)
        party.believe(GOOD_PRINTS.values())
        before = len(asked)
        self.assertEqual(str(party.deliver(ROOT, ROOT_LIST)), "stored 1 kept 0 contradicted 0")
        self.assertEqual(len(asked), before, "what is believed is not asked again")
        party.forget()
        self.assertEqual(party.validate_peer([LEAF, MIDDLE], [ROOT], AT).verdict, Verdict.NOT_FOUND)
        with self.assertRaises(TypeError):
            self.party_with(lambda _: None).deliver(ROOT, ROOT_LIST)

    def party_with(self, verify):
        party = Party(self.file("other"), program=PROGRAM, verify=verify)
        self.addCleanup(party.close)
        return party

    def test_killed_between_requests_and_in_the_middle(self):
        party = self.party()
        party.deliver(ROOT, ROOT_LIST)
        party.deliver(MIDDLE, MIDDLE_LIST)
        self.assertTrue(party.validate_peer([LEAF, MIDDLE], [ROOT], AT))
        seen = {process_of(party)}
        for _ in range(20):
            os.kill(process_of(party), signal.SIGKILL)
            # (what was believed is told again: without it the signature would be the reason)
            self.assertTrue(party.check(ROOT, [MIDDLE, LEAF], AT))
            seen.add(process_of(party))
        for wait in range(20):
            threading.Timer(wait * 0.0002, party._link.ends.kill).start()
            for _ in range(10):
                self.assertIn(str(party.deliver(MIDDLE, MIDDLE_LIST)), ("stored 0 kept 1 contradicted 0",))
            self.assertTrue(party.check(ROOT, [MIDDLE, LEAF], AT))
            seen.add(process_of(party))
        self.assertGreater(len(seen), 21)
        self.assertFalse(any(is_running(one) for one in seen - {process_of(party)}), "the processes that were killed were waited for")

    def test_many_threads(self):
        party = self.party()
        party.deliver(ROOT, ROOT_LIST)
        party.deliver(MIDDLE, MIDDLE_LIST)
        party.believe(GOOD_PRINTS.values())
        before, running = descriptors(), threading.active_count()
        with concurrent.futures.ThreadPoolExecutor(8) as pool:
            asking = [pool.submit(self.ask_at_random, party, random.Random(number), 150) for number in range(8)]
            for _ in range(5):
                time.sleep(0.1)
                with contextlib.suppress(ProcessLookupError, AttributeError):   # (it may just be started)
                    os.kill(process_of(party), signal.SIGKILL)
            for one in asking:
                one.result()
        self.assertTrue(party.check(ROOT, [MIDDLE, LEAF], AT))
        self.assertEqual((descriptors(), threading.active_count()), (before, running))
        party.close()
        self.assertEqual(children(), [])

    def ask_at_random(self, party, rng, requests):
        """Each request has another answer, so that one that came to the wrong thread is seen."""
        for _ in range(requests):
            kind = rng.randrange(5)
            if kind == 0:
                self.assertEqual(party.validate_peer([LEAF, MIDDLE], [ROOT], AT, name="mx.example").verdict, Verdict.OTHER_NAME)
            elif kind == 1:
                self.assertEqual(party.deliver(ROOT, ROOT_LIST).kept, 1)
            elif kind == 2:
                self.assertEqual(party.check(ROOT, [MIDDLE, LEAF], "2028-01-01T00:00:00Z"), Result(Verdict.INVALID, 2, Reason.EXPIRED))
            elif kind == 3:
                self.assertEqual(party.find(LEAF, [ROOT], [], AT), Result(Verdict.NOT_FOUND))
            else:
                self.assertTrue(party.validate_peer([LEAF, MIDDLE], [ROOT], AT, "serverAuth", name="www.example"))

    def test_while_others_make_it_forget(self):
        party = self.party()
        party.deliver(ROOT, ROOT_LIST)
        party.deliver(MIDDLE, MIDDLE_LIST)
        ended, pause = threading.Event(), [0.01]

        def forget():
            while not ended.wait(pause[0]):
                party.forget()
        with concurrent.futures.ThreadPoolExecutor(3) as pool:
            pool.submit(forget)
            try:
                for one in [pool.submit(self.judged_at_random, party, pause) for _ in range(2)]:
                    one.result()
            finally:
                ended.set()
        self.assertGreater(party._forgotten, 10)

    def judged_at_random(self, party, pause):
        for _ in range(100):
            try:
                self.assertTrue(party.validate_peer([LEAF, MIDDLE], [ROOT], AT))
                self.assertEqual(party.deliver(ROOT, ROOT_LIST).kept, 1)
            except x509check.PartyError as error:
                # On a busy machine a call may not get through; the others then forget less often.
                self.assertIn("others made the party forget", str(error))
                pause[0] *= 2

    def test_a_value_that_is_too_long_for_a_line(self):
        issuer = Certificate.from_der(ROOT)
        encoded, number = _der.encoded, lambda it: _der.encoded(_der.INTEGER, it.to_bytes(8, "big").lstrip(b"\0") or b"\0")
        when = [encoded(0x17, text) for text in (b"261101000000Z", b"270101000000Z")]
        entries = b"".join(encoded(0x30, number(0x10000 + at), when[0]) for at in range(40_000))
        extension = encoded(0x30, encoded(0x06, bytes.fromhex("551d14")), encoded(0x04, number(77)))
        signed = encoded(0x30, number(1), issuer.algorithm, issuer.subject, *when, encoded(0x30, entries),
                         encoded(0xA0, encoded(0x30, extension)))
        statement = encoded(0x30, signed, issuer.algorithm, encoded(0x03, b"\0signature"))
        self.assertGreater(2 * len(statement), 1 << 20)
        room = self.file("room")
        os.mkdir(room)
        party = self.party(folder=room)
        with self.assertRaises(Refused) as caught:
            party.deliver(ROOT, statement)
        self.assertEqual((caught.exception.number, caught.exception.what), (54, "statement"))
        party.believe([x509check.fingerprint(issuer.algorithm, issuer.subject_public_key_info, signed, b"signature")])
        self.assertEqual(str(party.deliver(ROOT, statement)), "stored 1 kept 0 contradicted 0")
        self.assertEqual(os.listdir(room), [], "files are removed")
        with self.assertRaises(Refused) as caught:
            party.deliver(ROOT, statement[:-1])
        self.assertEqual((caught.exception.number, caught.exception.offset, caught.exception.what), (4, 0, "statement"))
        # Many certificates: their line is too long too.
        self.assertEqual(party.find(LEAF, [ROOT], [MIDDLE, *[authority.DELEGATE] * 1000], AT).verdict, Verdict.NOT_FOUND)
        party.believe(GOOD_PRINTS.values())
        found = party.find(LEAF, [ROOT], [*[authority.DELEGATE] * 1000, MIDDLE], AT)
        self.assertEqual((found, found.path), (Result(Verdict.UNKNOWN, 2), (ROOT_NAMED, MIDDLE_NAMED, LEAF_NAMED)))
        self.assertEqual(os.listdir(room), [])

    def test_stores_that_cannot_be_opened(self):
        with open(self.file("text"), "w", encoding="ascii") as file:
            file.write("no store")
        for words, why in (((self.file("text"),), "store fault"), ((self.file("nowhere/store"),), "store fault 71"),
                           ((self.file("store"), self.file("nothing")), "cannot read")):
            with self.assertRaises(PartyEnded) as caught:
                Party(*words, program=PROGRAM)
            self.assertIn(why, str(caught.exception))
        with self.assertRaises(PartyEnded):
            Party(self.file("store"), program=self.file("no program"))
        self.party()
        begun = time.monotonic()
        with self.assertRaises(TimeIsUp):
            Party(self.file("store"), program=PROGRAM, limits=PartyLimits(start_seconds=0.3))
        self.assertLess(time.monotonic() - begun, 5)
        self.assertEqual(len(children()), 1)

    def test_what_cannot_be_read_and_what_is_none(self):
        party = self.party()
        for call in (
            lambda: party.check(ROOT, [b"\x30\x00", LEAF], AT), lambda: party.find(b"\x30\x00", [ROOT], [], AT),
            lambda: party.find(LEAF, [ROOT, b"0"], [], AT), lambda: party.validate_peer([LEAF, b""], [ROOT], AT),
        ):
            with self.assertRaises(Fault):
                call()
        for call, kind in (
            (lambda: party.check(ROOT, [], AT), ValueError), (lambda: party.check(ROOT, [LEAF] * 129, AT), ValueError),
            (lambda: party.check(ROOT, LEAF, AT), TypeError), (lambda: party.check(ROOT, [LEAF], "soon"), ValueError),
            (lambda: party.check(ROOT, [LEAF], AT, "server"), ValueError), (lambda: party.find(LEAF, [], [], AT), ValueError),
            (lambda: party.find(LEAF, [ROOT], [], AT, name="*.example"), BadReference),
            (lambda: party.validate_peer([], [ROOT], AT), ValueError),
            (lambda: party.believe(["00" * 32]), TypeError), (lambda: party.believe([b"0"]), ValueError),
            (lambda: party.judge("key", ROOT, ROOT), Refused), (lambda: party.judge("cert x", ROOT, ROOT), ValueError),
            (lambda: party.deliver("root.der", ROOT_LIST), TypeError),
            (lambda: Party(self.file("x"), program=PROGRAM, limits=5), TypeError),
            (lambda: Party(self.file("x"), program=PROGRAM, profile="wide"), TypeError),
            (lambda: PartyLimits(seconds=0), ValueError), (lambda: PartyLimits(seconds="1"), TypeError),
        ):
            with self.assertRaises(kind):
                call()
        for line in ("", "# nothing", "forget\nforget", "\n", "quit", "check " + "0" * (1 << 20)):
            with self.subTest(line[:20]), self.assertRaises(ValueError):
                party.ask(line)
        for line, said in (("nothing", "bad line"), ("believe 00", "bad line"), (" forget", "bad line"), ("quit ", "bad line")):
            self.assertEqual(party.ask(line), Answer(5, said))
        self.assertEqual(party.check(ROOT, [MIDDLE], 0), Result(Verdict.INVALID, 1, Reason.SIGNATURE))

    def test_each_request_that_is_documented(self):
        ask_all_that_is_documented(self, self.party())

    def test_files_in_lines(self):
        party = self.party(verdicts=authority.GOOD)
        os.mkfifo(self.file("pipe"))
        regular = self.file("root.der")
        with open(regular, "wb") as file:
            file.write(ROOT)
        begun = time.monotonic()
        for name in ("/dev/stdin", "/proc/self/fd/0", "/dev\\2fzero", self.file("pipe"), self.folder):
            for line in (f"deliver {name} hex:30", f"deliver hex:30 {name}", f"check {ASKED} {name} hex:30",
                         f"check {ASKED} purpose=1.2.3 policy=1.2.3 {name} hex:30", f"check {ASKED} hex:30 {name}",
                         f"find {ASKED} {name} hex:30", f"find {ASKED} name=x hex:30 {name} hex:30", f"prints cert {name} hex:30",
                         f"prints parts search {name} hex:30"):
                with self.subTest(line), self.assertRaises(ValueError):
                    party.ask(line)
        self.assertLess(time.monotonic() - begun, 5)
        self.assertEqual(party.ask(f"deliver nothing {value(ROOT_LIST)}"), Answer(6, "cannot read nothing"))
        self.assertEqual(party.ask(f"deliver {_lines.file_word(regular)} {value(ROOT_LIST)}"), Answer(0, "stored 1 kept 0 contradicted 0"))

    def test_closed(self):
        party = self.party()
        number = process_of(party)
        party.close()
        party.close()
        self.assertFalse(is_running(number))
        with self.assertRaises(PartyEnded):
            party.check(ROOT, [MIDDLE, LEAF], AT)
        with Party(self.file("store"), program=PROGRAM) as party:
            self.assertEqual(party.ask("forget"), Answer(0, "forgotten"))
        before = descriptors()
        with warnings.catch_warnings(record=True) as told:
            warnings.simplefilter("always")
            Party(self.file("store"), program=PROGRAM)
            gc.collect()
        self.assertEqual([one.category for one in told], [ResourceWarning])
        self.assertEqual((descriptors(), children()), (before, []))


@unittest.skipUnless(PROGRAM, "the program is missing")
class ListsAtPoints(InFolder):
    """An authority that publishes its list in parts, by OpenSSL."""

    def setUp(self):
        super().setUp()
        self.made = Authority(self.folder)
        self.root = self.made.root()
        self.leaves, self.lists = [], []
        for name in ("first", "second"):
            point = f"http://crl.example/{name}"
            self.leaves.append(self.made.certificate(name, "Root", f"{FOR_SERVER}crlDistributionPoints=URI:{point}\n"))
            self.lists.append(self.made.revocation_list("Root", revoked=[self.made.serial] if name == "second" else [], point=point))

    def party(self, **words):
        party = Party(self.file("store"), program=PROGRAM, **words)
        self.addCleanup(party.close)
        return party

    def test_each_speaks_of_the_certificates_that_name_it(self):
        party = self.party(profile=Profile.WIDE)
        revoked = Result(Verdict.REVOKED, 1, RevocationReason.KEY_COMPROMISE)
        for statement, wanted in zip(self.lists, ((Result(Verdict.VALID), Result(Verdict.UNKNOWN, 1)), (Result(Verdict.VALID), revoked))):
            self.assertEqual(str(party.deliver(self.root, statement)), "stored 1 kept 0 contradicted 0")
            for leaf, said in zip(self.leaves, wanted):
                self.assertEqual(party.validate_peer([leaf], [self.root], "now", "serverAuth", name="www.example.org"), said)
                self.assertEqual(party.check(self.root, [leaf], "now"), said)

    def test_points_that_cannot_be_read(self):
        party, bad = self.party(profile=Profile.WIDE), self.made.certificate("bad", "Root", "crlDistributionPoints=DER:3000\n")
        for call, what in ((lambda: party.check(self.root, [bad], "now"), "chain"),
                           (lambda: party.validate_peer([bad], [self.root], "now"), "target"),
                           (lambda: party.find(self.leaves[0], [self.root], [bad], "now"), "others")):
            with self.assertRaises(Refused) as caught:
                call()
            self.assertEqual((caught.exception.what, caught.exception.number, caught.exception.name), (what, 29, "ExtensionValue"))
        found = party.find(self.leaves[0], [bad, self.root], [], "now")
        self.assertEqual(found, Result(Verdict.NOT_FOUND), "those of anchors do not count")

    def test_a_store_is_of_one_profile(self):
        party = self.party()
        with self.assertRaises(Refused) as caught:
            party.deliver(self.root, self.lists[0])
        self.assertEqual((caught.exception.what, caught.exception.number, caught.exception.name), ("statement", 48, "Scope"))
        self.assertEqual(party.validate_peer(self.leaves[:1], [self.root], "now"), Result(Verdict.UNKNOWN, 1))
        party.close()
        with self.assertRaises(PartyEnded) as caught:
            self.party(profile=Profile.WIDE)
        self.assertIn("store fault 72", str(caught.exception))


# A process that has a party, forks, and is killed, while its child lives.
PARENT = """
import os, sys, time
sys.path[:0] = [sys.argv[1]]
import x509check
party = x509check.Party(sys.argv[2], program=sys.argv[3])
if os.fork() == 0:
    time.sleep(60)
    os._exit(0)
print(party._link.ends.process_id, flush=True)
time.sleep(60)
"""


@unittest.skipUnless(PROGRAM, "the program is missing")
class Forks(InFolder):
    """A process that forks, as servers do that start workers."""

    def in_child(self, work):
        """What work answers, or the name of what it raises, in a forked child; nothing if it does not end."""
        here, there = os.pipe()
        child = os.fork()
        if child == 0:
            try:
                said = str(work())
            except BaseException as cause:
                said = type(cause).__name__
            os.write(there, said.encode())
            os._exit(0)
        os.close(there)
        try:
            return os.read(here, 100).decode() if select.select([here], [], [], 20)[0] else None
        finally:
            os.close(here)
            os.kill(child, signal.SIGKILL)
            os.waitpid(child, 0)

    def test_a_child_takes_nobodys_answers(self):
        party = Party(self.file("store"), program=PROGRAM, limits=PartyLimits(5, 5))
        self.addCleanup(party.close)
        party.believe(GOOD_PRINTS.values())
        for issuer, statement in ((ROOT, ROOT_LIST), (MIDDLE, MIDDLE_LIST), (MIDDLE, REVOKING_LIST)):
            party.deliver(issuer, statement)
        before = party._link.ends.process_id
        for call in (lambda: party.check(ROOT, [MIDDLE], AT), lambda: party.validate_peer([LEAF, MIDDLE], [ROOT], AT),
                     lambda: party.deliver(ROOT, ROOT_LIST), party.forget, lambda: party.ask("forget")):
            self.assertEqual(self.in_child(call), "Forked")
            self.assertEqual(party.check(ROOT, [MIDDLE, LEAF], AT).verdict, Verdict.REVOKED)
        self.assertEqual(self.in_child(party.close), "None")
        self.assertEqual(party.check(ROOT, [MIDDLE, LEAF], AT).verdict, Verdict.REVOKED)
        self.assertEqual(party._link.ends.process_id, before, "a child ends nothing of its parent's")
        self.assertTrue(issubclass(Forked, x509check.PartyError))

    def test_a_child_keeps_no_session_alive(self):
        words = [sys.executable, "-B", "-c", PARENT, os.path.join(authority.HERE, ".."), self.file("store"), PROGRAM]
        with subprocess.Popen(words, stdout=subprocess.PIPE, text=True) as parent:
            session = int(parent.stdout.readline())
            child, = (one for one in children(parent.pid) if one != session)
            self.addCleanup(os.kill, child, signal.SIGKILL)
            parent.kill()
            until = time.monotonic() + 10
            while not has_ended(session) and time.monotonic() < until:
                time.sleep(0.05)
            self.assertTrue(has_ended(session) and not has_ended(child))
            parent.stdout.close()


def has_ended(process_id):
    """Whether a process is gone, or only waits for whoever started it to ask how it ended."""
    try:
        with open(f"/proc/{process_id}/stat", encoding="ascii", errors="replace") as file:
            return file.read().rpartition(")")[2].split()[0] == "Z"
    except OSError:
        return True


@unittest.skipUnless(PROGRAM, "the program is missing")
class Interrupts(InFolder):
    """What a signal handler raises in a call, at whatever line it is."""

    def interrupted(self, line, call):
        """Whether a call came to a line of Python with this number, counted from its beginning, where it was interrupted."""
        left = line

        def trace(frame, event, _):
            nonlocal left
            if event == "line":
                left -= 1
                if left < 0:
                    sys.settrace(None)
                    raise KeyboardInterrupt
            return trace
        try:
            sys.settrace(trace)
            call()
        except KeyboardInterrupt:
            return True
        finally:
            sys.settrace(None)
        return False

    def test_at_every_line(self):
        party = Party(self.file("store"), program=PROGRAM, limits=PartyLimits(2, 2))
        self.addCleanup(party.close)
        party.believe(GOOD_PRINTS.values())
        for issuer, statement in ((ROOT, ROOT_LIST), (MIDDLE, MIDDLE_LIST), (MIDDLE, REVOKING_LIST)):
            party.deliver(issuer, statement)
        certificate, chain = Certificate.from_der(MIDDLE), [Certificate.from_der(one) for one in (MIDDLE, LEAF)]
        for call, least in ((lambda: party.check(ROOT, [certificate], AT), 60), (lambda: party.ask("forget"), 20),
                            (lambda: party.deliver(ROOT, ROOT_LIST), 150)):
            lines = 0
            while self.interrupted(lines, call):
                lines += 1
                if least == 20:
                    party.believe(GOOD_PRINTS.values())
                self.assertEqual(party.check(ROOT, chain, AT), Result(Verdict.REVOKED, 2, RevocationReason.KEY_COMPROMISE), lines)
            self.assertGreater(lines, least)
            party.believe(GOOD_PRINTS.values())

    def test_by_a_handler(self):
        party = Party(self.file("store"), program=PROGRAM, verdicts=authority.GOOD, limits=PartyLimits(5, 5))
        self.addCleanup(party.close)
        self.addCleanup(signal.signal, signal.SIGALRM, signal.SIG_DFL)
        party.deliver(ROOT, ROOT_LIST)
        rng = random.Random(1)

        def handler(*_):
            raise KeyboardInterrupt
        signal.signal(signal.SIGALRM, handler)
        for _ in range(300):
            with contextlib.suppress(KeyboardInterrupt):
                signal.setitimer(signal.ITIMER_REAL, rng.uniform(0.00001, 0.0008))
                party.check(ROOT, [MIDDLE], AT)
                signal.setitimer(signal.ITIMER_REAL, 0)
            signal.setitimer(signal.ITIMER_REAL, 0)
            self.assertEqual(party.check(ROOT, [MIDDLE, LEAF], AT), Result(Verdict.UNKNOWN, 2))


def value(octets):
    return f"hex:{octets.hex()}"


# Each request of a session (docs/REFERENCE.md), and its answer by the examples' authority at AT, with the lists of both issuers.
PATH, ASKED = " ".join(map(value, (ROOT, MIDDLE, LEAF))), "20261201000000Z"
FOUND = (*(f"{number} {value(one)} 1" for number, one in enumerate((ROOT, MIDDLE, LEAF))), "valid")
# (the digests of the keys are OpenSSL's)
HELD = tuple(f"crl {key} all number 01 from 20261123182708Z until 20261223182708Z entries 0" for key in (
    "23d4dac632d0cdc3a4810d7dd54b5ee93f5bfa45f207667f54e99af01503f50a", "3373400ac66dafafb2f1e25cf5e2a240815a3e1c1da1fe1a26e439d67172ef0b"))
DOCUMENTED = (
    ("believe " + "00" * 32, Answer(0, "believed")),
    (f"deliver {value(ROOT)} {value(ROOT_LIST)}", Answer(0, "stored 0 kept 1 contradicted 0")),
    (f"check {ASKED} {PATH}", Answer(0, "valid")),
    (f"check {ASKED} purpose=1.3.6.1.5.5.7.3.2 {PATH}", Answer(1, "invalid 2 14 Purpose")),
    (f"check {ASKED} policy=2.5.29.32.0 {PATH}", Answer(0, "1", ("valid",))),
    (f"check {ASKED} purpose=1.3.6.1.5.5.7.3.1 policy=1.2.3 policy=2.5.29.32.0 require-policy inhibit-mapping inhibit-any-policy {PATH}",
     Answer(1, "1", ("invalid 1 17 NoValidPolicy",))),
    (f"find {ASKED} {PATH}", Answer(0, "4", FOUND)),
    (f"find {ASKED} purpose=1.3.6.1.5.5.7.3.1 name=www.example {PATH}", Answer(0, "4", FOUND)),
    (f"find {ASKED} name=mx.example {PATH}", Answer(1, "4", (*FOUND[:3], "other name"))),
    (f"find {ASKED} {value(ROOT)} {value(LEAF)}", Answer(1, "1", ("not found",))),
    (f"prints cert {value(ROOT)} {value(MIDDLE)}", Answer(0, "1", (f"{next(iter(GOOD_PRINTS.values())).hex()} certificate issuer",))),
    (f"prints search {PATH}", None), (f"prints parts search {value(ROOT)} {value(MIDDLE)}", None),
    (f"prints parts crl {value(ROOT)} {value(ROOT_LIST)}", None), (f"prints ocsp {value(MIDDLE)} {value(RESPONSE)}", None),
    ("list", Answer(0, "2", HELD)), (f"list {ASKED}", Answer(0, "2", tuple(f"{one} current" for one in HELD))),
    ("list soon", Answer(5, "bad time")), (f"list {ASKED} {ASKED}", Answer(5, "bad line")),
    ("forget", Answer(0, "forgotten")), ("lists", Answer(5, "bad line")), (f"check soon {PATH}", Answer(5, "bad time")),
)
# With policies of its own: the example for them.
POLICY_FOLDER = os.path.join(authority.TOP, "examples", "policies")


def ask_all_that_is_documented(test, party):
    party.believe(GOOD_PRINTS.values())
    for issuer, statement in ((ROOT, ROOT_LIST), (MIDDLE, MIDDLE_LIST)):
        party.deliver(issuer, statement)
    for line, wanted in DOCUMENTED:
        answer = party.ask(line)
        with test.subTest(line[:60]):
            if wanted is None:
                test.assertEqual((answer.status, int(answer.text)), (0, len(answer.lines)))
                test.assertGreater(len(answer.lines), 0)
            else:
                test.assertEqual(answer, wanted)
    # Policies of the authorities and of the user.
    root, partner, leaf = (x509check.load(os.path.join(POLICY_FOLDER, f"{name}.pem"))[0].octets for name in ("root", "partner", "leaf"))
    party.judge("cert", root, partner)
    party.judge("cert", partner, leaf)
    answer = party.ask(f"check {ASKED} policy=2.5.29.32.0 {' '.join(map(value, (root, partner, leaf)))}")
    test.assertEqual((answer.status, answer.lines[0]), (3, "unknown 1"))
    test.assertRegex("\n".join(answer.lines[1:]), r"(?s)policy [0-9.]+.*user-policy [0-9.]+")


class OverAStandIn(InFolder):
    """Over a program that answers badly, slowly or not at all."""

    def setUp(self):
        super().setUp()
        self.party = self.made()

    def made(self, **words):
        party = Party(self.file("store"), program=[sys.executable, "-B", STAND_IN, self.folder], **words)
        self.addCleanup(party.close)
        return party

    def plan(self, *pairs):
        with open(self.file("plan.new"), "w", encoding="ascii") as file:
            json.dump(pairs, file)
        os.replace(self.file("plan.new"), self.file("plan"))

    def log(self):
        with open(self.file("log"), encoding="latin-1") as file:
            return file.read().splitlines()

    def check(self, party=None):
        return (party or self.party).check(ROOT, [MIDDLE, LEAF], AT)

    def test_words_of_the_profile_stand_in_front_of_the_command(self):
        session = f"session --store {self.file('store')}"
        for words, wanted in (({}, session), ({"profile": Profile.STATED}, session),
                              ({"profile": Profile.WIDE}, f"--profile wide {session}"),
                              ({"profile": Profile.WIDE, "verdicts": "good"}, f"--profile wide {session} --verdicts good")):
            party = self.made(**words)
            self.plan(["check", {"exit": 0}])
            self.assertTrue(self.check(party), "a process that is started again has them too")
            with open(self.file("words"), encoding="latin-1") as file:
                self.assertEqual(file.read().splitlines()[-2:], [wanted, wanted])

    def test_answers_to_other_requests(self):
        for text in ("0 believed", "0 ended", "3", "7 valid", "0 valid ", " 0 valid", "valid", "", "0", "4", "1 valid", "0 invalid 1 2",
                     "00 valid",
                     "0 valid 1", "1 invalid 1 2", "2 revoked 1", "3 unknown", "1 invalid 1 99 X", "1 invalid 3 4 Expired", "2 revoked 0 1",
                     "2 revoked 1 7", "3 unknown 0", "3 unknown 3", "0 valid\r", "0 v\xe4lid", "0  valid", "1 other name", "3 gave up",
                     "0 not found"):
            self.plan(["check", {"write": f"{text}\n"}])
            with self.subTest(text), self.assertRaises(Garbled):
                self.check()
            self.assertTrue(self.check(), "the next request is answered")
        for text, wanted in (
            ("0 valid", Result(Verdict.VALID)), ("1 invalid 1 2 Signature", Result(Verdict.INVALID, 1, Reason.SIGNATURE)),
            ("1 invalid 0 16 TooLong", Result(Verdict.INVALID, 0, Reason.TOO_LONG)), ("3 unknown 2", Result(Verdict.UNKNOWN, 2)),
            ("2 revoked 1 1", Result(Verdict.REVOKED, 1, RevocationReason.KEY_COMPROMISE)),
        ):
            self.plan(["check", {"write": f"{text}\n"}])
            self.assertEqual(self.check(), wanted)
        for text in ("4 x: refused 4 Truncated at 0", "5 bad time", "6 store fault 71", "6 no memory"):
            self.plan(["check", {"write": f"{text}\n"}])
            with self.assertRaises(Refused) as caught:
                self.check()
            self.assertEqual(str(caught.exception.answer), text)
        for octets, what in ((ROOT, "anchor"), (MIDDLE, "chain"), (LEAF, "chain")):
            self.plan(["check", {"write": f"4 hex:{octets.hex()}: refused 29 ExtensionValue at 8\n"}])
            with self.assertRaises(Refused) as caught:
                self.check()
            self.assertEqual((caught.exception.what, caught.exception.offset), (what, 8))
        for octets, what in ((ROOT, "anchors"), (MIDDLE, "others"), (LEAF, "target")):
            self.plan(["find", {"write": f"4 hex:{octets.hex()}: refused 29 ExtensionValue at 8\n"}])
            with self.assertRaises(Refused) as caught:
                self.party.find(LEAF, [ROOT], [MIDDLE], AT)
            self.assertEqual((caught.exception.what, caught.exception.offset), (what, 8))

    def test_answers_to_a_search(self):
        names = ["hex:" + one.hex() for one in (ROOT, MIDDLE, LEAF)]
        path = [f"{number} {name} 1" for number, name in enumerate(names)]
        for answer in (
            ["0 valid"], ["0 0"], ["0 1", "valid"], ["0 4", *path, "other name"], ["1 4", *path, "valid"], ["0 4", *path, "valid 1"],
            ["0 4", path[1], path[0], path[2], "valid"], ["0 2", path[1], "valid"], ["0 4", *path[:2], path[2][:-1] + "0", "valid"],
            ["0 4", *path[:2], path[2][:-1] + "2", "valid"], ["3 4", *path, "unknown"], ["1 1", "gave up"], ["3 1", "not found"],
            ["0 1", "not found"], ["1 4", *path, "not found"], ["2 1", "revoked 1 1"], ["0 3", *path[:2], "valid"],
            ["0 3", f"0 {names[1]} 1", f"1 {names[2]} 1", "valid"], ["0 4", path[0], "1 other.der 1", path[2], "valid"],
        ):
            self.plan(["find", {"write": "".join(f"{line}\n" for line in answer), "exit": 0, "again": True}])
            with self.subTest(answer), self.assertRaises((Garbled, PartyEnded)):
                self.party.find(LEAF, [ROOT], [MIDDLE], AT)
        for status, lines, wanted in (
            (0, [*path, "valid"], Result(Verdict.VALID)), (1, [*path, "invalid 2 14 Purpose"], Result(Verdict.INVALID, 2, Reason.PURPOSE)),
            (1, ["not found"], Result(Verdict.NOT_FOUND)), (3, ["gave up"], Result(Verdict.GAVE_UP)),
            (3, [*path, "unknown 1"], Result(Verdict.UNKNOWN, 1)),
            (2, [*path, "revoked 2 1"], Result(Verdict.REVOKED, 2, RevocationReason.KEY_COMPROMISE)),
        ):
            self.plan(["find", {"write": "".join(f"{line}\n" for line in [f"{status} {len(lines)}", *lines])}])
            found = self.party.find(LEAF, [ROOT], [MIDDLE], AT)
            self.assertEqual((found, found.path), (wanted, (ROOT_NAMED, MIDDLE_NAMED, LEAF_NAMED) if len(lines) > 1 else ()))

    def test_questions_about_other_octets(self):
        question = x509check.questions(ROOT, [MIDDLE], [])[0]
        line = " ".join([question.fingerprint.hex(), "certificate issuer", *(
            f"{name}={getattr(question, name).hex()}" for name in ("algorithm", "key", "message", "signature"))])
        self.plan(["prints", {"write": f"0 1\n{line}\n"}])
        self.assertEqual(self.party.judge("cert", ROOT, MIDDLE), ((question, Judgement.GOOD),))
        self.assertEqual(self.log()[-1], f"believe {question.fingerprint.hex()}")
        self.party.forget()
        for issuer, value, kind, printed in ((ROOT, LEAF, "cert", line), (MIDDLE, MIDDLE, "cert", line), (ROOT, MIDDLE, "crl", line),
                                             (ROOT, MIDDLE, "cert", line[:-2]), (ROOT, MIDDLE, "cert", "5 bad line")):
            self.plan(["prints", {"write": f"0 1\n{printed}\n"}])
            with self.assertRaises(Garbled):
                self.party.judge(kind, issuer, value)
        self.assertNotEqual(self.log()[-1][:7], "believe")

    def test_a_line_that_nobody_asked_for(self):
        self.plan(["check", {"write": "0 valid\n0 valid\n"}])
        self.assertTrue(self.check())
        time.sleep(0.2)
        with self.assertRaises(Garbled):
            self.check()
        self.assertTrue(self.check())

    def test_it_ends_again_and_again(self):
        starts = self.log().count("started")
        for deed in ({"exit": 3}, {"write": "0 val", "exit": 0}, {"write": "0 valid", "exit": 0}):
            self.plan(["check", deed])
            self.assertTrue(self.check(), "once it ends, and the request is sent once more")
            self.plan(["check", {**deed, "again": True}])
            with self.assertRaises(PartyEnded):
                self.check()
        # Of each round one process that answers, and one that ends; the second and the third begin with one more, which ends.
        self.assertEqual(self.log().count("started") - starts, 2 + 3 + 3)
        self.plan(["forget", {"exit": 6, "again": True}], ["check", {"exit": 0, "again": True}])
        with self.assertRaises(PartyEnded) as caught:
            self.check()
        self.assertIn("ended with status 6", str(caught.exception))
        self.plan()
        self.assertTrue(self.check(), "it may come back later")

    def test_what_is_believed_is_told_again(self):
        first, second, third = (bytes([number]) * 32 for number in (1, 2, 3))
        self.party.believe([second, first, second])
        self.party.believe([first])
        self.plan(["check", {"exit": 0}])
        self.assertTrue(self.check())
        self.assertEqual(self.log()[-4:-1], ["forget", f"believe {second.hex()}", f"believe {first.hex()}"])
        self.party.forget()
        self.party.ask(f"believe {third.hex().upper()}")
        self.plan(["check", {"exit": 0}])
        self.assertTrue(self.check())
        self.assertEqual(self.log()[-3:-1], ["forget", f"believe {third.hex()}"])
        self.plan(["believe", {"write": "6 no memory\n"}])
        with self.assertRaises(Refused):
            self.party.believe([first])
        self.plan(["check", {"exit": 0}])
        self.assertTrue(self.check())
        self.assertEqual(self.log()[-3:-1], ["forget", f"believe {third.hex()}"], "what was refused is not told")
        self.plan(["believe", {"write": "6 no memory\n"}], ["check", {"exit": 0}])
        with self.assertRaises(Garbled):
            self.check()

    def test_time_is_up(self):
        party = self.made(limits=PartyLimits(seconds=0.5))
        self.plan(["check", {"sleep": 5}])
        begun, number = time.monotonic(), process_of(party)
        with self.assertRaises(TimeIsUp):
            self.check(party)
        self.assertLess(time.monotonic() - begun, 3)
        self.assertFalse(is_running(number), "what it would write is nobody's answer")
        self.assertTrue(self.check(party))
        self.plan(["forget", {"deaf": True}])
        os.kill(process_of(party), signal.SIGKILL)
        party._limits = PartyLimits(0.5, 0.5)
        with self.assertRaises(TimeIsUp):
            self.check(party)
        party._limits = PartyLimits(0.5)
        self.plan(["believe", {"deaf": True}])
        # A pipe that nobody reads is full at last.
        with self.assertRaises(TimeIsUp):
            party.believe([number.to_bytes(32, "big") for number in range(10_000)])
        until = time.monotonic() + 10
        while len(children()) > 1 and time.monotonic() < until:
            time.sleep(0.05)
        self.assertEqual(len(children()), 1, "that of the other party")

    def test_others_in_flight_are_asked_once_more(self):
        party = self.made(limits=PartyLimits(seconds=2))
        self.plan(["deliver", {"sleep": 30}])
        with concurrent.futures.ThreadPoolExecutor(9) as pool:
            slow = pool.submit(party.ask, "deliver hex:30 hex:30")
            time.sleep(0.5)
            party._limits = PartyLimits(seconds=30)
            others = [pool.submit(self.check, party) for _ in range(8)]
            with self.assertRaises(TimeIsUp):
                slow.result()
            for one in others:
                self.assertTrue(one.result())

    def test_requests_that_are_answered_together(self):
        self.plan(["check", {"exit": 0}])
        self.assertEqual(self.party.ask_together(["forget", "check x", "believe " + "0" * 64]),
                         [Answer(0, "forgotten"), Answer(0, "valid"), Answer(0, "believed")])
        asked = ["forget", "check x", "believe " + "0" * 64]
        self.assertEqual(self.log()[-5:], ["started", "forget", *asked], "the next process is told nothing that was forgotten, and is asked again")
        with self.assertRaises(ValueError):
            self.party.ask_together(["forget", "quit"])

    def test_answers_have_no_truth(self):
        with self.assertRaises(TypeError):
            bool(Answer(0, "valid"))


class Lines(unittest.TestCase):
    """Answers that are spoilt."""

    GOOD = (("check", "0 valid"), ("check", "1 invalid 1 4 Expired"), ("check", "2 revoked 2 1"), ("check", "3 unknown 1"),
            ("deliver", "0 stored 1 kept 0 contradicted 0"), ("believe", "0 believed"), ("prints", "0 3"), ("find", "0 4"),
            ("check", "4 hex:30: refused 4 Truncated at 0"), ("deliver", "4 a.der: refused 55 NotSuccessful 6"))

    def test_spoilt(self):
        rng, taken = random.Random(1), 0
        for _ in range(20_000):
            command, line = rng.choice(self.GOOD)
            spoilt = self.spoilt(rng, line)
            status, _, text = spoilt.partition(" ")
            _lines.refusal_in(text)
            if not _lines.is_answer(_lines.Form(command), status, text):
                continue
            taken += 1
            self.assertIn(status, "0123456")
            if command == "check" and status == "0":
                self.assertEqual(text, "valid")
            if command == "check" and status in "0123":
                try:
                    said = _lines.said_in(text, 2)
                except ValueError:
                    continue
                self.assertEqual(said.verdict is Verdict.VALID, text == "valid")
                self.assertEqual(said.verdict.value, text.split(" ")[0])
        self.assertGreater(taken, 2_000)

    def test_policies_behind_a_verdict(self):
        form, policies = _lines.Form.CHECK_POLICIES, ["policy 1.2.3", "policy #ff80", "user-policy 1.2.3"]
        for status, lines, is_one in (
            ("0", ["valid", *policies], True), ("0", ["valid"], True), ("3", ["unknown 1", *policies], True), ("2", ["revoked 1 1"], True),
            ("1", ["invalid 1 17 NoValidPolicy"], True), ("1", ["invalid 1 17 NoValidPolicy", *policies], False), ("0", [], False),
            ("0", ["unknown 1"], False), ("3", ["valid"], False), ("0", policies, False), ("0", ["valid", *policies[::-1]], False),
            ("0", ["valid", "valid"], False), ("0", ["valid", "policy"], False),
        ):
            self.assertEqual(_lines.are_lines(form, status, lines), is_one, (status, lines))

    def test_words_that_name_files(self):
        for line, files in (
            ("deliver a hex:30", ["a"]), ("check T a b", ["a", "b"]), ("check T purpose=1.2 policy=1.2 require-policy a", ["a"]),
            ("check T require-policy a", ["require-policy", "a"]), ("check T policy=1 purpose=1 a", ["purpose=1", "a"]),
            ("check T policy=1 inhibit-mapping require-policy a", ["require-policy", "a"]), ("check T purpose=1 purpose=2", ["purpose=2"]),
            ("find T purpose=1 name=x a hex:", ["a"]), ("find T name=x purpose=1 a", ["purpose=1", "a"]), ("find T name=x name=y", ["name=y"]),
            ("prints cert a b", ["a", "b"]), ("prints parts cert a b", ["a", "b"]), ("prints search a b c", ["a", "b", "c"]),
            ("prints parts parts a", ["a"]), ("believe a", []), ("forget", []), ("check", []), ("check T", []), ("find", []), ("prints", []),
        ):
            self.assertEqual(_lines.request_in(line).files, files, line)
        self.assertEqual([_lines.name_in(word) for word in ("a\\20b", "\\5c", "a b", "\\2", "\u00e4", "")], [b"a b", b"\\", None, None, None, None])

    @staticmethod
    def spoilt(rng, line):
        for _ in range(rng.choice((1, 1, 1, 2, 4))):
            at = rng.randrange(len(line) + 1)
            one = rng.choice("0123456789 aev\\\r\t:\u0663") if rng.random() < 0.8 else chr(rng.randrange(256))
            line = rng.choice((line[:at] + one + line[at:], line[:at] + one + line[at + 1:], line[:at] + line[at + 1:], line[:at]))
        return line

    def test_words(self):
        self.assertEqual(_lines.file_word("a b:\\c=d\u00e4"), "a\\20b\\3a\\5cc\\3dd\\c3\\a4")
        with tempfile.TemporaryDirectory() as folder:
            octets = [b"\x30" * 200_000, b"\x31" * 500_000, b"\x32" * 100_000]
            with _lines.written(["check", *octets], folder) as words:
                self.assertEqual([word[:4] for word in words], ["chec", "hex:", words[2][:4], "hex:"])
                with open(words[2].replace("\\5f", "_"), "rb") as file:
                    self.assertEqual(file.read(), octets[1])
            self.assertEqual(os.listdir(folder), [])
        self.assertEqual(_lines.MOST, 2**20)


if __name__ == "__main__":
    unittest.main()
