"""What stands against a verdict that would be valid: statements that nobody could judge, statements that contradict each other, and keyUsage.
And what a search may cost."""

import datetime
import os
import pickle
import shutil
import subprocess
import sys
import tempfile
import time
import unittest
from unittest import mock

import x509check
from x509check import (
    Certificate, Contradicted, Contradiction, Judgement, Limits, Party, Profile, Reason, Result, RevocationReason, Unjudged, Verdict, WhyNot,
)
from x509check import _der, _ocsp, _query, _standing
from x509check._contradictions import would_revoke
from x509check._held import Listing
from x509check._statement_times import singles_in

from . import authority
from .authority import DECEMBER, LEAF, MIDDLE, MIDDLE_LIST, RESPONSE, REVOKING_LIST, ROOT, ROOT_LIST
from .fetch_authority import FOR_AUTHORITY, FOR_SERVER, Authority
from .test_party import PROGRAM

GOOD, WRONG, NOT_SERVED, REFUSED = Judgement.GOOD, Judgement.WRONG, Judgement.NOT_SERVED, Judgement.REFUSED
LISTS = [ROOT_LIST, MIDDLE_LIST]
REVOKED = Result(Verdict.REVOKED, 2, RevocationReason.KEY_COMPROMISE)


def doors(statements, at=DECEMBER, **words):
    """The same question, asked at each door that has statements at hand."""
    policies = {"initial_policies": None, "require_explicit_policy": False}
    return (
        lambda: x509check.validate(ROOT, [MIDDLE, LEAF], statements, at, "serverAuth", **words),
        lambda: x509check.validate_with_policies(ROOT, [MIDDLE, LEAF], statements, at, "serverAuth", **policies, **words),
        lambda: x509check.validate_peer([LEAF, MIDDLE], [ROOT], statements, at, "serverAuth", name="www.example", **words),
    )


def plain(result):
    """The verdict, without policies."""
    return Result(result.verdict, result.certificate, result.reason)


def saying(**said):
    """A judge that says so of the statements with these names, and otherwise what is right."""
    messages = {_der.value(octets).members()[0].whole: said[name] for name, octets in (
        ("root_list", ROOT_LIST), ("middle_list", MIDDLE_LIST), ("revoking", REVOKING_LIST)) if name in said}

    def judge(question):
        return messages[question.message] if question.message in messages else x509check.judge(question)
    return judge


class Statements(unittest.TestCase):
    def test_a_list_that_nobody_could_judge(self):
        for call in doors([*LISTS, REVOKING_LIST]):
            self.assertEqual(plain(call()), REVOKED)
        for judgement in (NOT_SERVED, REFUSED):
            for order in ([*LISTS, REVOKING_LIST], [REVOKING_LIST, *LISTS]):
                at = order.index(REVOKING_LIST)
                for call in doors(order, verify=saying(revoking=judgement)):
                    with self.assertRaises(Unjudged) as caught:
                        call()
                    self.assertEqual(caught.exception.statements, (at,))
                    self.assertEqual(str(pickle.loads(pickle.dumps(caught.exception))), str(caught.exception))
                for call in doors(order, verify=saying(revoking=judgement), ignore_unreadable=True):
                    result = call()
                    self.assertTrue(result)
                    (number, why), = result.ignored
                    self.assertEqual((number, type(why)), (at, Unjudged))

    def test_a_forgery_stops_nobody(self):
        for call in doors([*LISTS, REVOKING_LIST], verify=saying(revoking=WRONG)):
            result = call()
            self.assertEqual((plain(result), result.ignored, result.alarms, bool(result)), (Result(Verdict.VALID), (), (), True))

    def test_whoever_accepts_unknown_sees_it(self):
        for call in doors([ROOT_LIST, REVOKING_LIST], verify=saying(revoking=NOT_SERVED)):
            result = call()
            self.assertEqual((result.verdict, [alarm.statements for alarm in result.alarms]), (Verdict.UNKNOWN, [(1,)]))
            self.assertIn("alarm: nobody could judge", str(result))
        for call in doors([ROOT_LIST], verify=saying()):
            self.assertEqual(call().alarms, ())

    def test_numbers_are_those_of_what_was_handed_in(self):
        loaded = x509check.load(os.path.join(authority.FOLDER, "middle2.crl"))
        for call in doors([b"\x30\x00", *LISTS, *loaded], verify=saying(revoking=REFUSED), ignore_unreadable=True):
            self.assertEqual([one for one, _ in call().ignored], [0, *loaded])

    def test_lists_of_others_stop_nobody(self):
        """A list by another name, though nobody could judge it."""
        issuer = Certificate.from_der(ROOT)
        other = _der.encoded(0x30, *(_der.encoded(0x31, part.contents.replace(b"Root", b"Toor")) for part in _der.value(issuer.subject).members()))
        signed = _der.value(REVOKING_LIST).members()
        parts = [other if one.whole == Certificate.from_der(MIDDLE).subject else one.whole for one in signed[0].members()]
        strange = _der.encoded(0x30, _der.encoded(0x30, *parts), *(one.whole for one in signed[1:]))
        for call in doors([*LISTS, strange], verify=lambda question: GOOD if question.message not in strange else NOT_SERVED):
            self.assertTrue(call())

    def test_ways_of_a_response(self):
        """By the issuer itself, or by a delegate that it certified: the best way counts, and on one way the worst signature."""
        questions = [one for one in x509check.questions(ROOT, [MIDDLE, LEAF], [RESPONSE])[2:]]
        signed = _der.value(_der.value(_der.value(RESPONSE).members()[1].only_member().members()[1].contents).members()[0].whole).whole
        keys = [Certificate.from_der(one).subject_public_key_info for one in (ROOT, MIDDLE)]
        about = ["own" if one.message == signed and one.key in keys else "delegate's" if one.message == signed else "certificate"
                 for one in questions]
        self.assertEqual(about, ["certificate", "delegate's"])
        for certificate, delegates, wanted in (
            (GOOD, GOOD, "revoked"), (GOOD, NOT_SERVED, "unjudged"), (NOT_SERVED, GOOD, "unjudged"), (REFUSED, REFUSED, "unjudged"),
            (WRONG, NOT_SERVED, "valid"), (NOT_SERVED, WRONG, "valid"), (WRONG, GOOD, "valid"), (GOOD, WRONG, "valid"),
        ):
            said = {questions[0].fingerprint: certificate, questions[1].fingerprint: delegates}
            for call in doors([*LISTS, RESPONSE], verify=lambda one: said[one.fingerprint] if one.fingerprint in said else x509check.judge(one)):
                try:
                    found = call().verdict.value
                except Unjudged:
                    found = "unjudged"
                self.assertEqual(found, wanted, (certificate, delegates))

    def test_a_judge_that_could_not_tell(self):
        def judge(question):
            raise MemoryError
        for call in doors(LISTS, verify=judge):
            with self.assertRaises(MemoryError):
                call()


class Made(unittest.TestCase):
    """An authority of one's own, by OpenSSL."""

    @classmethod
    def setUpClass(cls):
        cls.folder = tempfile.mkdtemp()
        cls.addClassCleanup(shutil.rmtree, cls.folder)
        cls.made = Authority(cls.folder)
        cls.root = cls.made.root()
        cls.leaf = cls.made.certificate("leaf", "Root", FOR_SERVER)
        cls.serial = cls.made.serial
        # Three lists with one number, of which the last revokes the leaf.
        cls.lists = [cls.made.revocation_list("Root", revoked=revoked) for revoked in ([], [cls.serial + 1], [cls.serial, cls.serial + 1])]

    def file(self, name):
        return os.path.join(self.folder, name)

    def doors(self, leaf, statements, purpose="serverAuth", **words):
        policies = {"initial_policies": None, "require_explicit_policy": False}
        return (
            lambda: x509check.validate(self.root, [leaf], statements, "now", purpose, **words),
            lambda: x509check.validate_with_policies(self.root, [leaf], statements, "now", purpose, **policies, **words),
            lambda: x509check.validate_peer([leaf], [self.root], statements, "now", purpose, **words),
        )

    def contradict(self, statements):
        """Whether they do, at each door, also with the fingerprints of those that are good."""
        good = [one.fingerprint for one in x509check.questions(self.root, [self.leaf], statements) if x509check.judge(one) is GOOD]
        found = set()
        for call in (*self.doors(self.leaf, statements), *self.doors(self.leaf, statements, fingerprints=good)):
            try:
                found.add(call().verdict)
            except Contradiction as cause:
                self.assertIn(getattr(cause.result, "verdict", None), (Verdict.REVOKED, None))
                found.add("contradict")
        one, = found
        return one

    def test_lists_that_contradict_each_other(self):
        clean, other, revoking = self.lists
        for statements, wanted in (
            ([clean], Verdict.VALID), ([clean, clean], Verdict.VALID), ([clean, other], Verdict.VALID), ([revoking, clean], Verdict.REVOKED),
            ([clean, revoking], "contradict"), ([clean, other, revoking], "contradict"), ([clean, revoking, other], "contradict"),
            ([other, clean, clean, revoking, other], "contradict"),
        ):
            self.assertEqual(self.contradict(statements), wanted)
        newer = self.made.revocation_list("Root", number=2)
        self.assertEqual(self.contradict([clean, revoking, newer]), Verdict.VALID, "both are out of date")

    def test_responses_that_contradict_each_other(self):
        request = _ocsp.request_for(Certificate.from_der(self.leaf), Certificate.from_der(self.root))
        index = f"\t301231000000Z\t{{}}\t{self.serial:04X}\tunknown\t/CN=x\n"
        for _ in range(20):
            clean, revoking = (self.made.response(request, "Root", text) for text in (
                "V" + index.format(""), "R" + index.format("261101000000Z,keyCompromise")))
            if [it.times for it in singles_in(clean)] == [it.times for it in singles_in(revoking)]:
                break
        self.assertEqual(self.contradict([clean, revoking]), "contradict")
        self.assertEqual(self.contradict([revoking, clean]), Verdict.REVOKED)
        self.assertEqual(self.contradict([clean]), Verdict.VALID)
        # The same inside of one response, and what is newer than that.
        both, other_way = self.made.joined(clean, revoking, "Root"), self.made.joined(revoking, clean, "Root")
        self.assertEqual((self.contradict([both]), self.contradict([other_way])), ("contradict", Verdict.REVOKED))
        self.assertTrue(would_revoke(both, self.root, [self.leaf], "now"))
        self.assertFalse(would_revoke(clean, self.root, [self.leaf], "now"))
        time.sleep(1.1)
        newer = self.made.response(request, "Root", "V" + index.format(""))
        self.assertEqual(self.contradict([both, newer]), Verdict.VALID)

    def test_too_many_that_contradict_each_other(self):
        lists = [b"%d \x02\x01\x05" % number for number in range(20)]
        with mock.patch.object(_standing, "_keys", return_value=[("list", 1)]):
            rivals = _standing.Rivals(lists, {b"\x05"})
            good = _standing.Stands(_standing.Standing.GOOD, frozenset([0]))
            with self.assertRaises(ValueError):
                list(rivals.orders([good] * 20))
            self.assertEqual(list(_standing.Rivals(lists, {b"\x06"}).orders([good] * 20)), [], "none of them revokes")
            orders = list(_standing.Rivals(lists[:16], {b"\x05"}).orders([good] * 16))
            self.assertEqual(sorted(order[0] for order in orders), list(range(1, 16)))
            self.assertTrue(all(sorted(order) == list(range(16)) for order in orders))

    def test_a_statement_that_would_revoke_where_policies_are_asked_for(self):
        policies = "certificatePolicies=1.2.3.4\npolicyConstraints=critical,requireExplicitPolicy:0\n"
        middle = self.made.certificate("Policies", "Root", FOR_AUTHORITY + policies)
        for revoked, wanted in (([self.made.serial], True), ([], False)):
            self.assertIs(would_revoke(self.made.revocation_list("Root", revoked=revoked), self.root, [middle], "now"), wanted)

    def test_reports_show_alarms(self):
        if PROGRAM is None:
            self.skipTest("the program is missing")
        clean, _, revoking = self.lists
        for words in ({"statements": [clean, revoking]},
                      {"statements": [clean, self.made.revocation_list("Root", number=3, revoked=[self.serial])],
                       "verify": lambda one: NOT_SERVED if one.message == _der.value(self.last).members()[0].whole else x509check.judge(one)}):
            self.last = words["statements"][-1]
            page = x509check.report([self.leaf], [self.root], words.pop("statements"), "now", "serverAuth", **words)
            self.assertIn("<strong>alarm</strong>", page)
            self.assertNotIn("valid</strong>", page)
            two = x509check.report_on_two([self.leaf], [self.root], [clean], [clean, self.last], "now", "serverAuth", **words)
            self.assertEqual((two.count("<strong>alarm</strong>"), two.count("<strong>valid</strong>")), (1, 1))

    @unittest.skipUnless(PROGRAM, "the program is missing")
    def test_deliveries_that_contradict_what_is_held(self):
        with Party(self.file("contradicted"), program=PROGRAM) as party:
            first = party.deliver(self.root, self.lists[0])
            self.assertEqual((first.alarm, first.require_taken()), (None, first))
            again = party.deliver(self.root, self.lists[2])
            self.assertEqual((again.contradicted, "contradicts" in again.alarm), (1, True))
            with self.assertRaises(Contradicted) as caught:
                again.require_taken()
            self.assertEqual(pickle.loads(pickle.dumps(caught.exception)).delivery, again)

    def test_key_usage(self):
        served = {
            "keyCertSign": (), "digitalSignature": x509check.PURPOSES, "keyEncipherment": ("serverAuth", "emailProtection"),
            "keyAgreement": ("serverAuth", "clientAuth", "emailProtection"), "nonRepudiation": ("emailProtection", "timeStamping", "OCSPSigning"),
            "cRLSign": (), "dataEncipherment": (), "keyCertSign,keyAgreement": ("serverAuth", "clientAuth", "emailProtection"),
        }
        party = None
        if PROGRAM is not None:
            party = Party(self.file("usage"), program=PROGRAM)
            self.addCleanup(party.close)
            party.deliver(self.root, self.lists[0])
        purposes = ",".join(x509check.PURPOSES)
        for usage, allowed in served.items():
            leaf = self.made.certificate("usage", "Root", f"keyUsage=critical,{usage}\nextendedKeyUsage={purposes}\n")
            identity = Certificate.from_der(leaf).identity
            for purpose, dotted in x509check.PURPOSES.items():
                for word in (purpose, dotted):
                    on_path, with_policies, of_peer = (call() for call in self.doors(leaf, self.lists[:1], word))
                    wanted = Result(Verdict.VALID) if purpose in allowed else Result(Verdict.INVALID, 1, Reason.PURPOSE)
                    found = Result(Verdict.VALID) if purpose in allowed else Result(Verdict.NOT_FOUND)
                    self.assertEqual((on_path, plain(with_policies), of_peer), (wanted, wanted, found))
                    self.assertEqual(with_policies.user_policies is None, wanted.verdict is Verdict.INVALID)
                    self.assertEqual(of_peer.why_not, None if purpose in allowed else WhyNot(identity, Reason.PURPOSE))
                    if party is not None and word == purpose:
                        self.assertEqual(party.validate_peer([leaf], [self.root], "now", word), found)
                        self.assertEqual(party.check(self.root, [leaf], "now", word), wanted)
                        self.assertEqual(party.find(leaf, [self.root], [], "now", word), found)
            for purpose in (None, "1.2.3.4"):
                self.assertEqual(x509check.validate(self.root, [leaf], self.lists[:1], "now", purpose).verdict,
                                 Verdict.VALID if purpose is None else Verdict.INVALID)

    @unittest.skipUnless(PROGRAM, "the program is missing")
    def test_why_not_in_the_wide_profile(self):
        self.made.certificate("Mail", "Root", f"{FOR_AUTHORITY}nameConstraints=critical,permitted;email:example.org\n")
        leaf = self.made.certificate("mailbox", "Mail", "subjectAltName=email:post@example.com\n")
        middle = self.made.der("Mail")
        with Party(self.file("wide"), program=PROGRAM, profile=Profile.WIDE) as party:
            found = party.validate_peer([leaf, middle], [self.root], "now")
        wide, stated = (x509check.validate_peer([leaf, middle], [self.root], [], "now", profile=it) for it in (Profile.WIDE, Profile.STATED))
        self.assertEqual((found.verdict, found.why_not), (Verdict.NOT_FOUND, wide.why_not))
        self.assertNotEqual(wide.why_not, stated.why_not)

    @unittest.skipUnless(PROGRAM, "the program is missing")
    def test_lists_that_have_lapsed(self):
        good = self.made.certificate("good", "Root", FOR_SERVER)
        store, later = self.file("lapsed"), datetime.datetime.now(datetime.timezone.utc) + datetime.timedelta(days=10)
        with Party(store, program=PROGRAM) as party:
            party.deliver(self.root, self.made.revocation_list("Root", revoked=[self.serial]))
            self.assertEqual([it.entries for it in party.listing().lists], [1])
            for leaf, wanted in ((self.leaf, True), (good, False)):
                self.assertEqual(party.validate_peer([leaf], [self.root], later).verdict, Verdict.UNKNOWN)
                self.assertIs(party.revoked_when_lapsed([self.root, leaf]), wanted)
            for path in ([], [self.root]):
                with self.assertRaises(ValueError):
                    party.revoked_when_lapsed(path)
            # One that ended before the certificate began says nothing of it; one of another key does not count; one that nobody can ask about
            # keeps the door shut.
            begins = Certificate.from_der(good).not_before
            (held,), _ = party.listing()
            for one, wanted in ((held._replace(until=begins - 1), False), (held._replace(issuer="00" * 32), False),
                                (held._replace(issuer=None), False), (held._replace(since=held.until + 1), True)):
                with mock.patch.object(party, "listing", return_value=Listing((one,), ())):
                    self.assertIs(party.revoked_when_lapsed([self.root, good]), wanted, one)


def of_one_name(count, first=0x10000000):
    """Certificates whose subject and issuer are one name, each with a serial number of its own; nobody signed them."""
    certificate = Certificate.from_der(MIDDLE)
    parts = [one.whole for one in _der.value(certificate.tbs).members()]
    parts[5] = parts[3]
    rest = certificate.algorithm, _der.encoded(_der.BIT_STRING, b"\0", certificate.signature)
    for number in range(first, first + count):
        parts[1] = _der.encoded(_der.INTEGER, number.to_bytes(4, "big"))
        yield _der.encoded(0x30, _der.encoded(0x30, *parts), *rest)


# What a search among many certificates of one name takes, in kilobytes.
SEARCH = """
import resource, sys
sys.path[:0] = [sys.argv[1]]
import x509check
from tests.authority import ROOT
from tests.test_alarms import of_one_name
sent = list(of_one_name(3000))
before = resource.getrusage(resource.RUSAGE_SELF).ru_maxrss
result = x509check.validate_peer(sent, [ROOT], [], "now", verify=lambda _: sys.exit("a judge was asked"))
print(result.verdict.value, resource.getrusage(resource.RUSAGE_SELF).ru_maxrss - before)
"""


class Cost(unittest.TestCase):
    def test_a_judge_is_not_asked_more_often_than_it_may_be(self):
        asked = []
        for count, limits, wanted in ((4, Limits(signatures=16), 8), (4, Limits(signatures=15), 0), (31, None, 62), (32, None, 0)):
            asked.clear()
            result = x509check.validate_peer(list(of_one_name(count)), [ROOT], [], DECEMBER, verify=lambda it: asked.append(it) or False,
                                             limits=limits)
            self.assertEqual((len(asked), result.verdict), (wanted, Verdict.NOT_FOUND if wanted else Verdict.GAVE_UP), count)
        self.assertEqual(result.target, Certificate.from_der(next(of_one_name(1))).identity)

    def test_statements_count_too(self):
        for limits, wanted in ((Limits(signatures=4), Verdict.VALID), (Limits(signatures=3), Verdict.GAVE_UP)):
            self.assertEqual(x509check.validate_peer([LEAF, MIDDLE], [ROOT], LISTS, DECEMBER, limits=limits).verdict, wanted)

    def test_what_is_counted_is_what_is_asked_at_least(self):
        for sent, anchors in (([LEAF, MIDDLE], [ROOT]), ([LEAF, *of_one_name(5), MIDDLE], [ROOT, *of_one_name(3, 0x20000000)]),
                              ([MIDDLE, *of_one_name(4)], []), ([ROOT], [MIDDLE])):
            search = _query.Search(anchors, sent[0], sent[1:], [])
            self.assertEqual(search.most_pairs(), len(search.questions()))
        # Anchors whose names nobody's issuer has cost nothing.
        many = [*of_one_name(150)]
        self.assertLess(_query.Search([ROOT, authority.CONSTRAINTS], LEAF, [MIDDLE, authority.DELEGATE] * 7, []).most_pairs(), 100)
        self.assertEqual(_query.Search(many, authority.CONSTRAINTS, [LEAF] * 15, []).most_pairs(),
                         len(_query.Search(many, authority.CONSTRAINTS, [LEAF] * 15, []).questions()))

    def test_memory(self):
        done = subprocess.run([sys.executable, "-B", "-c", SEARCH, os.path.join(authority.HERE, "..")], stdout=subprocess.PIPE, text=True, check=True)
        verdict, kilobytes = done.stdout.rsplit(" ", 1)
        self.assertEqual(verdict, "gave up")
        self.assertLess(int(kilobytes), 50_000)

    @unittest.skipUnless(PROGRAM, "the program is missing")
    def test_a_party_asks_no_more(self):
        with tempfile.TemporaryDirectory() as folder:
            with Party(os.path.join(folder, "store"), program=PROGRAM, verify=lambda _: self.fail("a judge was asked")) as party:
                found = party.validate_peer(list(of_one_name(40)), [ROOT], DECEMBER, name="www.example")
        self.assertEqual((found.verdict, found.name), (Verdict.GAVE_UP, "www.example"))


if __name__ == "__main__":
    unittest.main()
