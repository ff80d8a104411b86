"""Both profiles, over lists that are published at the point of a certificate (RFC 5280, 5.2.5), and over constraints on mail addresses
(4.2.1.10). All signatures count as good."""

import hashlib
import os
import subprocess
import unittest

import x509check
from x509check import (
    Fault, Profile, Reason, Result, RevocationReason, Text, Verdict, peer_questions, questions, validate, validate_peer, validate_with_policies,
)

from .authority import tried
from .test_party import PROGRAM, InFolder

# 2025-06-15T00:00:00Z
MIDDLE = 1749945600
ROOT, LEAF, LIMITED, CRITICAL, UNPROCESSED, MALFORMED, LIST, REVOKING = (tried(os.path.join("points", name)) for name in (
    "root.der", "leaf.der", "limited.der", "critical.der", "unprocessed.der", "malformed.der", "list.crl", "revoking.crl"))
REVOKED = Result(Verdict.REVOKED, 1, RevocationReason.KEY_COMPROMISE)


def good(_question):
    return True


def answer(leaf=LEAF, statement=LIST, **words):
    return validate(ROOT, [leaf], [statement], MIDDLE, verify=good, **words)


def found(certificates=(LEAF,), statement=REVOKING, **words):
    """Of the anchors the malformed one is the first: no list speaks of anchors."""
    return validate_peer(certificates, [MALFORMED, ROOT], [statement], MIDDLE, verify=good, **words)


class Profiles(unittest.TestCase):
    def refused(self, text, index, number, call, *args, **words):
        with self.assertRaises(Fault) as raised:
            call(*args, **words)
        fault = raised.exception
        self.assertEqual((fault.text, fault.index, fault.number), (text, index, number))

    def test_a_list_at_a_point_counts_in_the_wide_profile(self):
        self.assertEqual(answer(profile=Profile.WIDE), Result(Verdict.VALID))
        self.assertEqual(answer(statement=REVOKING, profile=Profile.WIDE), REVOKED)
        for words in {}, {"profile": Profile.STATED}:
            self.refused(Text.STATEMENTS, 0, 48, answer, **words)

    def test_a_list_at_a_point_with_reasons_revokes_and_covers_nothing(self):
        self.assertEqual(answer(LIMITED, REVOKING, profile=Profile.WIDE), REVOKED)
        self.assertEqual(answer(LIMITED, LIST, profile=Profile.WIDE), Result(Verdict.UNKNOWN, 1))
        self.assertEqual(found([LIMITED], profile=Profile.WIDE).verdict, Verdict.REVOKED)

    def test_critical_points_are_processed_in_the_wide_profile(self):
        self.assertEqual(answer(CRITICAL, profile=Profile.WIDE), Result(Verdict.VALID))
        self.assertEqual(found([CRITICAL], profile=Profile.WIDE).verdict, Verdict.REVOKED)
        self.assertEqual(validate(ROOT, [CRITICAL], [], MIDDLE, verify=good), Result(Verdict.INVALID, 1, Reason.CRITICAL_UNKNOWN))

    def test_a_critical_extension_without_policies_is_refused_in_the_wide_profile(self):
        self.assertEqual(answer(UNPROCESSED, profile=Profile.WIDE), Result(Verdict.INVALID, 1, Reason.CRITICAL_UNKNOWN))
        self.assertEqual(validate(ROOT, [UNPROCESSED], [], MIDDLE, verify=good), Result(Verdict.UNKNOWN, 1))

    def test_key_usage_goes_with_the_purpose(self):
        for purpose, told in ("serverAuth", Result(Verdict.INVALID, 1, Reason.PURPOSE)), ("timeStamping", Result(Verdict.VALID)):
            self.assertEqual(answer(CRITICAL, profile=Profile.WIDE, purpose=purpose), told)

    def test_points_are_read_in_the_wide_profile(self):
        self.refused(Text.CERTIFICATES, 1, 29, answer, MALFORMED, profile=Profile.WIDE)
        self.refused(Text.STATEMENTS, 0, 48, answer, MALFORMED)

    def test_questions_are_asked_in_a_profile(self):
        for asked in questions(ROOT, [LEAF], [LIST], profile=Profile.WIDE), peer_questions([LEAF], [ROOT], [LIST], profile=Profile.WIDE):
            prints = [one.fingerprint for one in asked]
            self.assertEqual(len(prints), 2)
            result = validate(ROOT, [LEAF], [LIST], MIDDLE, fingerprints=prints, profile=Profile.WIDE)
            self.assertEqual(result, Result(Verdict.VALID))
        self.refused(Text.STATEMENTS, 0, 48, questions, ROOT, [LEAF], [LIST])
        self.refused(Text.STATEMENTS, 0, 48, peer_questions, [LEAF], [ROOT], [LIST])

    def test_what_can_be_read_depends_on_the_profile(self):
        stated = answer(ignore_unreadable=True)
        self.assertEqual((stated.verdict, len(stated.ignored)), (Verdict.UNKNOWN, 1))
        wide = answer(ignore_unreadable=True, profile=Profile.WIDE)
        self.assertEqual((wide.verdict, wide.ignored), (Verdict.VALID, ()))

    def test_policies_are_processed_in_the_profile(self):
        words = {"initial_policies": None, "require_explicit_policy": False, "verify": good}
        result = validate_with_policies(ROOT, [LEAF], [REVOKING], MIDDLE, profile=Profile.WIDE, **words)
        self.assertEqual((result.verdict, result.certificate), (Verdict.REVOKED, 1))
        self.refused(Text.STATEMENTS, 0, 48, validate_with_policies, ROOT, [LEAF], [REVOKING], MIDDLE, **words)

    def test_a_search_is_in_a_profile(self):
        self.assertEqual(found(profile=Profile.WIDE), REVOKED)
        self.refused(Text.STATEMENTS, 0, 48, found)
        self.refused(Text.CERTIFICATES, 1, 29, found, (LEAF, MALFORMED), profile=Profile.WIDE)
        result = found((LEAF, MALFORMED), ignore_unreadable_certificates=True, profile=Profile.WIDE)
        self.assertEqual(result, REVOKED)
        (number, fault), = result.ignored
        self.assertEqual((number, fault.text, fault.index, fault.number), (1, Text.CERTIFICATES, 1, 29))

    def test_a_report_is_made_in_a_profile(self):
        def told(certificate, statements, **words):
            page = x509check.report([certificate], [ROOT], statements, MIDDLE, verify=good, **words)
            return page[page.index("<main>"):page.index("</main>")]
        wide = told(LEAF, [REVOKING], profile=Profile.WIDE)
        self.assertTrue("revoked (key compromise)" in wide and "<dt>profile</dt><dd>wide</dd>" in wide)
        self.assertTrue("fault 48" in told(LEAF, [REVOKING]))
        self.assertTrue("fault 29" in told(MALFORMED, [], profile=Profile.WIDE))
        self.assertFalse("fault 29" in told(MALFORMED, []))

    def test_constraints_on_mail_addresses_are_processed_in_the_wide_profile(self):
        root, authority, other, leaf, stranger, malformed = (
            tried(os.path.join("mail", name + ".der")) for name in ("root", "authority", "other", "leaf", "stranger", "malformed"))

        def says(target, **words):
            return validate(root, [authority, target], [], MIDDLE, verify=good, **words)
        self.assertEqual(says(leaf), Result(Verdict.INVALID, 2, Reason.CONSTRAINT_FORM))
        self.assertEqual(says(leaf, profile=Profile.WIDE), Result(Verdict.UNKNOWN, 1))
        self.assertEqual(says(stranger, profile=Profile.WIDE), Result(Verdict.INVALID, 2, Reason.NOT_PERMITTED))
        self.assertEqual(says(malformed, profile=Profile.WIDE), Result(Verdict.INVALID, 2, Reason.CONSTRAINT_FORM))
        result = validate_peer([leaf, other, authority], [root], [], MIDDLE, verify=good, profile=Profile.WIDE)
        self.assertEqual((result.verdict, result.certificate), (Verdict.UNKNOWN, 1))
        self.assertIn(hashlib.sha256(authority).hexdigest(), [one.sha256 for one in result.path])
        result = validate_peer([stranger, other, authority], [root], [], MIDDLE, verify=good, profile=Profile.WIDE)
        self.assertEqual(result, Result(Verdict.NOT_FOUND))

    def test_another_profile_is_a_mistake(self):
        for profile in "wide", True, 1, None:
            with self.subTest(profile), self.assertRaisesRegex(TypeError, "a Profile is wanted"):
                answer(profile=profile)
        self.assertIs(x509check.Profile, Profile)


@unittest.skipUnless(PROGRAM, "the program is missing")
class Hints(InFolder):
    def hint(self, *words):
        done = subprocess.run([PROGRAM, "--hints", *words], cwd=self.folder, stdout=subprocess.DEVNULL, stderr=subprocess.PIPE, text=True, check=False)
        lines = done.stderr.splitlines()
        self.assertEqual([line.split(": ")[0] for line in lines], ["x509check", "hint"])
        return done.returncode, *lines

    def test_they_name_the_profile(self):
        for name, octets in (("root.der", ROOT), ("list.crl", LIST), ("good", b""), ("broken", b"SQLite format 3\0" + b"\xff" * 2000)):
            with open(self.file(name), "wb") as file:
                file.write(octets)
        status, line, hint = self.hint("deliver", "--store", "store", "--verdicts", "good", "--issuer", "root.der", "list.crl")
        self.assertEqual((status, "refused 48 Scope" in line, "--profile wide" in hint), (4, True, True))
        for profile in "wide", "stated":
            subprocess.run([PROGRAM, "--profile", profile, "session", "--store", profile], cwd=self.folder, input=b"quit\n",
                           stdout=subprocess.DEVNULL, check=True)
        status, line, hint = self.hint("list", "--store", "wide")
        self.assertEqual((status, line[-2:], "the profile 'stated'" in hint), (6, "72", True))
        status, line, hint = self.hint("--profile", "wide", "list", "--store", "stated")
        self.assertEqual((status, line[-2:], "the profile 'wide'" in hint), (6, "72", True))


if __name__ == "__main__":
    unittest.main()
