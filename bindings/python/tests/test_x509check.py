"""Certificates, verdicts and questions over examples/authority."""

import datetime
import ipaddress
import os
import threading
import unittest

import x509check
from x509check import (
    BadReference, Certificate, Extensions, Fault, Judgement, Reason, ReferenceRule, Result, RevocationReason, Text, Verdict,
)

from .authority import (
    CONSTRAINTS, DECEMBER, DELEGATE, GOOD_PRINTS, LEAF, MIDDLE, MIDDLE_LIST, RESPONSE, REVOKING_LIST, ROOT, ROOT_LIST, octets_of,
)

SERVER_AUTH, CLIENT_AUTH = "1.3.6.1.5.5.7.3.1", "1.3.6.1.5.5.7.3.2"


def verdict_on(statements, at=DECEMBER, chain=(MIDDLE, LEAF), **words):
    return x509check.validate(ROOT, chain, statements, at, fingerprints=GOOD_PRINTS.values(), **words)


class Certificates(unittest.TestCase):
    def test_fields_are_those_that_openssl_prints(self):
        leaf = Certificate.from_der(LEAF)
        self.assertEqual(leaf.version, 3)
        self.assertEqual(leaf.serial, b"\x03")
        self.assertEqual(leaf.begins, datetime.datetime(2026, 11, 23, 18, 27, 8, tzinfo=datetime.timezone.utc))
        self.assertEqual(leaf.ends, datetime.datetime(2027, 11, 23, 18, 27, 8, tzinfo=datetime.timezone.utc))
        self.assertEqual(leaf.extensions.alternative_names, 1)
        self.assertEqual(leaf.extensions.purposes, 1)
        self.assertEqual(leaf.issuer, Certificate.from_der(MIDDLE).subject)

    def test_speaks_for_its_host_alone(self):
        leaf = Certificate.from_der(LEAF)
        for reference, said in (
            ("www.example", True), ("WWW.Example.", True), ("example", False), ("a.www.example", False), ("192.0.2.1", False),
            (ipaddress.ip_address("2001:db8::1"), False), ("who@www.example", False),
        ):
            self.assertIs(leaf.speaks_for(reference), said, reference)
        self.assertFalse(Certificate.from_der(MIDDLE).speaks_for("middle"), "a common name is no host")

    def test_references_that_are_none(self):
        leaf = Certificate.from_der(LEAF)
        for reference, rule, offset in (
            ("", ReferenceRule.LABEL, 0), ("a..example", ReferenceRule.LABEL, 2), ("*.example", ReferenceRule.HOST_OCTET, 0),
            ("b\u00fccher.example", ReferenceRule.HOST_OCTET, 1), ("1.2.3.400", ReferenceRule.NUMBER, 6), ("fe80::1%lo", ReferenceRule.HOST_OCTET, 4),
            ("@example", ReferenceRule.LOCAL_PART, 0), ("a@", ReferenceRule.LABEL, 2), ("a@b c", ReferenceRule.HOST_OCTET, 3),
        ):
            with self.assertRaises(BadReference, msg=reference) as raised:
                leaf.speaks_for(reference)
            self.assertEqual((raised.exception.rule, raised.exception.offset), (rule, offset), reference)
        with self.assertRaises(TypeError):
            leaf.speaks_for(b"www.example")

    def test_extensions_of_an_authority(self):
        extensions = Certificate.from_der(MIDDLE).extensions
        self.assertIs(extensions.is_authority, True)
        self.assertEqual(extensions.path_length, 0)
        self.assertEqual(extensions.key_usage, ("keyCertSign", "cRLSign"))
        self.assertIsNone(Certificate.from_der(ROOT).extensions.path_length)

    def test_extensions_that_differ_in_each_field(self):
        constrained, delegate = (Certificate.from_der(octets).extensions for octets in (CONSTRAINTS, DELEGATE))
        self.assertEqual(constrained, Extensions(
            is_authority=True, path_length=None, key_usage=None, needs_policy_processing=True, no_check=False,
            alternative_names=3, permitted_subtrees=1, excluded_subtrees=2, purposes=4, unrecognised=5))
        self.assertEqual(delegate, Extensions(
            is_authority=False, path_length=7, key_usage=None, needs_policy_processing=False, no_check=True,
            alternative_names=0, permitted_subtrees=0, excluded_subtrees=0, purposes=0, unrecognised=0))

    def test_parts_are_of_the_octets(self):
        leaf = Certificate.from_der(bytearray(LEAF))
        for part in (leaf.tbs, leaf.algorithm, leaf.issuer, leaf.subject, leaf.subject_public_key_info, leaf.key, leaf.signature):
            self.assertIn(part, LEAF)

    def test_fingerprints_are_those_of_the_verdicts_file(self):
        root, middle, leaf = (Certificate.from_der(it) for it in (ROOT, MIDDLE, LEAF))
        self.assertEqual(middle.fingerprint_under(root), GOOD_PRINTS["middle.pem"])
        self.assertEqual(leaf.fingerprint_under(middle), GOOD_PRINTS["leaf.pem"])

    def test_refusals(self):
        rows = (
            (b"", 21, 0, 4, "21 Der (4 Truncated) at 0"),
            (b"\x30\x04\x05\x00\x03\x00", 21, 4, 6, "21 Der (6 Content) at 4"),
            (b"\x30\x02\x05\x00", 22, 2, None, "22 Layout at 2"),
            (LEAF + b"\x00", 21, len(LEAF), 7, f"21 Der (7 Trailing) at {len(LEAF)}"),
        )
        for octets, number, offset, der, line in rows:
            with self.subTest(line), self.assertRaises(Fault) as caught:
                Certificate.from_der(octets)
            self.assertEqual((caught.exception.number, caught.exception.offset, caught.exception.der), (number, offset, der))
            self.assertEqual(str(caught.exception), line)

    def test_check(self):
        x509check.check(b"\x30\x03\x02\x01\x05")
        with self.assertRaises(Fault) as caught:
            x509check.check(b"\x05\x00\x00")
        self.assertEqual((caught.exception.number, caught.exception.name, caught.exception.offset), (7, "Trailing", 2))


class Verdicts(unittest.TestCase):
    def test_a_path_is_valid_where_both_lists_speak(self):
        self.assertEqual(verdict_on([ROOT_LIST, MIDDLE_LIST]), Result(Verdict.VALID))
        self.assertEqual(verdict_on([MIDDLE_LIST, ROOT_LIST], at=int(DECEMBER.timestamp())), Result(Verdict.VALID))

    def test_a_response_speaks_too(self):
        self.assertEqual(verdict_on([ROOT_LIST, RESPONSE]), Result(Verdict.REVOKED, 2, RevocationReason.KEY_COMPROMISE))

    def test_the_next_list_revokes_the_leaf(self):
        revoked = Result(Verdict.REVOKED, 2, RevocationReason.KEY_COMPROMISE)
        self.assertEqual(verdict_on([ROOT_LIST, MIDDLE_LIST, REVOKING_LIST]), revoked)

    def test_unknown_without_a_list(self):
        self.assertEqual(verdict_on([]), Result(Verdict.UNKNOWN, 1))
        self.assertEqual(verdict_on([ROOT_LIST]), Result(Verdict.UNKNOWN, 2))

    def test_invalid_paths(self):
        later = datetime.datetime(2030, 1, 1, tzinfo=datetime.timezone.utc)
        rows = (
            (dict(at=0), 1, Reason.NOT_YET),
            (dict(at=later), 2, Reason.EXPIRED),
            (dict(chain=[LEAF]), 1, Reason.SIGNATURE),
            (dict(chain=[]), 0, Reason.EMPTY),
            (dict(purpose=CLIENT_AUTH), 2, Reason.PURPOSE),
        )
        for words, certificate, reason in rows:
            with self.subTest(reason.name):
                self.assertEqual(verdict_on([ROOT_LIST, MIDDLE_LIST], **words), Result(Verdict.INVALID, certificate, reason))
        self.assertEqual(verdict_on([ROOT_LIST, MIDDLE_LIST], purpose=SERVER_AUTH), Result(Verdict.VALID))

    def test_no_signature_is_believed_without_its_fingerprint(self):
        for left_out, expected in (
            ("middle.pem", Result(Verdict.INVALID, 1, Reason.SIGNATURE)),
            ("leaf.pem", Result(Verdict.INVALID, 2, Reason.SIGNATURE)),
            ("root.crl", Result(Verdict.UNKNOWN, 1)),
            ("middle.crl", Result(Verdict.UNKNOWN, 2)),
        ):
            prints = [print for name, print in GOOD_PRINTS.items() if name != left_out]
            with self.subTest(left_out):
                result = x509check.validate(ROOT, [MIDDLE, LEAF], [ROOT_LIST, MIDDLE_LIST], DECEMBER, fingerprints=prints)
                self.assertEqual(result, expected)

    def test_certificates_that_were_read_are_taken(self):
        chain = [Certificate.from_der(MIDDLE), Certificate.from_der(LEAF)]
        self.assertEqual(verdict_on([ROOT_LIST, MIDDLE_LIST], chain=chain), Result(Verdict.VALID))

    def test_threads(self):
        results = []
        threads = [threading.Thread(target=lambda: results.append(verdict_on([ROOT_LIST, MIDDLE_LIST]))) for _ in range(8)]
        for thread in threads:
            thread.start()
        for thread in threads:
            thread.join()
        self.assertEqual(results, [Result(Verdict.VALID)] * 8)


class Questions(unittest.TestCase):
    ASKED = ("middle.pem", "leaf.pem", "root.crl", "middle.crl", "leaf.ocsp certificate", "leaf.ocsp")

    def test_each_signature_is_asked_about_in_order(self):
        asked = x509check.questions(ROOT, [MIDDLE, LEAF], [ROOT_LIST, MIDDLE_LIST, RESPONSE])
        self.assertEqual([one.fingerprint for one in asked], [GOOD_PRINTS[name] for name in self.ASKED])
        for one in asked:
            self.assertEqual(x509check.fingerprint(one.algorithm, one.key, one.message, one.signature), one.fingerprint)

    def test_the_parts_are_those_of_the_certificates(self):
        middle, leaf = (Certificate.from_der(it) for it in (MIDDLE, LEAF))
        asked = x509check.questions(ROOT, [middle, leaf], [])[1]
        self.assertEqual((asked.algorithm, asked.message, asked.signature), (leaf.algorithm, leaf.tbs, leaf.signature))
        self.assertEqual(asked.key, middle.subject_public_key_info)

    def test_more_questions_than_there_is_room_for_at_first(self):
        asked = x509check.questions(ROOT, [MIDDLE, LEAF], [ROOT_LIST] * 100 + [MIDDLE_LIST])
        self.assertEqual(len(asked), 103)
        self.assertEqual(asked[-1].fingerprint, GOOD_PRINTS["middle.crl"])

    def test_faults(self):
        for arguments, text, index in (((ROOT, [b"\x30\x00"], []), Text.CERTIFICATES, 1), ((ROOT, [], [LEAF]), Text.STATEMENTS, 0)):
            with self.subTest(text.name), self.assertRaises(Fault) as caught:
                x509check.questions(*arguments)
            self.assertEqual((caught.exception.text, caught.exception.index), (text, index))


class Judges(unittest.TestCase):
    def test_a_verdict_without_a_judge_of_ones_own(self):
        result = x509check.validate(ROOT, [MIDDLE, LEAF], [ROOT_LIST, MIDDLE_LIST], DECEMBER, SERVER_AUTH)
        self.assertEqual(result, Result(Verdict.VALID))
        self.assertEqual([judgement for _, judgement in result.judgements], [Judgement.GOOD] * 4)

    def test_a_judge_of_ones_own_is_asked_each_question_once(self):
        asked = []
        refuses = x509check.validate(ROOT, [MIDDLE, LEAF], [ROOT_LIST] * 3, DECEMBER, verify=lambda one: asked.append(one) is not None)
        self.assertEqual(refuses, Result(Verdict.INVALID, 1, Reason.SIGNATURE))
        self.assertEqual(len(asked), 3)
        self.assertEqual([question for question, _ in refuses.judgements], asked)
        self.assertEqual(x509check.validate(ROOT, [MIDDLE, LEAF], [], DECEMBER, verify=lambda one: True), Result(Verdict.UNKNOWN, 1))
        with self.assertRaises(ValueError):
            x509check.validate(ROOT, [MIDDLE], [], DECEMBER, verify=lambda one: True, fingerprints=[])


class Paths(unittest.TestCase):
    def test_a_path_is_put_in_order(self):
        other = octets_of(os.path.join("..", "issuer.pem"))
        for others in ([MIDDLE], [LEAF, ROOT, other, MIDDLE], iter([MIDDLE, MIDDLE])):
            self.assertEqual([one.octets for one in x509check.path_to(ROOT, LEAF, others)], [MIDDLE, LEAF])
        self.assertEqual([one.octets for one in x509check.path_to(ROOT, MIDDLE, [LEAF])], [MIDDLE])
        for target, others in ((ROOT, []), (LEAF, []), (LEAF, [other]), (other, [LEAF, MIDDLE])):
            with self.subTest(len(others)), self.assertRaises(x509check.NoPath):
                x509check.path_to(ROOT, target, others)

    def test_the_target_is_one_certificate(self):
        for target in ([LEAF, MIDDLE], [], None):
            with self.subTest(target is None), self.assertRaises(TypeError):
                x509check.path_to(ROOT, target, [MIDDLE])
        with self.assertRaises(TypeError):
            x509check.path_to(ROOT, LEAF, MIDDLE)
        with self.assertRaises(Fault):
            x509check.path_to(ROOT, LEAF, [ROOT_LIST, MIDDLE])


class Refusals(unittest.TestCase):
    def refused(self, expected, *arguments, **words):
        with self.assertRaises(Fault) as caught:
            x509check.validate(*arguments, at=DECEMBER, fingerprints=GOOD_PRINTS.values(), **words)
        fault = caught.exception
        self.assertEqual((fault.text, fault.index, fault.number, fault.der, fault.offset), expected)
        with self.assertRaises(Fault) as caught:
            x509check.questions(*arguments)
        self.assertEqual(str(caught.exception), str(fault))

    def test_certificates(self):
        self.refused((Text.CERTIFICATES, 0, 21, 4, 0), b"", [], [])
        self.refused((Text.CERTIFICATES, 2, 21, 4, 0), ROOT, [MIDDLE, LEAF[:-1]], [])
        self.refused((Text.CERTIFICATES, 1, 21, 7, len(MIDDLE)), ROOT, [MIDDLE + LEAF], [])
        self.refused((Text.CERTIFICATES, 1, 22, None, 2), ROOT, [b"\x30\x00", LEAF], [])
        self.refused((Text.CERTIFICATES, 2, 22, None, 0), ROOT, [MIDDLE, b"\x05\x00"], [])
        # A fault at the end of a value is told of that value, though the next begins there.
        short = b"\x30" + bytes([len(b"\x05\x00")]) + b"\x30\x00"
        self.refused((Text.CERTIFICATES, 1, 22, None, 4), ROOT, [short, LEAF], [])

    def test_statements(self):
        chain = [MIDDLE, LEAF]
        self.refused((Text.STATEMENTS, 0, 41, 4, 0), ROOT, chain, [b""])
        self.refused((Text.STATEMENTS, 1, 41, 4, 0), ROOT, chain, [ROOT_LIST, MIDDLE_LIST[:-1]])
        self.refused((Text.STATEMENTS, 1, 42, None, 0), ROOT, chain, [ROOT_LIST, b"\x05\x00", MIDDLE_LIST])
        self.refused((Text.STATEMENTS, 1, 55, None, 2), ROOT, chain, [ROOT_LIST, b"\x30\x03\x0A\x01\x06"])

    def test_a_statement_that_is_none_is_refused_though_the_path_is_invalid(self):
        self.refused((Text.STATEMENTS, 0, 42, None, 0), ROOT, [LEAF], [b"\x05\x00"])

    def test_other_arguments(self):
        for words in (
            dict(at=datetime.datetime(2026, 12, 1)),
            dict(at=2**63),
            dict(at=DECEMBER, purpose="1"),
            dict(at=DECEMBER, purpose="1.40.3"),
            dict(at=DECEMBER, purpose="server"),
            dict(at=DECEMBER, fingerprints=[b"\x00" * 31]),
        ):
            with self.subTest(words), self.assertRaises(ValueError):
                x509check.validate(ROOT, [MIDDLE, LEAF], [], **words)


if __name__ == "__main__":
    unittest.main()
