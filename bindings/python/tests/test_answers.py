"""An answer names whom it is about, is good only where the verdict is, and a mistake of a caller is an error."""

import copy
import ctypes
import datetime
import hashlib
import importlib.util
import os
import pickle
import random
import re
import sys
import time
import types
import unittest
import warnings
from unittest import mock

import x509check
from x509check import (
    Certificate, Fault, Identity, Judgement, NotValid, Reason, Result, RevocationReason, Text, Verdict, _arguments, _library, _names, _query,
    _verdicts,
)

from . import authority
from .authority import DECEMBER, GOOD_PRINTS, LEAF, MIDDLE, MIDDLE_LIST, REVOKING_LIST, ROOT, ROOT_LIST

sys.path.insert(0, os.path.join(authority.HERE, ".."))
import fuzz_pem  # noqa: E402
from x509check._program import PLACES  # noqa: E402

LISTS = [ROOT_LIST, MIDDLE_LIST]


def verdict(anchor=ROOT, chain=(MIDDLE, LEAF), statements=tuple(LISTS), at=DECEMBER, **words):
    if "verify" not in words:
        words.setdefault("fingerprints", GOOD_PRINTS.values())
    return x509check.validate(anchor, chain, statements, at, **words)


class Targets(unittest.TestCase):
    def test_an_answer_names_the_target_and_what_decides(self):
        result = verdict(statements=[ROOT_LIST, REVOKING_LIST])
        leaf = Certificate.from_der(LEAF).identity
        self.assertEqual((result.target, result.decides, result.certificate), (leaf, leaf, 2))
        self.assertEqual((leaf.serial, leaf.sha256), ("03", hashlib.sha256(LEAF).hexdigest()))
        self.assertIn("CN=", leaf.subject)
        self.assertEqual(str(result), f"revoked (key compromise): {leaf}, by certificate 2: {leaf}")
        result = verdict(statements=[])
        self.assertEqual((result.target, result.decides), (leaf, Certificate.from_der(MIDDLE).identity))
        result = verdict()
        self.assertEqual((result.target, result.decides, str(result)), (leaf, None, f"valid: {leaf}"))

    def test_a_path_without_a_target(self):
        result = verdict(chain=[])
        self.assertEqual(result, Result(Verdict.INVALID, 0, Reason.EMPTY))
        self.assertEqual((result.target, result.decides, str(result)), (None, None, "invalid (empty): the path, by the path itself"))

    def test_a_long_path_is_not_read_to_its_end(self):
        read = []

        def chain(most):
            for n in range(most):
                read.append(n)
                yield LEAF
        for most in (129, 10**9):
            result = verdict(chain=chain(most), target=LEAF)
            self.assertEqual((result, result.target), (Result(Verdict.INVALID, 0, Reason.TOO_LONG), None))
            self.assertLessEqual(len(read), 129)
            read.clear()
        self.assertEqual(verdict(chain=chain(128)).certificate, 1)

    def test_a_target_that_is_named_has_to_be_the_last(self):
        for target in (LEAF, Certificate.from_der(LEAF), x509check.load(LEAF)[0]):
            self.assertTrue(verdict(target=target))
        for chain, target in (((MIDDLE, LEAF), MIDDLE), ((MIDDLE,), LEAF), ((), LEAF)):
            with self.subTest(len(chain)), self.assertRaises(ValueError) as caught:
                verdict(chain=chain, target=target)
            self.assertIn(str(Certificate.from_der(target).identity), str(caught.exception))
        with self.assertRaises(TypeError):
            verdict(target=[LEAF])

    def test_a_good_answer_is_never_a_default(self):
        self.assertTrue(verdict())
        self.assertIs(verdict().require_valid().verdict, Verdict.VALID)
        for result in (verdict(statements=[]), verdict(at=0), verdict(chain=[]), verdict(statements=[ROOT_LIST, REVOKING_LIST])):
            with self.subTest(str(result)):
                self.assertFalse(result)
                self.assertFalse(result.verdict)
                with self.assertRaises(NotValid) as caught:
                    result.require_valid()
                self.assertIs(caught.exception.result, result)
                self.assertIsInstance(caught.exception, ValueError)
                again = pickle.loads(pickle.dumps(caught.exception))
                self.assertEqual((str(again), again.result), (str(result), result))
        self.assertEqual([bool(one) for one in Verdict], [one is Verdict.VALID for one in Verdict])
        self.assertEqual([one.value for one in Verdict], ["valid", "invalid", "revoked", "unknown", "other name", "not found", "gave up"])

    def test_a_target_beside_what_cannot_be_read(self):
        for chain in ((MIDDLE, b"\x30\x00"), (b"\x30\x00", LEAF)):
            with self.subTest(len(chain[0])), self.assertRaises(Fault) as caught:
                verdict(chain=chain, target=MIDDLE)
            self.assertEqual((caught.exception.text, caught.exception.index), (Text.CERTIFICATES, 1 + chain.index(b"\x30\x00")))

    def test_numbers_that_are_no_verdict(self):
        # Whether a certificate speaks for a name is asked by itself.
        self.assertEqual(set(_library.VERDICT_NUMBERS.values()), {"refused", *(one.value for one in Verdict if one is not Verdict.OTHER_NAME)})
        for words in (_library.VERDICT_WORDS, _library.FINDING_WORDS):
            for number in (max(words) + 1, min(words) - 1, _library.REFUSED):
                with self.subTest(number), self.assertRaises(RuntimeError):
                    _verdicts.result_of(_library.VerdictAnswer(number & 0xFFFFFFFF), words, [ROOT, LEAF])

    def test_reasons_have_the_names_of_the_library(self):
        def name_of(verdict, reason):
            written = ctypes.create_string_buffer(32)
            _library.library().x509check_reason_name(verdict, reason, written, ctypes.c_size_t(len(written)))
            return written.value.decode().lower()
        for number, kind in ((2, Reason), (3, RevocationReason)):
            ours = {one.value: one.name.replace("_", "").lower() for one in kind}
            self.assertEqual([name_of(number, one) for one in range(41)], [ours.get(one, "") for one in range(41)])
        self.assertEqual([name_of(number, 1) for number in (0, 1, 4, 5, 6)], [""] * 5)

    def test_each_value_is_read_once_for_the_questions_and_once_for_the_verdict(self):
        for most, asked in ((_query._MOST_ROOM, 1), (4, 1), (3, 2)):
            counting = mock.Mock(wraps=_library.library())
            with mock.patch.object(_query, "library", return_value=counting), mock.patch.object(_query, "_MOST_ROOM", most):
                self.assertTrue(verdict(verify=lambda it: it.fingerprint in set(GOOD_PRINTS.values())))
            calls = [name for name, _, _ in counting.mock_calls]
            self.assertEqual(calls, ["x509check_questions"] * asked + ["x509check_validate"])

    def test_a_library_of_another_version_is_not_asked(self):
        calls = ("check", "read_certificate", "fingerprint", "fault_name", "speaks_for", "questions", "validate", "validate_with_policies",
                 "find_questions", "find", "why_not", "version")
        for version, number in (("0.9.0", 900), ("0.10.0", 1000), ("1.2.34", 10234)):
            with mock.patch.object(x509check, "__version__", version):
                self.assertEqual(_library._version_number(), number)
        version, right = _library._version_number(), (_library.REFUSED, 0, 0, _library.Refusal(1, 21, 4))
        others = ((_library.REFUSED + 1, *right[1:]), (0,), (1,), (*right[:3], _library.Refusal(1, 7)))
        for number, answer, lacks in ((version, right, ""), (version + 1, right, ""), (0, right, ""), *((version, other, "") for other in others),
                                      *((version, right, call) for call in calls)):
            opened = types.SimpleNamespace(**{f"x509check_{call}": lambda *words, answer=answer: _library.VerdictAnswer(*answer)
                                              for call in calls if call != lacks})
            if lacks != "version":
                opened.x509check_version = lambda number=number: number
            with self.subTest(number, answer=answer, lacks=lacks), mock.patch.object(_library, "_opened", lambda opened=opened: opened):
                if (number, answer, lacks) == (version, right, ""):
                    self.assertIs(_library.library.__wrapped__(), opened)
                    continue
                with self.assertRaises(x509check.LibraryMissing):
                    _library.library.__wrapped__()


class Names(unittest.TestCase):
    @staticmethod
    def name(*rdns):
        def value(identifier, contents):
            return bytes([identifier, len(contents)]) + contents
        return value(0x30, b"".join(value(0x31, b"".join(
            value(0x30, value(0x06, bytes.fromhex(kind)) + value(identifier, text)) for kind, identifier, text in rdn)) for rdn in rdns))

    def test_names_are_written_as_rfc_4514_has_them(self):
        rows = (
            ("", []),
            ("CN=Leaf,O=Org,C=DE", [[("550406", 0x13, b"DE")], [("55040a", 0x0C, b"Org")], [("550403", 0x0C, b"Leaf")]]),
            ("CN=a+UID=b", [[("550403", 0x0C, b"a"), ("0992268993f22c640101", 0x0C, b"b")]]),
            ("1.2.3=x", [[("2a03", 0x16, b"x")]]),
            ("emailAddress=a@b", [[("2a864886f70d010901", 0x16, b"a@b")]]),
            ("CN=#1e020041", [[("550403", 0x1E, b"\0A")]]),
            (r"CN=a\,O\=b\+\"\\\<\>\;", [[("550403", 0x0C, b'a,O=b+"\\<>;')]]),
            (r"CN=\0Avalid\0D\1B[2J\C3\A9\7F\00", [[("550403", 0x0C, "\nvalid\r\x1b[2Jé\x7f\0".encode())]]),
            (r"CN=\20a \20\20b\20", [[("550403", 0x0C, b" a   b ")]]),
            (r"CN=\20", [[("550403", 0x0C, b" ")]]),
            (r"CN=\23a#", [[("550403", 0x0C, b"#a#")]]),
            (r"CN=\E2\80\AEx", [[("550403", 0x0C, "\u202ex".encode())]]),
        )
        for text, rdns in rows:
            with self.subTest(text):
                self.assertEqual(_names.name_text(self.name(*rdns)), text)

    def test_a_type_of_any_length(self):
        kind = b"\x2a" + b"\xff" * 1000 + b"\x01"
        attribute = b"\x06\x82" + len(kind).to_bytes(2, "big") + kind + b"\x0c\x01x"
        for identifier in (0x30, 0x31, 0x30):
            attribute = bytes([identifier, 0x82]) + len(attribute).to_bytes(2, "big") + attribute
        self.assertEqual(_names.name_text(attribute), f"#{kind.hex()}=x")

    def test_whatever_octets_a_value_has_they_can_be_told_from_the_text(self):
        pick = random.Random(1)
        for _ in range(3000):
            texts = [bytes(pick.choices(b' \n\r\x1b\\"#,+=;<>aB0\xc3\x00\x7f\x85', k=pick.randrange(9))) for _ in range(pick.randrange(1, 4))]
            shown = _names.name_text(self.name(*([("550403", 0x0C, text)] for text in texts)))
            self.assertTrue(shown.isascii() and shown.isprintable() and "  " not in shown, shown)
            found = re.split(r"(?<!\\),", shown.replace("\\\\", "\\5C"))
            self.assertEqual([self.octets_of(one) for one in reversed(found)], texts)

    @staticmethod
    def octets_of(shown):
        parts = re.findall(r"\\([0-9A-F]{2})|\\(.)|(.)", shown.replace("CN=", "", 1))
        return b"".join(bytes.fromhex(pair) or (escaped + plain).encode() for pair, escaped, plain in parts)

    def test_text_of_an_identity_stays_apart(self):
        self.assertEqual(str(Identity(_names.name_text(self.name([("550403", 0x0C, b'a" serial 00')])), "01", "ff")),
                         r'"CN=a\" serial 00" serial 01 sha256 ff')


class Judging(unittest.TestCase):
    def test_yes_and_no_are_said_in_so_many_words(self):
        good = set(GOOD_PRINTS.values())
        for judge in (lambda it: it.fingerprint in good, lambda it: Judgement.GOOD if it.fingerprint in good else Judgement.REFUSED):
            self.assertTrue(verdict(verify=judge))
        for answer in (False, Judgement.WRONG, Judgement.NOT_SERVED, Judgement.REFUSED):
            result = verdict(verify=lambda it, answer=answer: answer)
            self.assertEqual(result, Result(Verdict.INVALID, 1, Reason.SIGNATURE))
            self.assertEqual({judgement for _, judgement in result.judgements}, {answer or Judgement.WRONG} if answer is False else {answer})
            self.assertEqual(len(result.judgements), 4)
        self.assertEqual(verdict().judgements, ())

    def test_other_answers_are_mistakes(self):
        async def later(it):
            return True
        for answer in (None, 1, 0, "no", "", [], object(), Judgement):
            with self.subTest(answer), self.assertRaises(TypeError) as caught:
                verdict(verify=lambda it, answer=answer: answer)
            self.assertIn("True, False or a Judgement", str(caught.exception))
        with warnings.catch_warnings():
            warnings.simplefilter("error")
            with self.assertRaises(TypeError):
                verdict(verify=later)
        with self.assertRaises(TypeError):
            verdict(verify=True)

    def test_what_a_judge_raises_is_handed_on(self):
        def judge(it):
            raise LookupError("no key")
        with self.assertRaises(LookupError):
            verdict(verify=judge)


class Statements(unittest.TestCase):
    def test_one_that_cannot_be_read_refuses_the_question(self):
        for bad in (b"", b"\x05\x00", LEAF, ROOT_LIST[:-1], ROOT_LIST + b"\0"):
            with self.subTest(bad[:4]), self.assertRaises(Fault) as caught:
                verdict(statements=[ROOT_LIST, bad, MIDDLE_LIST])
            self.assertEqual((caught.exception.text, caught.exception.index), (Text.STATEMENTS, 1))

    def test_or_is_left_out_and_named(self):
        bad, = x509check.load(b"\x30\x00")
        faults = []
        for one in (b"\x05\x00", bad, ROOT_LIST[:-1]):
            with self.assertRaises(Fault) as caught:
                verdict(statements=[one])
            faults.append(caught.exception)
        result = verdict(statements=[b"\x05\x00", ROOT_LIST, bad, MIDDLE_LIST, ROOT_LIST[:-1]], ignore_unreadable=True)
        self.assertTrue(result)
        self.assertEqual([who for who, _ in result.ignored], [0, bad, 4])
        self.assertEqual([(it.index, it.number, it.offset, it.der) for _, it in result.ignored],
                         [(index, it.number, it.offset, it.der) for index, it in zip((0, 2, 4), faults)])
        result = verdict(statements=[b"\x05\x00", MIDDLE_LIST], ignore_unreadable=True)
        self.assertEqual((result, len(result.ignored)), (Result(Verdict.UNKNOWN, 1), 1))
        self.assertEqual(verdict(ignore_unreadable=True).ignored, ())
        with self.assertRaises(Fault) as caught:
            verdict(anchor=b"\x30\x00", statements=[b""], ignore_unreadable=True)
        self.assertEqual((caught.exception.text, caught.exception.index), (Text.CERTIFICATES, 0))


    def test_want_of_memory_is_no_fault_of_a_statement(self):
        for ignore in (True, False):
            library = mock.Mock(x509check_questions=mock.Mock(side_effect=[_library.AskedAnswer(_library.Refusal(0, 33))]))
            with mock.patch.object(_query, "library", return_value=library), self.assertRaises(MemoryError):
                verdict(verify=lambda it: True, ignore_unreadable=ignore)


class Arguments(unittest.TestCase):
    def mistaken(self, error, word, *arguments, **words):
        with self.subTest(str(words)[:60]), self.assertRaises(error) as caught:
            verdict(*arguments, **words)
        self.assertIn(word, str(caught.exception))

    def test_octets(self):
        pem = os.path.join(authority.FOLDER, "leaf.pem")
        with open(pem, "rb") as file:
            text = file.read()
        for what in (10**9, 1.5, None, [LEAF], True, object(), Certificate):
            self.mistaken(TypeError, "anchor", anchor=what)
            self.mistaken(TypeError, "chain[1]", chain=[MIDDLE, what])
            self.mistaken(TypeError, "statements[0]", statements=[what])
            self.mistaken(TypeError, "fingerprint", fingerprints=[what])
            for call in (x509check.check, Certificate.from_der):
                with self.assertRaises(TypeError):
                    call(what)
        for words in (dict(anchor=pem), dict(chain=[pem]), dict(statements=[pem])):
            self.mistaken(TypeError, "x509check.load", **words)
        for words in (dict(anchor=text), dict(chain=[b"# text\n" + text]), dict(statements=[text])):
            self.mistaken(ValueError, "x509check.load", **words)

    def test_lists(self):
        for one in (LEAF, bytearray(LEAF), memoryview(LEAF), Certificate.from_der(LEAF), x509check.load(LEAF)[0], "leaf.pem", {LEAF}, {LEAF: 1},
                    7, None):
            self.mistaken(TypeError, "chain", chain=one)
            self.mistaken(TypeError, "statements", statements=one)

    def test_options(self):
        for option in ("no", 1, None):
            self.mistaken(TypeError, "True or False", ignore_unreadable=option)

    def test_moments(self):
        for at in (time.time(), None, True, datetime.date(2026, 12, 1), [0], b"now"):
            self.mistaken(TypeError, "datetime with a zone", at=at)
        for at in (datetime.datetime(2026, 12, 1), "2026-12-01", "2026-12-01T00:00:00", "Now", "", "2026-13-01T00:00Z", "1796083200", 2**63,
                   "2026-12-01T00:00:00Z\n", "2026-12-01T00:00:60Z", "2026-12-01T00:00+99:00", "٢٠٢٦-12-01T00:00Z", "20261301000000Z"):
            self.mistaken(ValueError, "", at=at)
        for at in ("2026-12-01T00:00:00Z", "2026-12-01T02:30+02:30", "2026-11-30 19:00:00.999-05:00", "20261201000000Z", 1796083200):
            self.assertEqual(_arguments.seconds_of(at), 1796083200)
            self.assertTrue(verdict(at=at))
        self.assertLess(abs(_arguments.seconds_of("now") - time.time()), 5)

    def test_purposes(self):
        for purpose in ("", "server", "SERVERAUTH", "1", "1.40.3", "3.1", "1.3.06", "1.3.", "1.3.-6", "+1.3", "1.3.6 ", "1.3.٦",
                        "2.9223372036854775807", "1.3.9223372036854775808", "anyExtendedKeyUsage"):
            self.mistaken(ValueError, "purpose", purpose=purpose)
        for purpose in (b"serverAuth", 1, ["serverAuth"]):
            self.mistaken(TypeError, "purpose", purpose=purpose)
        self.assertTrue(verdict(purpose="serverAuth"))
        for purpose in ("clientAuth", "codeSigning", "emailProtection", "timeStamping", "OCSPSigning", "2.999.9223372036854775807"):
            self.assertEqual(verdict(purpose=purpose), Result(Verdict.INVALID, 2, Reason.PURPOSE))
        for name, dotted in x509check.PURPOSES.items():
            self.assertEqual(_arguments.purpose_of(name), _arguments.purpose_of(dotted))
        self.assertEqual(_arguments.purpose_of("2.999.3").hex(), "883703")

    @unittest.skipUnless(importlib.util.find_spec("cryptography"), "the package cryptography is missing")
    def test_objects_of_the_package_cryptography(self):
        from cryptography import x509
        root, middle, leaf = (x509.load_der_x509_certificate(it) for it in (ROOT, MIDDLE, LEAF))
        lists = [x509.load_der_x509_crl(it) for it in LISTS]
        path = x509check.path_to(root, leaf, [middle])
        self.assertEqual([it.octets for it in path], [MIDDLE, LEAF])
        self.assertTrue(verdict(anchor=root, chain=[middle, leaf], statements=lists, target=leaf))
        with self.assertRaises(TypeError):
            verdict(anchor=root.public_key())
        self.mistaken(TypeError, "chain", chain=leaf)

    def test_files(self):
        path = x509check.path_to(ROOT, *x509check.load(LEAF + MIDDLE)[:1], x509check.load(LEAF + MIDDLE))
        self.assertTrue(verdict(chain=path))


class Faults(unittest.TestCase):
    def test_faults_are_pickled_and_copied(self):
        loaded, = x509check.load(b"\x30\x00")
        fault = Fault(41, 3, 7, Text.STATEMENTS, 1, loaded)
        for other in (pickle.loads(pickle.dumps(fault)), copy.copy(fault), copy.deepcopy(fault)):
            self.assertEqual((str(other), other.number, other.offset, other.der, other.text, other.index, other.origin),
                             (str(fault), 41, 3, 7, Text.STATEMENTS, 1, loaded))
        self.assertEqual(pickle.loads(pickle.dumps(verdict())), verdict())

    def test_faults_have_the_names_of_the_library(self):
        for number, name in ((1, "TagForm"), (17, "MaskForm"), (33, "Memory"), (59, "TooManySingles"), (0, "Unknown"), (999, "Unknown")):
            self.assertEqual((Fault(number, 0).name, Fault(41, 0, number).der_name), (name, name if number else None))

    def test_explanations(self):
        for mistake in (True, 1.5, "7", None, Verdict.VALID, Text.STATEMENTS):
            with self.subTest(mistake), self.assertRaises(TypeError):
                x509check.explain(mistake)
        old = os.environ.pop("X509CHECK", None)
        os.environ["X509CHECK"] = "/nowhere"
        try:
            with self.assertRaises(x509check.ProgramMissing):
                x509check.explain(7)
        finally:
            del os.environ["X509CHECK"]
            if old is not None:
                os.environ["X509CHECK"] = old

    @unittest.skipUnless(any(map(os.path.exists, PLACES)), "the program is not built")
    def test_explanations_of_the_program(self):
        for it, begin in ((7, "fault 7 Trailing: "), (Fault(22, 0), "fault 22 Layout: "), (Reason.EXPIRED, "rank 4 Expired: "),
                          (RevocationReason.KEY_COMPROMISE, "reason 1 ")):
            self.assertTrue(x509check.explain(it).startswith(begin), it)
            self.assertNotIn("\n", x509check.explain(it))
        with self.assertRaises(ValueError):
            x509check.explain(1000)


class Fuzzing(unittest.TestCase):
    def test_spoilt_files(self):
        ends, complaints = fuzz_pem.run(60, 7, 3000)
        self.assertEqual(complaints, [])
        self.assertGreater(ends["revoked leaf"], 100)
        self.assertGreater(ends["NotLoaded"], 500)


if __name__ == "__main__":
    unittest.main()
