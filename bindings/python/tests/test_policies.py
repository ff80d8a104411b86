"""Verdicts on paths whose policies are processed, over examples/policies: what OpenSSL says of the same certificates."""

import os
import pickle
import sys
import unittest
from unittest import mock

import x509check
from x509check import (
    Certificate, Fault, Judgement, NotValid, Reason, Result, ResultWithPolicies, Text, Verdict, _library, _query,
    validate_with_policies,
)
from x509check._arguments import ANY_POLICY, policies_of
from x509check._der import contents_of, dotted

from .authority import DECEMBER, TESTDATA

sys.path.insert(0, os.path.join(TESTDATA, "..", "python"))
import fuzz_policies  # noqa: E402

ROOT, PARTNER, LEAF = (fuzz_policies.loaded(f"{name}.pem") for name in ("root", "partner", "leaf"))
LISTS = [fuzz_policies.loaded(f"{name}.crl") for name in ("root", "partner")]
# Of the root's domain, of which the partner issues under both and maps the first to its own; of the partner's domain.
FIRST, SECOND, OWN = "2.999.1.1", "2.999.1.2", "2.999.2.7"


def copy_of(name):
    with open(os.path.join(TESTDATA, "policies", name), "rb") as file:
        return file.read()


GOOD = [copy_of("good")[at:at + 32] for at in range(0, 128, 32)]


def changed(octets, *pairs):
    """The certificate with other policies in place of some: the contents of each have the same length, and stand there once from the left."""
    for old, new in pairs:
        before, after = contents_of(old), contents_of(new)
        assert len(before) == len(after) and before in octets
        octets = octets.replace(before, after, 1)
    return octets


def good_of(*certificates):
    """The fingerprints as if each had issued the next."""
    read = [Certificate.from_der(one) for one in certificates]
    return GOOD + [below.fingerprint_under(above) for above, below in zip(read, read[1:])]


def answer(policies=None, explicit=True, chain=(PARTNER, LEAF), statements=tuple(LISTS), anchor=ROOT, **words):
    if "verify" not in words:
        words.setdefault("fingerprints", good_of(anchor, *chain))
    return validate_with_policies(anchor, chain, statements, DECEMBER, initial_policies=policies, require_explicit_policy=explicit, **words)


def valid(user, authority):
    return ResultWithPolicies(Verdict.VALID, authority_policies=authority, user_policies=user)


def invalid(certificate, reason):
    return ResultWithPolicies(Verdict.INVALID, certificate, reason)


class Answers(unittest.TestCase):
    def test_the_policies_at_the_end_and_whom_they_are_about(self):
        result = answer([FIRST], target=LEAF)
        leaf = Certificate.from_der(LEAF).identity
        self.assertEqual((result, result.target, result.decides), (valid((FIRST,), (FIRST,)), leaf, None))
        self.assertEqual(str(result), f"valid: {leaf}; policies of the user: {FIRST}; of the authorities: {FIRST}")
        self.assertIs(result.require_valid(), result)

    def test_who_does_not_ask_for_policies_is_told_that_they_would_count(self):
        result = x509check.validate(ROOT, [PARTNER, LEAF], LISTS, DECEMBER, fingerprints=GOOD)
        self.assertEqual(result, Result(Verdict.INVALID, 1, Reason.POLICY))
        self.assertNotEqual(result, answer([FIRST]))

    def test_a_policy_may_be_missing_where_none_is_required(self):
        self.assertEqual(answer([SECOND], explicit=False), valid((), (FIRST,)))
        self.assertIn("; policies of the user: none; of the authorities: 2.999.1.1", str(answer([SECOND], explicit=False)))
        self.assertEqual(answer([SECOND, OWN]), invalid(2, Reason.NO_USER_POLICY))

    def test_which_policies_the_user_takes(self):
        for taken in (None, [ANY_POLICY], [SECOND, ANY_POLICY], [FIRST, SECOND], {SECOND, FIRST}, (FIRST, FIRST), iter([FIRST])):
            self.assertEqual(answer(taken), valid((FIRST,), (FIRST,)), taken)

    def test_no_policies_are_not_any_policy(self):
        for none in ([], (), set(), iter(())):
            self.assertEqual(answer(none), invalid(2, Reason.NO_USER_POLICY))
        self.assertEqual(answer([], explicit=False), valid((), (FIRST,)))

    def test_certificates_without_policies(self):
        plain = [fuzz_policies.with_policies(one) for one in (PARTNER, LEAF)]
        with self.assertRaises(Fault):
            answer(None, chain=plain)  # an extension that states none is malformed
        folder = os.path.join(fuzz_policies.FOLDER, "..", "authority")
        root, middle, leaf = (x509check.load(os.path.join(folder, f"{name}.pem"))[0].octets for name in ("root", "middle", "leaf"))
        told = answer(None, True, [middle, leaf], [], root)
        self.assertEqual(told, invalid(1, Reason.NO_VALID_POLICY))
        told = answer(None, False, [middle, leaf], [], root)
        self.assertEqual((told.verdict, told.user_policies, told.authority_policies), (Verdict.UNKNOWN, (), ()))

    def test_any_policy_in_certificates(self):
        # Of the authorities OpenSSL tells anyPolicy alone where it is among theirs; RFC 5280, 6.1.5 (g), has the others beside it.
        partner, leaf = changed(PARTNER, (SECOND, ANY_POLICY)), changed(LEAF, (OWN, ANY_POLICY))
        self.assertEqual(answer([SECOND], chain=[partner, leaf]), valid((SECOND,), (ANY_POLICY, FIRST)))
        self.assertEqual(answer(None, chain=[partner, leaf]), valid((ANY_POLICY, FIRST), (ANY_POLICY, FIRST)))
        self.assertEqual(answer([SECOND], chain=[partner, leaf], inhibit_any_policy=True), invalid(2, Reason.NO_VALID_POLICY))

    def test_reasons(self):
        mapped = changed(PARTNER, (OWN, ANY_POLICY))
        for expected, words in (
            (invalid(2, Reason.NO_VALID_POLICY), dict(chain=[PARTNER, changed(LEAF, (OWN, "2.999.2.8"))])),
            (invalid(2, Reason.NO_VALID_POLICY), dict(inhibit_policy_mapping=True)),
            (invalid(1, Reason.ANY_POLICY_MAPPED), dict(chain=[mapped, LEAF], explicit=False)),
            (invalid(2, Reason.NO_USER_POLICY), dict(policies=[SECOND])),
            (invalid(0, Reason.EMPTY), dict(chain=[])),
            (invalid(0, Reason.TOO_LONG), dict(chain=[LEAF] * 129, fingerprints=[])),
            (invalid(1, Reason.SIGNATURE), dict(fingerprints=GOOD[1:])),
        ):
            with self.subTest(expected.reason.name):
                told = answer(**words)
                self.assertEqual(told, expected)
                self.assertEqual((told.user_policies, told.authority_policies), (None, None))
                self.assertFalse(told)
                self.assertNotIn("policies", str(told))
                with self.assertRaises(NotValid) as caught:
                    told.require_valid()
                self.assertEqual(pickle.loads(pickle.dumps(caught.exception)).result, told)

    def test_policies_come_with_each_verdict_on_a_path_that_is_not_invalid(self):
        told = answer([FIRST], statements=[LISTS[0]])
        self.assertEqual(told, ResultWithPolicies(Verdict.UNKNOWN, 2, None, authority_policies=(FIRST,), user_policies=(FIRST,)))
        self.assertFalse(told)

    def test_results_differ_by_their_policies(self):
        self.assertNotEqual(valid((FIRST,), (FIRST,)), valid((), (FIRST,)))
        self.assertNotEqual(valid((), ()), Result(Verdict.VALID))
        self.assertNotEqual(valid((), ()), ResultWithPolicies(Verdict.VALID))

    def test_judges_are_asked_as_for_a_verdict_without_policies(self):
        told = answer([FIRST], verify=lambda it: it.fingerprint in GOOD)
        plain = x509check.validate(ROOT, [PARTNER, LEAF], LISTS, DECEMBER, verify=lambda it: it.fingerprint in GOOD)
        self.assertEqual((told, told.judgements), (valid((FIRST,), (FIRST,)), plain.judgements))
        self.assertEqual(len(told.judgements), 4)
        self.assertEqual(answer([FIRST], verify=lambda it: Judgement.REFUSED), invalid(1, Reason.SIGNATURE))

    def test_by_signatures_alone(self):
        self.assertTrue(validate_with_policies(ROOT, [PARTNER, LEAF], LISTS, "2026-12-01T00:00:00Z", initial_policies=[FIRST],
                                               require_explicit_policy=True))

    def test_the_copies_for_other_languages_are_these(self):
        for octets, name in zip((ROOT, PARTNER, LEAF, *LISTS), ("root.der", "partner.der", "leaf.der", "root.crl", "partner.crl")):
            self.assertEqual(copy_of(name), octets)
        self.assertEqual(sorted(it.fingerprint for it in x509check.questions(ROOT, [PARTNER, LEAF], LISTS)), sorted(GOOD))

    def test_many_policies(self):
        many = [contents_of(f"2.999.3.{number}") for number in range(300)]
        partner = fuzz_policies.with_policies(PARTNER, *many)
        texts = tuple(map(dotted, sorted(many)))
        told = answer(texts[:200], True, [partner], [])
        self.assertEqual((told.verdict, told.certificate), (Verdict.UNKNOWN, 1))
        self.assertEqual((told.authority_policies, told.user_policies), (texts, texts[:200]))


class Mistakes(unittest.TestCase):
    def test_malformed_extensions_refuse_their_certificate(self):
        twice = changed(PARTNER, (SECOND, FIRST))
        for chain, index in (([twice, LEAF], 1), ([PARTNER, fuzz_policies.with_policies(LEAF)], 2)):
            for explicit in (True, False):
                with self.subTest(index), self.assertRaises(Fault) as caught:
                    answer(None, explicit, chain)
                fault = caught.exception
                self.assertEqual((fault.text, fault.index, fault.number, fault.name), (Text.CERTIFICATES, index, 29, "ExtensionValue"))
                self.assertGreater(fault.offset, 0)
        loaded, = x509check.load(twice)
        with self.assertRaises(Fault) as caught:
            validate_with_policies(ROOT, [loaded, LEAF], LISTS, DECEMBER, initial_policies=None, require_explicit_policy=False, fingerprints=[])
        self.assertIs(caught.exception.origin, loaded)
        with self.assertRaises(Fault) as caught:
            answer(chain=[twice, LEAF], statements=[b"\x05\x00"])
        self.assertIs(caught.exception.text, Text.STATEMENTS)
        with self.assertRaises(Fault) as caught:
            answer(chain=[twice, LEAF], statements=[b"\x05\x00"], ignore_unreadable=True)
        self.assertIs(caught.exception.text, Text.CERTIFICATES)

    def test_object_identifiers_that_are_none(self):
        for text in ("", "2", "2.", ".2", "3.1", "1.40", "0.40.1", "02.5", "2.05", "2.5.029", "2.5.+29", "2.5.-1", "2.5. 29", "2.5.29\n", "2.5..29",
                     "2.5.\u0662", "2.5.\u00b2", "2.5.1_0", "any", "2.5.29.32.x", "2.5." + "9" * 1100, "2.5." + "9" * 100_000):
            with self.subTest(text[:20]), self.assertRaises(ValueError) as caught:
                answer([FIRST, text], explicit=False)
            self.assertIn(f"initial_policies: {text!r}", str(caught.exception))

    def test_what_is_no_list_of_texts(self):
        for policies in (FIRST, b"2.999.1.1", {FIRST: 1}, 7, True, object()):
            with self.subTest(policies), self.assertRaises(TypeError) as caught:
                answer(policies)
            self.assertIn("initial_policies", str(caught.exception))
        for one in (None, 2.999, 7, b"2.999.1.1", [FIRST], ("2", "999")):
            with self.subTest(one), self.assertRaises(TypeError) as caught:
                answer([FIRST, one])
            self.assertIn("initial_policies", str(caught.exception))

    def test_flags(self):
        for flag in ("require_explicit_policy", "inhibit_policy_mapping", "inhibit_any_policy"):
            for no_flag in (None, 0, 1, "yes"):
                words = {"initial_policies": [FIRST], "require_explicit_policy": True, "fingerprints": GOOD, flag: no_flag}
                with self.subTest(flag), self.assertRaises(TypeError) as caught:
                    validate_with_policies(ROOT, [PARTNER, LEAF], LISTS, DECEMBER, **words)
                self.assertIn(flag, str(caught.exception))

    def test_what_is_asked_of_policies_has_to_be_said(self):
        for words in ({}, dict(initial_policies=None), dict(require_explicit_policy=False)):
            with self.subTest(words), self.assertRaises(TypeError):
                validate_with_policies(ROOT, [PARTNER, LEAF], LISTS, DECEMBER, fingerprints=GOOD, **words)

    def test_nobody_is_asked_if_an_argument_is_wrong(self):
        def judge(it):
            self.fail("the judge is asked")
        for words in (dict(policies=["2"]), dict(explicit=1), dict(target=PARTNER)):
            with self.subTest(words), self.assertRaises((TypeError, ValueError)):
                answer(**{"verify": judge, **words})


class Library(unittest.TestCase):
    """What the library could answer if it were another one."""

    def told(self, verdict, reason, certificate, authority, user, lengths, octets, octet_count=None):
        """The result, if the library answers this and writes it."""
        def call(query, inputs, statements, count, prints, print_count, lengths_room, room, octets_room, octet_room):
            for at, length in enumerate(lengths[:room]):
                lengths_room[at] = length
            octets_room[:len(octets)] = octets
            numbers = _library.VerdictAnswer(verdict, reason, certificate)
            return _library.PoliciesAnswer(numbers, authority, user, len(octets) if octet_count is None else octet_count)
        library = mock.Mock(wraps=_library.library(), x509check_validate_with_policies=call)
        with mock.patch.object(_query, "library", return_value=library):
            return answer([FIRST])

    def test_answers_that_are_none(self):
        one = contents_of(FIRST)
        self.assertEqual(self.told(1, 0, 0, 1, 1, [4, 4], one + one), valid((FIRST,), (FIRST,)))
        self.assertEqual(self.told(4, 0, 2, 1, 0, [4], one), ResultWithPolicies(Verdict.UNKNOWN, 2, None, authority_policies=(FIRST,), user_policies=()))
        for error, words in (
            (RuntimeError, (0, 0, 0, 0, 0, [], b"")), (RuntimeError, (6, 0, 0, 0, 0, [], b"")), (ValueError, (2, 20, 1, 0, 0, [], b"")),
            (RuntimeError, (2, 17, 1, 1, 0, [4], one)), (RuntimeError, (2, 17, 1, 0, 1, [4], one)),
            (RuntimeError, (1, 0, 0, 1, 0, [3], one)), (ValueError, (1, 0, 0, 1, 1, [4], one)), (RuntimeError, (1, 0, 0, 0, 0, [], one)),
            (RuntimeError, (1, 0, 0, 2, 0, [4, 4], one + one)), (RuntimeError, (1, 0, 0, 0, 2, [4, 4], one + one)),
            (RuntimeError, (1, 0, 0, 2, 0, [4, 4], contents_of(SECOND) + one)),
            (ValueError, (1, 0, 0, 1, 0, [0], b"")), (ValueError, (1, 0, 0, 1, 0, [1], b"\x88")), (ValueError, (1, 0, 0, 1, 0, [2], b"\x80\x01")),
        ):
            with self.subTest(words), self.assertRaises(error):
                self.told(*words)

    def test_a_policy_that_is_not_written_out_is_named(self):
        long = b"\x88" * 600 + b"\x01"
        with self.assertRaises(ValueError) as caught:
            answer(None, False, [fuzz_policies.with_policies(PARTNER, contents_of(FIRST), long)], [])
        self.assertIn(f"the policy {'88' * 32}.. (601 octets) cannot be written", str(caught.exception))

    def test_more_policies_than_there_is_room_for_at_first(self):
        for rooms, asked in (((2, 8), 1), ((1, 8), 2), ((2, 7), 2), ((1, 1), 2)):
            counting = mock.Mock(wraps=_library.library())
            with mock.patch.object(_query, "library", return_value=counting), \
                    mock.patch.multiple(_query, _POLICY_ROOM=rooms[0], _POLICY_OCTETS=rooms[1]):
                self.assertEqual(answer([FIRST]), valid((FIRST,), (FIRST,)))
            calls = [name for name, _, _ in counting.mock_calls]
            self.assertEqual(calls, ["x509check_validate_with_policies"] * asked, rooms)

    def test_inputs_are_handed_on_each_in_its_place(self):
        seen = []

        def call(query, inputs, *others):
            texts = [inputs.initial_policies[at].octets for at in range(inputs.initial_policy_count)]
            seen.append((texts, inputs.require_explicit_policy, inputs.inhibit_policy_mapping, inputs.inhibit_any_policy))
            return _library.PoliciesAnswer(_library.VerdictAnswer(1))
        library = mock.Mock(wraps=_library.library(), x509check_validate_with_policies=call)
        with mock.patch.object(_query, "library", return_value=library):
            for explicit, mapping, any_policy in ((True, False, False), (False, True, False), (False, False, True)):
                answer([FIRST, OWN], explicit, inhibit_policy_mapping=mapping, inhibit_any_policy=any_policy)
        both = policies_of("policies", [FIRST, OWN])
        self.assertEqual(seen, [(both, 1, 0, 0), (both, 0, 1, 0), (both, 0, 0, 1)])

    def test_want_of_memory(self):
        refused = _library.PoliciesAnswer(_library.VerdictAnswer(_library.REFUSED, 0, 0, _library.Refusal(0, 33)))
        library = mock.Mock(wraps=_library.library(), x509check_validate_with_policies=mock.Mock(side_effect=[refused]))
        with mock.patch.object(_query, "library", return_value=library), self.assertRaises(MemoryError):
            answer([FIRST])


class Fuzzing(unittest.TestCase):
    def test_spoilt_identifiers(self):
        ends, complaints = fuzz_policies.run(60, 7, 1500)
        self.assertEqual(complaints, [])
        for end in fuzz_policies.ENDS:
            self.assertGreater(ends[end], 3, end)


if __name__ == "__main__":
    unittest.main()
