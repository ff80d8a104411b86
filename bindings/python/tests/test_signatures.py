"""Tests of the judge of signatures and of bin/verdicts, over certificates that OpenSSL's command line signs.

Each engine that is there is asked, and all have to answer the same.
"""

import base64
import contextlib
import dataclasses
import functools
import importlib.machinery
import importlib.util
import io
import json
import os
import subprocess
import sys
import tempfile
import time
import types
import unittest
from typing import Dict, List, Optional, Sequence
from unittest import mock

import fuzz_signatures
from x509check import SignatureQuestion, _crypto_package, _curves, _der, _libcrypto, signatures
from x509check.signatures import BadLine, JudgeFailed, JudgeMissing, Judgement, Opinion, Policy, judge, judge_all, opinions, read_printed

from .signed_by_openssl import CERTIFICATES, CURVES, Signed, question_of, self_signed

GOOD, WRONG, NOT_SERVED, REFUSED = Judgement.GOOD, Judgement.WRONG, Judgement.NOT_SERVED, Judgement.REFUSED
TOP = os.path.join(os.path.dirname(os.path.realpath(__file__)), "..", "..", "..")
EXAMPLES = os.path.join(TOP, "examples")
AUTHORITY = os.path.join(EXAMPLES, "authority")
VERDICTS = os.path.join(TOP, "bin", "verdicts")
ENGINES = [engine.NAME for engine in (_crypto_package, _libcrypto) if engine.loaded() is not None]
LAX = Policy(digests=signatures.SERVED_DIGESTS, minimum_rsa_bits=512, maximum_rsa_bits=16384)
SEQUENCE, OID, NULL = _der.SEQUENCE, _der.OBJECT_IDENTIFIER, b"\x05\x00"


@functools.lru_cache(maxsize=None)
def signed() -> Signed:
    return Signed()


def about(name: str) -> SignatureQuestion:
    return signed().made[name].question


def identifier(oid: str, *parameters: bytes) -> bytes:
    return _der.encoded(SEQUENCE, _der.encoded(OID, _der.contents_of(oid)), *parameters)


SHA = {"sha1": "1.3.14.3.2.26", "sha256": "2.16.840.1.101.3.4.2.1", "sha384": "2.16.840.1.101.3.4.2.2", "md5": "1.2.840.113549.2.5"}
MGF1, RSA_PSS, RSA, EC = "1.2.840.113549.1.1.8", "1.2.840.113549.1.1.10", "1.2.840.113549.1.1.1", "1.2.840.10045.2.1"


def number(value: int) -> bytes:
    return _der.encoded(_der.INTEGER, value.to_bytes(value.bit_length() // 8 + 1, "big", signed=True))


def pss(digest: str = "", mask: str = "", salt: Optional[int] = None, trailer: Optional[int] = None, end: bytes = NULL) -> bytes:
    """RSASSA-PSS-params."""
    parts = [
        _der.encoded(0xA0, identifier(SHA[digest], end)) if digest else b"",
        _der.encoded(0xA1, identifier(MGF1, identifier(SHA[mask], end))) if mask else b"",
        *(_der.encoded(tag, number(value)) for tag, value in ((0xA2, salt), (0xA3, trailer)) if value is not None),
    ]
    return _der.encoded(SEQUENCE, *parts)


def info(algorithm: bytes, octets: bytes) -> bytes:
    return _der.encoded(SEQUENCE, algorithm, _der.encoded(_der.BIT_STRING, b"\0", octets))


def key_octets(key: bytes) -> bytes:
    return _der.value(key).members()[1].whole_octets()


class Judged(unittest.TestCase):
    def expect(self, wanted: Judgement, question: SignatureQuestion, policy: Policy = LAX, message: str = "") -> None:
        for engine in ENGINES:
            opinion, = opinions([question], policy, engine=engine)
            self.assertIs(opinion.judgement, wanted, f"{message} by {engine}: {opinion}")
            self.assertEqual(opinion.why == "", wanted is GOOD, opinion)
            self.assertEqual(opinion.refused_by != (), wanted is REFUSED, opinion)


class Algorithms(Judged):
    REFUSED = {
        "rsa sha1": ("digests",), "pss sha1": ("digests",), "pss mask sha1": ("digests",), "ecdsa sha1": ("digests",),
        "rsa1024 sha256": ("minimum_rsa_bits",), "rsa512 sha256": ("minimum_rsa_bits",), "pss1024": ("minimum_rsa_bits",),
        "rsa1024 sha1": ("digests", "minimum_rsa_bits"),
    }
    NOT_SERVED = {"rsa md5", "rsa sha512-256", "dsa", "explicit", "P-192", "sect283", "bp320"}

    def test_there_are_engines(self) -> None:
        self.assertIn("libcrypto", ENGINES)
        self.assertEqual("cryptography" in ENGINES, importlib.util.find_spec("cryptography") is not None)

    def test_what_openssl_signs(self) -> None:
        for name in CERTIFICATES:
            with self.subTest(name):
                unserved = name in self.NOT_SERVED
                self.expect(NOT_SERVED if unserved else GOOD, about(name))
                self.expect(NOT_SERVED if unserved else REFUSED if name in self.REFUSED else GOOD, about(name), Policy())
                if name in self.REFUSED:
                    self.assertEqual(opinions([about(name)])[0].refused_by, self.REFUSED[name])

    def test_forged_ones(self) -> None:
        for name in sorted(set(CERTIFICATES) - self.NOT_SERVED):
            question = about(name)
            signature, message = question.signature, question.message
            middle = len(signature) // 2
            forged = [
                *(dict(message=it) for it in (message + b"\0", message[:-1], b"", message[:40] + bytes([message[40] ^ 1]) + message[41:])),
                *(dict(signature=it) for it in (
                    b"", signature[:-1], signature + b"\0", b"\0" + signature, signature[:-1] + bytes([signature[-1] ^ 1]),
                    signature[:middle] + bytes([signature[middle] ^ 4]) + signature[middle + 1:], bytes(len(signature)))),
                dict(key=signed().keys[CERTIFICATES[name][0].split("-sha")[0] + "/other"]),
            ]
            for change in forged:
                with self.subTest(name, changed=list(change)):
                    self.expect(WRONG, dataclasses.replace(question, **change))

    def test_a_key_of_another_kind(self) -> None:
        """It cannot have made the signature."""
        for name in ("rsa sha256", "pss salt digest", "ecdsa sha256", "ed25519", "ed448"):
            own = signatures.read_key(about(name).key).kind
            for key in ("rsa2048", "P-256", "ed25519", "ed448"):
                if signatures.read_key(signed().keys[key]).kind is not own:
                    with self.subTest(name, key=key):
                        self.expect(WRONG, dataclasses.replace(about(name), key=signed().keys[key]))
        self.expect(WRONG, dataclasses.replace(about("P-384"), key=signed().keys["P-256"]))

    def test_the_questions_are_those_of_the_library(self) -> None:
        try:
            import x509check
            for made in signed().made.values():
                asked, = x509check.questions(made.certificate, [made.certificate], [])
                self.assertEqual(asked, made.question)
        except x509check.LibraryMissing as cause:
            self.skipTest(str(cause))


class Der(unittest.TestCase):
    """The reader of values is strict, and takes what it wrote."""

    def test_values(self) -> None:
        for contents in (b"", b"\0" * 127, b"\0" * 128, b"\0" * 255, b"\0" * 256, b"\0" * 70_000):
            whole = _der.encoded(4, contents)
            self.assertEqual(_der.value(whole), (4, contents, whole))
            self.assertEqual([it.whole for it in _der.values(whole * 3)], [whole] * 3)
            for octets in (whole[:-1], whole + b"\0", b""):
                with self.assertRaises(ValueError):
                    _der.value(octets)
        for octets in (b"\x04", b"\x04\x80", b"\x04\x81\x01\0", b"\x04\x81", b"\x04\x82\0\x80" + bytes(128), b"\x1f\x01\0", b"\x04\xff" + bytes(9)):
            with self.subTest(octets[:4]), self.assertRaises(ValueError):
                _der.values(octets)

    def test_members(self) -> None:
        whole = _der.encoded(SEQUENCE, NULL * 3)
        self.assertEqual(len(_der.value(whole).members()), 3)
        self.assertEqual(len(_der.value(whole).members(3)), 3)
        for call in (lambda: _der.value(whole).members(2), lambda: _der.value(NULL).members(), lambda: _der.value(whole).only_member(),
                     lambda: _der.value(b"\x30\0").only_member(), lambda: _der.value(whole).as_a(_der.SET)):
            with self.assertRaises(ValueError):
                call()

    def test_numbers_and_bits(self) -> None:
        for value in (0, 1, 127, 128, 255, 256, 1 << 64):
            self.assertEqual(_der.value(number(value)).unsigned(), value)
        for octets in (b"\x02\0", b"\x02\x01\x80", b"\x02\x02\0\x7f", b"\x02\x02\0\0", b"\x04\x01\x01"):
            with self.subTest(octets), self.assertRaises(ValueError):
                _der.value(octets).unsigned()
        self.assertEqual(_der.value(b"\x03\x02\0\x05").whole_octets(), b"\x05")
        for octets in (b"\x03\0", b"\x03\x01\x01", b"\x03\x02\x01\x02", b"\x04\x01\0"):
            with self.subTest(octets), self.assertRaises(ValueError):
                _der.value(octets).whole_octets()

    def test_identifiers(self) -> None:
        for text in ("0.0", "1.39", "2.5.29.17", "2.999.3", "1.2.840.113549.1.1.11", f"2.25.{(1 << 128) - 1}"):
            self.assertEqual(_der.dotted(_der.contents_of(text)), text)
        for contents in (b"", b"\x80", b"\x2a\x80\x01", b"\x2a\x81", b"\x2a" + b"\x81" * 600 + b"\x01"):
            with self.subTest(contents[:4]), self.assertRaises(ValueError):
                _der.dotted(contents)
        for text in ("", "1", "1.40", "3.1", "1.-2", "1.2.", "1.2.x", "1.\u0663"):
            with self.subTest(text), self.assertRaises(ValueError):
                _der.contents_of(text)


class Parameters(Judged):
    """Of the algorithm: those that the standards let, and others."""

    def under(self, name: str, algorithm: bytes, wanted: Judgement, policy: Policy = LAX) -> None:
        with self.subTest(name, algorithm=algorithm.hex()):
            self.expect(wanted, dataclasses.replace(about(name), algorithm=algorithm), policy)

    def test_null(self) -> None:
        sha256 = "1.2.840.113549.1.1.11"
        self.under("rsa sha256", identifier(sha256, NULL), GOOD)
        self.under("rsa sha256", identifier(sha256), GOOD)
        for parameters in ((b"\x05\x01\x00",), (NULL, NULL), (b"\x30\x00",), (b"\x05\x81\x00",), (b"\x04\x00",)):
            self.under("rsa sha256", identifier(sha256, *parameters), NOT_SERVED)
        for name, oid in (("ecdsa sha256", "1.2.840.10045.4.3.2"), ("ed25519", "1.3.101.112"), ("ed448", "1.3.101.113")):
            self.under(name, identifier(oid), GOOD)
            self.under(name, identifier(oid, NULL), NOT_SERVED)

    def test_what_is_no_identifier(self) -> None:
        for octets in (b"", b"\x30", b"\x30\x00", b"\x30\x80\x00\x00", b"\x05\x00", b"\x30\x02\x06\x00", b"\x30\x03\x06\x01\x80",
                       identifier("1.2.3") + b"\0", b"\x31" + about("ed25519").algorithm[1:], b"\x30\x05\x04\x03\x2b\x65\x70"):
            self.under("ed25519", octets, NOT_SERVED)

    def test_pss(self) -> None:
        rows = (
            ("pss salt digest", pss("sha256", "sha256", 32), GOOD), ("pss salt digest", pss("sha256", "sha256", 32, 1), GOOD),
            ("pss salt digest", pss("sha256", "sha256", 32, end=b""), GOOD), ("pss salt 20", pss("sha256", "sha256"), GOOD),
            ("pss salt 20", pss("sha256", "sha256", 20), GOOD), ("pss mask sha1", pss("sha256", "", 32), GOOD),
            ("pss mask sha1", pss("sha256", "sha1", 32), GOOD), ("pss sha1", pss(), GOOD), ("pss sha1", pss("sha1", "sha1", 20, 1), GOOD),
            ("pss salt digest", pss("sha256", "sha256", 31), WRONG), ("pss salt digest", pss("sha256", "sha256", 33), WRONG),
            ("pss salt digest", pss("sha256", "sha384", 32), WRONG), ("pss salt digest", pss("sha384", "sha256", 32), WRONG),
            ("pss salt max", pss("sha256", "sha256", 222), GOOD), ("pss salt max", pss("sha256", "sha256", 223), WRONG),
            ("pss salt max", pss("sha256", "sha256", 1 << 70), WRONG), ("pss salt 0", pss("sha256", "sha256", 0), GOOD),
            ("pss salt digest", pss("sha256", "sha256", -1), NOT_SERVED), ("pss salt digest", pss("sha256", "sha256", 32, 2), NOT_SERVED),
            ("pss salt digest", pss("md5", "md5", 32), NOT_SERVED), ("pss salt digest", NULL, NOT_SERVED),
            ("pss salt digest", pss("sha256", "sha256", 32, end=b"\x30\x00"), NOT_SERVED),
            ("pss salt digest", pss("sha256")[:2] + pss("sha256")[2:] * 2, NOT_SERVED),
            ("pss salt digest", _der.encoded(SEQUENCE, pss("", "sha256")[2:], pss("sha256")[2:]), NOT_SERVED),
            ("pss salt digest", _der.encoded(SEQUENCE, _der.encoded(0xA4, NULL)), NOT_SERVED),
            ("pss salt digest", _der.encoded(SEQUENCE, _der.encoded(0xA2)), NOT_SERVED),
            ("pss salt digest", _der.encoded(SEQUENCE, b"\xa2\x04\x02\x02\x00\x20"), NOT_SERVED),
            ("pss salt digest", _der.encoded(SEQUENCE, _der.encoded(0xA1, identifier(MGF1))), NOT_SERVED),
            ("pss salt digest", _der.encoded(SEQUENCE, _der.encoded(0xA1, identifier("1.2.3", identifier(SHA["sha1"])))), NOT_SERVED),
        )
        for name, parameters, wanted in rows:
            self.under(name, identifier(RSA_PSS, parameters), wanted)
        self.under("pss salt digest", identifier(RSA_PSS), NOT_SERVED)
        self.under("pss sha1", identifier(RSA_PSS, pss()), REFUSED, Policy())


class Keys(Judged):
    def under(self, name: str, key: bytes, wanted: Judgement, policy: Policy = LAX) -> None:
        with self.subTest(name, key=key[:60].hex()):
            self.expect(wanted, dataclasses.replace(about(name), key=key), policy)

    def test_keys_for_pss_alone(self) -> None:
        octets = key_octets(signed().keys["rsa2048"])
        for name, parameters, wanted in (
            ("pss salt digest", [], GOOD), ("rsa sha256", [], WRONG), ("rsa sha256", [pss("sha256", "sha256", 32)], WRONG),
            ("pss salt digest", [pss("sha256", "sha256", 32)], GOOD), ("pss salt max", [pss("sha256", "sha256", 32)], GOOD),
            ("pss salt 20", [pss("sha256", "sha256", 32)], WRONG), ("pss salt 20", [pss("sha256", "sha256")], GOOD),
            ("pss salt 0", [pss("sha256", "sha256")], WRONG), ("pss salt digest", [pss("sha256", "sha256", 33)], WRONG),
            ("pss sha384", [pss("sha256", "sha256", 32)], WRONG), ("pss mask sha1", [pss("sha256", "sha256", 32)], WRONG),
            ("pss mask sha1", [pss("sha256", "sha1", 32)], GOOD), ("pss salt digest", [pss()], WRONG), ("pss sha1", [pss()], GOOD),
            ("pss salt digest", [NULL], NOT_SERVED), ("pss salt digest", [pss("md5", "md5")], NOT_SERVED),
            ("pss salt digest", [pss("sha256", "sha256", 32, 2)], NOT_SERVED), ("pss salt digest", [pss(), pss()], NOT_SERVED),
        ):
            self.under(name, info(identifier(RSA_PSS, *parameters), octets), wanted)

    def test_rsa(self) -> None:
        key = signed().keys["rsa2048"]
        modulus, exponent = (it.unsigned() for it in _der.value(key_octets(key)).members())
        sound = identifier(RSA, NULL)

        def pair(*numbers: int) -> bytes:
            return _der.encoded(SEQUENCE, *map(number, numbers))

        self.under("rsa sha256", info(sound, pair(modulus, exponent)), GOOD)
        self.under("rsa sha256", info(sound, pair(modulus, exponent + 2)), WRONG)
        self.under("rsa sha256", info(sound, pair(modulus + 2, exponent)), WRONG)
        self.under("rsa sha256", info(sound, pair((1 << 16384) - 1, exponent)), WRONG)
        for octets in (pair(modulus), pair(modulus, exponent, 1), pair(modulus, 1), pair(modulus, 2), pair(modulus, -3), pair(-modulus, 3),
                       pair(modulus + 1, exponent), pair(modulus, (1 << 64) + 1), pair((1 << 16384) + 1, 3), pair((1 << 510) + 1, 3),
                       pair(0, 3), b"", pair(modulus, exponent) + b"\0", key_octets(key)[:-1], b"\x30\x00"):
            self.under("rsa sha256", info(sound, octets), NOT_SERVED)
        for algorithm in (identifier(RSA), identifier(RSA, b"\x30\x00"), identifier("1.2.840.113549.1.1.7", NULL), identifier("2.5.8.1.1", NULL)):
            self.under("rsa sha256", info(algorithm, key_octets(key)), NOT_SERVED)
        for octets in (b"", key + b"\0", key[:-1], b"\x30\x00", b"\x30\x82" + key[2:4] + key[4:-1] + b"\0\0"):
            self.under("rsa sha256", octets, NOT_SERVED)

    def test_keys_and_parameters_without_end(self) -> None:
        """They are refused in time that grows with their octets, and no number in them is written out."""
        many, octets = NULL * 1_000_000, key_octets(signed().keys["rsa2048"])
        huge = _der.encoded(SEQUENCE, _der.encoded(0xA2, _der.encoded(_der.INTEGER, b"\x7f" * 1_000_000)))
        arcs = _der.encoded(OID, b"\x2a" + b"\xff" * 1_000_000 + b"\x7f")
        begun = time.monotonic()
        for key in (_der.encoded(SEQUENCE, many), _der.encoded(SEQUENCE, arcs), info(_der.encoded(SEQUENCE, arcs), octets),
                    info(identifier(RSA, _der.encoded(SEQUENCE, many)), octets), info(identifier(RSA_PSS, _der.encoded(SEQUENCE, many)), octets),
                    info(identifier(RSA, NULL), _der.encoded(SEQUENCE, many)), info(identifier(EC, arcs), octets),
                    info(identifier(RSA, NULL), _der.encoded(SEQUENCE, _der.encoded(_der.INTEGER, b"\x7f" * 1_000_000), number(3)))):
            self.under("pss salt digest", key, NOT_SERVED)
        self.under("pss salt digest", info(identifier(RSA_PSS, huge), octets), WRONG)
        for algorithm, wanted in ((identifier(RSA_PSS, huge), WRONG), (identifier(RSA_PSS, _der.encoded(SEQUENCE, many)), NOT_SERVED),
                                  (_der.encoded(SEQUENCE, arcs), NOT_SERVED), (_der.encoded(SEQUENCE, many), NOT_SERVED)):
            self.expect(wanted, dataclasses.replace(about("pss salt digest"), algorithm=algorithm))
        self.expect(WRONG, dataclasses.replace(about("ecdsa sha256"), signature=_der.encoded(SEQUENCE, many)))
        self.assertLess(time.monotonic() - begun, 20)

    def test_unused_bits(self) -> None:
        for name in ("rsa sha256", "ecdsa sha256", "ed25519"):
            key = _der.value(about(name).key).members()
            for bits in (b"\x01" + key[1].contents[1:], b"", b"\0", b"\x08" + key[1].contents[1:]):
                self.under(name, _der.encoded(SEQUENCE, key[0].whole, _der.encoded(_der.BIT_STRING, bits)), NOT_SERVED)

    def test_points(self) -> None:
        algorithm = _der.value(about("ecdsa sha256").key).members()[0].whole
        point = key_octets(about("ecdsa sha256").key)
        across, up = point[1:33], point[33:]
        sign = up[-1] & 1
        compressed = bytes([2 + sign]) + across
        self.under("ecdsa sha256", info(algorithm, compressed), GOOD)
        self.under("ecdsa sha256", info(algorithm, bytes([3 - sign]) + across), WRONG)
        for octets in (b"", b"\0", b"\4" + across, point + b"\0", point[:-1], bytes([6 + sign]) + point[1:], b"\4" + up + across,
                       b"\4" + bytes(64), b"\4" + b"\xff" * 64, compressed + b"\0"):
            self.under("ecdsa sha256", info(algorithm, octets), NOT_SERVED)
        no_curve = _der.encoded(OID, b"\x2b\x81\x04\x00\x7f")
        for algorithm in (identifier(EC), identifier(EC, NULL), identifier(EC, no_curve), identifier(EC, b"\x06\x00")):
            self.under("ecdsa sha256", info(algorithm, point), NOT_SERVED)

    def test_the_curves_are_those_of_openssl(self) -> None:
        for name, curve in CURVES.items():
            words = ["openssl", "ecparam", "-name", curve, "-param_enc", "explicit", "-outform", "DER"]
            _, field, equation, *_ = _der.value(subprocess.run(words, stdout=subprocess.PIPE, check=True).stdout).members()
            prime = field.members()[1].unsigned()
            a, b = (int.from_bytes(it.contents, "big") for it in equation.members()[:2])
            ours = _curves._EQUATIONS[name if name.startswith(("P", "s")) else curve]
            self.assertEqual((ours[0], ours[1] % prime, ours[2]), (prime, a, b), name)

    def test_edwards(self) -> None:
        for name, oid in (("ed25519", "1.3.101.112"), ("ed448", "1.3.101.113")):
            octets = key_octets(about(name).key)
            self.under(name, info(identifier(oid, NULL), octets), NOT_SERVED)
            for other in (b"", octets[:-1], octets + b"\0"):
                self.under(name, info(identifier(oid), other), NOT_SERVED)


# The orders of the groups, for signatures that lie beside the right ones.
ORDER = int("ffffffff00000000ffffffffffffffffbce6faada7179e84f3b9cac2fc632551", 16)
ORDER_25519 = (1 << 252) + 27742317777372353535851937790883648493


class Signatures(Judged):
    def signed_by(self, name: str, signature: bytes, wanted: Judgement) -> None:
        with self.subTest(name, signature=signature[:20].hex()):
            self.expect(wanted, dataclasses.replace(about(name), signature=signature))

    def test_ecdsa(self) -> None:
        r, s = (it.unsigned() for it in _der.value(about("ecdsa sha256").signature).members())

        def pair(*numbers: int) -> bytes:
            return _der.encoded(SEQUENCE, *map(number, numbers))

        for octets, wanted in ((pair(r, s), GOOD), (pair(r, ORDER - s), GOOD), (pair(s, r), WRONG), (pair(0, s), WRONG), (pair(r, 0), WRONG),
                               (pair(r + ORDER, s), WRONG), (pair(r, s + ORDER), WRONG), (pair(-r, s), WRONG), (pair(r), WRONG),
                               (pair(r, s, s), WRONG), (pair(r, s) + b"\0", WRONG), (b"\x30\x81" + pair(r, s)[1:], WRONG),
                               (pair(ORDER, s), WRONG), (pair(r, ORDER), WRONG), (pair(1 << 4000, s), WRONG),
                               (b"\x30\x80" + pair(r, s)[2:] + b"\0\0", WRONG)):
            self.signed_by("ecdsa sha256", octets, wanted)

    def test_rsa(self) -> None:
        modulus = _der.value(key_octets(about("rsa sha256").key)).members()[0].unsigned()
        signature = about("rsa sha256").signature
        beside = int.from_bytes(signature, "big") + modulus
        self.signed_by("rsa sha256", beside.to_bytes(257, "big"), WRONG)
        if beside < 1 << 2048:
            self.signed_by("rsa sha256", beside.to_bytes(256, "big"), WRONG)
        self.signed_by("rsa sha256", b"\xff" * 256, WRONG)

    def test_ed25519(self) -> None:
        signature = about("ed25519").signature
        beside = int.from_bytes(signature[32:], "little") + ORDER_25519
        self.signed_by("ed25519", signature[:32] + beside.to_bytes(32, "little"), WRONG)

    def test_digests_that_do_not_fit(self) -> None:
        """A modulus of 512 bits has room for no SHA-512, by either padding."""
        sha512 = about("rsa sha512").algorithm
        self.expect(WRONG, dataclasses.replace(about("rsa512 sha256"), algorithm=sha512))
        self.expect(WRONG, dataclasses.replace(about("rsa512 sha256"), algorithm=about("pss salt digest").algorithm))


class Policies(unittest.TestCase):
    def test_fields(self) -> None:
        self.assertEqual(Policy().digests, {"sha224", "sha256", "sha384", "sha512"})
        self.assertEqual(Policy().minimum_rsa_bits, 2048)
        for error, words in (
            (ValueError, dict(digests={"SHA-256"})), (ValueError, dict(digests={"md5"})), (TypeError, dict(digests="sha256")),
            (TypeError, dict(digests=["sha256"])), (TypeError, dict(digests=None)), (ValueError, dict(curves={"P256"})),
            (TypeError, dict(curves="P-256")), (ValueError, dict(minimum_rsa_bits=0)), (ValueError, dict(minimum_rsa_bits=511)),
            (ValueError, dict(minimum_rsa_bits=16385)), (TypeError, dict(minimum_rsa_bits=True)), (TypeError, dict(minimum_rsa_bits=2048.0)),
            (TypeError, dict(minimum_rsa_bits="2048")), (ValueError, dict(minimum_rsa_bits=-2048)),
        ):
            with self.subTest(words), self.assertRaises(error):
                Policy(**words)
            with self.subTest(words), self.assertRaises(error):
                dataclasses.replace(Policy(), **words)

    def test_a_set_that_changes_later_changes_no_policy(self) -> None:
        digests = {"sha256"}
        policy = Policy(digests=digests)
        digests.add("sha1")
        self.assertEqual(policy.digests, {"sha256"})
        with self.assertRaises(dataclasses.FrozenInstanceError):
            policy.minimum_rsa_bits = 512  # type: ignore[misc]

    def test_each_field_refuses(self) -> None:
        for name, policy in (
            ("rsa sha256", Policy(minimum_rsa_bits=2049)), ("rsa sha256", Policy(digests={"sha384"})), ("rsa sha256", Policy(digests=set())),
            ("pss mask sha512", Policy(digests={"sha256"})), ("pss mask sha512", Policy(digests={"sha512"})),
            ("ecdsa sha256", Policy(curves=signatures.SERVED_CURVES - {"P-256"})), ("ed25519", Policy(curves={"P-256"})),
            ("ed448", Policy(curves={"Ed25519"})), ("ecdsa sha256", Policy(digests={"sha512"})), ("rsa sha256", Policy(maximum_rsa_bits=2047)),
        ):
            with self.subTest(name, policy=policy):
                self.assertIs(judge(about(name), policy), REFUSED)
                # It is refused whoever made it, and whatever it is.
                self.assertIs(judge(dataclasses.replace(about(name), message=b"", signature=b""), policy), REFUSED)
        self.assertIs(judge(about("rsa sha256"), Policy(minimum_rsa_bits=2048, digests={"sha256"}, curves=set())), GOOD)

    def test_what_is_not_served_is_never_refused(self) -> None:
        nothing = Policy(digests=set(), curves=set(), minimum_rsa_bits=16384)
        for name in sorted(Algorithms.NOT_SERVED):
            self.assertIs(judge(about(name), nothing), NOT_SERVED, name)


class Callers(unittest.TestCase):
    """Mistakes of a caller end in an exception, and no question answers for another."""

    def test_no_truth(self) -> None:
        for it in (*Judgement, Opinion(GOOD), Opinion(WRONG, "why")):
            with self.subTest(it), self.assertRaises(TypeError):
                bool(it)

    def test_texts_that_are_no_octets(self) -> None:
        for field in ("algorithm", "key", "message", "signature"):
            for text in ("text", 5, None, [1], 10**9):
                for engine in ENGINES:
                    with self.subTest(field, text=text), self.assertRaises(TypeError):
                        judge(dataclasses.replace(about("ed25519"), **{field: text}), engine=engine)
            with self.assertRaises((TypeError, AttributeError)):
                judge(about("ed25519").message)  # type: ignore[arg-type]

    def test_other_forms_of_octets(self) -> None:
        question = about("ed25519")
        for form in (bytearray, memoryview):
            texts = {field: form(getattr(question, field)) for field in ("algorithm", "key", "message", "signature")}
            self.assertIs(judge(dataclasses.replace(question, **texts)), GOOD)

    def test_a_fingerprint_answers_for_nothing(self) -> None:
        good, other = about("ed25519"), about("ecdsa sha256")
        forged = dataclasses.replace(good, message=other.message)
        self.assertEqual(forged.fingerprint, good.fingerprint)
        self.assertEqual(judge_all([good, forged, good, forged]), [GOOD, WRONG, GOOD, WRONG])
        self.assertEqual(judge_all([forged, good]), [WRONG, GOOD])
        self.assertIs(judge(types.SimpleNamespace(**{name: getattr(good, name) for name in good.__dict__ if name != "fingerprint"})), GOOD)

    def test_each_question_is_looked_at_once(self) -> None:
        asked = [about("ed25519"), about("ecdsa sha256")] * 3
        asked += [dataclasses.replace(it, fingerprint=b"") for it in asked]
        with mock.patch.object(_libcrypto, "verify", wraps=_libcrypto.verify) as verify:
            self.assertEqual(judge_all(asked, engine="libcrypto"), [GOOD] * 12)
        self.assertEqual(verify.call_count, 2)

    def test_only_true_is_good(self) -> None:
        for answer in (1, "yes", None, object()):
            with self.subTest(answer), mock.patch.object(_libcrypto, "verify", return_value=answer):
                self.assertIs(judge(about("ed25519"), engine="libcrypto"), WRONG)

    def test_other_arguments(self) -> None:
        for words in (dict(engine="openssl"), dict(engine="")):
            with self.assertRaises(ValueError):
                judge(about("ed25519"), **words)
        for policy in (None, "lax", Policy):
            with self.assertRaises(TypeError):
                judge(about("ed25519"), policy)  # type: ignore[arg-type]
        self.assertEqual(judge_all([]), [])
        self.assertEqual(judge_all(iter([about("ed25519")])), [GOOD])

    def test_no_engine(self) -> None:
        with mock.patch.object(_crypto_package, "loaded", return_value=None):
            self.assertIs(judge(about("ed25519")), GOOD)
            with self.assertRaises(JudgeMissing):
                judge(about("ed25519"), engine="cryptography")
            with mock.patch.object(_libcrypto, "loaded", return_value=None):
                for name in ("ed25519", "rsa md5"):
                    with self.assertRaises(JudgeMissing):
                        judge(about(name))

    def test_libraries_that_are_none(self) -> None:
        for name in ("libnotthere.so", "libc.so.6", VERDICTS):
            self.assertIsNone(_libcrypto._opened(name))

    def test_the_queue_of_errors_is_left_empty(self) -> None:
        library = _libcrypto.loaded()
        for name in ("rsa sha256", "ecdsa sha256", "ed25519", "pss key"):
            for change in (dict(), dict(signature=about(name).signature[::-1]), dict(key=about(name).key[:-1] + b"\0")):
                judge(dataclasses.replace(about(name), **change), engine="libcrypto")
                self.assertEqual(library.ERR_get_error(), 0)

    def test_of_libcrypto_only_1_is_good(self) -> None:
        """And only 0 is wrong: whatever else fails says nothing of the signature."""
        for call, answers, wanted in (("EVP_DigestVerify", (0,), WRONG), ("EVP_DigestVerify", (-1, -2, 2), None),
                                      ("EVP_DigestVerifyInit_ex", (0, -1, 2), None), ("EVP_PKEY_CTX_ctrl_str", (0, -1, -2, 2), None),
                                      ("d2i_PUBKEY", (None,), None)):
            for answer in answers:
                library = mock.Mock(wraps=_libcrypto.loaded())
                setattr(library, call, mock.Mock(return_value=answer))
                with self.subTest(call, answer=answer), mock.patch.object(_libcrypto, "loaded", return_value=library):
                    if wanted is None:
                        with self.assertRaises(JudgeFailed):
                            judge(about("pss salt digest"), engine="libcrypto")
                    else:
                        self.assertIs(judge(about("pss salt digest"), engine="libcrypto"), wanted)
                    getattr(library, call).assert_called()

    def test_what_fails_within_a_verification_is_no_judgement(self) -> None:
        for errors, kind in (([0x06000000 | 0xC0100], MemoryError), ([4 << 23 | 104, 57 << 23 | 0xC0100], MemoryError),
                             ([3 << 23 | 100], JudgeFailed), ([6 << 23 | 134], JudgeFailed), ([0x80000000 | 12], JudgeFailed)):
            library = mock.Mock(wraps=_libcrypto.loaded())
            library.EVP_DigestVerify = mock.Mock(return_value=0)
            library.ERR_get_error = mock.Mock(side_effect=[*errors, 0, 0, 0])
            with self.subTest(errors), mock.patch.object(_libcrypto, "loaded", return_value=library), self.assertRaises(kind):
                judge(about("ed25519"), engine="libcrypto")

    def test_what_the_package_does_not_take_is_no_judgement(self) -> None:
        package = _crypto_package.loaded()
        if package is None:
            self.skipTest("the package cryptography is missing")
        exceptions, hashes, _, ec, padding = package
        for cause in (ValueError("no"), exceptions.UnsupportedAlgorithm("no")):
            for key in (mock.Mock(side_effect=cause), mock.Mock(return_value=mock.Mock(verify=mock.Mock(side_effect=cause)))):
                serialization = mock.Mock(load_der_public_key=key)
                with mock.patch.object(_crypto_package, "loaded", return_value=(exceptions, hashes, serialization, ec, padding)), \
                        self.assertRaises(JudgeFailed):
                    judge(about("ecdsa sha256"), engine="cryptography")

    def test_what_is_wrong_is_looked_at_twice(self) -> None:
        with mock.patch.object(_libcrypto, "verify", side_effect=[False, True]):
            self.assertIs(judge(about("ed25519"), engine="libcrypto"), GOOD)
        with mock.patch.object(_libcrypto, "verify", side_effect=[False, MemoryError]), self.assertRaises(MemoryError):
            judge(about("ed25519"), engine="libcrypto")

    def test_the_library_of_x509check_is_not_needed(self) -> None:
        code = ("import sys; from x509check import signatures, _library; from tests.signed_by_openssl import question_of\n"
                "texts = [bytes.fromhex(word) for word in sys.argv[1:]]\n"
                "assert signatures.judge(question_of(*texts)) is signatures.Judgement.GOOD\n"
                "assert _library.library.cache_info().currsize == 0")
        texts = [getattr(about("ed25519"), name).hex() for name in ("algorithm", "key", "message", "signature")]
        subprocess.run([sys.executable, "-c", code, *texts], check=True, cwd=os.path.join(TOP, "bindings", "python"),
                       env={**os.environ, "X509CHECK_LIBRARY": os.devnull})


def line_of(question: SignatureQuestion, words: str) -> str:
    texts = " ".join(f"{name}={getattr(question, name).hex()}" for name in ("algorithm", "key", "message", "signature"))
    return f"{question.fingerprint.hex()} {words} {texts}"


class Lines(unittest.TestCase):
    def test_of_each_kind(self) -> None:
        question = about("ed25519")
        for kind, words in (("cert", "certificate"), ("crl", "crl"), ("ocsp", "response")):
            self.assertEqual(read_printed(kind, [line_of(question, f"{words} issuer")]), [(question, f"{words} issuer")])
        words = ["response issuer", *(f"{it.format(n)}" for n in range(1, 12) for it in ("certificate {} issuer", "response certificate {}"))]
        asked = read_printed("ocsp", [line_of(question, it) for it in words])
        self.assertEqual([it.words for it in asked], words)
        self.assertEqual([it.is_own for it in asked], [True] + [False, True] * 11)
        self.assertEqual(asked[2].line, f"{question.fingerprint.hex()} response certificate 1")
        empty = question_of(b"a", b"k", b"m", b"")
        self.assertEqual(read_printed("cert", [line_of(empty, "certificate issuer")])[0].question, empty)

    def test_others(self) -> None:
        line = line_of(about("ed25519"), "certificate issuer")
        other = line_of(about("ecdsa sha256"), "certificate issuer")
        fingerprint, _, rest = line.partition(" ")
        rows: List[Sequence[str]] = [
            [], [""], [line, line], [" " + line], [line + " "], [line + "\n"], [line + " more=00"], [line[:-1]], [line[:-2]], [line.upper()],
            [line.replace("key=", "key = ")], [line.replace("algorithm=", "key=")], [line.replace(" signature=", " signature=00")],
            [line.replace("certificate", "crl", 1)], [line.replace("issuer ", "")], [line.replace(" issuer", "  issuer")], [rest],
            [f"{'0' * 64} {rest}"], [f"{other.partition(' ')[0]} {rest}"], [f"{fingerprint[:-2]} {rest}"], [f"{fingerprint}00 {rest}"],
            [line.replace("message=", "message=_")], [line.replace("message=30", "message=\u0663\u0660")], [fingerprint], ["5 bad line"],
            [line_of(question_of(b"", b"k", b"m", b"s"), "certificate issuer")],
        ]
        for lines in rows:
            with self.subTest(lines), self.assertRaises(BadLine):
                read_printed("cert", lines)
        own, first, second = (line_of(about("ed25519"), it) for it in ("response issuer", "certificate 1 issuer", "response certificate 1"))
        for lines in ([], [own, first], [own, second, first], [first, second], [own, first, second, own], [own, first, second, first, second]):
            with self.assertRaises(BadLine):
                read_printed("ocsp", lines)
        with self.assertRaises(ValueError):
            read_printed("key", [line])


# A stand-in for the program: it prints what the file ANSWERS has for the contents of ISSUER and FILE, by their hexadecimal digits.
STAND_IN = """#!%s
import json, sys
def answer(words):
    answers = json.load(open(%r))
    return answers.get(" ".join(words), [5, ["bad line"]])
_, _, parts, _, issuer, _, kind, file = sys.argv
read = lambda name: open(name, "rb").read().hex()
status, lines = answer([kind, read(issuer), read(file)])
lines = [line.replace("ISSUER", issuer).replace("FILE", file) for line in lines]
print("\\n".join(lines), file=sys.stderr if status else sys.stdout)
sys.exit(status)
"""


class WithStandIn(unittest.TestCase):
    def setUp(self) -> None:
        self.folder = tempfile.mkdtemp()
        self.addCleanup(subprocess.run, ["rm", "-rf", self.folder], check=True)
        self.program, self.answers = self.file("program"), {}
        self.put("program", (STAND_IN % (sys.executable, self.file("answers"))).encode())
        os.chmod(self.program, 0o755)

    def file(self, name: str) -> str:
        return os.path.join(self.folder, name)

    def put(self, name: str, octets: bytes) -> str:
        with open(self.file(name), "wb") as file:
            file.write(octets)
        return self.file(name)

    def answer(self, words: str, status: int, lines: Sequence[str]) -> None:
        self.answers[words] = [status, list(lines)]
        self.put("answers", json.dumps(self.answers).encode())

    def answer_about(self, kind: str, issuer: bytes, value: bytes, *lines: str) -> None:
        self.answer(f"{kind} {issuer.hex()} {value.hex()}", 0, lines)

    def certificate(self, name: str, words: str = "certificate issuer") -> bytes:
        """That of the name, about which the stand-in asks."""
        made = signed().made[name]
        self.answer_about("cert", made.certificate, made.certificate, line_of(made.question, words))
        return made.certificate


def script(path: str) -> types.ModuleType:
    """A script as a module."""
    loader = importlib.machinery.SourceFileLoader(os.path.basename(path).partition(".")[0], path)
    spec = importlib.util.spec_from_loader(loader.name, loader)
    assert spec is not None
    module = importlib.util.module_from_spec(spec)
    loader.exec_module(module)
    return module


class Verdicts(WithStandIn):
    def run_script(self, *words: str, program: Optional[str] = None) -> "subprocess.CompletedProcess[str]":
        out, err, module = io.StringIO(), io.StringIO(), script(VERDICTS)
        module.PROGRAM = program or self.program  # type: ignore[attr-defined]
        with contextlib.redirect_stdout(out), contextlib.redirect_stderr(err):
            try:
                status = module.main(list(words))
            except SystemExit as end:
                status = end.code
        return subprocess.CompletedProcess(words, status, out.getvalue(), err.getvalue())

    def test_as_a_process(self) -> None:
        root = self.put("root", self.certificate("ed25519"))
        for kind, status, out in (("cert", 0, f"{about('ed25519').fingerprint.hex()} certificate issuer\n"), ("crl", 3, "")):
            done = subprocess.run([sys.executable, VERDICTS, "--as", kind, root, root], stdout=subprocess.PIPE, stderr=subprocess.PIPE, text=True,
                                  check=False, env={**os.environ, "X509CHECK": self.program})
            self.assertEqual((done.returncode, done.stdout), (status, out), done.stderr)

    def expect(self, status: int, out: str, complaint: str, *words: str, program: Optional[str] = None) -> None:
        with self.subTest(words):
            done = self.run_script(*words, program=program)
            self.assertEqual((done.returncode, done.stdout), (status, out), done.stderr)
            self.assertIn(complaint, done.stderr)
            self.assertNotIn("Traceback", done.stderr)
            self.assertEqual(done.stderr == "", complaint == "", done.stderr)

    def test_good_wrong_refused_and_not_served(self) -> None:
        for name in ("ed25519", "rsa sha1", "rsa1024 sha256", "rsa1024 sha1", "rsa md5", "pss sha1"):
            self.put(name, self.certificate(name))
        root = signed().made["ed25519"].certificate
        forged = root[:-1] + bytes([root[-1] ^ 1])
        self.answer_about("cert", root, forged, line_of(self_signed(forged), "certificate issuer"))
        self.put("forged", forged)

        def pair(name: str) -> List[str]:
            return [self.file(name), self.file(name)]

        def good(name: str) -> str:
            return f"{about(name).fingerprint.hex()} certificate issuer\n"

        self.expect(0, good("ed25519"), "", *pair("ed25519"))
        self.expect(0, good("ed25519"), "", "--as", "cert", *pair("ed25519"))
        self.expect(1, "", f"verdicts: {self.file('forged')}: not signed under the key of {self.file('ed25519')}\n",
                    self.file("ed25519"), self.file("forged"))
        self.expect(1, "", "refused by policy: the digest sha1 (--allow-sha1 would let it through)", *pair("rsa sha1"))
        self.expect(0, good("rsa sha1"), "", "--allow-sha1", *pair("rsa sha1"))
        self.expect(0, good("pss sha1"), "", "--allow-sha1", *pair("pss sha1"))
        self.expect(1, "", "(--minimum-rsa-bits N would let it through)", *pair("rsa1024 sha256"))
        self.expect(0, good("rsa1024 sha256"), "", "--minimum-rsa-bits", "1024", *pair("rsa1024 sha256"))
        self.expect(1, "", "(--allow-sha1 and --minimum-rsa-bits N would let it through)", *pair("rsa1024 sha1"))
        self.expect(0, good("rsa1024 sha1"), "", "--minimum-rsa-bits", "1024", "--allow-sha1", *pair("rsa1024 sha1"))
        self.expect(2, "", "not served: the algorithm: 1.2.840.113549.1.1.4 is not served", *pair("rsa md5"))

    def test_pem(self) -> None:
        der = self.certificate("ed25519")
        good = f"{about('ed25519').fingerprint.hex()} certificate issuer\n"
        body = base64.encodebytes(der)

        def pem(label: bytes) -> bytes:
            return b"-----BEGIN " + label + b"-----\n" + body + b"-----END " + label + b"-----\n"

        issuer = self.put("issuer.der", der)
        for octets in (pem(b"CERTIFICATE"), b"text\n" + pem(b"X509 CERTIFICATE") + b"more\n", pem(b"CERTIFICATE").replace(b"\n", b"\r\n")):
            self.expect(0, good, "", issuer, self.put("good.pem", octets))
        for octets in (pem(b"CERTIFICATE") * 2, pem(b"TRUSTED CERTIFICATE"), pem(b"PKCS7"), pem(b"X509 CRL"), pem(b"CERTIFICATE")[:-30],
                       pem(b"PRIVATE KEY") + pem(b"CERTIFICATE"), pem(b"CERTIFICATE").replace(b"A", b"!", 1), pem(b"CERTIFICATE").lower(),
                       b"-----BEGIN CERTIFICATE-----\n" + pem(b"CERTIFICATE"), pem(b"CERTIFICATE").replace(b"\n", b"\nX: y\n", 1)):
            done = self.run_script(issuer, self.put("bad.pem", octets))
            self.assertNotEqual(done.returncode, 0, octets[:80])
            self.assertEqual(done.stdout, "")
            self.assertNotIn("Traceback", done.stderr)

    def test_a_response(self) -> None:
        issuer, delegate = about("ecdsa sha256"), about("ed25519")
        other = dataclasses.replace(delegate, key=issuer.key)
        unsigned = question_of(other.algorithm, other.key, other.message, other.signature)
        lines = [line_of(unsigned, "response issuer"), line_of(issuer, "certificate 1 issuer"), line_of(delegate, "response certificate 1")]
        root, value = self.put("root", signed().made["ecdsa sha256"].certificate), self.put("value", b"0\0")
        about_value = f"ocsp {signed().made['ecdsa sha256'].certificate.hex()} 3000"
        self.answer(about_value, 0, lines)
        good = [f"{issuer.fingerprint.hex()} certificate 1 issuer\n", f"{delegate.fingerprint.hex()} response certificate 1\n"]
        self.expect(0, "".join(good), "", "--as", "ocsp", root, value)
        # A certificate whose signature is not looked at is named, though the response is signed by one of the keys.
        weak = about("rsa sha1")
        self.answer(about_value, 0, [lines[0], line_of(weak, "certificate 1 issuer"), lines[2]])
        self.expect(0, good[1], "certificate 1 issuer: refused by policy", "--as", "ocsp", root, value)
        self.answer(about_value, 0, [lines[0], lines[1], line_of(about("rsa md5"), "response certificate 1")])
        self.expect(2, "", "response certificate 1: not served", "--as", "ocsp", root, value)
        self.answer(about_value, 0, [lines[0], lines[1], line_of(weak, "response certificate 1")])
        self.expect(1, "", "response certificate 1: refused by policy", "--as", "ocsp", root, value)
        self.answer(about_value, 0, [lines[0], lines[1], lines[0].replace("response issuer", "response certificate 1")])
        self.expect(1, "", "not signed under the key of", "--as", "ocsp", root, value)

    def test_what_the_program_says_is_handed_on(self) -> None:
        root, half = self.put("root", self.certificate("ed25519")), self.put("half", b"0")
        certificate = signed().made["ed25519"].certificate
        self.answer(f"cert {certificate.hex()} 30", 4, ["x509check: FILE: refused 4 Truncated at 0"])
        self.answer(f"cert 30 {certificate.hex()}", 4, ["x509check: ISSUER: refused 4 Truncated at 0"])
        self.answer(f"crl {certificate.hex()} 30", 6, ["x509check: no memory"])
        self.expect(2, "", f"verdicts: {half}: refused 4 Truncated at 0\n", root, half)
        self.expect(2, "", f"verdicts: {half}: refused 4 Truncated at 0\n", half, root)
        self.expect(3, "", "verdicts: no memory\n", "--as", "crl", root, half)
        self.expect(3, "", "bad line", "--as", "ocsp", root, half)

    def test_lines_that_are_none(self) -> None:
        root, certificate = self.put("root", self.certificate("ed25519")), signed().made["ed25519"].certificate
        line = line_of(about("ed25519"), "certificate issuer")
        for lines in ([], ["valid"], [line, line], [line_of(about("ed25519"), "crl issuer")], [line.replace(" message=30", " message=31")],
                      [line + "\r"], [line, "", ""], ["\x85" + line]):
            self.answer(f"cert {certificate.hex()} {certificate.hex()}", 0, lines)
            self.expect(3, "", "verdicts: ", root, root)

    def test_words_and_files(self) -> None:
        root = self.put("root", self.certificate("ed25519"))
        self.expect(2, "", "usage: ", root)
        self.expect(2, "", "usage: ", "--as", "key", root, root)
        self.expect(2, "", "usage: ", "--minimum-rsa-bits", "many", root, root)
        self.expect(2, "", "minimum_rsa_bits: 1 is none of", "--minimum-rsa-bits", "1", root, root)
        self.expect(2, "", f"cannot read {self.file('nothing')}", root, self.file("nothing"))
        self.expect(2, "", f"cannot read {self.folder}", self.folder, root)
        self.expect(3, "", "cannot be run", root, root, program=self.file("nothing"))
        self.expect(3, "", "said nothing", root, root, program="/bin/false")
        self.expect(3, "", "0 lines", root, root, program="/bin/true")
        self.assertEqual(self.run_script("--help").returncode, 0)

    def test_no_judge(self) -> None:
        root = self.put("root", self.certificate("ed25519"))
        code = ("import runpy, sys; sys.path.insert(0, sys.argv.pop(1)); from x509check import _libcrypto, _crypto_package\n"
                "_libcrypto.loaded = _crypto_package.loaded = lambda: None\n"
                "sys.argv = sys.argv[1:]; runpy.run_path(sys.argv[0], run_name='__main__')")
        done = subprocess.run([sys.executable, "-c", code, os.path.join(TOP, "bindings", "python"), VERDICTS, root, root], stderr=subprocess.PIPE,
                              stdout=subprocess.PIPE, text=True, check=False, env={**os.environ, "X509CHECK": self.program})
        self.assertEqual((done.returncode, done.stdout), (3, ""), done.stderr)
        self.assertIn("no judge of signatures", done.stderr)


class Fuzzing(unittest.TestCase):
    def test_some_seconds(self) -> None:
        counts: Dict[str, int] = fuzz_signatures.fuzz(signed().questions(), seconds=6, seed=1)
        for said in ("good", "wrong", "not served"):
            self.assertGreater(counts[said], 10)


if __name__ == "__main__":
    unittest.main()
