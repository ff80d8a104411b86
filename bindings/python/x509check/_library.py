"""The library for C, and the structs that its calls answer with (x509check.h)."""

import ctypes
import functools
import os
from typing import Sequence

_HERE = os.path.dirname(os.path.realpath(__file__))
_NAME = "libx509check.so"
# Where `make` puts it in the repository, and `make install` beside share, from this folder.
_PLACES = (os.path.join(_HERE, "..", "..", "out", _NAME), os.path.join(_HERE, "..", "..", "..", "..", "lib", "x509check", _NAME))


# What the numbers of a verdict mean (x509check.h).
VERDICT_NUMBERS = {1: "valid", 2: "invalid", 3: "revoked", 4: "unknown", 5: "refused", 6: "not found", 7: "gave up"}
INVALID, REFUSED = (next(number for number, word in VERDICT_NUMBERS.items() if word == wanted) for wanted in ("invalid", "refused"))
VERDICT_WORDS = {number: word for number, word in VERDICT_NUMBERS.items() if number < REFUSED}
# Of a search no path may be valid, and its limits may be used up.
FINDING_WORDS = {number: word for number, word in VERDICT_NUMBERS.items() if number != REFUSED}
# Why no path is found.
GAVE_UP, TARGET_AT_FAULT, PATHS_END = 7, 8, 9
_TRUNCATED, _DER_OF_CERTIFICATE = 4, 21
_NAME_ROOM = 32


class LibraryMissing(ImportError):
    """The shared object is at none of the places where it is looked for, or it is not of this version."""


class TextFields(ctypes.Structure):
    """Octets of the caller. The struct keeps those that it is made of."""

    _fields_ = [("octets", ctypes.c_char_p), ("length", ctypes.c_size_t)]


class QueryFields(ctypes.Structure):
    _fields_ = [
        ("anchor", TextFields),
        ("path", ctypes.POINTER(TextFields)),
        ("path_count", ctypes.c_size_t),
        ("moment", ctypes.c_int64),
        ("purpose", TextFields),
        ("wide", ctypes.c_uint32),
    ]


class LimitFields(ctypes.Structure):
    _fields_ = [(name, ctypes.c_size_t) for name in ("signatures", "steps", "verdicts")]


class SearchFields(ctypes.Structure):
    _fields_ = [
        ("anchors", ctypes.POINTER(TextFields)),
        ("anchor_count", ctypes.c_size_t),
        ("target", TextFields),
        ("bag", ctypes.POINTER(TextFields)),
        ("bag_count", ctypes.c_size_t),
        ("moment", ctypes.c_int64),
        ("purpose", TextFields),
        ("limits", LimitFields),
        ("wide", ctypes.c_uint32),
    ]


def text_fields(octets: bytes) -> TextFields:
    return TextFields(octets, len(octets))


def text_array(values: Sequence[bytes]) -> "ctypes.Array[TextFields]":
    return (TextFields * len(values))(*map(text_fields, values))


class Part(ctypes.Structure):
    """Octets of the text that was handed in."""

    _fields_ = [("offset", ctypes.c_size_t), ("length", ctypes.c_size_t)]

    def of(self, octets: bytes) -> bytes:
        return octets[self.offset:self.offset + self.length]


class Answer(ctypes.Structure):
    _fields_ = [("fault", ctypes.c_uint32), ("offset", ctypes.c_size_t)]


FLAGS = ("has_basic_constraints", "is_authority", "has_path_length", "has_key_usage", "needs_policy_processing", "no_check")
COUNTS = ("alternative_names", "permitted_subtrees", "excluded_subtrees", "purposes", "unrecognised")
PARTS = ("tbs", "serial", "algorithm", "issuer", "subject", "subject_public_key_info", "key", "signature")


class ExtensionFields(ctypes.Structure):
    _fields_ = [
        *((name, ctypes.c_bool) for name in FLAGS),
        ("path_length", ctypes.c_uint32),
        ("key_usage", ctypes.c_uint32),
        *((name, ctypes.c_size_t) for name in COUNTS),
    ]


class Fields(ctypes.Structure):
    _fields_ = [
        ("version", ctypes.c_uint32),
        ("not_before", ctypes.c_int64),
        ("not_after", ctypes.c_int64),
        *((name, Part) for name in PARTS),
        ("extensions", ExtensionFields),
    ]


class CertificateAnswer(ctypes.Structure):
    _fields_ = [("fault", ctypes.c_uint32), ("der_fault", ctypes.c_uint32), ("offset", ctypes.c_size_t), ("fields", Fields)]


class Refusal(ctypes.Structure):
    """Which certificate or statement is refused, and why: the text is a `Text`, and the index says which of them."""

    _fields_ = [
        *((name, ctypes.c_uint32) for name in ("text", "fault", "der_fault")),
        *((name, ctypes.c_size_t) for name in ("index", "offset")),
    ]


class VerdictAnswer(ctypes.Structure):
    _fields_ = [("verdict", ctypes.c_uint32), ("reason", ctypes.c_uint32), ("certificate", ctypes.c_size_t), ("refusal", Refusal)]


class FindingAnswer(ctypes.Structure):
    """The verdict on the path that is found, and how many certificates it has."""

    _fields_ = [("verdict", VerdictAnswer), ("path_count", ctypes.c_size_t)]


class PolicyInputFields(ctypes.Structure):
    """What is asked of policies: which, each by its contents, and three flags."""

    _fields_ = [
        ("initial_policies", ctypes.POINTER(TextFields)),
        ("initial_policy_count", ctypes.c_size_t),
        *((name, ctypes.c_uint32) for name in ("inhibit_policy_mapping", "require_explicit_policy", "inhibit_any_policy")),
    ]


class PoliciesAnswer(ctypes.Structure):
    """The verdict, how many policies there are of the authorities and of the user, and how many octets all of them have."""

    _fields_ = [("verdict", VerdictAnswer), *((name, ctypes.c_size_t) for name in ("authority_count", "user_count", "octet_count"))]


class ObstacleFields(ctypes.Structure):
    _fields_ = [("certificate", ctypes.c_size_t), ("reason", ctypes.c_uint32)]


class DiagnosisAnswer(ctypes.Structure):
    """Why no path is found, and how many certificates are told of."""

    _fields_ = [
        *((name, ctypes.c_uint32) for name in ("why", "reason")),
        *((name, ctypes.c_size_t) for name in ("above_count", "anchor_count", "obstacle_count")),
        ("refusal", Refusal),
    ]


class Place(ctypes.Structure):
    """Octets of a certificate or of a statement: the text is a `Text`, and the index says which of them."""

    _fields_ = [("text", ctypes.c_uint32), *((name, ctypes.c_size_t) for name in ("index", "offset", "length"))]


class QuestionFields(ctypes.Structure):
    _fields_ = [*((name, Place) for name in ("algorithm", "key_info", "message", "signature")), ("fingerprint", ctypes.c_uint8 * 32)]


class AskedAnswer(ctypes.Structure):
    _fields_ = [("refusal", Refusal), ("count", ctypes.c_size_t)]


class SpeakingAnswer(ctypes.Structure):
    _fields_ = [*((name, ctypes.c_uint32) for name in ("speaks", "fault", "der_fault")), ("offset", ctypes.c_size_t)]


def _opened() -> ctypes.CDLL:
    """The shared object that X509CHECK_LIBRARY names; else the one beside this file, the repository's, the installed, or the system's."""
    named = os.environ.get("X509CHECK_LIBRARY")
    places = [named] if named else [*filter(os.path.exists, (os.path.join(_HERE, _NAME), *_PLACES)), _NAME]
    try:
        return ctypes.CDLL(places[0])
    except OSError as cause:
        raise LibraryMissing(
            f"{places[0]} cannot be loaded ({cause}); build it by `make`, or name it in X509CHECK_LIBRARY") from cause


@functools.lru_cache(maxsize=None)
def library() -> ctypes.CDLL:
    opened = _opened()
    try:
        # One of another version could take other arguments.
        fits = opened.x509check_version() == _version_number() and _has_these_numbers(_typed(opened))
    except AttributeError:
        fits = False  # a call is missing
    if not fits:
        raise LibraryMissing("the shared object is of another version than this module; build it by `make`")
    return opened


def _typed(opened: ctypes.CDLL) -> ctypes.CDLL:
    text = [ctypes.c_char_p, ctypes.c_size_t]
    asked, sought = ([ctypes.POINTER(it), ctypes.POINTER(TextFields), ctypes.c_size_t] for it in (QueryFields, SearchFields))
    written = [ctypes.POINTER(QuestionFields), ctypes.c_size_t]
    policies = [ctypes.POINTER(QueryFields), ctypes.POINTER(PolicyInputFields), *asked[1:]]
    numbers, obstacles = ([ctypes.POINTER(it), ctypes.c_size_t] for it in (ctypes.c_size_t, ObstacleFields))
    for name, takes, answers in (
        ("x509check_check", text, Answer),
        ("x509check_read_certificate", text, CertificateAnswer),
        ("x509check_fingerprint", [*(text * 4), ctypes.c_char_p], None),
        ("x509check_fault_name", [ctypes.c_uint32, *text], ctypes.c_size_t),
        ("x509check_speaks_for", [*text, ctypes.c_uint32, *text], SpeakingAnswer),
        ("x509check_questions", [*asked, *written], AskedAnswer),
        ("x509check_validate", [*asked, *text], VerdictAnswer),
        ("x509check_validate_with_policies", [*policies, *text, *numbers, *text], PoliciesAnswer),
        ("x509check_find_questions", [*sought, *written], AskedAnswer),
        ("x509check_find", [*sought, *text, *numbers], FindingAnswer),
        ("x509check_why_not", [ctypes.POINTER(SearchFields), *text, *numbers, *numbers, *obstacles], DiagnosisAnswer),
    ):
        call = getattr(opened, name)
        call.argtypes, call.restype = takes, answers
    return opened


def _version_number() -> int:
    """The version of this module, as x509check_version answers that of the library."""
    from . import __version__
    major, minor, patch = map(int, __version__.split("."))
    return major * 10000 + minor * 100 + patch


def _has_these_numbers(opened: ctypes.CDLL) -> bool:
    """Whether it refuses a query of zeros in the numbers that stand here: by 1 one of another version could say what is another word here."""
    answer = opened.x509check_validate(QueryFields(), None, 0, None, 0)
    refused = answer.refusal
    return (answer.verdict, refused.text, refused.fault, refused.der_fault) == (REFUSED, 1, _DER_OF_CERTIFICATE, _TRUNCATED)


def fault_name(number: int) -> str:
    """The name of a fault, or of a rule of DER; the text is empty if none has the number."""
    written = ctypes.create_string_buffer(_NAME_ROOM)
    library().x509check_fault_name(number, written, _NAME_ROOM)
    return written.value.decode("ascii")
