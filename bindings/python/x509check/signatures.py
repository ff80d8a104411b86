"""Who judges signatures: whether the key of an authority made a signature, by a library for signatures and a policy of yours.

    strict = dataclasses.replace(Policy(), minimum_rsa_bits=3072)
    for question, opinion in zip(questions, opinions(questions, strict)):
        if opinion.judgement is Judgement.GOOD: ..

Served are RSA (PKCS #1 v1.5, and RSASSA-PSS with all parameters of RFC 4055) with moduli of 512 to 16384 bits, of which a policy lets 2048
to 8192 unless it says otherwise, ECDSA on named curves, both with SHA-1 and SHA-2, Ed25519 and Ed448. The package cryptography verifies where
it is there, and else OpenSSL's libcrypto (3.0 or later). Nothing here loads the library of x509check.
"""

import dataclasses
import enum
import hashlib
import re
from types import ModuleType
from typing import TYPE_CHECKING, AbstractSet, Dict, Iterable, List, NamedTuple, NoReturn, Optional, Sequence, Tuple

from . import _crypto_package, _libcrypto
from ._crypto_schemes import (
    CURVES, DIGESTS, RSA_BITS_LEAST, RSA_BITS_MOST, SIGNATURE_OCTETS, JudgeFailed, Key, Kind, NotServed, Scheme, read_key, read_scheme,
    want_point, wrong_without_engine,
)

if TYPE_CHECKING:
    from ._questions import SignatureQuestion

ENGINES: Tuple[str, ...] = (_crypto_package.NAME, _libcrypto.NAME)
"""What may verify, the first choice first."""
SERVED_DIGESTS: AbstractSet[str] = frozenset(DIGESTS)
SERVED_CURVES: AbstractSet[str] = frozenset(CURVES) | {kind.value for kind in SIGNATURE_OCTETS}


class Judgement(enum.Enum):
    """What is said of a signature. Only GOOD is good: a judgement is compared, and has no truth of its own."""

    GOOD = "good"
    WRONG = "wrong"
    """The key did not make it, or must not make such ones."""
    NOT_SERVED = "not served"
    """Nobody here can tell: the algorithm, its parameters or the key are none that are served."""
    REFUSED = "refused by policy"
    """It was not looked at: the policy refuses its algorithm or its key."""

    def __bool__(self) -> NoReturn:
        raise TypeError("a judgement has no truth of its own: compare it with Judgement.GOOD")


class JudgeMissing(RuntimeError):
    """Nothing is there that verifies signatures."""


def _subset(field: str, names: AbstractSet[str], served: AbstractSet[str]) -> AbstractSet[str]:
    """The names, each of which has to be served: a name with a slip would refuse what the caller means to let."""
    if not isinstance(names, (set, frozenset)):
        raise TypeError(f"{field} is a set of names and not {names!r}")
    for name in names:
        if name not in served:
            raise ValueError(f"{field}: {name!r} is none of {', '.join(sorted(served))}")
    return frozenset(names)


@dataclasses.dataclass(frozen=True)
class Policy:
    """Which signatures are looked at. A signature whose algorithm or key it does not let is REFUSED, whoever made it.

    Another policy: `dataclasses.replace(policy, digests=policy.digests | {"sha1"})`.
    """

    digests: AbstractSet[str] = SERVED_DIGESTS - {"sha1"}
    """Of RSA and ECDSA: of the message, and of RSASSA-PSS also that of the mask generation function."""
    minimum_rsa_bits: int = 2048
    """Of the modulus, 512 to 16384."""
    curves: AbstractSet[str] = SERVED_CURVES
    """Of ECDSA and EdDSA."""
    maximum_rsa_bits: int = 8192
    """Of the modulus, 512 to 16384: the work grows faster than the bits."""

    def __post_init__(self) -> None:
        object.__setattr__(self, "digests", _subset("digests", self.digests, SERVED_DIGESTS))
        object.__setattr__(self, "curves", _subset("curves", self.curves, SERVED_CURVES))
        for field in ("minimum_rsa_bits", "maximum_rsa_bits"):
            bits = getattr(self, field)
            if isinstance(bits, bool) or not isinstance(bits, int):
                raise TypeError(f"{field} is an int and not {bits!r}")
            if not RSA_BITS_LEAST <= bits <= RSA_BITS_MOST:
                raise ValueError(f"{field}: {bits} is none of {RSA_BITS_LEAST} to {RSA_BITS_MOST}")

    def _refusals(self, scheme: Scheme, key: Key) -> Dict[str, str]:
        """Why it refuses the scheme or the key, by the field that says so."""
        found = {}
        weak = sorted(scheme.digests - self.digests)
        if weak:
            found["digests"] = f"the digest {' and '.join(weak)}"
        if key.kind is Kind.RSA and key.bits < self.minimum_rsa_bits:
            found["minimum_rsa_bits"] = f"an RSA key of {key.bits} bits, which is less than {self.minimum_rsa_bits}"
        if key.kind is Kind.RSA and key.bits > self.maximum_rsa_bits:
            found["maximum_rsa_bits"] = f"an RSA key of {key.bits} bits, which is more than {self.maximum_rsa_bits}"
        if key.curve and key.curve not in self.curves:
            found["curves"] = f"the curve {key.curve}"
        return found


@dataclasses.dataclass(frozen=True)
class Opinion:
    """A judgement, and what led to it. It has no truth of its own, as the judgement has none."""

    judgement: Judgement
    why: str = ""
    """In words; empty for GOOD."""
    refused_by: Tuple[str, ...] = ()
    """The fields of the policy that refuse it: each has to change before it is looked at."""

    def __bool__(self) -> NoReturn:
        raise TypeError("an opinion has no truth of its own: compare its judgement with Judgement.GOOD")


class _Texts(NamedTuple):
    """A question as octets. Two questions are one only if all four are the same: a fingerprint that came with it counts for nothing here."""

    algorithm: bytes
    key: bytes
    message: bytes
    signature: bytes


def _texts(question: "SignatureQuestion") -> _Texts:
    texts = []
    for name in _Texts._fields:
        text = getattr(question, name)
        if not isinstance(text, (bytes, bytearray, memoryview)):
            raise TypeError(f"{name} of a question is octets and not {type(text).__name__}")
        texts.append(bytes(text))
    return _Texts(*texts)


def _engine(name: Optional[str]) -> ModuleType:
    """The engine of that name, or the first that is there."""
    if name is not None and name not in ENGINES:
        raise ValueError(f"an engine is one of {', '.join(ENGINES)} and not {name!r}")
    for engine in (_crypto_package, _libcrypto):
        if name in (None, engine.NAME) and engine.loaded() is not None:
            return engine
    raise JudgeMissing(f"{name} is not there" if name else "neither the package cryptography nor libcrypto of OpenSSL 3 is there")


def _opinion(texts: _Texts, policy: Policy, engine: ModuleType) -> Opinion:
    """What can be read comes first, then what the policy lets, and only then what is right."""
    try:
        scheme, key = read_scheme(texts.algorithm), read_key(texts.key)
        refusals = policy._refusals(scheme, key)
        if refusals:
            return Opinion(Judgement.REFUSED, "; ".join(refusals.values()), tuple(refusals))
        wrong = wrong_without_engine(scheme, key, texts.signature)
        if not wrong:
            want_point(key)
            # What is wrong is looked at once more: the libraries do not report each lack of memory.
            if any(engine.verify(scheme, key, texts.message, texts.signature) is True for _ in range(2)):
                return Opinion(Judgement.GOOD)
        return Opinion(Judgement.WRONG, wrong or "the key did not make it of this message")
    except NotServed as cause:
        return Opinion(Judgement.NOT_SERVED, str(cause))


def opinions(questions: Iterable["SignatureQuestion"], policy: Policy = Policy(), *, engine: Optional[str] = None) -> List[Opinion]:
    """What is said of each signature, in order; each different question is looked at once. `engine` is one of ENGINES, or the first there is.

    A question has `algorithm` and `key`, the whole DER of an AlgorithmIdentifier and of a subjectPublicKeyInfo, `message`, and `signature`, the
    octets of the signature; more that it has is not looked at. Raises JudgeMissing, and JudgeFailed or MemoryError if the library fails at
    what is served: then nothing is said of any signature. Raises TypeError if one of the four is not octets.
    """
    if not isinstance(policy, Policy):
        raise TypeError(f"a policy is wanted and not {policy!r}")
    verifier = _engine(engine)
    asked = [_texts(question) for question in questions]
    found = {texts: _opinion(texts, policy, verifier) for texts in dict.fromkeys(asked)}
    return [found[texts] for texts in asked]


def judge_all(questions: Iterable["SignatureQuestion"], policy: Policy = Policy(), *, engine: Optional[str] = None) -> List[Judgement]:
    """The judgements of `opinions`."""
    return [opinion.judgement for opinion in opinions(questions, policy, engine=engine)]


def judge(question: "SignatureQuestion", policy: Policy = Policy(), *, engine: Optional[str] = None) -> Judgement:
    """The judgement on one signature."""
    return judge_all([question], policy, engine=engine)[0]


class Printed(NamedTuple):
    """A line of `x509check prints --parts`: what is asked, and of which signature under whose key."""

    question: "SignatureQuestion"
    words: str
    """`certificate issuer`, `crl issuer`, `response issuer`, `certificate N issuer` or `response certificate N`."""

    @property
    def is_own(self) -> bool:
        """Whether it is about the signature of the value itself, and not of a certificate that comes with it."""
        return not re.match("certificate [0-9]", self.words)

    @property
    def line(self) -> str:
        """The line of a file of verdicts that says that the signature is good."""
        return f"{self.question.fingerprint.hex()} {self.words}"


class BadLine(ValueError):
    """A line that is none of what was asked for."""


KINDS: Dict[str, str] = {"cert": "certificate", "crl": "crl", "ocsp": "response"}
"""The kinds of values that signatures are asked about, and their words in the lines."""
_DIGITS = re.compile("[0-9a-f]*")


def _fingerprint(texts: _Texts) -> bytes:
    """The SHA-256 of the four, each behind its length in 8 octets, the highest first: as x509check.fingerprint, without the library."""
    digest = hashlib.sha256()
    for text in texts:
        digest.update(len(text).to_bytes(8, "big") + text)
    return digest.digest()


def _octets(name: str, word: str) -> bytes:
    """Those of a word `name=HEX`; of the four texts the signature alone may be empty."""
    head, _, digits = word.partition("=")
    if head != name or len(digits) % 2 or not _DIGITS.fullmatch(digits) or not digits and name != "signature":
        raise BadLine(f"not {name}=HEX: {word[:80]!r}")
    return bytes.fromhex(digits)


def _printed(line: str, words: str) -> Printed:
    from ._questions import SignatureQuestion
    begin, *parts = line.rsplit(" ", len(_Texts._fields))
    if len(parts) != len(_Texts._fields) or begin[64:] != " " + words:
        raise BadLine(f"not a line about {words!r}: {line[:120]!r}")
    texts = _Texts(*map(_octets, _Texts._fields, parts))
    fingerprint = _fingerprint(texts)
    if fingerprint.hex() != begin[:64]:
        raise BadLine(f"the fingerprint is not that of the four texts: {line[:120]!r}")
    return Printed(SignatureQuestion(*texts, fingerprint=fingerprint), words)


def read_printed(kind: str, lines: Sequence[str]) -> List[Printed]:
    """What the lines of `x509check prints --parts` ask about a value of the kind, without their ends of lines.

    Raises BadLine unless they are just the lines that the program prints for that kind, in its order, each with its fingerprint.
    """
    if kind not in KINDS:
        raise ValueError(f"a kind is one of {', '.join(KINDS)} and not {kind!r}")
    own = f"{KINDS[kind]} issuer"
    if len(lines) != 1 and (kind != "ocsp" or len(lines) % 2 == 0):
        raise BadLine(f"{len(lines)} lines about a value of the kind {kind}")
    pairs = [words for number in range(1, len(lines) // 2 + 1) for words in (f"certificate {number} issuer", f"response certificate {number}")]
    return [_printed(line, words) for line, words in zip(lines, [own, *pairs])]
