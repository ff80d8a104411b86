#!/usr/bin/env python3
"""Changes questions about signatures, and the lines that ask them, and looks at what the judge says of each.

    bindings/python/fuzz_signatures.py [SECONDS] [SEED]

The questions are about certificates that OpenSSL's command line signs. Of a changed one each engine has to say the same, under each policy,
without an exception; and GOOD only if message and key are those of a good question, the signature too (or its twin, of ECDSA), and the
algorithm is spelled in one of the ways that mean the same. A changed line has to be refused. It runs for SECONDS (60), and ends with 1 if
something is otherwise; then it has printed the question. SEED chooses the changes; keys and signatures are new in each run.
"""

import collections
import contextlib
import dataclasses
import itertools
import random
import sys
import time
from typing import Dict, Iterator, List, Optional, Sequence, Set, Tuple

if __name__ == "__main__":
    sys.dont_write_bytecode = True

from x509check import SignatureQuestion, _crypto_package, _crypto_schemes, _der, _libcrypto, signatures
from x509check.signatures import Judgement, Policy

FIELDS = ("algorithm", "key", "message", "signature")
LAX = Policy(digests=signatures.SERVED_DIGESTS, minimum_rsa_bits=512, maximum_rsa_bits=16384)
POLICIES = (LAX, Policy())
IDENTIFIERS = [_der.contents_of(text) for text in (
    "1.2.840.113549.1.1.1", "1.2.840.113549.1.1.8", "1.2.840.113549.1.1.10", "1.2.840.113549.1.1.11", "1.2.840.113549.1.1.5",
    "1.2.840.10045.2.1", "1.2.840.10045.4.3.2", "1.2.840.10045.3.1.7", "1.3.132.0.34", "1.3.132.0.10", "1.3.36.3.3.2.8.1.1.7",
    "1.3.101.112", "1.3.101.113", "1.3.101.110", "1.3.14.3.2.26", "2.16.840.1.101.3.4.2.1", "2.16.840.1.101.3.4.2.3", "2.5.8.1.1")]
ORDERS = {
    "1.2.840.10045.3.1.7": 0xFFFFFFFF00000000FFFFFFFFFFFFFFFFBCE6FAADA7179E84F3B9CAC2FC632551,
    "1.3.132.0.10": 0xFFFFFFFFFFFFFFFFFFFFFFFFFFFFFFFEBAAEDCE6AF48A03BBFD25E8CD0364141,
    "1.3.132.0.34": 0xFFFFFFFFFFFFFFFFFFFFFFFFFFFFFFFFFFFFFFFFFFFFFFFFC7634D81F4372DDF581A0DB248B0A77AECEC196ACCC52973,
}


class Wrong(Exception):
    """What the judge should not have said."""


# ---- what a good answer may be about

def integer(value: int) -> bytes:
    return _der.encoded(_der.INTEGER, value.to_bytes(value.bit_length() // 8 + 1, "big"))


def _digest_spellings(name: str) -> List[bytes]:
    contents = next(contents for contents, digest in _crypto_schemes._DIGEST_IDENTIFIERS.items() if digest == name)
    return [_der.encoded(_der.SEQUENCE, _der.encoded(_der.OBJECT_IDENTIFIER, contents), end) for end in (b"", b"\x05\x00")]


def _pss_spellings(pss: _crypto_schemes.Pss) -> Iterator[bytes]:
    """RSASSA-PSS-params that mean the same: a default is spelled out or not, and NULL stands behind a digest or not."""
    mask_head = _der.encoded(_der.OBJECT_IDENTIFIER, _der.contents_of("1.2.840.113549.1.1.8"))
    masks = [_der.encoded(_der.SEQUENCE, mask_head, digest) for digest in _digest_spellings(pss.mask)]
    parts = [
        [b""] * (pss.digest == "sha1") + [_der.encoded(0xA0, it) for it in _digest_spellings(pss.digest)],
        [b""] * (pss.mask == "sha1") + [_der.encoded(0xA1, it) for it in masks],
        [b""] * (pss.salt == 20) + [_der.encoded(0xA2, integer(pss.salt))],
        [b"", _der.encoded(0xA3, integer(1))],
    ]
    for chosen in itertools.product(*parts):
        yield _der.encoded(_der.SEQUENCE, *chosen)


def spellings(algorithm: bytes) -> Set[bytes]:
    """The algorithm identifiers that mean the same as one that OpenSSL wrote."""
    scheme, head = _crypto_schemes.read_scheme(algorithm), _der.value(algorithm).members()[0].whole
    if scheme.pss:
        return {_der.encoded(_der.SEQUENCE, head, parameters) for parameters in _pss_spellings(scheme.pss)}
    if scheme.kind is _crypto_schemes.Kind.RSA:
        return {_der.encoded(_der.SEQUENCE, head, end) for end in (b"", b"\x05\x00")}
    return {algorithm}


def key_of(info: bytes) -> Tuple[bytes, bytes]:
    """What makes a key itself: of RSA, modulus and exponent alone, as a key for RSASSA-PSS may be told otherwise; else all of it."""
    identifier, bits = _der.value(info).members()
    kind = identifier.members()[0].contents
    return (b"" if kind in IDENTIFIERS[:3] else identifier.whole, bits.whole)


def twin(question: SignatureQuestion) -> Optional[bytes]:
    """The other signature that everyone can make of an ECDSA signature: r, and the order less s."""
    for curve, order in ORDERS.items():
        if _der.encoded(_der.OBJECT_IDENTIFIER, _der.contents_of(curve)) in question.key:
            with contextlib.suppress(ValueError):
                r, s = (it.unsigned() for it in _der.value(question.signature).members())
                return _der.encoded(_der.SEQUENCE, integer(r), integer(max(0, order - s)))
    return None


class Expected:
    """What is good, from the questions that were not changed."""

    def __init__(self, questions: Sequence[SignatureQuestion]) -> None:
        self.good: Dict[Tuple[bytes, Tuple[bytes, bytes], bytes], Set[bytes]] = {}
        for question in questions:
            if signatures.judge(question, LAX) is Judgement.GOOD:
                for signature in (question.signature, twin(question) or question.signature):
                    self.good[question.message, key_of(question.key), signature] = spellings(question.algorithm)

    def may_be_good(self, question: SignatureQuestion) -> bool:
        try:
            key = key_of(question.key)
        except (ValueError, IndexError):
            return False
        return question.algorithm in self.good.get((question.message, key, question.signature), ())


# ---- changes

def changed_octets(rng: random.Random, octets: bytes) -> bytes:
    """Without regard to their form."""
    made, at = bytearray(octets), rng.randrange(len(octets) + 1)
    kind = rng.randrange(6)
    if kind == 0 and at < len(made):
        made[at] ^= 1 << rng.randrange(8)
    elif kind == 1 and at < len(made):
        made[at] = rng.choice((0, 1, 2, 3, 4, 5, 6, 0x30, 0x7F, 0x80, 0x81, 0xA0, 0xFF))
    elif kind == 2:
        del made[at:]
    elif kind == 3:
        made[at:at] = rng.randbytes(rng.randint(1, 4))
    elif kind == 4:
        del made[at:at + rng.randint(1, 4)]
    else:
        made[at:at] = made[at:at + rng.randint(1, 40)]
    return bytes(made)


def changed_values(rng: random.Random, octets: bytes, depth: int = 0) -> bytes:
    """One of the DER values, or one inside it, with lengths that fit."""
    try:
        values = [value.whole for value in _der.values(octets)]
    except ValueError:
        return changed_octets(rng, octets)
    if not values or rng.random() < 0.1:
        values.insert(rng.randint(0, len(values)), rng.choice((b"\x05\x00", b"\x30\x00", integer(1), integer(rng.getrandbits(70)))))
        return b"".join(values)
    at = rng.randrange(len(values))
    values[at] = changed_value(rng, _der.value(values[at]), depth)
    if rng.random() < 0.05:
        rng.shuffle(values)
    return b"".join(values)


def changed_value(rng: random.Random, value: _der.Value, depth: int) -> bytes:
    kind = rng.randrange(10)
    if kind == 0:
        return b""
    if kind == 1:
        return value.whole * 2
    if kind == 2:
        return _der.encoded(value.identifier ^ 1 << rng.randrange(8), value.contents)
    if value.identifier == _der.OBJECT_IDENTIFIER and kind < 8:
        return _der.encoded(value.identifier, rng.choice(IDENTIFIERS))
    if value.identifier == _der.INTEGER and kind < 8:
        number = int.from_bytes(value.contents, "big") + rng.choice((-2, -1, 1, 2, 20, 32))
        return integer(max(0, number))
    if value.identifier == _der.BIT_STRING and value.contents[:1] == b"\0":
        return _der.encoded(value.identifier, b"\0", changed_values(rng, value.contents[1:], depth + 1))
    if value.identifier & 0x20 and depth < 6:
        return _der.encoded(value.identifier, changed_values(rng, value.contents, depth + 1))
    return _der.encoded(value.identifier, changed_octets(rng, value.contents))


def respelled(rng: random.Random, question: SignatureQuestion) -> bytes:
    """Its algorithm in another way that means the same, if it is served."""
    try:
        return rng.choice(sorted(spellings(question.algorithm)))
    except ValueError:
        return question.algorithm


def changed(rng: random.Random, questions: Sequence[SignatureQuestion]) -> SignatureQuestion:
    question = rng.choice(questions)
    for _ in range(rng.choice((1, 1, 1, 2, 3))):
        field = rng.choice(FIELDS)
        text, kind = getattr(question, field), rng.random()
        if kind < 0.25:
            text = getattr(rng.choice(questions), field)
        elif kind < 0.3:
            field, text = "algorithm", respelled(rng, question)
        elif kind < 0.33:
            field, text = "signature", twin(question) if b"\x06\x08\x2a\x86\x48\xce\x3d\x04" in question.algorithm else question.signature
        else:
            text = (changed_values if kind < 0.75 and field != "message" else changed_octets)(rng, text)
        try:
            question = dataclasses.replace(question, **{field: text or b""})
        except ValueError:
            continue
    return question


# ---- the run

def look_at(question: SignatureQuestion, expected: Expected, engines: Sequence[str]) -> Judgement:
    """The judgement by the lax policy, on which all engines agree."""
    said = {(policy == LAX, engine): signatures.judge(question, policy, engine=engine) for policy in POLICIES for engine in engines}
    for is_lax in (True, False):
        if len({said[is_lax, engine] for engine in engines}) != 1:
            raise Wrong(f"the engines do not agree: {said}")
    lax, strict = said[True, engines[0]], said[False, engines[0]]
    if strict not in (lax, Judgement.REFUSED):
        raise Wrong(f"the policies do not agree: {said}")
    if lax is Judgement.GOOD and not expected.may_be_good(question):
        raise Wrong("good, though something was changed that counts")
    if lax is not Judgement.GOOD and question.key.startswith(b"0") and expected.may_be_good(question) and not is_limited(question.key):
        raise Wrong("not good, though nothing was changed that counts")
    return lax


def is_limited(info: bytes) -> bool:
    """Whether it is no plain RSA key, but says something else, in some way: such a key may be for other signatures, or not be served."""
    plain = _der.encoded(_der.SEQUENCE, _der.encoded(_der.OBJECT_IDENTIFIER, IDENTIFIERS[0]), b"\x05\x00")
    return key_of(info)[0] == b"" and not _der.value(info).members()[0].whole == plain


def line_of(question: SignatureQuestion) -> str:
    texts = " ".join(f"{field}={getattr(question, field).hex()}" for field in FIELDS)
    return f"{question.fingerprint.hex()} certificate issuer {texts}"


def look_at_line(rng: random.Random, question: SignatureQuestion) -> bool:
    """Whether a changed line is read: then it has to be the line as it was."""
    line = line_of(question)
    made = changed_octets(rng, line.encode()).decode("latin-1")
    try:
        asked, = signatures.read_printed("cert", [made])
    except signatures.BadLine:
        return False
    if made != line or asked.question != question:
        raise Wrong(f"a line that was changed is read: {made}")
    return True


def fuzz(questions: Sequence[SignatureQuestion], seconds: float, seed: int) -> Dict[str, int]:
    """Counts of the judgements on changed questions. Raises Wrong."""
    rng, expected = random.Random(seed), Expected(questions)
    counts: Dict[str, int] = collections.Counter()
    engines = [engine.NAME for engine in (_crypto_package, _libcrypto) if engine.loaded() is not None]
    end = time.monotonic() + seconds
    while time.monotonic() < end:
        question = changed(rng, questions)
        try:
            counts[look_at(question, expected, engines).value] += 1
        except Exception as cause:
            raise Wrong("; ".join([f"seed {seed}", *(f"{field} {getattr(question, field).hex()}" for field in FIELDS), repr(cause)])) from cause
        counts["lines"] += 1
        look_at_line(rng, rng.choice(questions))
    return counts


def main(words: Sequence[str]) -> int:
    from tests.signed_by_openssl import Signed
    seconds, seed = float(words[0]) if words else 60.0, int(words[1]) if len(words) > 1 else 1
    try:
        counts = fuzz(Signed().questions(), seconds, seed)
    except Wrong as wrong:
        print(f"fuzz_signatures: {wrong}", file=sys.stderr)
        return 1
    print(", ".join(f"{count} {what}" for what, count in sorted(counts.items())))
    return 0


if __name__ == "__main__":
    sys.exit(main(sys.argv[1:]))
