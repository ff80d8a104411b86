#!/usr/bin/env python3
"""Spoils object identifiers, as text and as DER, and asks about paths whose policies they are.

    fuzz_policies.py [SECONDS] [SEED]

However a text is spoilt, it is read exactly if a grammar that stands here by itself has it, and it is written again as it was. However the
contents of an OBJECT IDENTIFIER are spoilt, they are written as text exactly if the library for C says that they are DER, and read again
from it as they were. A certificate that states such policies is answered with just these, and with those of them that the user takes. Nobody
signed the certificates: their fingerprints are handed in. Each failure is written out, and the status is 1 then.
"""

import collections
import os
import random
import re
import sys
import time

HERE = os.path.dirname(os.path.realpath(__file__))
sys.dont_write_bytecode = True
sys.path.insert(0, HERE)

import x509check  # noqa: E402
from x509check import Certificate, Fault, Verdict, validate_with_policies  # noqa: E402
from x509check._arguments import ANY_POLICY, policies_of  # noqa: E402
from x509check._der import OBJECT_IDENTIFIER, SEQUENCE, contents_of, dotted, encoded, value  # noqa: E402

FOLDER = os.path.join(HERE, "..", "..", "examples", "policies")
# 2026-12-01T00:00:00Z
DECEMBER = 1796083200
OCTETS = 0x04
# certificatePolicies, policyMappings, policyConstraints and inhibitAnyPolicy.
ABOUT_POLICIES = [contents_of(f"2.5.29.{last}") for last in (32, 33, 36, 54)]
NUMBER = "(?:0|[1-9][0-9]*)"
GRAMMAR = re.compile(rf"(?:[01]\.(?:[0-9]|[123][0-9])|2\.{NUMBER})(?:\.{NUMBER})*")
# What an arc, and the first two together, stay below: so many octets have 7 bits each.
MOST = 2 ** (7 * 512)
TEXTS = ["2.999.1.1", "2.5.29.32.0", "1.3.6.1.4.1.311.21.8", "0.0", "1.39.0", "2.25.329800735698586629295641978511506172918", "2.47", "2.48.127.128"]
CHARACTERS = list("0123456789...") + ["-", "+", " ", "_", "\n", "x", "e", ",", "", "00", "..", "\u0661", "\u00b2", "\uff11", "9" * 1100, "4" * 5000]
OCTET_POOL = [0x00, 0x01, 0x27, 0x28, 0x2A, 0x4F, 0x50, 0x55, 0x7F, 0x80, 0x81, 0x88, 0xFF]


def loaded(name):
    one, = x509check.load(os.path.join(FOLDER, name))
    return one.octets


def with_policies(octets, *policies):
    """The certificate with a certificatePolicies of these contents of OBJECT IDENTIFIERs, in place of its own extensions about policies."""
    tbs, *others = value(octets).members()
    *fields, extensions = tbs.members()
    kept = [one.whole for one in extensions.only_member().members() if one.members()[0].contents not in ABOUT_POLICIES]
    stated = encoded(SEQUENCE, *(encoded(SEQUENCE, encoded(OBJECT_IDENTIFIER, one)) for one in policies))
    extension = encoded(SEQUENCE, encoded(OBJECT_IDENTIFIER, ABOUT_POLICIES[0]), encoded(OCTETS, stated))
    new = encoded(0xA3, encoded(SEQUENCE, *kept, extension))
    return encoded(SEQUENCE, encoded(SEQUENCE, *(one.whole for one in fields), new), *(one.whole for one in others))


def spoilt(rng, items, pool):
    """The items with some left out, exchanged or put in between."""
    for _ in range(rng.choice((0, 1, 1, 2, 4))):
        at, one = rng.randrange(len(items) + 1), rng.choice(pool)
        items = rng.choice((items[:at] + [one] + items[at + 1:], items[:at] + items[at + 1:], items[:at] + [one] + items[at:], items[:at]))
    return items


def is_identifier(text):
    """Whether a text is an object identifier whose numbers are not too long: by the grammar, and without the reader that is tried."""
    if not GRAMMAR.fullmatch(text) or max(map(len, text.split("."))) > 1100:
        return False
    arcs = [int(word) for word in text.split(".")]
    return 40 * arcs[0] + arcs[1] < MOST and all(arc < MOST for arc in arcs[2:])


def try_text(rng):
    """How a text ends, and what is wrong with that."""
    text = "".join(spoilt(rng, list(rng.choice(TEXTS)), CHARACTERS))
    try:
        contents, = policies_of("policies", [text])
    except ValueError as refused:
        named = repr(text) in str(refused)
        return "text refused", None if named and not is_identifier(text) else f"{text[:200]!r} is refused: {str(refused)[:200]}"
    if not is_identifier(text) or dotted(contents) != text:
        return "text read", f"{text[:200]!r} is read as {contents.hex()[:200]}"
    x509check.check(encoded(OBJECT_IDENTIFIER, contents))
    return "text read", None


def drawn_contents(rng):
    if rng.random() < 0.05:
        return bytes([0x88] * rng.choice((510, 511, 512, 513)) + [1])
    return bytes(spoilt(rng, list(contents_of(rng.choice(TEXTS))), OCTET_POOL))


def has_long_arc(contents):
    return any(len(arc) > 511 for arc in re.findall(rb"[\x80-\xff]*", contents))


def try_contents(rng):
    """The same of the contents of an OBJECT IDENTIFIER."""
    contents = drawn_contents(rng)
    try:
        x509check.check(encoded(OBJECT_IDENTIFIER, contents))
        is_der = True
    except Fault:
        is_der = False
    try:
        text = dotted(contents)
    except ValueError as refused:
        return "contents refused", f"{contents.hex()} is refused: {refused}" if is_der and not has_long_arc(contents) else None
    is_right = is_der and not has_long_arc(contents) and contents_of(text) == contents and is_identifier(text)
    return "contents written", None if is_right else f"{contents.hex()} is written as {text[:200]}"


def user_policies(stated, wanted):
    """Of the policies that a certificate states those that the user takes."""
    if wanted is None or ANY_POLICY in wanted:
        return stated
    return {one for one in wanted if one in stated or ANY_POLICY in stated}


def try_question(rng, root, certificate):
    """The same of a certificate with several such policies."""
    policies = [drawn_contents(rng) for _ in range(rng.choice((1, 2, 3, 70)))]
    octets = with_policies(certificate, *policies)
    wanted = rng.choice((None, [], rng.choices(TEXTS, k=rng.choice((1, 2, 5)))))
    try:
        read = Certificate.from_der(octets)
        answer = validate_with_policies(root, [read], [], DECEMBER, initial_policies=wanted, require_explicit_policy=False,
                                        fingerprints=[read.fingerprint_under(root)])
    except Fault as fault:
        # A value that is no DER, or a policy that is stated twice.
        is_right = fault.number == 21 or fault.number == 29 and len(set(policies)) < len(policies)
        return "question refused", None if is_right else f"{fault}: {octets.hex()}"
    except ValueError as refused:
        is_right = any(map(has_long_arc, policies)) and "cannot be written" in str(refused)
        return "question without a text", None if is_right else f"{refused}: {octets.hex()}"
    stated = {dotted(one) for one in policies}
    is_right = answer.verdict is Verdict.UNKNOWN and set(answer.authority_policies) == stated \
        and set(answer.user_policies) == user_policies(stated, wanted) and len(set(policies)) == len(policies)
    return "question answered", None if is_right else f"{wanted}: {answer}: {octets.hex()}"


def run(seconds, seed, most=None):
    """How many had which end, and the complaints."""
    rng, ends, complaints = random.Random(seed), collections.Counter(), []
    root, certificate = Certificate.from_der(loaded("root.pem")), loaded("partner.pem")
    until = time.monotonic() + seconds
    while time.monotonic() < until and (most is None or sum(ends.values()) < most):
        for end, wrong in (try_text(rng), try_contents(rng), try_question(rng, root, certificate)):
            ends[end] += 1
            if wrong is not None:
                complaints.append(wrong)
    return ends, complaints


ENDS = ("text read", "text refused", "contents written", "contents refused", "question answered", "question refused", "question without a text")


def main(arguments):
    seconds, seed = (float(arguments[0]) if arguments else 60.0), (int(arguments[1]) if len(arguments) > 1 else 1)
    ends, complaints = run(seconds, seed)
    print(f"fuzz_policies: seed {seed}: {', '.join(f'{count} {end}' for end, count in ends.most_common())}")
    for one in complaints[:20]:
        print(f"fuzz_policies: {one}")
    return 1 if complaints or not all(ends[end] for end in ENDS) else 0


if __name__ == "__main__":
    sys.exit(main(sys.argv[1:]))
