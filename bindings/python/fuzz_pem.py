#!/usr/bin/env python3
"""Spoils files in PEM around a certificate that is revoked, and asks for a verdict as bin/validate does.

    fuzz_pem.py [SECONDS] [SEED]

However a file is spoilt, the answer is an error, or it is about the certificate in question and not `valid`. It may be about another
certificate only if no whole line of that one is left in the file. Where the certificate in question stands in other clothes than a block, as in
base64 of other columns or in hexadecimal, the answer is an error. Each failure is written out with the file, and the status is 1 then.
"""

import base64
import collections
import hashlib
import os
import random
import runpy
import sys
import time

HERE = os.path.dirname(os.path.realpath(__file__))
TOP = os.path.join(HERE, "..", "..")
sys.dont_write_bytecode = True
sys.path.insert(0, HERE)

import x509check  # noqa: E402
from x509check import Kind, Verdict  # noqa: E402

AUTHORITY = os.path.join(TOP, "examples", "authority")
VALIDATE = runpy.run_path(os.path.join(TOP, "bin", "validate"))
LABELS = [
    "CERTIFICATE", "X509 CERTIFICATE", "X.509 CERTIFICATE", "TRUSTED CERTIFICATE", "X509 CRL", "CRL", "OCSP RESPONSE", "PKCS7", "CMS",
    "PKCS #7 SIGNED DATA", "PRIVATE KEY", "EC PRIVATE KEY", "PUBLIC KEY", "CERTIFICATE REQUEST", "ATTRIBUTE CERTIFICATE", "certificate",
    "CERTIFICATE ", " CERTIFICATE", "CERTIFICATE-", "", "X", "CERTIFICATE-----", "C\u00cbRTIFICATE",
]
JUNK = [
    b"", b" ", b"\t", b"\r", b"-", b"--", b"-----", b"=", b":", b"#", b"\0", b"\x0b", b"\xef\xbb\xbf", b"\xc2\xa0", b"0", b"\x30\x82", b"text",
    b"Proc-Type: 4,ENCRYPTED", b"-----BEGIN ", b"-----END ", b"-----BEGIN CERTIFICATE-----", b"-----END CERTIFICATE-----",
    b"---- BEGIN CERTIFICATE ----", b"subject=CN = x", b"MIIB", b"\xe2\x80\xa8",
]
ENDS = [b"\n", b"\n", b"\n", b"\r\n", b"\r", b"\r\r\n", b"\x0b", b"\x0c", b"\n\n"]


def der_of(name):
    return x509check.load(os.path.join(AUTHORITY, name))[0].octets


def good_fingerprints():
    with open(os.path.join(HERE, "..", "testdata", "good.txt"), encoding="ascii") as file:
        return [bytes.fromhex(line.split()[0]) for line in file]


class Case:
    """The authority, in which the leaf is revoked, and what is asked about it."""

    def __init__(self):
        self.root, self.middle, self.leaf = (der_of(f"{name}.pem") for name in ("root", "middle", "leaf"))
        self.lists = [der_of("root.crl"), der_of("middle2.crl")]
        self.good = good_fingerprints()
        self.digests = {hashlib.sha256(one).hexdigest(): one for one in (self.root, self.middle, self.leaf)}
        self.leaf_lines = lines_of(self.leaf)

    def answer(self, target, others, index):
        """The answer about the certificate in a file, or about one of several, whose others may stand above it with those of another file."""
        chosen, beside = VALIDATE["target_in"](target, index)
        sent = [chosen, *beside, *x509check.load(others, Kind.CERTIFICATE)]
        return x509check.validate_peer(sent, [self.root], self.lists, "2026-12-01T00:00:00Z", fingerprints=self.good)

    def complaint(self, target, result):
        """What is wrong with an answer, if something is."""
        about = self.digests.get(result.target.sha256)
        if about is None:
            return None if result.verdict is Verdict.NOT_FOUND else f"a changed certificate is {result.verdict.value}"
        if about == self.leaf:
            return "the revoked certificate is valid" if result else None
        left = [line for line in self.leaf_lines if line in target]
        return f"another certificate is {result.verdict.value}, named {result.target}" if left else None


def lines_of(octets):
    text = base64.b64encode(octets)
    return [text[at:at + 64] for at in range(0, len(text), 64)]


def block(octets, label="CERTIFICATE"):
    frame = [word + label.encode() + b"-----" for word in (b"-----BEGIN ", b"-----END ")]
    return [frame[0], *lines_of(octets), frame[1]]


def dressed(rng, octets):
    """The lines of a value in other clothes than a block, each of which holds it all the same."""
    text, width = base64.b64encode(octets), rng.choice([8, 20, 36, 39, 63])
    columns, digits = [text[at:at + width] for at in range(0, len(text), width)], octets.hex().encode()
    dash = rng.choice(["\u2013", "\u2014", "\uff0d", "="]).encode()
    return rng.choice([
        lambda: columns, lambda: [b"> " + line for line in columns], lambda: [b"<br>".join(columns)],
        lambda: [dash * 5 + b"BEGIN CERTIFICATE" + dash * 5, *columns, dash * 5 + b"END CERTIFICATE" + dash * 5],
        lambda: [b'{"x5c": ["' + text + b'"]}'], lambda: [b"tls.crt: " + base64.b64encode(b"\n".join(block(octets)))],
        lambda: [digits], lambda: [digits.upper()], lambda: [octets.hex(rng.choice(" :-")).encode()],
        lambda: [digits[at:at + 2 * width] for at in range(0, len(digits), 2 * width)],
        lambda: [base64.urlsafe_b64encode(octets)], lambda: [b"# " + line for line in columns],
    ])()


class Spoiler:
    """Spoils the lines of a file."""

    def __init__(self, seed):
        self.random = random.Random(seed)

    def at(self, lines, most=0):
        return self.random.randrange(len(lines) + most) if lines or most else 0

    def frame_at(self, lines):
        """A line that begins or ends a block."""
        frames = [n for n, line in enumerate(lines) if line.startswith(b"-----")]
        return self.random.choice(frames) if frames else self.at(lines, 1) - 1

    def relabel(self, lines):
        """Another label, in one place or in all with that label."""
        label, one = self.random.choice(LABELS).encode(), self.frame_at(lines)
        old = lines[one].replace(b"-----BEGIN ", b"").replace(b"-----END ", b"").replace(b"-----", b"") if lines else b""
        everywhere = self.random.random() < 0.5
        for n, line in enumerate(lines):
            if old and line.startswith(b"-----") and (n == one or everywhere and old in line):
                lines[n] = line.replace(old, label)

    def label_of_a_block(self, lines):
        """Another label for one block, its BEGIN and its END."""
        label, begins = self.random.choice(LABELS).encode(), [n for n, line in enumerate(lines) if line.startswith(b"-----BEGIN ")]
        if begins:
            begin = self.random.choice(begins)
            lines[begin] = b"-----BEGIN " + label + b"-----"
            end = next((n for n in range(begin, len(lines)) if lines[n].startswith(b"-----END ")), None)
            if end is not None:
                lines[end] = b"-----END " + label + b"-----"

    def junk_in_a_line(self, lines):
        n = self.frame_at(lines) if self.random.random() < 0.6 else self.at(lines)
        if lines:
            at = self.random.choice([0, len(lines[n]), self.random.randrange(len(lines[n]) + 1)])
            lines[n] = lines[n][:at] + self.random.choice(JUNK) + lines[n][at:]

    def junk_line(self, lines):
        near = self.frame_at(lines) + self.random.randrange(2) if self.random.random() < 0.6 else self.at(lines, 1)
        lines.insert(near, self.random.choice(JUNK))

    def other_case(self, lines):
        n = self.frame_at(lines)
        if lines:
            lines[n] = self.random.choice([lines[n].lower(), lines[n].title(), lines[n].swapcase()])

    def fewer_dashes(self, lines):
        for n in [self.frame_at(lines)] if self.random.random() < 0.5 else range(len(lines)):
            if lines and lines[n].startswith(b"-----"):
                lines[n] = self.random.choice([lines[n][1:], lines[n][:-1], lines[n][1:-1], lines[n].replace(b"-----", b"")])

    def change_octet(self, lines):
        n = self.at(lines)
        if lines and lines[n]:
            at = self.random.randrange(len(lines[n]))
            lines[n] = lines[n][:at] + bytes([self.random.randrange(256)]) + lines[n][at + 1:]

    def cut(self, lines):
        if self.random.random() < 0.5:
            del lines[self.at(lines, 1):]
        else:
            del lines[:self.at(lines, 1)]

    def drop(self, lines):
        at = self.at(lines, 1)
        del lines[at:at + self.random.choice([1, 1, 1, 2, 5, 12])]

    def drop_frame(self, lines):
        if lines:
            del lines[self.frame_at(lines)]

    def double(self, lines):
        at = self.at(lines, 1)
        lines[at:at] = lines[at:at + self.random.choice([1, 1, 3, 13])]

    def swap(self, lines):
        if lines:
            one, other = self.at(lines), self.at(lines)
            lines[one], lines[other] = lines[other], lines[one]

    def join(self, lines):
        at = self.at(lines)
        if at + 1 < len(lines):
            lines[at:at + 2] = [lines[at] + self.random.choice([b"", b" ", b"\t"]) + lines[at + 1]]

    # Those of the first list leave each line of base64 where it is, and so the number of blocks.
    STILL = [relabel, label_of_a_block, junk_in_a_line, junk_line, other_case, fewer_dashes]
    ALL = [*STILL, change_octet, cut, drop, drop_frame, double, swap, join]

    def spoil(self, lines, ways):
        for _ in range(self.random.choice([0, 1, 1, 1, 2, 3])):
            self.random.choice(ways)(self, lines)
        if self.random.random() < 0.7:
            return self.random.choice(ENDS).join(lines) + b"\n"
        return b"".join(line + self.random.choice(ENDS) for line in lines)


def single(spoiler, case):
    """A file with the certificate in question alone, or with another that would have to be told apart."""
    text = [b"subject=CN = Leaf", *block(case.leaf)]
    other = block(case.middle, spoiler.random.choice(["CERTIFICATE", "CERTIFICATE", "X509 CERTIFICATE"]))
    lines = spoiler.random.choice([text, text, text + other, other + text, block(case.root) + other + text])
    return spoiler.spoil(list(lines), Spoiler.ALL), None


def bundle(spoiler, case):
    """A file with several certificates, and which of them is in question."""
    order = [case.root, case.middle, case.leaf] + [case.middle] * spoiler.random.randrange(2)
    spoiler.random.shuffle(order)
    lines = [line for one in order for line in block(one)]
    return spoiler.spoil(lines, Spoiler.STILL), order.index(case.leaf) + 1


def clothes(spoiler, case):
    """A file with the certificate in question in other clothes, beside a block that would be taken for it."""
    text = dressed(spoiler.random, case.leaf)
    return spoiler.random.choice([b"\n", b"\r\n"]).join(spoiler.random.choice([
        text + block(case.middle), block(case.middle) + text, [b"subject=CN = Leaf", *text, b"", *block(case.middle)]])) + b"\n", None


def others(spoiler, case):
    """A file with the rest of the chain."""
    if spoiler.random.random() < 0.7:
        return b"\n".join(block(case.middle)) + b"\n"
    lines = block(b"\x30\x00", "PRIVATE KEY") + block(case.middle) + block(case.root)
    return spoiler.spoil(lines, Spoiler.ALL)


def run(seconds, seed, most=None):
    """How many files had which end, and the complaints."""
    case, spoiler = Case(), Spoiler(seed)
    ends, complaints = collections.Counter(), []
    until = time.monotonic() + seconds
    while time.monotonic() < until and (most is None or sum(ends.values()) < most):
        way = spoiler.random.choice([single, bundle, clothes])
        target, index = way(spoiler, case)
        chain = others(spoiler, case)
        try:
            result = case.answer(target, chain, index)
        except (ValueError, VALIDATE["Stop"]) as refusal:
            ends[type(refusal).__name__] += 1
            continue
        ends[f"{result.verdict.value} {'leaf' if case.digests.get(result.target.sha256) == case.leaf else 'other'}"] += 1
        complaint = case.complaint(target, result) if way is not clothes else "a certificate in other clothes was passed over"
        if complaint is not None:
            complaints.append(f"{complaint}: index {index}, {target!r}")
    return ends, complaints


def main(arguments):
    seconds, seed = (float(arguments[0]) if arguments else 60.0), (int(arguments[1]) if len(arguments) > 1 else 1)
    ends, complaints = run(seconds, seed)
    print(f"fuzz_pem: seed {seed}: {sum(ends.values())} files: " + ", ".join(f"{count} {end}" for end, count in ends.most_common()))
    for complaint in complaints[:20]:
        print(f"fuzz_pem: {complaint}")
    return 1 if complaints or not ends["revoked leaf"] else 0


if __name__ == "__main__":
    sys.exit(main(sys.argv[1:]))
