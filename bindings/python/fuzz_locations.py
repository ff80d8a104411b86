#!/usr/bin/env python3
"""Spoils the extensions of certificates that say where lists, responders and issuers are, and reads the addresses.

    fuzz_locations.py [SECONDS] [SEED]

Beside the reader of x509check.fetch, `x509check show --all` reads each certificate. Whatever is spoilt, the reader answers the addresses
that the program shows, in its order, or raises BadLocations; and if it raises, the program calls the value unreadable. The certificates
are those of no authority: nobody looks at their signatures. Each failure is written out with the certificate, and the status is 1 then.
"""

import collections
import os
import random
import re
import subprocess
import sys
import tempfile
import time

HERE = os.path.dirname(os.path.realpath(__file__))
sys.dont_write_bytecode = True
sys.path.insert(0, HERE)

import x509check  # noqa: E402
from x509check._der import contents_of, encoded, value  # noqa: E402
from x509check._program import program_path  # noqa: E402
from x509check.fetch import BadLocations, locations_of  # noqa: E402

LEAF = os.path.join(HERE, "..", "..", "examples", "authority", "leaf.pem")
SEQUENCE, OID, OCTETS = 0x30, 0x06, 0x04
POINTS, ACCESS = encoded(OID, contents_of("2.5.29.31")), encoded(OID, contents_of("1.3.6.1.5.5.7.1.1"))
METHODS = [encoded(OID, contents_of(f"1.3.6.1.5.5.7.48.{number}")) for number in (1, 2, 5)]
NAMES = [encoded(0x86, b"http://x.example/1.crl"), encoded(0x86, b"ldap://x.example/y"), encoded(0x86, b""), encoded(0x82, b"x.example"),
         encoded(0xA4, encoded(SEQUENCE)), encoded(0x86, b"http:\\ \xff\n"), encoded(0x87, b"\x7f\0\0\1")]


def with_extensions(*extensions):
    """A certificate with these extensions: that of the examples, with others."""
    leaf = value(x509check.load(LEAF)[0].octets).members()
    tbs = [one.whole for one in leaf[0].members()[:-1]]
    body = encoded(SEQUENCE, *tbs, encoded(0xA3, encoded(SEQUENCE, *extensions)))
    return encoded(SEQUENCE, body, leaf[1].whole, leaf[2].whole)


def points(rng):
    """cRLDistributionPoints as they may be."""
    def point():
        names = encoded(0xA0, *rng.choices(NAMES, k=rng.choice((1, 1, 2, 3))))
        name = rng.choice((names, names, names, encoded(0xA1, encoded(SEQUENCE, encoded(OID, b"\x55\x04\x03"), encoded(0x0C, b"x")))))
        return encoded(SEQUENCE, encoded(0xA0, name), rng.choice((b"", b"", encoded(0x81, b"\x06\x40"))),
                       rng.choice((b"", b"", encoded(0xA2, NAMES[4]))))
    return encoded(SEQUENCE, *(point() for _ in range(rng.choice((1, 1, 2, 4)))))


def access(rng):
    """authorityInfoAccess as it may be."""
    return encoded(SEQUENCE, *(encoded(SEQUENCE, rng.choice(METHODS), rng.choice(NAMES)) for _ in range(rng.choice((1, 2, 3, 5)))))


def spoilt(rng, octets):
    for _ in range(rng.choice((0, 0, 0, 1, 1, 2, 5))):
        at = rng.randrange(len(octets) + 1)
        one = bytes([rng.choice((0x00, 0x01, 0x30, 0x80, 0x81, 0x82, 0x86, 0xA0, 0xA1, 0xA2, 0xFF, rng.randrange(256)))])
        octets = rng.choice((octets[:at] + one + octets[at + 1:], octets[:at] + one + octets[at + 1:], octets[:at] + octets[at + 1:],
                             octets[:at] + one + octets[at:], octets[:at]))
    return octets


def shown(folder, certificate):
    """What the program shows: for each of the two extensions its lines, or None if it calls the value unreadable; None if it refuses
    all."""
    path = os.path.join(folder, "spoilt.der")
    with open(path, "wb") as file:
        file.write(certificate)
    words = [program_path(), "show", "--all", path]
    done = subprocess.run(words, stdout=subprocess.PIPE, stderr=subprocess.DEVNULL, text=True, check=False)
    if done.returncode:
        return None
    found, name = {}, None
    for line in done.stdout.splitlines():
        if line.startswith("extension "):
            name = line.split(" ")[1]
            found[name] = []
        elif name is not None and line.startswith("  "):
            found[name].append(line[2:])
    return {name: None if any(line.split(" ")[0] == "unreadable" for line in lines) else lines for name, lines in found.items()}


def addresses(lines, word):
    """The URIs behind a word, behind which names of other forms stand with the word of their form, or its number."""
    texts = [line[len(word) + 1:] for line in lines if line.split(" ")[0] == word]
    return [text for text in texts if not re.match("(email|dns|dir|ip|[0-8])( |$)", text)]


def complaint(certificate, lines):
    """What is wrong with what the reader makes of a certificate, if something is; and how it ended."""
    wanted = [lines.get(name, []) for name in ("cRLDistributionPoints", "authorityInfoAccess")]
    try:
        found = locations_of(certificate)
    except BadLocations as bad:
        return None if None in wanted else f"refused, and the program reads it: {bad}", "refused"
    if None in wanted:
        # The program looks into names of other forms too.
        return None, "read alone"
    uris = [uri for point in found.points for uri in point.uris]
    same = (uris == addresses(wanted[0], "uri") and list(found.responders) == addresses(wanted[1], "ocsp")
            and list(found.issuers) == addresses(wanted[1], "caIssuers"))
    return None if same else f"read {found}, and the program shows {wanted}", "read"


def run(seconds, seed, folder, most=None):
    """How many certificates had which end, and the complaints."""
    rng, ends, complaints = random.Random(seed), collections.Counter(), []
    until = time.monotonic() + seconds
    while time.monotonic() < until and (most is None or sum(ends.values()) < most):
        extensions = [encoded(SEQUENCE, kind, encoded(OCTETS, spoilt(rng, made(rng))))
                      for kind, made in ((POINTS, points), (ACCESS, access))]
        octets = with_extensions(*rng.sample(extensions, rng.choice((1, 2, 2))))
        try:
            certificate = x509check.Certificate.from_der(octets)
        except x509check.Fault:
            ends["no certificate"] += 1
            continue
        lines = shown(folder, octets)
        wrong, end = ("the program refuses it", "refused by the program") if lines is None else complaint(certificate, lines)
        ends[end] += 1
        if wrong is not None:
            complaints.append(f"{wrong}: {octets.hex()}")
    return ends, complaints


def main(arguments):
    seconds, seed = (float(arguments[0]) if arguments else 60.0), (int(arguments[1]) if len(arguments) > 1 else 1)
    with tempfile.TemporaryDirectory() as folder:
        ends, complaints = run(seconds, seed, folder)
    counts = ", ".join(f"{count} {end}" for end, count in ends.most_common())
    print(f"fuzz_locations: seed {seed}: {sum(ends.values())} certificates: {counts}")
    for one in complaints[:20]:
        print(f"fuzz_locations: {one}")
    return 1 if complaints or not ends["read"] or not ends["refused"] else 0


if __name__ == "__main__":
    sys.exit(main(sys.argv[1:]))
