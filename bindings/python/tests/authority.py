"""The files of examples/authority, whose signatures OpenSSL found good (testdata/good.txt holds what bin/verdicts printed)."""

import base64
import datetime
import os
import re

HERE = os.path.dirname(os.path.realpath(__file__))
TOP = os.path.normpath(os.path.join(HERE, "..", "..", ".."))
FOLDER = os.path.join(TOP, "examples", "authority")
TESTDATA = os.path.join(HERE, "..", "..", "testdata")
GOOD = os.path.join(TESTDATA, "good.txt")
# 2026-12-01T00:00:00Z
DECEMBER = datetime.datetime(2026, 12, 1, tzinfo=datetime.timezone.utc)


def octets_of(name):
    """The DER in a file of the authority, read without the module that is tried."""
    with open(os.path.join(FOLDER, name), "rb") as file:
        octets = file.read()
    pem = re.search(rb"-----BEGIN [^\n]*-----(.*?)-----END", octets, re.S)
    return base64.b64decode(pem[1]) if pem else octets


def tried(name):
    """A file of testdata."""
    with open(os.path.join(TESTDATA, name), "rb") as file:
        return file.read()


def prints_of():
    with open(GOOD, encoding="ascii") as file:
        return {name: bytes.fromhex(print) for print, name in (line.rstrip().split(" ", 1) for line in file)}


ROOT, MIDDLE, LEAF = (octets_of(f"{name}.pem") for name in ("root", "middle", "leaf"))
ROOT_LIST, MIDDLE_LIST, REVOKING_LIST = (octets_of(f"{name}.crl") for name in ("root", "middle", "middle2"))
RESPONSE = octets_of("leaf.ocsp")
# An authority with constraints, and a delegate for OCSP, each with extensions that the others do not have.
CONSTRAINTS, DELEGATE = tried("constraints.der"), tried("delegate.der")
GOOD_PRINTS = prints_of()
