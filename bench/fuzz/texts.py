#!/usr/bin/env python3
"""Writes the texts that bench/fuzz/run damages into a file: texts.py FILE

Certificates as bench/data.py makes them, some for each rule of the reader, those of the package ca-certificates where it is there, a
revocation list, and the lists and responses of a small authority, of which an anchor, a path and a list stand first. Each stands behind its
length in 4 octets, the lowest first.
"""

import os
import random
import struct
import sys

HERE = os.path.dirname(os.path.abspath(__file__))
sys.path.insert(0, os.path.dirname(HERE))
sys.dont_write_bytecode = True
from data import (  # noqa: E402
    ECDSA_SHA256, TRUE, attribute, bits, certificate, debian_roots, extension, integer, name, nested, oid, plain_certificate,
    revocation_list, sequence, utc_time, value,
)

MOST = 12000  # octets of a text
AUTHORITY = os.path.join(HERE, "..", "..", "bindings", "testdata")
KEY = sequence(sequence(oid("1.2.840.10045.2.1"), oid("1.2.840.10045.3.1.7")), bits(b"\x04" * 65))
CA = name(("2.5.4.6", "DE"), ("2.5.4.3", "Some Authority"))


def signed(*members):
    """A certificate with these members of the signed part in front of its key."""
    return sequence(sequence(*members), ECDSA_SHA256, bits(b"\x30\x00"))


def of_version(number, *behind):
    """A certificate of version 1 or 2, with unique identifiers or what else stands behind the key."""
    version = value(0xA0, integer(number - 1)) if number > 1 else b""
    return signed(version, integer(5), ECDSA_SHA256, CA, sequence(utc_time(1), utc_time(2)), CA, KEY, *behind)


def with_extensions(*extensions):
    return plain_certificate(CA, extensions)


def subtree(base, *bounds):
    return sequence(base, *bounds)


def directory(text):
    return value(0xA4, name(("2.5.4.6", "DE"), ("2.5.4.10", text)))


def all_names():
    return [
        value(0x82, b"www.example.com"), value(0x87, bytes(4)), value(0x87, bytes(16)), value(0x81, b"me@example.com"),
        value(0x86, b"http://example.com/"), directory("Example"), value(0xA0, oid("1.2.3"), value(0xA0, value(0x0C, b"other"))),
        value(0x88, b"\x2a\x03"),
    ]


def all_bases():
    return [
        subtree(value(0x82, b"example.com")), subtree(value(0x82, b".example.com")), subtree(value(0x87, b"\x0a\0\0\0\xff\0\0\0")),
        subtree(value(0x87, bytes(16) + b"\xff" * 8 + bytes(8))), subtree(directory("Example")), subtree(value(0x81, b"example.com")),
    ]


def strings():
    """A name with each kind of string, and a SET of two attributes."""
    kinds = {0x0C: b"utf-8 \xc3\xbc", 0x13: b"Printable", 0x14: b"Teletex", 0x16: b"ia5", 0x1E: b"\0B\0M\0P", 0x1C: b"\0\0\0U"}
    parts = [value(0x31, sequence(oid("2.5.4.10"), value(kind, text))) for kind, text in kinds.items()]
    two = sorted([attribute("2.5.4.3", "one"), attribute("2.5.4.11", "two")])
    return sequence(*parts, value(0x31, *two))


def special():
    """A certificate or two for each rule."""
    authority = extension("2.5.29.19", sequence(TRUE, integer(3)), True)
    limits = sequence(value(0xA0, *all_bases()), value(0xA1, *all_bases()[:2]))
    yield of_version(1)
    yield of_version(2, value(0x81, b"\0ab"), value(0x82, b"\0cd"))
    yield signed(value(0xA0, integer(2)), integer(1 << 250), ECDSA_SHA256, strings(),
                 sequence(utc_time(1), value(0x18, b"20991231235959Z")), sequence(), KEY)
    yield with_extensions(authority, extension("2.5.29.15", value(0x03, b"\x01\x06"), True))
    yield with_extensions(extension("2.5.29.19", sequence(TRUE, integer(1 << 40))), extension("2.5.29.15", value(0x03, b"\x07\xff\x80")))
    yield with_extensions(extension("2.5.29.19", sequence(), True), extension("2.5.29.17", sequence(*all_names())))
    yield with_extensions(authority, extension("2.5.29.30", limits, True))
    yield with_extensions(extension("2.5.29.37", sequence(oid("1.3.6.1.5.5.7.3.9"), oid("2.5.29.37.0"))),
                          extension("1.3.6.1.5.5.7.48.1.5", value(0x05)))
    yield with_extensions(extension("2.5.29.36", sequence(value(0x80, b"\0")), True), extension("2.5.29.54", integer(0), True),
                          extension("2.5.29.33", sequence(sequence(oid("1.2.3"), oid("1.2.4"))), True))
    yield with_extensions(extension("2.5.29.17", sequence(value(0x81) * 4096)))
    yield with_extensions(*(extension("1.2.3.%d" % number, value(0x05), number % 2 == 0) for number in range(20)))


def authority(*names):
    """DER in the small authority."""
    for name_of_file in names:
        with open(os.path.join(AUTHORITY, name_of_file), "rb") as file:
            yield file.read()


def main(path):
    rng = random.Random(20261123)
    texts = list(authority("root.der", "middle.der", "leaf.der", "middle.crl"))
    texts += [certificate(rng, number) for number in range(64)] + 4 * list(special()) + debian_roots()
    texts += [revocation_list(rng, 2000)[0], *15 * list(authority("middle.crl")), *16 * list(authority("leaf.ocsp")), nested(31)]
    with open(path, "wb") as out:
        for text in texts:
            if len(text) <= MOST:
                out.write(struct.pack("<I", len(text)) + text)
    print(f"{len(texts)} texts to be damaged")


if __name__ == "__main__":
    main(sys.argv[1])
