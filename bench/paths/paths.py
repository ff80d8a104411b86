#!/usr/bin/env python3
"""Writes the paths that bench/paths/run measures into a folder: paths.py FOLDER

Each file is a list of certificates, each behind its length in 4 octets, the lowest first: the anchor's, and then those of the path. All
have one key, the generator of P-256, and signatures of octets that nobody judges: both programs are told to accept them.
"""

import os
import struct
import sys

sys.path.insert(0, os.path.join(os.path.dirname(os.path.abspath(__file__)), ".."))
from data import bits, integer, oid, sequence, value  # noqa: E402

ECDSA_SHA256 = sequence(oid("1.2.840.10045.4.3.2"))
GENERATOR = bytes.fromhex(
    "046b17d1f2e12c4247f8bce6e563a440f277037d812deb33a0f4a13945d898c296"
    "4fe342e2fe1a7f9b8ee7eb4a7c0f9e162bce33576b315ececbb6406837bf51f5"
)
KEY_INFO = sequence(sequence(oid("1.2.840.10045.2.1"), oid("1.2.840.10045.3.1.7")), bits(GENERATOR))
VALIDITY = sequence(value(0x17, b"250101000000Z"), value(0x17, b"350101000000Z"))
TRUE = value(0x01, b"\xff")
DEPTHS = (3, 10, 64)
PEOPLE = (("2.5.4.6", "US"), ("2.5.4.10", "Example Corporation"), ("2.5.4.11", "Division of Certificates"))
# How a path is built: the subtrees of each authority (DNS names, directory names), and its names.
KINDS = (
    ("plain", ((),)),
    ("subtrees", ((8,),)),
    ("people", ((), PEOPLE)),
    ("spelled", ((), PEOPLE, 0x13)),
    ("domains", ((32,), PEOPLE)),
    ("mixed", ((32, 8), PEOPLE)),
)


def directory_name(attributes, string=0x0C):
    return sequence(*(value(0x31, sequence(oid(kind), value(string, words.encode()))) for kind, words in attributes))


def name(text, people=(), string=0x0C):
    """A name of one attribute, or as people have them: country, organization, unit and common name, in strings of this type."""
    return directory_name((*people, ("2.5.4.3", text)), string)


def extension(kind, content, critical=False):
    return sequence(oid(kind), *([TRUE] if critical else []), value(0x04, content))


def constraints(dns, directory=0):
    """So many permitted subtrees of DNS names and of directory names; the first of each holds what the path needs."""
    permitted = [value(0x82, b"example.com")]
    permitted += [value(0x82, b"n%d.example.com" % number) for number in range(dns - 1)]
    if directory:
        permitted += [value(0xA4, directory_name(PEOPLE))]
        permitted += [value(0xA4, directory_name((*PEOPLE[:1], ("2.5.4.10", "Example Subsidiary %d" % number))))
                      for number in range(directory - 1)]
    return extension("2.5.29.30", sequence(value(0xA0, *(sequence(base) for base in permitted))), critical=True)


def certificate(serial, subject, issuer, extensions, is_ca=True):
    """Subject and issuer are whole names; an authority has two extensions more."""
    if is_ca:
        extensions = [
            extension("2.5.29.19", sequence(TRUE), critical=True),
            extension("2.5.29.15", value(0x03, b"\x01\x06"), critical=True),
            *extensions,
        ]
    signed = sequence(
        value(0xA0, integer(2)), integer(serial), ECDSA_SHA256, issuer, VALIDITY, subject, KEY_INFO,
        value(0xA3, sequence(*extensions)),
    )
    signature = sequence(integer(serial + 1), integer(serial + 2))
    return sequence(signed, ECDSA_SHA256, bits(signature))


def path(depth, subtrees, people=(), other=0x0C):
    """A path whose authorities carry so many subtrees; issuers have their names in strings of the other type."""
    names = ["Root"] + ["Authority %d" % number for number in range(1, depth)] + ["Target"]
    yield certificate(1, name("Root", people), name("Root", people, other), [])
    for number in range(1, depth + 1):
        subject, issuer = name(names[number], people), name(names[number - 1], people, other)
        if number < depth:
            yield certificate(number + 1, subject, issuer, [constraints(*subtrees)] if subtrees else [])
        else:
            target = extension("2.5.29.17", sequence(value(0x82, b"www.example.com")))
            yield certificate(number + 1, subject, issuer, [target], is_ca=False)


def main(folder):
    for depth in DEPTHS:
        for title, words in KINDS:
            with open(os.path.join(folder, "%s%d" % (title, depth)), "wb") as out:
                for octets in path(depth, *words):
                    out.write(struct.pack("<I", len(octets)) + octets)


if __name__ == "__main__":
    main(sys.argv[1])
