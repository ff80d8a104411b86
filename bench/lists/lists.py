#!/usr/bin/env python3
"""Writes revocation lists of so many entries and their issuer's certificate into a folder: lists.py FOLDER COUNT

Serial numbers have 16 octets; every fourth entry has a reason. In `list.der` they stand in no order, as in a list that grew, in
`ascending.der` each is greater than the one before, and in `repeated.der` the last is the first of `list.der` once more.
"""

import os
import random
import sys

sys.path.insert(0, os.path.join(os.path.dirname(os.path.abspath(__file__)), ".."))
sys.path.insert(0, os.path.join(os.path.dirname(os.path.abspath(__file__)), "..", "paths"))
from data import bits, integer, oid, sequence, value  # noqa: E402
from paths import ECDSA_SHA256, certificate, extension, name  # noqa: E402


def serial_numbers(count):
    rng = random.Random(count)
    return [bytes([rng.randrange(1, 128)]) + rng.randbytes(15) for _ in range(count)]


def entry(number, serial):
    serial = value(0x02, serial)
    date = value(0x17, b"250520000000Z")
    if number % 4:
        return sequence(serial, date)
    return sequence(serial, date, sequence(extension("2.5.29.21", value(0x0A, bytes([(1, 4, 5)[number // 4 % 3]])))))


def revocation_list(serials):
    entries = value(0x30, *(entry(number, serial) for number, serial in enumerate(serials)))
    extensions = value(0xA0, sequence(extension("2.5.29.20", integer(5))))
    signed = sequence(
        integer(1), ECDSA_SHA256, name("Root"), value(0x17, b"250601000000Z"), value(0x17, b"250701000000Z"), entries, extensions
    )
    return sequence(signed, ECDSA_SHA256, bits(sequence(integer(1), integer(2))))


def main(folder, count):
    serials = serial_numbers(count)
    for kind, its in (("list", serials), ("ascending", sorted(serials)), ("repeated", serials[:-1] + serials[:1])):
        with open(os.path.join(folder, kind + ".der"), "wb") as out:
            out.write(revocation_list(its))
    with open(os.path.join(folder, "issuer.der"), "wb") as out:
        out.write(certificate(1, name("Root"), name("Root"), []))


if __name__ == "__main__":
    main(sys.argv[1], int(sys.argv[2]))
