#!/usr/bin/env python3
"""Writes what bench/api/run measures into a folder: texts.py FOLDER ENTRIES

The certificates `anchor`, `authority` below it and `server`; the lists `anchor.crl` and `authority.crl`, of which the second has so many
entries and does not name the server's certificate; and for that the response `server.ocsp`. `fingerprints`: those of the five signatures. Keys
and signatures are random octets: nothing here judges them.
"""

import hashlib
import os
import random
import sys

sys.path.insert(0, os.path.join(os.path.dirname(os.path.abspath(__file__)), ".."))
from data import NULL, RSA_SHA256, TRUE, bits, extension, integer, name, oid, sequence, value  # noqa: E402

RNG = random.Random(20260101)
FROM, UNTIL = b"20250101000000Z", b"20270101000000Z"
FIRST_SERIAL = 1 << 126


def time(text):
    return value(0x17, text[2:])


def key_info():
    modulus = int.from_bytes(RNG.randbytes(256), "big") | 1 << 2047 | 1
    return sequence(sequence(oid("1.2.840.113549.1.1.1"), NULL), bits(sequence(integer(modulus), integer(65537))))


def hash_of_key(info):
    return hashlib.sha1(info[info.index(b"\x03\x82") + 5:]).digest()


class Signed:
    def __init__(self, key, part):
        self.part, self.key, self.signature = part, key, RNG.randbytes(256)
        self.octets = sequence(part, RSA_SHA256, bits(self.signature))

    def fingerprint(self):
        texts = (RSA_SHA256, self.key, self.part, self.signature)
        return hashlib.sha256(b"".join(len(it).to_bytes(8, "big") + it for it in texts)).digest()


def certificate(subject, key, issuer, issuer_key, serial, extensions):
    return Signed(issuer_key, sequence(value(0xA0, integer(2)), integer(serial), RSA_SHA256, issuer, sequence(time(FROM), time(UNTIL)), subject,
                                       key, value(0xA3, sequence(*extensions))))


def revocation_list(issuer, key, entries):
    revoked = [sequence(integer(FIRST_SERIAL + number), time(FROM)) for number in range(entries)]
    return Signed(key, sequence(integer(1), RSA_SHA256, issuer, time(FROM), time(UNTIL), sequence(*revoked) if revoked else b"",
                                value(0xA0, sequence(extension("2.5.29.20", integer(1))))))


def response(issuer, key, serial):
    sha1 = sequence(oid("1.3.14.3.2.26"), NULL)
    named = sequence(sha1, value(0x04, hashlib.sha1(issuer).digest()), value(0x04, hash_of_key(key)), integer(serial))
    single = sequence(named, value(0x80), value(0x18, FROM), value(0xA0, value(0x18, UNTIL)))
    signed = Signed(key, sequence(value(0xA1, issuer), value(0x18, FROM), sequence(single)))
    basic = sequence(oid("1.3.6.1.5.5.7.48.1.1"), value(0x04, signed.octets))
    return signed, sequence(value(0x0A, b"\0"), value(0xA0, basic))


def main(folder, entries):
    root, authority, server = (name(("2.5.4.6", "US"), ("2.5.4.10", "Example"), ("2.5.4.3", it)) for it in ("Root", "CA", "mail.example"))
    root_key, authority_key, server_key = key_info(), key_info(), key_info()
    signing = [extension("2.5.29.19", sequence(TRUE), True), extension("2.5.29.15", value(0x03, b"\x01\x06"), True)]
    plain = [extension("2.5.29.19", sequence(), True), extension("2.5.29.15", value(0x03, b"\x07\x80"), True)]
    anchor = certificate(root, root_key, root, root_key, 1, signing)
    middle = certificate(authority, authority_key, root, root_key, 2, signing)
    leaf = certificate(server, server_key, authority, authority_key, 3, plain)
    lists = revocation_list(root, root_key, 0), revocation_list(authority, authority_key, entries)
    signed, answer = response(authority, authority_key, 3)
    os.makedirs(folder, exist_ok=True)
    found = {"anchor": anchor.octets, "authority": middle.octets, "server": leaf.octets, "anchor.crl": lists[0].octets,
             "authority.crl": lists[1].octets, "server.ocsp": answer}
    found["fingerprints"] = b"".join(it.fingerprint() for it in (middle, leaf, *lists, signed))
    for title, octets in found.items():
        with open(os.path.join(folder, title), "wb") as out:
            out.write(octets)


if __name__ == "__main__":
    main(sys.argv[1], int(sys.argv[2]))
