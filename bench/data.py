#!/usr/bin/env python3
"""Writes the texts that bench/run measures into a folder: data.py FOLDER

Each file is a list of texts, each behind its length in 4 octets, the lowest first. The same texts are made each time. Keys and
signatures are random octets: nothing here judges them.
"""

import base64
import glob
import os
import random
import re
import struct
import sys

MOST = (1 << 24) - 1  # contents of the great texts, of three length octets


def value(identifier, *contents):
    body = b"".join(contents)
    if len(body) < 0x80:
        length = bytes([len(body)])
    else:
        octets = len(body).to_bytes((len(body).bit_length() + 7) // 8, "big")
        length = bytes([0x80 + len(octets)]) + octets
    return bytes([identifier]) + length + body


def sequence(*members):
    return value(0x30, *members)


def integer(number):
    return value(0x02, number.to_bytes(number.bit_length() // 8 + 1, "big"))


def bits(octets):
    return value(0x03, b"\0", octets)


def arc(number):
    octets = [number & 0x7F]
    while number >= 0x80:
        number >>= 7
        octets.append(0x80 | number & 0x7F)
    return bytes(reversed(octets))


def oid(text):
    first, second, *rest = (int(number) for number in text.split("."))
    return value(0x06, b"".join(arc(number) for number in [40 * first + second] + rest))


def utc_time(seed):
    return value(0x17, b"%02d%02d%02d%02d%02d%02dZ" % (seed % 50, seed % 12 + 1, seed % 28 + 1, seed % 24, seed % 60, seed % 60))


NULL = value(0x05)
TRUE = value(0x01, b"\xff")
ECDSA_SHA256 = sequence(oid("1.2.840.10045.4.3.2"))
RSA_SHA256 = sequence(oid("1.2.840.113549.1.1.11"), NULL)


def attribute(kind, text):
    return sequence(oid(kind), value(0x0C, text.encode()))


def name(*pairs):
    return sequence(*(value(0x31, attribute(kind, text)) for kind, text in pairs))


def extension(kind, content, critical=False):
    return sequence(oid(kind), TRUE if critical else b"", value(0x04, content))


def key_identifier(rng):
    return rng.randbytes(20)


def subject_extensions(rng, number):
    """6 to 9 extensions, as certificates of servers have them."""
    host = b"host%d.example.com" % number
    pages = "1.3.6.1.5.5.7.48."
    chosen = [
        extension("2.5.29.15", value(0x03, b"\x05\xa0"), True),
        extension("2.5.29.19", sequence(), True),
        extension("2.5.29.37", sequence(oid("1.3.6.1.5.5.7.3.1"), oid("1.3.6.1.5.5.7.3.2"))),
        extension("2.5.29.17", sequence(value(0x82, host), value(0x82, b"www." + host), value(0x87, rng.randbytes(4)))),
        extension("2.5.29.14", value(0x04, key_identifier(rng))),
        extension("2.5.29.35", sequence(value(0x80, key_identifier(rng)))),
        extension("2.5.29.32", sequence(sequence(oid("2.23.140.1.2.1")))),
        extension("1.3.6.1.5.5.7.1.1", sequence(
            sequence(oid(pages + "1"), value(0x86, b"http://ocsp.example.com")),
            sequence(oid(pages + "2"), value(0x86, b"http://ca.example.com/issuer.der")))),
        extension("2.5.29.31", sequence(sequence(value(0xA0, value(0xA0, value(0x86, b"http://crl.example.com/%d.crl" % (number % 64))))))),
    ]
    return chosen[:rng.randint(6, 9)]


def certificate_of(serial, algorithm, issuer, subject, key_info, extensions, signature, seed=1):
    tbs = sequence(
        value(0xA0, integer(2)), integer(serial), algorithm, issuer, sequence(utc_time(seed), utc_time(seed + 1)), subject, key_info,
        value(0xA3, sequence(*extensions)) if extensions else b"")
    return sequence(tbs, algorithm, bits(signature))


def certificate(rng, number):
    rsa = number % 2 == 0
    algorithm = RSA_SHA256 if rsa else ECDSA_SHA256
    issuer = name(("2.5.4.6", "US"), ("2.5.4.10", "Example Trust Services"), ("2.5.4.3", "Example Issuing CA %d" % (number % 64)))
    subject = name(
        ("2.5.4.6", "DE"), ("2.5.4.8", "Hamburg"), ("2.5.4.10", "Example GmbH %d" % number), ("2.5.4.3", "host%d.example.com" % number))
    if rsa:
        modulus = int.from_bytes(rng.randbytes(256), "big") | 1 << 2047 | 1
        key = sequence(sequence(oid("1.2.840.113549.1.1.1"), NULL), bits(sequence(integer(modulus), integer(65537))))
        signature = rng.randbytes(256)
    else:
        key = sequence(sequence(oid("1.2.840.10045.2.1"), oid("1.2.840.10045.3.1.7")), bits(b"\x04" + rng.randbytes(64)))
        signature = sequence(integer(rng.getrandbits(255)), integer(rng.getrandbits(255)))
    serial = rng.getrandbits(126) | 1 << 126
    return certificate_of(serial, algorithm, issuer, subject, key, subject_extensions(rng, number), signature, number)


def revocation_list(rng, size):
    """A list of revoked certificates of about so many octets: each entry has a serial number, a time and a reason."""
    reason = sequence(extension("2.5.29.21", value(0x0A, b"\x01")))
    entries = []
    total = 0
    while total < size:
        entry = sequence(integer(rng.getrandbits(126) | 1 << 126), utc_time(len(entries)), reason if len(entries) % 2 else b"")
        entries.append(entry)
        total += len(entry)
    issuer = name(("2.5.4.6", "US"), ("2.5.4.10", "Example Trust Services"), ("2.5.4.3", "Example Issuing CA"))
    tbs = sequence(integer(1), RSA_SHA256, issuer, utc_time(1), utc_time(2), sequence(*entries))
    return sequence(tbs, RSA_SHA256, bits(rng.randbytes(256))), len(entries)


def damaged(rng, texts, count):
    """Texts that are one or two mistakes away from a text."""
    made = []
    while len(made) < count:
        text = bytearray(rng.choice(texts))
        for _ in range(rng.randint(1, 2)):
            place = rng.randrange(len(text))
            kind = rng.randrange(4)
            if kind == 0:
                text[place] = rng.choice([0x00, 0x1F, 0x22, 0x30, 0x7F, 0x80, 0x81, 0x82, 0x84, 0xFF, rng.randrange(256)])
            elif kind == 1:
                text[place] ^= 1 << rng.randrange(8)
            elif kind == 2:
                del text[place:place + rng.randint(1, 3)]
            else:
                text[place:place] = rng.randbytes(rng.randint(1, 3))
            text = text or bytearray(b"\0")
        made.append(bytes(text))
    return made


def small_values(rng, count):
    """Texts of a few octets, most of them not DER."""
    identifiers = [0x01, 0x02, 0x03, 0x04, 0x05, 0x06, 0x0A, 0x0C, 0x30, 0x31, 0x80, 0xA0, 0x10, 0x21, 0x1F, 0x00]
    octets = [0x00, 0x01, 0x02, 0x03, 0x7F, 0x80, 0x81, 0x82, 0x83, 0x84, 0xFE, 0xFF, 0x30, 0x05]
    return [
        bytes([rng.choice(identifiers)] + [rng.choice(octets) for _ in range(rng.randrange(12))])[:rng.randint(0, 13)]
        for _ in range(count)
    ]


def nested(depth):
    text = b""
    for _ in range(depth):
        text = sequence(text)
    return text


def repeated(member, size):
    return sequence(member * (size // len(member)))


def plain_certificate(issuer=None, extensions=()):
    issuer = issuer if issuer is not None else name(("2.5.4.3", "CA"))
    key = sequence(sequence(oid("1.2.840.10045.2.1")), bits(b"\x04" * 65))
    return certificate_of(1, ECDSA_SHA256, issuer, name(("2.5.4.3", "host")), key, list(extensions), b"\x30\x00")


def crowded_rdn(count, sizes=1):
    """A name of one RDN with so many attributes, of different types and of so many sizes."""
    attributes = [attribute("1.3.6.1.4.1.%d" % (1 << 21 | number), "x" * (number % sizes)) for number in range(count)]
    return sequence(value(0x31, *sorted(attributes)))


def many_extensions(count, critical=False):
    return plain_certificate(extensions=(extension("1.3.6.1.4.1.%d" % (1 << 21 | number), NULL, critical) for number in range(count)))


def hostile():
    size = MOST - 16
    host = b".".join([b"a" * 63] * 3)
    names = sequence(*(value(0x82, host) for _ in range(4096)))
    directory = sequence(value(0xA4, crowded_rdn(4000, 64)))
    return {
        "nested-32-deep": repeated(nested(31), size),
        "nested-33-deep": nested(33),
        "a-million-empty-values": sequence(b"\x04\0" * 1000000),
        "eight-million-nulls": repeated(NULL, size),
        "small-integers": repeated(integer(1), size),
        "one-long-oid": sequence(value(0x06, b"\x2a" + b"\x81\x01" * (size // 2 - 8))),
        "small-oids": repeated(oid("2.5.4.3"), size),
        "long-lengths": repeated(value(0x04, bytes(128)), size),
        "one-octet-string": sequence(value(0x04, bytes(size))),
        "certificate-rdn-of-4000": plain_certificate(crowded_rdn(4000)),
        "certificate-rdn-of-4000-in-64-sizes": plain_certificate(crowded_rdn(4000, 64)),
        "certificate-10000-extensions": many_extensions(10000),
        "certificate-10000-critical-extensions": many_extensions(10000, True),
        "certificate-4096-dns-names": plain_certificate(extensions=[extension("2.5.29.17", names)]),
        "certificate-crowded-directory-name": plain_certificate(extensions=[extension("2.5.29.17", directory)]),
        "certificate-100000-purposes": plain_certificate(extensions=[extension("2.5.29.37", sequence(oid("1.3.6.1.5.5.7.3.1") * 100000))]),
    }


def debian_roots():
    """The certificates of the machine's package ca-certificates, where it is there."""
    found = set()
    for path in glob.glob("/usr/share/ca-certificates/**/*.crt", recursive=True) + glob.glob("/etc/ssl/certs/*.pem"):
        try:
            text = open(path, encoding="ascii", errors="replace").read()
        except OSError:
            continue
        for block in re.findall("-----BEGIN CERTIFICATE-----(.*?)-----END CERTIFICATE-----", text, re.S):
            found.add(base64.b64decode(block))
    return sorted(found)


def write(folder, title, texts):
    with open(os.path.join(folder, title + ".texts"), "wb") as out:
        for text in texts:
            out.write(struct.pack("<I", len(text)) + text)


def main(folder):
    os.makedirs(os.path.join(folder, "hostile"), exist_ok=True)
    rng = random.Random(20240229)
    listed, entries = revocation_list(rng, 16000000)
    write(folder, "revocation-list", [listed])
    certificates = [certificate(rng, number) for number in range(10000)]
    write(folder, "certificates", certificates)
    roots = debian_roots()
    if roots:
        write(folder, "ca-certificates", roots)
    write(folder, "damaged", damaged(rng, certificates[:200] + roots, 6000) + small_values(rng, 6000))
    for title, text in hostile().items():
        write(os.path.join(folder, "hostile"), title, [text])
    print("%d entries in the revocation list; %d certificates; %d of ca-certificates" % (entries, len(certificates), len(roots)))


if __name__ == "__main__":
    main(sys.argv[1])
