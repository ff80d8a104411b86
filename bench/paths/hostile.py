#!/usr/bin/env python3
"""Writes paths whose authorities carry as many name constraints as they may: hostile.py FOLDER

Each file is a list of certificates in the form of paths.py, under a name that says its shape. All paths are valid, so that each constraint
has to be looked at. The lists are in no order; the seed is fixed.
"""

import os
import random
import struct
import sys

from paths import certificate, extension, name
from data import sequence, value

LIMIT = 4096  # the most subtrees, and the most alternative names, of a certificate


def dns(text):
    return value(0x82, text.encode())


def address(number, prefix=None):
    """An IPv6 address of 2001:db8::/32, or a range of such."""
    octets = b"\x20\x01\x0d\xb8" + number.to_bytes(4, "big") + bytes(8)
    mask = b"" if prefix is None else ((1 << 128) - (1 << (128 - prefix))).to_bytes(16, "big")
    return value(0x87, octets + mask)


def directory(text):
    return value(0xA4, name(text))


def mail(text):
    return value(0x81, text.encode())


def uri(text):
    return value(0x86, text.encode())


def shuffled(bases):
    bases = list(bases)
    random.shuffle(bases)
    return [sequence(base) for base in bases]


def constraints(permitted, excluded):
    lists = [value(tag, *shuffled(bases)) for tag, bases in ((0xA0, permitted), (0xA1, excluded)) if bases]
    return extension("2.5.29.30", sequence(*lists), critical=True)


def path(depth, permitted, excluded, alternatives):
    """A path whose authorities, by their numbers, permit and exclude these bases."""
    yield certificate(1, name("Root"), name("Root"), [])
    for number in range(1, depth):
        subject, issuer = name("Authority %d" % number), name("Authority %d" % (number - 1) if number > 1 else "Root")
        yield certificate(number + 1, subject, issuer, [constraints(permitted(number), excluded(number))])
    names = extension("2.5.29.17", sequence(*alternatives))
    yield certificate(depth + 1, sequence(), name("Authority %d" % (depth - 1)), [names], is_ca=False)


def none(_):
    return []


def shapes():
    """Name, depth, permitted and excluded bases of each authority, and alternative names of the last certificate."""

    def permit(count):
        return lambda _: [dns("n%d.example" % k) for k in range(count)]

    def exclude(number):
        return [dns("n%d.c%d.example" % (k, number)) for k in range(LIMIT)]

    def turns(number):
        """Every second certificate has wide subtrees, and the others narrow ones inside them."""
        return [dns("n%d.example" % k if number % 2 else "a%d.n%d.example" % (number, k)) for k in range(LIMIT)]

    one = [dns("www.n0.example")]
    for depth, count in ((4, 1024), (4, LIMIT), (16, LIMIT), (128, LIMIT)):
        yield "permitted_%d_%d" % (depth, count), depth, permit(count), none, one
    yield "narrower_16_4096", 16, lambda n: turns(min(n, 2)), none, [dns("a2.n0.example")]
    yield "excluded_128_4096", 128, none, exclude, one
    yield "names_16_4096", 16, permit(LIMIT), none, [dns("www.n%d.example" % k) for k in range(LIMIT)]
    yield "spared_128_4096", 128, none, exclude, [dns("www.n%d.example" % k) for k in range(LIMIT)]
    ranges = [address(k, 64) for k in range(LIMIT)]
    hosts = [address(k) for k in range(LIMIT)]
    for depth in (16, 128):
        yield "addresses_%d_4096" % depth, depth, lambda _: ranges, none, hosts
    people = [directory("Authority %d" % k) for k in range(LIMIT)]

    def strangers(number):
        return [directory("Person %d of %d" % (k, number)) for k in range(LIMIT)]

    for count in (16, 64, 1024):
        yield "directory_4_%d" % count, 4, lambda _: people[:count], none, one
    for depth in (16, 128):
        yield "directory_%d_4096" % depth, depth, lambda _: people, none, people
    third = LIMIT // 3
    mixed = permit(third)(0) + ranges[:third] + people[:third]
    names = [dns("www.n%d.example" % k) for k in range(third)] + hosts[:third] + people[:third]
    yield "mixed_128_4096", 128, lambda _: mixed, none, names
    yield "strangers_128_4096", 128, none, strangers, one
    boxes = [mail("u%d@n%d.example" % (k, k % 64)) for k in range(LIMIT)]
    yield "mail_128_4096", 128, lambda _: boxes, none, boxes
    yield "mail_excluded_128_4096", 128, none, lambda number: [mail("u%d@c%d.example" % (k, number)) for k in range(LIMIT)], boxes
    sites = ["n%d.example" % k for k in range(LIMIT)]
    pages = [uri("https://%s/" % site) for site in sites]
    yield "uris_128_4096", 128, lambda _: [uri(site) for site in sites], none, pages
    yield "uris_excluded_128_4096", 128, none, lambda number: [uri(".n%d.c%d.example" % (k, number)) for k in range(LIMIT)], pages


def main(folder):
    random.seed(5280)
    for title, *shape in shapes():
        with open(os.path.join(folder, title), "wb") as out:
            for octets in path(*shape):
                out.write(struct.pack("<I", len(octets)) + octets)
        print(title)


if __name__ == "__main__":
    main(sys.argv[1])
