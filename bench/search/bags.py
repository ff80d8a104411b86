"""Bags of certificates: what servers send, and what was made to be hard. Each is anchors, a target and others, and an empty revocation list
of each authority, with ECDSA signatures.

It wants the package `cryptography`."""

import datetime
import random

from cryptography import x509
from cryptography.hazmat.primitives import hashes
from cryptography.hazmat.primitives.asymmetric import ec
from cryptography.hazmat.primitives.serialization import Encoding

BEGIN, MOMENT = datetime.datetime(2026, 1, 1), datetime.datetime(2026, 7, 1)
END, PAST = datetime.datetime(2027, 1, 1), datetime.datetime(2026, 2, 1)


def key():
    return ec.generate_private_key(ec.SECP256R1())


class Maker:
    """Certificates with serial numbers of their own."""

    def __init__(self):
        self.serial = 0

    def make(self, name, own, issuer, signer, is_authority=True, end=END):
        self.serial += 1
        subject, by = (x509.Name([x509.NameAttribute(x509.NameOID.COMMON_NAME, it)]) for it in (name, issuer))
        made = x509.CertificateBuilder().subject_name(subject).issuer_name(by).public_key(own.public_key()).serial_number(self.serial)
        made = made.not_valid_before(BEGIN).not_valid_after(end)
        made = made.add_extension(x509.BasicConstraints(is_authority, None), critical=True)
        if not is_authority:
            made = made.add_extension(x509.SubjectAlternativeName([x509.DNSName("mx.example.org")]), critical=False)
        return made.sign(signer, hashes.SHA256()).public_bytes(Encoding.DER)


def empty_list(name, own):
    """A revocation list of an authority that revokes nothing."""
    made = x509.CertificateRevocationListBuilder().issuer_name(x509.Name([x509.NameAttribute(x509.NameOID.COMMON_NAME, name)]))
    made = made.last_update(BEGIN).next_update(END).add_extension(x509.CRLNumber(1), critical=False)
    return made.sign(own, hashes.SHA256()).public_bytes(Encoding.DER)


def all_bags():
    """By name: anchors, the target, the others, whether there is a valid path, and the lists."""
    maker, keys = Maker(), [key() for _ in range(64)]
    make, (root, issuer, leaf, stranger) = maker.make, [key() for _ in range(4)]
    anchor = make("Root", root, "Root", root)
    middle, target = make("Issuer", issuer, "Root", root), make("leaf", leaf, "Issuer", issuer, False)
    # Each authority signs each other, and one of them the target.
    mesh = [make(f"A{i}", keys[i], f"A{j}", keys[j]) for i in range(10) for j in range(10) if i != j]
    of_mesh = make("leaf", leaf, "A0", keys[0], False)
    top = make("A9", keys[9], "Root", root)
    # Each of the five signs the next, and the last the first: no authority outside signed one of them.
    loop = [make(f"L{i}", keys[i], f"L{(i + 1) % 5}", keys[(i + 1) % 5]) for i in range(5)]
    of_loop = make("leaf", leaf, "L0", keys[0], False)
    thousand = [make("Issuer", keys[i % 64], "Root", root) for i in range(1000)]
    same = [make("Issuer", issuer, "Root", root) for _ in range(64)]
    under_expired = [make("Issuer", issuer, "Root", root, end=PAST) for _ in range(64)]
    # A chain of 24 authorities, of each of which there are four, with one key: 4^24 paths, none of them to the anchor.
    ladder = [make(f"S{i}", keys[i], f"S{i + 1}", keys[i + 1]) for i in range(24) for _ in range(4)]
    of_ladder = make("leaf", leaf, "S0", keys[0], False)
    anchors = [make(f"Root {i}", keys[i % 64], f"Root {i}", keys[i % 64]) for i in range(140)]
    expired_cross = [make("Root", root, "Old", stranger, end=PAST), make("Old", stranger, "Old", stranger, end=PAST)]
    bags = {
        "plain": ([anchor], target, [middle], True),
        "anchors": ([*anchors, anchor], target, [middle], True),
        "expired": ([anchor], target, [*expired_cross, middle], True),
        "mesh": ([anchor], of_mesh, mesh, False),
        "mesh/anchored": ([anchor], of_mesh, [*mesh, top], True),
        "loop": ([anchor], of_loop, loop, False),
        "thousand": ([anchor], target, [*thousand, middle], True),
        "same": ([anchor], target, same, True),
        "same/expired": ([anchor], target, [*under_expired, middle], True),
        "ladder": ([anchor], of_ladder, ladder, False),
        "ladder/anchored": ([anchor], of_ladder, [*ladder, make("S24", keys[24], "Root", root)], True),
    }
    plain = [empty_list("Root", root), empty_list("Issuer", issuer)]
    numbered = {"mesh": ("A", 10), "loop": ("L", 5), "ladder": ("S", 25)}
    chance, all_of_them = random.Random(1), {}
    for name, (tops, leaf_of_it, others, is_valid) in bags.items():
        letter, count = numbered.get(name.partition("/")[0], ("", 0))
        lists = plain + [empty_list(f"{letter}{i}", keys[i]) for i in range(count)]
        all_of_them[name] = (tops, leaf_of_it, chance.sample(others, len(others)), is_valid, lists)
    return all_of_them


def write(folder, name, tops, target, others):
    """A file for the programs: three lists, each behind its length, of certificates, each behind its length, in 4 octets."""
    octets = b""
    for values in (tops, [target], others):
        octets += len(values).to_bytes(4, "little") + b"".join(len(it).to_bytes(4, "little") + it for it in values)
    path = f"{folder}/{name.replace('/', '_')}"
    with open(path, "wb") as file:
        file.write(octets)
    return path
