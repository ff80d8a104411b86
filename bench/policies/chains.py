"""Paths whose certificates map each of many policies to each, so that the valid_policy_tree of RFC 5280, 6.1, grows with the power of their
number (CVE-2023-0464; RFC 9618), with ECDSA signatures.

It wants the package `cryptography`."""

import datetime

from cryptography import x509
from cryptography.hazmat.primitives import hashes
from cryptography.hazmat.primitives.asymmetric import ec
from cryptography.hazmat.primitives.serialization import Encoding

from x509check._der import OBJECT_IDENTIFIER, SEQUENCE, contents_of, encoded

BEGIN, END = datetime.datetime(2026, 1, 1), datetime.datetime(2027, 1, 1)
MAPPINGS = x509.ObjectIdentifier("2.5.29.33")


def policy(number):
    return f"1.3.6.1.4.1.99999.{number}"


def mappings(count):
    """policyMappings of each of so many policies to each (RFC 5280, 4.2.1.5)."""
    them = [encoded(OBJECT_IDENTIFIER, contents_of(policy(number))) for number in range(count)]
    return encoded(SEQUENCE, *(encoded(SEQUENCE, one, other) for one in them for other in them))


def certificate(number, own, signer, policies, is_last):
    subject, issuer = (x509.Name([x509.NameAttribute(x509.NameOID.COMMON_NAME, f"Authority {it}")]) for it in (number, max(number - 1, 0)))
    made = x509.CertificateBuilder().subject_name(subject).issuer_name(issuer).public_key(own.public_key()).serial_number(number + 1)
    made = made.not_valid_before(BEGIN).not_valid_after(END).add_extension(x509.BasicConstraints(not is_last, None), critical=True)
    if number:
        stated = [x509.PolicyInformation(x509.ObjectIdentifier(policy(it)), None) for it in range(policies)]
        made = made.add_extension(x509.CertificatePolicies(stated), critical=False)
    if number and not is_last:
        made = made.add_extension(x509.UnrecognizedExtension(MAPPINGS, mappings(policies)), critical=False)
    return made.sign(signer, hashes.SHA256()).public_bytes(Encoding.DER)


def chain(length, policies):
    """The anchor, and so many certificates below it, each of which states so many policies, and all but the last map each to each."""
    keys = [ec.generate_private_key(ec.SECP256R1()) for _ in range(length + 1)]
    return [certificate(it, keys[it], keys[max(it - 1, 0)], policies, it == length) for it in range(length + 1)]


def write(path, certificates):
    """The certificates, the anchor first, each behind its length in 4 octets, the lowest first."""
    with open(path, "wb") as file:
        file.writelines(len(one).to_bytes(4, "little") + one for one in certificates)
