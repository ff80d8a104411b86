"""Judges the signatures of certificates, for a node and for `run`: which of what a verifier is asked is good.

The authority signs everything by ECDSA with SHA-256 and a key on P-256, so that is all this file knows; bin/verdicts serves more. It
is imported, and needs the Debian package python3-cryptography.
"""

import functools
import hashlib
from typing import List

from cryptography import x509
from cryptography.exceptions import InvalidSignature
from cryptography.hazmat.primitives import hashes
from cryptography.hazmat.primitives.asymmetric import ec
from cryptography.hazmat.primitives.serialization import Encoding, PublicFormat

ECDSA_SHA256 = bytes.fromhex("300a06082a8648ce3d040302")   # the whole algorithm identifier


def fingerprint(*texts: bytes) -> str:
    """That of algorithm, key, message and signature: the SHA-256 of the four, each behind its length in 8 octets."""
    return hashlib.sha256(b"".join(len(text).to_bytes(8, "big") + text for text in texts)).hexdigest()


def info_of(key: ec.EllipticCurvePublicKey) -> bytes:
    """The whole subjectPublicKeyInfo of the key."""
    return key.public_bytes(Encoding.DER, PublicFormat.SubjectPublicKeyInfo)


def signed(key: ec.EllipticCurvePublicKey, message: bytes, signature: bytes) -> List[str]:
    """The fingerprint, if the key made the signature."""
    try:
        key.verify(signature, message, ec.ECDSA(hashes.SHA256()))
    except InvalidSignature:
        return []
    return [fingerprint(ECDSA_SHA256, info_of(key), message, signature)]


@functools.lru_cache(maxsize=None)
def key_of(certificate: bytes) -> ec.EllipticCurvePublicKey:
    return x509.load_der_x509_certificate(certificate).public_key()


@functools.lru_cache(maxsize=None)
def of_certificate(issuer: bytes, certificate: bytes) -> List[str]:
    read = x509.load_der_x509_certificate(certificate)
    return signed(key_of(issuer), read.tbs_certificate_bytes, read.signature)
