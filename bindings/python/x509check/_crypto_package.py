"""Signatures verified by the package cryptography."""

import functools
from typing import Any, List

from ._crypto_schemes import JudgeFailed, Key, Kind, Scheme

NAME = "cryptography"


@functools.lru_cache(maxsize=None)
def loaded() -> Any:
    """What is needed of the package, or None if it is not there."""
    try:
        from cryptography import exceptions
        from cryptography.hazmat.primitives import hashes, serialization
        from cryptography.hazmat.primitives.asymmetric import ec, padding
    except ImportError:
        return None
    return exceptions, hashes, serialization, ec, padding


def _arguments(scheme: Scheme) -> List[Any]:
    """What a key is told beside signature and message."""
    _, hashes, _, ec, padding = loaded()
    if not scheme.digest:
        return []
    digest = getattr(hashes, scheme.digest.upper())()
    if scheme.kind is Kind.EC:
        return [ec.ECDSA(digest)]
    if scheme.pss is None:
        return [padding.PKCS1v15(), digest]
    mask = getattr(hashes, scheme.pss.mask.upper())()
    return [padding.PSS(mgf=padding.MGF1(mask), salt_length=scheme.pss.salt), digest]


def verify(scheme: Scheme, key: Key, message: bytes, signature: bytes) -> bool:
    """Whether the signature is good. Raises JudgeFailed."""
    exceptions, _, serialization, _, _ = loaded()
    try:
        public = serialization.load_der_public_key(key.info)
    except (exceptions.UnsupportedAlgorithm, ValueError) as cause:
        raise JudgeFailed("the package cryptography does not take the key, which is served") from cause
    try:
        public.verify(signature, message, *_arguments(scheme))
    except exceptions.InvalidSignature:
        return False
    except (exceptions.UnsupportedAlgorithm, ValueError) as cause:
        raise JudgeFailed("the package cryptography does not take the algorithm, which is served") from cause
    return True
