"""What an algorithm identifier and a subjectPublicKeyInfo say: which scheme of signatures, and which key (RFC 3279, 4055, 5480, 5758, 8410).

The judge reads both here, for every engine alike. An engine gets a key in one form, and only schemes and keys that are served.
"""

import enum
from typing import Dict, FrozenSet, List, NamedTuple, Optional, Tuple

from . import _der
from ._curves import SIZES, is_on_curve
from ._der import Value


class NotServed(ValueError):
    """Why nobody here can tell whether a signature is good."""


class JudgeFailed(RuntimeError):
    """The library for signatures failed at an algorithm and a key that are served: nothing is said of the signature."""


class Kind(enum.Enum):
    """Of a key, and of the keys that a scheme is for."""

    RSA = "RSA"
    EC = "elliptic curve"
    ED25519 = "Ed25519"
    ED448 = "Ed448"


class Pss(NamedTuple):
    """RSASSA-PSS-params (RFC 4055, 3.1); the trailer field is 1."""

    digest: str
    mask: str
    """The digest of the mask generation function."""
    salt: int
    """In octets."""


class Scheme(NamedTuple):
    kind: Kind
    digest: str = ""
    """Of the message; EdDSA has its own."""
    pss: Optional[Pss] = None

    @property
    def digests(self) -> FrozenSet[str]:
        """All that its strength rests on and that a policy may refuse."""
        return frozenset(filter(None, (self.digest, self.pss.mask if self.pss else "")))


class Key(NamedTuple):
    kind: Kind
    info: bytes
    """The subjectPublicKeyInfo for an engine; that of an RSA key has the identifier rsaEncryption."""
    bits: int = 0
    """Of the modulus of an RSA key."""
    curve: str = ""
    only_pss: bool = False
    point: bytes = b""
    """Of a key on a curve of the kind EC, which need not be on it (`want_point`)."""
    least: Optional[Pss] = None
    """What a key for RSASSA-PSS alone asks of the parameters of its signatures, if it does (RFC 4055, 3.3)."""


# Octets of the digest, and of what stands before it in a DigestInfo (RFC 8017, 9.2, note 1).
DIGESTS: Dict[str, Tuple[int, int]] = {"sha1": (20, 15), "sha224": (28, 19), "sha256": (32, 19), "sha384": (48, 19), "sha512": (64, 19)}
CURVES = SIZES
# OpenSSL takes no longer modulus, and beside a long one no longer exponent.
RSA_BITS_LEAST, RSA_BITS_MOST, EXPONENT_BITS_MOST = 512, 16384, 64
SIGNATURE_OCTETS = {Kind.ED25519: 64, Kind.ED448: 114}
_KEY_OCTETS = {Kind.ED25519: 32, Kind.ED448: 57}

_DIGEST_IDENTIFIERS = {
    _der.contents_of(text): name for text, name in (
        ("1.3.14.3.2.26", "sha1"), ("2.16.840.1.101.3.4.2.4", "sha224"), ("2.16.840.1.101.3.4.2.1", "sha256"),
        ("2.16.840.1.101.3.4.2.2", "sha384"), ("2.16.840.1.101.3.4.2.3", "sha512"))
}
_CURVE_IDENTIFIERS = {
    _der.contents_of(text): name for text, name in (
        ("1.3.132.0.33", "P-224"), ("1.2.840.10045.3.1.7", "P-256"), ("1.3.132.0.34", "P-384"), ("1.3.132.0.35", "P-521"),
        ("1.3.132.0.10", "secp256k1"), ("1.3.36.3.3.2.8.1.1.7", "brainpoolP256r1"), ("1.3.36.3.3.2.8.1.1.11", "brainpoolP384r1"),
        ("1.3.36.3.3.2.8.1.1.13", "brainpoolP512r1"))
}
_PKCS1_SCHEMES = {
    _der.contents_of(f"1.2.840.113549.1.1.{last}"): Scheme(Kind.RSA, digest) for last, digest in (
        (5, "sha1"), (14, "sha224"), (11, "sha256"), (12, "sha384"), (13, "sha512"))
}
_BARE_SCHEMES = {
    **{_der.contents_of(f"1.2.840.10045.4.{last}"): Scheme(Kind.EC, digest) for last, digest in (
        ("1", "sha1"), ("3.1", "sha224"), ("3.2", "sha256"), ("3.3", "sha384"), ("3.4", "sha512"))},
    _der.contents_of("1.3.101.112"): Scheme(Kind.ED25519),
    _der.contents_of("1.3.101.113"): Scheme(Kind.ED448),
}
_RSA, _PSS, _MGF1, _EC = (
    _der.contents_of(text) for text in ("1.2.840.113549.1.1.1", "1.2.840.113549.1.1.10", "1.2.840.113549.1.1.8", "1.2.840.10045.2.1"))
_NULL = _der.encoded(_der.NULL)


def _named(contents: bytes) -> str:
    """An OBJECT IDENTIFIER in words."""
    return _der.dotted(contents) if len(contents) <= 32 else f"with an identifier of {len(contents)} octets"


def _identifier(value: Value) -> Tuple[bytes, Optional[Value]]:
    """An AlgorithmIdentifier: the contents of its OBJECT IDENTIFIER, and the parameters if there are any (RFC 5280, 4.1.1.2)."""
    members = value.as_a(_der.SEQUENCE).members(2)
    if not members:
        raise ValueError("no algorithm identifier")
    return members[0].as_a(_der.OBJECT_IDENTIFIER).contents, members[1] if len(members) == 2 else None


def _want_null(parameters: Optional[Value]) -> None:
    """NULL, or nothing: whoever verifies has to take both (RFC 4055, 2.1 and 5)."""
    if parameters is not None and parameters.whole != _NULL:
        raise ValueError("parameters where NULL is wanted")


def _want_none(parameters: Optional[Value]) -> None:
    if parameters is not None:
        raise ValueError("parameters where none are wanted")


def _digest(value: Value) -> str:
    contents, parameters = _identifier(value)
    if contents not in _DIGEST_IDENTIFIERS:
        raise ValueError(f"a digest {_named(contents)} that is not served")
    _want_null(parameters)
    return _DIGEST_IDENTIFIERS[contents]


def _mask(value: Value) -> str:
    """The digest of MGF1, the only mask generation function (RFC 4055, 2.2)."""
    contents, parameters = _identifier(value)
    if contents != _MGF1 or parameters is None:
        raise ValueError("a mask generation function that is not served")
    return _digest(parameters)


def _pss(value: Value) -> Pss:
    """The parameters, of which whoever verifies has to take the defaults spelled out too (RFC 4055, 3.1)."""
    digest, mask, salt, trailer = "sha1", "sha1", 20, 1
    last = -1
    for member in value.as_a(_der.SEQUENCE).members(4):
        tag = member.identifier - 0xA0
        if not last < tag <= 3:
            raise ValueError("parameters of RSASSA-PSS that are none")
        last, inner = tag, member.only_member()
        if tag == 0:
            digest = _digest(inner)
        elif tag == 1:
            mask = _mask(inner)
        elif tag == 2:
            salt = inner.unsigned()
        else:
            trailer = inner.unsigned()
    if trailer != 1:
        raise ValueError("a trailer field of RSASSA-PSS that is not 1")
    return Pss(digest, mask, salt)


def _scheme(octets: bytes) -> Scheme:
    contents, parameters = _identifier(_der.value(octets))
    if contents == _PSS:
        if parameters is None:
            raise ValueError("RSASSA-PSS without parameters")
        pss = _pss(parameters)
        return Scheme(Kind.RSA, pss.digest, pss)
    if contents in _PKCS1_SCHEMES:
        _want_null(parameters)
        return _PKCS1_SCHEMES[contents]
    if contents in _BARE_SCHEMES:
        _want_none(parameters)
        return _BARE_SCHEMES[contents]
    raise ValueError(f"{_named(contents)} is not served")


def read_scheme(octets: bytes) -> Scheme:
    """The scheme that a whole AlgorithmIdentifier names. Raises NotServed."""
    try:
        return _scheme(octets)
    except ValueError as cause:
        raise NotServed(f"the algorithm: {cause}") from cause


def _rsa_key(octets: bytes) -> Key:
    """RSAPublicKey ::= SEQUENCE { modulus INTEGER, publicExponent INTEGER } (RFC 8017, A.1.1)."""
    members = _der.value(octets).as_a(_der.SEQUENCE).members(2)
    if len(members) != 2:
        raise ValueError("no RSA key")
    modulus, exponent = (member.unsigned() for member in members)
    bits = modulus.bit_length()
    if not RSA_BITS_LEAST <= bits <= RSA_BITS_MOST:
        raise ValueError(f"a modulus of {bits} bits")
    if modulus % 2 == 0 or exponent % 2 == 0 or exponent < 3 or exponent.bit_length() > EXPONENT_BITS_MOST:
        raise ValueError("a modulus or an exponent that is not served")
    identifier = _der.encoded(_der.SEQUENCE, _der.encoded(_der.OBJECT_IDENTIFIER, _RSA), _NULL)
    return Key(Kind.RSA, _der.encoded(_der.SEQUENCE, identifier, _der.encoded(_der.BIT_STRING, b"\0", octets)), bits)


def _ec_key(octets: bytes, parameters: Optional[Value], info: bytes) -> Key:
    """A point, whole or compressed, on a curve with a name (RFC 5480, 2.1.1 and 2.2)."""
    if parameters is None or parameters.identifier != _der.OBJECT_IDENTIFIER:
        raise ValueError("a curve that has no name")
    if parameters.contents not in _CURVE_IDENTIFIERS:
        raise ValueError(f"a curve {_named(parameters.contents)} that is not served")
    curve = _CURVE_IDENTIFIERS[parameters.contents]
    if (octets[:1], len(octets)) not in ((b"\4", 1 + 2 * CURVES[curve]), (b"\2", 1 + CURVES[curve]), (b"\3", 1 + CURVES[curve])):
        raise ValueError(f"no point on {curve}")
    return Key(Kind.EC, info, curve=curve, point=octets)


def _edwards_key(kind: Kind, octets: bytes, info: bytes) -> Key:
    if len(octets) != _KEY_OCTETS[kind]:
        raise ValueError(f"no {kind.value} key")
    return Key(kind, info, curve=kind.value)


def _key(info: bytes) -> Key:
    members = _der.value(info).as_a(_der.SEQUENCE).members(2)
    if len(members) != 2:
        raise ValueError("no subjectPublicKeyInfo")
    contents, parameters = _identifier(members[0])
    octets = members[1].whole_octets()
    if contents == _RSA:
        if parameters is None:
            raise ValueError("an RSA key without NULL")
        _want_null(parameters)
        return _rsa_key(octets)
    if contents == _PSS:
        return _rsa_key(octets)._replace(only_pss=True, least=None if parameters is None else _pss(parameters))
    if contents == _EC:
        return _ec_key(octets, parameters, info)
    scheme = _BARE_SCHEMES.get(contents)
    if scheme is None or scheme.kind not in _KEY_OCTETS:
        raise ValueError(f"keys of the kind {_named(contents)} are not served")
    _want_none(parameters)
    return _edwards_key(scheme.kind, octets, info)


def read_key(info: bytes) -> Key:
    """The key in a whole subjectPublicKeyInfo. Raises NotServed."""
    try:
        return _key(info)
    except ValueError as cause:
        raise NotServed(f"the key: {cause}") from cause


def want_point(key: Key) -> None:
    """Raises NotServed if the point of a key is not on its curve: no library takes it, and whatever else a library does not take is a failure."""
    if key.kind is Kind.EC and not is_on_curve(key.curve, key.point):
        raise NotServed(f"the key: no point on {key.curve}")


def _too_short(scheme: Scheme, bits: int) -> bool:
    """Whether no signature of the scheme fits such a modulus (RFC 8017, 9.1.1, step 3, and 9.2, step 3)."""
    octets, prefix = DIGESTS[scheme.digest]
    if scheme.pss:
        return (bits + 6) // 8 < octets + scheme.pss.salt + 2
    return (bits + 7) // 8 < prefix + octets + 11


def _excluded_by_key(scheme: Scheme, key: Key) -> str:
    """Why no signature of the scheme counts as one by the RSA key, if that is so (RFC 4055, 3.3)."""
    if key.only_pss and not scheme.pss:
        return "the key is for RSASSA-PSS alone"
    if scheme.pss and key.least and scheme.pss[:2] != key.least[:2]:
        return "the key is for other digests"
    if scheme.pss and key.least and scheme.pss.salt < key.least.salt:
        return "the key wants a longer salt"
    return "the key is too short for it" if _too_short(scheme, key.bits) else ""


def _is_pair(signature: bytes) -> bool:
    """Whether it is an ECDSA-Sig-Value, two numbers above 0 (RFC 3279, 2.2.3)."""
    try:
        numbers: List[int] = [member.unsigned() for member in _der.value(signature).as_a(_der.SEQUENCE).members(2)]
    except ValueError:
        return False
    return len(numbers) == 2 and min(numbers) > 0


def wrong_without_engine(scheme: Scheme, key: Key, signature: bytes) -> str:
    """Why the signature is wrong, whatever the message says; empty if an engine has to look."""
    if scheme.kind is not key.kind:
        return f"an {key.kind.value} key makes no signature of this algorithm"
    if scheme.kind is Kind.EC:
        return "" if _is_pair(signature) else "it has not the form of an ECDSA signature"
    wanted = SIGNATURE_OCTETS.get(scheme.kind, (key.bits + 7) // 8)
    excluded = _excluded_by_key(scheme, key) if scheme.kind is Kind.RSA else ""
    return excluded or ("" if len(signature) == wanted else f"it has {len(signature)} octets and not {wanted}")
