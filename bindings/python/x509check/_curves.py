"""Elliptic curves with a name, and which points are on them (SEC 1, 2.3.4; SEC 2; FIPS 186-4, D.1.2; RFC 5639)."""

from typing import Dict, Tuple

# Of y^2 = x^3 + a x + b over the field of p elements: p, a and b. All have the cofactor 1.
_EQUATIONS: Dict[str, Tuple[int, int, int]] = {
    "P-224": (2**224 - 2**96 + 1, -3,
        0xb4050a850c04b3abf54132565044b0b7d7bfd8ba270b39432355ffb4),
    "P-256": (2**256 - 2**224 + 2**192 + 2**96 - 1, -3,
        0x5ac635d8aa3a93e7b3ebbd55769886bc651d06b0cc53b0f63bce3c3e27d2604b),
    "P-384": (2**384 - 2**128 - 2**96 + 2**32 - 1, -3,
        0xb3312fa7e23ee7e4988e056be3f82d19181d9c6efe8141120314088f5013875ac656398d8a2ed19d2a85c8edd3ec2aef),
    "P-521": (2**521 - 1, -3,
        0x51953eb9618e1c9a1f929a21a0b68540eea2da725b99b315f3b8b489918ef109e156193951ec7e937b1652c0bd3bb1bf073573df883d2c34f1ef451fd46b503f00),
    "secp256k1": (2**256 - 2**32 - 977, 0x0,
        0x7),
    "brainpoolP256r1": (
        0xa9fb57dba1eea9bc3e660a909d838d726e3bf623d52620282013481d1f6e5377,
        0x7d5a0975fc2c3057eef67530417affe7fb8055c126dc5c6ce94a4b44f330b5d9,
        0x26dc5c6ce94a4b44f330b5d9bbd77cbf958416295cf7e1ce6bccdc18ff8c07b6,
    ),
    "brainpoolP384r1": (
        0x8cb91e82a3386d280f5d6f7e50e641df152f7109ed5456b412b1da197fb71123acd3a729901d1a71874700133107ec53,
        0x7bc382c63d8c150c3c72080ace05afa0c2bea28e4fb22787139165efba91f90f8aa5814a503ad4eb04a8c7dd22ce2826,
        0x4a8c7dd22ce28268b39b55416f0447c2fb77de107dcd2a62e880ea53eeb62d57cb4390295dbc9943ab78696fa504c11,
    ),
    "brainpoolP512r1": (
        0xaadd9db8dbe9c48b3fd4e6ae33c9fc07cb308db3b3c9d20ed6639cca703308717d4d9b009bc66842aecda12ae6a380e62881ff2f2d82c68528aa6056583a48f3,
        0x7830a3318b603b89e2327145ac234cc594cbdd8d3df91610a83441caea9863bc2ded5d5aa8253aa10a2ef1c98b9ac8b57f1117a72bf2c7b9e7c1ac4d77fc94ca,
        0x3df91610a83441caea9863bc2ded5d5aa8253aa10a2ef1c98b9ac8b57f1117a72bf2c7b9e7c1ac4d77fc94cadc083e67984050b75ebae5dd2809bd638016f723,
    ),
}
SIZES: Dict[str, int] = {name: (equation[0].bit_length() + 7) // 8 for name, equation in _EQUATIONS.items()}
"""The octets of a coordinate on each curve."""


def is_on_curve(curve: str, octets: bytes) -> bool:
    """Whether octets are a point on the curve, whole or compressed, and not the one at infinity."""
    prime, a, b = _EQUATIONS[curve]
    size = SIZES[curve]
    across = int.from_bytes(octets[1:1 + size], "big")
    square = (across**3 + a * across + b) % prime
    if octets[:1] == b"\4" and len(octets) == 1 + 2 * size:
        up = int.from_bytes(octets[1 + size:], "big")
        return across < prime and up < prime and (up * up - square) % prime == 0
    if octets[:1] not in (b"\2", b"\3") or len(octets) != 1 + size or across >= prime:
        return False
    # Euler's criterion; a root of 0 is 0, whose sign is none.
    return octets[:1] == b"\2" if square == 0 else pow(square, (prime - 1) // 2, prime) == 1
