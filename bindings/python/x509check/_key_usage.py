"""Whether the keyUsage of a certificate goes with a purpose (RFC 5280, 4.2.1.12)."""

from typing import Dict, FrozenSet, Optional

from ._arguments import PURPOSES, Value, dotted_purpose
from ._certificates import Certificate

_SIGNING = frozenset({"digitalSignature", "nonRepudiation"})
# A certificate is for both: with a keyUsage, one of these bits at least is set.
_CONSISTENT: Dict[str, FrozenSet[str]] = {
    PURPOSES["serverAuth"]: frozenset({"digitalSignature", "keyEncipherment", "keyAgreement"}),
    PURPOSES["clientAuth"]: frozenset({"digitalSignature", "keyAgreement"}),
    PURPOSES["codeSigning"]: frozenset({"digitalSignature"}),
    PURPOSES["emailProtection"]: _SIGNING | {"keyEncipherment", "keyAgreement"},
    PURPOSES["timeStamping"]: _SIGNING,
    PURPOSES["OCSPSigning"]: _SIGNING,
}


def goes_with(certificate: Value, purpose: Optional[str]) -> bool:
    """Whether the keyUsage allows the purpose, which is a name or dotted. None, and a purpose that is none of these, asks for no bit. Raises
    a Fault if the certificate cannot be read."""
    wanted = None if purpose is None else _CONSISTENT.get(dotted_purpose(purpose))
    if wanted is None:
        return True
    usage = Certificate.from_der(certificate).extensions.key_usage
    return usage is None or not wanted.isdisjoint(usage)
