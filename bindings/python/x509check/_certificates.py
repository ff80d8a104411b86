"""Certificates (RFC 5280, 4), and the fingerprints of signatures."""

import ctypes
import dataclasses
import datetime
import hashlib
from typing import Optional, Tuple

from ._arguments import Value, der_of, octets_of
from ._faults import refusal
from ._library import PARTS, ExtensionFields, library
from ._names import Identity, name_text
from ._pem import Encoded, Loaded
from ._reference import Reference, speaks_for

_EPOCH = datetime.datetime(1970, 1, 1, tzinfo=datetime.timezone.utc)
# The bits of keyUsage (RFC 5280, 4.2.1.3), from bit 0 on.
KEY_USAGES = (
    "digitalSignature", "nonRepudiation", "keyEncipherment", "dataEncipherment", "keyAgreement", "keyCertSign", "cRLSign",
    "encipherOnly", "decipherOnly",
)


def origin_of(one: Value) -> Optional[Loaded]:
    """Where a value came from, if it was loaded."""
    return one if isinstance(one, Loaded) else None


def check_octets(octets: bytes, origin: Optional[Loaded] = None) -> None:
    """Raises a Fault if the octets are not the DER encoding of one value."""
    answer = library().x509check_check(octets, len(octets))
    if answer.fault:
        raise refusal(answer.fault, answer.offset, origin=origin)


def check(value: Value) -> None:
    """Raises a Fault if a value is not the DER encoding of one value."""
    check_octets(der_of(value), origin_of(value))


def fingerprint(algorithm: bytes, key: bytes, message: bytes, signature: bytes) -> bytes:
    """The fingerprint of a signature, 32 octets: of its algorithm identifier and of the subjectPublicKeyInfo of the key, each the whole
    encoding, of the message that was signed, and of the octets of the signature."""
    written = ctypes.create_string_buffer(32)
    texts = [octets_of(text, what) for text, what in zip((algorithm, key, message, signature), ("algorithm", "key", "message", "signature"))]
    library().x509check_fingerprint(*(argument for text in texts for argument in (text, len(text))), written)
    return written.raw


@dataclasses.dataclass(frozen=True)
class Extensions:
    """What the extensions of a certificate say. Of lists it is told how many items they have."""

    is_authority: Optional[bool]
    """cA, if there are basicConstraints."""
    path_length: Optional[int]
    key_usage: Optional[Tuple[str, ...]]
    """The names of the bits that are set, if there is a keyUsage."""
    needs_policy_processing: bool
    no_check: bool
    alternative_names: int
    permitted_subtrees: int
    excluded_subtrees: int
    purposes: int
    unrecognised: int
    """How many critical extensions are not recognised."""

    @classmethod
    def _of(cls, fields: ExtensionFields) -> "Extensions":
        return cls(
            is_authority=fields.is_authority if fields.has_basic_constraints else None,
            path_length=fields.path_length if fields.has_path_length else None,
            key_usage=tuple(name for bit, name in enumerate(KEY_USAGES) if fields.key_usage >> bit & 1) if fields.has_key_usage else None,
            needs_policy_processing=fields.needs_policy_processing,
            no_check=fields.no_check,
            alternative_names=fields.alternative_names,
            permitted_subtrees=fields.permitted_subtrees,
            excluded_subtrees=fields.excluded_subtrees,
            purposes=fields.purposes,
            unrecognised=fields.unrecognised,
        )


def _moment(seconds: int) -> Optional[datetime.datetime]:
    try:
        return _EPOCH + datetime.timedelta(seconds=seconds)
    except OverflowError:
        return None


@dataclasses.dataclass(frozen=True)
class Certificate(Encoded):
    """A certificate that was read. No signature is judged and no validity: one that is read is not one to be trusted.

    `serial` and `key` are contents; the others are whole encodings, and `signature` the octets of the signature.
    """

    octets: bytes
    version: int
    not_before: int
    """In seconds from 1970-01-01T00:00:00Z, as not_after."""
    not_after: int
    tbs: bytes
    serial: bytes
    algorithm: bytes
    issuer: bytes
    subject: bytes
    subject_public_key_info: bytes
    key: bytes
    signature: bytes
    extensions: Extensions

    @classmethod
    def from_der(cls, value: Value) -> "Certificate":
        """The certificate that a value is: octets, what was loaded, or an object of the package cryptography. Raises a Fault."""
        octets = der_of(value)
        answer = library().x509check_read_certificate(octets, len(octets))
        if answer.fault:
            raise refusal(answer.fault, answer.offset, answer.der_fault, origin=origin_of(value))
        fields = answer.fields
        return cls(
            octets=octets,
            version=fields.version,
            not_before=fields.not_before,
            not_after=fields.not_after,
            extensions=Extensions._of(fields.extensions),
            **{name: getattr(fields, name).of(octets) for name in PARTS},
        )

    def __bytes__(self) -> bytes:
        return self.octets

    @property
    def begins(self) -> Optional[datetime.datetime]:
        """not_before, if datetime has it."""
        return _moment(self.not_before)

    @property
    def ends(self) -> Optional[datetime.datetime]:
        """not_after, if datetime has it."""
        return _moment(self.not_after)

    @property
    def identity(self) -> Identity:
        """Which certificate it is: subject, serial number and SHA-256."""
        return Identity(name_text(self.subject), self.serial.hex(), hashlib.sha256(self.octets).hexdigest())

    def speaks_for(self, reference: Reference) -> bool:
        """Whether a name of its subjectAltName matches a host (``mx.example.org``), an IP address, or a mailbox (``user@example.org``), as
        RFC 9525 and RFC 5280 (7.5) say. A wildcard is the whole first label of a dNSName, and stands for one label. Common names are not
        looked at, and public suffixes are not known: ``*.com`` matches ``example.com``.

        Raises BadReference for a text that is none of the three. Whether the certificate can be trusted is not asked here.
        """
        return speaks_for(self.octets, reference)

    def fingerprint_under(self, issuer: "Certificate") -> bytes:
        """The fingerprint of its signature, as one by the issuer's key."""
        return fingerprint(self.algorithm, issuer.subject_public_key_info, self.tbs, self.signature)
