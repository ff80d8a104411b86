"""Requests of OCSP, and how they are sent over HTTP (RFC 6960, 4.1 and appendix A)."""

import base64
import hashlib
import urllib.parse
from typing import Optional

from ._certificates import Certificate
from ._der import INTEGER, NULL, OBJECT_IDENTIFIER, SEQUENCE, contents_of, encoded

REQUEST_TYPE, RESPONSE_TYPE = "application/ocsp-request", "application/ocsp-response"
_OCTET_STRING = 0x04
_SHA1 = encoded(SEQUENCE, encoded(OBJECT_IDENTIFIER, contents_of("1.3.14.3.2.26")), encoded(NULL))
# By GET goes a request whose whole address is shorter (appendix A.1).
_GET_MOST = 255


def request_for(certificate: Certificate, issuer: Certificate) -> bytes:
    """The DER of an OCSPRequest about one certificate, not signed, without a nonce. Name and key of the issuer stand in it as their SHA-1,
    which is what responders answer by."""
    name = hashlib.sha1(certificate.issuer, usedforsecurity=False).digest()
    key = hashlib.sha1(issuer.key, usedforsecurity=False).digest()
    identifier = encoded(
        SEQUENCE, _SHA1, encoded(_OCTET_STRING, name), encoded(_OCTET_STRING, key), encoded(INTEGER, certificate.serial))
    request = encoded(SEQUENCE, identifier)
    return encoded(SEQUENCE, encoded(SEQUENCE, encoded(SEQUENCE, request)))


def get_address(responder: str, request: bytes) -> Optional[str]:
    """The address by which a request is sent by GET; None if it is too long for that, and goes by POST."""
    text = urllib.parse.quote(base64.b64encode(request).decode("ascii"), safe="")
    address = f"{responder.rstrip('/')}/{text}"
    return address if len(address) < _GET_MOST else None
