"""Where an authority's lists, responders and certificates are, as a certificate says it (RFC 5280, 4.2.1.13 and 4.2.2.1).

The extensions are read from a certificate that the library has read. What is not of its layout raises BadLocations: no address is read
from a part of it.
"""

from typing import Callable, Dict, List, NamedTuple, Tuple, TypeVar

from ._certificates import Certificate, check_octets
from ._der import OBJECT_IDENTIFIER, SEQUENCE, Value, contents_of, dotted, value
from ._faults import Fault

T = TypeVar("T")
_DISTRIBUTION_POINTS, _INFORMATION_ACCESS = "2.5.29.31", "1.3.6.1.5.5.7.1.1"
_OCSP, _ISSUERS = "1.3.6.1.5.5.7.48.1", "1.3.6.1.5.5.7.48.2"
# Tags: extensions of a TBSCertificate, uniformResourceIdentifier of a GeneralName, and those of a DistributionPoint and of its name.
_EXTENSIONS, _URI = 0xA3, 0x86
_POINT_NAME, _REASONS, _LIST_ISSUER = 0xA0, 0x81, 0xA2
_FULL_NAME, _RELATIVE_NAME = 0xA0, 0xA1
_OCTET_STRING = 0x04
# The forms of a GeneralName (RFC 5280, 4.2.1.6), by their numbers.
_FORMS = ("otherName", "rfc822Name", "dNSName", "x400Address", "directoryName", "ediPartyName", "uniformResourceIdentifier", "iPAddress",
          "registeredID")


class BadLocations(ValueError):
    """An extension that is not of its layout: its name, and what is wrong."""

    def __init__(self, extension: str, why: str):
        self.extension = extension
        self.why = why
        super().__init__(f"{extension} cannot be read: {why}")

    def __reduce__(self) -> Tuple[object, ...]:
        return type(self), (self.extension, self.why)


class Point(NamedTuple):
    """A DistributionPoint."""

    uris: Tuple[str, ...]
    """Addresses of one list, in their order."""
    others: Tuple[str, ...]
    """The forms of its other names; `nameRelativeToCRLIssuer` if it has that."""
    is_for_some_reasons: bool
    is_indirect: bool
    """Whether somebody else than the issuer of the certificate signs the list (cRLIssuer)."""


class Locations(NamedTuple):
    """What a certificate says of where to ask."""

    points: Tuple[Point, ...] = ()
    """Where revocation lists are (cRLDistributionPoints)."""
    responders: Tuple[str, ...] = ()
    """Where OCSP is answered (id-ad-ocsp of authorityInfoAccess)."""
    issuers: Tuple[str, ...] = ()
    """Where certificates of the issuer are (id-ad-caIssuers)."""
    others: Tuple[str, ...] = ()
    """The forms of names of responders and issuers that are no URIs."""


def text_of(contents: bytes) -> str:
    """The text of a URI. Octets outside of 20 to 7e, and a backslash, are a backslash and two digits, so that the text stays on its
    line."""
    return "".join(chr(octet) if 0x20 <= octet <= 0x7E and octet != 0x5C else f"\\{octet:02x}" for octet in contents)


def _form(name: Value) -> str:
    """The form of a GeneralName: its tag is of the class context-specific."""
    number = name.identifier & 0x1F
    is_constructed = number in (0, 3, 4, 5)
    if number >= len(_FORMS) or name.identifier != (0xA0 if is_constructed else 0x80) | number:
        raise ValueError(f"a value {name.identifier:02x} where a general name is wanted")
    return _FORMS[number]


def _names(names: Value) -> Tuple[Tuple[str, ...], Tuple[str, ...]]:
    """The URIs of GeneralNames, and the forms of its other names."""
    uris: List[str] = []
    others: List[str] = []
    for name in names.members():
        form = _form(name)
        if name.identifier == _URI:
            uris.append(text_of(name.contents))
        else:
            others.append(form)
    if not uris and not others:
        raise ValueError("no general name where one at least is wanted")
    return tuple(uris), tuple(others)


def _point_name(name: Value) -> Tuple[Tuple[str, ...], Tuple[str, ...]]:
    """DistributionPointName ::= CHOICE { fullName [0] GeneralNames, nameRelativeToCRLIssuer [1] RelativeDistinguishedName }"""
    inside = name.only_member()
    if inside.identifier == _RELATIVE_NAME:
        return (), ("nameRelativeToCRLIssuer",)
    return _names(inside.as_a(_FULL_NAME))


def _point(point: Value) -> Point:
    """DistributionPoint ::= SEQUENCE { distributionPoint [0] DistributionPointName OPTIONAL, reasons [1] ReasonFlags OPTIONAL,
    cRLIssuer [2] GeneralNames OPTIONAL }"""
    members = point.as_a(SEQUENCE).members(3)
    tags = [member.identifier for member in members]
    if tags != [tag for tag in (_POINT_NAME, _REASONS, _LIST_ISSUER) if tag in tags]:
        raise ValueError(f"the values {' '.join(f'{tag:02x}' for tag in tags)} in a distribution point")
    found = dict(zip(tags, members))
    if _LIST_ISSUER in found:
        _names(found[_LIST_ISSUER])
    uris, others = _point_name(found[_POINT_NAME]) if _POINT_NAME in found else ((), ())
    return Point(uris, others, _REASONS in found, _LIST_ISSUER in found)


def _points(points: Value) -> Tuple[Point, ...]:
    """CRLDistributionPoints ::= SEQUENCE SIZE (1..MAX) OF DistributionPoint"""
    found = tuple(_point(point) for point in points.as_a(SEQUENCE).members())
    if not found:
        raise ValueError("no distribution point where one at least is wanted")
    return found


def _access(descriptions: Value) -> Locations:
    """AuthorityInfoAccessSyntax ::= SEQUENCE SIZE (1..MAX) OF SEQUENCE { accessMethod OBJECT IDENTIFIER, accessLocation GeneralName }"""
    by_method: Dict[str, List[str]] = {_OCSP: [], _ISSUERS: []}
    others: List[str] = []
    found = descriptions.as_a(SEQUENCE).members()
    for description in found:
        members = description.as_a(SEQUENCE).members(2)
        if len(members) != 2:
            raise ValueError("an access description without its two values")
        method, form = dotted(members[0].as_a(OBJECT_IDENTIFIER).contents), _form(members[1])
        if method in by_method and members[1].identifier == _URI:
            by_method[method].append(text_of(members[1].contents))
        elif method in by_method:
            others.append(form)
    if not found:
        raise ValueError("no access description where one at least is wanted")
    return Locations((), tuple(by_method[_OCSP]), tuple(by_method[_ISSUERS]), tuple(others))


def _extensions(certificate: Certificate) -> Dict[bytes, bytes]:
    """The contents of the OCTET STRING of each extension, by the contents of its type. The library has read the certificate, so this is
    their layout."""
    tagged = [member for member in value(certificate.tbs).as_a(SEQUENCE).members() if member.identifier == _EXTENSIONS]
    found: Dict[bytes, bytes] = {}
    for extension in tagged[0].only_member().as_a(SEQUENCE).members() if tagged else ():
        kind, *_, octets = extension.as_a(SEQUENCE).members(3)
        found[kind.contents] = octets.as_a(_OCTET_STRING).contents
    return found


def _read(extension: str, octets: bytes, reader: Callable[[Value], T]) -> T:
    """What the reader makes of the value of an extension. That the octets are DER, also inside, the library says."""
    try:
        check_octets(octets)
        return reader(value(octets))
    except Fault as fault:
        raise BadLocations(extension, str(fault)) from fault
    except ValueError as cause:
        raise BadLocations(extension, str(cause)) from cause


def locations_of(certificate: Certificate) -> Locations:
    """Where a certificate says that lists, responders and certificates of its issuer are. One without these extensions says nothing.

    Raises BadLocations for an extension that is not of its layout; the other one is not looked at then. Time is linear.
    """
    extensions = _extensions(certificate)
    points, access = (extensions.get(contents_of(oid)) for oid in (_DISTRIBUTION_POINTS, _INFORMATION_ACCESS))
    found = Locations() if access is None else _read("authorityInfoAccess", access, _access)
    return found if points is None else found._replace(points=_read("cRLDistributionPoints", points, _points))
