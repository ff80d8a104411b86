"""Values in files, in PEM or DER, and certificates in the order of a path."""

from typing import Iterable, List, Union

from ._arguments import Value, listed
from ._certificates import Certificate, check_octets
from ._faults import Fault
from ._pem import LIMIT, Contents, Kind, Loaded, NotLoaded, Octets, Path, is_pem, kinds_of, pem_values, read

_TRAILING = 7
# Of a row of values so many octets are looked at first; a longer value is looked at again.
_WINDOW = 1 << 16


class NoPath(ValueError):
    """There is no way from the certificate in question to the anchor."""


def load(source: Union[Path, Octets], kinds: Union[None, Kind, Iterable[Kind]] = None, *, limit: int = LIMIT) -> List[Loaded]:
    """The certificates, lists and responses in a file, or in octets, and where each came from. There is one at least.

    A file in which a line begins with `-----BEGIN ` is PEM, any other is DER, of which several values may stand one behind the other.
    Of PEM nothing is passed over but text between blocks. Without `kinds` a key in the file is an error; with it, whole blocks of the
    other kinds and of keys, parameters and requests are left out. Blocks that may hold a certificate in another form (TRUSTED
    CERTIFICATE, PKCS7, CMS), blocks of unknown labels and broken ones never are. What a value of DER is, nobody looks at here.

    Raises NotLoaded for what cannot be read, with file and line; for more than `limit` octets, of which one more is read; and OSError.
    """
    wanted = None if kinds is None else kinds_of(kinds)
    contents = read(source, limit)
    return [_checked(one) for one in pem_values(contents, wanted)] if is_pem(contents.octets) else _der_values(contents)


def _checked(one: Loaded) -> Loaded:
    try:
        check_octets(one.octets)
    except Fault as fault:
        raise NotLoaded(f"the block {one.label} is not one value of DER: {fault}", one.source, one.place, fault) from fault
    return one


def _der_values(contents: Contents) -> List[Loaded]:
    found: List[Loaded] = []
    at = 0
    while at < len(contents.octets) or not found:
        try:
            end = _end_of_first(contents.octets, at)
        except Fault as fault:
            raise NotLoaded(f"no PEM, and no DER at offset {at}: {fault}", contents.source, None, fault) from fault
        found.append(Loaded(contents.octets[at:end], contents.source, len(found), at))
        at = end
    return found


def _end_of_first(octets: bytes, at: int) -> int:
    """Where the value that begins there ends."""
    size = _WINDOW
    while True:
        window = octets[at:at + size]
        try:
            check_octets(window)
            return at + len(window)
        except Fault as fault:
            if fault.number == _TRAILING:
                return at + fault.offset
            if at + size >= len(octets):
                raise
        size *= 16


def path_to(anchor: Value, target: Value, others: Iterable[Value] = ()) -> List[Certificate]:
    """The path from the anchor, without it, to the target, which is the certificate in question and the last of the path.

    The certificates between are looked for among the others, which may stand in any order, and of which the first that has the name of
    an issuer is taken; the anchor and the target may be among them, and what does not belong to the path changes nothing. Names are
    compared as they are spelled. Raises NoPath if there is no way to the anchor, and a Fault if a certificate cannot be read.
    """
    top, last = Certificate.from_der(anchor), Certificate.from_der(target)
    if last.octets == top.octets:
        raise NoPath(f"the certificate in question is the anchor itself: {last.identity}")
    read_ones = [Certificate.from_der(one) for one in listed("others", others)]
    left = [one for one in read_ones if one.octets not in (top.octets, last.octets)]
    path = [last]
    while path[0].issuer != top.subject:
        above = next((one for one in left if one.subject == path[0].issuer), None)
        if above is None:
            raise NoPath(f"no certificate has the name of the issuer of {path[0].identity}")
        left.remove(above)
        path.insert(0, above)
    return path
