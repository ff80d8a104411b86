"""Why octets are refused."""

import enum
from typing import Optional, Tuple

from ._library import fault_name
from ._pem import Loaded

MEMORY = 33


class Text(enum.IntEnum):
    """Which octets of a question are refused."""

    CERTIFICATES = 1
    """Of a path, of which the anchor has the index 0; or what a peer sent, of which the one in question has 0."""
    STATEMENTS = 2
    ANCHORS = 3
    """Those under which a path is looked for."""


class Fault(ValueError):
    """Octets that are refused: the first fault, and where it is.

    `offset` counts from the first octet of the refused value. If the octets are no DER, `der` is the number of the rule that is broken.
    Of a question, `text` tells what is refused, and `index` which of them. `origin` is the value
    that was loaded, if it was.
    """

    def __init__(self, number: int, offset: int, der: Optional[int] = 0, text: Optional[Text] = None, index: Optional[int] = None,
                 origin: Optional[Loaded] = None):
        self.number = number
        self.offset = offset
        self.der = der or None
        self.text = text
        self.index = index
        self.origin = origin
        super().__init__(self._line())

    def __reduce__(self) -> Tuple[object, ...]:
        return type(self), (self.number, self.offset, self.der, self.text, self.index, self.origin)

    @property
    def name(self) -> str:
        return fault_name(self.number) or "Unknown"

    @property
    def der_name(self) -> Optional[str]:
        return fault_name(self.der) or "Unknown" if self.der else None

    def _line(self) -> str:
        where = f"{self.text.name.lower()}[{self.index}]: " if self.text and self.index is not None else ""
        der = f" ({self.der} {self.der_name})" if self.der else ""
        return f"{where if self.origin is None else f'{self.origin}: '}{self.number} {self.name}{der} at {self.offset}"


def refusal(number: int, offset: int, der: int = 0, text: Optional[Text] = None, index: Optional[int] = None,
            origin: Optional[Loaded] = None) -> Exception:
    """What is raised for a fault: want of memory is a MemoryError."""
    return MemoryError("x509check was refused memory") if number == MEMORY else Fault(number, offset, der, text, index, origin)
