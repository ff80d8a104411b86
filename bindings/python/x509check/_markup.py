"""HTML and SVG as trees of elements, so that what comes from a certificate stands in it as text and never as markup."""

import xml.etree.ElementTree as ElementTree
from typing import Iterable, Optional, Union

Element = ElementTree.Element
Child = Union[Element, str, None]


def tag(kind: str, /, *children: Child, **attributes: Union[str, int, float, None]) -> Element:
    """An element. A `_` at the end of an attribute's name is dropped and others are hyphens; one that is None is left out."""
    made = Element(kind, {key.rstrip("_").replace("_", "-"): str(value) for key, value in attributes.items() if value is not None})
    return add(made, children)


def add(made: Element, children: Iterable[Child]) -> Element:
    """The element with more children behind those that it has."""
    for child in children:
        if child is None:
            continue
        if isinstance(child, str):
            _add_text(made, child)
        else:
            made.append(child)
    return made


def _add_text(made: Element, text: str) -> None:
    last: Optional[Element] = made[-1] if len(made) else None
    if last is None:
        made.text = (made.text or "") + text
    else:
        last.tail = (last.tail or "") + text


def page(html: Element) -> str:
    """The text of a whole page."""
    return "<!DOCTYPE html>\n" + ElementTree.tostring(html, encoding="unicode", method="html") + "\n"
