"""The pictures of a report: the path, and the verdict over time. What they show stands in words beside them."""

import datetime
from typing import List, Optional, Sequence, Tuple

from ._facts import Card, Facts, OverTime, Stretch
from ._markup import Element, tag
from ._verdicts import Result, Verdict
from .signatures import Judgement

CLASSES = {
    Verdict.VALID: "good", Verdict.INVALID: "bad", Verdict.REVOKED: "bad", Verdict.UNKNOWN: "open", Verdict.OTHER_NAME: "bad",
    Verdict.NOT_FOUND: "bad", Verdict.GAVE_UP: "open",
}
SIGNATURES = {
    Judgement.GOOD: ("good", "the signature is good"), Judgement.WRONG: ("bad", "the signature is wrong"),
    Judgement.NOT_SERVED: ("open", "the signature's algorithm is not served"),
    Judgement.REFUSED: ("bad", "the policy refuses the signature's algorithm or key"),
}
NOT_ASKED = ("none", "nobody was asked about the signature")
_EPOCH = datetime.datetime(1970, 1, 1, tzinfo=datetime.timezone.utc)
_BOX, _GAP, _WIDE = 46, 34, 640
_LEFT, _ROW, _ALL = 210, 26, 960
_MOST_ROWS = 24


def cut(text: str, most: int) -> str:
    """The text, or its front with a sign that it is cut."""
    return text if len(text) <= most else text[:most - 1] + "\u2026"


def moment_text(seconds: Optional[int], without: str = "\u2013") -> str:
    """A moment in UTC."""
    if seconds is None:
        return without
    try:
        return f"{_EPOCH + datetime.timedelta(seconds=seconds):%Y-%m-%d %H:%M:%S} UTC"
    except OverflowError:
        return f"{seconds} s from 1970"


def verdict_text(result: Optional[Result]) -> str:
    """The verdict and its reason in words."""
    if result is None:
        return "not one answer"
    if result.verdict is Verdict.VALID and result.alarms:
        return "alarm"
    reason = "" if result.reason is None else f" ({result.reason.name.lower().replace('_', ' ')})"
    return f"{result.verdict.value}{reason}"


def class_of(result: Optional[Result]) -> str:
    if result is None:
        return "none"
    return "bad" if result.alarms else CLASSES[result.verdict]


def role(number: int, count: int, is_path: bool) -> str:
    """What a certificate of a path is, by its number from the anchor on."""
    if is_path and number == 0:
        return "0, the anchor"
    return f"{number}, in question" if number == count - 1 else str(number)


def path_picture(facts: Facts) -> Element:
    """The path from the anchor down, each certificate in a box, each signature on an arrow."""
    is_path = facts.has_path
    count = len(facts.path)
    high = count * (_BOX + _GAP) - _GAP + 2
    drawn = tag("svg", tag("title", "The path" if is_path else "The end of a path"), viewBox=f"0 0 {_WIDE} {high}", width=_WIDE, role="img",
                aria_label=f"{'A path' if is_path else 'The end of a path'} of {count} certificates; the cards below say the same")
    for number, card in enumerate(facts.path):
        top = 1 + number * (_BOX + _GAP)
        drawn.extend(_box(card, role(number, count, is_path), top, _decides(facts.result, number)))
        if number:
            drawn.extend(_arrow(card, top))
    return drawn


def _decides(result: Optional[Result], number: int) -> Optional[str]:
    """What the verdict says of that certificate."""
    return verdict_text(result) if result is not None and result.certificate == number and number else None


def _box(card: Card, what: str, top: int, said: Optional[str]) -> List[Element]:
    name = card.certificate.identity.subject or "(no name)"
    found = [tag("rect", class_="box", x=1, y=top, width=_WIDE - 2, height=_BOX, rx=4),
             tag("text", cut(name, 74), x=14, y=top + 19),
             tag("text", f"certificate {what}", class_="small", x=14, y=top + 37)]
    if said is not None:
        found.append(tag("text", said, class_="bad" if "revoked" in said or "invalid" in said else "open", x=_WIDE - 14, y=top + 37,
                         text_anchor="end"))
    return found


def _arrow(card: Card, top: int) -> List[Element]:
    kind, words = NOT_ASKED if card.judgement is None else SIGNATURES[card.judgement]
    return [tag("path", class_="arrow", d=f"M 30 {top - _GAP} V {top - 6}"),
            tag("path", class_="head", d=f"M 25 {top - 8} L 35 {top - 8} L 30 {top} Z"),
            tag("text", words, class_=f"{kind}", x=44, y=top - 12)]


Bar = Tuple[str, Optional[int], Optional[int]]


def middle(over_time: OverTime, at: int) -> float:
    """Where the middle of a stretch stands in the picture."""
    width = (_ALL - _LEFT - 4) / len(over_time.stretches)
    return _LEFT + (at + 0.5) * width


def stretch_at(over_time: OverTime, moment: int) -> int:
    """The number of the stretch that holds a moment; of the last, if none does."""
    for at, one in enumerate(over_time.stretches):
        if (one.first is None or one.first <= moment) and (one.last is None or moment <= one.last):
            return at
    return len(over_time.stretches) - 1


def time_picture(facts: Facts, over_time: OverTime) -> Element:
    """The verdict in each stretch of time, all of one width, and below it when each certificate and statement counts."""
    bars = _bars(facts)
    high = (len(bars[:_MOST_ROWS]) + 2) * _ROW + 6
    drawn = tag("svg", tag("title", "The verdict over time"), viewBox=f"0 0 {_ALL} {high}", width=_ALL, role="img",
                aria_label="The verdict over time; the table below says the same")
    drawn.append(tag("text", "verdict", x=4, y=_ROW - 8))
    width = (_ALL - _LEFT - 4) / len(over_time.stretches)
    for at, one in enumerate(over_time.stretches):
        drawn.extend(_cell(one, _LEFT + at * width, width))
    for row, bar in enumerate(bars[:_MOST_ROWS], 1):
        drawn.extend(_bar_row(bar, row, over_time.stretches, width))
    if len(bars) > _MOST_ROWS:
        drawn.append(tag("text", f"and {len(bars) - _MOST_ROWS} more", class_="small", x=4, y=(_MOST_ROWS + 2) * _ROW - 8))
    at = middle(over_time, stretch_at(over_time, facts.asked.moment))
    drawn.append(tag("line", class_="moment", id="line", x1=at, x2=at, y1=_ROW - 2, y2=high))
    return drawn


def _cell(one: Stretch, left: float, width: float) -> List[Element]:
    words = verdict_text(one.result)
    span = f"{moment_text(one.first, 'before')} to {moment_text(one.last, 'ever after')}: {words}"
    found = [tag("rect", tag("title", span), class_=f"cell {class_of(one.result)}", x=left, y=2, width=width, height=_ROW - 4)]
    # The longest form that fits, at some eight pixels a letter.
    forms = (words, words.partition(" (")[0], words[0].upper())
    fits = next((it for it in forms if width >= 8 * len(it)), None)
    if fits is not None:
        found.append(tag("text", fits, class_="on", x=left + width / 2, y=_ROW - 9, text_anchor="middle"))
    return found


def _bars(facts: Facts) -> List[Bar]:
    """When certificates and statements count."""
    found: List[Bar] = [(f"certificate {number}", card.certificate.not_before, card.certificate.not_after)
                        for number, card in enumerate(facts.path) if number or not facts.has_path]
    return found + [(it.title, *window) for it in facts.statements for window in it.windows[:4]]


def _bar_row(bar: Bar, row: int, stretches: Sequence[Stretch], width: float) -> List[Element]:
    title, begin, end = bar
    inside = [at for at, one in enumerate(stretches) if _is_inside(one, begin, end)]
    found = [tag("text", cut(title, 30), class_="small", x=4, y=(row + 1) * _ROW - 8)]
    if inside:
        words = f"{title}: {moment_text(begin)} to {moment_text(end, 'no end')}"
        found.append(tag("rect", tag("title", words), class_="bar", x=_LEFT + inside[0] * width, y=row * _ROW + 7,
                         width=(inside[-1] - inside[0] + 1) * width, height=_ROW - 14))
    return found


def _is_inside(one: Stretch, begin: Optional[int], end: Optional[int]) -> bool:
    """Whether what begins and ends there counts in the stretch: in its middle, as a second at its rim may be of its neighbour."""
    if one.first is None or one.last is None:
        at = one.last if one.first is None else one.first
        return at is None or (begin is None or begin <= at and one.first is not None) and (end is None or at <= end and one.last is not None)
    at = (one.first + one.last) // 2
    return (begin is None or begin <= at) and (end is None or at <= end)
