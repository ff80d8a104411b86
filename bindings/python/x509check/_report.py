"""A report on what a peer sent, as one HTML file: the path, the verdict now and over time, and why."""

import base64
import functools
import hashlib
from typing import Iterable, List, Optional, Tuple, Union

from ._alarms import Unjudged
from ._arguments import PURPOSES, Moment, Value, der_of, dotted_purpose, listed, seconds_of
from ._certificates import Certificate
from ._drawn import NOT_ASKED, SIGNATURES, class_of, cut, middle, moment_text, path_picture, role, stretch_at, time_picture, verdict_text
from ._facts import MOST_OTHERS, MOST_REFUSED, MOST_STATEMENTS, Asked, Card, Facts, Refused, Said, Statement, Stretch, facts_of
from ._markup import Child, Element, add, page, tag
from ._faults import Text
from ._names import Identity, name_from_shown, name_text
from ._pem import Kind, printable
from ._profile import Profile
from ._program import explain, version_lines
from ._query import Limits
from ._reference import Reference
from ._report_style import SCRIPT, STYLE
from ._verdicts import Judge, Reason, Result, RevocationReason, Verdict

_MOST_NAMES, _MOST_TEXT = 32, 400
_ALARM = "Something that was handed in may say otherwise than the rest: take nothing for valid before that is cleared up."
_PURPOSES = {dotted: name for name, dotted in PURPOSES.items()}
_WORDS = {
    Verdict.VALID: "Each certificate of the path meets the conditions of RFC 5280, 6.1; of each a current statement speaks, and none is revoked.",
    Verdict.INVALID: "The path does not meet the conditions of RFC 5280, 6.1.",
    Verdict.REVOKED: "The path meets the conditions of RFC 5280, 6.1, and a certificate of it is revoked.",
    Verdict.UNKNOWN: "The path meets the conditions of RFC 5280, 6.1, and none is known to be revoked; but of a certificate no current statement speaks.",
    Verdict.OTHER_NAME: "The path is valid, but the certificate in question does not speak for the name that was asked for.",
    Verdict.NOT_FOUND: "No path from an anchor to the certificate in question meets the conditions of RFC 5280, 6.1.",
    Verdict.GAVE_UP: "The limits of the search were used up before a path was found. This says nothing of the certificate.",
}


def report(
    certificates: Iterable[Value],
    anchors: Iterable[Value],
    statements: Iterable[Value],
    at: Moment,
    purpose: Optional[str] = None,
    verify: Optional[Judge] = None,
    *,
    name: Optional[Reference] = None,
    ignore_unreadable: bool = False,
    ignore_unreadable_certificates: bool = False,
    limits: Optional[Limits] = None,
    profile: Profile = Profile.STATED,
) -> str:
    """A report on what a peer sent: one HTML page that holds all it needs, and reaches for nothing outside. The arguments are those of
    `validate_peer`, whose verdict it tells, with the path, what is said of each signature, what each statement says of each certificate of
    the path, and the verdict over time: the library is asked once in each stretch of time in which nothing begins or ends.

    Where `validate_peer` raises a Fault, the report says what cannot be read, and where; there is no verdict in it then. Where it raises
    Unjudged or Contradiction, the report shows an alarm in the place of the verdict. What is too long
    to be shown is cut, and the report says so. It takes some seconds for large lists, which are read anew for each moment.

    The words are those of the program, which has to be there: ProgramMissing is raised without it. A moment, a purpose, a name or limits
    that are none raise as in `validate_peer`.
    """
    asked = _asked(
        certificates, anchors, statements, at, purpose, name, limits, ignore_unreadable, ignore_unreadable_certificates, profile)
    facts = facts_of(asked, verify)
    return _page(_title(facts), [_head(facts), *_sections(facts)])


def report_on_two(
    certificates: Iterable[Value],
    anchors: Iterable[Value],
    statements: Iterable[Value],
    other_statements: Iterable[Value],
    at: Moment,
    purpose: Optional[str] = None,
    verify: Optional[Judge] = None,
    *,
    name: Optional[Reference] = None,
    ignore_unreadable: bool = False,
    ignore_unreadable_certificates: bool = False,
    limits: Optional[Limits] = None,
    profile: Profile = Profile.STATED,
) -> str:
    """The reports of two parties beside each other, who were sent the same and hold other statements: both verdicts, now and over time, and
    which statements only one of them holds. Otherwise as `report`.
    """
    sent, tops = listed("certificates", certificates), listed("anchors", anchors)
    both = []
    for held in (statements, other_statements):
        asked = _asked(sent, tops, held, at, purpose, name, limits, ignore_unreadable, ignore_unreadable_certificates, profile)
        both.append(facts_of(asked, verify))
    return _page(f"{_title(both[0])}: two parties", [_heads_of_two(both), *_sections_of_two(both)])


def _asked(certificates: Iterable[Value], anchors: Iterable[Value], statements: Iterable[Value], at: Moment, purpose: Optional[str],
           name: Optional[Reference], limits: Optional[Limits], ignore_unreadable: bool, ignore_unreadable_certificates: bool,
           profile: Profile) -> Asked:
    sent = listed("certificates", certificates)
    if not sent:
        raise ValueError("certificates: the certificate in question is wanted, and there is none")
    if purpose is not None:
        dotted_purpose(purpose)
    return Asked(sent, listed("anchors", anchors), listed("statements", statements), seconds_of(at), purpose, name, limits,
                 ignore_unreadable, ignore_unreadable_certificates, profile)


# ---- the page

def _digest(text: str) -> str:
    return "'sha256-" + base64.b64encode(hashlib.sha256(text.encode("utf-8")).digest()).decode("ascii") + "'"


def _page(title: str, parts: List[Element]) -> str:
    policy = f"default-src 'none'; style-src {_digest(STYLE)}; script-src {_digest(SCRIPT)}; base-uri 'none'; form-action 'none'"
    head = tag("head", tag("meta", charset="utf-8"), tag("meta", http_equiv="Content-Security-Policy", content=policy),
               tag("meta", name="viewport", content="width=device-width, initial-scale=1"), tag("meta", name="referrer", content="no-referrer"),
               tag("title", title), tag("style", STYLE))
    return page(tag("html", head, tag("body", tag("main", *parts), tag("script", SCRIPT)), lang="en"))


def _title(facts: Facts) -> str:
    target = _target(facts)
    return "A certificate that cannot be read" if target is None else cut(target.subject or f"serial {target.serial}", 120)


def _target(facts: Facts) -> Optional[Identity]:
    if facts.result is not None:
        return facts.result.target
    is_refused = any(it.fault.text is Text.CERTIFICATES and it.fault.index == 0 for it in facts.refused)
    return None if is_refused else facts.others[0].identity


def _head(facts: Facts) -> Element:
    return tag("header", tag("h1", _title(facts)), _verdict(facts), tag("p", _question(facts), class_="soft"))


def _question(facts: Facts) -> str:
    asked = facts.asked
    name = "no name was asked for" if asked.name is None else f"asked for {printable(str(asked.name))}"
    purpose = "for no purpose" if asked.purpose is None else f"for the purpose {asked.purpose}"
    return f"At {moment_text(asked.moment)}, {purpose}; {name}."


def _verdict(facts: Facts) -> Element:
    result = facts.result
    if result is None:
        return tag("div", tag("strong", "no verdict"), tag("p", "Something that was handed in cannot be read; see below."), class_="verdict none")
    sentences = _sentences(result) + _by_which(facts, result) + _left_out(result)
    return tag("div", tag("strong", verdict_text(result)), *(tag("p", it) for it in sentences), class_=f"verdict {class_of(result)}")


def _by_which(facts: Facts, result: Result) -> List[str]:
    """Which statements say that a certificate is revoked, and when they speak."""
    return [f"So says the {_what(it)} of {_by_whom(it)}, which speaks from {moment_text(begin)} until {moment_text(end, 'no end')}."
            for it in facts.statements for said in it.said
            if (said.number, said.result.verdict) == (result.certificate, Verdict.REVOKED) for begin, end in it.windows[:1]]


def _left_out(result: Result) -> List[str]:
    """Which statements were left out because nobody could judge them."""
    return [cut(f"Left out, as was asked for: {why}.", _MOST_TEXT) for _, why in result.ignored if isinstance(why, Unjudged)]


def _sentences(result: Result) -> List[str]:
    """What the verdict says, of whom, and why."""
    found = [f"{_ALARM} {str(alarm)[:1].upper()}{str(alarm)[1:]}." for alarm in result.alarms] or [_WORDS[result.verdict]]
    if result.decides is not None:
        found.append(f"Certificate {result.certificate} decides: {_named(result.decides)}.")
    if result.reason is not None:
        found.append(_explained(result.reason))
    if result.why_not is not None:
        found.append(f"{str(result.why_not)[:1].upper()}{str(result.why_not)[1:]}.")
        found += [_explained(it) for it in dict.fromkeys([result.why_not.reason, *(why for _, why in result.why_not.obstacles)]) if it is not None]
    return [cut(it, _MOST_TEXT * 4) for it in found]


@functools.lru_cache(maxsize=None)
def _explained(it: Union[Reason, RevocationReason, int]) -> str:
    """The words of the program's `explain`."""
    return explain(it)


def _named(it: Identity) -> str:
    return cut(f"{it.subject or '(no name)'}, serial {it.serial}", _MOST_TEXT)


def _sections(facts: Facts) -> List[Element]:
    found = [_refused(facts), _path(facts), _over_time(facts), _statements(facts), _others(facts), _evidence(facts)]
    return [it for it in found if it is not None]


def _section(title: str, *children: Child) -> Element:
    return tag("section", tag("h2", title), *children)


# ---- what is refused

def _refused(facts: Facts) -> Optional[Element]:
    if not facts.refused:
        return None
    left_out = len(facts.refused) - MOST_REFUSED
    return _section("What cannot be read", *map(_refusal, facts.refused[:MOST_REFUSED]), _more(left_out, "values that cannot be read"))


def _refusal(it: Refused) -> Element:
    fault = it.fault
    der = f"; as DER: {fault.der} {fault.der_name}" if fault.der else ""
    rows = [tag("li", tag("code", f"{piece.at:>8}  {'  ' * piece.depth}{cut(piece.text, 100)}"), "  \u2190 here" if piece.is_meant else None,
                class_="meant" if piece.is_meant else None) for piece in it.pieces]
    return tag("div", tag("h3", cut(printable(it.title), _MOST_TEXT)),
               tag("p", f"Fault {fault.number} {fault.name}{der}, at the octet {fault.offset}. {_explained(fault.number)}"),
               tag("p", "Around it, each with the offset at which it begins:", class_="soft"), tag("ol", *rows, class_="values octets"), class_="card")


def _more(count: int, what: str) -> Optional[Element]:
    return tag("p", f"And {count} more {what}, which are not shown.", class_="soft") if count > 0 else None


# ---- the path

def _path(facts: Facts) -> Optional[Element]:
    if not facts.path:
        return None
    is_path = facts.has_path
    note = None if is_path else tag("p", "No path was found. This is the end of one that got furthest, from its top down to the certificate in question.")
    count = len(facts.path)
    cards = [_card(card, role(at, count, is_path), at > 0) for at, card in enumerate(facts.path)]
    return _section("The path", note, tag("div", path_picture(facts), class_="wide"), tag("div", *cards, class_="cards"))


def _card(card: Card, what: str, has_issuer: bool) -> Element:
    shown, one = card.shown, card.certificate
    rows: List[Tuple[str, str]] = [("subject", one.identity.subject or "(no name)"), ("issuer", name_text(one.issuer) or "(no name)"), ("serial", one.serial.hex()),
                                   ("valid", f"{moment_text(one.not_before)} to {moment_text(one.not_after)}")]
    if has_issuer:
        rows.append(("signature", (NOT_ASKED if card.judgement is None else SIGNATURES[card.judgement])[1]))
    rows += _details(card) + [("SHA-256", one.identity.sha256)]
    return tag("article", tag("h3", f"Certificate {what}"), _definitions(rows), class_="card")


def _details(card: Card) -> List[Tuple[str, str]]:
    """What people look for beside names and times, where it is there."""
    shown, extensions = card.shown, card.certificate.extensions
    found = [("signed with", shown.one("algorithm")), ("key", shown.one("key-algorithm")), ("names", _some(shown.all("alt"))),
             ("purposes", _some([_PURPOSES.get(it, it) for it in shown.all("purpose")])), ("key usage", ", ".join(extensions.key_usage) if extensions.key_usage else None),
             ("authority", shown.one("basic")), ("permits", _some(shown.all("permit"))), ("excludes", _some(shown.all("exclude"))),
             ("not recognised", _some(shown.all("critical")))]
    return [(word, text) for word, text in found if text]


def _some(values: List[str]) -> str:
    """The values, or the first of them and how many more there are."""
    more = f" and {len(values) - _MOST_NAMES} more, which are not shown" if len(values) > _MOST_NAMES else ""
    return ", ".join(cut(it, _MOST_TEXT) for it in values[:_MOST_NAMES]) + more


def _definitions(rows: Iterable[Tuple[str, str]]) -> Element:
    found = tag("dl")
    for word, text in rows:
        add(found, [tag("dt", word), tag("dd", cut(text, _MOST_TEXT * (_MOST_NAMES + 1)))])
    return found


# ---- over time

def _over_time(facts: Facts, number: str = "") -> Optional[Element]:
    it = facts.over_time
    if it is None or not it.stretches:
        return None
    now = stretch_at(it, facts.asked.moment)
    rows = [_stretch_row(one, middle(it, at), at == now) for at, one in enumerate(it.stretches)]
    table = tag("table", tag("caption", "One answer of the library for each stretch. Stretches are drawn with one width, whatever time they take."),
                _table_head("from", "until", "verdict", "by what"), tag("tbody", *rows), id=f"stretches{number}")
    cut_note = tag("p", "There are further moments at which something begins or ends; nothing is said of them here.") if it.is_cut else None
    return _section("Over time", tag("div", time_picture(facts, it), class_="wide"), None if number else _slider(len(it.stretches), now), cut_note,
                    tag("div", table, class_="wide"))


def _slider(count: int, now: int) -> Element:
    box = tag("div", tag("label", "Another moment", for_="moment"),
              tag("input", type="range", id="moment", min=0, max=count - 1, step=1, value=now), tag("p", id="said", role="status"), id="slider")
    box.set("hidden", "hidden")
    return box


def _stretch_row(one: Stretch, at: float, is_now: bool) -> Element:
    result = one.result
    words = "not one answer: its beginning and its end differ" if result is None else verdict_text(result)
    first, last, why = moment_text(one.first, "the beginning of time"), moment_text(one.last, "the end of time"), _why(result)
    return tag("tr", tag("td", first), tag("td", last),
               tag("td", words + (" \u2190 the moment asked about" if is_now else ""), class_=class_of(result)), tag("td", why),
               class_="now" if is_now else None, data_x=f"{at:.1f}", data_said=f"From {first} to {last}: {words}{f', {why}' if why else ''}")


def _why(result: Optional[Result]) -> str:
    """The certificate that decides, or why no path is found."""
    if result is None or result.decides is None:
        return "" if result is None or result.why_not is None else cut(str(result.why_not), _MOST_TEXT)
    return f"certificate {result.certificate}: {_named(result.decides)}"


def _table_head(*titles: str) -> Element:
    return tag("thead", tag("tr", *(tag("th", it, scope="col") for it in titles)))


# ---- statements and others

def _statements(facts: Facts) -> Element:
    if not facts.asked.statements:
        return _section("Lists and responses", tag("p", "None was handed in."))
    left_out = len(facts.asked.statements) - len(facts.refused) - MOST_STATEMENTS
    note = tag("p", "What a list or a response says is the library's verdict on a certificate of the path by it alone, at the moment asked about.",
               class_="soft")
    return _section("Lists and responses", note, tag("div", _statement_table(facts.statements), class_="wide"),
                    _more(left_out, "lists and responses"))


def _statement_table(statements: Iterable[Statement]) -> Element:
    return tag("table", _table_head("statement", "from whom", "speaks from", "until", "says"), tag("tbody", *map(_statement_row, statements)))


def _statement_row(it: Statement) -> Element:
    windows = it.windows[:4]
    return tag("tr", tag("td", cut(f"{_what(it)}, {printable(it.title)}", _MOST_TEXT)), tag("td", cut(_by_whom(it), _MOST_TEXT)),
               tag("td", "; ".join(moment_text(begin) for begin, _ in windows)), tag("td", "; ".join(moment_text(end, "no end") for _, end in windows)),
               tag("td", "; ".join(map(_said, it.said)) or "nothing of this path"))


def _what(it: Statement) -> str:
    """What a statement is, and the number of a list."""
    number = it.shown.one("number")
    return "response" if it.shown.kind is Kind.RESPONSE else f"list {number}" if number else "list"


def _by_whom(it: Statement) -> str:
    """The issuer of a list, or the responder, by its name or by the hash of its key."""
    named = it.shown.one("issuer") or it.shown.one("responder") or "-"
    return f"key {named}" if named.startswith("#") else name_from_shown(named) or "(no name)"


def _said(it: Said) -> str:
    what = "is not revoked" if it.result.verdict is Verdict.VALID else f"is {verdict_text(it.result)}"
    return f"certificate {it.number} {what}"


def _others(facts: Facts) -> Optional[Element]:
    if not facts.others:
        return None
    why = facts.result.why_not if facts.result is not None else None
    reasons = {it.sha256: reason for it, reason in why.obstacles} if why is not None else {}
    rows = [_other_row(one, reasons.get(one.identity.sha256)) for one in facts.others[:MOST_OTHERS]]
    table = tag("table", _table_head("certificate", "valid", "why not there"), tag("tbody", *rows))
    place = "" if facts.result is None else " that are not on the path"
    shown = tag("details", tag("summary", f"Certificates that were sent{place}: {len(facts.others)}"), tag("div", table, class_="wide"),
                _more(len(facts.others) - MOST_OTHERS, "certificates"))
    if reasons:
        shown.set("open", "open")
    return _section("Other certificates", shown)


def _other_row(one: Certificate, reason: Optional[Reason]) -> Element:
    why = "" if reason is None else f"{reason.name.lower().replace('_', ' ')}: {_explained(reason)}"
    return tag("tr", tag("td", _named(one.identity)), tag("td", f"{moment_text(one.not_before)} to {moment_text(one.not_after)}"), tag("td", why))


# ---- evidence

def _evidence(facts: Facts) -> Element:
    asked = facts.asked
    limits = asked.limits or Limits()
    rows = [("moment", f"{moment_text(asked.moment)} ({asked.moment} s from 1970-01-01)"), ("purpose", asked.purpose or "none"),
            ("name", "none" if asked.name is None else printable(str(asked.name))),
            ("profile", asked.profile.value),
            ("limits", f"{limits.signatures} signatures, {limits.steps} steps, {limits.verdicts} verdicts"),
            ("made by", "; ".join(version_lines()))]
    return _section("What was asked", _definitions(rows), tag("details", tag("summary", "SHA-256 of all that was handed in"), _digests(facts)))


def _digests(facts: Facts) -> Element:
    handed_in = [(f"{word} {at}", value) for word, values in (("certificate", facts.asked.certificates), ("anchor", facts.asked.anchors),
                                                               ("statement", facts.asked.statements)) for at, value in enumerate(values)]
    rows = [tag("tr", tag("td", title), tag("td", tag("code", _sha256(value)))) for title, value in handed_in[:2 * MOST_OTHERS]]
    return tag("div", tag("table", _table_head("value", "SHA-256"), tag("tbody", *rows)), _more(len(handed_in) - 2 * MOST_OTHERS, "values"), class_="wide")


def _sha256(value: Value) -> str:
    return hashlib.sha256(der_of(value)).hexdigest()


# ---- two parties

def _heads_of_two(both: List[Facts]) -> Element:
    columns = [tag("div", tag("h3", f"Party {at}"), _verdict(facts)) for at, facts in enumerate(both, 1)]
    return tag("header", tag("h1", _title(both[0])), tag("p", _question(both[0]), class_="soft"), tag("div", *columns, class_="two"))


def _sections_of_two(both: List[Facts]) -> List[Element]:
    held = [{it.octets for it in facts.statements} for facts in both]
    found = []
    for at, facts in enumerate(both):
        alone = [it for it in facts.statements if it.octets not in held[1 - at]]
        body = tag("div", _statement_table(alone), class_="wide") if alone else tag("p", "None.")
        found.append(_section(f"What only party {at + 1} holds", body))
    for at, facts in enumerate(both, 1):
        inside = [it for it in (_refused(facts), _path(facts), _over_time(facts, str(at)), _statements(facts)) if it is not None]
        found.append(tag("details", tag("summary", f"The whole report of party {at}"), *inside))
    return [*found, _evidence(both[0])]
