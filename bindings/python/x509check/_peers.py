"""From what a peer sends to a verdict: paths found among certificates in any order (RFC 4158), and names matched (RFC 9525)."""

import dataclasses
import os
import ssl
from typing import Iterable, List, NamedTuple, Optional, Tuple

from ._arguments import Moment, Value, der_of, listed, purpose_of, seconds_of
from ._certificates import Certificate, origin_of
from ._faults import Fault, Text
from ._files import load
from ._key_usage import goes_with
from ._library import FINDING_WORDS
from ._pem import Kind, Loaded
from ._profile import Profile
from ._query import Ignored, Limits, Query, Search
from ._questions import SignatureQuestion, ask, ask_within
from ._reference import Reference, speaks_for
from ._verdicts import (
    Judge, Judged, Reason, Result, Verdict, WhyNot, check_flag, given_prints, good_prints, identity_of, judged_by, result_of, why_not_of,
    with_alarms, without_alarms,
)

# Where systems keep the certificates of their anchors in one file, beside where Python's OpenSSL looks for them: Debian, Alpine and Arch;
# Fedora and Red Hat; openSUSE; FreeBSD and macOS.
_BUNDLES = (
    "/etc/ssl/certs/ca-certificates.crt", "/etc/pki/ca-trust/extracted/pem/tls-ca-bundle.pem", "/etc/pki/tls/certs/ca-bundle.crt",
    "/var/lib/ca-certificates/ca-bundle.pem", "/etc/ssl/ca-bundle.pem", "/etc/ssl/cert.pem",
)


class NoAnchors(OSError):
    """The system has no file of anchors at the places where it is looked for."""


def system_anchors() -> List[Loaded]:
    """The anchors of this system: the certificates in the file that SSL_CERT_FILE names; else in the first that is there, of the one where
    Python's OpenSSL looks and of those where systems keep it. What such a file says beside the certificates, as for which purposes an
    anchor is trusted, is not read.

    Raises NoAnchors if there is none, NotLoaded if the file holds anything that cannot be read, and OSError.
    """
    named = os.environ.get("SSL_CERT_FILE")
    if named is not None:
        return load(named, Kind.CERTIFICATE)
    places = [place for place in (ssl.get_default_verify_paths().openssl_cafile, *_BUNDLES) if os.path.exists(place)]
    if not places:
        raise NoAnchors("no file of anchors was found; SSL_CERT_FILE may name one")
    return load(places[0], Kind.CERTIFICATE)


def sent_by(certificates: Iterable[Value]) -> List[Value]:
    """What a peer sent: the certificate in question, and others."""
    sent = listed("certificates", certificates)
    if not sent:
        raise ValueError("certificates: the certificate in question is wanted, and there is none")
    return sent


def certificate_in(value: Value, profile: Profile) -> Certificate:
    """The certificate that the value is, if it can be read in the profile as one of a path."""
    certificate = Certificate.from_der(value)
    Query(certificate, [certificate], [], profile=profile).questions()
    return certificate


def _readable(certificates: List[Value], profile: Profile) -> Tuple[List[Value], Tuple[Ignored, ...]]:
    """The certificates that can be read in the profile, the first in any case; and which the others are, and why."""
    kept, ignored = certificates[:1], []
    for at, one in enumerate(certificates[1:], 1):
        try:
            certificate_in(one, profile)
        except Fault as fault:
            origin = origin_of(one)
            told = Fault(fault.number, fault.offset, fault.der, Text.CERTIFICATES, at, origin)
            ignored.append((at if origin is None else origin, told))
        else:
            kept.append(one)
    return kept, tuple(ignored)


def peer_questions(
    certificates: Iterable[Value], anchors: Iterable[Value], statements: Iterable[Value], *, profile: Profile = Profile.STATED,
) -> List[SignatureQuestion]:
    """What a judge of signatures may be asked by `validate_peer`, at whatever moment and for whatever purpose: about each certificate that
    leads to the first by names, under each that has the name of its issuer, and then about each statement under each of these. One question
    may be there twice. The profile is that of the verdict.

    Raises a Fault if a certificate or a statement cannot be read, and ValueError for no certificates, and for more pairs of certificates
    than a search asks about (`Limits.signatures`).
    """
    sent = sent_by(certificates)
    search = Search(anchors, sent[0], sent[1:], statements, profile=profile)
    if search.may_ask_more(Limits().signatures):
        raise ValueError(f"more than {Limits().signatures} pairs of certificates whose names match")
    return ask(search)


def validate_peer(
    certificates: Iterable[Value],
    anchors: Iterable[Value],
    statements: Iterable[Value],
    at: Moment,
    purpose: Optional[str] = None,
    verify: Optional[Judge] = None,
    *,
    name: Optional[Reference] = None,
    fingerprints: Optional[Iterable[Value]] = None,
    ignore_unreadable: bool = False,
    ignore_unreadable_certificates: bool = False,
    limits: Optional[Limits] = None,
    profile: Profile = Profile.STATED,
) -> Result:
    """The verdict on what a peer sent: `certificates` has the one in question first, as TLS sends it, and then others in any order, which
    may stand between it and an anchor or may not. A path is found if there is one: the first whose verdict is VALID by the statements; if
    there is none, the first that meets the conditions of RFC 5280, 6.1, with its verdict; shorter paths come first. `Result.path` has it.
    If no path meets the conditions the verdict is NOT_FOUND, and `Result.why_not` says why.

    With a name, the certificate has to speak for it too: a host (``mx.example.org``), an IP address, or a mailbox (``user@example.org``), as
    `Certificate.speaks_for` says. If it does not, a VALID verdict becomes OTHER_NAME; no other verdict changes. A server's name is
    mostly asked for with the purpose ``serverAuth``.

    Statements, moment, purpose, `verify`, `fingerprints`, `ignore_unreadable` and `profile` are as for `validate`; if the keyUsage of the
    certificate in question does not go with the purpose, the verdict is NOT_FOUND. With `ignore_unreadable_certificates`
    certificates behind the first that cannot be read are left out, and `Result.ignored` names them: a path may then not be found. GAVE_UP is
    the verdict if a limit is used up; nobody is asked if there would be more to ask than `Limits.signatures` lets.

    Raises a Fault if a certificate or a statement cannot be read, Unjudged and Contradiction as `validate`, BadReference for a name that is none, ValueError for no certificates, a
    moment, a purpose, limits or a fingerprint that is none, and TypeError for arguments and answers of a judge that are of another kind.
    """
    given = given_prints(verify, fingerprints)
    check_flag("ignore_unreadable", ignore_unreadable)
    check_flag("ignore_unreadable_certificates", ignore_unreadable_certificates)
    if limits is not None and not isinstance(limits, Limits):
        raise TypeError(f"limits: Limits are wanted, not {type(limits).__name__}")
    moment, asked_for = seconds_of(at), purpose_of(purpose)
    sent = sent_by(certificates)
    ignored: Tuple[Ignored, ...] = ()
    if ignore_unreadable_certificates:
        sent, ignored = _readable(sent, profile)
    search = Search(anchors, sent[0], sent[1:], statements, moment, asked_for, limits, profile)
    speaks = None if name is None else speaks_for(der_of(sent[0], "certificates[0]"), name, origin_of(sent[0]))
    if ignore_unreadable:
        ignored += search.leave_out_unreadable()
    asked = ask_within(search, (limits or Limits()).signatures) if given is None else []
    if asked is None:
        result = gave_up(search)
    else:
        judged = judged_by(asked, verify) if given is None else ()
        question = PathQuestion(moment, purpose, speaks, ignore_unreadable, profile)
        result = found_by(search, question, judged, good_prints(judged) if given is None else given)
    return without_alarms(dataclasses.replace(result, ignored=ignored + result.ignored, name=None if name is None else str(name)))


def gave_up(search: Search) -> Result:
    """The result of a search that would ask more than its limits let."""
    return Result(Verdict.GAVE_UP, target=identity_of(search.target))


class PathQuestion(NamedTuple):
    """What is asked of a path that a search finds, and whether the certificate in question speaks for the name, if one was asked for."""

    moment: int
    purpose: Optional[str]
    speaks: Optional[bool]
    leave_out: bool
    profile: Profile


def for_purpose(result: Result, certificate: Value, purpose: Optional[str]) -> Result:
    """The result of a search about a certificate, whose keyUsage has to go with the purpose too."""
    if result.verdict is Verdict.NOT_FOUND or goes_with(certificate, purpose):
        return result
    target = identity_of(der_of(certificate))
    return dataclasses.replace(
        result, verdict=Verdict.NOT_FOUND, certificate=None, reason=None, decides=None, path=(), why_not=WhyNot(target, Reason.PURPOSE))


def found_by(search: Search, question: PathQuestion, judged: Tuple[Judged, ...], good: bytes) -> Result:
    """What is found, if these signatures are good, with the alarms of a path that somebody may accept."""
    answer, path = search.finding(good)
    target = identity_of(search.target)
    result = dataclasses.replace(
        result_of(answer, FINDING_WORDS, path), target=target, judgements=judged, path=tuple(map(identity_of, path)))
    if result.verdict is Verdict.NOT_FOUND:
        return dataclasses.replace(result, why_not=why_not_of(search.diagnosis(good), target))
    result = for_purpose(result, search.target, question.purpose)
    if result.verdict is Verdict.VALID and question.speaks is False:
        return dataclasses.replace(result, verdict=Verdict.OTHER_NAME)
    if not result.path:
        return result
    on_path = search.on_path(path, question.moment, purpose_of(question.purpose), question.profile)
    return with_alarms(result, on_path, judged, good, question.leave_out, lambda query: query.verdict(good))
