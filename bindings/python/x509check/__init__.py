"""X.509 certificates, and whether a path of them may be believed at a moment (RFC 5280; RFC 6960).

The work is done by the library for C of x509check, whose code is proved. This module calls it by ctypes; signatures are judged by
`x509check.signatures`, or by a function of yours. It keeps no state, and any number of threads may call.

    anchor, = x509check.load("root.pem")
    leaf, = x509check.load("leaf.pem")
    chain = x509check.path_to(anchor, leaf, x509check.load("others.pem"))
    result = x509check.validate(anchor, chain, x509check.load("lists.pem"), "now", "serverAuth", target=leaf)
    result.require_valid()
    print(result.target)

What cannot be read is an error: NotLoaded for a file, and a Fault for a certificate, a list or a response.
"""

from ._alarms import Alarm, Contradiction, Unjudged
from ._arguments import PURPOSES
from ._certificates import Certificate, Extensions, check, fingerprint
from ._faults import Fault, Text
from ._files import NoPath, load, path_to
from ._library import LibraryMissing
from ._lines import Answer
from ._link import Forked, Garbled, PartyEnded, PartyError, TimeIsUp
from ._names import Identity
from ._party import Contradicted, Delivery, Party, PartyLimits, Refused
from ._peers import NoAnchors, peer_questions, system_anchors, validate_peer
from ._pem import Kind, Loaded, NotLoaded
from ._policies import ResultWithPolicies, validate_with_policies
from ._profile import Profile
from ._program import ProgramMissing, explain
from ._query import Limits
from ._questions import SignatureQuestion, questions
from ._reference import BadReference, ReferenceRule
from ._report import report, report_on_two
from ._verdicts import NotValid, Reason, Result, RevocationReason, Verdict, WhyNot, validate
from .signatures import JudgeFailed, Judgement, JudgeMissing, Opinion, Policy, judge, judge_all, opinions

__version__ = "1.2.0"

__all__ = [
    "Alarm", "Answer", "BadReference", "Certificate", "Contradicted", "Contradiction", "Delivery", "Extensions", "Fault", "Forked", "Garbled", "Identity", "JudgeFailed", "JudgeMissing", "Judgement", "Kind", "LibraryMissing", "Limits",
    "Loaded", "NoAnchors", "NoPath", "NotLoaded", "NotValid", "Opinion", "Party", "PartyEnded", "PartyError", "PartyLimits",
    "Policy", "Profile", "ProgramMissing", "PURPOSES", "SignatureQuestion", "Reason", "ReferenceRule", "Refused",
    "Result", "ResultWithPolicies", "RevocationReason", "Text", "TimeIsUp", "Unjudged", "Verdict", "WhyNot", "check", "explain", "fingerprint", "judge", "judge_all", "load", "opinions", "path_to",
    "peer_questions", "questions", "report", "report_on_two", "system_anchors", "validate", "validate_peer", "validate_with_policies",
]
