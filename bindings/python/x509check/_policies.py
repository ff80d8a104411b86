"""Verdicts on paths whose certificate policies are processed (RFC 5280, 6.1; RFC 9618)."""

import dataclasses
from typing import Iterable, List, Optional, Tuple

from ._arguments import Moment, Value, policies_of
from ._der import dotted
from ._library import INVALID
from ._profile import Profile
from ._query import PolicyInputs, PolicySets
from ._verdicts import Judge, Result, Verdict, check_flag, judged_case

# Of a policy that cannot be written in dotted form so many octets are told.
_TOLD = 32


@dataclasses.dataclass(frozen=True)
class ResultWithPolicies(Result):
    """The verdict on a path whose policies are processed, whom it is about, and the policies at its end.

    The policies are object identifiers in dotted form, each once, in the order of their octets. `2.5.29.32.0`, anyPolicy, stands for every
    policy. Of a path that is invalid there are none to tell: they are None then, and not empty.
    """

    authority_policies: Optional[Tuple[str, ...]] = None
    """authority_constrained_policy_set (RFC 5280, 6.1.5 (g), by RFC 9618): under which policies the authorities have issued."""
    user_policies: Optional[Tuple[str, ...]] = None
    """user_constrained_policy_set: those that the user takes. It may be empty though the path is valid, unless a policy is required."""

    def __str__(self) -> str:
        line = super().__str__()
        if self.user_policies is None or self.authority_policies is None:
            return line
        return f"{line}; policies of the user: {_listed(self.user_policies)}; of the authorities: {_listed(self.authority_policies)}"


def _listed(policies: Tuple[str, ...]) -> str:
    return ", ".join(policies) or "none"


def _dotted(contents: bytes) -> str:
    try:
        return dotted(contents)
    except ValueError as cause:
        more = f".. ({len(contents)} octets)" if len(contents) > _TOLD else ""
        raise ValueError(f"the policy {contents[:_TOLD].hex()}{more} cannot be written in dotted form: {cause}") from None


def _ascend(policies: List[bytes]) -> bool:
    """Whether policies ascend, so that none is there twice."""
    return all(one < other for one, other in zip(policies, policies[1:]))


def _with_policies(result: Result, found: PolicySets) -> ResultWithPolicies:
    """The result, with the policies. A path that is invalid has none."""
    policies = found.authority, found.user
    if found.verdict.verdict == INVALID and any(policies) or not all(map(_ascend, policies)):
        raise RuntimeError(f"the library for C answered the policies {policies} of a path that is {result.verdict.value}")
    said = {field.name: getattr(result, field.name) for field in dataclasses.fields(Result)}
    if result.verdict is Verdict.INVALID:
        return ResultWithPolicies(**said)
    authority, user = (tuple(map(_dotted, them)) for them in policies)
    return ResultWithPolicies(**said, authority_policies=authority, user_policies=user)


def validate_with_policies(
    anchor: Value,
    chain: Iterable[Value],
    statements: Iterable[Value],
    at: Moment,
    purpose: Optional[str] = None,
    verify: Optional[Judge] = None,
    *,
    initial_policies: Optional[Iterable[str]],
    require_explicit_policy: bool,
    inhibit_policy_mapping: bool = False,
    inhibit_any_policy: bool = False,
    fingerprints: Optional[Iterable[Value]] = None,
    target: Optional[Value] = None,
    ignore_unreadable: bool = False,
    profile: Profile = Profile.STATED,
) -> ResultWithPolicies:
    """The verdict on a path whose certificate policies are processed, and the policies at its end.

    `initial_policies` are those that the user takes (user-initial-policy-set, RFC 5280, 6.1.1 (c)), object identifiers in dotted form; None
    takes every policy, as `2.5.29.32.0` among them does, and an empty list takes none. Only with `require_explicit_policy` (f), or where a
    certificate requires it, a path is invalid if none of them is valid at its end; else look at `user_policies` of the result. With
    `inhibit_policy_mapping` (e) no policy is mapped, and with `inhibit_any_policy` (g) anyPolicy counts only in self-issued certificates
    before the last.

    policyMappings, policyConstraints and inhibitAnyPolicy of certificates are processed, so that no path is invalid for POLICY; it may be
    for NO_VALID_POLICY, ANY_POLICY_MAPPED and NO_USER_POLICY. All else is as `validate` has it, and so are the other arguments.

    Raises what `validate` raises; a Fault also for a certificate whose extensions about policies are malformed; and ValueError also for a
    text that is no object identifier, and for a policy at the end of the path with an arc of more than 512 octets, which is not written out.
    """
    for name, flag in (("require_explicit_policy", require_explicit_policy), ("inhibit_policy_mapping", inhibit_policy_mapping),
                       ("inhibit_any_policy", inhibit_any_policy)):
        check_flag(name, flag)
    inputs = PolicyInputs(policies_of("initial_policies", initial_policies), inhibit_policy_mapping, require_explicit_policy, inhibit_any_policy)
    case = judged_case(anchor, chain, statements, at, purpose, verify, fingerprints, target, ignore_unreadable, profile)
    found = case.query.verdict_with_policies(case.good, inputs)
    return _with_policies(case.result(found.verdict, lambda query: query.verdict_with_policies(case.good, inputs).verdict), found)
