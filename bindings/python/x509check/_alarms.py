"""What stands against a verdict that is valid, and why the call then raises."""

from typing import TYPE_CHECKING, Optional, Tuple, Union

from ._pem import Loaded

if TYPE_CHECKING:
    from ._verdicts import Result

Handed = Union[Loaded, int]
"""A statement that was handed in, as it was loaded or by its number from 0."""


def _named(one: Handed) -> str:
    return str(one) if isinstance(one, Loaded) else f"statements[{one}]"


class Alarm(ValueError):
    """A verdict would be valid, but something that was handed in may say otherwise."""


class Unjudged(Alarm):
    """Statements that may be of an issuer of the path, and whose signatures nobody could judge: each may be the one that revokes."""

    def __init__(self, statements: Tuple[Handed, ...]):
        self.statements = statements
        super().__init__("nobody could judge the signature of " + ", ".join(map(_named, statements)))

    def __reduce__(self) -> Tuple[object, ...]:
        return type(self), (self.statements,)


class Contradiction(Alarm):
    """Statements of one issuer contradict each other: in another order they say something else. `result` is what they say then; it is None
    if they are too many to look at, or stand in one response."""

    def __init__(self, result: "Optional[Result]" = None):
        self.result = result
        super().__init__("statements of one issuer, with one number or the same times, contradict each other; in another order they say: "
                         f"{'nobody knows, as they are too many, or stand in one response' if result is None else result}")

    def __reduce__(self) -> Tuple[object, ...]:
        return type(self), (self.result,)
