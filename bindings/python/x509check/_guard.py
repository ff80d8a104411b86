"""What the server of a party answers in place of a verdict that a contradicting statement stands against."""

from typing import List, Sequence

from ._files import load
from ._lines import CONTRADICTED, Answer, Form, Request, Word
from ._party import Party

_MAY_BE_ACCEPTED = (0, 3)


def guarded(party: Party, request: Request, words: Sequence[Word], answer: Answer) -> Answer:
    """The answer to a request whose operands are values, or CONTRADICTED. A delivery that contradicts what the store holds is noted."""
    if request.form is Form.DELIVER and answer.status == 0 and not answer.text.endswith(" contradicted 0"):
        issuer, statement = _operands(request, words)
        party.note_contradicted(issuer, statement)
    if request.form in (Form.CHECK, Form.CHECK_POLICIES, Form.FIND) and answer.status in _MAY_BE_ACCEPTED:
        path = _path_found(request, words, answer) if request.form is Form.FIND else _certificates(_operands(request, words))
        if party.contradicted(path, str(words[1])):
            return CONTRADICTED
    return answer


def _operands(request: Request, words: Sequence[Word]) -> List[bytes]:
    return [word for word in words[request.operands_from:] if isinstance(word, bytes)]


def _certificates(operands: Sequence[bytes]) -> List[bytes]:
    """The certificates of a path, of which one operand may hold several in a row."""
    return [one.octets for octets in operands for one in load(octets)]


def _path_found(request: Request, words: Sequence[Word], answer: Answer) -> List[bytes]:
    """The certificates that the lines of `find` name, by an operand and a number in it. (If it gave up there are none.)"""
    octets = dict(zip(request.operands, _operands(request, words)))
    places = [line.split(" ")[1:] for line in answer.lines[:-1]]
    return [load(octets[name])[int(number) - 1].octets for name, number in places]
