"""The calls of the library, with their answers as values and exceptions."""

import functools
import os
from typing import List, Optional, Sequence, Union

from cha._engines import Engine, Library, Program

_DONE, _USAGE, _TOO_LONG, _NO_MEMORY, _NOT_ACCEPTED = 0, 1, 4, 5, 6

#: what may be handed in: a text, or bytes
Text = Union[str, bytes, bytearray]

#: no input may have more bytes
MOST_BYTES = 268_435_456


class ChaError(Exception):
    """The library gives no report; `status` is the exit status that the program would have."""

    status = 0


class UsageError(ChaError):
    """The words are no command of `cha`, or an option or a number is wrong."""

    status = _USAGE


class TooLong(ChaError):
    """The input has more than 268,435,456 bytes."""

    status = _TOO_LONG


class OutOfMemory(ChaError, MemoryError):
    """Memory was refused."""

    status = _NO_MEMORY


_ERRORS = {kind.status: kind for kind in (UsageError, TooLong, OutOfMemory)}


def _error(status: int, order: str) -> ChaError:
    error = _ERRORS.get(status, ChaError)(order if status in _ERRORS else f"{order}: status {status}")
    error.status = status
    return error


@functools.lru_cache(maxsize=None)
def _engine() -> Engine:
    """Returns the library that CHA_LIBRARY names; else the program that CHA_PROGRAM names; else the library beside this module, at the top
    of the repository, or of the system."""
    if "CHA_LIBRARY" in os.environ:
        return Library(os.environ["CHA_LIBRARY"])
    if "CHA_PROGRAM" in os.environ:
        return Program(os.environ["CHA_PROGRAM"])
    here = os.path.dirname(os.path.abspath(__file__))
    for folder in (here, os.path.dirname(os.path.dirname(here))):
        if os.path.exists(os.path.join(folder, "libcha.so")):
            return Library(os.path.join(folder, "libcha.so"))
    return Library("libcha.so")


def _bytes(text: Text) -> Union[bytes, bytearray]:
    return text.encode() if isinstance(text, str) else text


def report(words: Sequence[str], data: Text) -> bytes:
    """Returns what the program prints for these words and this input: `docs/MANUAL.md` has the words.

    >>> report(["position"], "").decode()
    'positions: 0, refused: 0, dead: 0, undecided: 0\\n'
    >>> report(["solve"], "")
    Traceback (most recent call last):
    ...
    cha._calls.UsageError: solve

    That a certificate is not accepted is a report too. Raises `ChaError` where there is no report.
    """
    status, printed = _engine().run(words, _bytes(data))
    if status not in (_DONE, _NOT_ACCEPTED):
        raise _error(status, " ".join(words))
    return printed


def limits(budget: Optional[int] = None, depth: Optional[int] = None) -> List[str]:
    """Returns the options that say how hard to look.

    >>> limits(depth=2)
    ['--depth=2']
    """
    options = [("--budget", budget), ("--depth", depth)]
    return [f"{name}={number}" for name, number in options if number is not None]


def corrected(
    data: Text, *, flagged_draws: bool = False, changed: bool = False, budget: Optional[int] = None, depth: Optional[int] = None
) -> bytes:
    """Returns a text of games in PGN with the results by the Laws of Chess: in each game whose result changes, the value of its first tag
    `Result` and the result after its moves are replaced, and every other byte is as it was.

    >>> corrected('[Result "1-0"]\\n\\n1. f3 e5 2. g4 Qh4# {ben wins} 1-0\\n').decode()
    '[Result "0-1"]\\n\\n1. f3 e5 2. g4 Qh4# {ben wins} 0-1\\n'

    With `flagged_draws`, games that were drawn though a flag fell are examined too. With `changed`, only the games whose result changes are
    returned, each from its first token to its last, with a blank line after it. Raises `ChaError` as `report` does.

    >>> corrected("1. e4 * f3 e5 2. g4 Qh4# 1-0", changed=True)
    b'f3 e5 2. g4 Qh4# 0-1\\n\\n'
    """
    options = [("--flagged-draws", flagged_draws), ("--changed", changed)]
    return report(["correct", *(name for name, is_asked in options if is_asked), *limits(budget, depth)], data)


def check(certificate: Text) -> bool:
    """Returns whether a certificate is accepted: then no series of legal moves from the position of its first node mates for the side that
    its line `winner` names. Raises `ChaError` where the text is too long or memory is refused.

    >>> check("cha-cert 1")
    False
    """
    status = _engine().check(_bytes(certificate))
    if status not in (_DONE, _NOT_ACCEPTED):
        raise _error(status, "check")
    return status == _DONE
