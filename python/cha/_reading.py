"""Positions and games of a text, judged."""

import json
from typing import Iterator, List, Optional, Union

from cha._calls import Text, limits, report
from cha._values import Fields, Game, Position, Refusal, Unreadable, game_of, position_of


def words_for(command: str, certs: bool = False, budget: Optional[int] = None, depth: Optional[int] = None) -> List[str]:
    """Returns the command words for a report in JSON.

    >>> words_for("position", depth=2)
    ['position', '--json', '--depth=2']
    """
    return [command, "--json", *(["--certs"] if certs else []), *limits(budget, depth)]


def _items(printed: bytes) -> Iterator[Fields]:
    """The lines of a report, but for the summary."""
    return (json.loads(line) for line in printed.splitlines()[:-1])


def positions(
    text: Text, certs: bool = False, budget: Optional[int] = None, depth: Optional[int] = None
) -> Iterator[Union[Position, Refusal]]:
    """Yields a `Position` or a `Refusal` for each line in FEN; blank lines are skipped.

    With `certs` an unwinnable side has its certificate. `budget` and `depth` say how hard to look, as for the program. Raises `ChaError`
    where there is no report.

    >>> [found] = positions("k7/8/1K6/8/8/8/8/7R w - -")
    >>> found.white.kind, found.black.kind
    ('winnable', 'skipped')
    >>> [found] = positions("\\nno position")
    >>> found
    Refusal(number=1, line=2, reason='shape')
    """
    return map(position_of, _items(report(words_for("position", certs, budget, depth), text)))


def games(
    data: Text, certs: bool = False, budget: Optional[int] = None, depth: Optional[int] = None
) -> Iterator[Union[Game, Unreadable]]:
    """Yields a `Game` or an `Unreadable` for each game of a text in PGN. The options are those of `positions`, and so are the errors.

    >>> [found] = games('[FEN "7k/8/6K1/8/8/8/8/R7 w - -"] [Termination "ben won on time"] 0-1')
    >>> found.recorded, found.result, found.article
    ('0-1', '1/2-1/2', '6.9')
    """
    return map(game_of, _items(report(words_for("adjudicate", certs, budget, depth), data)))
