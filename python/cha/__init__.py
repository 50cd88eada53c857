"""Chess adjudication by proved code: can a side still checkmate by any series of legal moves?

The library that `make lib` builds does the work. This module hands it text, and turns its reports into values.

>>> import cha
>>> for found in cha.positions("8/8/8/4k3/8/8/8/4KB2 w - -"):
...     print(found.status, found.white.kind, found.black.kind)
dead unwinnable unwinnable

A mating line is a list of moves. A certificate is a text that `check` accepts:

>>> [found] = cha.positions("6k1/5ppp/8/8/8/8/5PPP/3R2K1 w - -")
>>> found.white.kind, found.white.line, found.white.san
('winnable', ['d1d8'], ['Rd8#'])
>>> [found] = cha.positions("4k3/8/8/8/8/8/8/4K3 w - -", certs=True)
>>> cha.check(found.white.certificate)
True

`cha.db` (the command `cha-db`) judges whole databases, `cha.frame` gives them as a table of pandas, and `cha.dask` uses a cluster.
"""

from cha._calls import ChaError, OutOfMemory, TooLong, UsageError, check, corrected, report
from cha._frame import frame
from cha._reading import games, positions
from cha._values import DeadFrom, Game, Position, Refusal, Span, Unreadable, Verdict

__all__ = [
    "ChaError",
    "DeadFrom",
    "Game",
    "OutOfMemory",
    "Position",
    "Refusal",
    "Span",
    "TooLong",
    "Unreadable",
    "UsageError",
    "Verdict",
    "check",
    "corrected",
    "frame",
    "games",
    "positions",
    "report",
]
