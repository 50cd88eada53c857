"""What is found, as values: the lines of a report in JSON, field by field."""

from dataclasses import dataclass, field
from typing import Any, Dict, List, Optional

from cha._board import svg


@dataclass(frozen=True)
class Verdict:
    """The verdict on a side: `kind` is `winnable`, `unwinnable`, `undecided` or `skipped`."""

    kind: str
    #: of `winnable`, legal moves of both sides that end in a mate by this one, as `e2e4`, and the same as players write them
    line: List[str] = field(default_factory=list)
    san: List[str] = field(default_factory=list)
    #: of `unwinnable`, what shows it: `sets`, `graph`, or the name of what the men alone show; and how many nodes a graph has
    by: Optional[str] = None
    nodes: Optional[int] = None
    #: of `unwinnable`, a text that `check` accepts, where certificates were asked for
    certificate: Optional[str] = None
    #: of `undecided`, how many distinct positions were expanded, and within how many plies no mate exists
    positions: Optional[int] = None
    depth: Optional[int] = None


@dataclass(frozen=True)
class Span:
    """Where a game stands in its text: the byte at which its first token begins, and the one after its last token, from 0."""

    start: int
    end: int


@dataclass(frozen=True)
class DeadFrom:
    """From which ply on a game was dead; `undecided` is the ply before it, if nothing was shown about that one."""

    ply: int
    undecided: Optional[int] = None


@dataclass(frozen=True)
class Position:
    """A line that is a position. `status` is checkmate, stalemate, dead, live or unclear; `line` is counted from 1."""

    number: int
    line: int
    fen: str
    white: Verdict
    black: Verdict
    status: str

    def _repr_svg_(self) -> str:
        return svg(self.fen)


@dataclass(frozen=True)
class Game:
    """A game that could be read, with its recorded result and the one by the Laws of Chess.

    `line` is the line in which it begins, from 1; `fen` is its final position; `article` is the Article that decides, if one does.
    `flagged` is true where its tag `Termination` says that it was lost on time; `flag` is the side whose flag fell, if that is known.
    """

    number: int
    span: Span
    line: int
    fen: str
    white: Verdict
    black: Verdict
    status: str
    dead_from: Optional[DeadFrom]
    recorded: str
    result: str
    changed: bool
    article: Optional[str]
    flagged: bool
    flag: Optional[str] = None

    def _repr_svg_(self) -> str:
        return svg(self.fen)


@dataclass(frozen=True)
class Refusal:
    """A line that is no position, and why."""

    number: int
    line: int
    reason: str


@dataclass(frozen=True)
class Unreadable:
    """A game that cannot be read, where it stands, and why."""

    number: int
    span: Span
    line: int
    reason: str


Fields = Dict[str, Any]


def verdict_of(found: Fields) -> Verdict:
    """The verdict that a line says.

    >>> verdict_of({"verdict": "winnable", "plies": 1, "moves": ["g4f2"], "san": ["Nf2#"]}).san
    ['Nf2#']
    """
    names = ("san", "by", "nodes", "certificate", "positions", "depth")
    given = {name: found[name] for name in names if name in found}
    return Verdict(found["verdict"], line=found.get("moves", []), **given)


def _sides(found: Fields) -> Fields:
    return {"white": verdict_of(found["white"]), "black": verdict_of(found["black"])}


def position_of(found: Fields) -> "Position | Refusal":
    """What a line says of a position."""
    if "refused" in found:
        return Refusal(found["position"], found["line"], found["refused"])
    return Position(found["position"], found["line"], found["fen"], status=found["status"], **_sides(found))


def game_of(found: Fields) -> "Game | Unreadable":
    """What a line says of a game."""
    number, span, line = found["game"], Span(*found["bytes"]), found["line"]
    if "unreadable" in found:
        return Unreadable(number, span, line, found["unreadable"])
    dead_from = found["dead_from"] and DeadFrom(**found["dead_from"])
    names = ("fen", "status", "recorded", "result", "changed", "article", "flagged")
    given = {name: found[name] for name in names}
    return Game(number, span, line, dead_from=dead_from, flag=found.get("flag"), **given, **_sides(found))
