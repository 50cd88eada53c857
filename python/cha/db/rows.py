"""A row for each game: the library's line, and what goes along with it."""

import functools
import json
import re
from dataclasses import dataclass
from typing import Any, Dict, Iterator, List, Optional

from cha.db.joining import Judged
from cha.db.tags import NAMES, tags_of

#: which games are wanted, and what their lines have
KINDS = {
    "changed": b'"changed":true',
    "dead": b'"status":"dead"',
    "undecided": b'"verdict":"undecided"',
    "unreadable": b'"unreadable":"',
}


@dataclass(frozen=True)
class Row:
    """A game of a file: the line that `cha adjudicate --json` prints of it in one run over the whole, and the front of its bytes."""

    file: str
    line: bytes
    front: bytes

    @functools.cached_property
    def fields(self) -> Dict[str, Any]:
        """The line as a value."""
        return dict(json.loads(self.line))

    @functools.cached_property
    def tags(self) -> Dict[str, str]:
        """The tags of the game."""
        return tags_of(self.front)


#: so many bytes of a game are taken along: its tags stand there
_FRONT = 1 << 20
_BYTES = re.compile(rb'"bytes":\[(\d+),(\d+)\]')


def rows_of(judged: Judged, file: str, only: Optional[str] = None) -> Iterator[Row]:
    """Yields the rows of what was judged, or only those of a kind."""
    for line in judged.lines(KINDS[only] if only else b""):
        place = _BYTES.search(line)
        assert place is not None, line
        first, end = (int(number) - judged.at.byte for number in place.groups())
        yield Row(file, line, bytes(judged.text[first : min(end, first + _FRONT)]))


#: the columns of a table, a side's with its name before them
GAME_COLUMNS = (
    ["file", "game", "line", "first_byte", "end_byte"]
    + [name.lower() for name in NAMES]
    + ["recorded", "result", "changed", "article", "status", "dead_from", "dead_from_undecided", "flagged", "flag", "fen", "unreadable"]
)
SIDE_COLUMNS = ["verdict", "plies", "moves", "san", "shown_by", "nodes", "positions", "depth"]
COLUMNS = GAME_COLUMNS + [f"{side}_{name}" for side in ("white", "black") for name in SIDE_COLUMNS]


def game_cells(row: Row) -> List[Any]:
    """The values of a row under `GAME_COLUMNS`; None where there is none."""
    fields = row.fields
    dead_from = fields.get("dead_from") or {}
    given = dict(fields, dead_from=dead_from.get("ply"), dead_from_undecided=dead_from.get("undecided"))
    names = GAME_COLUMNS[5 + len(NAMES) :]
    return [row.file, fields["game"], fields["line"], *fields["bytes"], *map(row.tags.get, NAMES), *map(given.get, names)]


def side_cells(row: Row, side: str) -> List[Any]:
    """The values of a side under `SIDE_COLUMNS`, the moves of a line with a blank between two."""
    verdict = row.fields.get(side, {})
    verdict = dict(verdict, shown_by=verdict.get("by"))
    return [" ".join(cell) if isinstance(cell, list) else cell for cell in map(verdict.get, SIDE_COLUMNS)]


def cells(row: Row) -> List[Any]:
    """The values of a row under `COLUMNS`."""
    return game_cells(row) + side_cells(row, "white") + side_cells(row, "black")
