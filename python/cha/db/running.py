"""Judges files, one behind the other, each by all threads."""

import json
import os
from concurrent.futures import ThreadPoolExecutor
from contextlib import contextmanager
from dataclasses import dataclass
from typing import Iterator, List, Optional, Sequence

from cha._calls import ChaError, Text, limits, report
from cha._reading import words_for
from cha.db.joining import Judge, Judged, Place, Said, joined, last_line
from cha.db.pieces import pieces
from cha.db.rows import Row, rows_of
from cha.db.sources import opened

#: the bytes of a piece: some thousand games
PIECE = 2 << 20


@dataclass(frozen=True)
class Part:
    """A part of a file that was judged; `told` is how many bytes of the file on the disk were read up to now."""

    file: str
    judged: Judged
    told: int

    def rows(self, only: Optional[str] = None) -> List[Row]:
        """The games, or those of a kind."""
        return list(rows_of(self.judged, self.file, only))


def parts(file: str, judge: Judge, room: int, size: int = PIECE, at: Place = Place()) -> Iterator[Part]:
    """Judges a file from a place on, and yields its parts in their order. `InputError` and `ChaError` come behind what could be judged."""
    with opened(file) as source:
        source.skip(at.byte)
        try:
            for judged in joined(pieces(source.read, size), judge, room, at):
                at = judged.behind
                yield Part(file, judged, source.told)
        except ChaError as fault:
            raise type(fault)(f"{file}, from line {at.feeds + 1} on: {fault}") from fault


def processors() -> int:
    """Returns how many processors this process may use."""
    return len(os.sched_getaffinity(0)) if hasattr(os, "sched_getaffinity") else os.cpu_count() or 1


def words(budget: Optional[int] = None, depth: Optional[int] = None) -> List[str]:
    """Returns the command words for a piece: other pieces use the other processors."""
    return words_for("adjudicate", budget=budget, depth=depth) + ["--workers=1"]


def correcting(budget: Optional[int] = None, depth: Optional[int] = None) -> List[str]:
    """Returns the command words by which a piece gets the right results."""
    return ["correct", *limits(budget, depth), "--workers=1"]


def said(order: Sequence[str], text: Text, correct: Optional[Sequence[str]] = None) -> Said:
    """Judges a text; where a game of it changes and there are words for it, the text gets the right results."""
    found = report(order, text)
    is_changed = correct is not None and json.loads(found[last_line(found) :])["changed"] > 0
    return Said(found, report(correct, text) if correct is not None and is_changed else None)


def room_for(count: int) -> int:
    """Returns how many pieces are held so that so many judges always have one."""
    return 2 * count + 1


@contextmanager
def threads(count: int, order: Sequence[str], correct: Optional[Sequence[str]] = None) -> Iterator[Judge]:
    """Gives what judges pieces, so many at once, and corrects them where there are words for it."""
    with ThreadPoolExecutor(count) as pool:
        yield lambda text: pool.submit(said, order, text, correct)
