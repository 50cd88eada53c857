"""Judges the pieces of a text and joins what is said of them, so that it is what one run says of the whole.

A report ends by telling whether its text was closed: then reading goes on behind it as if anew. A piece that was not closed is judged again
together with pieces that follow it.
"""

import json
import re
from collections import deque
from dataclasses import dataclass
from typing import Any, Callable, Deque, Dict, Iterator, NamedTuple, Optional, Protocol

from cha._calls import MOST_BYTES, TooLong

#: so many bytes of pieces, or a little more, are judged ahead of the one that is waited for
_BYTES_AHEAD = 64 << 20


class Said(NamedTuple):
    """The report on a text, and the text with the right results, where that was asked and a game of it changes."""

    report: bytes
    corrected: Optional[bytes] = None


class Promise(Protocol):
    """A report that is being made."""

    def result(self) -> Said:
        """Waits for the report."""

    def cancel(self) -> Any:
        """Says that nobody wants it."""


Judge = Callable[[bytearray], Promise]


@dataclass(frozen=True)
class Place:
    """What stands before a place of a text: bytes, line feeds and games."""

    byte: int = 0
    feeds: int = 0
    games: int = 0


@dataclass(frozen=True)
class Judged:
    """A closed text, or the last one: where it begins, its bytes, and what was said of it, with the numbers that it has alone; and the text
    with the right results, where that was asked and a game of it changes."""

    at: Place
    text: bytearray
    games: bytes
    summary: Dict[str, Any]
    corrected: Optional[bytes] = None

    @property
    def behind(self) -> Place:
        """The place behind it."""
        return Place(self.at.byte + len(self.text), self.at.feeds + self.text.count(b"\n"), self.at.games + self.summary["games"])

    def lines(self, wanted: bytes = b"") -> Iterator[bytes]:
        """Yields the lines on games, or those in which some bytes stand, with the numbers of the whole."""
        hit = self.games.find(wanted)
        while 0 <= hit < len(self.games):
            end = self.games.find(b"\n", hit)
            yield moved(self.games[self.games.rfind(b"\n", 0, hit) + 1 : end], self.at)
            hit = self.games.find(wanted, end + 1)


_START = re.compile(rb'\{"game":(\d+),"bytes":\[(\d+),(\d+)\],"line":(\d+)')
_BAD_TOKEN = re.compile(rb'("unreadable":"bad token at byte )(\d+)("\}$)')


def moved(line: bytes, at: Place) -> bytes:
    """Returns a line on a game with the numbers that it has where its text begins at a place.

    >>> moved(b'{"game":1,"bytes":[2,9],"line":1,"unreadable":"bad token at byte 4"}', Place(100, 10, 3))
    b'{"game":4,"bytes":[102,109],"line":11,"unreadable":"bad token at byte 104"}'
    """
    start = _START.match(line)
    if start is None:
        raise ValueError(f"no line on a game: {line[:80]!r}")
    game, first, end, number = map(int, start.groups())
    front = b'{"game":%d,"bytes":[%d,%d],"line":%d' % (game + at.games, first + at.byte, end + at.byte, number + at.feeds)
    rest = _BAD_TOKEN.sub(lambda bad: b"%s%d%s" % (bad[1], int(bad[2]) + at.byte, bad[3]), line[start.end() :])
    return front + rest


class _Taken(NamedTuple):
    """A piece, and the report that is made of it."""

    text: bytearray
    promise: Promise


class _Ahead:
    """Pieces that are judged while an earlier one is waited for. What goes wrong in reading is told behind the last whole piece."""

    def __init__(self, pieces: Iterator[bytearray], judge: Judge, room: int) -> None:
        self._pieces, self._judge, self._room = pieces, judge, room
        self._held: Deque[_Taken] = deque()
        self._end: Optional[Exception] = None

    def _read(self) -> Optional[bytearray]:
        if self._end is None:
            try:
                return next(self._pieces)
            except Exception as end:  # also StopIteration, where all was read
                self._end = end
        return None

    def _hold(self) -> None:
        while len(self._held) < self._room and sum(len(taken.text) for taken in self._held) < _BYTES_AHEAD:
            piece = self._read()
            if piece is None:
                break
            self._held.append(_Taken(piece, self._judge(piece)))

    def take(self) -> Optional[_Taken]:
        """The next piece, or None behind the last."""
        self._hold()
        if self._held:
            return self._held.popleft()
        self._tell_fault()
        return None

    def _take_text(self) -> Optional[bytearray]:
        """The next piece, which nobody wants judged by itself, or None behind the last."""
        if self._held:
            taken = self._held.popleft()
            taken.promise.cancel()
            return taken.text
        piece = self._read()
        if piece is None:
            self._tell_fault()
        return piece

    def _tell_fault(self) -> None:
        if self._end is not None and not isinstance(self._end, StopIteration):
            raise self._end

    def lengthen(self, text: bytearray) -> bool:
        """Adds pieces to a text until it has grown by a quarter, or as far as the library takes it; False behind the last piece."""
        before = len(text)
        while len(text) <= before + before // 4:
            piece = self._take_text()
            if piece is None:
                break
            if len(text) + len(piece) > MOST_BYTES:
                if len(text) == before:
                    raise TooLong("no end of a game in 268,435,456 bytes")
                self._held.appendleft(_Taken(piece, self._judge(piece)))
                break
            text += piece
        return len(text) > before

    def drop(self) -> None:
        """Says that nobody wants what is being made."""
        for taken in self._held:
            taken.promise.cancel()


def last_line(report: bytes) -> int:
    """Returns where the last line of a report begins."""
    return report.rfind(b"\n", 0, -1) + 1


def _judged(at: Place, text: bytearray, said: Said) -> Judged:
    last = last_line(said.report)
    return Judged(at, text, said.report[:last], json.loads(said.report[last:]), said.corrected)


def joined(pieces: Iterator[bytearray], judge: Judge, room: int, at: Place = Place()) -> Iterator[Judged]:
    """Yields what is said of the pieces, in their order. `room` is how many are judged at once, or wait to be joined; `at` is where the
    first piece begins. `TooLong` where a text cannot be judged, and what `pieces` raises, behind all that could be judged."""
    ahead = _Ahead(pieces, judge, room)
    try:
        while (taken := ahead.take()) is not None:
            text = taken.text
            found = _judged(at, text, taken.promise.result())
            while not found.summary["closed"] and ahead.lengthen(text):
                found = _judged(at, text, judge(text).result())
            yield found
            at = found.behind
    finally:
        ahead.drop()
