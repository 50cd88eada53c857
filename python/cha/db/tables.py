"""Where rows go: JSON lines, CSV, SQLite. Each takes the rows of a piece whole, and says where it stands, so that it can go on there."""

import csv
import io
import json
import os
import sqlite3
import sys
from typing import BinaryIO, Callable, Dict, Iterable, List, Optional, Protocol, Union

from cha.db.rows import COLUMNS, GAME_COLUMNS, SIDE_COLUMNS, Row, cells, game_cells, side_cells


class OutputError(Exception):
    """An output cannot be written."""

    status = 3


class Table(Protocol):
    """Takes rows."""

    def add(self, rows: List[Row]) -> None:
        """Writes rows, all or none of them."""

    def mark(self) -> int:
        """Where it stands: what was added is safe."""

    def close(self) -> None:
        """Ends it."""


class File:
    """A file that grows by whole pieces, and is cut back to the last of them where one cannot be written."""

    def __init__(self, path: str, mark: Optional[int] = None) -> None:
        try:
            self._file: BinaryIO = open(path, "wb" if mark is None else "r+b", buffering=0)
            self._end = mark or 0
            if os.fstat(self._file.fileno()).st_size < self._end:
                raise OSError(0, "shorter than it was")
            self._file.truncate(self._end)
            self._file.seek(self._end)
        except OSError as fault:
            raise OutputError(f"{path}: {fault.strerror}") from fault
        self._path = path

    def write(self, text: Union[bytes, bytearray]) -> None:
        """Writes a piece."""
        try:
            left = memoryview(text)
            while left:
                left = left[self._file.write(left) or 0 :]
            os.fsync(self._file.fileno())
        except OSError as fault:
            self._file.truncate(self._end)
            raise OutputError(f"{self._path}: {fault.strerror}") from fault
        self._end += len(text)

    def mark(self) -> int:
        """How many bytes it has."""
        return self._end

    def close(self) -> None:
        """Closes it."""
        self._file.close()


_encoded = json.JSONEncoder(separators=(",", ":")).encode


def json_line(row: Row) -> bytes:
    """Returns a row as a line in JSON: the library's, with the file before and the tags behind.

    >>> json_line(Row("a.pgn", b'{"game":1,"bytes":[0,17]}', b'[Event "Club"] *'))
    b'{"file":"a.pgn","game":1,"bytes":[0,17],"tags":{"Event":"Club"}}\\n'
    """
    file, tags = _encoded(row.file), _encoded(row.tags)
    return b'{"file":%s,%s,"tags":%s}\n' % (file.encode(), row.line[1:-1], tags.encode())


class JsonLines:
    """A line for each row."""

    def __init__(self, path: str, mark: Optional[int] = None) -> None:
        self._file = File(path, mark)
        self.mark, self.close = self._file.mark, self._file.close

    def add(self, rows: List[Row]) -> None:
        self._file.write(b"".join(map(json_line, rows)))


def _csv(lines: Iterable[List[object]]) -> bytes:
    text = io.StringIO()
    csv.writer(text, lineterminator="\n").writerows(lines)
    return text.getvalue().encode()


class Csv:
    """A line for each row, behind one with the names of the columns."""

    def __init__(self, path: str, mark: Optional[int] = None) -> None:
        self._file = File(path, mark)
        if not mark:
            self._file.write(_csv([list(COLUMNS)]))
        self.mark, self.close = self._file.mark, self._file.close

    def add(self, rows: List[Row]) -> None:
        self._file.write(_csv(map(cells, rows)))


class Shown:
    """JSON lines on standard output."""

    def add(self, rows: List[Row]) -> None:
        try:
            left = memoryview(b"".join(map(json_line, rows)))
            while left:
                left = left[os.write(sys.stdout.fileno(), left) :]
        except OSError as fault:
            raise OutputError(f"standard output: {fault.strerror}") from fault

    def mark(self) -> int:
        return 0

    def close(self) -> None:
        pass


_TABLES = f"""
create table games (id integer primary key, {", ".join(GAME_COLUMNS)});
create table sides (game_id integer references games (id), side, {", ".join(SIDE_COLUMNS)}, primary key (game_id, side)) without rowid;
"""


class Sqlite:
    """The tables `games` and `sides`, the latter with two rows for each game that could be read."""

    def __init__(self, path: str, mark: Optional[int] = None) -> None:
        self._path, self._last = path, mark or 0
        try:
            if mark is None and os.path.exists(path):
                os.remove(path)
            self._base = sqlite3.connect(path)
            with self._base:
                if mark is None:
                    self._base.executescript(_TABLES)
                else:
                    self._base.execute("delete from sides where game_id > ?", [mark])
                    self._base.execute("delete from games where id > ?", [mark])
        except (sqlite3.Error, OSError) as fault:
            raise OutputError(f"{path}: {fault}") from fault

    def add(self, rows: List[Row]) -> None:
        numbered = list(enumerate(rows, self._last + 1))
        games = [[number, *game_cells(row)] for number, row in numbered]
        sides = [
            [number, side, *side_cells(row, side)] for number, row in numbered if "white" in row.fields for side in ("white", "black")
        ]
        try:
            with self._base:
                self._base.executemany(f"insert into games values (?{', ?' * len(GAME_COLUMNS)})", games)
                self._base.executemany(f"insert into sides values (?, ?{', ?' * len(SIDE_COLUMNS)})", sides)
        except sqlite3.Error as fault:
            raise OutputError(f"{self._path}: {fault}") from fault
        self._last += len(rows)

    def mark(self) -> int:
        return self._last

    def close(self) -> None:
        self._base.close()


#: what opens a table, anew or where a mark says, by the ends of names
TABLES: Dict[str, Callable[[str, Optional[int]], Table]] = {".jsonl": JsonLines, ".csv": Csv, ".sqlite": Sqlite}
