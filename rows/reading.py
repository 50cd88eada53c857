"""Reads the files of rows: whole runs, and tables with a row on each line. `rows.py` says how they are written."""

import re
import shlex
from dataclasses import dataclass, field
from pathlib import Path
from typing import Dict, Iterator, List, Optional, Tuple

FOLDER = Path(__file__).resolve().parent

#: what stands behind a backslash, and the byte that it means
ESCAPES = {b"r": b"\r", b"t": b"\t", b"n": b"\n", b"\\": b"\\"}
ESCAPE = re.compile(rb"\\(x[0-9a-f]{2}|.)")

#: what a line of a run is about, how often it is repeated, and its text
LINE = re.compile(r"([$<>~!=])(?:\*(\d+))?(?: (.*))?$")


@dataclass
class Run:
    """A whole run: the words, what is read, and what has to come out. `part` stands somewhere in an output whose rest is not compared."""

    place: str
    words: List[str]
    texts: Dict[str, List[bytes]] = field(default_factory=dict)
    status: int = 0

    def text(self, mark: str) -> bytes:
        return b"".join(self.texts.get(mark, []))

    @property
    def part(self) -> Optional[bytes]:
        return self.text("~") if "~" in self.texts else None


@dataclass(frozen=True)
class Row:
    """A row of a table: where it stands, the heading above it, and its columns."""

    place: str
    heading: str
    columns: Tuple[str, ...]


def meant(text: str) -> bytes:
    """The bytes that a text with escapes says."""
    return ESCAPE.sub(lambda found: bytes.fromhex(found[1][1:].decode()) if len(found[1]) == 3 else ESCAPES[found[1]], text.encode())


def said(line: str) -> bytes:
    """The bytes that the rest of a line says: with a line feed, unless a backslash that escapes nothing ends it."""
    ends = re.search(r"\\*$", line)
    if ends and len(ends[0]) % 2:
        return meant(line[:-1])
    return meant(line) + b"\n"


def lines(path: Path) -> Iterator[Tuple[str, str]]:
    """Each line that is no comment and not empty, with its place."""
    for number, line in enumerate(path.read_text(encoding="utf-8").split("\n"), 1):
        if line and not line.startswith("#"):
            yield f"{path.relative_to(FOLDER.parent)}:{number}", line


def runs(name: str) -> List[Run]:
    """The runs of a file."""
    found: List[Run] = []
    for place, line in lines(FOLDER / "runs" / f"{name}.txt"):
        if line.startswith("== "):
            continue
        fits = LINE.match(line)
        if fits is None or (fits[1] != "$" and not found):
            raise ValueError(f"{place}: a line of a run begins with $ < > ~ ! or =")
        mark, times, rest = fits[1], int(fits[2] or 1), fits[3] or ""
        if mark == "$":
            found.append(Run(place, shlex.split(rest)[1:]))
        elif mark == "=":
            found[-1].status = int(rest)
        else:
            found[-1].texts.setdefault(mark, []).append(said(rest) * times)
    return found


def table(name: str) -> List[Row]:
    """The rows of a table. A column keeps its escapes."""
    found, heading = [], ""
    for place, line in lines(FOLDER / f"{name}.txt"):
        if line.startswith("== "):
            heading = line[3:]
        else:
            found.append(Row(place, heading, tuple(column.strip(" ") for column in line.split(" | "))))
    return found
