"""What is written of each part: the table of games, the page, and the text with the right results."""

import os
from typing import Counter as Counts, List, Optional, Protocol, Sequence

from cha.db.report import Page
from cha.db.running import Part
from cha.db.state import OrderError
from cha.db.tables import TABLES, File, Shown, Table


class Output(Protocol):
    """Takes the parts that were judged, in their order."""

    def add(self, part: Part) -> None:
        """Writes a part, whole or not at all."""

    def mark(self) -> int:
        """Where it stands, so that another run can go on there."""

    def close(self) -> None:
        """Takes no more parts."""

    def finish(self, files: Sequence[str], counts: "Counts[str]") -> None:
        """Writes what can only be written behind the last part."""

    def tidy(self) -> None:
        """Takes away what no run needs any more."""


class Listed:
    """A table that takes the games of one kind, or all."""

    def __init__(self, table: Table, only: Optional[str]) -> None:
        self._table, self._only = table, only
        self.mark, self.close = table.mark, table.close

    def add(self, part: Part) -> None:
        self._table.add(part.rows(self._only))

    def finish(self, files: Sequence[str], counts: "Counts[str]") -> None:
        pass

    def tidy(self) -> None:
        pass


class Corrected:
    """The text of all files with the right results. A part in which no game changes is written as it is."""

    def __init__(self, path: str, mark: Optional[int] = None) -> None:
        self._file = File(path, mark)
        self.mark, self.close = self._file.mark, self._file.close

    def add(self, part: Part) -> None:
        judged = part.judged
        self._file.write(judged.text if judged.corrected is None else judged.corrected)

    def finish(self, files: Sequence[str], counts: "Counts[str]") -> None:
        pass

    def tidy(self) -> None:
        pass


def _table(path: Optional[str], mark: Optional[int]) -> Table:
    if path is None:
        return Shown()
    kind = TABLES.get(os.path.splitext(path)[1])
    if kind is None:
        raise OrderError(f"--to {path}: its name must end in {', '.join(TABLES)}")
    return kind(path, mark)


def outputs(
    to: Optional[str], only: Optional[str], report: Optional[str], corrected: Optional[str], marks: Optional[List[int]] = None
) -> List[Output]:
    """Opens what is ordered, anew or where the marks of an earlier run say. Where nothing is, JSON lines are printed."""
    left = list(marks or [])

    def mark() -> Optional[int]:
        return None if marks is None else left.pop(0)

    opened: List[Output] = []
    if to is not None or (report is None and corrected is None):
        opened.append(Listed(_table(to, mark()), only))
    if report is not None:
        opened.append(Page(report, mark()))
    if corrected is not None:
        opened.append(Corrected(corrected, mark()))
    return opened
