"""Databases of games, of any length: cut into pieces, judged on all processors, and joined again.

>>> import os, tempfile
>>> with tempfile.TemporaryDirectory() as folder:
...     with open(os.path.join(folder, "a.pgn"), "w") as file:
...         _ = file.write('[White "anna"]\\n\\n1. f3 e5 2. g4 Qh4# 1-0\\n')
...     for row in judge(file.name):
...         print(row.fields["recorded"], row.fields["result"], row.fields["article"], row.tags)
1-0 0-1 5.1.1 {'White': 'anna'}
"""

import os
from typing import Iterator, Optional, Sequence, Union

from cha.db.rows import Row
from cha.db.running import PIECE, parts, processors, room_for, threads, words
from cha.db.sources import InputError

__all__ = ["InputError", "Row", "judge"]

Files = Union[str, "os.PathLike[str]", Sequence[Union[str, "os.PathLike[str]"]]]


def names_of(files: Files) -> "list[str]":
    """Returns the names of one file or of several."""
    return [os.fspath(files)] if isinstance(files, (str, os.PathLike)) else [os.fspath(file) for file in files]


def judge(
    files: Files, only: Optional[str] = None, budget: Optional[int] = None, depth: Optional[int] = None, piece: int = PIECE
) -> Iterator[Row]:
    """Yields a row for each game of the files, in their order: those of one kind (`changed`, `dead`, `undecided`, `unreadable`), or all.

    `piece` is how many bytes are judged at a time. Raises `InputError` where a file cannot be read, and `ChaError` where a text cannot be
    judged, both after the rows of all that could be judged.
    """
    with threads(processors(), words(budget, depth)) as judges:
        for file in names_of(files):
            for part in parts(file, judges, room_for(processors()), piece):
                yield from part.rows(only)
