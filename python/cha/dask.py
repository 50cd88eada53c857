"""Databases on a cluster: each piece of a file is a task of Dask."""

from typing import Any, Iterator, List, Optional

from cha.db import Files, names_of
from cha.db.joining import Promise, Said
from cha.db.rows import Row
from cha.db.running import parts, room_for, said, words

#: the bytes of a piece, so few that Dask does not warn of a large task
PIECE = 1 << 19


def _said(order: List[str], text: bytes) -> Said:
    return said(order, text)


def judge(
    files: Files,
    client: Any,
    only: Optional[str] = None,
    budget: Optional[int] = None,
    depth: Optional[int] = None,
    piece: int = PIECE,
) -> Iterator[Row]:
    """Yields the rows that `cha.db.judge` yields; the workers of `client`, a `distributed.Client`, judge the pieces.

    This process reads the files and sends the pieces. Workers keep nothing between two pieces, so where one dies, another one judges its
    piece. Each worker needs this package.
    """
    order = words(budget, depth)

    def promised(text: bytearray) -> Promise:
        promise: Promise = client.submit(_said, order, bytes(text), pure=False)
        return promise

    room = room_for(sum(client.nthreads().values()))
    for file in names_of(files):
        for part in parts(file, promised, room, piece):
            yield from part.rows(only)
