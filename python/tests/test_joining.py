"""What is joined of pieces is what one run says of the whole."""

import io
from pathlib import Path
from typing import List

import pytest
from hypothesis import HealthCheck, given, settings, strategies

from cha._calls import TooLong
from cha.db import judge
from cha.db.joining import joined
from cha.db.pieces import pieces
from cha.db.running import threads, words
from conftest import whole
from texts import HARD, database


def pieced(data: bytes, size: int) -> List[bytes]:
    """The lines on games, joined from pieces of a size."""
    with threads(4, words()) as judges:
        return [line for judged in joined(pieces(io.BytesIO(data).read, size), judges, 9) for line in judged.lines()]


@pytest.mark.parametrize("name", HARD)
def test_hard_texts_join(name: str) -> None:
    for size in (1, 30, 200, 1000):
        assert pieced(HARD[name], size) == whole(HARD[name]), size


_PARTS = [bytes([byte]) for byte in b'\n[]{}();%"\\ *$.'] + [b"\n\n", b"\r\n\r\n", b"1-0", b"e4 ", b"$1", b"\xef\xbb\xbf"]
_PARTS += [b'[Event "A"]', b'\n\n[Event "A"]\n\n1. e4 *\n\n']


@settings(max_examples=300, suppress_health_check=[HealthCheck.too_slow])
@given(strategies.lists(strategies.sampled_from(_PARTS), max_size=60).map(b"".join), strategies.integers(1, 60))
def test_any_text_joins(data: bytes, size: int) -> None:
    assert pieced(data, size) == whole(data)


@settings(max_examples=300)
@given(strategies.lists(strategies.sampled_from(_PARTS), max_size=60).map(b"".join), strategies.integers(1, 60), strategies.integers(1, 9))
def test_pieces_are_the_text_and_depend_on_it_alone(data: bytes, size: int, step: int) -> None:
    cut = list(pieces(io.BytesIO(data).read, size))
    slow = io.BytesIO(data)
    assert b"".join(cut) == data
    assert all(len(piece) >= size and piece.endswith((b"\n", b"\r")) or piece is cut[-1] for piece in cut)
    assert list(pieces(lambda count: slow.read(min(count, step)), size)) == cut


def test_files_join(files: List[Path]) -> None:
    for path in files:
        wanted = whole(path.read_bytes())
        for size in (1 << 15, 1 << 20):
            assert [row.line for row in judge(path, piece=size)] == wanted, (path, size)
    assert [row.line for row in judge(files[0], piece=1000)] == whole(files[0].read_bytes())


def test_the_last_whole_pieces_come_before_what_goes_wrong() -> None:
    data = database(50)

    class Broken(io.BytesIO):
        def read(self, size: int = -1) -> bytes:
            part = super().read(size)
            if not part:
                raise OSError("broken")
            return part

    found: List[bytes] = []
    with threads(2, words()) as judges, pytest.raises(OSError):
        for judged in joined(pieces(Broken(data).read, 300), judges, 5):
            found += judged.lines()
    assert found == whole(data)[: len(found)] and len(found) > 40


def test_a_game_of_50_megabytes(tmp_path: Path) -> None:
    note = b"a note of a few words\n" * 40 + b'\n[Event "no game"]\n'
    data = database(20) + b'[Event "Long"]\n\n1. e4 {' + note * (50_000_000 // len(note)) + b"} e5 1-0\n\n" + database(20)
    path = tmp_path / "long.pgn"
    path.write_bytes(data)
    assert [row.line for row in judge(path)] == whole(data)


def test_a_text_without_a_cut_ends_the_run(monkeypatch: pytest.MonkeyPatch) -> None:
    for module in ("pieces", "joining"):
        monkeypatch.setattr(f"cha.db.{module}.MOST_BYTES", 2000)
    for last in (b"{" + b"word " * 1000, b"{" + b'\n\n[Event "A"]\n' * 500):
        found: List[bytes] = []
        with threads(2, words()) as judges, pytest.raises(TooLong):
            for judged in joined(pieces(io.BytesIO(database(9) + last).read, 200), judges, 5):
                found += judged.lines()
        assert found == whole(database(9))[: len(found)] and len(found) >= 5
