"""The text with the right results: by one call, and by `cha-db --corrected`, which joins it of pieces."""

import os
import random
import resource
from pathlib import Path
from typing import Any, Iterable, List

import pytest
import zstandard
from hypothesis import HealthCheck, given, settings, strategies

import cha
from cha.db.joining import joined
from cha.db.running import correcting, threads, words
from conftest import run
from test_joining import _PARTS
from test_resume import killed
from texts import HARD, database

_MATE = b'[Result "1-0"]\n\n1. f3 e5 2. g4 Qh4# {1-0} 1-0'
_MENDED = b'[Result "0-1"]\n\n1. f3 e5 2. g4 Qh4# {1-0} 0-1'
_CHANGING = [_MATE + b"\n", b"f3 e5 g4 Qh4 * ", b"f3 e5 g4 Qh4 *", b'[Result "1-0"]', b"\n\n" + _MATE + b"\n\n", b"[Event]"]


def cut(data: bytes, size: int) -> "Iterable[bytearray]":
    """A text in pieces of a size, wherever that cuts it, but for a cut before what is skipped at the beginning of a text."""
    start = 0
    while start < len(data):
        end = start + size
        while data[end:].startswith(b"\xef\xbb\xbf"):
            end += 1
        yield bytearray(data[start:end])
        start = end


def pieced(data: bytes, size: int) -> bytes:
    """The corrected text, joined from pieces of a size."""
    with threads(4, words(), correcting()) as judge:
        found = list(joined(iter(cut(data, size)), judge, 9))
    return b"".join(judged.text if judged.corrected is None else judged.corrected for judged in found)


def test_the_two_places_of_a_game() -> None:
    assert cha.corrected(_MATE) == _MENDED
    assert cha.corrected(b"1. e4 *\n" + _MATE + b"\n1. e5 *\n") == b"1. e4 *\n" + _MENDED + b"\n1. e5 *\n"
    assert cha.corrected(b"f3 e5 g4 Qh4*1. e4 *") == b"f3 e5 g4 Qh4 0-1 1. e4 *"


def test_bytes_that_are_no_text_in_utf_8_stay() -> None:
    data = '[White "M\u00fcller"]\r\n[Result "1-0"]\r\n\r\n1. f3 {sch\u00f6n} e5 2. g4 Qh4# 1-0\r\n'.encode("latin-1")
    assert b"M\xfcller" in data
    assert cha.corrected(data) == data.replace(b'"1-0"', b'"0-1"').replace(b"# 1-0", b"# 0-1")


def test_only_the_games_that_change() -> None:
    data = b"; notes\n1. e4 *\n" + _MATE + b" {behind} 1. e4 ) *"
    assert cha.corrected(data, changed=True) == _MENDED + b"\n\n"
    assert cha.corrected(data, changed=True, budget=1, depth=2) == _MENDED + b"\n\n"
    assert cha.corrected(b"1. e4 *", changed=True) == b""


def test_draws_whose_flag_fell() -> None:
    data = b'[FEN "8/8/4k3/8/8/4K3/4Q3/8 b - -"] [Termination "time forfeit"] [Result "1/2-1/2"] 1/2-1/2'
    assert cha.corrected(data) == data
    assert cha.corrected(data, flagged_draws=True) == data.replace(b"1/2-1/2", b"1-0")


def test_errors_are_those_of_a_report() -> None:
    with pytest.raises(cha.UsageError):
        cha.corrected("", budget=0)


@pytest.mark.parametrize("name", HARD)
def test_hard_texts_join(name: str) -> None:
    for data in (HARD[name], HARD[name].replace(b"1. e4 e5 1-0", b"1. f3 e5 2. g4 Qh4# 1-0")):
        for size in (1, 30, 200, 1000):
            assert pieced(data, size) == cha.corrected(data), (data, size)


@settings(max_examples=300, suppress_health_check=[HealthCheck.too_slow])
@given(strategies.lists(strategies.sampled_from(_PARTS + _CHANGING * 2), max_size=60).map(b"".join), strategies.integers(1, 60))
def test_any_text_joins(data: bytes, size: int) -> None:
    assert pieced(data, size) == cha.corrected(data)


def test_files_join(files: List[Path], tmp_path: Path) -> None:
    for path in files:
        wanted = cha.corrected(path.read_bytes())
        for size in (3000, 1 << 15, 1 << 20):
            run([path, "--corrected", tmp_path / "mended.pgn", "--piece", size])
            assert (tmp_path / "mended.pgn").read_bytes() == wanted, (path, size)
    assert os.listdir(tmp_path) == ["mended.pgn"]


def test_several_files_one_behind_the_other(files: List[Path], tmp_path: Path) -> None:
    (tmp_path / "packed.pgn.zst").write_bytes(zstandard.ZstdCompressor().compress(files[0].read_bytes()))
    done = run([*files, tmp_path / "packed.pgn.zst", "--corrected", tmp_path / "mended.pgn", "--to", tmp_path / "games.jsonl"])
    wanted = b"".join(cha.corrected(path.read_bytes()) for path in [*files, files[0]])
    assert (tmp_path / "mended.pgn").read_bytes() == wanted and not done.stdout
    again = run([tmp_path / "mended.pgn", "--only", "changed"])
    assert not again.stdout and b"changed: 0," in again.stderr


def test_what_was_kept_is_what_adjudicate_says(made: Path) -> None:
    found = [game.result for game in cha.games(made.read_bytes()) if isinstance(game, cha.Game)]
    again = [game.recorded for game in cha.games(cha.corrected(made.read_bytes())) if isinstance(game, cha.Game)]
    assert again == found


def test_killed_at_random_moments(files: List[Path], tmp_path: Path) -> None:
    chance = random.Random("corrected")
    order: List[Any] = [*files * 5, files[0], "--piece", 4000, "--threads", 2, "--corrected"]
    run([*order, tmp_path / "whole.pgn"])
    resumed = [*order, tmp_path / "part.pgn", "--quiet", "--resume"]
    moments = [killed(resumed, tmp_path / "part.pgn.state", chance) for _ in range(10)]
    run(resumed)
    assert sum(moments) > 5
    assert (tmp_path / "part.pgn").read_bytes() == (tmp_path / "whole.pgn").read_bytes()
    assert sorted(os.listdir(tmp_path)) == ["part.pgn", "whole.pgn"]


def test_a_full_disk_keeps_whole_pieces(made: Path, tmp_path: Path) -> None:
    def little() -> None:
        resource.setrlimit(resource.RLIMIT_FSIZE, (40_000, 40_000))

    to, wanted = tmp_path / "mended.pgn", cha.corrected(made.read_bytes())
    done = run([made, "--corrected", to, "--piece", 5000], status=3, preexec_fn=little)
    assert b"mended.pgn: " in done.stderr and len(to.read_bytes()) > 20_000 and wanted.startswith(to.read_bytes())
    run([made, "--corrected", to, "--resume"])
    assert to.read_bytes() == wanted


def test_a_broken_archive_keeps_whole_pieces(tmp_path: Path) -> None:
    data = database(3000)
    packed, to = zstandard.ZstdCompressor().compress(data), tmp_path / "mended.pgn"
    (tmp_path / "games.pgn.zst").write_bytes(packed[:-100])
    run([tmp_path / "games.pgn.zst", "--corrected", to, "--piece", 3000], status=2)
    assert cha.corrected(data).startswith(to.read_bytes())
    (tmp_path / "games.pgn.zst").write_bytes(packed)
    run([tmp_path / "games.pgn.zst", "--corrected", to, "--resume"])
    assert to.read_bytes() == cha.corrected(data)


def test_what_is_read_is_not_written_over(made: Path, tmp_path: Path) -> None:
    data = made.read_bytes()
    (tmp_path / "link.pgn").symlink_to(made)
    for path in (made, tmp_path / "link.pgn", made.parent / "." / made.name):
        assert b"is read; write to another file" in run([made, "--corrected", path], status=1).stderr
    with open(made, "rb") as file:
        assert b"standard input is read" in run(["-", "--corrected", made], status=1, data=None, stdin=file).stderr
    assert b"it needs the name of a file" in run([made, "--corrected", "-"], status=1).stderr
    assert b"another output has this name" in run([made, "--to", tmp_path / "a.csv", "--corrected", tmp_path / "a.csv"], status=1).stderr
    assert made.read_bytes() == data and os.listdir(tmp_path) == ["link.pgn"]


def test_no_lines_are_printed(made: Path, tmp_path: Path) -> None:
    assert run([made, "--corrected", tmp_path / "mended.pgn"]).stdout == b""
