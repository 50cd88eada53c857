"""Exit statuses and messages of `cha-db`, and what is kept where something goes wrong."""

import os
import resource
import subprocess
import sys
from pathlib import Path

import pytest
import zstandard

from conftest import run, whole
from texts import database


@pytest.mark.parametrize(
    "words, wrong",
    [
        ([], "required: FILE"),
        (["FILE", "--only", "won"], "invalid choice: 'won'"),
        (["FILE", "--to", "games.txt"], "must end in .jsonl, .csv, .sqlite"),
        (["FILE", "--resume"], "--resume needs --to"),
        (["FILE", "--threads", "0"], "invalid"),
    ],
)
def test_wrong_words(made: Path, words: list, wrong: str) -> None:
    done = run([made if word == "FILE" else word for word in words], status=1)
    assert done.stderr.startswith(b"cha-db: ") and wrong in done.stderr.decode() and not done.stdout


def test_a_missing_file_ends_the_run_before_it_begins(made: Path, tmp_path: Path) -> None:
    done = run([made, tmp_path / "none.pgn", "--to", tmp_path / "games.csv"], status=2)
    assert b"none.pgn: No such file" in done.stderr and not (tmp_path / "games.csv").exists()


@pytest.mark.parametrize("option, number", [("--depth", 9), ("--depth", 1), ("--budget", 100_001)])
def test_a_number_out_of_range_ends_the_run_before_it_begins(made: Path, tmp_path: Path, option: str, number: int) -> None:
    done = run([made, "--to", tmp_path / "games.csv", option, number], status=1)
    assert f"{option}={number}" in done.stderr.decode() and b"--help shows the ranges" in done.stderr
    assert not list(tmp_path.glob("games.csv*"))


def test_a_folder_is_no_file_of_games(tmp_path: Path) -> None:
    assert b"Is a directory" in run([tmp_path], status=2).stderr


def test_a_file_that_is_no_pgn(made: Path, tmp_path: Path) -> None:
    (tmp_path / "picture").write_bytes(bytes(range(256)) * 40)
    done = run([tmp_path / "picture", made], status=2)
    assert b"picture: none of its" in done.stderr
    assert len(done.stdout.splitlines()) > len(whole(made.read_bytes()))


def test_an_empty_file_is_no_fault(tmp_path: Path) -> None:
    (tmp_path / "empty.pgn").write_bytes(b"")
    assert run([tmp_path / "empty.pgn"]).stderr == b"games: 0, unreadable: 0, changed: 0, undecided: 0\n"


def test_a_broken_archive_keeps_what_was_judged(tmp_path: Path) -> None:
    packed = zstandard.ZstdCompressor().compress(database(3000))
    for broken in (packed[:-100], packed[: len(packed) // 2] + b"\0" * 99 + packed[len(packed) // 2 + 99 :]):
        (tmp_path / "games.pgn.zst").write_bytes(broken)
        (tmp_path / "games.jsonl.state").unlink(missing_ok=True)
        done = run([tmp_path / "games.pgn.zst", "--to", tmp_path / "games.jsonl", "--piece", 3000], status=2)
        assert done.stderr.startswith(b"cha-db: ") and b"games.pgn.zst: " in done.stderr
    (tmp_path / "games.pgn.zst").write_bytes(packed)
    run([tmp_path / "games.pgn.zst", "--to", tmp_path / "games.jsonl", "--resume"])
    assert len((tmp_path / "games.jsonl").read_bytes().splitlines()) == 3000


@pytest.mark.parametrize("kind", ["jsonl", "csv", "sqlite"])
def test_a_full_disk_keeps_what_was_judged(made: Path, tmp_path: Path, kind: str) -> None:
    def little() -> None:
        resource.setrlimit(resource.RLIMIT_FSIZE, (100_000, 100_000))

    to = tmp_path / f"games.{kind}"
    done = run([made, "--to", to, "--piece", 5000], status=3, preexec_fn=little)
    assert b"games." in done.stderr and to.stat().st_size > 50_000
    run([made, "--to", to, "--resume"])
    run([made, "--to", tmp_path / f"other.{kind}"])
    if kind != "sqlite":
        assert to.read_bytes() == (tmp_path / f"other.{kind}").read_bytes()


def test_a_reader_that_goes_away_ends_the_run(made: Path) -> None:
    reader, writer = os.pipe()
    os.close(reader)
    done = subprocess.run([sys.executable, "-m", "cha.db", made], stdout=writer, stderr=subprocess.PIPE, check=False)
    os.close(writer)
    assert (done.returncode, done.stderr) == (3, b"cha-db: standard output: Broken pipe\n")


def test_quiet_says_nothing(made: Path) -> None:
    assert run([made, "--quiet"]).stderr == b""


def test_a_run_that_was_broken_off_is_not_written_over(made: Path, tmp_path: Path) -> None:
    (tmp_path / "games.csv.state").write_text('{"order": {}, "state": {}}')
    assert b"--resume goes on" in run([made, "--to", tmp_path / "games.csv"], status=1).stderr
    assert b"other options" in run([made, "--to", tmp_path / "games.csv", "--resume"], status=1).stderr


def test_memory_stays_small(tmp_path: Path) -> None:
    def noted(note: bytes) -> bytes:
        return b'[Event "Note"]\n\n1. e4 {' + note + b"} *\n\n"

    with open(tmp_path / "games.pgn", "wb") as file:
        file.writelines([(database(200) + noted(b"a few words\n" * 100_000)) * 20] * 6 + [noted(b"a note\n\n[Event]\n" * 3_000_000)])
    order = [sys.executable, "-m", "cha.db", tmp_path / "games.pgn", "--to", tmp_path / "games.jsonl", "--only", "changed", "--quiet"]
    with subprocess.Popen(order) as begun:
        _, status, used = os.wait4(begun.pid, 0)
        begun.returncode = os.waitstatus_to_exitcode(status)
    assert (tmp_path / "games.pgn").stat().st_size > 180_000_000
    assert begun.returncode == 0 and used.ru_maxrss < 500_000
