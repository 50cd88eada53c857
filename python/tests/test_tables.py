"""Each output is read back, and says what the library says."""

import bz2
import csv
import gzip
import json
import sqlite3
import subprocess
import sys
from pathlib import Path
from typing import Any, Callable, Dict, List

import pytest
import zstandard

import cha
from cha.db import InputError, judge
from cha.db.rows import COLUMNS, KINDS, NAMES
from cha.db.tags import tags_of
from conftest import run, whole

Found = List[Dict[str, Any]]


def fields(path: Path) -> Found:
    """What one run says of a file."""
    return [json.loads(line) for line in whole(path.read_bytes())]


def is_kind(kind: str, found: Dict[str, Any]) -> bool:
    """Whether a game is of a kind, by its fields."""
    sides = [found.get(side, {}).get("verdict") for side in ("white", "black")]
    kinds = {
        "changed": found.get("changed", False),
        "dead": found.get("status") == "dead",
        "undecided": "undecided" in sides,
        "unreadable": "unreadable" in found,
    }
    return bool(kinds[kind])


def test_json_lines_are_the_librarys_with_file_and_tags(made: Path, tmp_path: Path) -> None:
    run([made, "--to", tmp_path / "games.jsonl", "--piece", 5000])
    lines = [json.loads(line) for line in (tmp_path / "games.jsonl").read_bytes().splitlines()]
    tags = [line.pop("tags") for line in lines]
    assert {line.pop("file") for line in lines} == {str(made)}
    assert lines == fields(made)
    assert {"White": 'Café "x"'} in tags and {"White": "René"} in tags
    assert {"Event": "Club", "Site": "Ulm", "Date": "2026.11.28", "White": "anna", "Black": "ben"} in tags


def test_standard_output_has_the_same_lines(made: Path, tmp_path: Path) -> None:
    run([made, "--to", tmp_path / "games.jsonl"])
    assert run([made]).stdout == (tmp_path / "games.jsonl").read_bytes()
    renamed = (tmp_path / "games.jsonl").read_bytes().replace(json.dumps(str(made)).encode(), b'"-"')
    assert run(["-"], data=made.read_bytes()).stdout == renamed


def test_csv_has_a_line_for_each_game(made: Path, tmp_path: Path) -> None:
    run([made, "--to", tmp_path / "games.csv", "--piece", 5000])
    with open(tmp_path / "games.csv", encoding="utf-8", newline="") as file:
        rows = list(csv.DictReader(file))
    wanted = fields(made)
    assert list(rows[0]) == COLUMNS
    assert [int(row["game"]) for row in rows] == [found["game"] for found in wanted]
    for row, found in zip(rows, wanted):
        assert [int(row["first_byte"]), int(row["end_byte"])] == found["bytes"]
        assert row["result"] == found.get("result", "") and row["unreadable"] == found.get("unreadable", "")
        assert row["changed"] == str(found.get("changed", ""))
        assert row["white_san"] == " ".join(found.get("white", {}).get("san", []))


def test_sqlite_has_games_and_sides(made: Path, tmp_path: Path) -> None:
    run([made, "--to", tmp_path / "games.sqlite", "--piece", 5000])
    base, wanted = sqlite3.connect(tmp_path / "games.sqlite"), fields(made)
    games = base.execute("select game, line, first_byte, end_byte, result, changed, unreadable from games order by id").fetchall()
    names = ("result", "changed", "unreadable")
    assert games == [(found["game"], found["line"], *found["bytes"], *map(found.get, names)) for found in wanted]
    sides = base.execute("select game, side, verdict, moves, plies from sides join games on id = game_id order by id, side desc").fetchall()

    def moves(verdict: Dict[str, Any]) -> Any:
        return " ".join(verdict["moves"]) if "moves" in verdict else None

    assert sides == [
        (found["game"], side, found[side]["verdict"], moves(found[side]), found[side].get("plies"))
        for found in wanted
        if "white" in found
        for side in ("white", "black")
    ]
    assert base.execute("select count(*) from games where white = 'anna' and site = 'Ulm'").fetchone()[0] > 9


@pytest.mark.parametrize("kind", KINDS)
def test_only_games_of_a_kind(made: Path, tmp_path: Path, kind: str) -> None:
    order = [made, "--only", kind, "--budget", 1, "--depth", 2]
    run([*order, "--to", tmp_path / "games.jsonl", "--piece", 5000])
    found = [json.loads(line)["game"] for line in (tmp_path / "games.jsonl").read_bytes().splitlines()]
    judged = map(json.loads, cha.report(["adjudicate", "--json", "--budget=1", "--depth=2"], made.read_bytes()).splitlines()[:-1])
    assert found == [line["game"] for line in judged if is_kind(kind, line)]


def test_a_frame_has_a_row_for_each_game(made: Path) -> None:
    table, wanted = cha.frame([made, made]), fields(made)
    assert list(table.columns) == COLUMNS and len(table) == 2 * len(wanted)
    assert list(table["game"]) == 2 * [found["game"] for found in wanted]
    assert list(table["result"].dropna()) == 2 * [found["result"] for found in wanted if "result" in found]
    assert len(cha.frame(str(made), only="changed")) == sum(found.get("changed", False) for found in wanted)


_PACKED: Dict[str, Callable[[bytes], bytes]] = {
    "zst": zstandard.ZstdCompressor().compress,
    "gz": gzip.compress,
    "bz2": bz2.compress,
}


@pytest.mark.parametrize("kind", _PACKED)
def test_archives_of_one_part_or_more(made: Path, tmp_path: Path, kind: str) -> None:
    data, pack = made.read_bytes(), _PACKED[kind]
    path = tmp_path / f"games.pgn.{kind}"
    path.write_bytes(pack(data[:7000]) + pack(data[7000:20000]) + pack(data[20000:]))
    assert [row.line for row in judge(path, piece=3000)] == whole(data)
    path.write_bytes(path.read_bytes()[:-9])
    lines = []
    with pytest.raises(InputError, match="games.pgn"):
        for row in judge(path, piece=3000):
            lines.append(row.line)
    assert lines == whole(data)[: len(lines)] and lines


def test_a_page_has_numbers_and_boards(made: Path, tmp_path: Path) -> None:
    run([made, "--report", tmp_path / "page.html", "--to", tmp_path / "games.jsonl", "--only", "unreadable"])
    text, wanted = (tmp_path / "page.html").read_text(), fields(made)
    changed = [found for found in wanted if found.get("changed")]
    assert text.count("<article>") == text.count("<svg") == len(changed)
    assert f'<td class="number">{len(wanted)}</td>' in text and f'<td class="number">{len(changed)}</td>' in text
    assert "Café &quot;x&quot;" in text and not list(tmp_path.glob("*.part"))


def test_tags_are_found_behind_comments_at_once() -> None:
    gap = b"\n" * 20_000 + b"; [White \"no\"] ;" * 20_000 + b"\n%[White \"no\"]\n{[White \"no\"]} "
    game = b'[Event "A"]' + gap + b'[White "anna"]' + gap + b'[Black "ben"]{' + gap
    assert tags_of(game) == {"Event": "A", "White": "anna", "Black": "ben"}


def test_names_of_tags_are_columns() -> None:
    assert {name.lower() for name in NAMES} < set(COLUMNS)


def test_positions_and_games_show_themselves() -> None:
    [position] = cha.positions("8/8/8/4k3/8/8/8/4KB2 w - -")
    [game] = cha.games("1. e4 *")
    assert [shown._repr_svg_().count("<text") for shown in (position, game)] == [3, 32]  # type: ignore[union-attr]


def test_the_module_runs_as_the_command(made: Path) -> None:
    done = subprocess.run([sys.executable, "-m", "cha.db", made, "--quiet"], stdout=subprocess.PIPE, check=True)
    assert done.stdout == run([made]).stdout
