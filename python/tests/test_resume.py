"""A run that is killed and resumed leaves what a whole run leaves."""

import os
import random
import signal
import sqlite3
import subprocess
import sys
import time
from pathlib import Path
from typing import Any, List

import pytest

from conftest import run


def content(path: Path) -> Any:
    """What an output holds."""
    if path.suffix != ".sqlite":
        return path.read_bytes()
    base = sqlite3.connect(path)
    return [base.execute(f"select * from {name} order by 1, 2").fetchall() for name in ("games", "sides")]


def saved(path: Path) -> bytes:
    """How far a run was, by the state that it keeps."""
    return path.read_bytes() if path.exists() else b""


def killed(words: List[Any], state: Path, chance: random.Random) -> bool:
    """Begins a run and sends it a signal: while it begins, or at a random moment behind its first piece. Whether it was at work."""
    before = saved(state)
    with subprocess.Popen([sys.executable, "-m", "cha.db", *map(str, words)], stderr=subprocess.DEVNULL) as begun:
        if chance.random() < 0.8:
            while begun.poll() is None and saved(state) == before:
                time.sleep(0.01)
        time.sleep(chance.random() * 0.2)
        begun.send_signal(chance.choice([signal.SIGKILL, signal.SIGTERM, signal.SIGINT]))
    return begun.returncode != 0


@pytest.mark.parametrize("kind", ["jsonl", "csv", "sqlite"])
def test_ten_times_killed_at_random_moments(files: List[Path], tmp_path: Path, kind: str) -> None:
    chance = random.Random(kind)
    words = [*files, files[0], "--piece", 4000, "--threads", 2, "--only", "changed"]
    at_once = [tmp_path / f"whole.{kind}", tmp_path / "whole.html"]
    run([*words, "--to", at_once[0], "--report", at_once[1]])
    part = [tmp_path / f"part.{kind}", tmp_path / "part.html"]
    order = [*words, "--to", part[0], "--report", part[1], "--quiet", "--resume"]
    moments = [killed(order, tmp_path / f"part.{kind}.state", chance) for _ in range(10)]
    run(order)
    assert sum(moments) > 5
    assert [content(path) for path in part] == [content(path) for path in at_once]
    assert sorted(os.listdir(tmp_path)) == sorted(path.name for path in part + at_once)
