"""The wheel installs into a fresh environment, and works there with an empty PATH: no kit, no compiler, no library beside it."""

import os
import subprocess
import sys
from pathlib import Path
from typing import List

import pytest

import cha

DIST = Path(__file__).resolve().parent.parent / "dist"


@pytest.fixture(scope="module")
def fresh(tmp_path_factory: pytest.TempPathFactory) -> Path:
    """A virtual environment with the wheel that `make wheel` has built."""
    wheels = sorted(DIST.glob("cha-*.whl"))
    if not wheels:
        pytest.skip("there is no wheel: make wheel")
    place = tmp_path_factory.mktemp("fresh") / "venv"
    subprocess.run([sys.executable, "-m", "venv", place], check=True)
    order = [place / "bin" / "python", "-m", "pip", "install", "--quiet", "--no-index", "--no-deps", "--disable-pip-version-check"]
    subprocess.run([*order, wheels[-1]], check=True, env={"PATH": os.environ["PATH"]})
    return place / "bin"


def alone(words: List[object], data: bytes = b"") -> bytes:
    """Runs a command with an empty environment; what it prints."""
    return subprocess.run(list(map(str, words)), input=data, stdout=subprocess.PIPE, check=True, cwd="/", env={}).stdout


def test_the_module_works(fresh: Path) -> None:
    code = "import cha; [found] = cha.positions('8/8/8/4k3/8/8/8/4KB2 w - -'); print(found.status, cha.__file__)"
    status, path = alone([fresh / "python", "-c", code]).decode().split()
    assert status == "dead" and path.startswith(str(fresh.parent))


def test_the_command_works(fresh: Path, made: Path) -> None:
    printed = alone([fresh / "cha-db", made, "--quiet"])
    assert printed.count(b"\n") == len(cha.report(["adjudicate", "--json"], made.read_bytes()).splitlines()) - 1
    assert alone([fresh / "cha-db", "-", "--quiet"], b"1. e4 *\n").count(b"\n") == 1


def test_types_and_library_are_in_it(fresh: Path) -> None:
    folder = Path(alone([fresh / "python", "-c", "import cha, os; print(os.path.dirname(cha.__file__))"]).decode().strip())
    assert (folder / "py.typed").exists() and (folder / "libcha.so").exists() and (folder / "db" / "command.py").exists()
