"""What the tests share: files of games, and the last line of a run of them."""

import os
import signal
import subprocess
import sys
from pathlib import Path
from typing import Any, Iterator, List, NoReturn

import pytest
from hypothesis import settings

import cha
from cha.db.running import words
from texts import database

settings.register_profile("cha", database=None, deadline=None)
settings.load_profile("cha")

ECO = Path("/usr/share/pgn-extract/eco.pgn")
#: the longest that one test may take, in seconds
LONGEST = 240


def _files(made: Path) -> List[Path]:
    """The files of the folder that CHA_DATA names, those that are installed, and one that is made."""
    named = sorted(Path(os.environ["CHA_DATA"]).glob("*.pgn")) if "CHA_DATA" in os.environ else []
    return [made, *named, *([ECO] if ECO.exists() else [])]


@pytest.fixture(scope="session")
def made(tmp_path_factory: pytest.TempPathFactory) -> Path:
    """A file of 600 games of many kinds."""
    path = tmp_path_factory.mktemp("games") / "made.pgn"
    path.write_bytes(database(600))
    return path


@pytest.fixture(scope="session")
def files(made: Path) -> List[Path]:
    """Files of games."""
    return _files(made)


def whole(data: bytes) -> List[bytes]:
    """The lines on games of one run over a text."""
    return cha.report(words(), data).splitlines()[:-1]


def run(words: List[Any], status: int = 0, data: bytes = b"", **given: Any) -> "subprocess.CompletedProcess[bytes]":
    """Runs `cha-db`, and sees that it ends with a status."""
    order = [sys.executable, "-m", "cha.db", *map(str, words)]
    done = subprocess.run(order, input=data, stdout=subprocess.PIPE, stderr=subprocess.PIPE, check=False, **given)
    assert done.returncode == status, done.stderr
    return done


def _late(number: int, frame: object) -> NoReturn:
    raise TimeoutError(f"the test takes longer than {LONGEST} seconds")


@pytest.hookimpl(hookwrapper=True)
def pytest_runtest_protocol() -> Iterator[None]:
    """Ends a test that hangs."""
    signal.signal(signal.SIGALRM, _late)
    signal.alarm(LONGEST)
    yield
    signal.alarm(0)


class _Tally:
    """Prints the last line: how many tests passed, and how many failed."""

    def __init__(self) -> None:
        self.passed, self.failed = 0, 0

    def pytest_runtest_logreport(self, report: pytest.TestReport) -> None:
        self.passed += report.when == "call" and report.passed
        self.failed += report.failed

    def pytest_collectreport(self, report: pytest.CollectReport) -> None:
        self.failed += report.failed

    def pytest_unconfigure(self) -> None:
        print(f"{self.passed} passed, {self.failed} failed")


def pytest_configure(config: pytest.Config) -> None:
    config.pluginmanager.register(_Tally())
