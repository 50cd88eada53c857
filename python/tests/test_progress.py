"""Who waits sees how far a run is: a bar on a terminal, elsewhere lines."""

import fcntl
import os
import pty
import struct
import subprocess
import sys
import termios
from pathlib import Path

import pytest

from cha.db.progress import Lines
from conftest import whole


def on_a_terminal(path: Path) -> str:
    """What a run over a file writes to a terminal of 160 columns."""
    terminal, inside = pty.openpty()
    fcntl.ioctl(inside, termios.TIOCSWINSZ, struct.pack("HHHH", 24, 160, 0, 0))
    with subprocess.Popen([sys.executable, "-m", "cha.db", path, "--piece", "5000"], stdout=subprocess.DEVNULL, stderr=inside):
        os.close(inside)
        written = b""
        try:
            while part := os.read(terminal, 65536):
                written += part
        except OSError:  # the other end is closed
            pass
    os.close(terminal)
    return written.decode()


def test_a_terminal_has_a_bar(made: Path) -> None:
    text, games = on_a_terminal(made), whole(made.read_bytes())
    changed = sum(b'"changed":true' in line for line in games)
    assert "100%" in text and "B/s" in text
    assert f"{len(games):,} games, " in text and f" a second, {changed:,} changed" in text


def test_elsewhere_there_are_lines(capsys: pytest.CaptureFixture[str]) -> None:
    lines = Lines(4_000_000, 0, 0, seconds=0)
    lines.tell(1_000_000, 1500, 7)
    lines.tell(2_000_000, 3000, 9)
    first, second = capsys.readouterr().err.splitlines()
    assert first.startswith("1 of 4 MB, 1,500 games, ") and " a second, 7 changed, " in first and first.endswith(" minutes left")
    assert second.startswith("2 of 4 MB, 3,000 games, ")
