"""How far a run is, for the person who waits: a bar on a terminal, elsewhere a line each minute."""

import sys
import time
from typing import Any, Optional, Protocol


class Progress(Protocol):
    """Is told how many bytes of the files were read, and how many games were judged and changed in all."""

    def tell(self, told: int, games: int, changed: int) -> None:
        """Shows them."""

    def close(self) -> None:
        """Shows nothing any more."""


class Silent:
    """Shows nothing."""

    def tell(self, told: int, games: int, changed: int) -> None:
        pass

    def close(self) -> None:
        pass


class Bar:
    """A bar with bytes, games a second, changed games, and the time that is left."""

    def __init__(self, tqdm: Any, size: Optional[int], told: int, games: int) -> None:
        self._bar = tqdm(total=size, initial=told, unit="B", unit_scale=True, dynamic_ncols=True, file=sys.stderr)
        self._begun, self._games, self._told = time.monotonic(), games, told

    def tell(self, told: int, games: int, changed: int) -> None:
        speed = (games - self._games) / max(time.monotonic() - self._begun, 0.001)
        self._bar.set_postfix_str(f"{games:,} games, {speed:,.0f} a second, {changed:,} changed", refresh=False)
        self._bar.update(told - self._told)
        self._told = told

    def close(self) -> None:
        self._bar.close()


class Lines:
    """The same in a line each minute."""

    def __init__(self, size: Optional[int], told: int, games: int, seconds: float = 60) -> None:
        self._size, self._first, self._games, self._seconds = size, told, games, seconds
        self._begun = self._shown = time.monotonic()

    def tell(self, told: int, games: int, changed: int) -> None:
        now = time.monotonic()
        if now - self._shown < self._seconds:
            return
        self._shown = now
        passed = now - self._begun
        left = f", {(self._size - told) / max(told - self._first, 1) * passed / 60:,.0f} minutes left" if self._size else ""
        of = f" of {self._size / 1e6:,.0f}" if self._size else ""
        speed = (games - self._games) / passed
        print(f"{told / 1e6:,.0f}{of} MB, {games:,} games, {speed:,.0f} a second, {changed:,} changed{left}", file=sys.stderr, flush=True)

    def close(self) -> None:
        pass


def progress(quiet: bool, size: Optional[int], told: int, games: int) -> Progress:
    """Returns what suits standard error. `size` is that of all files, if it is known; `told` and `games` were there before."""
    if quiet:
        return Silent()
    if sys.stderr.isatty():
        try:
            from tqdm import tqdm
        except ImportError:
            return Lines(size, told, games, seconds=5)
        return Bar(tqdm, size, told, games)
    return Lines(size, told, games)
