"""Files of games: plain, or compressed with zstd, gzip or bzip2, whatever their names are."""

import bz2
import gzip
import os
import sys
import zlib
from contextlib import contextmanager
from dataclasses import dataclass
from typing import Any, BinaryIO, Callable, Iterator, Optional

from cha.db.zstd import Zstd, begins_zstd

Read = Callable[[int], bytes]


class InputError(Exception):
    """A file cannot be read, or holds no games."""

    status = 2


class _Raw:
    """The bytes of a file, with a count of those that were read, and a look at the first ones."""

    def __init__(self, file: BinaryIO) -> None:
        self._file, self.count = file, 0
        self.front = self._left = file.read(4)

    def read(self, size: int = -1) -> bytes:
        """Up to so many bytes, or all; none at the end."""
        part, self._left = (self._left, b"") if size < 0 else (self._left[:size], self._left[size:])
        if not part or size < 0:
            part += self._file.read(size)
        self.count += len(part)
        return part

    def jump(self, place: int) -> bool:
        """Goes on at a place, if the file can."""
        if self._file.seekable():
            self._file.seek(place)
            self._left, self.count = b"", place
        return self._file.seekable()


def _text(raw: _Raw) -> Read:
    """What reads the text of a file."""
    if begins_zstd(raw.front):
        return Zstd(raw.read).read
    file: Any = raw
    if raw.front[:2] == b"\x1f\x8b":
        return gzip.GzipFile(fileobj=file).read
    if raw.front[:3] == b"BZh":
        return bz2.BZ2File(file).read
    return raw.read


@dataclass
class Source:
    """A file that is open: `size` has its bytes on the disk, if that is known."""

    name: str
    size: Optional[int]
    _raw: _Raw
    _read: Read

    def read(self, size: int) -> bytes:
        """Some bytes of the text, about so many at most; none at its end. `InputError` where the file is broken."""
        try:
            return self._read(size)
        except (OSError, EOFError, zlib.error, ValueError) as fault:
            raise InputError(f"{self.name}: {getattr(fault, 'strerror', None) or fault}") from fault

    def skip(self, count: int) -> None:
        """Passes over so many bytes at the front of the text."""
        if self._read == self._raw.read and self._raw.jump(count):
            return
        while count:
            part = self.read(min(count, 1 << 20))
            if not part:
                raise InputError(f"{self.name}: shorter than it was before")
            count -= len(part)

    @property
    def told(self) -> int:
        """How many of its bytes on the disk were read."""
        return self._raw.count


def size_of(name: str) -> Optional[int]:
    """Returns how many bytes a file has on the disk, if that can be known. `InputError` where it cannot be read."""
    try:
        return None if name == "-" else os.stat(name).st_size
    except OSError as fault:
        raise InputError(f"{name}: {fault.strerror}") from fault


def is_same_file(name: str, path: str) -> bool:
    """Returns whether a source, which may be standard input, is the file of a path."""
    try:
        return os.path.samestat(os.fstat(sys.stdin.fileno()) if name == "-" else os.stat(name), os.stat(path))
    except (OSError, ValueError):
        return False


@contextmanager
def opened(name: str) -> Iterator[Source]:
    """Opens a file; `-` is standard input. `InputError` where it cannot be read."""
    try:
        file = sys.stdin.buffer if name == "-" else open(name, "rb")
    except OSError as fault:
        raise InputError(f"{name}: {fault.strerror}") from fault
    try:
        try:
            raw = _Raw(file)
            text = _text(raw)
        except OSError as fault:
            raise InputError(f"{name}: {fault.strerror}") from fault
        yield Source(name, size_of(name), raw, text)
    finally:
        if name != "-":
            file.close()
