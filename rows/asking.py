"""Asks the program and the library."""

import array
import fcntl
import os
import resource
import select
import subprocess
import tempfile
import termios
from typing import List, NamedTuple, Optional, Union


class Answer(NamedTuple):
    """How a run ended, and what it wrote. The library writes nothing to standard error."""

    status: int
    output: bytes
    error: Optional[bytes]


def waiting(pipe: int) -> int:
    """How many bytes of a pipe nobody has read yet."""
    count = array.array("i", [0])
    fcntl.ioctl(pipe, termios.FIONREAD, count)
    return count[0]


def hand_over(pipe: int, data: bytes) -> None:
    """Writes all bytes."""
    rest = memoryview(data)
    while rest:
        rest = rest[os.write(pipe, rest[:65536]) :]


def hand_over_in_pieces(pipe: int, data: bytes, size: int) -> None:
    """Writes so many bytes at a time, and more only once they are read, so that the reader gets just these pieces."""
    ends = select.poll()
    ends.register(pipe, 0)
    for start in range(0, len(data), size):
        while waiting(pipe) and not ends.poll(0):
            os.sched_yield()
        os.write(pipe, data[start : start + size])


class Program:
    """The program `cha`, in a process of its own for each run."""

    def __init__(self, path: str) -> None:
        self.path = path

    def run(self, words: List[str], data: bytes, *, size: Optional[int] = None, room: Optional[int] = None) -> Answer:
        """One run. The input comes in pieces of a size where one is given; the output has room for so many bytes where that is given."""
        with tempfile.TemporaryFile() as output:
            # a write beyond the room is to fail, and not to end the program: the signal stays ignored, as it is here
            pipe = subprocess.PIPE
            with subprocess.Popen([self.path, *words], stdin=pipe, stdout=output, stderr=pipe, restore_signals=False) as running:
                assert running.stdin and running.stderr
                if room is not None:
                    resource.prlimit(running.pid, resource.RLIMIT_FSIZE, (room, room))
                try:
                    if size is None:
                        hand_over(running.stdin.fileno(), data)
                    else:
                        hand_over_in_pieces(running.stdin.fileno(), data, size)
                except BrokenPipeError:
                    pass  # words that are not in the language end a run before it reads
                running.stdin.close()
                error = running.stderr.read()
            output.seek(0)
            return Answer(running.returncode, output.read(), error)


class Library:
    """`libcha.so`, by the calls of the Python package."""

    def __init__(self, path: str) -> None:
        from cha._engines import Library as Calls

        self.calls = Calls(os.path.abspath(path))

    def run(self, words: List[str], data: bytes) -> Answer:
        status, output = self.calls.run(words, data)
        return Answer(status, output, None)


class Engines:
    """What is asked: the program, and the library where one is given."""

    def __init__(self, program: Program, library: Optional[Library]) -> None:
        self.program, self.library = program, library
        self.all: List[Union[Program, Library]] = [program, *([library] if library else [])]
