"""What does the work: the library in this process, or the program in a process of its own for each call."""

import ctypes
import mmap
import subprocess
from typing import Protocol, Sequence, Tuple, Union

_NO_ROOM = 7

#: room for a report, and more for each byte of the input; what is not written of it takes no memory
_ROOM, _ROOM_FOR_A_BYTE = 4 << 20, 4


class Engine(Protocol):
    """Answers the exit status of the program, and what it prints."""

    def run(self, words: Sequence[str], data: Union[bytes, bytearray]) -> Tuple[int, bytes]:
        """Does what the words order."""

    def check(self, text: Union[bytes, bytearray]) -> int:
        """Checks a certificate."""


def _pointer(data: Union[bytes, bytearray]) -> object:
    """The address of bytes, which are not copied."""
    return ctypes.byref(ctypes.c_char.from_buffer(data)) if isinstance(data, bytearray) and data else bytes(data)


class Library:
    """`libcha.so`. A call lets go of Python's lock, so threads share the processors."""

    def __init__(self, path: str) -> None:
        found = ctypes.CDLL(path)
        size, text = ctypes.c_size_t, ctypes.c_void_p
        found.cha_run.argtypes = [text, size, text, size, text, size, ctypes.POINTER(size)]
        found.cha_run.restype = ctypes.c_uint8
        found.cha_check.argtypes = [text, size]
        found.cha_check.restype = ctypes.c_uint8
        self._found = found

    def run(self, words: Sequence[str], data: Union[bytes, bytearray]) -> Tuple[int, bytes]:
        order, used = "\0".join(words).encode(), ctypes.c_size_t()
        room = _ROOM + _ROOM_FOR_A_BYTE * len(data)
        while True:
            with mmap.mmap(-1, room, flags=mmap.MAP_PRIVATE | mmap.MAP_ANONYMOUS) as out:
                place = ctypes.c_char.from_buffer(out)
                status = self._found.cha_run(order, len(order), _pointer(data), len(data), ctypes.byref(place), room, ctypes.byref(used))
                del place
                if status != _NO_ROOM:
                    return status, out[: used.value]
            room = used.value

    def check(self, text: Union[bytes, bytearray]) -> int:
        return int(self._found.cha_check(_pointer(text), len(text)))


class Program:
    """The program `cha`, where there is no library for this machine."""

    def __init__(self, path: str) -> None:
        self._path = path

    def run(self, words: Sequence[str], data: Union[bytes, bytearray]) -> Tuple[int, bytes]:
        done = subprocess.run([self._path, *words], input=data, stdout=subprocess.PIPE, stderr=subprocess.DEVNULL, check=False)
        return done.returncode, done.stdout

    def check(self, text: Union[bytes, bytearray]) -> int:
        return self.run(["check"], text)[0]
