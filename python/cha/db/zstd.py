"""Texts that are compressed with zstd."""

from typing import Any, Callable

#: the first bytes of a frame, and those behind the first one of a frame that is passed over
_FRAME, _PASSED_OVER = b"\x28\xb5\x2f\xfd", b"\x2a\x4d\x18"


def begins_zstd(front: bytes) -> bool:
    """Returns whether a file that begins so is one of zstd."""
    return front[:4] == _FRAME or front[1:4] == _PASSED_OVER


class Zstd:
    """Reads frames of zstd, one behind the other."""

    def __init__(self, read: Callable[[int], bytes]) -> None:
        try:
            import zstandard
        except ImportError:
            raise OSError(0, "zstd needs the package zstandard: pip install zstandard") from None
        self._zstandard: Any = zstandard
        self._source, self._frame, self._rest = read, None, b""

    def read(self, size: int) -> bytes:
        """Some bytes, none at the end. `EOFError` where a frame breaks off."""
        text = b""
        while not text:
            part, self._rest = self._rest or self._source(1 << 14), b""
            if part:
                text = self._take(part)
            elif self._frame is not None:
                raise EOFError("the archive breaks off")
            else:
                break
        return text

    def _take(self, part: bytes) -> bytes:
        frame: Any = self._frame or self._zstandard.ZstdDecompressor().decompressobj()
        try:
            text = frame.decompress(part)
        except self._zstandard.ZstdError as fault:
            raise ValueError(str(fault)) from fault
        self._frame, self._rest = (None, frame.unused_data) if frame.eof else (frame, b"")
        return bytes(text)
