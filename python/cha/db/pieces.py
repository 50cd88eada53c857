"""Cuts a stream of games into pieces, each before a `[` that begins a line behind a blank line.

Where a piece ends is no claim that a game ends there: the library says of each whether its reading may begin anew behind it.
"""

from typing import Callable, Iterator

from cha._calls import MOST_BYTES, TooLong

_BLANKS = b" \t\r"


def first_cut(text: bytearray, start: int) -> int:
    """Returns the first place for a cut behind `start`, or -1.

    >>> first_cut(bytearray(b"1-0\\n\\n[Event]"), 0)
    5
    >>> first_cut(bytearray(b"1-0\\n[Event]\\n[White]"), 0)
    -1
    """
    feed = text.find(b"\n[", start)
    while feed >= 0:
        line = text.rfind(b"\n", 0, feed)
        if line >= 0 and not text[line + 1 : feed].strip(_BLANKS):
            return feed + 1
        feed = text.find(b"\n[", feed + 1)
    return -1


def pieces(read: Callable[[int], bytes], size: int) -> Iterator[bytearray]:
    """Yields the text that `read` gives, in pieces of at least `size` bytes, the last one excepted.

    >>> import io
    >>> [bytes(piece) for piece in pieces(io.BytesIO(b"[A]\\n\\n[B]\\n\\n[C]").read, 2)]
    [b'[A]\\n\\n', b'[B]\\n\\n', b'[C]']
    """
    held, seen = bytearray(), size
    while part := read(min(size, 1 << 20)):
        held += part
        cut = first_cut(held, seen - 1)
        while cut >= 0:
            rest = held[cut:]
            del held[cut:]
            yield held
            held, seen = rest, size
            cut = first_cut(held, seen - 1)
        seen = max(size, len(held))
        if len(held) > MOST_BYTES:
            raise TooLong("no place for a cut in 268,435,456 bytes")
    if held:
        yield held
