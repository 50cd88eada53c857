"""The tags that go along with a game, as they stand in its bytes."""

import re
from typing import Dict, Union

#: the tags of a table
NAMES = ("Event", "Site", "Date", "White", "Black", "Termination")

_BY_BYTES = {name.encode(): name for name in NAMES}

#: blanks, comments and escaped lines, if there are any
_GAP = re.compile(rb"(?:[\s.]+|\{[^}]*\}|(?:;|(?<![^\n])%)[^\n]*)*")
_TAG = re.compile(rb'\[[ \t]*(\w+)[ \t]*"((?:\\.|[^"\\\n])*)"[ \t]*\]')
_ESCAPED = re.compile(r'\\(["\\])')


def _text(value: bytes) -> str:
    try:
        plain = value.decode()
    except UnicodeDecodeError:
        plain = value.decode("latin-1")
    return _ESCAPED.sub(r"\1", plain) if "\\" in plain else plain


def tags_of(game: Union[bytes, bytearray]) -> Dict[str, str]:
    """Returns those of the tags before the moves that a table has; of two with one name the first.

    >>> tags_of(b'[Event "Club \\\\"A\\\\""] [Result "*"]\\n{a note} [White "anna"]\\n\\n1. e4 [Black "ben"] *')
    {'Event': 'Club "A"', 'White': 'anna'}
    """
    found: Dict[str, str] = {}
    tag = _TAG.match(game)
    while tag is not None:
        name = _BY_BYTES.get(tag[1])
        if name is not None and name not in found:
            found[name] = _text(tag[2])
        gap = _GAP.match(game, tag.end())
        tag = _TAG.match(game, gap.end() if gap else tag.end())
    return found
