"""A position as a picture."""

from html import escape
from typing import Iterator, Tuple

_MEN = dict(zip("kqrbnp", "♚♛♜♝♞♟"))
_SQUARE = 40
_FONT = "'DejaVu Sans','Noto Sans Symbols2','Segoe UI Symbol','Apple Symbols',sans-serif"


def _men(fen: str) -> Iterator[Tuple[int, int, str]]:
    """The men of a position: column and row from the upper left corner, and the letter."""
    for row, text in enumerate(fen.split(" ")[0].split("/")):
        column = 0
        for letter in text:
            if letter.isdigit():
                column += int(letter)
            else:
                yield column, row, letter
                column += 1


def _man(column: int, row: int, letter: str) -> str:
    fill, edge = ("#fff", "#000") if letter.isupper() else ("#000", "none")
    x, y = _SQUARE * column + _SQUARE // 2, _SQUARE * row + _SQUARE * 6 // 7
    return f'<text x="{x}" y="{y}" fill="{fill}" stroke="{edge}">{_MEN[letter.lower()]}\ufe0e</text>'


def svg(fen: str, size: int = 280) -> str:
    """Returns a position in FEN as a board in SVG, with White below.

    >>> picture = svg("8/8/8/4k3/8/8/8/4KB2 w - -")
    >>> picture.startswith("<svg"), picture.count("<text")
    (True, 3)
    """
    side = 8 * _SQUARE
    dark = "".join(
        f"M{_SQUARE * column} {_SQUARE * row}h{_SQUARE}v{_SQUARE}h-{_SQUARE}z"
        for row in range(8)
        for column in range(8)
        if (row + column) % 2
    )
    men = "".join(_man(*man) for man in _men(fen))
    return (
        f'<svg xmlns="http://www.w3.org/2000/svg" viewBox="0 0 {side} {side}" width="{size}" height="{size}" role="img" '
        f'aria-label="{escape(fen)}"><rect width="{side}" height="{side}" fill="#eed9b6"/><path d="{dark}" fill="#b58863"/>'
        f'<g font-family="{_FONT}" font-size="40" text-anchor="middle" stroke-width="1">{men}</g></svg>'
    )
