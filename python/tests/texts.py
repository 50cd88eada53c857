"""Texts of games: plain ones of each kind, and such as would break a wrong cut."""

_SAMPLES = [
    b'[Event "Club"]\n[Site "Ulm"]\n[Date "2026.11.28"]\n[White "anna"]\n[Black "ben"]\n[Result "1-0"]\n\n1. f3 e5 2. g4 Qh4# 1-0\n',
    b'[Event "Flag"]\n[FEN "7k/8/6K1/8/8/8/8/R7 w - -"]\n[Termination "ben won on time"]\n\n0-1\n',
    b'[Event "Won"]\n[FEN "6k1/8/8/8/6n1/8/6PP/6RK b - -"]\n[Termination "ben won on time"]\n\n0-1\n',
    b'[White "Caf\xc3\xa9 \\"x\\""]\n[FEN "4k3/7B/8/p1p1p1p1/P1P1P1P1/8/8/4K3 w - -"]\n\n1-0\n',
    b'[White "Ren\xe9"]\n[FEN "7k/5Q2/6K1/8/8/8/8/8 b - -"]\n\n1-0\n',
    b'[Event "Bad"]\n\n1. e4 ] e5 *\n',
    b'[Event "Wrong"]\n\n1. e5 *\n',
    b'[Event "Notes"]\n\n1. e4 {a note} e5 (1... c5 2. Nf3) 2. Nf3 $1 Nc6 ; to the end\n3. Bb5 1/2-1/2\n',
]


def database(count: int) -> bytes:
    """Returns so many games, a blank line behind each."""
    return b"\n".join(_SAMPLES[number * number % 23 % len(_SAMPLES)] for number in range(count)) + b"\n"


_GAME = b'[Event "A"]\n\n1. e4 e5 1-0\n\n'
_LURE = b'\n\n[Event "no game"]\n\n1. d4 *\n\n[Event "nor this"]\n'

#: texts that a cut at a blank line before a tag may tear, by what is in them
HARD = {
    "nothing": b"",
    "no game": b"\n\n; a line\n\n",
    "a comment": _GAME + b"1. e4 {" + _LURE * 5 + b"} e5 *\n\n" + _GAME * 3,
    "a comment behind a result": _GAME + b"{" + _LURE * 5 + b"}\n\n" + _GAME * 3,
    "a comment to the end": _GAME * 3 + b'[Event "B"]\n\n1. e4 {' + _LURE * 9,
    "a variation": _GAME + b'[Event "B"]\n\n1. e4 (1. d4 \n\n[Event "C"]\n\n1... d5 *) e5 *\n\n' + _GAME * 3,
    "a variation to the end": _GAME + b"1. e4 (" + _LURE * 9,
    "no results": b'[Event "A"]\n\n1. e4 e5\n\n' * 20,
    "some results": (b'[Event "A"]\n\n1. e4 e5\n\n' + _GAME) * 10,
    "tags alone": b'[Event "A"]\n\n' * 10 + b"*\n",
    "CR LF": (_GAME * 9).replace(b"\n", b"\r\n"),
    "CR": (_GAME * 9).replace(b"\n", b"\r"),
    "blanks in blank lines": (_GAME * 9).replace(b"\n\n", b"\n \t \n"),
    "a mark": b"\xef\xbb\xbf" + _GAME * 9,
    "a mark at a cut": (_GAME + b"\xef\xbb\xbf") * 9,
    "half a mark": b"\xef\xbb" + _GAME * 3,
    "blank lines before": b"\n" * 40 + _GAME * 9,
    "an escaped line": _GAME + b"%" + _LURE.strip() + b"\n\n" + _GAME,
    "brackets": b"\n\n[" * 40,
    "bad tokens": (_GAME + b"\n\n[Event\n\n] 1. e4 ) * \n\n") * 9,
    "one line": _GAME.replace(b"\n", b" ") * 30,
    "a game in the middle of a line": b'1. e4 * 1. d4 *\n\n[Event "A"]\n* 1. c4 *\n\n' * 9,
    "no line feed at the end": _GAME * 3 + b'[Event "A"]\n\n1. e4 1-0',
    "cut in a word": _GAME * 3 + b'[Event "A"]\n\n1. e4 1-',
}
