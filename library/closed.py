"""Closed texts join: ten files of games are cut at each blank line before a tag and at 1,000 random bytes.

    CHA_LIBRARY=./libcha.so python3 library/closed.py

The files are the games of pgn-extract's book of openings (Debian), in ten parts. Where the library says that the first piece is closed, the lines
on both pieces have to be those on the whole, with places and numbers moved. A piece that is not closed and says it is would show there.
"""

import json
import os
import random
import re
import sys
import unittest

TOP = os.path.dirname(os.path.dirname(os.path.abspath(__file__)))
sys.path.insert(0, os.path.join(TOP, "python"))

import cha  # noqa: E402

BOOK = "/usr/share/pgn-extract/eco.pgn"
BETWEEN = re.compile(rb"\n\n(?=\[)")
PARTS = 10
RANDOM_CUTS = 1000


def pieces(data):
    """The text cut at each blank line before a tag."""
    bounds = [0] + [found.end() for found in BETWEEN.finditer(data)] + [len(data)]
    return [data[start:end] for start, end in zip(bounds, bounds[1:])]


def parts():
    """The book in so many files, each of whole games with their comments."""
    with open(BOOK, "rb") as file:
        book = file.read()
    games = pieces(book)
    bounds = [len(games) * part // PARTS for part in range(PARTS + 1)]
    return [b"".join(games[start:end]) for start, end in zip(bounds, bounds[1:])]


def told(words, data):
    """The lines on the games of a text, as values, and whether it is closed."""
    *games, last = [json.loads(line) for line in cha.report(words, data).splitlines()]
    return games, last["closed"]


def moved(games, before, number):
    """The same lines, where so many games and these bytes stand before."""
    lines = before.count(b"\n")
    for game in games:
        place = re.sub(r"(?<=^bad token at byte )\d+$", lambda offset: str(int(offset[0]) + len(before)), game.get("unreadable") or "")
        span = [offset + len(before) for offset in game["bytes"]]
        yield {**game, "game": game["game"] + number, "bytes": span, "line": game["line"] + lines, **({"unreadable": place} if place else {})}


class ClosedTexts(unittest.TestCase):
    def join(self, words, data, cut, whole):
        """Judges both pieces. Returns whether the first is closed."""
        first, is_closed = told(words, data[:cut])
        if is_closed:
            second, ends_closed = told(words, data[cut:])
            self.assertEqual(([*first, *moved(second, data[:cut], len(first))], ends_closed), whole, cut)
        return is_closed

    def test_blank_lines_before_a_tag(self):
        for data in parts():
            whole = told(["replay", "--json"], data)
            for found in BETWEEN.finditer(data):
                self.join(["replay", "--json"], data, found.end(), whole)

    def test_random_bytes(self):
        chosen = random.Random(62)
        closed = 0
        for data in parts():
            whole = told(["replay", "--json"], data)
            closed += sum(self.join(["replay", "--json"], data, chosen.randrange(len(data) + 1), whole) for _ in range(RANDOM_CUTS))
        self.assertGreater(closed, 0)

    def test_judged_pieces(self):
        words = ["adjudicate", "--json", "--budget=100", "--depth=2"]
        for data in parts():
            whole, games, before, is_closed = told(words, data), [], b"", True
            for piece in pieces(data):
                found, is_closed = told(words, piece)
                self.assertTrue(is_closed)
                games += moved(found, before, len(games))
                before += piece
            self.assertEqual((games, is_closed), whole)


result = unittest.main(argv=sys.argv[:1], exit=False).result
wrong = len(result.failures) + len(result.errors)
print(f"{result.testsRun - wrong} passed, {wrong} failed")
sys.exit(wrong != 0)
