"""The shortest mates in JSON beside those of another program: lists of up to 200 lines, and whether there are more.

    CHA_LIBRARY=./libcha.so python3 library/mates.py

The other program is tools/second/board.py, which lists all legal moves in order and knows nothing of mates.
"""

import json
import os
import sys
import unittest

TOP = os.path.dirname(os.path.dirname(os.path.abspath(__file__)))
sys.path[:0] = [os.path.join(TOP, "python"), os.path.join(TOP, "tools", "second")]

import board  # noqa: E402
import cha  # noqa: E402

#: positions with over 200 lines, with a few less, and with one; White mates
POSITIONS = [
    "n6k/n2Q4/8/b2QK3/8/8/8/2q5 w - -",
    "n6k/2R1QR2/1K6/2Q4b/7b/3q4/4R3/8 w - -",
    "3n3k/1n1b4/7K/6Q1/4R2Q/1Q3R2/8/4q3 b - -",
    "7k/8/8/2b2R2/2Q1K3/8/4Q3/3b4 w - -",
    "6k1/5ppp/8/8/8/8/5PPP/3R2K1 b - -",
]


def mates(position, plies):
    """Each list of so many legal moves that ends with Black checkmated, in the order of moves."""
    if plies == 0:
        return [[]] if board.is_mated(position, "b") else []
    return [[move, *rest] for move in board.legal(position) for rest in mates(board.after(position, move), plies - 1)]


class Mates(unittest.TestCase):
    def test_lists_are_those_of_another_program(self):
        printed = cha.report(["mates", "w", "--depth", "3", "--json"], "\n".join(POSITIONS)).splitlines()
        for number, (fen, line) in enumerate(zip(POSITIONS, printed), 1):
            position = board.read_fen(fen)
            plies = next(plies for plies in range(4) if mates(position, plies))
            wanted = [[board.move_text(move) for move in line] for line in mates(position, plies)]
            found = json.loads(line)
            told = [moves["moves"] for moves in found["lines"]]
            self.assertEqual((found["position"], found["line"], found["fen"], found["plies"]), (number, number, fen, plies))
            self.assertEqual((told, found["more"]), (wanted[:200], len(wanted) > 200), fen)
            self.assertTrue(all(len(moves["san"]) == plies for moves in found["lines"]))
        counts = [len(json.loads(line)["lines"]) for line in printed[:-1]]
        self.assertEqual((counts.count(200), min(counts)), (2, 1))


result = unittest.main(argv=sys.argv[:1], exit=False).result
wrong = len(result.failures) + len(result.errors)
print(f"{result.testsRun - wrong} passed, {wrong} failed")
sys.exit(wrong != 0)
