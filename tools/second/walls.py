#!/usr/bin/env python3
"""Prints random positions with few men and pawns that stand against each other, the same for the same numbers.

    tools/second/walls.py COUNT SEED
"""

import random
import sys

from board import Position, Refused, read_fen, write_fen


def place(men, man, squares, chance):
    """Puts a man on a free square of these, chosen at random."""
    free = [at for at in squares if men[at] is None]
    if free:
        men[chance.choice(free)] = man


def wall(men, chance):
    """Pawns that stand against each other, mostly so that none can capture."""
    rank, step = chance.randrange(2, 5), chance.choice([-1, 1])
    for file in range(8):
        if chance.random() < 0.25:
            continue
        step = -step if chance.random() < 0.7 else step
        rank = rank + step if 1 <= rank + step <= 5 else rank - step
        men[8 * rank + file], men[8 * (rank + 1) + file] = ("w", "P"), ("b", "P")


def random_position(chance):
    men = [None] * 64
    if chance.random() < 0.8:
        wall(men, chance)
    for color in "wb":
        place(men, (color, "K"), range(64), chance)
    for _ in range(chance.choice([0, 0, 1, 1, 2, 3])):
        kind = chance.choice("PPNBBRQ")
        place(men, (chance.choice("wb"), kind), range(8, 56) if kind == "P" else range(64), chance)
    return write_fen(Position(tuple(men), chance.choice("wb"), "", None))


def main(count, seed):
    chance = random.Random(seed)
    while count:
        line = random_position(chance)
        try:
            read_fen(line)
        except Refused:
            continue
        print(line)
        count -= 1


if __name__ == "__main__":
    main(int(sys.argv[1]), int(sys.argv[2]))
