"""Looks for mates by lone minor pieces where none may be: `python3 lone.py [SEED [COUNT]]`.

It makes random positions with a lone knight beside queens, or with bishops of one colour beside rooks, queens and such bishops,
most of them with the loser's king at the edge and its men about it, and searches each for a helpmate of so many plies.
"""

import random
import sys
from collections import Counter

from board import Move, Position, after, in_check, is_mated, legal, men_after, other, ways, write_fen


def shade(square):
    return (square // 8 + square % 8) % 2


def lone(position, winner):
    """Whether the side has lone minor pieces with which it cannot mate (the mate on the board apart)."""
    men = [(at, man) for at, man in enumerate(position.men) if man is not None and man[1] != "K"]
    own = [(at, kind) for at, (side, kind) in men if side == winner]
    others = [(at, kind) for at, (side, kind) in men if side != winner]
    if [kind for _, kind in own] == ["N"]:
        return all(kind == "Q" for _, kind in others)
    shades = {shade(at) for at, kind in own + others if kind == "B"}
    return all(kind == "B" for _, kind in own) and all(kind in "RQB" for _, kind in others) and len(shades) < 2


def near(square, steps):
    """The squares so many steps of a king from a square."""
    return [at for at in range(64) if 0 < max(abs(at % 8 - square % 8), abs(at // 8 - square // 8)) <= steps]


def random_position(chance):
    """White may mate; its men and the enemy's stand about the enemy's king."""
    king = chance.choice([at for at in range(64) if at % 8 in (0, 7) or at // 8 in (0, 7)] + list(range(64)))
    men = [None] * 64
    men[king] = ("b", "K")
    men[chance.choice([at for at in near(king, 3) if at not in near(king, 1)])] = ("w", "K")
    if chance.random() < 0.5:
        own, others = ["N"], ["Q"] * chance.randrange(0, 5)
    else:
        own, others = ["B"] * chance.randrange(0, 4), chance.choices("RQB", k=chance.randrange(0, 5))
    color = chance.randrange(2)
    for side, kinds in (("b", others), ("w", own)):
        for kind in kinds:
            close = near(king, 1 if side == "b" and chance.random() < 0.7 else 7)
            free = [at for at in close if men[at] is None and (kind != "B" or shade(at) == color)]
            if free:
                men[chance.choice(free)] = (side, kind)
    position = Position(tuple(men), chance.choice("wb"), "", None)
    return None if in_check(men, other(position.side)) else position


def mates_at_once(position):
    """Whether White, to move, has a move that mates; most moves give no check, which is looked at first."""
    for start, man in enumerate(position.men):
        for end in ways(position, start) if man is not None and man[0] == "w" else []:
            move = Move(start, end, None)
            men = men_after(position, move)
            if in_check(men, "b") and not in_check(men, "w") and is_mated(after(position, move), "b"):
                return True
    return False


def mates_within(position, plies):
    """Whether White mates after one to so many plies."""
    if position.side == "b":
        return plies > 1 and any(mates_within(after(position, move), plies - 1) for move in legal(position))
    if mates_at_once(position):
        return True
    return plies > 2 and any(mates_within(after(position, move), plies - 1) for move in legal(position))


def main(seed=1, count=2000):
    chance, seen = random.Random(seed), Counter()
    while seen["searched"] < count:
        position = random_position(chance)
        if position is None or not lone(position, "w"):
            continue
        on_board = is_mated(position, "b")
        knight = any(man == ("w", "N") for man in position.men)
        seen["mates on the board by bishops"] += on_board
        moves = len(legal(position))
        plies = (3 if moves < 8 else 1) if position.side == "w" else (4 if moves < 4 else 2)
        if (on_board and knight) or (not on_board and mates_within(position, plies)):
            print(f"a mate: {write_fen(position)}")
            return 1
        seen["searched"] += 1
        seen[f"to {plies} plies"] += 1
    print(", ".join(f"{name} {seen[name]}" for name in sorted(seen)))
    return 0


if __name__ == "__main__":
    sys.exit(main(*map(int, sys.argv[1:])))
