"""Whether a side cannot mate with small material, by a search over all placements."""

from functools import lru_cache

from board import NAMES, Position, in_check, is_mated, legal, other

# Every square is one of these, turned and mirrored; without pawns and castling a board may be.
CORNER = [NAMES.index(name) for name in ("a1", "b1", "c1", "d1", "b2", "c2", "d2", "c3", "d3", "d4")]


def placed(*men):
    board = [None] * 64
    for square, man in men:
        board[square] = man
    return tuple(board)


@lru_cache(maxsize=None)
def mate_free(own, kind):
    """Whether White never mates with a king and a man `own` against a king and, or not, a man of a kind, or none."""
    for king in CORNER:
        for man in range(64):
            for helper in range(64):
                if len({king, man, helper}) == 3 and mates_somewhere(king, man, helper, own, kind):
                    return False
    return True


def mates_somewhere(king, man, helper, own, kind):
    """The loser's man stands in one place at most: with two flight squares but for it, or no check, there is no mate."""
    three = [(king, ("b", "K")), (man, ("w", own)), (helper, ("w", "K"))]
    bare = Position(placed(*three), "b", "", None)
    if in_check(bare.men, "w") or not in_check(bare.men, "b"):
        return False
    flights = [move for move in legal(bare) if move.start == king]
    if not flights:
        return True
    if len(flights) > 1 or kind is None:
        return False
    for square in range(64):
        if square not in (king, man, helper):
            position = Position(placed(*three, (square, ("b", kind))), "b", "", None)
            if not in_check(position.men, "w") and is_mated(position, "b"):
                return True
    return False


def small_unwinnable(position, winner):
    sides = {side: [man[1] for man in position.men if man is not None and man[0] == side and man[1] != "K"] for side in "wb"}
    if any("P" in kinds or len(kinds) > 1 for kinds in sides.values()):
        return False
    return not sides[winner] or mate_free(sides[winner][0], (sides[other(winner)] or [None])[0])


if __name__ == "__main__":
    for one in "NBRQ":
        free = [kind or "none" for kind in (None, "N", "B", "R", "Q") if mate_free(one, kind)]
        print(f"{one} never mates beside: {' '.join(free) or '-'}")
