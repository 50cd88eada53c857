#!/usr/bin/env python3
"""Makes random positions on which searches and sets have a hard time, one FEN on each line.

    tools/second/made.py SEED COUNT [FAMILY..]

Families are `walls` and `chains` of locked pawns with a few men, `few` men, `lone` minor pieces against several, and many `promoted`
men; by default all of these in turn. `bishops` of one colour, with a knight or without, against up to three men come only by name. Some of
what is made is no valid position: `cha position` refuses it, and goes on.

    tools/second/made.py sides REPORT

Prints a line FEN, tab, w or b for each side that a report of `cha position` calls unwinnable, as `explore.c` reads it.
"""
import random
import re
import sys

INSIDE = range(8, 56)


def fen(men, side):
    """The position in FEN, without rights and target."""
    rows = []
    for rank in range(7, -1, -1):
        row = "".join(men.get(rank * 8 + file, ".") for file in range(8))
        rows.append(re.sub(r"\.+", lambda gap: str(len(gap[0])), row))
    return f"{'/'.join(rows)} {side} - -"


def put(men, man, color=None):
    """Puts a man on some empty square on which it may stand, of a colour if one is given: 0 for dark ones, 1 for light ones."""
    free = [at for at in (INSIDE if man in "Pp" else range(64)) if at not in men]
    men[random.choice([at for at in free if color in (None, (at + at // 8) % 2)])] = man


def put_kings(men):
    """Puts two kings that are not next to each other."""
    while True:
        white, black = random.sample([at for at in range(64) if at not in men], 2)
        if max(abs(white % 8 - black % 8), abs(white // 8 - black // 8)) > 1:
            men[white], men[black] = "K", "k"
            return men


def locked(ranks, gaps, kinds, most):
    """Pawns that block each other on most files, and up to so many men of these kinds."""
    men = {}
    for file in range(8):
        if random.random() >= gaps:
            rank = ranks()
            men[rank * 8 + file], men[rank * 8 + 8 + file] = "P", "p"
    put_kings(men)
    for _ in range(random.randint(0, most)):
        put(men, random.choice(kinds))
    return men


def walls():
    return locked(lambda: random.randint(1, 5), 0.15, "BBbbNnRrQqPp", 3)


def chains():
    middle = random.randint(2, 4)
    return locked(lambda: min(5, max(1, middle + random.choice([-1, 0, 0, 0, 1]))), 0.1, "BBbbNn", 2)


def some(kinds, least, most):
    men = put_kings({})
    for _ in range(random.randint(least, most)):
        put(men, random.choice(kinds))
    return men


def few():
    return some("PpNnBbRrQqNnBbqrbn", 1, 4)


def lone():
    men = some("qqqrrbbnp", 1, 5)
    put(men, random.choice("NB"))
    return men


def promoted():
    return some("QqNnBbRrQqNnBbPp", 4, 14)


def bishops():
    men = put_kings({})
    color = random.randint(0, 1)
    for _ in range(random.randint(1, 4)):
        put(men, "B", color)
    if random.random() < 0.5:
        put(men, "N")
    for _ in range(random.randint(0, 3)):
        put(men, random.choice("pppqrbn"))
    return men


FAMILIES = {"walls": walls, "chains": chains, "few": few, "lone": lone, "promoted": promoted}
BY_NAME = {**FAMILIES, "bishops": bishops}


def sides(report):
    """The sides that a report calls unwinnable."""
    for block in re.split(r"^position \d+\n", report, flags=re.M)[1:]:
        for side in re.findall(r"^(white|black): unwinnable$", block, re.M):
            yield f"{re.match(r'fen: (.*)', block)[1]}\t{side[0]}"


def main(words):
    if len(words) == 2 and words[0] == "sides":
        with open(words[1], encoding="ascii") as report:
            print(*sides(report.read()), sep="\n")
    elif len(words) >= 2 and set(words[2:]) <= set(BY_NAME):
        random.seed(int(words[0]))
        families = [BY_NAME[name] for name in words[2:] or FAMILIES]
        for number in range(int(words[1])):
            print(fen(families[number % len(families)](), random.choice("wb")))
    else:
        sys.exit(__doc__)


if __name__ == "__main__":
    main(sys.argv[1:])
