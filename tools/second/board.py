"""Chess positions and legal moves, plainly (FIDE Laws of Chess, Article 3). Squares are numbers, a1 = 0 to h8 = 63."""

from collections import namedtuple
from functools import lru_cache

NAMES = [f + r for r in "12345678" for f in "abcdefgh"]
STRAIGHT = [(0, 1), (1, 0), (0, -1), (-1, 0)]
DIAGONAL = [(1, 1), (1, -1), (-1, 1), (-1, -1)]
JUMPS = [(1, 2), (2, 1), (2, -1), (1, -2), (-1, -2), (-2, -1), (-2, 1), (-1, 2)]
DIRECTIONS = {"N": JUMPS, "B": DIAGONAL, "R": STRAIGHT, "Q": STRAIGHT + DIAGONAL, "K": STRAIGHT + DIAGONAL}
AHEAD = {"w": 1, "b": -1}

# men: 64 pairs of colour and kind, or None; rights: a part of "KQkq"; target: a square, or None
Position = namedtuple("Position", "men side rights target")
Move = namedtuple("Move", "start end promotion")


class Refused(Exception):
    """Why a line is no position: shape, kings, pawn rank, opponent in check."""


def other(side):
    return "b" if side == "w" else "w"


def beside(square, files, ranks):
    """The square so many files and ranks away, or None where the board ends."""
    file, rank = square % 8 + files, square // 8 + ranks
    return file + 8 * rank if 0 <= file < 8 and 0 <= rank < 8 else None


@lru_cache(maxsize=None)
def lines(kind, square):
    """For each direction of a piece the squares at which it aims, nearest first; directions that leave the board are left out."""
    found = []
    for files, ranks in DIRECTIONS[kind]:
        line = []
        at = beside(square, files, ranks)
        while at is not None:
            line.append(at)
            at = beside(at, files, ranks) if kind in "BRQ" else None
        if line:
            found.append(line)
    return found


@lru_cache(maxsize=None)
def captures(side, square):
    """The squares onto which a pawn captures."""
    found = (beside(square, files, AHEAD[side]) for files in (-1, 1))
    return [at for at in found if at is not None]


def aimed(men, square):
    """The squares at which the man on a square aims, over the empty squares of a board."""
    side, kind = men[square]
    if kind == "P":
        return captures(side, square)
    found = []
    for line in lines(kind, square):
        for at in line:
            found.append(at)
            if men[at] is not None:
                break
    return found


def attacked(men, by, square):
    return any(man is not None and man[0] == by and square in aimed(men, at) for at, man in enumerate(men))


def king_of(men, side):
    return men.index((side, "K"))


def in_check(men, side):
    return attacked(men, other(side), king_of(men, side))


def home(side):
    return 4 if side == "w" else 60


def right(position, wing):
    return (wing if position.side == "w" else wing.lower()) in position.rights


def castlings(position):
    """The squares to which the king of the side to move castles (Article 3.8.2)."""
    men, enemy, h = position.men, other(position.side), home(position.side)
    for wing, passed, ends in (("K", [h + 1, h + 2], h + 2), ("Q", [h - 1, h - 2, h - 3], h - 2)):
        walk = [h, h + 1, h + 2] if wing == "K" else [h, h - 1, h - 2]
        if right(position, wing) and all(men[at] is None for at in passed) and not any(attacked(men, enemy, at) for at in walk):
            yield ends


def pawn_ways(position, square):
    men, side = position.men, position.side
    one = beside(square, 0, AHEAD[side])
    if men[one] is None:
        yield one
        if square // 8 == (1 if side == "w" else 6) and men[one + 8 * AHEAD[side]] is None:
            yield one + 8 * AHEAD[side]
    for at in captures(side, square):
        if men[at] is not None or at == position.target:
            yield at


def ways(position, square):
    """Where the man of the side to move on a square may go, but for what its king suffers."""
    men, (side, kind) = position.men, position.men[square]
    if kind == "P":
        found = set(pawn_ways(position, square))
    else:
        found = set(aimed(men, square))
        if kind == "K" and square == home(side):
            found |= set(castlings(position))
    return sorted(at for at in found if men[at] is None or (men[at][0] != side and men[at][1] != "K"))


def men_after(position, move):
    men, side = list(position.men), position.side
    kind = men[move.start][1]
    men[move.start], men[move.end] = None, (side, move.promotion or kind)
    if kind == "P" and move.end == position.target:
        men[move.end - 8 * AHEAD[side]] = None
    if kind == "K" and move.end - move.start == 2:
        men[move.start + 3], men[move.start + 1] = None, (side, "R")
    if kind == "K" and move.start - move.end == 2:
        men[move.start - 4], men[move.start - 1] = None, (side, "R")
    return tuple(men)


def after(position, move):
    touched = {move.start, move.end}
    corners = {"K": {4, 7}, "Q": {4, 0}, "k": {60, 63}, "q": {60, 56}}
    rights = "".join(wing for wing in position.rights if not corners[wing] & touched)
    double = position.men[move.start][1] == "P" and abs(move.end - move.start) == 16
    target = (move.start + move.end) // 2 if double else None
    return Position(men_after(position, move), other(position.side), rights, target)


def legal(position):
    """The legal moves, by the square left, the square entered, and queen, rook, bishop, knight (Article 3.10.1)."""
    found = []
    for start, man in enumerate(position.men):
        if man is None or man[0] != position.side:
            continue
        for end in ways(position, start):
            last = man[1] == "P" and end // 8 in (0, 7)
            for promotion in "QRBN" if last else [None]:
                move = Move(start, end, promotion)
                if not in_check(men_after(position, move), position.side):
                    found.append(move)
    return found


def is_mated(position, side):
    return position.side == side and in_check(position.men, side) and not legal(position)


def move_text(move):
    return NAMES[move.start] + NAMES[move.end] + (move.promotion or "").lower()


def read_placement(text):
    rows = text.split("/")
    if len(rows) != 8:
        raise Refused("shape")
    men = []
    for row in reversed(rows):
        here = []
        for letter in row:
            if letter in "12345678":
                here += [None] * int(letter)
            elif letter in "PNBRQKpnbrqk":
                here.append(("w" if letter.isupper() else "b", letter.upper()))
            else:
                raise Refused("shape")
        if len(here) != 8:
            raise Refused("shape")
        men += here
    return tuple(men)


def fitting_target(men, side, target):
    """A target is kept where an enemy pawn can just have passed over it."""
    if target is None:
        return None
    back = -8 * AHEAD[side]
    fits = target // 8 == (5 if side == "w" else 2) and men[target] is None
    return target if fits and men[target - back] is None and men[target + back] == (other(side), "P") else None


def read_fen(line):
    """The position of a line of bytes, decoded as latin-1 (PGN standard, 16.1)."""
    fields = line.replace("\t", " ").split(" ")
    fields = [field for field in fields if field]
    if not 4 <= len(fields) <= 6:
        raise Refused("shape")
    men = read_placement(fields[0])
    side, rights, target = fields[1:4]
    if side not in ("w", "b"):
        raise Refused("shape")
    if rights != "-" and not (set(rights) <= set("KQkq") and len(set(rights)) == len(rights)):
        raise Refused("shape")
    if target != "-" and target not in NAMES:
        raise Refused("shape")
    if any(set(clock) - set("0123456789") for clock in fields[4:]):
        raise Refused("shape")
    if any(men.count((color, "K")) != 1 for color in "wb"):
        raise Refused("kings")
    if any(man is not None and man[1] == "P" for man in men[:8] + men[56:]):
        raise Refused("pawn rank")
    if in_check(men, other(side)):
        raise Refused("opponent in check")
    places = {"K": (4, 7, "w"), "Q": (4, 0, "w"), "k": (60, 63, "b"), "q": (60, 56, "b")}
    kept = ""
    for wing, (king, rook, color) in places.items():
        if wing in rights and men[king] == (color, "K") and men[rook] == (color, "R"):
            kept += wing
    square = None if target == "-" else NAMES.index(target)
    return Position(men, side, kept, fitting_target(men, side, square))


def write_fen(position):
    rows = []
    for rank in range(7, -1, -1):
        row, empty = "", 0
        for man in position.men[8 * rank:8 * rank + 8]:
            if man is None:
                empty += 1
                continue
            row += (str(empty) if empty else "") + (man[1] if man[0] == "w" else man[1].lower())
            empty = 0
        rows.append(row + (str(empty) if empty else ""))
    target = "-" if position.target is None else NAMES[position.target]
    return " ".join(["/".join(rows), position.side, position.rights or "-", target])
