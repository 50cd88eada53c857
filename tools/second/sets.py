"""Mobility sets: where each man may ever stand, and which men may ever leave their squares.

A man is named by the square on which it stands in the position, its origin. `reach` has for an origin and a kind the squares on
which that man may ever stand so, and `loose` has the origins whose men may ever leave or be captured there. A man that is not
loose is fixed. The rules are those of docs/LAW.md.
"""

from board import AHEAD, beside, captures, lines, other


class Sets:
    def __init__(self):
        self.reach = {}
        self.loose = set()

    def has(self, origin, kind, square):
        found = self.reach.get((origin, kind))
        return found is not None and square in found


class Rules:
    """The closing rules over a position and sets: each finds what they ask for and the sets lack."""

    def __init__(self, position, sets):
        self.position, self.men, self.sets = position, position.men, sets
        self.fixed = {at for at, man in enumerate(self.men) if man is not None and at not in sets.loose}
        self.lacking = []
        entries = [(origin, kind, square) for (origin, kind), found in sets.reach.items() for square in found]
        # what the sets say of squares without a man means nothing
        self.entries = [entry for entry in entries if self.men[entry[0]] is not None]
        self.enemies = {color: self.reached_by(other(color)) for color in "wb"}
        self.guarded = {color: self.guarded_by(color) for color in "wb"}

    def reached_by(self, color):
        """The squares on which a man of a side that is no king may stand."""
        return {square for origin, kind, square in self.entries if self.men[origin][0] == color and kind != "K"}

    def guarded_by(self, color):
        """The squares that the fixed men of a side attack whatever else stands on the board."""
        found = set()
        for at in self.fixed:
            if self.men[at][0] != color:
                continue
            kind = self.men[at][1]
            found |= set(captures(color, at) if kind == "P" else [line[0] for line in lines(kind, at)])
        return found

    def want(self, origin, kind, square):
        if not self.sets.has(origin, kind, square):
            self.lacking.append(("reach", origin, kind, square))

    def want_loose(self, origin):
        if origin not in self.sets.loose:
            self.lacking.append(("loose", origin))

    def want_capture(self, side, square):
        """A fixed enemy other than a king would be captured: then it is not fixed."""
        if square in self.fixed and self.men[square][0] != side and self.men[square][1] != "K":
            self.want_loose(square)

    def piece_moves(self, origin, kind, square):
        side = self.men[origin][0]
        for line in lines(kind, square):
            for at in line:
                if not (kind == "K" and at in self.guarded[other(side)]):
                    self.goes(origin, kind, square, at)
                if at in self.fixed:
                    break

    def goes(self, origin, kind, square, at):
        """A piece goes to a square, unless a fixed man stands there."""
        if at in self.fixed:
            self.want_capture(self.men[origin][0], at)
            return
        self.want(origin, kind, at)
        if square == origin:
            self.want_loose(origin)

    def enters(self, origin, square, at):
        """A pawn enters a square; on the last rank it becomes a queen, rook, bishop or knight."""
        last = at // 8 == (7 if self.men[origin][0] == "w" else 0)
        for kind in "QRBN" if last else "P":
            self.want(origin, kind, at)
        if square == origin:
            self.want_loose(origin)

    def pawn_moves(self, origin, square):
        side = self.men[origin][0]
        one = beside(square, 0, AHEAD[side])
        if one is not None and one not in self.fixed:
            self.enters(origin, square, one)
            two = beside(one, 0, AHEAD[side])
            if square // 8 == (1 if side == "w" else 6) and two not in self.fixed:
                self.enters(origin, square, two)
        for at in captures(side, square):
            self.want_capture(side, at)
            if at not in self.fixed and at in self.enemies[side]:
                self.enters(origin, square, at)
            if at == self.position.target and side == self.position.side:
                self.enters(origin, square, at)
                self.want_loose(at - 8 * AHEAD[side])

    def castlings(self):
        for wing, king, rook, between, king_ends, rook_ends in (
            ("K", 4, 7, [5, 6], 6, 5), ("Q", 4, 0, [1, 2, 3], 2, 3), ("k", 60, 63, [61, 62], 62, 61), ("q", 60, 56, [57, 58, 59], 58, 59)
        ):
            if wing in self.position.rights and not self.fixed & set(between):
                self.want(king, "K", king_ends)
                self.want(rook, "R", rook_ends)
                self.want_loose(king)
                self.want_loose(rook)

    def all(self):
        """All that the sets lack to be closed."""
        for origin, man in enumerate(self.men):
            if man is not None:
                self.want(origin, man[1], origin)
        for origin, kind, square in self.entries:
            if kind == "P":
                self.pawn_moves(origin, square)
            else:
                self.piece_moves(origin, kind, square)
        self.castlings()
        return self.lacking


def is_closed(position, sets):
    return not Rules(position, sets).all()


def least(position):
    """The least closed sets: nothing at first, and then what the rules ask for, until they ask for nothing."""
    sets = Sets()
    while True:
        lacking = Rules(position, sets).all()
        if not lacking:
            return sets
        for what in lacking:
            if what[0] == "loose":
                sets.loose.add(what[1])
            else:
                sets.reach.setdefault(what[1:3], set()).add(what[3])


class Threats:
    """Whether a mate by a side may fit into sets."""

    def __init__(self, position, sets, winner):
        self.men, self.winner = position.men, winner
        self.fixed = {at for at, man in enumerate(self.men) if man is not None and at not in sets.loose}
        entries = [(o, k, s) for (o, k), found in sets.reach.items() for s in found if self.men[o] is not None]
        self.hunters = [(o, k, s) for o, k, s in entries if self.men[o][0] == winner and self.men[o][1] != "K"]
        self.shelters = [(o, k, s) for o, k, s in entries if self.men[o][0] != winner and self.men[o][1] != "K"]
        self.kings = {color: [s for o, k, s in entries if self.men[o] == (color, "K") and k == "K"] for color in "wb"}
        self.hunting = sum(man is not None and man[0] == winner and man[1] != "K" for man in self.men)
        self.memory, self.staying = {}, {}

    def aims(self, kind, square, unseen):
        """The squares at which a man aims past all but fixed men; a fixed man on `unseen` is not looked at."""
        key = (kind, square, unseen if unseen in self.fixed else None)
        if key not in self.memory:
            found = set()
            for line in [[at] for at in captures(self.winner, square)] if kind == "P" else lines(kind, square):
                for at in line:
                    found.add(at)
                    if at in self.fixed and at != unseen:
                        break
            self.memory[key] = found
        return self.memory[key]

    def attacks(self, hunter, at, king):
        return hunter[2] != at and hunter[2] != king and at in self.aims(hunter[1], hunter[2], king)

    def ends(self, kind, square, checker, way):
        """Whether a man of the loser could at once take the checker, or step between by one step or a jump."""
        if kind == "P":
            return checker in captures(other(self.winner), square)
        steps = {line[0] for line in lines(kind, square)}
        return checker in steps or bool(steps & way)

    def stay(self, king, checker):
        """Where men of the loser may stand that could not at once end a check from a square."""
        if (king, checker) not in self.staying:
            way = set()
            for line in lines("Q", checker):
                if king in line:
                    way = set(line[:line.index(king)])
            self.staying[king, checker] = {s for o, k, s in self.shelters if not self.ends(k, s, checker, way)}
        return self.staying[king, checker]

    def is_threat(self, king, near, count):
        """Whether the loser may be mated on `king`, with these squares next to it left to the men, and `count` men of the loser
        that may stand next to it."""
        def may_fill(open_squares, where):
            return len(open_squares) <= count and open_squares <= where

        checkers = [h for h in self.hunters if h[2] != king and king in self.aims(h[1], h[2], None)]
        if self.hunting == 1:
            return any(
                may_fill({at for at in near if not self.attacks(h, at, king)}, self.stay(king, h[2])) for h in checkers
            )
        where = {s for o, k, s in self.shelters}
        return bool(checkers) and may_fill({at for at in near if not any(self.attacks(h, at, king) for h in self.hunters)}, where)

    def may_mate(self):
        for king in self.kings[other(self.winner)]:
            beside_king = {line[0] for line in lines("K", king)}
            count = len({o for o, k, s in self.shelters if s in beside_king})
            for winner_king in self.kings[self.winner]:
                if winner_king == king or winner_king in beside_king:
                    continue
                beside_winner = {line[0] for line in lines("K", winner_king)}
                if self.is_threat(king, beside_king - beside_winner, count):
                    return True
        return False


def has_no_mate(position, sets, winner):
    return not Threats(position, sets, winner).may_mate()
