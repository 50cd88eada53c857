#!/usr/bin/env python3
"""A judge of `cha position --certs` and a second program for `cha check`, slow and plain.

    tools/second/second.py judge [REPORT] < POSITIONS.fen
    tools/second/second.py check < CERTIFICATE.txt

`judge` reads the positions, and the report that `cha position --certs` wrote on them. It plays every printed line, checks every
certificate, and looks itself for a mate within two plies, for the least closed sets, for small material and for lone minor pieces; it
wants a block for each line, numbers, statuses and the summary as they must be. It was written from docs/MANUAL.md and
docs/DEFINITIONS.md and shares nothing with the program.
"""

import re
import sys

from board import NAMES, Refused, after, is_mated, in_check, legal, move_text, other, read_fen, write_fen
from lone import lone
from sets import Sets, has_no_mate, is_closed, least
from small import small_unwinnable

SIDES = {"w": "white", "b": "black"}
MOST = 4294967295


def shortest_mate(position, winner):
    """The shortest line of at most two moves that mates, the first in the order of moves."""
    if is_mated(position, other(winner)):
        return []
    following = [(move, after(position, move)) for move in legal(position)]
    for move, next_position in following:
        if is_mated(next_position, other(winner)):
            return [move]
    for move, next_position in following:
        for answer in legal(next_position):
            if is_mated(after(next_position, answer), other(winner)):
                return [move, answer]
    return None


def status(position, verdicts):
    if not legal(position):
        return "checkmate" if in_check(position.men, position.side) else "stalemate"
    if verdicts == ["unwinnable", "unwinnable"]:
        return "dead"
    return "live" if any(text.startswith("winnable") for text in verdicts) else "unclear"


class Wrong(Exception):
    """What is wrong with a report."""


class Report:
    """The lines of a report, taken one after the other."""

    def __init__(self, data):
        self.lines = data.split("\n")
        self.taken = 0

    def take(self, start):
        line = self.lines[self.taken] if self.taken < len(self.lines) else None
        if line is None or not line.startswith(start):
            raise Wrong(f"line {self.taken + 1}: {line!r}, where {start!r} is wanted")
        self.taken += 1
        return line[len(start):]

    def take_certificate(self):
        lines = []
        while not lines or lines[-1] != "end":
            lines.append(self.take(""))
        return "\n".join(lines) + "\n"


def mates(position, texts, winner):
    """Whether these moves, each legal in its turn, end in a mate."""
    for text in texts:
        found = [move for move in legal(position) if move_text(move) == text]
        if not found:
            return False
        position = after(position, found[0])
    return is_mated(position, other(winner))


def is_certified(position, data, winner):
    try:
        side, nodes = read_certificate(data)
    except Misfit:
        return False
    known = {place for place, _ in nodes}
    return side == winner and nodes[0][0] == position and all(holds(place, sets, known, winner) for place, sets in nodes)


def judge_side(report, position, winner, sets, first):
    """The verdict on a side, which is right by the definitions."""
    text = report.take(SIDES[winner] + ": ")
    told = f"{SIDES[winner]} of {write_fen(position)}: {text[:60]}"
    if text == "skipped":
        if first is None or not first.startswith("winnable"):
            raise Wrong(told)
        return text
    if first is not None and first.startswith("winnable"):
        raise Wrong(told)
    never, near = has_no_mate(position, sets, winner), shortest_mate(position, winner)
    found = re.fullmatch(r"winnable in (0|[0-9]+: .*)", text)
    if found:
        count, _, line = found[1].partition(": ")
        if never or int(count) != len(line.split()) or not mates(position, line.split(), winner):
            raise Wrong(told)
    elif text == "unwinnable":
        if near is not None or not is_certified(position, report.take_certificate(), winner):
            raise Wrong(told)
    elif not re.fullmatch(r"undecided after [0-9]+ positions, depth [2-8]", text) or near is not None:
        raise Wrong(told)
    elif never or small_unwinnable(position, winner) or lone(position, winner):
        raise Wrong(told)
    return text


def judge_line(report, number, line):
    """Judges the block of a line: whether it is refused, and the verdicts."""
    report.take(f"position {number}")
    try:
        if len(line) > 4096:
            raise Refused("shape")
        position = read_fen(line)
    except Refused as why:
        report.take(f"refused: {why}")
        return True, [], ""
    report.take("fen: " + write_fen(position))
    sets = least(position)
    white = judge_side(report, position, "w", sets, None)
    verdicts = [white, judge_side(report, position, "b", sets, white)]
    state = status(position, verdicts)
    report.take("status: " + state)
    return False, verdicts, state


def judge(data, shown):
    report, count, refused, dead, undecided = Report(shown), 0, 0, 0, 0
    try:
        for line in data.replace("\r\n", "\n").split("\n"):
            if line.strip(" \t"):
                count += 1
                bad, verdicts, state = judge_line(report, count, line)
                refused += bad
                dead += state == "dead"
                undecided += any(text.startswith("undecided") for text in verdicts)
        summary = f"positions: {count}, refused: {refused}, dead: {dead}, undecided: {undecided}"
        report.take(summary)
        if report.lines[report.taken:] != [""]:
            raise Wrong("more lines than blocks")
    except Wrong as why:
        print(why)
        return 1
    print(summary)
    return 0


class Misfit(Exception):
    """A line of a certificate that does not fit, and the kind of line that was wanted there."""


class Text:
    """The lines of a certificate, taken one after the other. A last line without its line feed is there, and fits nowhere."""

    def __init__(self, data):
        self.lines = data.split("\n")
        self.whole = len(self.lines) - 1
        if not self.lines[-1]:
            self.lines.pop()
        self.taken = 0

    def next(self):
        return self.lines[self.taken] if self.taken < len(self.lines) else None

    def take(self, kind, pattern):
        found = re.fullmatch(pattern, self.next(), re.ASCII) if self.taken < self.whole else None
        if not found:
            raise Misfit(f"line {self.taken + 1} {kind}")
        self.taken += 1
        return found


SMALL, LONE = object(), object()


def read_position(text, pattern):
    found = text.take("node", pattern)
    try:
        position = read_fen(found[found.lastindex])
    except Refused:
        position = None
    if position is None or write_fen(position) != found[found.lastindex]:
        raise Misfit(f"line {text.taken} node")
    return found[1], position


def read_count(text, kind, label, least):
    count = text.take(kind, label + " (0|[1-9][0-9]*)")[1]
    if len(count) > 10 or not least <= int(count) <= MOST:
        raise Misfit(f"line {text.taken} {kind}")
    return int(count)


def squares_of(digits):
    return {at for at in range(64) if int(digits, 16) >> at & 1}


def read_sets(text):
    sets, last = Sets(), None
    sets.loose = squares_of(text.take("loose", "loose ([0-9a-f]{16})")[1])
    while text.next() is not None and text.next().startswith("reach "):
        found = text.take("reach", "reach ([a-h][1-8]) ([PNBRQK]) ([0-9a-f]{16})")
        key, squares = (NAMES.index(found[1]), "PNBRQK".index(found[2])), squares_of(found[3])
        if not squares or (last is not None and key <= last):
            raise Misfit(f"line {text.taken} reach")
        sets.reach[key[0], found[2]], last = squares, key
    return sets


def read_certificate(data):
    text, nodes = Text(data), []
    version = text.take("header", "cha-cert ([12])")[1]
    winner = text.take("winner", "winner ([wb])")[1]
    shared = []
    if version == "2":
        many = read_count(text, "sets", "sets", 0)
        while len(shared) < many:
            shared.append(read_sets(text))
    count = read_count(text, "count", "nodes", 1)
    while len(nodes) < count:
        if version == "1":
            kind, position = read_position(text, "(inner|leaf) (.*)")
            nodes.append((position, read_sets(text) if kind == "leaf" else None))
            continue
        kind, position = read_position(text, "(inner|small|lone|leaf (?:0|[1-9][0-9]*)) (.*)")
        if kind.startswith("leaf "):
            number = int(kind[5:])
            if number >= len(shared):
                raise Misfit(f"line {text.taken} node")
            nodes.append((position, shared[number]))
        else:
            nodes.append((position, {"inner": None, "small": SMALL, "lone": LONE}[kind]))
    text.take("end", "end")
    if text.next() is not None:
        raise Misfit(f"line {text.taken + 1} end")
    return winner, nodes


def holds(position, sets, known, winner):
    if sets is SMALL:
        return small_unwinnable(position, winner)
    if sets is LONE:
        return lone(position, winner) and not is_mated(position, other(winner))
    if sets is not None:
        return is_closed(position, sets) and has_no_mate(position, sets, winner)
    return not is_mated(position, other(winner)) and all(after(position, move) in known for move in legal(position))


def check(data):
    try:
        winner, nodes = read_certificate(data)
    except Misfit as why:
        print(f"refused: {why}")
        return 6
    known = {position for position, _ in nodes}
    for number, (position, sets) in enumerate(nodes):
        if not holds(position, sets, known, winner):
            print(f"refused: node {number}")
            return 6
    print(f"accepted {winner}")
    return 0


def main(words):
    data = sys.stdin.buffer.read().decode("latin-1")
    if len(words) == 2 and words[0] == "judge":
        with open(words[1], encoding="latin-1") as shown:
            return judge(data, shown.read())
    if words == ["check"]:
        return check(data)
    print(__doc__, file=sys.stderr)
    return 1


if __name__ == "__main__":
    sys.exit(main(sys.argv[1:]))
