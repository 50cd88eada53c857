#!/usr/bin/env python3
"""Changes, cuts, doubles and joins bytes of real texts, and holds each answer against what it must be.

    tools/fuzz.py COUNT [SEED] [FILE ..]

It runs ./cha, or the program that CHA_PROGRAM names; with CHA_LIBRARY=./libcha.so it calls the library, which is faster.

Texts are games in PGN, positions in FEN and certificates: those built in, and those of the files (`.pgn`, and lines of `.fen`). Answers
on FEN and on certificates are compared with `tools/second`; a report on games is held against the rules of a whole report: numbers,
lines, summary. Games with the right results have to be the bytes of the text, but for the places that tools/correct-compare.py finds. A
text that takes over ten seconds ends the script by a signal. The status is 0 where nothing was wrong.
"""
import contextlib
import importlib.util
import io
import json
import os
import random
import re
import signal
import subprocess
import sys

HERE = os.path.dirname(os.path.abspath(__file__))
sys.path[:0] = [os.path.join(HERE, "..", "python"), os.path.join(HERE, "second")]

import board  # noqa: E402
import second  # noqa: E402

found = importlib.util.spec_from_file_location("correct_compare", os.path.join(HERE, "correct-compare.py"))
correct_compare = importlib.util.module_from_spec(found)
found.loader.exec_module(correct_compare)

if "CHA_LIBRARY" in os.environ:
    from cha import ChaError, report  # noqa: E402
else:

    class ChaError(Exception):
        """The program ended otherwise than by a report."""

    def report(words, data):
        """What the program prints for these words and this input."""
        done = subprocess.run([PROGRAM, *words], input=data, stdout=subprocess.PIPE, stderr=subprocess.PIPE)
        if done.returncode not in (0, 6):
            raise ChaError(f"status {done.returncode}: {done.stderr[:200]!r}")
        return done.stdout


PROGRAM = os.environ.get("CHA_PROGRAM", os.path.join(HERE, "..", "cha"))

FENS = [
    "rnbqkbnr/pppppppp/8/8/8/8/PPPPPPPP/RNBQKBNR w KQkq - 0 1",
    "4k3/7B/8/p1p1p1p1/P1P1P1P1/8/8/4K3 w - -",
    "4k3/8/5p2/p1p1pPp1/P1P1P1P1/8/8/4K3 w - g6",
    "4rkr1/4p1p1/8/8/8/8/8/4K2R w K -",
    "8/8/8/4k3/3q4/8/8/4KN2 w - -",
    "k7/1Q6/8/8/8/8/8/4K3 b - -",
    "7k/5Q2/6K1/8/8/8/8/8 b - -",
]
GAMES = [
    '[Event "Rated Blitz game"]\n[Result "1-0"]\n[Termination "Time forfeit"]\n\n1. e4 { [%clk 0:03:00] } 1... e5 2. Qh5!? $5 Nc6\n'
    "(2... g6 3. Qxe5+ (3. Qd1)) 3. Bc4 1-0\n",
    "1. f3 e5 2. g4 Qh4# 0-1\n",
    '[FEN "6k1/7R/5K2/8/8/8/8/8 b - -"]\n1... Kxh7 2. Ke5 Kg7 *\n',
    "%x\r\n1. e4 ; note [\r\ne5 2. Nf3 Nc6 3. Bc4 Bc5 4. 0-0!? Nf6 *\n",
    '[Result "1-0"]\n\n1. f3 e5 2. g4 Qh4# 1/2-1/2\nf3 e5 (e4 *) g4 $3 Qh4*{1-0}\n',
    '%x\r\n[Result "*"][Result "1-0"]{x}[FEN "8/8/4k3/8/8/4K3/8/8 w - -"] ; [Result "1-0"]\r\n*',
]
LIMITS = ["--budget=50", "--depth=2"]


def changed(texts, chance):
    """A text with some bytes changed, cut, doubled or joined to another."""
    text = bytearray(chance.choice(texts))
    for _ in range(chance.choice([1, 1, 1, 2, 3, 8])):
        at = chance.randrange(len(text) + 1)
        to = min(len(text), at + chance.choice([1, 1, 2, 7, 40]))
        way = chance.randrange(6)
        if way == 0 and at < len(text):
            text[at] = chance.randrange(256)
        elif way == 1 and at < len(text):
            text[at] = chance.choice(b"{}()[];%$\"\\\r\n \t.*-/#+=xO0123456789abcdefghKQRBNkqrbnpPw")
        elif way == 2:
            del text[at:to]
        elif way == 3:
            text[at:at] = text[at:to]
        elif way == 4:
            other = chance.choice(texts)
            text[at:] = other[chance.randrange(len(other) + 1):]
        else:
            text[at:at] = bytes(chance.randrange(256) for _ in range(chance.choice([1, 1, 3])))
    return bytes(text)


def positions_told(data):
    """What a report on positions says of each line: why it is refused, or its FEN."""
    parts = data.split(b"\n")
    for place, line in enumerate(parts):
        if place + 1 < len(parts) and line.endswith(b"\r"):
            line = line[:-1]
        if not line.strip(b" \t"):
            continue
        if len(line) > 4096:
            yield "refused: shape"
            continue
        try:
            yield "fen: " + board.write_fen(board.read_fen(line.decode("latin-1")))
        except board.Refused as why:
            yield f"refused: {why}"


SIDE = r"winnable in 0|winnable in \d+: .+|unwinnable|undecided after \d+ positions, depth \d|skipped"
POSITION = re.compile(rf"position (\d+)\n(?:(refused: .+)|(fen: .+)\nwhite: (?:{SIDE})\nblack: (?:{SIDE})\nstatus: (\w+))\n")
GAME = re.compile(
    rf"game (\d+)\n(?:unreadable: .+|fen: .+\nwhite: (?:{SIDE})\nblack: (?:{SIDE})\nstatus: \w+\n(?:dead from: ply .+\n)?"
    r"result: (\S+) -> (\S+) (?:by 5\.1\.1|by 5\.2\.1|by 5\.2\.2|by 6\.9|as recorded|as recorded, winner undecided))\n"
)


def wrong_positions(data, out):
    """What is wrong with a report on positions, if anything is."""
    found = [match for match in POSITION.finditer(out)]
    told = [match[2] or match[3] for match in found]
    refused, dead = sum(text.startswith("refused") for text in told), sum(match[4] == "dead" for match in found)
    last = re.search(r"(?:^|\n)positions: (\d+), refused: (\d+), dead: (\d+), undecided: \d+\n$", out)
    if told != list(positions_told(data)):
        return "other positions"
    if not last or [int(number) for number in last.groups()] != [len(told), refused, dead]:
        return "summary"
    if [int(match[1]) for match in found] != list(range(1, len(found) + 1)) or sum(len(match[0]) for match in found) + len(last[0].lstrip("\n")) != len(out):
        return "blocks"
    return None


def wrong_games(out):
    """What is wrong with a report on games, if anything is."""
    found = [match for match in GAME.finditer(out)]
    last = re.search(r"(?:^|\n)games: (\d+), unreadable: (\d+), changed: (\d+), undecided: \d+\n$", out)
    unreadable, moved = sum(match[2] is None for match in found), sum(match[2] != match[3] for match in found)
    if not last or [int(number) for number in last.groups()] != [len(found), unreadable, moved]:
        return "summary"
    if [int(match[1]) for match in found] != list(range(1, len(found) + 1)) or sum(len(match[0]) for match in found) + len(last[0].lstrip("\n")) != len(out):
        return "blocks"
    return None


def wrong_corrected(data):
    """What is wrong with the games with the right results, if anything is."""
    *games, _ = map(json.loads, report(["adjudicate", "--json", *LIMITS], data).splitlines())
    text, alone, _ = correct_compare.mended(data, games)
    if report(["correct", *LIMITS], data) != text:
        return "other bytes than those of the results"
    if report(["correct", "--changed", *LIMITS], data) != alone:
        return "other games than those that change"
    return None


def second_answer(data):
    """What the second program answers on a certificate."""
    with contextlib.redirect_stdout(io.StringIO()) as printed:
        second.check(data.decode("latin-1"))
    return printed.getvalue().strip()


def texts_of(files):
    """The games, positions and certificates to begin with."""
    games, fens = [text.encode() for text in GAMES], [text.encode() for text in FENS]
    for path in files:
        with open(path, "rb") as file:
            data = file.read()
        if path.endswith(".pgn"):
            games += [b"[Event " + part for part in data.split(b"[Event ")[1:300]]
        else:
            fens += [line for line in data.split(b"\n") if line][:500]
    shown = report(["position", "--certs", *LIMITS], b"\n".join(fens)).decode()
    certificates = [text.encode() for text in re.findall(r"cha-cert \d\n(?:.*\n)*?end\n", shown)]
    return games, [b"\n".join(fens[at:at + 3]) for at in range(0, len(fens), 3)], certificates


def main():
    count, seed = int(sys.argv[1]), int(sys.argv[2]) if len(sys.argv) > 2 else 1
    games, fens, certificates = texts_of(sys.argv[3:])
    chance, told = random.Random(seed), {}
    for number in range(count):
        kind = chance.choice(["games", "positions", "check"])
        data = changed({"games": games, "positions": fens, "check": certificates}[kind], chance)
        signal.alarm(10)
        try:
            if kind == "games":
                wrong = wrong_games(report(["adjudicate", *LIMITS], data).decode("latin-1")) or wrong_corrected(data)
            elif kind == "positions":
                wrong = wrong_positions(data, report(["position", *LIMITS], data).decode("latin-1"))
            else:
                answer, other = report(["check"], data).decode().strip(), second_answer(data)
                told[answer.split()[0]] = told.get(answer.split()[0], 0) + 1
                wrong = None if answer == other else f"{answer}, and {other} by the second program"
        except ChaError as error:
            wrong = repr(error)
        signal.alarm(0)
        if wrong:
            print(f"text {number} of seed {seed}, {kind}: {wrong}\n{data!r}")
            sys.exit(1)
    print(f"{count} changed texts, nothing wrong; certificates: {told}")


if __name__ == "__main__":
    main()
