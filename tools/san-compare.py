#!/usr/bin/env python3
"""Has `cha replay` write every legal move of positions as a word, and asks pgn-extract which move each word names.

    tools/san-compare.py PROGRAM FILE [COUNT]

FILE has a position in FEN on each line, of which the first COUNT count (1,000 where it is left out). The legal moves are those of
tools/second/board.py, and are given to the program with both squares named. pgn-extract has to read each word that the program writes as
the move that is meant, and to write it as the same word. It says how many words were compared, and ends with 1 at the first that differ.
"""

import json
import os
import re
import shutil
import subprocess
import sys

TOP = os.path.dirname(os.path.dirname(os.path.abspath(__file__)))
sys.path.insert(0, os.path.join(TOP, "tools", "second"))

import board  # noqa: E402

# Debian puts it where games are
PGN_EXTRACT = shutil.which("pgn-extract") or "/usr/games/pgn-extract"


def coordinates(move):
    """A move by its squares, as e7e8q."""
    return board.NAMES[move.start] + board.NAMES[move.end] + (move.promotion or "").lower()


def whole_word(position, move):
    """A move as a word that names its man and both squares."""
    kind = position.men[move.start][1]
    if kind == "K" and abs(move.end % 8 - move.start % 8) == 2:
        return "O-O" if move.end % 8 == 6 else "O-O-O"
    letter = "" if kind == "P" else kind
    return letter + board.NAMES[move.start] + board.NAMES[move.end] + (f"={move.promotion}" if move.promotion else "")


def game(fen, word):
    """A game of one move."""
    full = fen if len(fen.split()) > 4 else f"{fen} 0 1"
    number = "1." if full.split()[1] == "w" else "1..."
    return f'[SetUp "1"]\n[FEN "{full}"]\n\n{number} {word} *\n\n'


def told(program, text):
    """What `cha replay` tells of each game of a text."""
    run = subprocess.run([program, "replay", "--json"], input=text.encode(), stdout=subprocess.PIPE, check=True)
    return [json.loads(line) for line in run.stdout.splitlines()[:-1]]


def extracted(text, notation):
    """The move of each game of a text as pgn-extract writes it in a notation."""
    run = subprocess.run([PGN_EXTRACT, "-s", f"-W{notation}", "-C", "-N", "-w9999"], input=text.encode(), stdout=subprocess.PIPE, check=True)
    return [re.sub(r"^1\.+ ?", "", line).split()[0] for line in run.stdout.decode().splitlines() if line and not line.startswith("[")]


def main():
    program, path, count = sys.argv[1], sys.argv[2], int(sys.argv[3]) if len(sys.argv) > 3 else 1000
    asked = []
    with open(path, encoding="ascii") as file:
        for line in [line.strip() for line in file if line.strip()][:count]:
            position = board.read_fen(line)
            asked += [(board.write_fen(position), coordinates(move), whole_word(position, move)) for move in board.legal(position)]
    written = [item["plies"][0] for item in told(program, "".join(game(fen, word) for fen, _, word in asked))]
    text = "".join(game(fen, ply["san"]) for (fen, _, _), ply in zip(asked, written))
    named, words = [move.lower() for move in extracted(text, "uci")], extracted(text, "san")
    assert len(asked) == len(written) == len(named) == len(words), (len(asked), len(written), len(named), len(words))
    for (fen, squares, _), ply, other, word in zip(asked, written, named, words):
        if not squares == ply["move"] == other or ply["san"] != word:
            sys.exit(f"{fen}: {squares} is {ply['move']} {ply['san']}, and by pgn-extract {other} {word}")
    print(f"{len(asked)} words of {count} positions: the same moves, and the same words")


if __name__ == "__main__":
    main()
