#!/usr/bin/env python3
"""Asks a program through a pipe, and sends each question only once the one before it is answered.

    tools/flowing.py [PROGRAM]      (./cha)

Games and positions are judged, and games are written with the right results: each block, line or game has to come before more is sent.
A program that collects its input first never answers, and the test ends after a minute.
"""

import signal
import subprocess
import sys

#: fool's mate, with the wrong result, and what is written of it; the byte behind the result settles the game
GAME = b"1. f3 e5 2. g4 Qh4# 1-0\n"
MENDED = b"1. f3 e5 2. g4 Qh4# 0-1"

#: two kings, which are dead
POSITION = b"8/8/4k3/8/8/4K3/8/8 w - -\n"

HOW_MANY = 200


def asked(program, words, question, answer):
    """How many of so many questions were answered in turn; what is left of the output is read once the input has ended."""
    with subprocess.Popen([program, *words], stdin=subprocess.PIPE, stdout=subprocess.PIPE, stderr=subprocess.DEVNULL) as running:
        answered = 0
        for number in range(1, HOW_MANY + 1):
            running.stdin.write(question)
            running.stdin.flush()
            answered += answer(running.stdout, number)
        running.stdin.close()
        running.stdout.read()
        return answered if running.wait() == 0 else 0


def block(output, number):
    """Reads the lines of a block, the first of which has its number and the last one its result or its status."""
    first = output.readline()
    while True:
        line = output.readline()
        if line.startswith((b"result: ", b"status: dead")) or not line:
            return first.split()[-1:] == [b"%d" % number] and bool(line)


def mended(output, number):
    """Reads a game, and the line feed that stands before it."""
    before = b"\n" if number > 1 else b""
    return output.read(len(before + MENDED)) == before + MENDED


def main(program):
    signal.alarm(60)
    passed = [
        asked(program, ["adjudicate"], GAME, block),
        asked(program, ["position"], POSITION, block),
        asked(program, ["correct"], GAME, mended),
    ].count(HOW_MANY)
    print(f"{passed} passed, {3 - passed} failed")
    return passed != 3


if __name__ == "__main__":
    sys.exit(main(sys.argv[1] if len(sys.argv) > 1 else "./cha"))
