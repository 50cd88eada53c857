#!/usr/bin/env python3
"""Measures `cha correct` beside `cha adjudicate` on as many games as one run reads.

    tools/correct-scale.py PROGRAM GAMES.pgn [BYTES]

The input is copies of GAMES.pgn, of BYTES in all or a little less (268,435,456, the most that one run reads, where it is left out). For each
command it prints the time by the clock, the processor time, the peak of memory and how much it wrote, with one worker.
"""
import os
import subprocess
import sys
import tempfile
import time

COMMANDS = (["adjudicate"], ["correct"], ["correct", "--changed"])


def made(games, size, path):
    """A file of copies of the games."""
    with open(games, "rb") as file:
        text = file.read() + b"\n\n"
    with open(path, "wb") as file:
        file.writelines([text] * (size // len(text)))


def run(program, words, path, out):
    """One run: its seconds by the clock, its processor time, its peak of memory in MB, and how many bytes it wrote."""
    begun = time.monotonic()
    with open(path, "rb") as given, open(out, "wb") as written:
        ran = subprocess.Popen([program, *words, "--workers=1"], stdin=given, stdout=written, stderr=subprocess.DEVNULL)
        _, status, used = os.wait4(ran.pid, 0)
        ran.returncode = os.waitstatus_to_exitcode(status)
    if ran.returncode:
        sys.exit(f"{' '.join(words)} ended with status {ran.returncode}")
    return time.monotonic() - begun, used.ru_utime + used.ru_stime, used.ru_maxrss / 1000, os.path.getsize(out)


def main():
    program, games, size = sys.argv[1], sys.argv[2], int(sys.argv[3]) if len(sys.argv) > 3 else 268_435_456
    with tempfile.TemporaryDirectory() as room:
        path = f"{room}/games.pgn"
        made(games, size, path)
        print(f"{os.path.getsize(path) / 1e6:.1f} MB, load {os.getloadavg()[0]:.1f}", flush=True)
        for words in COMMANDS:
            clock, processor, memory, length = run(program, words, path, f"{room}/out")
            times = f"{clock:.1f} s by the clock, {processor:.1f} s of processor time"
            print(f"{' '.join(words)}: {times}, {memory:.1f} MB, {length / 1e6:.1f} MB written", flush=True)


if __name__ == "__main__":
    main()
