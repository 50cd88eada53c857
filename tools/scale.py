#!/usr/bin/env python3
"""Measures cha-db on one large file, with one thread and with several.

    tools/scale.py GAMES.pgn [--bytes N] [--threads N,M..] [--rounds N]

The file is made of copies of GAMES.pgn, of 200 MB in all. For each number of threads it prints the best time by the clock of some
rounds (two by default), the processor time of that round and its peak of memory, and last how much sooner the most threads end than the
fewest. The library is the one that CHA_LIBRARY names, else the one that `make lib` has left. Nothing else should run beside.
"""
import argparse
import os
import subprocess
import sys
import tempfile
import time

TOP = os.path.dirname(os.path.dirname(os.path.abspath(__file__)))


def made(games, size, room):
    """A file of copies of the games."""
    with open(games, "rb") as file:
        text = file.read() + b"\n\n"
    with open(f"{room}/games.pgn", "wb") as file:
        file.writelines([text] * -(-size // len(text)))
    return file.name


def judged(path, threads, room):
    """One run: its seconds by the clock, its processor time, and its peak of memory in MB."""
    words = [sys.executable, "-m", "cha.db", path, "--to", f"{room}/out.csv", "--only", "changed", "--quiet", "--threads", str(threads)]
    library = os.environ.get("CHA_LIBRARY", f"{TOP}/libcha.so")
    begun = time.monotonic()
    with subprocess.Popen(words, env={**os.environ, "PYTHONPATH": f"{TOP}/python", "CHA_LIBRARY": library}) as run:
        _, status, used = os.wait4(run.pid, 0)
        run.returncode = os.waitstatus_to_exitcode(status)
    if run.returncode:
        sys.exit(f"cha-db ended with status {run.returncode}")
    return time.monotonic() - begun, used.ru_utime + used.ru_stime, used.ru_maxrss / 1000


def main():
    read = argparse.ArgumentParser("tools/scale.py")
    read.add_argument("games")
    read.add_argument("--bytes", type=int, default=200_000_000)
    read.add_argument("--threads", default="1,4")
    read.add_argument("--rounds", type=int, default=2)
    asked = read.parse_args()
    clocks = []
    with tempfile.TemporaryDirectory() as room:
        path = made(asked.games, asked.bytes, room)
        print(f"{os.path.getsize(path) / 1e6:.0f} MB, load {os.getloadavg()[0]:.1f}", flush=True)
        for threads in map(int, asked.threads.split(",")):
            clock, processor, memory = min(judged(path, threads, room) for _ in range(asked.rounds))
            clocks.append(clock)
            print(f"{threads} threads: {clock:.1f} s by the clock, {processor:.1f} s of processor time, {memory:.0f} MB", flush=True)
    print(f"{clocks[0] / clocks[-1]:.2f} times as fast; the mark is 3")


if __name__ == "__main__":
    main()
