#!/usr/bin/env python3
"""Measures how much faster more workers are, and compares what they write byte by byte.

    tools/workers.py PROGRAM FILE [--bytes N] [--numbers 1,2,4,8,16] [--rounds N] [--pieces 1,777,4096] [WORD ..]

The words are `adjudicate` where none are given; `correct`, `correct --changed` and `position` are others. The input is copies of FILE, of N bytes in all or a little less; the file itself where
`--bytes` is left out. Each number of workers has its turn in each round; printed are, of its fastest run, the time by the clock, the
processor time and the peak of memory. With `--pieces` the report is compared once more where the input comes through a pipe in pieces of
so many bytes. It ends with status 1 where two reports differ.
"""
import argparse
import hashlib
import os
import subprocess
import sys
import tempfile
import threading
import time


def copied(path, size, room):
    """The file, or copies of it of so many bytes."""
    if size is None:
        return path
    with open(path, "rb") as file:
        text = file.read() + b"\n\n"
    made = f"{room}/input"
    with open(made, "wb") as file:
        file.writelines([text] * max(1, size // len(text)))
    return made


def run(words, path, out):
    """One run: its seconds by the clock, its processor time, its peak of memory in MB, and a hash of its report."""
    begun = time.monotonic()
    with open(path, "rb") as given, open(out, "wb") as written:
        ran = subprocess.Popen(words, stdin=given, stdout=written, stderr=subprocess.STDOUT)
        _, status, used = os.wait4(ran.pid, 0)
        ran.returncode = os.waitstatus_to_exitcode(status)
    clock = time.monotonic() - begun
    with open(out, "rb") as report:
        digest = hashlib.file_digest(report, "sha256").hexdigest()
    return clock, used.ru_utime + used.ru_stime, used.ru_maxrss / 1000, (ran.returncode, digest)


def piped(words, path, size):
    """A hash of the report on the input in pieces of so many bytes."""
    ran = subprocess.Popen(words, stdin=subprocess.PIPE, stdout=subprocess.PIPE, stderr=subprocess.STDOUT, bufsize=0)

    def write():
        with open(path, "rb") as file, ran.stdin:
            while piece := file.read(size):
                ran.stdin.write(piece)

    writer = threading.Thread(target=write)
    writer.start()
    digest = hashlib.sha256()
    while piece := ran.stdout.read(65536):
        digest.update(piece)
    writer.join()
    return ran.wait(), digest.hexdigest()


def main():
    asked = argparse.ArgumentParser(usage=__doc__)
    asked.add_argument("program")
    asked.add_argument("file")
    asked.add_argument("--bytes", type=int)
    asked.add_argument("--numbers", default="1,2,4,8,16")
    asked.add_argument("--rounds", type=int, default=1)
    asked.add_argument("--pieces", default="")
    asked, words = asked.parse_known_args()
    numbers = [int(number) for number in asked.numbers.split(",")]
    with tempfile.TemporaryDirectory() as room:
        path = copied(asked.file, asked.bytes, room)
        print(f"{os.path.getsize(path) / 1e6:.1f} MB, load {os.getloadavg()[0]:.1f}", flush=True)
        best, reports = {}, set()
        for _ in range(asked.rounds):
            for number in numbers:
                found = run([asked.program, *(words or ["adjudicate"]), "--workers", str(number)], path, f"{room}/out")
                reports.add(found[3])
                best[number] = min(found[:3], best.get(number, found[:3]))
        for number, (clock, processor, memory) in best.items():
            gain = best[numbers[0]][0] / clock
            print(f"{number}: {clock:.2f} s by the clock ({gain:.2f} times), {processor:.1f} s of processor time, {memory:.1f} MB", flush=True)
        for size in filter(None, asked.pieces.split(",")):
            reports.add(piped([asked.program, *(words or ["adjudicate"]), "--workers", str(numbers[-1])], path, int(size)))
    print("all reports are the same" if len(reports) == 1 else f"{len(reports)} different reports")
    sys.exit(len(reports) != 1)


if __name__ == "__main__":
    main()
