#!/usr/bin/env python3
"""Runs `cha` on known inputs with each allocation refused in turn, and says how the runs ended.

    tools/refused-memory.py [PROGRAM]

Each run ends with its usual output, or with status 5 and whole blocks or games of it, or, where a store or a thread went without memory, with
status 0 and a whole sound report. Where games or positions are judged side by side, each allocation of each thread is refused in turn. The
status of this script is 0 where all do. It wants a C compiler.
"""
import os
import subprocess
import sys
import tempfile

HERE = os.path.dirname(os.path.abspath(__file__))
RUNS = [
    (["adjudicate", "--certs"], '[FEN "4k3/8/8/8/8/8/8/4K3 w - -"]\n*'),
    (["adjudicate"], "1. f3 e5 2. g4 Qh4# 0-1"),
    (["adjudicate"], '[FEN "6k1/5ppp/8/8/8/8/5PPP/3R2K1 b - -"]\n[Termination "time forfeit"]\n\n1-0'),
    (["correct"], '1. e4 {a note} *\n[Result "1-0"]\n\n1. f3 e5 2. g4 Qh4# 1-0\n1. e5 *\n1. f3 e5 2. g4 Qh4# * '),
    (["position", "--workers=4", "--depth=3"], "8/8/8/4k3/8/8/8/4KR2 w - -\n8/8/8/4k3/3q4/8/8/4KN2 w - -"),
    (["check"], "cha-cert 1\nwinner w\nnodes 2\ninner k7/1Q6/8/8/8/8/8/4K3 b - -\nleaf 8/1k6/8/8/8/8/8/4K3 w - -\n"
                "loose 0002000000000010\nreach e1 K ffffffffffffffff\nreach b7 K ffffffffffffffff\nend\n"),
    (["gen", "7", "3", "--budget", "500", "--depth", "2"], ""),
]

#: as many items as are worth threads: a mate on the board, moves that lead to one, a dead ending, a game that cannot be read, an open one
GAMES = ["1. f3 e5 2. g4 Qh4# 0-1", "1. e4 e5 2. Bc4 Nc6 3. Qh5 Nf6 1-0", '[FEN "4k3/8/8/8/8/8/8/4K3 w - -"]\n\n*', "1. e5 *",
         '[FEN "6k1/5ppp/8/8/8/8/5PPP/3R2K1 b - -"]\n[Termination "time forfeit"]\n\n1-0']
LINES = ["8/8/8/4k3/8/8/8/4KR2 w - -", "no position", "8/8/8/4k3/3q4/8/8/4KN2 w - -", "8/8/4k3/8/8/4K3/8/8 w - -"]
IN_THREADS = [
    (["adjudicate", "--workers=4"], "\n\n".join(GAMES * 7) + "\n"),
    (["correct", "--workers=4"], "\n\n".join(GAMES * 7) + "\n"),
    (["position", "--workers=4", "--depth=3"], "\n".join(LINES * 8) + "\n"),
    (["mates", "w", "--workers=4", "--depth=3"], "\n".join(LINES * 8) + "\n"),
]
#: the one that reads, and four that judge
THREADS = 5


def run(program, library, words, text, number, told, thread=None):
    room = {**os.environ, "LD_PRELOAD": library, "REFUSE_AT": str(number), "REFUSE_TELLS": told}
    if thread is not None:
        room["REFUSE_THREAD"] = str(thread)
    done = subprocess.run([program, *words], input=text.encode(), stdout=subprocess.PIPE, stderr=subprocess.DEVNULL, env=room, timeout=60)
    with open(told) as file:
        return done.returncode, done.stdout.decode(), int(file.read())


def is_front(words, out, whole):
    """Returns whether an output is whole blocks at the front of another."""
    if words[0] == "correct":
        return whole.startswith(out) and (out == "" or out.endswith(("*", "1-0", "0-1", "1/2-1/2")))
    begins = ("game ", "position ")
    ends_well = out == "" or any(whole[len(out):].startswith(word) for word in (*begins, word_of_summary(words)))
    return whole.startswith(out) and ends_well


def word_of_summary(words):
    return {"adjudicate": "games: ", "position": "positions: ", "mates": "positions: "}.get(words[0], "\0")


def ends_of(program, library, words, text, told, thread):
    """How often runs ended in which way, with each allocation refused in turn: all of the run, or those of one thread."""
    usual = run(program, library, words, text, 0, told)
    ends, number = {}, 0
    while True:
        number += 1
        status, out, calls = run(program, library, words, text, number, told, thread)
        if calls < number:
            return ends
        if (status, out) == usual[:2]:
            end = "as usual"
        elif status == 5 and is_front(words, out, usual[1]):
            end = "status 5"
        elif status == 0 and len(out.splitlines()) >= 1 and out.splitlines()[-1].split(":")[0] == usual[1].splitlines()[-1].split(":")[0]:
            end = "another whole report"
        else:
            end = f"WRONG: status {status}"
            print(f"{' '.join(words)}, allocation {number}: status {status}, output {out!r}")
        ends[end] = ends.get(end, 0) + 1


def main():
    program = os.path.abspath(sys.argv[1] if len(sys.argv) > 1 else os.path.join(HERE, "..", "cha"))
    bad = 0
    with tempfile.TemporaryDirectory() as folder:
        library, told = f"{folder}/refuse.so", f"{folder}/told"
        subprocess.run([os.environ.get("CC", "cc"), "-O1", "-shared", "-fPIC", "-o", library, f"{HERE}/refuse.c", "-ldl"], check=True)
        cases = [(*case, None) for case in RUNS] + [(*case, thread) for case in IN_THREADS for thread in range(THREADS)]
        for words, text, thread in cases:
            ends = ends_of(program, library, words, text, told, thread)
            bad += sum(count for end, count in ends.items() if end.startswith("WRONG"))
            place = "" if thread is None else f", thread {thread}"
            counts = ", ".join(f"{end}: {count}" for end, count in sorted(ends.items()))
            print(f"{' '.join(words)}{place}: {sum(ends.values())} allocations; {counts}", flush=True)
    return 1 if bad else 0


if __name__ == "__main__":
    sys.exit(main())
