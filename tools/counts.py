#!/usr/bin/env python3
"""Prints, for each crate, its lines of code, tests, definitions and proofs, and how many must-fail edits it has.

    tools/counts.py

A file of `src/` counts as tests where the crate has it for tests alone: a module behind `#[cfg(test)]`, or any file of a crate that
has no other. Empty lines and comments count.
"""
import glob
import os
import re

TOP = os.path.dirname(os.path.dirname(os.path.abspath(__file__)))


def lines(paths):
    return sum(len(open(path, encoding="utf-8").readlines()) for path in paths)


def counted(crate):
    folder = os.path.join(TOP, "crates", crate)
    root = os.path.join(folder, "src", "lib.rt")
    text = open(root, encoding="utf-8").read() if os.path.exists(root) else ""
    tests = {os.path.join(folder, "src", name + ".rt") for name in re.findall(r"#\[cfg\(test\)\]\nmod (\w+);", text)}
    sources = set(glob.glob(os.path.join(folder, "src", "**", "*.rt"), recursive=True))
    if tests and not re.search(r"(?m)^(?!#\[cfg\(test\)\]$).*\n(pub )?mod ", text):
        tests = sources
    return (
        lines(sources - tests),
        lines(sources & tests),
        lines(glob.glob(os.path.join(folder, "specs", "**", "*.antt"), recursive=True)),
        lines(glob.glob(os.path.join(folder, "proofs", "**", "*.antt"), recursive=True)),
        len(glob.glob(os.path.join(folder, "must-fail", "*.edit"))),
    )


def main():
    print("| Crate | Code | Tests | Definitions | Proofs | Must-fail edits |\n|---|---|---|---|---|---|")
    total = (0, 0, 0, 0, 0)
    for line in open(os.path.join(TOP, "crates.txt")):
        crate = re.match(r"\w+", line)[0]
        row = counted(crate)
        total = tuple(a + b for a, b in zip(total, row))
        print(f"| `{crate}` | " + " | ".join(f"{n:,}" for n in row) + " |")
    print("| total | " + " | ".join(f"{n:,}" for n in total) + " |")


if __name__ == "__main__":
    main()
