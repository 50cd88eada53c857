#!/usr/bin/env python3
"""Looks whether the words of docs/DEFINITIONS.md are there: each name in the first column of a crate's table has to stand in that
crate's `specs/` or `src/`.

    tools/words.py

Prints the words that are gone. The status is 0 where there is none.
"""
import glob
import os
import re
import sys

TOP = os.path.dirname(os.path.dirname(os.path.abspath(__file__)))


def names(crate):
    """All names that a crate's definitions and code use."""
    paths = glob.glob(f"{TOP}/crates/{crate}/specs/**/*.antt", recursive=True) + glob.glob(f"{TOP}/crates/{crate}/src/**/*.rt", recursive=True)
    return {name for path in paths for name in re.findall(r"[\w']+", open(path, encoding="utf-8").read())}


def main():
    gone = count = 0
    here, crate = set(), ""
    for number, line in enumerate(open(f"{TOP}/docs/DEFINITIONS.md", encoding="utf-8"), 1):
        heading = re.match(r"### .*\(`(\w+)`\)$", line)
        if heading:
            crate = heading.group(1)
            here = names(crate)
        row = re.match(r"\| (.*?) \|", line)
        for word in re.findall(r"`(\w+)`", row.group(1) if row else ""):
            count += 1
            if word not in here:
                gone += 1
                print(f"docs/DEFINITIONS.md:{number}: no {word} in {crate}")
    print(f"{count - gone} words are there, {gone} are gone")
    return 1 if gone else 0


if __name__ == "__main__":
    sys.exit(main())
