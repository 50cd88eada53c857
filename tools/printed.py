#!/usr/bin/env python3
"""Runs each command line that README.md, docs/ and the manual page print behind `$`, and compares what comes out with what is printed
below it, standard error with standard output. A line that the manual page displays alone has to end well. And the manual page has to have
the options of docs/MANUAL.md with their numbers, and its exit statuses.

    tools/printed.py [PROGRAM]

PROGRAM is the built cha (./cha, as `make` leaves it); the manual page is the one in made/, which `make` writes by tools/beside.py. A command
that names a program of the reader's own is passed over. The status is 0 where all is as printed.
"""
import glob
import os
import re
import shutil
import subprocess
import sys
import tempfile

TOP = os.path.dirname(os.path.dirname(os.path.abspath(__file__)))
OWN = ("games-as-they-end",)
# what the examples read: positions with three certificates, and the sample of the README
POSITIONS = "4k3/7B/8/p1p1p1p1/P1P1P1P1/8/8/4K3 w - -\n8/8/8/4k3/3q4/8/8/4KN2 w - -\n"


def examples(text):
    """The command lines of a text, each with the lines printed below it."""
    found = []
    for block in re.findall(r"(?:^    .*\n)+", text, re.M):
        lines = [line[4:] for line in block.splitlines()]
        while lines:
            line = lines.pop(0)
            if not line.startswith("$ "):
                continue
            command = [line[2:]]
            while command[-1].endswith(("|", "\\")) and lines:
                command.append(lines.pop(0))
            printed = []
            while lines and not lines[0].startswith("$ "):
                printed.append(lines.pop(0))
            found.append(("\n".join(command), printed))
    return found


def examples_of_page(text):
    """The command lines of a manual page: those of its literal blocks, and those displayed alone, of which no output is printed."""
    blocks = re.findall(r"^\.Bd -literal.*\n((?:.*\n)*?)\.Ed$", text, re.M)
    alone = re.findall(r"^\.Dl \$ (.*)$", text, re.M)
    return [(command, None) for command in alone] + [it for block in blocks for it in examples(re.sub(r"(?m)^", "    ", block.rstrip("\n")) + "\n")]


def numbers(text):
    """The numbers of a text, without the commas between their digits."""
    return set(re.findall(r"\b\d+\b", re.sub(r"(?<=\d),(?=\d{3})", "", text)))


def differences(manual, page):
    """What the manual and the manual page say differently of options and exit statuses."""
    rows = dict(re.findall(r"^\| `(--[\w-]+)[^`]*` \|((?:[^|]*\|){3})", manual, re.M))
    items = {f"-{name}": text for name, text in re.findall(r"^\.It Fl (-[\w-]+).*\n((?:(?!\.It|\.El).*\n)*)", page, re.M)}
    found = [f"options: {list(rows)} and {list(items)}"] if not rows or sorted(rows) != sorted(items) else []
    found += [f"{name}: {sorted(numbers(cells))}" for name, cells in rows.items() if numbers(cells) and numbers(cells) != numbers(items.get(name, ""))]
    statuses = re.findall(r"^\| (\d) \|", manual, re.M), re.findall(r"^\.It (\d)$", page, re.M)
    return found + ([f"exit statuses: {statuses}"] if not statuses[0] or statuses[0] != statuses[1] else [])


def main():
    program = os.path.abspath(sys.argv[1] if len(sys.argv) > 1 else os.path.join(TOP, "cha"))
    wrong = run = 0
    for path in [f"{TOP}/README.md", *sorted(glob.glob(f"{TOP}/docs/*.md")), f"{TOP}/made/cha.1"]:
        with tempfile.TemporaryDirectory() as room:
            os.symlink(program, f"{room}/cha")
            os.symlink(f"{TOP}/docs", f"{room}/docs")
            shutil.copytree(f"{TOP}/tools", f"{room}/tools")
            shutil.copy(f"{TOP}/docs/sample.pgn", f"{room}/games.pgn")
            with open(f"{room}/POSITIONS.fen", "w") as file:
                file.write(POSITIONS)
            read = examples_of_page if path.endswith(".1") else examples
            for command, printed in read(open(path, encoding="utf-8").read()):
                if any(word in command for word in OWN):
                    continue
                run += 1
                where = {**os.environ, "PATH": room + os.pathsep + os.environ["PATH"]}
                done = subprocess.run(["bash", "-c", command], cwd=room, env=where, stdout=subprocess.PIPE, stderr=subprocess.STDOUT, text=True)
                if done.returncode != 0 if printed is None else done.stdout.splitlines() != printed:
                    wrong += 1
                    print(f"{os.path.relpath(path, TOP)}: {command}\n--- printed\n" + "\n".join(printed or []) + f"\n--- comes out\n{done.stdout}")
    texts = [open(f"{TOP}/{name}", encoding="utf-8").read() for name in ("docs/MANUAL.md", "made/cha.1")]
    run += 1
    unlike = differences(*texts)
    if unlike:
        wrong += 1
        print("docs/MANUAL.md and made/cha.1 differ:", *unlike, sep="\n")
    print(f"{run - wrong} passed, {wrong} failed")
    return 1 if wrong else 0


if __name__ == "__main__":
    sys.exit(main())
