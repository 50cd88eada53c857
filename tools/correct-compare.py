#!/usr/bin/env python3
"""Compares what `cha correct` writes with what it read, by a reading of its own, and has pgn-extract read it.

    tools/correct-compare.py PROGRAM [--flagged-draws] FILE..

Of each file `cha adjudicate --json` says where the games stand and whose results change. No byte but those of the two places of such games
may differ: the value of the first tag pair `Result`, and the result at the game's end. `cha correct --changed` has to write these games and
no other. Judged again, each game has to record its result and none may change, but for games that no result ends. And pgn-extract has to
read as many games in the mended file as in the first one, with the results of the report, where it reads as many as the report has. It
prints the numbers, and ends with 1 at the first thing that differs.
"""

import json
import re
import shutil
import subprocess
import sys

# Debian puts it where games are
PGN_EXTRACT = shutil.which("pgn-extract") or "/usr/games/pgn-extract"
# a comment, an escaped line, or a tag pair; a tag pair behind anything else is none that counts
PASSED_OVER = re.compile(rb"(?:[\s.]|\{[^}]*\}|;[^\r\n]*|(?<=[\r\n])%[^\r\n]*)*")
TAG = re.compile(rb'\[\s*(\w+)\s*"((?:\\.|[^"\\\r\n])*)"\s*\]')
# bytes of a word: where one of them touches a star, a space has to stand beside the result that takes its place
WORD, OPEN = re.compile(rb"[A-Za-z0-9_+#=:/!?-]"), re.compile(rb"[A-Za-z0-9_+#=:/!?$-]")
RESULT = re.compile(rb"(1-0|0-1|1/2-1/2|\*)$")


def said(program, words, data):
    """What the program writes, and what it says beside."""
    run = subprocess.run([program, *words], input=data, stdout=subprocess.PIPE, stderr=subprocess.PIPE, check=True)
    return run.stdout, run.stderr


def judged(program, options, data):
    """What the report says of each game, and at last of all."""
    *games, last = [json.loads(line) for line in said(program, ["adjudicate", "--json", *options], data)[0].splitlines()]
    return games, last


def places(data, game):
    """The place of the value of a game's first tag Result, if it has one, and that of its result, if one ends it: (start, end) of each."""
    start, end = game["bytes"]
    tag = TAG.match(data, start, end)
    while tag and tag[1] != b"Result":
        tag = TAG.match(data, PASSED_OVER.match(data, tag.end(), end).end(), end)
    token = RESULT.search(data, start, end)
    return tag.span(2) if tag else None, token.span() if token else None


def recorded_now(data, game):
    """What a corrected game records: its result, or a star where none ends it; None of one that cannot be read."""
    return game.get("result") if "unreadable" in game or places(data, game)[1] else "*"


def mended(data, games):
    """The text with other results, and the games that change alone; how many tags and results were replaced, of and by how many bytes."""
    parts, alone, done, counts = [], [], 0, [0, 0, 0, 0]
    for game in games:
        if not game.get("changed"):
            continue
        result, own, begun = game["result"].encode(), [], game["bytes"][0]
        for kind, place in enumerate(places(data, game)):
            if place is None:
                continue
            counts[kind] += 1
            counts[2] += place[1] - place[0]
            counts[3] += len(result)
            before = b" " if kind and OPEN.match(data, place[0] - 1) else b""
            behind = b" " if kind and WORD.match(data, place[1]) else b""
            parts += [data[done : place[0]], before + result + behind]
            own += [data[begun : place[0]], before + result]
            done = begun = place[1]
        alone += [*own, data[begun : game["bytes"][1]], b"\n\n"]
    return b"".join([*parts, data[done:]]), b"".join(alone), counts


def extracted(data):
    """The result of each game of a text, as pgn-extract reads it."""
    run = subprocess.run([PGN_EXTRACT, "-s", "-w9999", "-C", "-N", "-V"], input=data, stdout=subprocess.PIPE, stderr=subprocess.DEVNULL, check=True)
    return [line.split()[-1].decode() for line in run.stdout.splitlines() if line and not line.startswith(b"[")]


def differ(what, found, wanted):
    """Ends the program where two things that should be the same are not."""
    if found != wanted:
        first = next((at for at, (a, b) in enumerate(zip(found, wanted)) if a != b), min(len(found), len(wanted)))
        sys.exit(f"{what}: {len(found)} and {len(wanted)}, different from {first} on: {found[first : first + 60]!r} and {wanted[first : first + 60]!r}")


def compare(program, options, path):
    """Compares over one file, and says what was seen."""
    with open(path, "rb") as file:
        data = file.read()
    games, last = judged(program, options, data)
    wanted, alone, (tags, results, old, new) = mended(data, games)
    output, noted = said(program, ["correct", *options], data)
    differ(f"{path}: the text", output, wanted)
    differ(f"{path}: the games that change", said(program, ["correct", "--changed", *options], data)[0], alone)
    summary = f"games: {last['games']}, unreadable: {last['unreadable']}, changed: {last['changed']}, undecided: {last['undecided']}\n"
    differ(f"{path}: the summary", noted.decode(), summary)
    again, last_again = judged(program, options, output)
    differ(f"{path}: the results, judged again", [game.get("recorded") for game in again], [recorded_now(data, game) for game in games])
    unended = sum(recorded_now(data, game) != game.get("result") for game in games)
    if not options and last_again["changed"] != unended:
        sys.exit(f"{path}: {last_again['changed']} results change again, and {unended} games without a result at their end")
    ends, before = extracted(output), extracted(data)
    differ(f"{path}: the games of pgn-extract", [len(ends)], [len(before)])
    if not last["unreadable"] and len(before) == last["games"]:
        differ(f"{path}: the results by pgn-extract", ends, [game["result"] for game in games])
    print(f"{path}: games {last['games']}, changed {last['changed']}, tags {tags}, results {results}, bytes {old} by {new}; "
          f"pgn-extract reads {len(ends)} games; changed again: {last_again['changed']}")


def main():
    program, words = sys.argv[1], sys.argv[2:]
    options = [word for word in words if word.startswith("--")]
    for path in (word for word in words if not word.startswith("--")):
        compare(program, options, path)


if __name__ == "__main__":
    main()
