#!/usr/bin/env python3
"""Runs a program over a file twice, in blocks and in JSON, and compares every field that both have.

    tools/json-compare.py PROGRAM adjudicate|position FILE [WORD ..]

Each word behind the file goes to both runs. It says how many items were compared, and ends with 1 at the first that differ.
"""

import json
import subprocess
import sys


def printed(program: str, command: str, path: str, words: list[str]) -> list[str]:
    """The lines that a run writes."""
    with open(path, "rb") as source:
        run = subprocess.run([program, command, *words], stdin=source, stdout=subprocess.PIPE, check=True)
    return run.stdout.decode("latin-1").split("\n")[:-1]


def verdict(value: dict, notation: str) -> str:
    """A verdict in JSON as blocks say it."""
    kind = value["verdict"]
    if kind == "winnable":
        line = " ".join(value[notation])
        assert len(value["moves"]) == len(value["san"]) == value["plies"], value
        return f"winnable in {value['plies']}" + (f": {line}" if line else "")
    if kind == "undecided":
        return f"undecided after {value['positions']} positions, depth {value['depth']}"
    return kind


def cause(item: dict) -> list[str]:
    """Why a game has its result, as blocks may say it."""
    if item["article"]:
        return [f"by {item['article']}"]
    return ["as recorded", "as recorded, winner undecided"]


def block(item: dict, notation: str) -> list[list[str]]:
    """The lines of the block that an object is, each with the texts that it may have."""
    kind = "game" if "game" in item else "position"
    lines = [[f"{kind} {item[kind]}"]]
    for refusal in ("refused", "unreadable"):
        if refusal in item:
            return [*lines, [f"{refusal}: {item[refusal]}"]]
    lines.append([f"fen: {item['fen']}"])
    lines += [[f"{side}: {verdict(item[side], notation)}"] for side in ("white", "black")]
    lines.append([f"status: {item['status']}"])
    if kind == "game":
        dead = item["dead_from"]
        if dead:
            more = f" or earlier, ply {dead['undecided']} undecided" if "undecided" in dead else ""
            lines.append([f"dead from: ply {dead['ply']}{more}"])
        assert item["changed"] == (item["recorded"] != item["result"]), item
        lines.append([f"result: {item['recorded']} -> {item['result']} {why}" for why in cause(item)])
    return lines


def compare(program: str, command: str, path: str, words: list[str]) -> int:
    """Compares the two reports, and gives the number of items."""
    *objects, last = [json.loads(line) for line in printed(program, command, path, [*words, "--json"])]
    for notation, flags in (("moves", []), ("san", ["--san"])):
        blocks = printed(program, command, path, [*words, *flags])
        wanted = [line for item in objects for line in block(item, notation)]
        last.pop("closed", None)
        wanted.append([", ".join(f"{name}: {count}" for name, count in last.items())])
        if len(wanted) != len(blocks):
            sys.exit(f"{len(blocks)} lines of blocks, {len(wanted)} by the JSON")
        for number, (may, line) in enumerate(zip(wanted, blocks), 1):
            if line not in may:
                sys.exit(f"line {number}: {line!r} in blocks, {may!r} by the JSON")
    return len(objects)


if __name__ == "__main__":
    if len(sys.argv) < 4:
        sys.exit(__doc__)
    print(compare(sys.argv[1], sys.argv[2], sys.argv[3], sys.argv[4:]), "items, equal in blocks, in words and in JSON")
