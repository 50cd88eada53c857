#!/usr/bin/env python3
"""Draws docs/crates.svg: the crates of the program by rooms, and which stands on which, as crates.txt says.

    tools/draw.py            writes the picture
    tools/draw.py --check    only compares; the status is 1 where the picture is not that of crates.txt

A line to a lower crate is left out where the crate stands on it through another one. Where a crate stands in the picture is said in
ROOMS: a column and a row for each. Crates of tests, and `cha_perft`, are left out.
"""
import os
import sys

TOP = os.path.dirname(os.path.dirname(os.path.abspath(__file__)))
PICTURE = os.path.join(TOP, "docs", "crates.svg")
# each room: its name, its colour, its first and last column and row, and its crates
ROOMS = [
    ("hall", "#fdf1dc", (0, 8, 0, 6), {
        "cha_main": (3, 0), "cha_c": (4, 0), "adjudicate": (3.5, 1), "cha_words": (0.4, 3), "flag_report": (2, 2), "json_report": (2, 3),
        "report_words": (2, 4), "report_style": (1, 5), "true_blocks": (1, 2), "item_batches": (4.8, 2), "side_by_side": (5.2, 3), "cha_judge": (5.7, 4), "cha_decide": (6.4, 5), "cha_outcome": (3, 5),
        "cha_verdict": (4.2, 6),
    }),
    ("reading", "#e3f1e3", (0, 2, 7, 11), {
        "random_games": (0, 7.6), "cha_san": (1, 8.4), "pgn_results": (2, 8.4), "pgn_games": (1.4, 9.7), "text_lines": (0, 9.7),
        "cha_outside": (0.4, 11), "pgn_lex": (1.6, 11),
    }),
    ("proving", "#e4ecf8", (3, 4, 7, 11), {
        "cert_text": (3, 7), "cert_par": (4, 7), "cha_cert": (3.5, 8), "mob_small": (3, 9), "mob_check": (4, 9), "mob_law": (3.5, 10),
        "mob_sets": (3.5, 11),
    }),
    ("finding", "#f6e6ef", (5, 8, 7, 11), {
        "root_workers": (7, 7), "helpmate_list": (8, 7), "helpmate": (7.5, 8.4), "forced_graph": (5.2, 8.2), "mate_hunt": (6, 7),
        "shard_table": (7.5, 9.7), "node_store": (5.9, 10.6), "search_guide": (6.3, 9.3), "mob_solve": (5, 9.7), "cha_fact": (7, 11),
        "turn_cell": (8, 11),
    }),
    ("ground", "#eeeeee", (0, 8, 12, 14), {
        "cha_moves": (4.5, 12), "cha_fen": (2.2, 12), "cha_board": (3.6, 13), "json_text": (1, 13), "cha_list": (3, 14), "cha_limits": (6, 14),
    }),
]
LEFT_OUT = ("cha_perft", "cha_acceptance", "ground_tests", "reading_tests", "proving_tests", "finding_tests", "hall_tests")
WIDE, HIGH = 96, 20


def stands_on():
    """Each crate with the crates of this repository that it names."""
    named = {}
    for line in open(os.path.join(TOP, "crates.txt"), encoding="utf-8"):
        head, below = line.split(":")
        named[head.split()[0]] = below.split()
    return {crate: [it for it in below if it in named] for crate, below in named.items() if crate not in LEFT_OUT}


def all_below(crate, below):
    """All crates on which one stands, through others too."""
    return set(below[crate]).union(*(all_below(it, below) for it in below[crate]))


def lines(below):
    """The lines of the picture: those that no way through a third crate replaces."""
    reached = {crate: all_below(crate, below) for crate in below}
    return [(crate, it) for crate in below for it in below[crate] if not any(it in reached[other] for other in below[crate])]


def spot(column, row):
    """The middle of a place, in points."""
    gap = 32 * (row >= 7) + 32 * (row >= 12)
    return 74 + column * 104, 46 + row * 36 + gap


def drawn():
    below = stands_on()
    places = {crate: (spot(*place), room) for room, _, _, crates in ROOMS for crate, place in crates.items()}
    if set(places) != set(below):
        sys.exit(f"crates.txt and ROOMS differ: {sorted(set(places) ^ set(below))}")
    out = ['<svg xmlns="http://www.w3.org/2000/svg" viewBox="0 0 980 660" font-family="sans-serif" font-size="12">', '<rect width="980" height="660" fill="#ffffff"/>']
    for room, color, (left, right, top, bottom), _ in ROOMS:
        (x, y), (to_x, to_y) = spot(left, top), spot(right, bottom)
        out.append(f'<rect x="{x - 50:g}" y="{y - 32:g}" width="{to_x - x + 100:g}" height="{to_y - y + 48:g}" rx="8" fill="{color}"/>')
        out.append(f'<text x="{x - 42:g}" y="{y - 17:g}" font-style="italic" fill="#444444">{room}</text>')
    for crate, lower in sorted(lines(below), key=lambda it: places[it[0]][1] == places[it[1]][1]):
        ((x, y), room), ((to_x, to_y), other) = places[crate], places[lower]
        color = "#333333" if room == other else "#b0b0b0"
        begin, end = y + HIGH / 2, to_y - HIGH / 2
        bend = (end - begin) / 2
        out.append(f'<path d="M{x:g} {begin:g}C{x:g} {begin + bend:g} {to_x:g} {end - bend:g} {to_x:g} {end:g}" fill="none" stroke="{color}"/>')
    for crate, ((x, y), _) in places.items():
        out.append(f'<rect x="{x - WIDE / 2:g}" y="{y - HIGH / 2:g}" width="{WIDE}" height="{HIGH}" rx="4" fill="#ffffff" stroke="#666666"/>')
        out.append(f'<text x="{x:g}" y="{y + 4:g}" text-anchor="middle">{crate}</text>')
    return "\n".join(out) + "\n</svg>\n"


def main():
    text = drawn()
    if "--check" in sys.argv:
        same = os.path.exists(PICTURE) and open(PICTURE, encoding="utf-8").read() == text
        print("docs/crates.svg is that of crates.txt" if same else "docs/crates.svg is not that of crates.txt: tools/draw.py draws it anew")
        return 0 if same else 1
    with open(PICTURE, "w", encoding="utf-8") as file:
        file.write(text)
    return 0


if __name__ == "__main__":
    sys.exit(main())
