#!/usr/bin/env python3
"""A judge of `cha adjudicate --certs` on plain games.

    tools/second/games.py REPORT < GAMES.pgn

It reads games in plain PGN: tag pairs, move words, numbers and results, without comments and variations, each game with a result
and none with a fault. It plays them itself, and wants of the report of `cha adjudicate --certs` what `second.py` wants of
positions. Of the line `dead from: ply K` it wants that the two certificates behind it hold for the position after K moves, or that
there are none where that is the last one, and that the position before it is not one of which closed sets show that it is dead.
It was written from docs/MANUAL.md and docs/DEFINITIONS.md and shares nothing with the program.
"""

import re
import sys

from board import NAMES, after, in_check, legal, read_fen, write_fen
from second import SIDES, Report, Wrong, is_certified, mates, shortest_mate, status
from sets import has_no_mate, least

START = "rnbqkbnr/pppppppp/8/8/8/8/PPPPPPPP/RNBQKBNR w KQkq -"
WINNERS = {"1-0": "w", "0-1": "b"}
WORD = re.compile(r"([NBRQK]?)([a-h]?)([1-8]?)x?([a-h][1-8])(?:=?([NBRQ]))?")


def games(text):
    """The tags, the move words and the result of each game."""
    tags, words = {}, []
    for name, value, word in re.findall(r'\[(\w+) "([^"]*)"\]|(\S+)', text):
        if name:
            tags[name] = value
        elif word in ("1-0", "0-1", "1/2-1/2", "*"):
            yield tags, words, word
            tags, words = {}, []
        elif not re.fullmatch(r"[0-9]+\.*", word):
            words.append(re.sub(r"^[0-9]+\.+", "", word).rstrip("+#!?"))


def fits(position, word, move):
    kind = position.men[move.start][1]
    castles = kind == "K" and abs(move.start - move.end) == 2
    if word in ("O-O", "O-O-O", "0-0", "0-0-0"):
        return castles and (move.end > move.start) == (len(word) == 3)
    found = WORD.fullmatch(word)
    return bool(
        found
        and not castles
        and kind == (found[1] or "P")
        and NAMES[move.start][0] == (found[2] or NAMES[move.start][0])
        and NAMES[move.start][1] == (found[3] or NAMES[move.start][1])
        and NAMES[move.end] == found[4]
        and (move.promotion or "").upper() == (found[5] or "")
    )


def positions(tags, words):
    found = [read_fen(tags.get("FEN", START))]
    for word in words:
        moves = [move for move in legal(found[-1]) if fits(found[-1], word, move)]
        if len(moves) != 1:
            raise Wrong(f"{word} fits {len(moves)} moves")
        found.append(after(found[-1], moves[0]))
    return found


def judge_verdict(position, winner, text, certificate, sets):
    never, near = has_no_mate(position, sets, winner), shortest_mate(position, winner)
    found = re.fullmatch(r"winnable in (0|[0-9]+: .*)", text)
    if found:
        count, _, line = found[1].partition(": ")
        return not never and int(count) == len(line.split()) and mates(position, line.split(), winner)
    if text == "unwinnable":
        return near is None and is_certified(position, certificate, winner)
    return not never and near is None and re.fullmatch(r"undecided after [0-9]+ positions, depth [2-8]", text)


def judge_sides(report, position, first):
    """The verdicts on White and on Black, which are right by the definitions."""
    texts, certificates = {}, {}
    for side in "wb":
        texts[side] = report.take(SIDES[side] + ": ")
        certificates[side] = report.take_certificate() if texts[side] == "unwinnable" else None
    second, sets = "wb".replace(first, ""), least(position)
    if texts[first] == "skipped" or (texts[second] == "skipped") != texts[first].startswith("winnable"):
        raise Wrong(f"skipped in {write_fen(position)}")
    for side in "wb":
        if texts[side] != "skipped" and not judge_verdict(position, side, texts[side], certificates[side], sets):
            raise Wrong(f"{SIDES[side]} of {write_fen(position)}: {texts[side][:60]}")
    return [texts["w"], texts["b"]]


def judge_scan(report, played):
    """The ply from which the game was dead."""
    text = report.take("dead from: ")
    found = re.fullmatch(r"ply ([0-9]+)(?: or earlier, ply ([0-9]+) undecided)?", text)
    if not found or int(found[1]) >= len(played) or (found[2] and int(found[2]) != int(found[1]) - 1):
        raise Wrong(f"dead from: {text}")
    ply = int(found[1])
    if ply + 1 < len(played) and not all(is_certified(played[ply], report.take_certificate(), side) for side in "wb"):
        raise Wrong(f"a certificate of ply {ply}")
    if ply > 0:
        before = played[ply - 1]
        sets = least(before)
        if all(has_no_mate(before, sets, side) for side in "wb"):
            raise Wrong(f"ply {ply - 1} is dead too")
    return ply


def ruling(position, verdicts, recorded, forfeit, earlier):
    if not legal(position) and in_check(position.men, position.side):
        return ("0-1" if position.side == "w" else "1-0") + " by 5.1.1"
    if earlier:
        return "1/2-1/2 by 5.2.2"
    if not legal(position):
        return "1/2-1/2 by 5.2.1"
    if verdicts == ["unwinnable", "unwinnable"]:
        return "1/2-1/2 by 5.2.2"
    won = verdicts["wb".index(WINNERS[recorded])] if recorded in WINNERS else ""
    if forfeit and won == "unwinnable":
        return "1/2-1/2 by 6.9"
    return recorded + (" as recorded, winner undecided" if won.startswith("undecided") else " as recorded")


def judge_game(report, number, tags, words, recorded):
    """Judges the block of a game: whether its result changes, and whether a side is undecided."""
    played = positions(tags, words)
    last = played[-1]
    report.take(f"game {number}")
    report.take("fen: " + write_fen(last))
    verdicts = judge_sides(report, last, WINNERS.get(recorded, "w"))
    report.take("status: " + status(last, verdicts))
    dead = verdicts == ["unwinnable", "unwinnable"]
    earlier = dead and judge_scan(report, played) + 1 < len(played)
    termination = tags.get("Termination", "").lower()
    forfeit = termination == "time forfeit" or termination.endswith("won on time")
    judged = ruling(last, verdicts, recorded, forfeit, earlier)
    report.take(f"result: {recorded} -> {judged}")
    return judged.split()[0] != recorded, any(text.startswith("undecided") for text in verdicts)


def main(words):
    if len(words) != 1:
        print(__doc__, file=sys.stderr)
        return 1
    with open(words[0], encoding="latin-1") as shown:
        report = Report(shown.read())
    count = changed = undecided = 0
    try:
        for tags, moves, recorded in games(sys.stdin.buffer.read().decode("latin-1")):
            count += 1
            changes, is_open = judge_game(report, count, tags, moves, recorded)
            changed += changes
            undecided += is_open
        summary = f"games: {count}, unreadable: 0, changed: {changed}, undecided: {undecided}"
        report.take(summary)
    except Wrong as why:
        print(f"game {count}: {why}")
        return 1
    print(summary)
    return 0


if __name__ == "__main__":
    sys.exit(main(sys.argv[1:]))
