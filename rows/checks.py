"""What is checked of each kind of row. A check answers what is wrong, in a line each; none where all is right."""

import json
import re
import shlex
from typing import Callable, Iterator, List, Optional, Tuple

from asking import Answer, Engines, Program
from reading import Row, Run, meant

#: commands that take a number of workers, and the numbers that are tried; the report is the same for each
WITH_WORKERS = ("adjudicate", "correct", "position", "mates")
WORKERS = (["--workers", "1"], ["--workers", "2"], ["--workers=16"])

#: sizes of the pieces in which an input comes; longer inputs come whole, and with the usual number of workers
PIECES, SHORT = (1, 2, 7), 4096


#: what may be wrong with a word of a move
FAULTS = ("not SAN", "no such move", "ambiguous")


def part_of(data: Optional[bytes], at: int) -> str:
    return repr((data or b"")[max(0, at - 20) : at + 40])


def difference(what: str, wanted: Optional[bytes], found: Optional[bytes]) -> Iterator[str]:
    """Where two texts begin to differ, if they do."""
    if wanted is None or found is None or wanted == found:
        return
    at = next((at for at, pair in enumerate(zip(wanted, found)) if pair[0] != pair[1]), min(len(wanted), len(found)))
    yield f"{what} differs at byte {at}: wanted {part_of(wanted, at)}, found {part_of(found, at)}"


def compared(way: str, found: Answer, status: int, output: Optional[bytes], error: Optional[bytes] = b"") -> Iterator[str]:
    """What is wrong with an answer; of an output that is None nothing is known."""
    if found.status != status:
        yield f"{way}: wanted status {status}, found {found.status}"
    yield from difference(f"{way}: output", output, found.output)
    if found.error is not None:
        yield from difference(f"{way}: standard error", error, found.error)


def fits(run: Run, way: str, found: Answer) -> Iterator[str]:
    """What is wrong with an answer to a whole run."""
    whole = run.text(">") if run.part is None else None
    # what is said of a run that fails is compared where the row says it
    error = run.text("!") if run.status in (0, 6) or "!" in run.texts else None
    yield from compared(way, found, run.status, whole, error)
    # the part begins a line
    if run.part is not None and b"\n" + run.part not in b"\n" + found.output:
        yield f"{way}: {part_of(run.part, 0)} does not stand in {part_of(found.output, 0)}"


def ways(run: Run) -> Iterator[Tuple[List[str], Optional[int]]]:
    """The words of a run with each number of workers, and its input in pieces of each size."""
    yield run.words, None
    if len(run.text("<")) > SHORT:
        return
    if run.words[0] in WITH_WORKERS and not any(word.startswith("--workers") for word in run.words):
        for workers in WORKERS:
            yield [*run.words, *workers], None
    for size in PIECES:
        yield run.words, size


def run_fits(run: Run, is_filled: bool, engines: Engines) -> Iterator[str]:
    """A whole run, by the program in each way, and by the library; where that is asked, also with each room for its output."""
    data = run.text("<")
    for words, size in ways(run):
        way = shlex.join(["cha", *words]) + (f", pieces of {size} bytes" if size else "")
        yield from fits(run, way, engines.program.run(words, data, size=size))
    if engines.library:
        yield from fits(run, "the library", engines.library.run(run.words, data))
    if is_filled:
        yield from every_room(run, engines.program)


def every_room(run: Run, program: Program) -> Iterator[str]:
    """A whole run whose output has room for fewer bytes than it has, and for all."""
    whole = run.text(">")
    for room in range(len(whole) + 2):
        found = program.run(run.words, run.text("<"), room=room)
        status, error = (0, run.text("!")) if room >= len(whole) else (3, None)
        yield from compared(f"room for {room} bytes", found, status, whole[:room], error)


def certificates(report: bytes) -> List[bytes]:
    """The certificates in a report."""
    return re.findall(rb"^cha-cert 2\n(?:.*\n)*?end\n", report, re.MULTILINE)


def verdict_fits(row: Row, engines: Engines) -> Iterator[str]:
    """A position with its verdicts; the certificates of sides that cannot mate are accepted."""
    fen, white, black, status = row.columns
    block = f"position 1\nfen: {fen}\nwhite: {white}\nblack: {black}\nstatus: {status}\npositions: 1, "
    wanted = re.escape(block.encode()).replace(rb"\.\.", rb"[^\n]+")
    words, data = ["position", "--budget", "3000", "--depth", "2"], f"{fen}\n".encode()
    for engine in engines.all:
        found = engine.run(words, data)
        if found.status or found.error or not re.match(wanted, found.output):
            yield f"wanted {block!r}, found {found.output!r}"
    report = engines.program.run([*words, "--certs"], data).output
    printed = certificates(report)
    if len(printed) != report.count(b": unwinnable\n"):
        yield f"{len(printed)} certificates in {report!r}"
    for certificate in printed:
        winner = b"w" if b"\nwinner w\n" in certificate else b"b"
        for engine in engines.all:
            yield from compared("a certificate", engine.run(["check"], certificate), 0, b"accepted " + winner + b"\n")


def helpmate_fits(row: Row, engines: Engines) -> Iterator[str]:
    """The shortest mates: as many plies and lines as are known, of which the program lists 200, and none in a ply less."""
    fen, side, plies, count = row.columns[:4]
    depth, data = max(4, int(plies)), fen.encode()
    for engine in engines.all:
        [found, _] = [json.loads(line) for line in engine.run(["mates", side, f"--depth={depth}", "--json"], data).output.splitlines()]
        told = (found["plies"], len(found.get("lines", [])), found.get("more"))
        if told != (int(plies), min(200, int(count)), int(count) > 200):
            yield f"found {told[1]} lines of {told[0]} plies, more: {told[2]}"
        if int(plies) > 1:
            less = engine.run(["mates", side, f"--depth={int(plies) - 1}"], data).output
            if f"\nno mate within {int(plies) - 1} plies\n".encode() not in less:
                yield f"a ply less: {less!r}"


def words_of(text: str) -> List[str]:
    return [] if text == "(none)" else shlex.split(text)


def named(message: bytes) -> str:
    """What may stand at the first wrong word, without what is said of it."""
    expected = message.decode().split("\n")[0].partition("; expected: ")[2]
    if expected.startswith("a number from "):
        return expected[len("a number from ") :]
    if expected == "no word":
        return expected
    names = [item.split(" ")[0] for item in re.sub(r" \([^)]*\)", "", expected).split(", ")]
    return "command" if names[0] == "adjudicate" else " ".join(names)


def words_are_refused(row: Row, engines: Engines) -> Iterator[str]:
    """Words that are not in the language; where it is known, the first that may not stand there and what may."""
    words = words_of(row.columns[0])
    found = engines.program.run(words, b"4k3/8/8/8/8/8/8/4K3 w - -\n")
    yield from compared("the program", found, 1, b"", None)
    if engines.library and "\0".join(words):
        yield from compared("the library", engines.library.run(words, b"4k3/8/8/8/8/8/8/4K3 w - -\n"), 1, b"")
    if len(row.columns) > 1:
        before, expected = int(row.columns[1]), " ".join(row.columns[2:])
        place = f"'{' '.join(['cha', *words[:before]])}'"
        head = f"a word is missing after {place}" if before == len(words) else f'"{words[before]}" may not come after {place}'
        if not (found.error or b"").decode().startswith(head):
            yield f"wanted {head!r}, found {found.error!r}"
        if named(found.error or b"") != expected:
            yield f"wanted {expected!r}, found {found.error!r}"


#: what an empty input gives, by the first word of what is ordered: as text, and the beginning of a line of JSON
EMPTY = {
    "games": (b"games: 0, unreadable: 0, changed: 0, undecided: 0\n", b'{"games":0,'),
    "positions": (b"positions: 0, refused: 0, dead: 0, undecided: 0\n", b'{"positions":0,'),
    "mates": (b"positions: 0, refused: 0, found: 0\n", b'{"positions":0,'),
    "replay": (b"games: 0, unreadable: 0\n", b'{"games":0,'),
    "correct": (b"", None),
    "check": (b"refused: line 1 header\n", None),
}


def words_order(row: Row, engines: Engines) -> Iterator[str]:
    """Words that are in the language: the program does what they order. What a search may spend is not seen; `hall_tests` tests that."""
    words, ordered = words_of(row.columns[0]), row.columns[1].split()
    for engine in engines.all:
        if ordered[0] == "gen":
            text, json_text = f"games: {ordered[6]}, unreadable: 0, ".encode(), None
            if engine is engines.library:
                continue
        else:
            text, json_text = EMPTY[ordered[0]]
        found = engine.run(words, b"")
        wanted = json_text if "json" in ordered and json_text else text
        if found.status != (6 if ordered[0] == "check" else 0) or not found.output.startswith(wanted):
            yield f"wanted {wanted!r}, found {found}"


def replayed(words: str, start: Optional[str], engine: Callable[..., Answer]) -> List[str]:
    """The lines of `replay` on a game of these words."""
    head = f'[FEN "{start}"]\n\n' if start else ""
    return engine(["replay"], f"{head}{words} *\n".encode()).output.decode().splitlines()


def move_fits(row: Row, engines: Engines) -> Iterator[str]:
    """A word in a position, and the move that it names or what is wrong with it."""
    fen, word, wanted = row.columns
    for engine in engines.all:
        found = replayed(word, fen, engine.run)
        told = f"unreadable: move 1 {word}: {wanted}" if wanted in FAULTS else f"ply 1: {wanted} "
        if not any(line.startswith(told) for line in found):
            yield f"found {found[1:-1]}"


def written_fits(row: Row, engines: Engines) -> Iterator[str]:
    """A move is written as the standard has it."""
    fen, word = row.columns
    for engine in engines.all:
        found = replayed(word, fen, engine.run)
        if not any(line.startswith("ply 1: ") and line.split()[3] == word for line in found):
            yield f"found {found[1:-1]}"


def game_fits(row: Row, engines: Engines) -> Iterator[str]:
    """A game is played to its last position, or stops at a word."""
    _, words, end = row.columns
    number, _, fault = end.partition(" ")
    count = len(words.split())
    for engine in engines.all:
        last = replayed(words, None, engine.run)[-2]
        if number.isdigit():
            right = last == f"unreadable: move {number} {words.split()[int(number) - 1]}: {fault}"
        else:
            right = last.startswith(f"ply {count}: ") and last.split(" ", 4)[4] == end
        if not right:
            yield f"found {last!r}"


def place_fits(row: Row, engines: Engines) -> Iterator[str]:
    """Where the games of a text stand, and whether it is closed, in whatever pieces the text comes."""
    data, wanted = meant(row.columns[0]), row.columns[1]
    answers = [engines.program.run(["replay", "--json"], data, size=size) for size in (None, *PIECES)]
    for found in [*answers, *([engines.library.run(["replay", "--json"], data)] if engines.library else [])]:
        *games, last = [json.loads(line) for line in found.output.splitlines()]
        places = [f"{game['bytes'][0]}-{game['bytes'][1]}:{game['line']}" for game in games]
        told = " ".join([*places, "closed" if last["closed"] else "open"])
        if told != wanted:
            yield f"wanted {wanted!r}, found {told!r}"
