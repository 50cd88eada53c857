"""Games and positions that are judged side by side, where the bytes are those of one worker; and a certificate that is cut at each byte."""

import itertools
from typing import Iterator, List, NamedTuple, Optional, Tuple

import checks
from asking import Engines, Program
from reading import Row, Run

#: words of runs over games, and over positions, without the number of workers
GAMES = (
    "adjudicate --budget 300 --depth 2",
    "adjudicate --budget 1 --depth 2 --json --certs",
    "correct --budget 300 --depth 2",
    "correct --budget 300 --depth 2 --changed",
)
POSITIONS = (
    "position --budget 300 --depth 2 --certs",
    "position --budget 1 --depth 2 --san",
    "mates w --depth 2",
    "mates b --depth 3 --san",
)

#: how often a text of games with known corrections is repeated: so many games come together that threads judge them
TIMES = 9

#: the certificate of a queen that is lost at once
LOST = b"""cha-cert 1
winner w
nodes 2
inner k7/1Q6/8/8/8/8/8/4K3 b - -
leaf 8/1k6/8/8/8/8/8/4K3 w - -
loose 0002000000000010
reach e1 K ffffffffffffffff
reach b7 K ffffffffffffffff
end
"""


class Kind(NamedTuple):
    """An input, the words of a run over it, the output where it is known, and the numbers of workers and sizes of pieces that are tried."""

    name: str
    words: List[str]
    data: bytes
    output: Optional[bytes]
    workers: Tuple[int, ...]
    pieces: Tuple[Tuple[int, int], ...]


def positions(verdicts: List[Row]) -> List[str]:
    """The first two positions under each heading, and a line that is none in the middle."""
    found = []
    for heading, rows in itertools.groupby(verdicts, lambda row: row.heading):
        found += [row.columns[0] for row in itertools.islice(rows, 2)]
        if heading == "lone knights":
            found.append("no position")
    return found


def games(fens: List[str]) -> str:
    """A game that begins and ends at each of these positions, and games with moves, one of which cannot be read, between them."""
    between = "1. f3 e5 2. g4 Qh4# 1-0\n\n1. e4 e5 2. Ke3 *\n\n"
    return "".join(f'[FEN "{fen}"]\n[Termination "time forfeit"]\n\n1-0\n\n{between}' for fen in fens)


def kinds(verdicts: List[Row], corrections: List[Run]) -> Iterator[Kind]:
    fens = positions(verdicts)
    numbers, pieces = (2, 4, 8, 16), ((3, 1), (3, 777), (3, 4096))
    for words in GAMES:
        yield Kind(words, words.split(), games(fens).encode(), None, numbers, pieces)
    for words in POSITIONS:
        yield Kind(words, words.split(), "".join(f"{fen}\n" for fen in fens).encode(), None, numbers, pieces)
    for run in corrections:
        # with --changed the line feeds, which stand between the games, are not written
        feed = b"" if run.words[-1] == "--changed" else b"\n"
        data, output = (run.text("<") + b"\n") * TIMES, (run.text(">") + feed) * TIMES
        yield Kind(f"{run.place}, {TIMES} times", run.words, data, output, (2, 4), ((2, 7), (2, 777), (4, 7), (4, 777)))


def alike(kind: Kind, program: Program) -> Iterator[str]:
    """Whether runs with any number of workers, and over any pieces, give what one worker gives."""
    one = program.run([*kind.words, "--workers", "1"], kind.data)
    yield from checks.compared("one worker", one, 0, kind.output, None)
    if kind.output is None and not one.output:
        yield "one worker: no output"
    for workers, size in [*((number, None) for number in kind.workers), *kind.pieces]:
        way = f"{workers} workers" + (f", pieces of {size} bytes" if size else "")
        found = program.run([*kind.words, "--workers", str(workers)], kind.data, size=size)
        yield from checks.compared(way, found, 0, one.output, one.error)


def wanted(line: int, there: int) -> str:
    """What is wanted where the certificate is cut: in a line by its number, of which so many bytes are there."""
    if line in (7, 8):
        return "reach" if there >= 6 else "end"
    return {1: "header", 2: "winner", 3: "count", 4: "node", 5: "node", 6: "loose"}.get(line, "end")


def cuts() -> Iterator[Tuple[bytes, bytes]]:
    """Each front of the certificate, and what is answered."""
    for end in range(len(LOST)):
        front = LOST[:end]
        line, there = front.count(b"\n") + 1, end - (front.rfind(b"\n") + 1)
        yield front, f"refused: line {line} {wanted(line, there)}\n".encode()


def is_refused(front: bytes, answer: bytes, engines: Engines) -> Iterator[str]:
    for engine in engines.all:
        yield from checks.compared(type(engine).__name__, engine.run(["check"], front), 6, answer)
