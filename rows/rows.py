"""Rows with known answers, put to the program, and to the library where one is given.

    [CHA_LIBRARY=./libcha.so] python3 rows/rows.py ./cha [FILE ..]

The rows are data. `runs/` has whole runs, in a form that stands at the head of each file; each of the other files is a table with a row on
each line, whose columns its first lines name. A new row is written into its file, with what it should answer and why: from the Laws of
Chess, from the formats, from another program, and never from what `cha` answers. Names of files behind the program's (as `verdicts` or
`runs/games`) run these alone; `together` and `cuts` name the rows that are made of others (`together.py`). It ends with 'N passed, M failed',
which count rows.
"""

import os
import sys
from concurrent.futures import ThreadPoolExecutor
from pathlib import Path
from typing import Callable, Iterator, List, NamedTuple

sys.path[:0] = [str(Path(__file__).resolve().parent), str(Path(__file__).resolve().parent.parent / "python")]

import checks  # noqa: E402
import reading  # noqa: E402
import together  # noqa: E402
from asking import Engines, Library, Program  # noqa: E402


class Check(NamedTuple):
    """A row, by the file that it is from and its place there, and what tells what is wrong with it."""

    file: str
    place: str
    wrong: Callable[[], Iterator[str]]


#: the tables, and what is checked of each row
TABLES = {
    "verdicts": checks.verdict_fits,
    "helpmates": checks.helpmate_fits,
    "words": checks.words_are_refused,
    "ordered": checks.words_order,
    "moves": checks.move_fits,
    "written": checks.written_fits,
    "whole-games": checks.game_fits,
    "places": checks.place_fits,
}


def all_checks(engines: Engines) -> Iterator[Check]:
    for path in sorted((reading.FOLDER / "runs").glob("*.txt")):
        for run in reading.runs(path.stem):
            is_filled = path.stem == "every-room"
            yield Check(f"runs/{path.stem}", run.place, lambda run=run, is_filled=is_filled: checks.run_fits(run, is_filled, engines))
    for name, check in TABLES.items():
        for row in reading.table(name):
            yield Check(name, row.place, lambda check=check, row=row: check(row, engines))
    for kind in together.kinds(reading.table("verdicts"), reading.runs("corrections")):
        yield Check("together", f"side by side: {kind.name}", lambda kind=kind: together.alike(kind, engines.program))
    for front, wanted in together.cuts():
        yield Check("cuts", f"the first {len(front)} bytes of a certificate", lambda a=front, b=wanted: together.is_refused(a, b, engines))


def judged(check: Check) -> List[str]:
    """What is wrong with a row, with its place."""
    try:
        return [f"{check.place}: {what}" for what in check.wrong()]
    except Exception as error:  # a row that cannot even be asked is wrong, and the others still count
        return [f"{check.place}: {type(error).__name__}: {error}"]


def main() -> int:
    if len(sys.argv) < 2 or sys.argv[1] in ("-h", "--help"):
        print(__doc__, end="")
        return len(sys.argv) < 2
    path, *files = sys.argv[1:]
    library = Library(os.environ["CHA_LIBRARY"]) if "CHA_LIBRARY" in os.environ else None
    every_check = list(all_checks(Engines(Program(path), library)))
    names = sorted({check.file for check in every_check})
    unknown = [name for name in files if name not in names]
    if unknown:
        print(f"no file of rows is named {', '.join(unknown)}; there are {', '.join(names)}", file=sys.stderr)
        return 2
    chosen = [check for check in every_check if not files or check.file in files]
    failed = 0
    with ThreadPoolExecutor(max_workers=os.cpu_count()) as pool:
        for wrong in pool.map(judged, chosen):
            failed += bool(wrong)
            for what in wrong:
                print(what, flush=True)
    print(f"{len(chosen) - failed} passed, {failed} failed")
    return failed != 0


if __name__ == "__main__":
    sys.exit(main())
