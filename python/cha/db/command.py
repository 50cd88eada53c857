"""The command `cha-db`."""

import argparse
import os
import signal
import sys
from typing import Any, Dict, List, NoReturn, Optional, Sequence

from cha._calls import ChaError, UsageError, report
from cha.db import state as states
from cha.db.counts import counted, said
from cha.db.joining import Judge, Place
from cha.db.outputs import Output, outputs
from cha.db.progress import Progress, progress
from cha.db.rows import KINDS
from cha.db.running import PIECE, correcting, parts, processors, room_for, threads, words
from cha.db.sources import InputError, is_same_file, size_of
from cha.db.state import OrderError, State
from cha.db.tables import OutputError

_DESCRIPTION = "Judges every game of a database, and tells which recorded results are not those by the Laws of Chess."
_STATUSES = """exit status: 0 all was judged; 1 wrong words; 2 a file cannot be read, or no game of it can; 3 an output cannot be written;
4 a text of over 268,435,456 bytes in which no game ends; 5 memory was refused; 130 interrupted"""


class _Parser(argparse.ArgumentParser):
    def error(self, message: str) -> NoReturn:
        raise OrderError(f"{message}; cha-db --help shows all options")


def _count(text: str) -> int:
    number = int(text)
    if number < 1:
        raise ValueError
    return number


def parser() -> argparse.ArgumentParser:
    """Returns what reads the words of the command."""
    read = _Parser("cha-db", description=_DESCRIPTION, epilog=_STATUSES)
    read.add_argument("files", nargs="+", metavar="FILE", help="PGN, plain or compressed with zstd, gzip or bzip2; - is standard input")
    read.add_argument("--to", metavar="FILE", help="write the games to FILE.jsonl, .csv or .sqlite; with no output file JSON lines are printed")
    read.add_argument("--only", choices=list(KINDS), help="write only games of this kind")
    read.add_argument("--report", metavar="FILE.html", help="write a page with the numbers and the first 1,000 changed games")
    read.add_argument("--corrected", metavar="FILE.pgn", help="write all games in PGN, with the results by the Laws")
    read.add_argument("--resume", action="store_true", help="go on where a run with the same files and options was broken off")
    read.add_argument("--quiet", action="store_true", help="print only errors on standard error")
    read.add_argument("--threads", type=_count, default=processors(), metavar="N", help="judge N pieces at once (%(default)s)")
    read.add_argument("--budget", type=_count, metavar="N", help="as for cha adjudicate, 1 to 100000")
    read.add_argument("--depth", type=_count, metavar="N", help="as for cha adjudicate, 2 to 8")
    read.add_argument("--piece", type=_count, default=PIECE, metavar="BYTES", help="cut the text into pieces of this size (%(default)s)")
    return read


class _Run:
    """One run of the command: what was ordered, how far it is, and where it writes."""

    def __init__(self, order: argparse.Namespace) -> None:
        self._order = order
        self._see_limits()
        self._sizes = [size_of(file) for file in order.files]
        names = ("files", "to", "only", "report", "corrected", "budget", "depth")
        self._key: Dict[str, Any] = {name: getattr(order, name) for name in names}
        first = order.to or order.report or order.corrected
        self._path = f"{first}.state" if first else None
        self._see_corrected()
        kept = self._kept()
        self._state = kept or State()
        self._outputs: List[Output] = outputs(order.to, order.only, order.report, order.corrected, kept.marks if kept else None)

    def _see_limits(self) -> None:
        """Sees that the library takes the numbers, before a file is read or written."""
        try:
            report(words(self._order.budget, self._order.depth), b"")
        except UsageError as fault:
            raise OrderError(f"cha does not take the words {fault}; cha-db --help shows the ranges") from fault

    def _see_corrected(self) -> None:
        """Sees that the corrected text takes the place of nothing that is read or written."""
        path = self._order.corrected
        if path is None:
            return
        if path == "-":
            raise OrderError("--corrected -: it needs the name of a file, which --resume can cut back")
        for file in self._order.files:
            if is_same_file(file, path):
                raise OrderError(f"--corrected {path}: {'standard input' if file == '-' else file} is read; write to another file")
        if os.path.abspath(path) in [os.path.abspath(other) for other in (self._order.to, self._order.report, self._path) if other]:
            raise OrderError(f"--corrected {path}: another output has this name")

    def _kept(self) -> Optional[State]:
        if self._path is None:
            if self._order.resume:
                raise OrderError("--resume needs --to, --report or --corrected")
            return None
        kept = states.load(self._path, self._key) if self._order.resume else None
        if kept is None and os.path.exists(self._path):
            raise OrderError(f"{self._path} tells of a run that was broken off: --resume goes on with it; remove it to begin anew")
        return kept

    def run(self) -> int:
        """Judges all files; the exit status."""
        size = sum(size for size in self._sizes if size is not None) if None not in self._sizes else None
        shown = progress(self._order.quiet, size, sum(s or 0 for s in self._sizes[: self._state.file]), self._state.counts["games"])
        limits = (self._order.budget, self._order.depth)
        correct = correcting(*limits) if self._order.corrected else None
        faults: List[str] = []
        try:
            with threads(self._order.threads, words(*limits), correct) as judge:
                while self._state.file < len(self._order.files):
                    self._judge_file(judge, shown)
                    faults += self._end_file()
        finally:
            shown.close()
            for output in self._outputs:
                output.close()
        return self._end(faults)

    def _judge_file(self, judge: Judge, shown: Progress) -> None:
        file = self._order.files[self._state.file]
        before = sum(size or 0 for size in self._sizes[: self._state.file])
        for part in parts(file, judge, room_for(self._order.threads), self._order.piece, self._state.at):
            counts = counted(part.judged)
            for output in self._outputs:
                output.add(part)
            self._state.counts += counts
            self._state.readable += counts["games"] - counts["unreadable"]
            self._state.at = part.judged.behind
            self._save()
            shown.tell(before + part.told, self._state.counts["games"], self._state.counts["changed"])

    def _save(self) -> None:
        self._state.marks = [output.mark() for output in self._outputs]
        if self._path is not None:
            states.save(self._path, self._key, self._state)

    def _end_file(self) -> List[str]:
        """Goes to the next file; what is wrong with this one."""
        file, games = self._order.files[self._state.file], self._state.at.games
        wrong = [f"{file}: none of its {games} games can be read; is it PGN?"] if games and not self._state.readable else []
        self._state.file, self._state.at, self._state.readable = self._state.file + 1, Place(), 0
        self._save()
        return wrong

    def _end(self, faults: List[str]) -> int:
        for output in self._outputs:
            output.finish(self._order.files, self._state.counts)
        if self._path is not None:
            states.remove(self._path)
        for output in self._outputs:
            output.tidy()
        if not self._order.quiet:
            print(said(self._state.counts), file=sys.stderr)
        for fault in faults:
            print(f"cha-db: {fault}", file=sys.stderr)
        return InputError.status if faults else 0


def entry() -> NoReturn:
    """The command, as the system calls it."""
    sys.exit(main())


def _stop(number: int, frame: object) -> NoReturn:
    raise KeyboardInterrupt


def main(arguments: Optional[Sequence[str]] = None) -> int:
    """Does what the words of the command order; the exit status."""
    signal.signal(signal.SIGTERM, _stop)
    order = None
    try:
        order = parser().parse_args(arguments)
        return _Run(order).run()
    except (OrderError, InputError, OutputError, ChaError) as fault:
        print(f"cha-db: {fault}", file=sys.stderr)
        return fault.status
    except MemoryError:
        print("cha-db: memory was refused", file=sys.stderr)
        return 5
    except OSError as fault:
        print(f"cha-db: {fault}", file=sys.stderr)
        return InputError.status
    except KeyboardInterrupt:
        is_kept = order is not None and (order.to or order.report or order.corrected)
        goes_on = "; --resume goes on behind the last whole piece" if is_kept else ""
        print(f"cha-db: interrupted{goes_on}", file=sys.stderr)
        return 130
