"""A page on a database: how many games there are of what, and those whose result changes, each with its board."""

import os
from html import escape
from typing import Any, Counter as Counts, Dict, Optional, Sequence

from cha._board import svg
from cha.db.rows import Row
from cha.db.running import Part
from cha.db.tables import File, OutputError

#: so many changed games are shown
MOST_SHOWN = 1000

_STYLE = """
:root{color-scheme:light dark}
body{font:16px/1.5 system-ui,sans-serif;max-width:66rem;margin:2rem auto;padding:0 1rem}
table{border-collapse:collapse}th,td{padding:.2rem 1rem .2rem 0;text-align:left;font-weight:normal}td.number{text-align:right}
article{display:flex;flex-wrap:wrap;gap:0 1.5rem;border-top:1px solid #8886;padding:1rem 0}
article h3{margin:0}article div{flex:1 1 18rem;min-width:0;overflow-wrap:anywhere}article p{margin:.3rem 0}
"""
_ARTICLES = {
    "5.1.1": "the final position is a checkmate",
    "5.2.1": "the final position is a stalemate",
    "5.2.2": "a dead position was reached: neither side can checkmate by any series of legal moves",
    "6.9": "a flag fell, and the opponent cannot checkmate by any series of legal moves",
}
_COUNTED = {
    "games": "games",
    "unreadable": "games that cannot be read",
    "dead": "games that end in a dead position",
    "undecided": "games with a side that stayed undecided",
    "changed": "games whose result changes",
}


def _side(name: str, verdict: Dict[str, Any]) -> str:
    if verdict["verdict"] == "winnable":
        return f"{name} can checkmate: {' '.join(verdict['san'])}" if verdict["san"] else f"{name} has checkmated"
    if verdict["verdict"] == "undecided":
        return f"{name}: undecided after {verdict['positions']:,} positions"
    return f"{name} can never checkmate"


def _dead(since: Dict[str, Any]) -> str:
    earlier = " or earlier" if "undecided" in since else ""
    return f"Dead from ply {since['ply']}{earlier}"


def _game(row: Row) -> str:
    """A game as a part of the page."""
    fields, tags = row.fields, row.tags
    players = " – ".join(tags.get(side, "?") for side in ("White", "Black"))
    place = f"{row.file}, game {fields['game']}, line {fields['line']}"
    dead = fields["dead_from"]
    said = [
        ", ".join(filter(None, (tags.get("Event"), tags.get("Site"), tags.get("Date"), tags.get("Termination")))),
        f"Recorded {fields['recorded']}, by Article {fields['article']} it is {fields['result']}: {_ARTICLES.get(fields['article'], '')}.",
        _dead(dead) if dead else "",
        *(_side(side.capitalize(), fields[side]) for side in ("white", "black") if fields[side]["verdict"] != "skipped"),
        fields["fen"],
        place,
    ]
    lines = "".join(f"<p>{escape(line)}</p>" for line in said if line)
    return f"<article>{svg(fields['fen'], 200)}<div><h3>{escape(players)}</h3>{lines}</div></article>\n"


def _numbers(counts: "Counts[str]") -> str:
    told = [(name, counts[key]) for key, name in _COUNTED.items()]
    told += [(f"– by Article {article}: {why}", counts[article]) for article, why in _ARTICLES.items() if counts[article]]
    cells = "".join(f'<tr><th scope="row">{escape(name)}</th><td class="number">{count:,}</td></tr>' for name, count in told)
    return f"<table>{cells}</table>"


class Page:
    """The page, as an output. What it has on games grows in a file beside it, until all are judged."""

    def __init__(self, path: str, mark: Optional[int] = None) -> None:
        self._path = path
        self._games = File(path + ".part", mark)
        self._shown = 0
        if mark:
            with open(path + ".part", encoding="utf-8") as file:
                self._shown = sum(line.startswith("<article>") for line in file)
        self.mark, self.close = self._games.mark, self._games.close

    def add(self, part: Part) -> None:
        fresh = part.rows("changed")[: MOST_SHOWN - self._shown]
        self._shown += len(fresh)
        self._games.write("".join(map(_game, fresh)).encode())

    def finish(self, files: Sequence[str], counts: "Counts[str]") -> None:
        with open(self._path + ".part", encoding="utf-8") as file:
            games = file.read()
        more = f"<p>The first {MOST_SHOWN:,} of {counts['changed']:,}.</p>" if counts["changed"] > self._shown else ""
        names = escape(", ".join(files))
        text = (
            f'<!doctype html>\n<html lang="en"><head><meta charset="utf-8"><meta name="viewport" content="width=device-width">'
            f"<title>{names}: results by the Laws of Chess</title><style>{_STYLE}</style></head><body>\n"
            f"<h1>Results by the Laws of Chess</h1>"
            f"<p>{names}</p>{_numbers(counts)}\n<h2>Games whose result changes</h2>{more}\n{games}</body></html>\n"
        )
        try:
            with open(self._path + ".new", "w", encoding="utf-8") as file:
                file.write(text)
            os.replace(self._path + ".new", self._path)
        except OSError as fault:
            raise OutputError(f"{self._path}: {fault.strerror}") from fault

    def tidy(self) -> None:
        os.remove(self._path + ".part")
