"""How many games there are of what."""

import re
from collections import Counter
from typing import Counter as Counts

from cha.db.joining import Judged
from cha.db.rows import KINDS

_ARTICLE = re.compile(rb'"changed":true,"article":"([0-9.]+)"')


def counted(judged: Judged) -> "Counts[str]":
    """Returns what the summary counts, dead games, and under the name of an Article the games whose result it changes."""
    counts: "Counts[str]" = Counter({name: judged.summary[name] for name in ("games", "unreadable", "changed", "undecided")})
    counts["dead"] = judged.games.count(KINDS["dead"])
    counts.update(article.decode() for article in _ARTICLE.findall(judged.games))
    return counts


def said(counts: "Counts[str]") -> str:
    """Returns the counts as a summary has them.

    >>> said(Counter({"games": 2, "changed": 1}))
    'games: 2, unreadable: 0, changed: 1, undecided: 0'
    """
    return ", ".join(f"{name}: {counts[name]}" for name in ("games", "unreadable", "changed", "undecided"))
