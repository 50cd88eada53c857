"""How far a run has come, kept in a small file, by which another run goes on."""

import json
import os
from collections import Counter
from dataclasses import dataclass, field
from typing import Any, Counter as Counts, Dict, List, Optional

from cha.db.joining import Place
from cha.db.tables import OutputError


class OrderError(Exception):
    """What is ordered cannot be done."""

    status = 1


@dataclass
class State:
    """How far a run has come: the number of the file, from 0, the place in it, what was counted in all files, how many games of this one
    could be read, and the marks of the outputs."""

    file: int = 0
    at: Place = Place()
    counts: "Counts[str]" = field(default_factory=Counter)
    readable: int = 0
    marks: List[int] = field(default_factory=list)


def save(path: str, order: Dict[str, Any], state: State) -> None:
    """Writes a state: the file has this one or the one before, whatever happens. `OutputError` where it cannot be written."""
    text = json.dumps({"order": order, "state": dict(vars(state), at=vars(state.at))})
    try:
        with open(path + ".new", "w", encoding="utf-8") as file:
            file.write(text)
            file.flush()
            os.fsync(file.fileno())
        os.replace(path + ".new", path)
    except OSError as fault:
        raise OutputError(f"{path}: {fault.strerror}") from fault


def load(path: str, order: Dict[str, Any]) -> Optional[State]:
    """Reads the state of a run that was ordered alike, if there is one. `OrderError` where it was ordered otherwise."""
    try:
        with open(path, encoding="utf-8") as file:
            found = json.load(file)
    except FileNotFoundError:
        return None
    if found["order"] != order:
        raise OrderError(f"{path} tells of a run over other files or with other options: {found['order']}")
    kept = found["state"]
    return State(**dict(kept, at=Place(**kept["at"]), counts=Counter(kept["counts"])))


def remove(path: str) -> None:
    """Takes a state away: the run is over."""
    if os.path.exists(path):
        os.remove(path)
