"""A database as a table of pandas."""

from typing import TYPE_CHECKING, Optional

if TYPE_CHECKING:
    import pandas

    from cha.db import Files


def frame(files: "Files", only: Optional[str] = None, budget: Optional[int] = None, depth: Optional[int] = None) -> "pandas.DataFrame":
    """Returns a table of pandas with a row for each game of the files, or for those of one kind (`changed`, `dead`, `undecided`,
    `unreadable`).

    `cha.db.rows.COLUMNS` names its columns. All rows have to fit into memory. Raises the errors of `cha.db.judge`.
    """
    try:
        import pandas
    except ImportError:
        raise ImportError("a table needs the package pandas: pip install pandas") from None

    from cha.db import judge
    from cha.db.rows import COLUMNS, cells

    return pandas.DataFrame([cells(row) for row in judge(files, only, budget, depth)], columns=COLUMNS)
