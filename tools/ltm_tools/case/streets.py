"""The names of streets: the file `street_names.csv` beside a case, which the program does not read.

Its header is `link,street`: a row for each link of the case, or link of its source that was cut before a crossing, that
has a name. Other columns are passed over.
"""
from __future__ import annotations

import os
from collections.abc import Mapping, Sequence

from ..files import read_table, write_text
from ..formats import record_text
from ..listing import Cell
from ..replacing import take_away

FILE = "street_names.csv"
COLUMN = "street"
BETWEEN = " / "
"""Between the names of a link that is several streets."""


def read_streets(folder: str | os.PathLike[str]) -> dict[str, str]:
    """The names of streets by link, as a folder has them; none where it has no such file."""
    path = os.path.join(folder, FILE)
    if not os.path.exists(path):
        return {}
    return {row.text("link"): row.text(COLUMN, "") for row in read_table(path, ("link", COLUMN))}


def write_streets(folder: str | os.PathLike[str], streets: Mapping[str, str]) -> None:
    """Writes the file; without names it is taken away."""
    path = os.path.join(folder, FILE)
    if streets:
        rows = (record_text((link, " ".join(street.split()))) for link, street in streets.items())
        write_text(path, "".join(f"{row}\n" for row in (f"link,{COLUMN}", *rows)))
    else:
        take_away(path)


def street_and_id(link: str, streets: Mapping[str, str]) -> str:
    """A link as people know it, by its street with the id behind it, or else by the id alone."""
    return f"{streets[link]} ({link})" if streets.get(link) else link


def with_streets(
    header: Sequence[str], rows: Sequence[Sequence[Cell]], column: str, streets: Mapping[str, str]
) -> tuple[list[str], list[list[Cell]]]:
    """A table for programs with the street of the link in a column as its last column; the table as it is where no
    street has a name."""
    if not streets:
        return list(header), [list(row) for row in rows]
    place = list(header).index(column)
    return [*header, COLUMN], [[*row, streets.get(str(row[place]), "")] for row in rows]
