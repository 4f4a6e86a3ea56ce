"""A case whose loading keeps no history (`history` 0 in `setup.csv`): that what needs one says so, what would let the
case keep one, and a copy that keeps one where it may.

The history of a loading are the counts of each destination at every boundary of every link. A session, `curves` and
`check` need them; where they are not kept a case may be far larger.
"""
from __future__ import annotations

import os
from dataclasses import replace

from ..errors import Fault
from ..formats import (
    MOST_CELLS,
    MOST_CELLS_ASKED,
    MOST_DESTINATIONS_ASKED,
    MOST_FILE_BYTES,
    MOST_LINKS_ASKED,
    MOST_ROWS_ASKED,
    count_text,
    counted,
)
from .cells import asked_for
from .fields import fetch
from .reading import read_case, read_setup
from .routes import split_rows
from .rows import Rows
from .writing import demand_bytes, split_bytes

NO_HISTORY = 14  # the status of a run whose word needs a history
NO_HISTORY_LINE = "no history"
LINK, DESTINATION, ROW, CELL, BYTE = "link", "destination", "row", "cell", "byte"


class NoHistory(Fault):
    """What was asked for needs the history of a loading, and the case keeps none."""


def _over(case: Rows, rows: int) -> dict[str, str]:
    """By what a case has too much of, how much it has and may have, where it is to keep a history and has so many
    rows."""
    sizes = (
        (LINK, len(case.links), MOST_LINKS_ASKED),
        (DESTINATION, len(case.destinations), MOST_DESTINATIONS_ASKED),
        (ROW, rows, MOST_ROWS_ASKED),
        (CELL, case.cells(), MOST_CELLS_ASKED),
    )
    return {what: f"{counted(size, what)} (at most {count_text(most)})" for what, size, most in sizes if size > most}


def too_large(case: Rows, rows: int | None = None) -> list[str]:
    """In what a case is larger than one with a history may be: `1,117 destinations (at most 256)`; nothing where it
    could have one. It has or will have so many rows, and without a number those that stand."""
    return list(_over(case, _standing_rows(case) if rows is None else rows).values())


def is_city(case: Rows, rows: int) -> bool:
    """Whether a case of so many rows has more links, destinations or rows than one with a history may have, whatever
    its slots are."""
    return bool(_over(case, rows).keys() - {CELL})


def _standing_rows(case: Rows) -> int:
    """The rows of demand or of splits that stand, whichever are more."""
    return max(len(case.standing_demand()), split_rows(case))


def _keeps_off(case: Rows) -> dict[str, str]:
    """The same of a case as it stands, whose files may not be longer either."""
    over = _over(case, _standing_rows(case))
    for file, size in () if over else (("demand", demand_bytes(case)), ("splits", split_bytes(case))):
        if size > MOST_FILE_BYTES:
            over[BYTE] = f"{counted(size, BYTE)} of {file}.csv (at most {count_text(MOST_FILE_BYTES)})"
    return over


def to_have_one(case: Rows) -> str:
    """What lets a case have a history, as a sentence."""
    over = _keeps_off(case)
    if over:
        return f"It is too large to keep one, with {' and '.join(over.values())}: {_advice(over)}"
    asked = ""
    if case.cells() > case.setup.most_cells:
        column = f"{asked_for(case.cells())} in its column cells"
        asked = f", and ask for {column}" if case.setup.cells is None else f", and write {column}"
    return f"It is small enough to keep one: remove the column history from setup.csv{asked}"


def _advice(over: dict[str, str]) -> str:
    """What to do about a case that has too much of these."""
    ways = []
    if over.keys() & {DESTINATION, ROW, CELL, BYTE}:
        ways.append("gather zones into fewer")
    if over.keys() & {ROW, BYTE}:
        ways.append("let demand and turning fractions stay the same for longer")
    if CELL in over:
        ways.append("take a longer step or a shorter horizon")
    return ", or ".join([*ways, "import a smaller area"])


def check_history(case: Rows, folder: str | os.PathLike[str], what: str) -> None:
    """NoHistory, with what would help, where a case keeps none and this needs one."""
    if not case.setup.history:
        raise NoHistory(
            f"{os.fspath(folder)} keeps no history of its loading (history is 0 in setup.csv), and {what} needs one."
            f" {to_have_one(case)}"
        )


def check_history_of(folder: str | os.PathLike[str], what: str) -> None:
    """The same for a folder; nothing where its files are wrong, which the program tells."""
    try:
        if read_setup(fetch(folder, "setup")).history:
            return
        case = read_case(folder, routes=False)
    except Fault:
        return
    check_history(case, folder, what)


def keeping_one(case: Rows) -> Rows | None:
    """The case with a history, of the same loading; None where it is too large for one."""
    if _keeps_off(case):
        return None
    setup, made = case.setup, replace(case)

    def within(asked: int | None, most: int) -> int | None:
        return None if asked is None else min(asked, most)

    made.setup = replace(
        setup,
        history=True,
        cells=asked_for(case.cells()) if case.cells() > MOST_CELLS else None,
        rows=within(setup.rows, MOST_ROWS_ASKED),
        links=within(setup.links, MOST_LINKS_ASKED),
        destinations=within(setup.destinations, MOST_DESTINATIONS_ASKED),
    )
    return made
