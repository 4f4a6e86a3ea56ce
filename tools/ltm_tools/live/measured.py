"""What other commands have written beside a case, as colours of the map: the fit to counts by `validate`, and what
capacity is worth by `bottlenecks`."""
from __future__ import annotations

from pathlib import Path

from ..case import Case
from ..counting.result import misfits, read_fit, sums_by_link
from ..listing import rounded
from ..show.page import numbers_of, told_misfits
from ..worth.result import read_worths, savings
from .messages import Told

FIT, WORTH = "fit.csv", "worth.csv"


def told_beside(folder: str, case: Case) -> Told:
    """By the numbers of links by how many per cent more is loaded than was counted, how many vehicles were counted and
    loaded, and how much of the total travel time more capacity saves, in thousandths of a vehicle times ms; nothing
    where the files are not there."""
    return {**told_fit(Path(folder, FIT), case), **told_worths(Path(folder, WORTH), case)}


def told_fit(path: Path, case: Case) -> Told:
    """The fit to counts."""
    if not path.exists():
        return {"misfits": {}, "counts": {}}
    rows = read_fit(path)
    told = told_misfits(case, misfits(rows))
    sums = sums_by_link(rows)
    number = numbers_of(case, sums, "fit")
    counts = {
        number[link]: [float(rounded(one.numerator, one.denominator, 1)) for one in both] for link, both in sums.items()
    }
    return {"misfits": told, "counts": counts}


def told_worths(path: Path, case: Case) -> Told:
    """What more capacity saves."""
    if not path.exists():
        return {"worths": {}}
    found = savings(read_worths(path))
    number = numbers_of(case, found, "table of worths")
    return {"worths": {number[name]: saved for name, saved in found.items()}}
