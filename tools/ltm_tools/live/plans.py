"""The signal plans that stand in a case with turns: of each turn its greens in the cycle, as `turns.csv` has them."""
from __future__ import annotations

import os
import re
from collections.abc import Iterator, Mapping
from fractions import Fraction

from ..case.beside import TURNS_FILE
from ..files import Row, read_table

GREEN = re.compile(r"([0-9]+)-([0-9]+)(?:\*([0-9]+(?:/[0-9]+)?))?")
COLUMNS = ("link", "cycle", "offset", "greens", "permitted", "factors")
Plan = dict[str, object]


def plans_of(folder: str | os.PathLike[str], links: Mapping[str, object]) -> dict[str, Plan]:
    """The plans of the links of a case, in whole seconds: `cycle`, `offset` and `greens`, each from a second up to
    another with the percentage that passes. Plans with parts of seconds are left out."""
    path = os.path.join(folder, TURNS_FILE)
    if not os.path.exists(path):
        return {}
    found = {}
    for row in read_table(path, COLUMNS):
        plan = plan_of(row) if row.text("link") in links else None
        if plan is not None:
            found[row.text("link")] = plan
    return found


def plan_of(row: Row) -> Plan | None:
    """The plan of a turn; None where it has none in whole seconds."""
    cycle, offset = row.text("cycle", ""), row.text("offset", "")
    if not (cycle.isdecimal() and offset.isdecimal()):
        return None
    factors = [float(text) for text in row.text("factors", "").split()]
    permitted = sum(factors) / len(factors) if factors else 1.0
    greens = [*spans_in(row.text("greens", ""), 1.0), *spans_in(row.text("permitted", ""), permitted)]
    if not greens or None in greens:
        return None
    return {"cycle": int(cycle), "offset": int(offset), "greens": sorted(span for span in greens if span)}


def spans_in(text: str, factor: float) -> Iterator[tuple[int, int, int] | None]:
    """The greens of a text, as `0-42 50-60*1/2`; None for one that is not in whole seconds."""
    for word in text.split():
        told = GREEN.fullmatch(word)
        if told is None:
            yield None
        else:
            part = float(Fraction(told[3] or 1)) * factor
            yield int(told[1]), int(told[2]), max(1, min(100, round(100 * part)))
