"""What an assignment leaves: a case with its shares, and the iterations that led there."""
from __future__ import annotations

import os
from collections.abc import Sequence

from ..case import Case, Split
from ..case.beside import BESIDE
from ..errors import Fault
from ..files import read_bytes, read_table, write_bytes, write_text
from ..formats import count_text, vehicles_text
from ..listing import csv_text
from ..loading.answers import totals_of
from ..loading.delay import MILLIONTHS, seconds_text
from ..loading.loaded import made
from ..program import output
from .assigning import Iteration
from .rounds import Rounds

ITERATIONS_FILE = "iterations.csv"
FIELDS = ("iteration", "round", "demand", "spent", "gap", "exact_gap", "regret", "not_there", "step")
MOST_LATE = 3  # destinations that are named
LATE = "vehicles have not arrived by the end of the horizon"
LONGER = "take a longer horizon, so that all of their travel time counts"


def splits_from(folder: str | os.PathLike[str], case: Case) -> list[Split]:
    """The split rows of another case, as far as this one has their nodes, links and destinations."""
    other = Case.read(folder, splits=True)
    tails = {link.name: link.tail for link in case.links}
    ends = set(case.destinations)
    found = [
        row
        for row in other.standing_splits()
        if row.destination in ends and all(tails.get(name) == row.node for name in row.weights)
    ]
    if not found:
        raise Fault(f"{os.fspath(folder)}: no split row there is of a node and a destination of this case")
    return found


def write_result(
    folder: str | os.PathLike[str], to: str | os.PathLike[str], rounds: Rounds, done: Sequence[Iteration]
) -> None:
    """Writes the case with the best shares of the last round into a folder, with the iterations, and with what lies
    beside the case that it was made of, as the places of its nodes."""
    beside = {name: read_bytes(path) for name in BESIDE if os.path.exists(path := os.path.join(folder, name))}
    rounds.assignment.best_case().write(to)
    for name, data in beside.items():
        write_bytes(os.path.join(to, name), data)
    if rounds.counted is not None:
        rounds.counted.write(to)
    write_text(os.path.join(to, ITERATIONS_FILE), csv_text(FIELDS, [row_of(one) for one in done]))


def row_of(one: Iteration) -> list[str]:
    """An iteration as it is written: times in vehicle seconds, gaps and the demand in per cent."""
    return [
        str(one.number),
        str(one.round),
        str(one.demand),
        seconds_text(one.look.spent),
        f"{one.look.per_cent:.6f}",
        "" if one.exact is None else f"{one.exact:.6f}",
        seconds_text(round(one.look.regret)),
        vehicles_text(one.look.not_there),
        f"{one.size:.6f}",
    ]


def read_iterations(folder: str | os.PathLike[str]) -> tuple[list[int], list[float]]:
    """Of each iteration with all of the demand that led to an assigned case the vehicle time, in thousandths of a
    vehicle times ms, and the relative gap in per cent."""
    path = os.path.join(folder, ITERATIONS_FILE)
    if not os.path.exists(path):
        raise Fault(f"{path} is not there: `ltm-tools assign` writes it")
    rows = [row for row in read_table(path, ("demand", "spent", "gap")) if row.number("demand") == 100]
    return [int(row.number("spent") * MILLIONTHS) for row in rows], [float(row.number("gap")) for row in rows]


def late_line(folder: str, program: str | None) -> str:
    """The vehicles that have not arrived by the end of the horizon, by the destinations that most of them are
    for, which are not known where no history is kept."""
    case = Case.read(folder)
    if not case.setup.history:
        totals = totals_of(output(folder, "load", program=program).split(b"\n", 1)[0].decode().split())
        return f"{vehicles_text(totals.on_links + totals.waiting)} {LATE}; {LONGER}"
    curves = made(folder, program, case.setup.step_ms, case.setup.slots + 1)
    late = {name: -int(curves.arrived(name)[-1]) for name in case.destinations}
    for row in case.standing_demand():
        late[row.destination] += row.units
    worst = sorted((units, name) for name, units in late.items() if units)[::-1]
    named = ", ".join(f"{vehicles_text(units)} for {name}" for units, name in worst[:MOST_LATE])
    more = f", and more for {count_text(len(worst) - MOST_LATE)} others" if len(worst) > MOST_LATE else ""
    return f"{vehicles_text(sum(late.values()))} {LATE}: {named}{more}; {LONGER}"
