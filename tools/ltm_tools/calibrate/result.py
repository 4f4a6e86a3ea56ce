"""What a calibration leaves: a case with the demand that was found, its fit, its unknowns and its iterations."""
from __future__ import annotations

import os
from collections.abc import Sequence

from ..case import Case
from ..case.beside import BESIDE
from ..counting.result import FIELDS as FIT_FIELDS, cells
from ..counting.validating import Met, MetTime, Validation
from ..files import read_bytes, write_bytes, write_text
from ..formats import clock_text
from ..listing import Cell, csv_text, rounded, seconds, vehicles
from .capacities import WHOLE
from .search import Iteration, Search, Target, Trial
from .spread import Spread

FIT_FILE, DEMAND_FILE, ITERATIONS_FILE = "fit.csv", "demand_fit.csv", "iterations.csv"
CAPACITIES_FILE, CAPACITY_FIELDS = "capacities_fit.csv", ("group", "links", "factor", "known")
DEMAND_FIELDS = ("origin", "destination", "from", "to", "prior", "found", "known")
ITERATION_FIELDS = ("iteration", "loadings", "sum", "of_counts", "queued", "spent", "late", "step", "slopes")


def found_case(search: Search, point: Trial) -> Case:
    """The case with the demand of a point; the rest as it was."""
    made = Case.of(search.prior.case)
    made.demand = search.prior.demand(search.prior.of_rows(search.effects.amounts(point.effects)))
    made.setup = search.case.setup
    if search.capacities is not None:
        made.signals = search.capacities.rows(search.factors(point.effects))
    return made


def capacity_rows(search: Search, point: Trial, spread: Spread | None) -> list[list[Cell]]:
    """A row for each group of stop lines: its name, its links, the factor that was found, and how well it is known."""
    assert search.capacities is not None
    return [
        [
            group.name,
            " ".join(line.link for line in group.lines),
            rounded(factor, WHOLE, 3),
            None if spread is None else rounded(round(float(spread.capacities_known[place]) * 1_000_000), 1_000_000, 3),
        ]
        for place, (group, factor) in enumerate(zip(search.capacities.groups, search.factors(point.effects)))
    ]


def validation(target: Target, point: Trial) -> Validation:
    """The fit of a loading to all counts and times."""
    met = tuple(Met(count, units) for count, units in zip(target.counts, point.loaded.counts))
    times = tuple(MetTime(one, took) for one, took in zip(target.measured, point.loaded.times))
    return Validation(met, times)


def unknown_rows(search: Search, point: Trial, spread: Spread | None, start: int) -> list[list[Cell]]:
    """A row for each unknown: its slice in clock times, vehicles of the prior and found, and how well it is known."""
    units = search.prior.of_rows(search.effects.amounts(point.effects))
    step = search.prior.case.setup.step_ms
    found = [0] * len(search.prior.unknowns)
    for place, count in zip(search.prior.of.tolist(), units.tolist()):
        found[place] += count
    return [
        [
            one.origin,
            one.destination,
            clock_text(start + min(row.from_slot for row in one.rows) * step),
            clock_text(start + max(row.to_slot for row in one.rows) * step),
            vehicles(one.units),
            vehicles(count),
            None if spread is None else rounded(round(float(spread.known[place]) * 1_000_000), 1_000_000, 3),
        ]
        for place, (one, count) in enumerate(zip(search.prior.unknowns, found))
    ]


def iteration_row(one: Iteration) -> list[Cell]:
    """An iteration: times in vehicle seconds."""
    hours = one.best.loaded.hours
    return [
        one.number,
        one.loadings,
        rounded(round(one.best.value * 1000), 1000, 3),
        rounded(round(one.best.of_counts * 1000), 1000, 3),
        seconds(hours.queued),
        seconds(hours.spent),
        vehicles(hours.late),
        rounded(round(one.size * 1000), 1000, 3),
        one.way,
    ]


def write_result(
    folder: str | os.PathLike[str],
    to: str | os.PathLike[str],
    search: Search,
    point: Trial,
    done: Sequence[Iteration],
    spread: Spread | None,
    start: int,
) -> None:
    """Writes the case that was found, with what lies beside the prior, and the three tables."""
    beside = {name: read_bytes(path) for name in BESIDE if os.path.exists(path := os.path.join(folder, name))}
    found_case(search, point).write(to)
    for name, data in beside.items():
        write_bytes(os.path.join(to, name), data)
    rows = [cells(met, start) for met in validation(search.target, point).met]
    write_text(os.path.join(to, FIT_FILE), csv_text(FIT_FIELDS, rows))
    unknowns = unknown_rows(search, point, spread, start)
    write_text(os.path.join(to, DEMAND_FILE), csv_text(DEMAND_FIELDS, unknowns))
    if search.capacities is not None:
        found = capacity_rows(search, point, spread)
        write_text(os.path.join(to, CAPACITIES_FILE), csv_text(CAPACITY_FIELDS, found))
    write_text(os.path.join(to, ITERATIONS_FILE), csv_text(ITERATION_FIELDS, [iteration_row(one) for one in done]))
