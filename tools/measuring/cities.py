"""A city of the size of Winnipeg's network: how long an assignment takes by the clock, and how much memory."""
from __future__ import annotations

import sys

from ltm_tools.case import Case
from ltm_tools.formats import UNITS
from ltm_tools.program import CLONE

from .room import TOOLS, Room
from .runs import cost_of, watched
from .tables import Table, figure

MAKE = CLONE / "examples" / "assign" / "make.py"
CITY = "large"
PROCESSES = 4


def city(room: Room) -> Table:
    """An assignment of a made city with several processes; its lines are shown as they come."""
    case, assigned = room.folder / CITY, room.folder / f"{CITY}_assigned"
    made = cost_of([sys.executable, MAKE, CITY, case])
    read = Case.read(case)
    vehicles = sum(row.units for row in read.demand) // UNITS
    options = ("--iterations", str(room.iterations), "--processes", str(PROCESSES), "--program", room.program)
    run = watched([sys.executable, TOOLS, "assign", case, "-o", assigned, *options])
    gaps = gaps_of(run.output.decode())
    table = Table(
        ("links, destinations, slots", "vehicles", "making it", "iterations", "by the clock", "processor time",
         "most memory"),
        remarks=["Relative gap by iteration, in per cent: " + ", ".join(gaps) + ".",
                 f"With {PROCESSES} processes; the memory is that of all of them and the program together."],
    )  # fmt: skip
    sizes = f"{len(read.links):,}, {len(read.destinations)}, {read.setup.slots}"
    costs = (f"{figure(run.clock)} s", f"{figure(run.seconds)} s", f"{run.memory:,.0f} MB")
    table.rows = [(sizes, f"{vehicles:,}", f"{figure(made.seconds)} s", str(room.iterations), *costs)]
    return table


def gaps_of(text: str) -> list[str]:
    """The relative gap of each iteration, from what `assign` prints; in brackets where only a part of the demand was
    loaded."""
    rows = [line.split() for line in text.splitlines() if line.strip()[:1].isdigit() and line.split()[3:4] == ["%"]]
    return [f"({row[2]})" if row[-1] == "demand" else row[2] for row in rows]
