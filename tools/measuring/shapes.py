"""Networks of the sizes of public test networks: what an import, `load`, `delay`, `gap` and an iteration of `assign`
take of each by commands alone, and why those are refused that are too large."""
from __future__ import annotations

import importlib.machinery
import importlib.util
import json
import multiprocessing
import os
import sys
from collections.abc import Callable, Sequence
from pathlib import Path
from types import ModuleType
from typing import NamedTuple

from ltm_tools.case import Case
from ltm_tools.errors import Fault
from ltm_tools.program import CLONE
from ltm_tools.replacing import replace

from .page import commit, described, machine
from .room import TOOLS, Room
from .runs import MEGABYTE, Limits, PassesLimit, cost_of
from .tables import DASH, Table, clock_text, figure, memory_text

MAKE = CLONE / "examples" / "from_tntp" / "shapes.py"
FIT = ("--fit", "10s", "--length-unit", "km", "--time-unit", "min", "--routes", "1")
WORDS = (*FIT, "--period", "60", "--horizon", "120")
REPORTS = ("load", "delay", "gap")
RUNS = ("import", *REPORTS, "assign")
LIMITS = Limits(clock=900, memory=12 * MEGABYTE)


class Told(NamedTuple):
    """What is told of a run: its cell in the table of times by the clock, its cell in that of processor time, and the
    reason where there is none."""

    clock: str
    processor: str = DASH
    reason: str = ""


class Row(NamedTuple):
    """What is told of a shape: links, destinations and slots of its case, whether this keeps a history, and its
    runs."""

    sizes: str
    history: str
    runs: list[Told]


class Records:
    """What was told of runs, in a file of the room's folder, which is written as soon as each has ended. It is taken
    from there where the same commit and program was measured on this machine, so that a measurement that was cut off
    goes on where it was."""

    def __init__(self, room: Room) -> None:
        self.path = room.folder / "shapes.json"
        self.of = f"{machine()}; {commit()}, {described(room.program)}"
        self.told: dict[str, list[str]] = {}
        if self.path.exists():
            found = json.loads(self.path.read_text(encoding="utf-8"))
            self.told = found["told"] if found["of"] == self.of else {}

    def of_run(self, name: str, run: Callable[[], Sequence[str]]) -> list[str]:
        """What is told of a run that is called so."""
        if name not in self.told:
            self.told[name] = list(run())
            replace(self.path, json.dumps({"of": self.of, "told": self.told}, indent=1).encode())
        return self.told[name]


def made_by() -> ModuleType:
    """The script that makes the shapes."""
    loader = importlib.machinery.SourceFileLoader("shapes", str(MAKE))
    spec = importlib.util.spec_from_loader("shapes", loader)
    assert spec is not None, "it has a loader"
    module = importlib.util.module_from_spec(spec)
    sys.modules["shapes"] = module
    loader.exec_module(module)
    return module


def shapes(room: Room) -> Table:
    """All shapes, or those that are asked for."""
    known = made_by().SHAPES
    for name in room.shapes:
        if name not in known:
            raise Fault(f"{name} is no shape: {', '.join(known)} are")
    return table_of(room, room.shapes or tuple(known))


def table_of(room: Room, names: Sequence[str]) -> Table:
    """A row for each of these shapes, with times by the clock; below it their processor times, and the reason where a
    run did not end well."""
    heads = ("import", *(f"`{word}`" for word in REPORTS), "`assign`, one iteration")
    table = Table(("shape", "zones / nodes / links", "links / destinations / slots of the case", "history", *heads))
    processor, reasons = Table(("shape", *heads)), []
    records, known = Records(room), made_by().SHAPES
    for name in names:
        shape = known[name]
        row = row_of(room, records, name)
        size = f"{shape.zones:,} / {shape.nodes:,} / {shape.links:,}"
        table.rows.append((name, size, row.sizes, row.history, *(run.clock for run in row.runs)))
        processor.rows.append((name, *(run.processor for run in row.runs)))
        reasons += [f"{name}, {word}: {run.reason}." for word, run in zip(RUNS, row.runs) if run.reason]
    table.remarks = [
        "Of each run the seconds by the clock, and the most memory that it held with all that it started. A run is"
        f" ended after {LIMITS.clock:,.0f} s, or if it holds more than {LIMITS.memory / MEGABYTE:g} GB. The same runs"
        " in seconds of processor time:",
        processor.text(),
        *reasons,
    ]
    return table


def row_of(room: Room, records: Records, name: str) -> Row:
    """The row of a shape; dashes stand behind an import that did not end well."""
    case = room.folder / name
    words = commands(room, name)

    def told(word: str) -> Told:
        print(name, word, file=sys.stderr, flush=True)
        return Told(*records.of_run(f"{name} {word}", lambda: run_told(room, words[word], case)))

    runs = [told("import")]
    if runs[0].processor == DASH:
        return Row(DASH, DASH, runs + [Told(DASH)] * len(RUNS[1:]))
    sizes, history = records.of_run(f"{name} sizes", lambda: apart(sizes_of, case))
    return Row(sizes, history, runs + [told(word) for word in RUNS[1:]])


def commands(room: Room, name: str) -> dict[str, list[str | Path]]:
    """The commands of a shape by what they are called."""
    case = room.folder / name
    files = [room.folder / f"{name}_{kind}.tntp" for kind in ("net", "trips")]
    options = ("--iterations", "1", "--processes", str(os.cpu_count()), "--program", room.program)
    return {
        "import": [sys.executable, TOOLS, "from-tntp", *files, case, *WORDS],
        **{word: [room.program, word] for word in REPORTS},
        "assign": [sys.executable, TOOLS, "assign", case, "-o", room.folder / f"{name}_assigned", *options],
    }


def run_told(room: Room, words: Sequence[str | Path], case: Path) -> Told:
    """Runs a command of a shape, the program in the folder of its case, and tells what it cost."""
    try:
        if "from-tntp" in words:
            cost_of([sys.executable, MAKE, case.name, room.folder])
        cost = cost_of(words, case if words[0] == room.program else None, limits=LIMITS)
    except PassesLimit as passes:
        return Told(str(passes))
    except Fault as fault:
        return Told(DASH, reason=str(fault).removeprefix(f"{words[0]} ").replace(str(room.folder), "."))
    return Told(f"{clock_text(cost.clock)}, {memory_text(cost.memory)}", figure(cost.seconds))


def apart(told: Callable[[Path], tuple[str, str]], case: Path) -> tuple[str, str]:
    """What is told of a case by a process of its own, so that this one does not hold a city while runs are measured."""
    with multiprocessing.get_context("fork").Pool(1) as pool:
        return pool.apply(told, (case,))


def sizes_of(case: Path) -> tuple[str, str]:
    """Links, destinations and slots of a case, and whether it keeps a history. Its routes may be millions of rows and
    are not made for that."""
    read = Case.read(case, routes=False)
    sizes = f"{len(read.links):,} / {len(read.destinations):,} / {read.setup.slots:,}"
    return sizes, "kept" if read.setup.history else "none"
