"""The program alone: beside a plain engine, and on cases that grow."""
from __future__ import annotations

import re
from pathlib import Path

from ltm_tools.errors import Fault

from .made import Made, closures
from .room import Room
from .runs import Cost, cost_of, in_turn
from .tables import DASH, Table, amount, figure, ratio

# cases, with how many closures in which last part of the horizon
BESIDE = (
    (Made("corridor", 1, 1001, 1, 2000, 3000), 120, 1.0),
    (Made("corridor at its end", 1, 1001, 1, 2000, 3000), 20_000, 0.01),
    (Made("small grid", 20, 20, 4, 360), 40, 1.0),
    (Made("grid", 30, 30, 8, 140), 40, 1.0),
    (Made("grid, many destinations", 10, 10, 64, 180), 40, 1.0),
)
SIZES = (
    Made("grid", 23, 23, 8, 270),
    Made("grid", 23, 23, 8, 2940, 4),
    Made("grid", 23, 23, 8, 8280, 8),
    Made("grid", 63, 64, 16, 720),
    Made("grid", 27, 27, 147, 720),
)
MOST_OF = 2.6  # bytes that a session takes at most for a cell of these
TIMES = 5
LOAD, SESSION = ("load",), ("session", "0")


def recomputed(cost: Cost) -> int:
    """How many pairs of node and slot the settles of a session computed anew."""
    return sum(int(count) for count in re.findall(rb"recomputed (\d+)", cost.output))


def same(costs: list[Cost], what: str) -> None:
    """A Fault where programs answer otherwise."""
    if any(cost.output != costs[0].output for cost in costs):
        raise Fault(f"{what}: the plain engine answers otherwise")


def beside_plain(room: Room) -> Table:
    """Loads and edits, beside a plain engine where its program is given."""
    programs = [room.program, *([room.plain] if room.plain else [])]
    table = Table(
        ("case", "links, destinations, slots", "what", "ltm", "plain engine", "ratio"),
        remarks=["Milliseconds of processor time. An edit closes one link for five slots and settles."],
    )
    for made, edits, part in BESIDE:
        folder = room.folder / re.sub(r"\W+", "_", made.name)
        case = made.write(folder)
        pairs = closures(case, folder / "script.jsonl", edits, part)
        size = f"{len(case.links):,}, {made.destinations}, {made.slots:,}"
        loads = in_turn([[program, *LOAD] for program in programs], folder, None, TIMES)
        same(loads, f"load of {made.name}")
        opened = in_turn([[program, *SESSION] for program in programs], folder, None, TIMES)
        edited = in_turn([[program, *SESSION] for program in programs], folder, folder / "script.jsonl", TIMES)
        same(edited, f"session of {made.name}")
        each = [(all_.milliseconds - none.milliseconds) / edits for all_, none in zip(edited, opened)]
        table.rows += [
            row((made.name, size, "a load"), [cost.milliseconds for cost in loads]),
            row(("", "", "a session opened"), [cost.milliseconds for cost in opened]),
            row(("", "", f"an edit; {recomputed(edited[0]) // edits:,} of {pairs:,} pairs"), each),
        ]
    return table


def row(heads: tuple[str, ...], values: list[float]) -> list[str]:
    """A row with our value, that of the plain engine, and their ratio."""
    if len(values) == 1:
        return [*heads, figure(values[0]), DASH, DASH]
    return [*heads, figure(values[0]), figure(values[1]), ratio(values[0], values[1])]


def sizes(room: Room) -> Table:
    """Loads and sessions of cases that grow."""
    table = Table(
        ("links, destinations, slots", "cells", "`load`", "a session opened, and one edit", "the edit"),
        remarks=["Seconds of processor time, and the most memory; the last column is the edit alone."],
    )
    for number, made in enumerate(SIZES):
        cells = made.case().cells()
        head = [f"{len(made.links()):,}, {made.destinations}, {made.slots:,}", amount(cells)]
        if cells * MOST_OF / 1e6 > room.memory:
            table.rows.append([*head, "not measured: memory", DASH, DASH])
            continue
        folder = room.folder / f"size{number}"
        table.rows.append([*head, *costs_of(room, made, folder)])
    return table


def costs_of(room: Room, made: Made, folder: Path) -> list[str]:
    """The columns of a case: its load, its session with an edit, and the edit."""
    closures(made.write(folder), folder / "script.jsonl", 1)
    load = cost_of([room.program, *LOAD], folder)
    opened = cost_of([room.program, *SESSION], folder)
    edited = cost_of([room.program, *SESSION], folder, folder / "script.jsonl")
    alone = max(edited.seconds - opened.seconds, 0.0)
    return [
        f"{figure(load.seconds)} s, {load.memory:,.0f} MB",
        f"{figure(edited.seconds)} s, {edited.memory:,.0f} MB",
        f"{figure(alone)} s, {recomputed(edited):,} pairs",
    ]
