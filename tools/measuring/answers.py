"""The live map's server, and files that tools and program read and write."""
from __future__ import annotations

import os
import resource
import statistics
import sys
import time
from pathlib import Path

from ltm_tools.case import Case
from ltm_tools.libraries import DEBIAN_PYTHON, debian_has
from ltm_tools.live.scenario import Scenario
from ltm_tools.program import CLONE

from .browsing import drawn, has_browser
from .made import CELLS, Made
from .room import WHOLE, Room
from .runs import cost_of
from .tables import DASH, Table, figure

TICKS = os.sysconf("SC_CLK_TCK")
CLOSED = 9
CURVES = Made("grid", 30, 30, 8, 140)
MILLION = 1e6
READS = """\
import sys
sys.path.insert(0, "{tools}")
sys.dont_write_bytecode = True
{before}from ltm_tools import Case, Curves
curves = Curves.of_case(".", "curves.csv")
for link in Case.read(".").links:
    curves.up(link.name), curves.down(link.name)
"""


def own() -> float:
    """The processor time of this process, in ms."""
    used = resource.getrusage(resource.RUSAGE_SELF)
    return (used.ru_utime + used.ru_stime) * 1000


def of_process(number: int) -> float:
    """The processor time of a process that runs, in ms, as exactly as the system counts it."""
    fields = Path(f"/proc/{number}/stat").read_text().rpartition(")")[2].split()
    return (int(fields[11]) + int(fields[12])) * 1000 / TICKS


def live(room: Room) -> Table:
    """The live map: its server, and a browser where one is installed."""
    table = Table(
        (
            "network",
            "opened: program",
            "server",
            "a road closed: program",
            "server",
            "to settled",
            "a step",
            "browser: first map",
            "map drawn",
            "painted",
            "totals and table",
        ),
        remarks=[
            f"Milliseconds; medians of {CLOSED} busy roads that are closed for a quarter of an hour each. The first "
            "four columns are processor time. The others are read from a clock, and depend on what else the machine "
            "does: from the request until the loading is settled with all delays and the map; a step of the slider; "
            "and in headless Chromium the first map of a page, and from a click until the map is drawn, painted, and "
            "totals and table are there."
        ],
    )
    for name in ("town", "region"):
        case, _ = room.made(name, *WHOLE)
        table.rows.append([name, *live_row(room, case)])
    return table


def live_row(room: Room, case: Path) -> list[str]:
    """The columns of a case."""
    begin = own()
    with Scenario(case, room.program) as scenario:
        number = scenario.session.process.pid
        opened = of_process(number), own() - begin
        while not scenario.ready:
            scenario.fill_base()
        at, wide = scenario.slots // 4, 900_000 // scenario.step
        delays = scenario.base_delays.links
        busy = sorted(delays, key=lambda link: -delays[link].spent)[:CLOSED]
        costs = [closing(scenario, number, link, at, wide) for link in busy]
        step = statistics.median(stepping(scenario))
    medians = [statistics.median(column) for column in zip(*costs)]
    shown = drawn(case, room.program, busy, at, wide) if has_browser() else []
    cells = [figure(value) for value in (*opened, *medians, step, *shown)]
    return cells + [DASH] * (4 - len(shown))


def stepping(scenario: Scenario) -> list[float]:
    """Milliseconds of the clock for steps of the slider."""
    times = []
    for boundary in range(0, scenario.slots, max(scenario.slots // 50, 1)):
        begin = time.perf_counter()
        scenario.frame(boundary)
        times.append((time.perf_counter() - begin) * 1000)
    return times


def closing(scenario: Scenario, number: int, link: str, at: int, wide: int) -> tuple[float, float, float]:
    """What a closed road costs: the program, the server, and the clock; it is opened again."""
    before = of_process(number), own(), time.perf_counter()
    entry = scenario.add("measure", {"kind": "close", "link": link, "from": at, "to": at + wide})
    scenario.settle()
    scenario.delays()
    scenario.frame(at)
    cost = of_process(number) - before[0], own() - before[1], (time.perf_counter() - before[2]) * 1000
    scenario.undo(entry.number)
    scenario.settle()
    return cost


def files(room: Room) -> Table:
    """Files that are long: curves, pages, edits of several editors."""
    folder = room.folder / "curves"
    case = CURVES.write(folder)
    table = Table(("what", "size", "processor time", "most memory"))
    curves = cost_of([room.program, "curves"], folder)
    (folder / "curves.csv").write_bytes(curves.output)
    check = cost_of([room.program, "check"], folder)
    size = f"{len(curves.output) / MILLION:,.0f} MB, {case.cells() / MILLION:,.0f} million cells"
    table.rows.append(("`curves` writes a curve file", size, f"{figure(curves.seconds)} s", f"{curves.memory:,.0f} MB"))
    table.rows.append(("`check` reads and judges it", size, f"{figure(check.seconds)} s", f"{check.memory:,.0f} MB"))
    python = DEBIAN_PYTHON if debian_has(["numpy"]) else sys.executable
    for what, before in (("numpy", ""), ("no numpy", "sys.modules['numpy'] = None\n")):
        read = cost_of([python, "-c", READS.format(before=before, tools=CLONE / "tools")], folder)
        table.rows.append((f"Python reads all its counts, {what}", size, f"{figure(read.seconds)} s",
                           f"{read.memory:,.0f} MB"))  # fmt: skip
    for name in ("town", "region"):
        made, _ = room.made(name, *WHOLE)
        page = room.folder / f"{name}.html"
        cost = room.tool("page", made, "-o", page, "--program", room.program)
        size = f"{page.stat().st_size / MILLION:.1f} MB"
        table.rows.append((f"`page` of the {name}", size, f"{figure(cost.seconds)} s", f"{cost.memory:,.0f} MB"))
    table.rows.append(editing(room))
    return table


def editing(room: Room) -> tuple[str, str, str, str]:
    """Eight editors of the smallest case, with 10,000 calls each."""
    folder = room.folder / "editors"
    case = Case.read(CLONE / "examples" / "one_road")
    case.setup.cells = CELLS
    case.write(folder)
    for editor in range(1, 9):
        line = '{"do":"edit","edits":[{"kind":"limit","link":"a","from":0,"to":1,"vehicles":"0.%03d"}]}\n'
        (folder / f"edits{editor}.jsonl").write_text("".join(line % (call % 500) for call in range(10_000)))
    cost = cost_of([room.program, "editors", "8"], folder)
    return "`editors 8` answers", "80,000 calls", f"{figure(cost.seconds)} s", f"{cost.memory:,.0f} MB"
