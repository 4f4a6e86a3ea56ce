"""Networks of SUMO: how long imports, loads and answers take, beside SUMO's own runs."""
from __future__ import annotations

from pathlib import Path

from ltm_tools.case import Case
from ltm_tools.program import CLONE

from .made import closures
from .room import WHOLE, Room, sources
from .runs import Cost, cost_of, least
from .speeds import LOAD, SESSION, TIMES, recomputed
from .tables import Table, figure

EDITS = 12
SUMO = ("--xml-validation", "never", "--xml-validation.net", "never", "--xml-validation.routes", "never")
QUIET = ("--no-step-log", "--no-warnings")
RUNS = {"mesoscopic": ("--mesosim", "--meso-junction-control"), "microscopic": ()}


def beside_sumo(room: Room) -> Table:
    """Runs of SUMO, and what the program takes for the same vehicles."""
    table = Table(
        ("network", "SUMO, mesoscopic", "SUMO, microscopic", "a load", "a session opened", "an edit", "`gap`"),
        remarks=["Milliseconds of processor time, the least of three runs; SUMO and `gap` once. An edit closes a link "
                 "for five slots and settles; in brackets the pairs of node and slot that it changed, and all."],
    )  # fmt: skip
    for name in ("town", "region"):
        sumo = [figure(sumo_run(room.folder, name, words).milliseconds) for words in RUNS.values()]
        case, _ = room.made(name, *WHOLE)
        gap = cost_of([room.program, "gap"], case)
        table.rows.append([*head(name, case), *sumo, *answers(room, case), figure(gap.milliseconds)])
    return table


def head(name: str, case: Path) -> list[str]:
    """The name of a network, with its links and slots."""
    read = Case.read(case)
    return [f"{name}: {len(read.links):,} links, {len(read.destinations)} destinations, {read.setup.slots} slots"]


def answers(room: Room, case: Path) -> list[str]:
    """A load, a session, and an edit of a case."""
    script = room.folder / f"{case.name}.jsonl"
    pairs = closures(Case.read(case), script, EDITS)
    load = least([cost_of([room.program, *LOAD], case) for _ in range(TIMES)])
    opened = least([cost_of([room.program, *SESSION], case) for _ in range(TIMES)])
    edited = least([cost_of([room.program, *SESSION], case, script) for _ in range(TIMES)])
    each = (edited.milliseconds - opened.milliseconds) / EDITS
    return [
        figure(load.milliseconds),
        figure(opened.milliseconds),
        f"{figure(each)} ({recomputed(edited) // EDITS:,} of {pairs:,})",
    ]


def sumo_run(folder: Path, name: str, words: tuple[str, ...]) -> Cost:
    """A run of SUMO over a made network, without outputs."""
    net, vehicles, *plans = sources(folder, name)
    added: list[str | Path] = ["--additional-files", *plans] if plans else []
    return cost_of(["sumo", "--net-file", net, "--route-files", vehicles, *added, *SUMO, *QUIET, *words])


def imports(room: Room) -> Table:
    """What imports take, with links as a whole and with turns as links."""
    table = Table(
        ("network", "`--turns none`: links", "seconds", "turns at signals: links", "seconds", "`--turns all`: links",
         "seconds"),
        remarks=["Seconds of processor time, with Python's own start."],
    )  # fmt: skip
    for name in ("town", "region"):
        cells = []
        for words in (WHOLE, (), ("--turns", "all")):
            case, cost = room.made(name, *words)
            cells += [f"{len(Case.read(case).links):,}", figure(cost.seconds)]
        table.rows.append([name, *cells])
    return table


def assigning(room: Room) -> Table:
    """An assignment and closures of the town."""
    case, _ = room.made("town", *WHOLE)
    assigned, fit = room.folder / "assigned", ("--program", room.program)
    iterated = room.tool("assign", case, "-o", assigned, *fit)
    closed = room.tool("closures", assigned, "--from", "0:15", "--to", "0:30", "--respond", "nobody", "half", "all",
                       "--busiest", "3", *fit)  # fmt: skip
    table = Table(("command", "what", "processor time"))
    lines = [line for line in iterated.output.decode().splitlines() if line.strip()[:1].isdigit()]
    table.rows = [
        ("`assign`", f"the town, {len(lines)} iterations", f"{figure(iterated.seconds)} s"),
        ("`closures`", "three roads of it, for three kinds of response", f"{figure(closed.seconds)} s"),
    ]
    return table


def sweeping(room: Room) -> Table:
    """Many scenarios of a small case and of the town."""
    table = Table(
        ("case", "scenarios", "processor time of one", "most memory"),
        remarks=["One session, with reading and opening. A closure of five minutes on a link of the town changes more "
                 "than half of its loading."],
    )  # fmt: skip
    town, _ = room.made("town", *WHOLE)
    for name, case, count in (("closures", CLONE / "examples" / "closures", 2000), ("town", town, 64)):
        file = room.folder / f"{name}_scenarios.jsonl"
        write_scenarios(Case.read(case), file, count)
        cost = room.tool("sweep", case, file, "--sessions", "1", "-o", room.folder / "rows.csv", "--program",
                         room.program)  # fmt: skip
        table.rows.append([name, f"{count:,}", f"{figure(cost.milliseconds / count)} ms", f"{cost.memory:,.0f} MB"])
    return table


def write_scenarios(case: Case, path: Path, count: int) -> None:
    """Writes scenarios for a sweep: in each a link is closed for five minutes."""
    slots = case.setup.slots
    wide = min(max(300_000 // case.setup.step_ms, 1), slots // 2)
    with open(path, "w", encoding="ascii") as file:
        for number in range(count):
            at = number * 13 % (slots - wide)
            name = case.links[number * 11 % len(case.links)].name
            file.write(
                f'{{"edits": [{{"kind": "limit", "link": "{name}", "from": {at}, "to": {at + wide}, '
                '"vehicles": "0"}]}\n'
            )
