#!/usr/bin/env python3
"""Sets routes that `ltm-tools assign` finds beside those of SUMO's duaIterate.py: `assigned.py FOLDER`.

The network is Bologna, as measure.py has it. All routes are of the same vehicles, with the same types and times and the
same first and last edges, and SUMO drives all of them, mesoscopic and with --micro microscopic as well. Vehicles whose
assigned route has a turn that the net does not have, as one back where two roads meet, take the route that they came
with, and are counted. FOLDER keeps what duaIterate.py found. It needs SUMO (Debian's packages sumo and sumo-tools),
numpy, and the program as other commands of ltm-tools do.
"""
from __future__ import annotations

import argparse
import os
import random
import subprocess
import sys
import tempfile
import xml.etree.ElementTree as ElementTree
from collections.abc import Iterator
from pathlib import Path

sys.dont_write_bytecode = True
HERE = Path(__file__).resolve().parent
sys.path[:0] = [str(HERE.parents[1] / "tools"), str(HERE)]

import compare  # noqa: E402
import measure  # noqa: E402
from ltm_tools.commands.arguments import add_program_argument  # noqa: E402
from ltm_tools.errors import Fault  # noqa: E402
from ltm_tools.program import find_program  # noqa: E402
from ltm_tools.sumo.net import SumoNet, elements  # noqa: E402
from ltm_tools.sumo.ways import Ways  # noqa: E402

TOOL = HERE.parents[1] / "tools" / "ltm-tools"
DUA = "/usr/share/sumo/tools/assign/duaIterate.py"
NEVER = ["duarouter--xml-validation", "never", "sumo--meso-junction-control", "true", "sumo--xml-validation", "never"]
DUA_ITERATIONS = 20


def drawn_type(name: str, mixes: dict[str, list[tuple[str, float]]], draw: random.Random) -> str:
    """A type of a mix of types by its parts, or the type itself."""
    names, parts = zip(*mixes.get(name, [(name, 1.0)]))
    return str(draw.choices(names, parts)[0])


def types_of(files: list[Path]) -> Iterator[ElementTree.Element]:
    """The types of vehicles, and mixes of them, in some files."""
    for file in files:
        yield from (one for one in elements(file) if one.tag in ("vType", "vTypeDistribution"))


def write_vehicles(raw: measure.Raw, net: SumoNet, folder: Path) -> None:
    """Writes those vehicles that a case has, each with a type of its own, as they come into `routes.rou.xml`, and as
    trips between the same edges into `trips.xml`."""
    carried = measure.carried(raw, folder, net)
    types, mixes = [], {}
    for one in types_of([*raw.files, carried]):
        if one.tag == "vTypeDistribution":
            mixes[one.get("id", "")] = [(part.get("id", ""), float(part.get("probability", "1"))) for part in one]
        types += [one] if one.tag == "vType" else list(one)
    for one in types:
        one.attrib.pop("probability", None)
    draw, routes, trips = random.Random(1), [*types], [*types]
    for one in elements(carried):
        route = one.find("route")
        if one.tag == "vehicle" and route is not None:
            one.set("type", drawn_type(one.get("type", "DEFAULT_VEHTYPE"), mixes, draw))
            routes.append(one)
            edges = route.get("edges", "").split()
            trips.append(ElementTree.Element("trip", {**one.attrib, "from": edges[0], "to": edges[-1]}))
    for name, found in (("routes.rou.xml", routes), ("trips.xml", trips)):
        lines = (ElementTree.tostring(one, "unicode").strip() for one in found)
        (folder / name).write_text("<routes>\n" + "\n".join(lines) + "\n</routes>\n")


def plans_of(raw: measure.Raw) -> list[Path]:
    """The files of a network with programs of signals."""
    return [file for file in raw.files if compare.has_programs(str(file))]


def dua_routes(raw: measure.Raw, folder: Path, iterations: int) -> Path:
    """The routes of the last iteration of duaIterate.py, which is run unless it has been."""
    place, last = folder / "dua", iterations - 1
    found = place / f"{last:03}" / f"trips_{last:03}.rou.xml"
    if not found.exists():
        place.mkdir(exist_ok=True)
        words = [DUA, "-n", str(raw.net), "-t", str(folder / "trips.xml"), "-l", str(iterations), "--mesosim"]
        plans = ["--additional", ",".join(map(str, plans_of(raw)))] if plans_of(raw) else []
        with open(place / "said.txt", "w", encoding="utf-8") as said:
            environment = {"SUMO_HOME": "/usr/share/sumo", **os.environ}
            done = subprocess.run(
                [sys.executable, *words, *plans, *NEVER], cwd=place, env=environment, stdout=said, stderr=said
            )
        if done.returncode or not found.exists():
            raise Fault(f"duaIterate.py failed: {place / 'said.txt'} has what it said")
    return found


def connected(net: SumoNet, file: Path, routes: Path, to: Path) -> int:
    """Writes the vehicles of a file, those with a turn that the net does not have on their route of another file; how
    many these are."""
    ways = Ways(net)
    own = {one.get("id"): one for one in elements(routes) if one.tag == "vehicle"}
    lines, count = [], 0
    for one in elements(file):
        route = one.find("route")
        if one.tag == "vehicle" and route is not None:
            places = [ways.number[name] for name in route.get("edges", "").split()]
            if any(after not in ways.after[place] for place, after in zip(places, places[1:])):
                one, count = own[one.get("id")], count + 1
        if one.tag in ("vehicle", "vType"):
            lines.append(ElementTree.tostring(one, "unicode").strip())
    to.write_text("<routes>\n" + "\n".join(lines) + "\n</routes>\n")
    return count


def tool(*words: object) -> None:
    """Runs a command of ltm-tools; a Fault where it fails."""
    done = subprocess.run([sys.executable, str(TOOL), *map(str, words)], stderr=subprocess.PIPE, text=True)
    if done.returncode:
        raise Fault(done.stderr.strip().splitlines()[-1])


def assigned_routes(raw: measure.Raw, net: SumoNet, folder: Path, args: argparse.Namespace) -> Path:
    """The routes by the shares that `assign` finds for the network as `from-sumo` imports it."""
    routes, program = folder / "routes.rou.xml", ("--program", find_program(args.program))
    case, made = folder / "case", folder / "assigned"
    words = (*raw.words, *measure.BY_GAPS, "--ends", "node", *args.words.split())
    tool("from-sumo", raw.net, routes, *plans_of(raw), case, *words)
    tool("assign", case, "-o", made, "--iterations", args.iterations, "--processes", args.processes, *program)
    tool("drive", made, routes, "-o", folder / "driven.rou.xml", *program)
    found = folder / "assigned.rou.xml"
    print(f"{connected(net, folder / 'driven.rou.xml', routes, found)} vehicles keep their route, for want of a turn")
    return found


def driven(raw: measure.Raw, net: SumoNet, routes: Path, kind: str) -> str:
    """The vehicle hours of routes in SUMO."""
    with tempfile.TemporaryDirectory() as place:
        files = [str(routes.resolve()), *map(str, plans_of(raw))]
        compare.run_sumo(str(raw.net), files, measure.RUNS[kind], Path(place), kind=())
        run = compare.read_run(Path(place), net)
    return f"{compare.hours(run.spent):,.2f}" + (f", {run.moved} moved past jams" if run.moved else "")


def compared(args: argparse.Namespace) -> None:
    """Finds both kinds of routes, and prints what they take."""
    folder = args.folder.resolve()
    folder.mkdir(parents=True, exist_ok=True)
    raw = measure.NETWORKS["bologna"](folder)
    net = measure.net_of(raw)
    write_vehicles(raw, net, folder)
    found = {
        "as they come": folder / "routes.rou.xml",
        f"`duaIterate.py`, {DUA_ITERATIONS} iterations": dua_routes(raw, folder, DUA_ITERATIONS),
        f"assigned, {args.iterations} iterations": assigned_routes(raw, net, folder, args),
    }
    kinds = ["mesoscopic", *(["microscopic"] if args.micro else [])]
    print(f"| vehicle hours of routes | {' | '.join(kinds)} |", "|---" * (1 + len(kinds)) + "|", sep="\n")
    for name, routes in found.items():
        print(f"| {name} | {' | '.join(driven(raw, net, routes, kind) for kind in kinds)} |", flush=True)


def main() -> int:
    parser = argparse.ArgumentParser(description=__doc__, formatter_class=argparse.RawDescriptionHelpFormatter)
    parser.add_argument("folder", type=Path)
    parser.add_argument("--iterations", type=int, default=12, help="of assign (12)")
    parser.add_argument("--processes", type=int, default=1, help="of assign (1)")
    parser.add_argument("--words", default="", help="more words for the import, as '--lanes shared'")
    parser.add_argument("--micro", action="store_true", help="drive them microscopically as well")
    add_program_argument(parser)
    args = parser.parse_args()
    try:
        compared(args)
    except Fault as fault:
        print(f"assigned.py: {fault}", file=sys.stderr)
        return 1
    return 0


if __name__ == "__main__":
    sys.exit(main())
