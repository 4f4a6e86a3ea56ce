#!/usr/bin/env python3
"""Assigns the town in several ways, and has SUMO drive the routes: `methods.py FOLDER [WAY ..]`.

The network is the town of make.py with its turns as links. All routes are of the same vehicles, with the same times
and the same first and last edges; SUMO drives them mesoscopically, and those of some ways microscopically as well. A
way is a word below, as `gradient`, or `come`, the routes that the vehicles come with, or `dua`, those of duaIterate.py;
without words it is all of them. FOLDER keeps what is done, way by way, and a second run goes on behind it. It prints a
table to be read in a document. It needs SUMO (Debian's packages sumo and sumo-tools), numpy, and the program as other
commands of ltm-tools do.
"""
from __future__ import annotations

import argparse
import json
import re
import subprocess
import sys
from pathlib import Path
from typing import Any, NamedTuple

sys.dont_write_bytecode = True
HERE = Path(__file__).resolve().parent
sys.path[:0] = [str(HERE.parents[1] / "tools"), str(HERE)]

import assigned  # noqa: E402
import measure  # noqa: E402
from ltm_tools.commands.arguments import add_program_argument  # noqa: E402
from ltm_tools.errors import Fault  # noqa: E402
from ltm_tools.program import find_program  # noqa: E402
from ltm_tools.sumo.net import SumoNet  # noqa: E402

IMPORT = ("--no-yellow", "--saturation", "road", "--entries", "none", "--carry", "0")
BEST = re.compile(r": iteration \d+, ([\d,.]+) vehicle hours, relative gap ([\d.]+) %")
RISE = re.compile(r"hours rose by ([\d.]+) % at most")
ITERATION = re.compile(r"^ *(\d+) +([\d,.]+) +[\d.]+ %", re.MULTILINE)
HEADS = ("way", "ltm: hours", "relative gap, %", "rise in the last five, %", "SUMO, mesoscopic", "microscopic")


class Way(NamedTuple):
    """A way to assign: what it is called, the words of `assign`, those of the import beside IMPORT, the seeds with
    which vehicles are sent by the shares, and whether SUMO drives them microscopically too."""

    label: str
    words: str
    imported: str = ""
    seeds: tuple[int, ...] = (1,)
    micro: bool = False


WAYS = {
    "twelve": Way("one round of 12", "--iterations 12", micro=True),
    "rounds": Way("`--rounds 3`, 10 each", "--iterations 10 --rounds 3", seeds=(1, 2, 3), micro=True),
    "gradient": Way("`gradient`, 20 iterations", "--iterations 20"),
    "small": Way("`gradient --step 0.5`, 12 iterations", "--iterations 12 --step 0.5"),
    "averages": Way("`averages`, 20 iterations", "--iterations 20 --method averages"),
    "regulating": Way("`self-regulating`, 20 iterations", "--iterations 20 --method self-regulating"),
    "counted": Way("`--lanes counted`, 12 iterations", "--iterations 12", imported="--lanes counted"),
}
GIVEN = {"come": "as they come", "dua": f"`duaIterate.py`, {assigned.DUA_ITERATIONS} iterations"}


class Result(NamedTuple):
    """What has come of a way: the vehicle hours of its best iteration, its relative gap and by how many per cent hours
    rose in the last iterations, none for routes that are given; what the routes take in SUMO, with each seed and
    microscopically; and the hours of all iterations."""

    hours: str
    gap: str
    rise: str
    mesoscopic: list[str]
    microscopic: str
    iterations: list[str]

    def cells(self) -> list[str]:
        """Its cells of the table."""
        first, *others = self.mesoscopic
        draws = f"; other draws {' and '.join(others)}" if others else ""
        return [self.hours, self.gap, self.rise, first + draws, self.microscopic]


def told(text: str) -> tuple[str, str, str, list[str]]:
    """What `assign` says: the vehicle hours and the relative gap of the best iteration, by how much hours rose in the
    last ones, and the hours of all iterations."""
    best, rise = BEST.search(text), RISE.search(text)
    if best is None:
        raise Fault("assign has not said which iteration is the best")
    return best[1], best[2], rise[1] if rise else "", [row[1] for row in ITERATION.findall(text)]


def tool(*words: object) -> str:
    """What a command of ltm-tools prints; a Fault where it fails."""
    done = subprocess.run([sys.executable, str(assigned.TOOL), *map(str, words)], capture_output=True, text=True)
    if done.returncode:
        raise Fault(done.stderr.strip().splitlines()[-1])
    return done.stdout


class Town:
    """The town in a folder, and who is to drive in it."""

    def __init__(self, args: argparse.Namespace) -> None:
        self.folder: Path = args.folder.resolve()
        self.folder.mkdir(parents=True, exist_ok=True)
        self.processes, self.program = args.processes, ("--program", str(find_program(args.program)))
        self.raw = measure.NETWORKS["town"](self.folder)
        self.net: SumoNet = measure.net_of(self.raw)
        self.routes = self.folder / "routes.rou.xml"
        if not self.routes.exists():
            assigned.write_vehicles(self.raw, self.net, self.folder)

    def result(self, name: str) -> Result:
        """What has come of a way; what is kept of it, if it was done before."""
        kept = self.folder / f"{name}.json"
        if not kept.exists():
            found = self._assigned(name) if name in WAYS else self._given(name)
            kept.write_text(json.dumps(found._asdict()) + "\n", encoding="utf-8")
        return Result(**json.loads(kept.read_text(encoding="utf-8")))

    def _given(self, name: str) -> Result:
        """Routes that are not assigned here."""
        is_dua = name == "dua"
        routes = assigned.dua_routes(self.raw, self.folder, assigned.DUA_ITERATIONS) if is_dua else self.routes
        return Result("", "", "", [self._driven(routes, "mesoscopic")], self._driven(routes, "microscopic"), [])

    def _assigned(self, name: str) -> Result:
        """Routes that `assign` finds in a way."""
        way, made = WAYS[name], self.folder / name
        case = self._case(way.imported)
        said = tool("assign", case, "-o", made, "--processes", self.processes, *way.words.split(), *self.program)
        hours, gap, rise, iterations = told(said)
        found = [self._sent(made, seed) for seed in way.seeds]
        micro = self._driven(found[0], "microscopic") if way.micro else ""
        return Result(hours, gap, rise, [self._driven(one, "mesoscopic") for one in found], micro, iterations)

    def _case(self, words: str) -> Path:
        """The town as it is imported with these words."""
        case = self.folder / f"case{words.replace(' ', '_')}"
        if not case.exists():
            plans = assigned.plans_of(self.raw)
            tool("from-sumo", self.raw.net, self.routes, *plans, case, *self.raw.words, *IMPORT, *words.split())
        return case

    def _sent(self, made: Path, seed: int) -> Path:
        """The vehicles sent by the shares of an assigned case."""
        driven, found = (Path(f"{made}_{seed}.{kind}.xml") for kind in ("driven", "rou"))
        tool("drive", made, self.routes, "-o", driven, "--seed", seed, *self.program)
        if count := assigned.connected(self.net, driven, self.routes, found):
            print(f"{found}: {count} vehicles keep their route, for want of a turn", file=sys.stderr)
        return found

    def _driven(self, routes: Path, kind: str) -> str:
        """The vehicle hours of routes in SUMO."""
        return str(assigned.driven(self.raw, self.net, routes, kind))


def table(results: dict[str, Result]) -> list[str]:
    """The lines of the table."""
    labels: dict[str, Any] = {**GIVEN, **{name: way.label for name, way in WAYS.items()}}
    rows = [[labels[name], *result.cells()] for name, result in results.items()]
    return ["| " + " | ".join(row) + " |" for row in (HEADS, *rows)]


def main() -> int:
    parser = argparse.ArgumentParser(description=__doc__, formatter_class=argparse.RawDescriptionHelpFormatter)
    names = [*GIVEN, *WAYS]
    parser.add_argument("folder", type=Path)
    parser.add_argument("ways", nargs="*", metavar="WAY", help=f"of {', '.join(names)} (all)")
    parser.add_argument("--processes", type=int, default=1, help="of assign (1)")
    add_program_argument(parser)
    args = parser.parse_args()
    if unknown := [name for name in args.ways if name not in names]:
        parser.error(f"no way is called {unknown[0]}: they are {', '.join(names)}")
    try:
        town, results = Town(args), {}
        for name in args.ways or names:
            results[name] = town.result(name)
            print(f"{name}: {' | '.join(results[name].cells())}", file=sys.stderr, flush=True)
    except Fault as fault:
        print(f"methods.py: {fault}", file=sys.stderr)
        return 1
    head, *rows = table(results)
    print(head, "|---" * len(HEADS) + "|", *rows, sep="\n")
    for name, result in results.items():
        if result.iterations:
            print(f"{name}, hours by iteration: {' '.join(result.iterations)}")
    return 0


if __name__ == "__main__":
    sys.exit(main())
