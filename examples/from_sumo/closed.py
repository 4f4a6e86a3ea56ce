#!/usr/bin/env python3
"""Sets the effect of a closure beside SUMO's `closingReroute`: `closed.py FOLDER [ROAD ..]`.

The network is the town of make.py, with its vehicles on the routes that they come with, on both sides. Each road (A4A5
and F5G5 by default) is closed from 0:10 to 0:25. Here `ltm-tools closures` says what that costs; SUMO's mesoscopic run
has a rerouter on all edges, so that a part of the vehicles that would pass, drawn by its probability, choose another
route when they enter their next edge, by the travel times of the moment as its routing devices measure them. Nobody is
moved past a jam. It writes a table to be read in a document. It needs SUMO (Debian's package sumo), numpy, and the
program as other commands of ltm-tools do.
"""
from __future__ import annotations

import argparse
import subprocess
import sys
import tempfile
from collections.abc import Sequence
from pathlib import Path
from typing import NamedTuple

sys.dont_write_bytecode = True
HERE = Path(__file__).resolve().parent
sys.path[:0] = [str(HERE.parents[1] / "tools"), str(HERE)]

import compare  # noqa: E402
import measure  # noqa: E402
from ltm_tools.commands.arguments import add_program_argument  # noqa: E402
from ltm_tools.errors import Fault  # noqa: E402
from ltm_tools.program import find_program  # noqa: E402
from ltm_tools.sumo.net import SumoNet  # noqa: E402

TOOL = HERE.parents[1] / "tools" / "ltm-tools"
IMPORT = "--turns none --no-yellow --saturation road --entries none --carry 0".split()
BEGIN, END = 600, 1500  # seconds
RESPONDING = ("nobody", "moment", "half", "all")
CHANCES = {"nobody": 0.0, "moment": 1.0, "half": 0.5}  # of being told of the closure in SUMO
ALL_WAIT = ["--time-to-teleport", "-1", "--ignore-route-errors", "--end", "14400"]
DEVICES = [
    word
    for name, value in (("probability", 1), ("period", 0), ("pre-period", 0), ("adaptation-interval", 10))
    for word in (f"--device.rerouting.{name}", str(value))
]


class Effect(NamedTuple):
    """By how many vehicle hours the total travel time rises, and how many vehicles have not arrived by the end."""

    hours: float
    late: float

    def text(self) -> str:
        """Its cell of a table."""
        return f"{self.hours:,.2f}" + (f", {self.late:,.0f} late" if round(self.late) else "")


def rerouter(edges: Sequence[str], road: str, chance: float) -> str:
    """A file of SUMO that closes a road, and tells a part of the vehicles."""
    return (
        f'<additional><rerouter id="closed" edges="{" ".join(edges)}" probability="{chance}">'
        f'<interval begin="{BEGIN}" end="{END}"><closingReroute id="{road}" disallow="all"/></interval>'
        "</rerouter></additional>\n"
    )


def sumo_run(raw: measure.Raw, net: SumoNet, road: str | None, chance: float) -> tuple[float, int]:
    """The vehicle hours of a run of SUMO, with a road closed or none, and how many vehicles arrive."""
    with tempfile.TemporaryDirectory() as name:
        folder = Path(name)
        plans = [str(plan) for plan in raw.files]
        if road is not None:
            (folder / "closed.add.xml").write_text(rerouter(sorted(net.network.roads), road, chance))
            plans.append(str(folder / "closed.add.xml"))
        words = [*ALL_WAIT, *(DEVICES if chance else [])]
        compare.run_sumo(str(raw.net), [str(raw.vehicles[0]), *plans], words, folder)
        run = compare.read_run(folder, net)
    return compare.hours(run.spent), len(run.arrivals)


def in_sumo(raw: measure.Raw, net: SumoNet, road: str) -> dict[str, Effect]:
    """The effect of a closure in SUMO, by who is told."""
    hours, arrived = sumo_run(raw, net, None, 0.0)
    found = {}
    for name, chance in CHANCES.items():
        closed, there = sumo_run(raw, net, road, chance)
        found[name] = Effect(closed - hours, arrived - there)
    return found


def tool(*words: str) -> str:
    """What a command of ltm-tools prints; a Fault where it fails."""
    done = subprocess.run([sys.executable, str(TOOL), *words], capture_output=True, text=True)
    if done.returncode:
        raise Fault(done.stderr.strip().splitlines()[-1])
    return done.stdout


def here(case: Path, roads: Sequence[str], program: str | None) -> dict[str, dict[str, Effect]]:
    """The effect of the closure of each road in a loading, by who responds."""
    words = ["--from", "0:10", "--to", "0:25", "--links", *roads, "--respond", *RESPONDING]
    return effects_of(tool("closures", str(case), *words, "--program", str(find_program(program))), roads)


def effects_of(text: str, roads: Sequence[str]) -> dict[str, dict[str, Effect]]:
    """The effects that `closures` has told: of each road its name, its vehicles, and of each response the hours, those
    by new routes alone, and who has not arrived."""
    rows = {words[0]: words[2:] for line in text.splitlines() if (words := line.split()) and words[0] in roads}
    return {
        road: {
            name: Effect(float(cells[3 * place]), float(cells[3 * place + 2])) for place, name in enumerate(RESPONDING)
        }
        for road, cells in rows.items()
    }


def main() -> int:
    parser = argparse.ArgumentParser(description=__doc__, formatter_class=argparse.RawDescriptionHelpFormatter)
    parser.add_argument("folder", type=Path)
    parser.add_argument("roads", nargs="*", metavar="ROAD", default=["A4A5", "F5G5"])
    add_program_argument(parser)
    args = parser.parse_args()
    try:
        args.folder.mkdir(parents=True, exist_ok=True)
        raw = measure.NETWORKS["town"](args.folder)
        net, case = measure.net_of(raw), args.folder / "case"
        files = [str(file) for file in (raw.net, *raw.vehicles, *raw.files)]
        tool("from-sumo", *files, str(case), "--fit", "5s", "--horizon", "75", *IMPORT)
        ours = here(case, args.roads, args.program)
        print("| closed | | " + " | ".join(RESPONDING) + " |", "|---" * (2 + len(RESPONDING)) + "|", sep="\n")
        for road in args.roads:
            for name, found in (("here", ours[road]), ("SUMO", in_sumo(raw, net, road))):
                cells = (found[kind].text() if kind in found else "-" for kind in RESPONDING)
                print(f"| `{road}` | {name} | {' | '.join(cells)} |", flush=True)
    except Fault as fault:
        print(f"closed.py: {fault}", file=sys.stderr)
        return 1
    return 0


if __name__ == "__main__":
    sys.exit(main())
