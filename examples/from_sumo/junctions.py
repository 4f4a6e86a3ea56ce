#!/usr/bin/env python3
"""Sets single junctions without lights beside SUMO's microscopic run and the manual: `junctions.py FOLDER [KIND ..]`.

Each junction has arms of 500 m with one lane, on which 50 km/h are driven. An hour's vehicles come at random, most of
them along the main road, and the side road in the south is looked at: how many leave it in an hour if a queue stands
there all the time, and the mean delay of its vehicles if 100 or 200 come. A row has both by SUMO, by the Highway
Capacity Manual, and by `ltm` as `from-sumo` imports the junction with each of some words. It needs SUMO (Debian's
package sumo), and the program as other commands of ltm-tools do.
"""
from __future__ import annotations

import argparse
import math
import subprocess
import sys
import xml.etree.ElementTree as ElementTree
from collections.abc import Mapping, Sequence
from dataclasses import dataclass
from fractions import Fraction
from pathlib import Path

sys.dont_write_bytecode = True
HERE = Path(__file__).resolve().parent
sys.path.insert(0, str(HERE.parents[1] / "tools"))

from ltm_tools.case.source import approaches_of  # noqa: E402
from ltm_tools.commands.arguments import add_program_argument  # noqa: E402
from ltm_tools.errors import Fault  # noqa: E402
from ltm_tools.loading.delay import MILLIONTHS  # noqa: E402
from ltm_tools.loading.loaded import LoadedCase, loaded, told_delay  # noqa: E402
from ltm_tools.sumo.net import read_net  # noqa: E402

HOUR_S = 3600
ARM_M, SPEED = 500, 13.89
FULL = 1500  # vehicles an hour on the side road, more than pass
SIDE = (100, 200)
MAIN = (150, 300, 450)
KINDS = {
    "T, yield": ("wes", "priority"),
    "T, stop": ("wes", "priority_stop"),
    "T, right before left": ("wes", "right_before_left"),
    "cross, yield": ("wesn", "priority"),
    "cross, stop": ("wesn", "priority_stop"),
    "cross, right before left": ("wesn", "right_before_left"),
    "roundabout": ("wesn", "roundabout"),
}
PLACES = {"w": (-1, 0), "e": (1, 0), "s": (0, -1), "n": (0, 1)}
SHARES = {  # of an arm's vehicles, by the arm to which they go
    "w": {"e": 0.8, "s": 0.1, "n": 0.1},
    "e": {"w": 0.8, "s": 0.1, "n": 0.1},
    "s": {"w": 0.4, "e": 0.4, "n": 0.2},
    "n": {"w": 0.4, "e": 0.4, "s": 0.2},
}
GAPS = {"right": (6.2, 3.3), "through": (6.5, 4.0), "left": (7.1, 3.5), "T left": (6.4, 3.5), "main left": (4.1, 2.2)}
ROUND_GAP = (4.35, 2.85)  # the mean of the manual's two values of each
WORDS = {"ltm": (), "ltm, --yielding gaps": ("--yielding", "gaps"), "ltm, --turns all": ("--turns", "all")}


@dataclass(frozen=True)
class Side:
    """What is measured of the side road: vehicles an hour that leave it behind a queue, and the mean seconds of delay
    of a vehicle by the vehicles that come."""

    capacity: float | None
    delays: Mapping[int, float]


# ---- the junction


def make_net(kind: str, folder: Path) -> Path:
    """The net of a junction."""
    folder.mkdir(parents=True, exist_ok=True)
    arms, control = KINDS[kind]
    nodes, edges = (round_parts if control == "roundabout" else plain_parts)(arms, control)
    for name, rows in (("nod", nodes), ("edg", edges)):
        root = "nodes" if name == "nod" else "edges"
        (folder / f"plain.{name}.xml").write_text(f"<{root}>\n" + "\n".join(rows) + f"\n</{root}>\n")
    net = folder / "net.xml"
    run_quietly(
        ["netconvert", "-n", str(folder / "plain.nod.xml"), "-e", str(folder / "plain.edg.xml"), "-o", str(net)]
        + ["--no-turnarounds"]
    )
    return net


def ends(arms: str) -> list[str]:
    """The nodes at the ends of the arms."""
    return [
        f'<node id="{arm}" x="{PLACES[arm][0] * ARM_M}" y="{PLACES[arm][1] * ARM_M}" type="priority"/>' for arm in arms
    ]


def edge(name: str, tail: str, head: str, priority: int) -> str:
    """An edge of one lane."""
    return f'<edge id="{name}" from="{tail}" to="{head}" numLanes="1" speed="{SPEED}" priority="{priority}"/>'


def plain_parts(arms: str, control: str) -> tuple[list[str], list[str]]:
    """The nodes and edges of a crossing or a T, whose main road has priority unless nobody has."""
    edges = []
    for arm in arms:
        priority = 1 if arm in "sn" and control != "right_before_left" else 3
        edges += [edge(f"{arm}_in", arm, "c", priority), edge(f"{arm}_out", "c", arm, priority)]
    return [*ends(arms), f'<node id="c" x="0" y="0" type="{control}"/>'], edges


def round_parts(arms: str, control: str) -> tuple[list[str], list[str]]:
    """The nodes and edges of a roundabout, driven against the clock."""
    nodes = [f'<node id="r{arm}" x="{PLACES[arm][0] * 20}" y="{PLACES[arm][1] * 20}" type="priority"/>' for arm in arms]
    edges = [edge(f"ring_{arm}", f"r{arm}", f"r{after}", 5) for arm, after in zip("senw", "enws")]
    edges.append('<roundabout nodes="rs re rn rw" edges="ring_s ring_e ring_n ring_w"/>')
    for arm in arms:
        edges += [edge(f"{arm}_in", arm, f"r{arm}", 1), edge(f"{arm}_out", f"r{arm}", arm, 1)]
    return [*ends(arms), *nodes], edges


def make_vehicles(kind: str, main: int, side: int, path: Path) -> Path:
    """The vehicles of an hour, in the order of departure: of the main road so many from each end, of the side road in
    the south so many, and in the north 100, by a Poisson process with a seed."""
    import random

    drawn, arms = random.Random(f"{kind} {main} {side}"), KINDS[kind][0]
    found: list[tuple[float, str, str]] = []
    for arm in arms:
        rate, moment = (main if arm in "we" else side if arm == "s" else min(side, SIDE[0])) / HOUR_S, 0.0
        ways = {to: share for to, share in SHARES[arm].items() if to in arms}
        while (moment := moment + drawn.expovariate(rate)) < HOUR_S:
            found.append((moment, arm, drawn.choices(list(ways), list(ways.values()))[0]))
    rows = [
        f'<vehicle id="{arm}{number}" depart="{moment:.2f}" departSpeed="max">'
        f'<route edges="{" ".join(route(kind, arm, to))}"/></vehicle>'
        for number, (moment, arm, to) in enumerate(sorted(found))
    ]
    path.write_text("<routes>\n" + "\n".join(rows) + "\n</routes>\n")
    return path


def route(kind: str, arm: str, to: str) -> list[str]:
    """The edges from an arm to another."""
    ring: list[str] = []
    if KINDS[kind][1] == "roundabout":
        order = "senw"
        at = order.index(arm)
        while order[at % 4] != to:
            ring.append(f"ring_{order[at % 4]}")
            at += 1
    return [f"{arm}_in", *ring, f"{to}_out"]


def run_quietly(words: Sequence[str]) -> None:
    """Runs a program of SUMO; a Fault with what it says where it fails."""
    done = subprocess.run(words, capture_output=True, text=True)
    if done.returncode:
        raise Fault(f"{words[0]}: {done.stderr.strip().splitlines()[-1] if done.stderr.strip() else 'it failed'}")


# ---- by SUMO


def by_sumo(kind: str, main: int, net: Path, folder: Path) -> Side:
    """The side road in SUMO's microscopic run."""
    found = trips(net, make_vehicles(kind, main, FULL, folder / "full.rou.xml"), folder)
    left = [trip for trip in found if trip.get("id", "").startswith("s")]
    capacity = sum(HOUR_S / 2 <= float(trip.get("arrival", "-1")) < HOUR_S for trip in left) * 2
    delays = {}
    for side in SIDE:
        rows = trips(net, make_vehicles(kind, main, side, folder / f"{side}.rou.xml"), folder)
        lost = [float(row.get("timeLoss", "0")) + float(row.get("departDelay", "0")) for row in rows if is_side(row)]
        delays[side] = sum(lost) / len(lost)
    return Side(capacity, delays)


def is_side(trip: ElementTree.Element) -> bool:
    """Whether a vehicle comes from the side road in the south."""
    return trip.get("id", "").startswith("s")


def trips(net: Path, vehicles: Path, folder: Path) -> list[ElementTree.Element]:
    """What became of the vehicles of a run, those with it that have not arrived after two hours."""
    told = folder / "trips.xml"
    run_quietly(
        ["sumo", "-n", str(net), "-r", str(vehicles), "--tripinfo-output", str(told), "--end", str(2 * HOUR_S)]
        + [
            "--no-step-log",
            "--no-warnings",
            "--time-to-teleport",
            "-1",
            "--tripinfo-output.write-unfinished",
            "--seed",
            "7",
        ]
    )
    return ElementTree.parse(told).getroot().findall("tripinfo")


# ---- by the manual


def gap_capacity(flow: float, critical: float, follow_up: float) -> float:
    """The vehicles an hour that find a gap in a flow an hour."""
    if flow <= 0:
        return HOUR_S / follow_up
    return flow * math.exp(-flow * critical / HOUR_S) / -math.expm1(-flow * follow_up / HOUR_S)


def by_manual(kind: str, main: int) -> Side | None:
    """The side road by the manual; None where it has no formula, as where nobody has priority."""
    arms, control = KINDS[kind]
    if control == "right_before_left":
        return None
    delays, capacity = {}, 0.0
    for side in (FULL, *SIDE):
        found = round_capacity(main) if control == "roundabout" else side_capacity(arms, main)
        if side == FULL:
            capacity = found
        else:
            delays[side] = control_delay(side, found)
    return Side(capacity, delays)


def side_capacity(arms: str, main: int) -> float:
    """The capacity of a side road whose turns share a lane, each by the gap formula; turns wait for those before them
    in rank, by the probability that no queue of these stands there."""
    ways = {arm: {to: share for to, share in SHARES[arm].items() if to in arms} for arm in arms}
    total = {arm: sum(some.values()) for arm, some in ways.items()}
    ahead, right, left = ((main * ways["w"].get(to, 0.0) / total["w"]) for to in ("e", "s", "n"))
    # from the west one turns right into the south arm; from the east left into it
    across = main * ways["e"]["s"] / total["e"]
    others = SIDE[0] if "n" in arms else 0
    free = 1 - across / gap_capacity(ahead + right, *GAPS["main left"])
    free_other = 1 - left / gap_capacity(ahead + right, *GAPS["main left"]) if "n" in arms else 1.0
    both = 2 * ahead + right + left + across + (main * ways["e"].get("n", 0.0) / total["e"])
    capacities = {"e": gap_capacity(ahead + right / 2, *GAPS["right"])}
    if "n" in arms:
        capacities["n"] = gap_capacity(both, *GAPS["through"]) * free * free_other
        met = others * ways["n"]["s"]
        capacities["w"] = (
            gap_capacity(both + met / 2, *GAPS["left"]) * free * free_other * max(0.05, 1 - met / capacities["n"])
        )
    else:
        capacities["w"] = gap_capacity(both, *GAPS["T left"]) * free
    return 1 / sum(share / total["s"] / capacities[to] for to, share in ways["s"].items())


def round_capacity(main: int) -> float:
    """The capacity of an arm of a roundabout, by the flow before it: who comes from the west goes past unless he leaves
    there, who comes from the north if he goes on to the east, who comes from the east not at all."""
    flow = main * (SHARES["w"]["e"] + SHARES["w"]["n"]) + SIDE[0] * SHARES["n"]["e"]
    return gap_capacity(flow, *ROUND_GAP)


def control_delay(flow: float, capacity: float) -> float:
    """The manual's mean delay in seconds of an hour, with the 5 s of slowing down and speeding up."""
    load = flow / capacity
    root = math.sqrt((load - 1) ** 2 + HOUR_S / capacity * load / 450)
    return HOUR_S / capacity + 900 * (load - 1 + root) + 5


# ---- by ltm


def by_ltm(kind: str, main: int, net: Path, folder: Path, words: Sequence[str], program: str | None) -> Side:
    """The side road in a loading."""
    capacity, delays = None, {}
    for side in (FULL, *SIDE):
        case = folder / "case"
        vehicles = folder / ("full.rou.xml" if side == FULL else f"{side}.rou.xml")
        run_quietly(
            [sys.executable, str(HERE.parents[1] / "tools/ltm-tools"), "from-sumo", str(net), str(vehicles), str(case)]
            + ["--fit", "1s", "--horizon", "120", *words]
        )
        found = loaded(str(case), None, program)
        if side == FULL:
            capacity = passed(found)
        else:
            delays[side] = mean_delay(found, str(case), free_s(net), program)
    return Side(capacity, delays)


def passed(found: LoadedCase) -> float:
    """The vehicles an hour that leave the side road in the second half of the hour."""
    counts, slots = found.curves.down("s_in"), 1000 * HOUR_S // found.case.setup.step_ms
    return (int(counts[slots]) - int(counts[slots // 2])) / 500


def free_s(net: Path) -> float:
    """The seconds in which the side road is driven where nothing holds a vehicle up."""
    read = read_net(net, vehicle_class="passenger", headway=Fraction(113, 100), spacing=Fraction(15, 2))
    return float(read.network.roads["s_in"].time) / 1000


def mean_delay(found: LoadedCase, folder: str, free: float, program: str | None) -> float:
    """The mean seconds of delay of a vehicle of the side road, on its link, the turns behind that and at its start."""
    report, case = told_delay(found, folder, None, program), found.case
    parts = approaches_of(folder, case.links).get("s_in", ("s_in",))
    entries = [link for link in case.links if link.head == case.link("s_in").tail]
    begins = {case.link("s_in").tail, *(link.tail for link in entries)} & set(report.origins)
    spent = sum(report.links[name].spent for name in (*parts, *(link.name for link in entries)))
    spent += sum(report.origins[node].waited for node in begins)
    vehicles = int(found.curves.up("s_in")[-1]) / 1000
    return spent / MILLIONTHS / vehicles - free - sum(link.free_ms for link in entries) / 1000


def row_text(kind: str, main: int, sides: Sequence[Side | None]) -> str:
    """A row of the table."""
    cells = [kind, str(main)]
    for side in sides:
        cells += (
            ["-"] * (1 + len(SIDE))
            if side is None
            else [
                f"{side.capacity:.0f}",
                *(f"{side.delays[flow]:.1f}" for flow in SIDE),
            ]
        )
    return "| " + " | ".join(cells) + " |"


def main() -> int:
    parser = argparse.ArgumentParser(description=__doc__, formatter_class=argparse.RawDescriptionHelpFormatter)
    parser.add_argument("folder", type=Path)
    parser.add_argument(
        "--main",
        default=",".join(map(str, MAIN)),
        metavar="FLOWS",
        help="vehicles an hour of the main road (%(default)s)",
    )
    parser.add_argument("kinds", nargs="*", metavar="KIND", help=f"of {'; '.join(KINDS)} (all)")
    add_program_argument(parser)
    args = parser.parse_args()
    names = ["SUMO", "manual", *WORDS]
    print(
        "| junction | main road, each way | "
        + " | ".join(f"{name}: passes | {' | '.join(f'{flow}: s' for flow in SIDE)}" for name in names)
        + " |"
    )
    print("|---" * (2 + len(names) * (1 + len(SIDE))) + "|")
    try:
        for kind in args.kinds or KINDS:
            folder = args.folder / kind.replace(", ", "_").replace(" ", "_")
            net = make_net(kind, folder)
            for flow in map(int, args.main.split(",")):
                sides = [by_sumo(kind, flow, net, folder), by_manual(kind, flow)]
                sides += [by_ltm(kind, flow, net, folder, words, args.program) for words in WORDS.values()]
                print(row_text(kind, flow, sides), flush=True)
    except Fault as fault:
        print(f"junctions.py: {fault}", file=sys.stderr)
        return 1
    return 0


if __name__ == "__main__":
    sys.exit(main())
