#!/usr/bin/env python3
"""Sets the loading of a case beside SUMO's mesoscopic run of the same vehicles: `compare.py CASE NET ROUTES [PLANS]`.

CASE is what `ltm-tools from-sumo NET ROUTES [PLANS] CASE` made. It tells the vehicle hours of both, vehicles arrived by
time, and the links with most delay on each side. Delay is what an edge takes beyond its length at its speed limit: of
`ltm` by `ltm delay`, of SUMO by its edge data and tripinfo. --also runs SUMO again without what its queues let less
through, and with all drivers at the limit. It needs SUMO (Debian's package sumo), and the program as other commands of
ltm-tools do.
"""
from __future__ import annotations

import argparse
import shutil
import subprocess
import sys
import tempfile
from dataclasses import dataclass, field
from fractions import Fraction
from pathlib import Path
from math import isnan, nan
from statistics import correlation

sys.dont_write_bytecode = True
sys.path.insert(0, str(Path(__file__).resolve().parents[2] / "tools"))

from ltm_tools.case import Case  # noqa: E402
from ltm_tools.case.roads import Roads  # noqa: E402
from ltm_tools.case.source import Source  # noqa: E402
from ltm_tools.commands.arguments import add_program_argument  # noqa: E402
from ltm_tools.demand.values import quarter_before  # noqa: E402
from ltm_tools.errors import Fault  # noqa: E402
from ltm_tools.formats import UNITS, clock_text  # noqa: E402
from ltm_tools.loading.delay import MILLIONTHS, Report  # noqa: E402
from ltm_tools.loading.loaded import loaded, told_delay  # noqa: E402
from ltm_tools.sumo.net import SumoNet, elements, number_attribute, read_net  # noqa: E402

EVEN = ["--default.speeddev", "0"]
NO_DROP = ["--meso-taujf", "1.13", "--meso-taujj", "1.13"]
ALSO = {"no drop of what queues let through": NO_DROP, "all drivers at the limit": EVEN, "both": NO_DROP + EVEN}
DATA = '<additional><edgeData id="whole" file="edges.xml" excludeEmpty="true"/></additional>\n'


@dataclass
class Run:
    """A run of SUMO: when vehicles arrived (ms, from its second 0), the vehicle seconds of all and at the start, and
    those beyond the speed limit by edge; and how many vehicles were moved past a jam."""

    first_ms: int = 0
    arrivals: list[int] = field(default_factory=list)
    spent: Fraction = Fraction(0)
    waited: Fraction = Fraction(0)
    queued: dict[str, Fraction] = field(default_factory=dict)
    moved: int = 0

    @property
    def delay(self) -> Fraction:
        """The vehicle seconds beyond the speed limit, those at the start with them."""
        return sum(self.queued.values(), self.waited)


def has_programs(path: str) -> bool:
    """Whether a file has programs of signals, and not types of vehicles alone."""
    return any(one.tag == "tlLogic" for one in elements(Path(path)))


def run_sumo(net: str, files: list[str], words: list[str], folder: Path, kind: tuple[str, ...] | None = None) -> None:
    """Runs SUMO in a folder, mesoscopic unless the words of another kind of run are given; a Fault where it is missing
    or fails."""
    if shutil.which("sumo") is None:
        raise Fault("sumo is missing: apt-get install sumo")
    (folder / "data.add.xml").write_text(DATA)
    plans = files[1:]
    done = subprocess.run(
        [
            "sumo",
            "--net-file",
            str(Path(net).resolve()),
            "--route-files",
            str(Path(files[0]).resolve()),
            *(
                ["--mesosim", *(["--meso-junction-control"] if any(map(has_programs, plans)) else [])]
                if kind is None
                else kind
            ),
            "--additional-files",
            ",".join([*(str(Path(plan).resolve()) for plan in plans), "data.add.xml"]),
            "--tripinfo-output",
            "trips.xml",
            "--statistic-output",
            "whole.xml",
            "--xml-validation",
            "never",
            "--xml-validation.net",
            "never",
            "--xml-validation.routes",
            "never",
            "--no-step-log",
            "--no-warnings",
            *words,
        ],
        cwd=folder,
        capture_output=True,
        text=True,
    )
    if done.returncode:
        said = [line for line in done.stderr.splitlines() if line.startswith("Error")]
        raise Fault(f"sumo: {said[0] if said else done.stderr.strip() or done.returncode}")


def read_run(folder: Path, net: SumoNet) -> Run:
    """What a run of SUMO wrote into a folder."""
    made = Run()
    departs = []
    for trip in elements(folder / "trips.xml"):
        if trip.tag == "tripinfo":
            late, depart = number_attribute(trip, "departDelay", "tripinfo"), number_attribute(
                trip, "depart", "tripinfo"
            )
            departs.append(depart - late)
            made.arrivals.append(int(number_attribute(trip, "arrival", "tripinfo") * 1000))
            made.spent += late + number_attribute(trip, "duration", "tripinfo")
            made.waited += late
    made.first_ms = int(min(departs, default=Fraction(0)) * 1000)
    for edge in elements(folder / "edges.xml", 2):
        name = edge.get("id", "")
        if edge.tag == "edge" and name in net.network.roads:
            through = number_attribute(edge, "left", name) + number_attribute(edge, "arrived", name)
            made.queued[name] = (
                number_attribute(edge, "sampledSeconds", name) - through * net.network.roads[name].time / 1000
            )
    made.moved = sum(
        int(number_attribute(one, "total", "teleports"))
        for one in elements(folder / "whole.xml")
        if one.tag == "teleports"
    )
    return made


def labels(source: Source, net: SumoNet) -> dict[str, str]:
    """Of each link of the case the edges of the net that it is made of, or is a part or a turn of, with those that
    share a link with one of these, as where a turn and its exit have become one; a link that was made has its own
    name."""
    groups: dict[str, list[str]] = {}
    first: dict[str, str] = {}
    for name, link in source.links.items():
        edge = name if name in net.network.roads else name.rsplit("_", 1)[0]
        if edge not in net.network.roads or not link.all_links:
            continue
        groups.setdefault(edge, [edge])
        for part in link.all_links:
            other = groups[first.setdefault(part, edge)]
            if other is not groups[edge]:
                other += groups[edge]
                groups |= dict.fromkeys(groups[edge], other)
    return {link: " ".join(groups[edge]) for link, edge in first.items()}


def by_label(report: Report, run: Run, source: Source, net: SumoNet) -> tuple[dict[str, Fraction], dict[str, Fraction]]:
    """The delay of `ltm` and of SUMO, in vehicle seconds, by the same edges."""
    known = labels(source, net)
    ours: dict[str, Fraction] = {}
    for name, link in report.links.items():
        label = known.get(name, name)
        ours[label] = ours.get(label, Fraction(0)) + Fraction(link.queued, MILLIONTHS)
    theirs: dict[str, Fraction] = {}
    for edge, seconds in run.queued.items():
        parts = source.links[edge].all_links if edge in source.links else ()
        label = known.get(parts[0], parts[0]) if parts else edge
        theirs[label] = theirs.get(label, Fraction(0)) + seconds
    return ours, theirs


def likeness(ours: dict[str, Fraction], theirs: dict[str, Fraction]) -> float:
    """The correlation of delay by edge; no number where one side has the same delay everywhere, as none."""
    names = sorted({*ours, *theirs})
    both = [[float(side.get(name, 0)) for name in names] for side in (ours, theirs)]
    return correlation(*both) if all(len(set(side)) > 1 for side in both) else nan


def likeness_text(found: float) -> str:
    """A correlation, or a dash where there is no number."""
    return "-" if isnan(found) else f"{found:.3f}"


def hours(seconds: Fraction | int) -> float:
    """Vehicle hours."""
    return float(seconds) / 3600


def share(ours: Fraction, theirs: Fraction) -> str:
    """By how much ours differs, in per cent of theirs."""
    return f"{float(ours / theirs - 1) * 100:+.1f} %" if theirs else "-"


def totals_table(report: Report, run: Run) -> list[str]:
    """The vehicle hours of both."""
    rows = [
        ("all", Fraction(report.spent, MILLIONTHS), run.spent),
        ("at the speed limit", Fraction(report.spent - report.delay, MILLIONTHS), run.spent - run.delay),
        ("beyond it, on links", Fraction(report.queued, MILLIONTHS), run.delay - run.waited),
        ("at the start", Fraction(report.waited, MILLIONTHS), run.waited),
    ]
    return ["vehicle hours              ltm      SUMO   difference"] + [
        f"{name:<20}{hours(ours):>10.2f}{hours(theirs):>10.2f}{share(ours, theirs):>13}" for name, ours, theirs in rows
    ]


def arrivals_table(case: Case, arrived: list[int], run: Run, begin_ms: int, rows: int = 10) -> list[str]:
    """Vehicles arrived by time, over the time in which they arrive; `arrived` in thousandths by boundary."""
    step, whole = case.setup.step_ms, arrived[-1]
    last = max(
        next(k for k, count in enumerate(arrived) if count == whole) * step, max(run.arrivals, default=0) - begin_ms
    )
    every = max(1, -(-last // (60_000 * rows))) * 60_000
    told = ["arrived by        ltm    SUMO   difference"]
    for time in range(every, -(-last // every) * every + 1, every):
        ours = Fraction(arrived[min(time // step, len(arrived) - 1)], UNITS)
        theirs = sum(one - begin_ms <= time for one in run.arrivals)
        told.append(f"{clock_text(begin_ms + time):<12}{float(ours):>9.0f}{theirs:>8}{float(ours - theirs):>+13.0f}")
    return told


def links_table(ours: dict[str, Fraction], theirs: dict[str, Fraction], count: int = 10) -> list[str]:
    """The links with most delay on each side, with the rank of each on the other side."""
    sides = [sorted(side, key=lambda name: (-side[name], name)) for side in (ours, theirs)]
    ranks = [{name: rank for rank, name in enumerate(side, 1)} for side in sides]
    told = [
        "vehicle hours of delay, the most on each side, and which is it on the other side",
        "     by ltm                ltm   SUMO         by SUMO               ltm   SUMO",
    ]
    for rank in range(min(count, len(sides[0]), len(sides[1]))):
        parts = []
        for side in (0, 1):
            name = sides[side][rank]
            other = ranks[1 - side].get(name)
            both = (hours(of.get(name, Fraction(0))) for of in (ours, theirs))
            parts.append("{:<18}{:>8.2f}{:>7.2f} {:>6}".format(name[:18], *both, f"({other or '-'})"))
        told.append(f"{rank + 1:>4} " + "   ".join(parts).rstrip())
    both = len({*sides[0][:count]} & {*sides[1][:count]})
    return told + [f"{both} of them stand on both sides"]


def parse_args() -> argparse.Namespace:
    parser = argparse.ArgumentParser(description=__doc__, formatter_class=argparse.RawDescriptionHelpFormatter)
    parser.add_argument("case")
    parser.add_argument("net")
    parser.add_argument("files", nargs="+", metavar="FILE", help="the vehicles, then the programs of signals")
    parser.add_argument(
        "--also", action="store_true", help="run SUMO again with other settings, and tell the vehicle hours of each"
    )
    parser.add_argument("--sumo", default="", metavar="WORDS", help="more words for SUMO, as '--seed 7'")
    add_program_argument(parser)
    return parser.parse_args(one_word(sys.argv[1:]))


def one_word(words: list[str]) -> list[str]:
    """The words of the command line, of which --sumo takes the next one whatever it begins with."""
    if "--sumo" not in words[:-1]:
        return words
    at = words.index("--sumo")
    return [*words[:at], f"--sumo={words[at + 1]}", *words[at + 2 :]]


def compare(args: argparse.Namespace) -> None:
    """Runs both, and tells."""
    net = read_net(Path(args.net), vehicle_class="passenger", headway=Fraction(113, 100), spacing=Fraction(15, 2))
    loading = loaded(args.case, None, args.program)
    report = told_delay(loading, args.case, None, args.program)
    case = loading.case
    arrived = [int(sum(counts)) for counts in zip(*(loading.curves.arrived(end) for end in case.destinations))]
    runs = []
    for words in ([], *(ALSO.values() if args.also else ())):
        with tempfile.TemporaryDirectory() as folder:
            run_sumo(args.net, args.files, [*words, *args.sumo.split()], Path(folder))
            runs.append(read_run(Path(folder), net))
    run = runs[0]
    ours, theirs = by_label(report, run, Source.read(args.case, Roads.of(case.links)), net)
    print(
        f"{sum(row.units for row in case.demand) // UNITS} vehicles set out in ltm, and {len(run.arrivals)} in SUMO"
        + (f", which moves {run.moved} past a jam" if run.moved else "")
    )
    print(*totals_table(report, run), "", sep="\n")
    for name, other in zip(ALSO, runs[1:]):
        print(
            f"SUMO with {name}: {hours(other.spent):.2f} vehicle hours, and ltm"
            f" {share(Fraction(report.spent, MILLIONTHS), other.spent)}"
        )
    print(
        *([""] if args.also else []),
        *arrivals_table(case, arrived, run, quarter_before(run.first_ms)),
        "",
        *links_table(ours, theirs),
        f"correlation of delay by edge: {likeness_text(likeness(ours, theirs))}",
        sep="\n",
    )


def main() -> int:
    try:
        compare(parse_args())
    except Fault as fault:
        print(f"compare.py: {fault}", file=sys.stderr)
        return 1
    return 0


if __name__ == "__main__":
    sys.exit(main())
