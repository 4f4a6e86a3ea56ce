#!/usr/bin/env python3
"""Sets `calibrate` beside SUMO's routeSampler.py, by counts that SUMO made: `beside_sumo.py FOLDER`.

SUMO drives the vehicles of the town mesoscopically and counts by 5 minutes what enters its edges. A fifth of the edges
is known, another fifth held out. `calibrate` starts from a wrong prior, as `truths.py` makes it, and is given SUMO's
edgeData. routeSampler.py is given the same edgeData and all routes of the vehicles, takes as many of each as meet the
counts, and SUMO drives these. A row says how near each comes to SUMO's counts at the edges that were held out.

It needs Debian's packages sumo, sumo-tools and python3-numpy; LTM names the program.
"""
from __future__ import annotations

import argparse
import csv
import os
import random
import subprocess
import sys
import xml.etree.ElementTree as ElementTree
from collections.abc import Mapping
from fractions import Fraction
from pathlib import Path

sys.dont_write_bytecode = True
sys.path.insert(0, str(Path(__file__).resolve().parent))

from how_near import imported  # noqa: E402
from truths import LEAST, Near, Trial, loadings_of, near, prior_of, tool  # noqa: E402

from ltm_tools.case import Case  # noqa: E402
from ltm_tools.case.roads import Roads  # noqa: E402
from ltm_tools.case.source import Source  # noqa: E402
from ltm_tools.counting.measures import Pair, fit_of, percent  # noqa: E402

SPAN = 300  # seconds of a count
SHARE = Fraction(1, 5)  # of the edges of the net that are known, and that are held out
ERROR = (10, 2)  # of counts, in per cent and in vehicles: vehicles of SUMO set out at random
MOST_ODD = Fraction(1, 10)  # of the vehicles of an edge with a counter: those that set out or arrive on it
SAMPLER = "/usr/share/sumo/tools/routeSampler.py"
Counted = dict[str, dict[int, int]]  # of an edge by the second at which a span begins


def driven(net: Path, routes: Path, plans: Path, folder: Path, word: str) -> Path:
    """SUMO's edgeData of a mesoscopic run."""
    data, asked = folder / f"{word}.edges.xml", folder / f"{word}.add.xml"
    asked.write_text(f'<additional><edgeData id="e" file="{data}" period="{SPAN}" excludeEmpty="true"/></additional>\n')
    words = ["sumo", "-n", net, "-r", routes, "-a", f"{plans},{asked}", "--mesosim", "--meso-junction-control"]
    more = ["--seed", "1", "--no-step-log", "--no-warnings", "--xml-validation", "never"]
    subprocess.run([*map(str, words), *more], check=True, stdout=subprocess.DEVNULL)
    return data


def entered(data: Path) -> tuple[Counted, dict[str, int]]:
    """What entered each edge by span, and how many set out or arrived on it."""
    found: Counted = {}
    odd: dict[str, int] = {}
    for span in ElementTree.parse(data).getroot():
        begin = int(float(span.get("begin", "0")))
        for edge in span:
            name = edge.get("id", "")
            found.setdefault(name, {})[begin] = int(edge.get("entered", "0"))
            odd[name] = odd.get(name, 0) + int(edge.get("departed", "0")) + int(edge.get("arrived", "0"))
    return found, odd


def write_known(data: Path, known: set[str], to: Path) -> None:
    """The edgeData of these edges alone, by whole spans, with what entered them."""
    tree = ElementTree.parse(data)
    for span in list(tree.getroot()):
        if float(span.get("end", "0")) - float(span.get("begin", "0")) < SPAN:
            tree.getroot().remove(span)
        for edge in list(span):
            if edge.get("id") not in known:
                span.remove(edge)
            else:
                for name in [name for name in edge.attrib if name not in ("id", "entered")]:
                    del edge.attrib[name]
    tree.write(to)


def write_held(counted: Counted, held: set[str], spans: list[int], to: Path) -> None:
    """A table of the counts that are held out."""
    with open(to, "w", newline="") as file:
        out = csv.writer(file)
        out.writerow(("link", "from", "to", "vehicles", "use"))
        for name in sorted(held):
            for begin in spans:
                out.writerow((name, begin, begin + SPAN, counted[name].get(begin, 0), "hold"))


def measures(counted: Mapping[str, Mapping[int, int]], other: Counted, held: set[str], spans: list[int]) -> str:
    """GEH below 5 and RMSN of the counts of a run of SUMO beside those of another."""
    scale = Fraction(3600, SPAN)
    fit = fit_of(
        [
            Pair(scale * counted[name].get(begin, 0), scale * other.get(name, {}).get(begin, 0))
            for name in sorted(held)
            for begin in spans
        ]
    )
    return f"{percent(fit.below_5)} % | {fit.rmsn} %"


def sampled(folder: Path, net: Path, routes: Path, plans: Path, known: Path) -> Counted:
    """What SUMO counts of vehicles that routeSampler.py takes of the routes to meet the counts."""
    made = folder / "sampled.rou.xml"
    env = {**os.environ, "SUMO_HOME": str(Path(SAMPLER).parents[1])}
    words = ["/usr/bin/python3", SAMPLER, "-r", routes, "-d", known, "-o", made, "--seed", "1"]
    subprocess.run([*map(str, words)], check=True, env=env, stdout=subprocess.DEVNULL)
    return entered(driven(net, made, plans, folder, "sampled"))[0]


def text(one: Near) -> str:
    """GEH below 5 and RMSN."""
    return f"{one.below_5} % | {one.rmsn} %"


def main() -> None:
    parser = argparse.ArgumentParser(description=__doc__, formatter_class=argparse.RawDescriptionHelpFormatter)
    parser.add_argument("folder", type=Path)
    parser.add_argument("--seed", type=int, default=1)
    args = parser.parse_args()
    folder, town = args.folder.resolve() / str(args.seed), args.folder.resolve() / "town"
    case_folder = imported("town", town)
    folder.mkdir(exist_ok=True)
    net, routes, plans = town / "town.net.xml", town / "vehicles.rou.xml", town / "town.add.xml"
    data, draw = driven(net, routes, plans, folder, "truth"), random.Random(args.seed)
    counted, odd = entered(data)
    case = Case.read(str(case_folder))
    own = Source.read(str(case_folder), Roads.of(case.links)).links
    passed = {name: sum(some.values()) for name, some in counted.items() if name in own and own[name].all_links}
    busy = sorted(name for name, all_of in passed.items() if all_of >= LEAST and odd[name] <= MOST_ODD * all_of)
    draw.shuffle(busy)
    number = min(round(SHARE * len(counted)), len(busy) // 2)
    known, held = {*busy[:number]}, {*busy[number : 2 * number]}
    spans = sorted({begin for some in counted.values() for begin in some})[:-1]  # the last one ends with the run
    write_known(data, known, folder / "known.xml")
    write_held(counted, held, spans, folder / "held.csv")
    prior_of(case, Trial(seed=args.seed), draw).write(folder / "prior")
    words = [folder / "prior", "--counts", folder / "known.xml", folder / "held.csv", "-o", folder / "found"]
    sys.stdout.write(tool("calibrate", *words, "--samples", "0", "--count-error", *ERROR))
    print(f"{number} edges known, {number} held out, {len(spans)} spans; {loadings_of(folder / 'found')} loadings")
    for name, one in (("true demand", case_folder), ("prior", folder / "prior"), ("found", folder / "found")):
        print(f"| {name} | {text(near(one, folder / 'held.csv'))} |")
    other = sampled(folder, net, routes, plans, folder / "known.xml")
    print(f"| routeSampler, driven by SUMO | {measures(counted, other, held, spans)} |")
    print(f"| the same, at the known counts | {measures(counted, other, known, spans)} |")


if __name__ == "__main__":
    main()
