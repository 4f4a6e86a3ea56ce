#!/usr/bin/env python3
"""Makes a raw network of real size with vehicles on it, by SUMO's own generator: `make.py NAME FOLDER`.

    town     a grid of 7 by 7 crossings with fixed-time signals, each with an offset of its own: 224 links, half an hour
             of vehicles to 24 places at its rim
    region   a network of random roads without signals: some 2,000 links, a quarter of an hour of vehicles to 12 places
    web      6 rings around a place that 9 roads lead to, without signals: half an hour of vehicles to 12 places

--share 0.1 keeps a tenth of the vehicles, so that nobody holds up another. It needs Debian's package sumo (netgenerate,
duarouter). The same words make the same vehicles, and with the same release of SUMO the same network and routes.
"""
import argparse
import random
import shutil
import subprocess
import sys
import xml.etree.ElementTree as ElementTree
from pathlib import Path

NETS = {
    "town": [
        "--grid",
        "--grid.number",
        "7",
        "--grid.length",
        "180",
        "--grid.attach-length",
        "150",
        "--default.lanenumber",
        "2",
        "--default-junction-type",
        "traffic_light",
        "--no-turnarounds",
    ],
    "region": [
        "--rand",
        "--rand.iterations",
        "700",
        "--rand.min-distance",
        "260",
        "--rand.max-distance",
        "600",
        "--rand.connectivity",
        "0.97",
        "--default.speed",
        "16.67",
        "--default-junction-type",
        "priority",
        "--no-turnarounds",
        "--seed",
        "11",
    ],
    "web": [
        "--spider",
        "--spider.arm-number",
        "9",
        "--spider.circle-number",
        "6",
        "--spider.space-radius",
        "200",
        "--default-junction-type",
        "priority",
        "--no-turnarounds",
    ],
}
MINUTES = {"town": 30, "region": 15, "web": 30}
VEHICLES = {"town": 4500, "region": 4500, "web": 2000}
PLACES = {"town": 24, "region": 12, "web": 12}
RIM = {"town": 28, "region": None, "web": None}


def parse_args() -> argparse.Namespace:
    parser = argparse.ArgumentParser(description=__doc__, formatter_class=argparse.RawDescriptionHelpFormatter)
    parser.add_argument("name", choices=NETS)
    parser.add_argument("folder", type=Path)
    parser.add_argument("--share", type=float, default=1.0, help="the share of the vehicles that set out (1)")
    return parser.parse_args()


def run(words: list[str]) -> None:
    """Runs a program of SUMO; the end where it is missing or fails."""
    if shutil.which(words[0]) is None:
        sys.exit(f"make.py: {words[0]} is missing: apt-get install sumo")
    done = subprocess.run(words, capture_output=True, text=True)
    if done.returncode:
        sys.exit(
            f"make.py: {words[0]}:"
            f" {done.stderr.strip().splitlines()[-1] if done.stderr.strip() else done.returncode}"
        )


def junctions(net: Path) -> list[tuple[str, float, float]]:
    """The junctions with their places, those at the rim included and first."""
    found = [node for node in ElementTree.parse(net).getroot().iter("junction") if node.get("type") != "internal"]
    return [
        (node.get("id", ""), float(node.get("x", "0")), float(node.get("y", "0")))
        for node in sorted(found, key=lambda node: node.get("type") != "dead_end")
    ]


def offsets(net: Path, plans: Path) -> None:
    """Writes the programs of a net's signals with an offset for each."""
    draw = random.Random(2).random
    root = ElementTree.Element("additional")
    for program in ElementTree.parse(net).getroot().iter("tlLogic"):
        cycle = sum(float(phase.get("duration", "0")) for phase in program.iter("phase"))
        program.set("programID", "offset")
        program.set("offset", str(int(draw() * cycle)))
        root.append(program)
    ElementTree.ElementTree(root).write(plans, encoding="UTF-8", xml_declaration=True)


def trips(name: str, nodes: list[tuple[str, float, float]], share: float) -> list[tuple[float, str, str]]:
    """When vehicles set out, from where and where to: most in the middle of the time, from any junction to some places
    far enough away."""
    draw = random.Random(1).random
    places = sorted(nodes[: RIM[name]], key=lambda node: draw())[: PLACES[name]]
    wide = max(node[1] for node in nodes) - min(node[1] for node in nodes)
    made = []
    while len(made) < VEHICLES[name]:
        start, end = nodes[int(draw() * len(nodes))], places[int(draw() ** 1.5 * len(places))]
        depart = 60 * MINUTES[name] * (draw() + draw()) / 2
        kept = draw() < share
        if abs(start[1] - end[1]) + abs(start[2] - end[2]) > wide / 3:
            made.append((depart, start[0], end[0]) if kept else (depart, "", ""))
    return sorted(one for one in made if one[1])


def main() -> None:
    args = parse_args()
    args.folder.mkdir(parents=True, exist_ok=True)
    net, wishes, routes = (args.folder / f"{args.name}.{kind}.xml" for kind in ("net", "trips", "rou"))
    run(["netgenerate", *NETS[args.name], "-o", str(net)])
    if args.name == "town":
        offsets(net, args.folder / "town.add.xml")
    lines = [
        f'  <trip id="{number}" depart="{depart:.2f}" fromJunction="{start}" toJunction="{end}"/>'
        for number, (depart, start, end) in enumerate(trips(args.name, junctions(net), args.share))
    ]
    wishes.write_text("<routes>\n" + "\n".join(lines) + "\n</routes>\n")
    run(
        [
            "duarouter",
            "-n",
            str(net),
            "-t",
            str(wishes),
            "--junction-taz",
            "--weights.random-factor",
            "1.5",
            "--seed",
            "1",
            "--ignore-errors",
            "--no-warnings",
            "-o",
            str(routes),
        ]
    )
    edges = sum(edge.get("function") != "internal" for edge in ElementTree.parse(net).getroot().iter("edge"))
    vehicles = sum(1 for _ in ElementTree.parse(routes).getroot().iter("vehicle"))
    print(f"{net} has {edges} links, and {routes} {vehicles} vehicles in {MINUTES[args.name]} minutes")


main()
