"""`ltm-tools drive`: the vehicles of SUMO on the routes that the shares of a case say."""
from __future__ import annotations

import argparse
from pathlib import Path

from ..errors import Fault
from ..files import write_text
from ..formats import count_text, counted
from ..loading.loaded import loaded
from ..sumo.driving import Driver, NoWay, Roadmap, driven, routes_text, vehicles_of
from .arguments import add_case_arguments, whole

NAME = "drive"
SUMMARY = "send the vehicles of SUMO by the shares of a case: routes that SUMO takes"
EXAMPLES = """\
    ltm-tools drive ASSIGNED trips.rou.xml -o driven.rou.xml
    sumo --net-file town.net.xml --route-files driven.rou.xml --mesosim

CASE is what `from-sumo` made, as it is or as `assign` left it, and VEHICLES has the vehicles that it was made of, with
routes, or with the edges or the junctions where they begin and end. At each node a vehicle draws one of the links by
the shares for its destination at the time when it is there by the loading of the case. Edges that the import merged or
contracted are put back in. Types of vehicles, and all else that a vehicle says, stay. The same words draw the same. A
vehicle for which the case has no way, as one whose trip ends where it begins, keeps the route of its file.
"""


def add_arguments(parser: argparse.ArgumentParser) -> None:
    add_case_arguments(parser)
    parser.add_argument("vehicles", metavar="VEHICLES", help="a file of vehicles or trips of SUMO")
    parser.add_argument("-o", "--output", metavar="ROUTES", required=True, help="the file with their routes")
    parser.add_argument("--seed", type=whole, default=1, metavar="N", help="draw others (1)")


def run(args: argparse.Namespace) -> int:
    types, vehicles, others = vehicles_of(Path(args.vehicles))
    driver = Driver(args.case, Roadmap(args.case, loaded(args.case, args.curves, args.program, routes=True), args.seed))
    lines, kept, without, why = [], 0, 0, ""
    for vehicle in vehicles:
        try:
            lines.append(driven(vehicle, driver.route(vehicle)))
        except NoWay as fault:
            why = why or f"{vehicle.element.get('id', '')}: {fault}"
            if vehicle.edges:
                lines.append(driven(vehicle, vehicle.edges))
                kept += 1
            else:
                without += 1
    if kept + without == len(vehicles):
        raise Fault(f"the case has no way for any of the vehicles of {args.vehicles}: vehicle {why}")
    write_text(args.output, routes_text(types, lines))
    print(f"{args.output}: {counted(len(lines), 'vehicle')}")
    if kept:
        print(f"{count_text(kept)} of them keep the route of the file, as the case has no way for them ({why})")
    if without:
        print(f"{count_text(without)} trips left out, as the case has no way for them ({why})")
    if others:
        print(f"{count_text(others)} elements of other kinds left out, as flows: duarouter makes vehicles of these")
    return 0
