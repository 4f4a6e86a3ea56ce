"""Counts the traffic at crossings anew, and gives turns that yield to it their part of the green."""
from __future__ import annotations

import argparse
from pathlib import Path

from ..case import Case
from ..case.clock import read_clock
from ..case.roads import Roads
from ..case.streets import read_streets
from ..case.source import Source
from ..demand.counted_routes import CountedRoutes, read_counted
from ..files import existing
from ..formats import MINUTE_MS, many
from ..network.crossings.options import CrossingOptions
from ..network.crossings.recount import recount
from ..network.crossings.told import turns_told
from ..network.crossings.turns_file import read_turns as read_turns
from ..replacing import together
from ..sumo.driven import driven_routes, is_sumo
from .arguments import add_table_arguments, clock, reading_of, whole
from .imports import gap_argument

NAME = "turns"
SUMMARY = "count the traffic at crossings again, and set the limits of turns that yield to it"
EXAMPLES = """\
  ltm-tools turns CASE town.rou.xml
  ltm-tools turns CASE counted.csv --start 7:00 --gap 6,2.2,0

CASE has turns as links, as from-sumo and from-gmns make them. ROUTES are vehicles of SUMO with their routes, or counted
routes as `ltm-tools splits --routes` reads them. The limits of turns in signals.csv are replaced, those of other links
stay; in turns.csv the vehicles and factors are replaced."""


def add_arguments(parser: argparse.ArgumentParser) -> None:
    """The arguments of the command."""
    parser.add_argument("case", help="the folder of the case")
    parser.add_argument("routes", metavar="ROUTES", help="vehicles with their routes")
    parser.add_argument(
        "--start",
        metavar="CLOCK",
        type=clock,
        help="the clock time of slot 0 (that of the case, else the quarter of an hour before the first route)",
    )
    parser.add_argument(
        "--slice",
        type=whole,
        default=CrossingOptions.slice_minutes,
        metavar="MINUTES",
        help="the minutes over which traffic is counted (default: 10)",
    )
    parser.add_argument(
        "--gap",
        type=gap_argument,
        metavar="TC,TF,N",
        help=(
            "critical gap and follow-up time in seconds, and how many vehicles of a lane go when the green ends, for "
            "all turns that yield by gaps (default: those of turns.csv)"
        ),
    )
    add_table_arguments(parser)


def run(args: argparse.Namespace) -> int:
    """Writes the limits of turns anew, and tells what they are."""
    case = Case.read(args.case, routes=False)  # so that no routes are written that the program makes
    roads = Roads.of(case.links)
    turns = read_turns(args.case, roads.links)
    found = routes_of(args, case, roads)
    options = CrossingOptions(slice_minutes=args.slice)
    made = recount(case, turns, found.routes, options.slice_minutes * MINUTE_MS, args.gap)
    with together():
        case.write(args.case)
        made.turns.write(args.case)
    print(f"{many(len(case.signals), 'record')} of signals")
    print(
        *found.notes,
        *turns_told(
            made.turns.turns,
            made.turns.volumes,
            roads.links,
            case.setup,
            read_streets(args.case),
            sum(row.units for row in case.demand),
        ),
        sep="\n",
    )
    return 0


def routes_of(args: argparse.Namespace, case: Case, roads: Roads) -> CountedRoutes:
    """The routes of the file over links of the case."""
    source = Source.read(args.case, roads)
    start = read_clock(args.case) if args.start is None else args.start
    path: Path = existing(args.routes)
    if is_sumo(path):
        return driven_routes(path, roads, source, horizon_ms=case.setup.horizon_ms, start_ms=start)
    return read_counted(path, roads, source, horizon_ms=case.setup.horizon_ms, start_ms=start, reading=reading_of(args))
