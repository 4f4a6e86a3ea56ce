"""Gives a case its splits: of counted routes, of turning counts, or of least routes; no destination has a circle."""
from __future__ import annotations

import argparse
import os

from ..case import Case, Split
from ..case.clock import read_clock, write_clock
from ..case.roads import Roads
from ..case.source import Source
from ..case.writing import write_demand, write_splits
from ..demand.counted_routes import read_counted
from ..demand.route_splits import circles, demand_of_routes, from_routes
from ..demand.turn_counts import from_turn_counts, read_turn_counts
from ..demand.values import slots_of
from ..errors import Fault
from ..files import write_bytes
from ..formats import MOST_ROWS_ASKED, many, short_vehicles
from ..program import output
from ..replacing import together
from .arguments import add_program_argument, add_reading_arguments, reading_of

NAME = "splits"
SUMMARY = "make the splits of a case from counted routes, turning counts or fastest routes"
EXAMPLES = """\
  ltm-tools splits CASE --routes counted.csv --start 7:00 --slice 15 --demand
  ltm-tools splits CASE --turns counts.csv
  ltm-tools splits CASE --least

  counted.csv   depart,vehicles,links as 7:03,2,a b c: the links of the case, or of the network it was imported from,
                in order, separated by blanks or semicolons; or nodes instead of links
  counts.csv    from_link,to_link,vehicles; or node,to_link,vehicles if it is not known from which link they came
With --routes, vehicles count in the slice in which they reach a node if nothing holds them up. Passages on a loop
that lead away from their destination are cut, and reported in per cent. Where nothing is known, vehicles take the
fastest route. splits.csv is replaced, and with --demand also demand.csv."""


def add_arguments(parser: argparse.ArgumentParser) -> None:
    """The arguments of the command."""
    kind = add_reading_arguments(
        parser,
        {"--routes": "a table of counted routes", "--turns": "a table of turning counts; the case needs its demand"},
        "the quarter of an hour before the first route",
        "of a row of splits",
    )
    kind.add_argument("--least", action="store_true", help="the fastest routes on empty roads, by `ltm routes`")
    parser.add_argument("--demand", action="store_true", help="also write the demand that the routes have")
    add_program_argument(parser)


def run(args: argparse.Namespace) -> int:
    """Writes the splits, and tells what was cut."""
    if args.slice < 1:
        raise Fault("--slice is at least 1")
    if args.least:
        return write_least_routes(args)
    case = Case.read(args.case, splits=False)
    roads = Roads.of(case.links)
    source = Source.read(args.case, roads)
    with together():
        rows, notes = (of_routes if args.routes is not None else of_turns)(case, roads, source, args)
        if len(rows) > case.setup.most_split_rows:
            raise Fault(
                f"{len(rows)} rows of splits, and at most {case.setup.most_split_rows} may be; give a longer"
                f" --slice than {args.slice}, or ask for up to"
                f" {MOST_ROWS_ASKED} in the column rows of setup.csv"
            )
        if circles(case.links, rows):
            raise Fault("a destination has a loop, which is a fault of this tool")
        write_splits(args.case, rows)
    ends = len({row.destination for row in rows})
    print(f"{many(len(rows), 'row')} of splits for {many(ends, 'destination')}; none has a loop")
    print(*notes, sep="\n")
    return 0


def write_least_routes(args: argparse.Namespace) -> int:
    """Writes what `ltm routes` says."""
    text = output(args.case, "routes", program=args.program)
    write_bytes(os.path.join(args.case, "splits.csv"), text)
    print(f"{many(text.count(10) - 1, 'row')} of splits, of least routes by free-flow time")
    return 0


def of_routes(case: Case, roads: Roads, source: Source, args: argparse.Namespace) -> tuple[list[Split], list[str]]:
    """The rows of counted routes, and with `--demand` their demand, which is written."""
    start = read_clock(args.case) if args.start is None else args.start
    found = read_counted(
        args.routes, roads, source, horizon_ms=case.setup.horizon_ms, start_ms=start, reading=reading_of(args)
    )
    notes = found.notes
    write_clock(args.case, found.start_ms)
    slice_slots = slots_of(args.slice, case.setup.step_ms)
    if args.demand:
        case.demand = demand_of_routes(found.routes, roads, case.setup, slice_slots)
        write_demand(args.case, case.demand, case.setup)
        units = sum(row.units for row in case.demand)
        notes.append(f"{short_vehicles(units)} vehicles of demand in {len(case.demand)} rows")
    rows, cuts = from_routes(
        case.links,
        found.routes,
        case.demand,
        step_ms=case.setup.step_ms,
        slots=case.setup.slots,
        slice_slots=slice_slots,
    )
    return rows, [*notes, *cuts.lines()]


def of_turns(case: Case, roads: Roads, source: Source, args: argparse.Namespace) -> tuple[list[Split], list[str]]:
    """The rows that fit turning counts."""
    turns, notes, contracted = read_turn_counts(args.turns, roads, source, reading_of(args))
    fitted = from_turn_counts(case.links, case.demand, turns)
    notes.append(
        f"{fitted.rounds} rounds of fitting; counted shares are met within {100 * fitted.off:.2f} % in the mean"
    )
    if contracted:
        notes.append(f"{contracted} counts are of links that were contracted, and are left out")
    return fitted.splits, notes
