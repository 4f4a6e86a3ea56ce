"""Gives a case its demand: a table of origins and destinations with a profile, or trips with times."""
from __future__ import annotations

import argparse

from ..case import Case, Demand
from ..case.clock import read_clock, write_clock
from ..case.roads import Roads
from ..case.source import Source
from ..case.writing import write_demand
from ..demand.matrices import demand_of_amounts, read_amounts
from ..demand.profiles import Part, even_profile, read_profile
from ..demand.rows import with_routes
from ..demand.trips import demand_of_trips, read_trips
from ..errors import Fault
from ..files import existing
from ..formats import clock_text, many, short_vehicles
from ..replacing import together
from .arguments import add_reading_arguments, reading_of, whole

NAME = "demand"
SUMMARY = "make the demand of a case from a table of vehicles with a profile, or from trips"
EXAMPLES = """\
  ltm-tools demand CASE --table od.csv --profile morning.csv --start 7:00
  ltm-tools demand CASE --table od.csv --period 60
  ltm-tools demand CASE --trips trips.csv --slice 15 --start 7:00

  od.csv        origin,destination,vehicles; or a matrix, with origins down and destinations across
  morning.csv   from,to,share as 7:00,7:15,0.2; shares or counts, in any unit, of which the sum is all
  trips.csv     origin,destination,depart as A,B,7:04:30, and vehicles where it is not 1
Nodes are those of the case, or of the network it was imported from. demand.csv is replaced; the old splits.csv may
then lack rows."""


def add_arguments(parser: argparse.ArgumentParser) -> None:
    """The arguments of the command."""
    add_reading_arguments(
        parser,
        {"--table": "a table of vehicles by origin and destination", "--trips": "a table of trips, each with its time"},
        "the first time of the profile, or the quarter of an hour before the first trip",
        "over which trips are counted together",
    )
    parser.add_argument("--profile", metavar="FILE", help="a table of when the vehicles set out")
    parser.add_argument(
        "--period",
        type=whole,
        metavar="MINUTES",
        help="let vehicles set out evenly over so many minutes, instead of a profile (default: over all slots)",
    )
    parser.add_argument(
        "--leave-out-unreached", action="store_true", help="leave out demand that has no route, and report how much"
    )


def run(args: argparse.Namespace) -> int:
    """Writes the demand, and tells what it is."""
    case = Case.read_network(args.case)
    roads = Roads.of(case.links)
    source = Source.read(args.case, roads)
    rows, notes, start = (rows_of_table if args.table is not None else rows_of_trips)(case, source, args)
    rows, left_out = with_routes(
        rows, roads, most_destinations=case.setup.most_destinations, leave_out=args.leave_out_unreached
    )
    notes += left_out
    with together():
        write_demand(args.case, rows, case.setup)
        if start is not None:
            write_clock(args.case, start)
    ends = {row.destination for row in rows}
    total = sum(row.units for row in rows)
    print(f"{short_vehicles(total)} vehicles to {many(len(ends), 'destination')} in {many(len(rows), 'row')}")
    print(*notes, sep="\n", end="\n" if notes else "")
    return 0


def rows_of_table(case: Case, source: Source, args: argparse.Namespace) -> tuple[list[Demand], list[str], int | None]:
    """The rows of a table, spread over a profile or a period; notes on them; and the clock time of slot 0, where it is
    known."""
    amounts = read_amounts(existing(args.table), reading_of(args))
    parts, told, start = profile_of(case, args)
    rows, inner = demand_of_amounts(amounts, parts, source, case.setup)
    notes = [*amounts.notes, *told]
    notes += [f"{float(inner):g} vehicles stay within a node and are left out"] if inner else []
    return rows, notes, start


def profile_of(case: Case, args: argparse.Namespace) -> tuple[list[Part], list[str], int | None]:
    """The profile asked for, notes on it, and the clock time of slot 0, where it is known."""
    start = start_asked(args)
    if args.profile is None:
        return even_profile(case.setup, args.period), [], start
    parts, begun, told = read_profile(
        existing(args.profile), start_ms=start, step_ms=case.setup.step_ms, reading=reading_of(args)
    )
    return parts, [*told, f"slot 0 begins at {clock_text(begun)}"], begun


def start_asked(args: argparse.Namespace) -> int | None:
    """The clock time of slot 0, as it is asked for or as the case has it."""
    return read_clock(args.case) if args.start is None else int(args.start)


def rows_of_trips(case: Case, source: Source, args: argparse.Namespace) -> tuple[list[Demand], list[str], int | None]:
    """The rows of trips, counted by slices; notes on them; and the clock time of slot 0."""
    trips = read_trips(existing(args.trips), reading_of(args))
    if not trips:
        raise Fault(f"{args.trips}: no trips")
    made = demand_of_trips(trips, source, case.setup, slice_minutes=args.slice, start_ms=start_asked(args))
    return made.rows, made.notes, made.start_ms
