"""`ltm-tools cut`: the inside of a network as a case of its own."""
from __future__ import annotations

import argparse
from collections.abc import Mapping, Sequence
from math import isfinite

from ..case import Case
from ..case.roads import Roads
from ..case.source import Source
from ..case.streets import read_streets, street_and_id
from ..cutting.beside import write_beside
from ..cutting.cut import Cut, cut
from ..cutting.edge import queues_at_edge
from ..cutting.inside import Inside, in_box, in_file
from ..cutting.largest import largest_difference
from ..errors import Fault
from ..files import output_folder
from ..formats import MINUTE_MS, UNITS, count_text, counted, short_vehicles
from ..loading.loaded import LoadedCase, loaded, loaded_by_destination
from ..replacing import together
from .arguments import add_case_arguments, whole

NAME = "cut"
SUMMARY = "make a case of the inside of a network, with the traffic that enters and leaves it at the edge"
EXAMPLES = """\
    ltm-tools cut /tmp/town/case --box 400 400 1000 1000 -o /tmp/inside
    ltm-tools cut /tmp/town/case --links wanted.csv -o /tmp/inside

A link is inside if both of its ends are in the box, whose sides count as inside; x and y are as in nodes.csv. With
--links FILE the links are those that a table names in its column `link`. Vehicles come in where the loading of the
whole case has them come in, slot by slot, and their destinations are the nodes at which they leave the inside.
Of a case without history a copy that keeps one is loaded, where it is small enough for one. docs/CUT.md says more.
"""
MOST_NAMED = 5


def add_arguments(parser: argparse.ArgumentParser) -> None:
    add_case_arguments(parser)
    kind = parser.add_mutually_exclusive_group(required=True)
    kind.add_argument(
        "--box", metavar=("X1", "Y1", "X2", "Y2"), nargs=4, type=number, help="two corners of a box, as in nodes.csv"
    )
    kind.add_argument("--links", metavar="FILE", help="a table with the links to keep, in a column `link`")
    parser.add_argument("-o", "--output", dest="to", metavar="OUT", required=True, help="the folder of the new case")
    parser.add_argument(
        "--slice",
        metavar="MINUTES",
        type=whole,
        default=1,
        help="for how many minutes turning fractions stay the same (1; 0 for a slot)",
    )


def number(text: str) -> float:
    """A coordinate."""
    try:
        found = float(text)
    except ValueError:
        found = float("nan")
    if not isfinite(found):
        raise argparse.ArgumentTypeError(f"{text} is no coordinate")
    return found


def run(args: argparse.Namespace) -> int:
    """Writes the case, and tells what it has and how far its loading is from that of the whole."""
    if args.slice < 0:
        raise Fault(f"--slice {args.slice} is no number of minutes")
    with output_folder(args.to):
        whole_case = loaded_by_destination(args.case, args.curves, args.program)
        case = whole_case.case
        if case.splits is None:
            raise Fault(f"{args.case} has no splits.csv, so it has no loading to cut")
        inside = inside_of(args, case)
        made = cut(case, whole_case.curves, inside, max(1, args.slice * MINUTE_MS // case.setup.step_ms))
        with together():
            made.case.write(args.to)
            write_beside(args.case, args.to, case, inside)
    print(*told(case, inside, made), sep="\n", flush=True)
    streets = read_streets(args.case)
    print(*edge_told(whole_case, inside, streets), sep="\n", flush=True)
    name, slot, units = largest_difference(whole_case.curves, loaded(args.to, None, args.program).curves, inside)
    named = street_and_id(name, streets)
    print(f"its loading and that of the whole differ most at {named}, by {vehicles(units)} at boundary {slot}")
    return 0


def inside_of(args: argparse.Namespace, case: Case) -> Inside:
    """The links that are asked for."""
    if args.links is not None:
        return Inside.of(case, in_file(case, Source.read(args.case, Roads.of(case.links)), args.links))
    return Inside.of(case, in_box(case, case.places(args.case), args.box))


def told(case: Case, inside: Inside, made: Cut) -> Sequence[str]:
    """What the new case has."""
    units = sum(row.units for row in made.case.demand)
    origins, ends = len({row.origin for row in made.case.demand}), len(made.case.destinations)
    lines = [
        f"{len(inside.links)} of {counted(len(case.links), 'link')}, {counted(origins, 'origin')},"
        f" {counted(ends, 'destination')}; {vehicles(units)} come in or set out",
        f"{count_text(len(made.case.demand))} rows of demand, {count_text(len(made.case.splits or ()))} of splits",
        *made.notes,
    ]
    if made.back:
        lines.append(f"{vehicles(made.back)} leave where they come in, and are left out")
    return lines


def edge_told(loading: LoadedCase, inside: Inside, streets: Mapping[str, str]) -> Sequence[str]:
    """Where queues reach the edge."""
    found = queues_at_edge(loading.case, loading.curves, inside)
    if not found:
        return ["no queue reaches the edge"]
    named = ", ".join(f"{street_and_id(name, streets)} ({slots} slots)" for name, slots in found[:MOST_NAMED])
    return [
        f"queues reach the edge at {counted(len(found), 'link')}, most at {named}: what they hold back on the other"
        " side of the edge stays as it was loaded"
    ]


def vehicles(units: int) -> str:
    """An amount in vehicles."""
    return f"{short_vehicles(units)} vehicle{'s' * (units != UNITS)}"
