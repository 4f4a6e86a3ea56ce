"""`ltm-tools from-sumo`: makes a case of a network of SUMO, with its vehicles and its fixed-time programs."""
from __future__ import annotations

import argparse
from fractions import Fraction
from functools import partial

from ..errors import Fault
from ..formats import LONGEST_SECONDS, clock_ms, count_text, exact_or_none
from ..sumo.importing import import_sumo, steps_of_sumo
from ..sumo.options import SumoOptions
from .arguments import whole
from .imports import (
    above_0,
    add_crossing_arguments,
    add_destinations_argument,
    add_network_arguments,
    add_route_arguments,
    network_options,
    run_import,
)

NAME = "from-sumo"
SUMMARY = "import a network, vehicles and signals from SUMO"
EXAMPLES = """\
  ltm-tools from-sumo town.net.xml town.rou.xml CASE --fit 5s
  ltm-tools from-sumo town.net.xml trips.xml plans.add.xml CASE --begin 7:00 --end 8:00 --destinations 32
  then in CASE: ltm load

SUMO's netconvert (Debian package sumo) makes a net from OpenStreetMap, VISUM and others. The content of a file says
what it is: vehicles, trips and flows, types, routes, or signal programs; .gz files are unpacked. Trips without a route
take the fastest one on empty roads. Give the net first, and files of types or routes before the files that use them.
"""


def add_arguments(parser: argparse.ArgumentParser) -> None:
    """The arguments of the command."""
    parser.add_argument("net", help="the network (.net.xml)")
    parser.add_argument("files", nargs="*", help="vehicles, trips or flows, and signal programs")
    parser.add_argument("case", help="the folder to write the case to")
    add_network_arguments(parser)
    add_route_arguments(add_crossing_arguments(parser))
    parser.set_defaults(rename=True)
    group = parser.add_argument_group("what is read")
    add_time_arguments(group)
    add_net_arguments(group)


def add_time_arguments(group: argparse._ArgumentGroup) -> None:
    """The arguments on times, and on how rows are cut."""
    group.add_argument(
        "--begin",
        metavar="TIME",
        help=(
            "when slot 0 begins, such as 7:00, or in seconds; it goes into clock.txt (default: the quarter of an hour"
            " before the first vehicle)"
        ),
    )
    group.add_argument("--end", metavar="TIME", help="leave out vehicles that set out from this time on")
    group.add_argument(
        "--horizon",
        type=whole,
        metavar="MINUTES",
        help="the length of the horizon in minutes (default: until 30 minutes after the last vehicle sets out)",
    )
    group.add_argument(
        "--demand-slice",
        type=whole,
        metavar="MINUTES",
        help="the minutes of a row of demand (default: as few as the number of rows allows)",
    )
    group.add_argument(
        "--slice",
        type=whole,
        metavar="MINUTES",
        help="the minutes of a row of splits (default: 15, or more if there would be too many rows)",
    )
    add_destinations_argument(group)


def add_net_arguments(group: argparse._ArgumentGroup) -> None:
    """The arguments on ends, signals and lanes."""
    group.add_argument(
        "--ends",
        choices=("node", "edge"),
        help=(
            "where trips end: on their last edge, which gets a destination of its own if others lead to the same node, "
            "as far as a case takes so many (edge, default); or at the end node of that edge, by whichever edge they "
            "come (node)"
        ),
    )
    group.add_argument(
        "--allow-losses",
        action="store_true",
        help=(
            "make the case even if over 1 %% of the vehicles are left out, such as those not for cars, or would wait "
            "for ever before turns without any green"
        ),
    )
    group.add_argument("--no-signals", action="store_true", help="leave out signals")
    group.add_argument(
        "--wait-at-ends",
        action="store_true",
        help="let trips wait for the signal at the end of their last edge, which they need not do in SUMO",
    )
    group.add_argument(
        "--yellow",
        action=argparse.BooleanOptionalAction,
        default=True,
        help="whether vehicles go on yellow, as they do in SUMO (default: yes)",
    )
    add_lane_arguments(group)


def add_lane_arguments(group: argparse._ArgumentGroup) -> None:
    """The arguments on lanes, and how vehicles follow one another there."""
    group.add_argument(
        "--vehicle-class", default="passenger", metavar="CLASS", help="whose lanes count (default: passenger)"
    )
    group.add_argument(
        "--headway",
        type=above_0,
        default=Fraction(113, 100),
        metavar="S",
        help=(
            "the seconds between two vehicles of a lane, besides the time to drive --spacing (default: 1.13, as in "
            "SUMO's mesoscopic runs)"
        ),
    )
    group.add_argument(
        "--spacing",
        type=above_0,
        metavar="M",
        help=(
            "the metres that a standing vehicle takes (default: the mean length and minGap of the vehicle types, else"
            " 7.5)"
        ),
    )


def run(args: argparse.Namespace) -> int:
    """Makes the case."""
    return run_import(
        args, options_of, partial(import_sumo, args.net, args.files), partial(steps_of_sumo, args.net, args.files)
    )


def options_of(args: argparse.Namespace) -> SumoOptions:
    """What the words of the command ask for."""
    if args.ends == "edge" and args.wait_at_ends:
        raise Fault("--ends edge cuts edges at which trips end, and --wait-at-ends leaves them whole: give one of them")
    begin, end = (
        None if text is None else time_ms(text, name) for text, name in ((args.begin, "--begin"), (args.end, "--end"))
    )
    return SumoOptions(
        **network_options(args),
        begin_ms=begin,
        end_ms=end,
        horizon=args.horizon,
        demand_slice=args.demand_slice,
        slice=args.slice,
        signals=not args.no_signals,
        wait_at_ends=args.wait_at_ends,
        yellow=args.yellow,
        vehicle_class=args.vehicle_class,
        volumes=args.volumes,
        allow_losses=args.allow_losses,
        ends=args.ends or "edge",
        headway=args.headway,
        spacing=args.spacing,
    )


def time_ms(text: str, name: str) -> int:
    """A time of the command line, as a clock tells it or in seconds."""
    if ":" in text:
        return clock_ms(text)
    seconds = exact_or_none(text)
    if seconds is None or abs(seconds) > LONGEST_SECONDS:
        raise Fault(f"{name} {text!r} is no time; as 7:00, or seconds, of at most {count_text(LONGEST_SECONDS)}")
    return int(seconds * 1000)
