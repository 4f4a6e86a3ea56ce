"""`ltm-tools from-tntp`: makes a case of a network and its trips in the format of the Transportation Networks
collection (TNTP), in which the field's benchmarks stand.

NET has the links, TRIPS the vehicles between zones, NODES the places of nodes. The format leaves the units of lengths
and times open: they are taken from the header where it names them, or guessed by the speeds that come of them, which is
said first, or asked for. Nodes below <FIRST THRU NODE> are zones that no route leads through. `b`, `power`, speeds and
tolls are not read: delay comes of queues.

Each link gets a triangular diagram: the free speed by length and free-flow time, the jam density by lanes of
--lane-capacity, and the wave speed with which the top of the triangle is nearest to the capacity; or the wave speed by
--wave, and the jam density by the capacity.
"""
from __future__ import annotations

import argparse
from fractions import Fraction
from functools import partial

from ..network.lengths import METRES
from ..tntp.importing import TntpOptions, import_tntp, steps_of_tntp
from ..tntp.units import SECONDS
from .imports import (
    above_0,
    add_jam_argument,
    add_network_arguments,
    add_od_arguments,
    network_options,
    od_options,
    run_import,
)

NAME = "from-tntp"
SUMMARY = "import a network and trips from the Transportation Networks collection (TNTP)"
EXAMPLES = """\
  ltm-tools from-tntp town_net.tntp town_trips.tntp CASE --fit 5s --length-unit km
  ltm-tools from-tntp town_net.tntp town_trips.tntp town_node.tntp CASE --fit 5s --profile morning.csv
  ltm-tools from-tntp city_net.tntp city_trips.tntp CASE --steps --scale 0.1     trips of a day, a tenth of them
  then in CASE: ltm routes >splits.csv; ltm load
"""


def add_arguments(parser: argparse.ArgumentParser) -> None:
    """The arguments of the command."""
    parser.add_argument("net", help="the links (.._net.tntp)")
    parser.add_argument("trips", help="the trips (.._trips.tntp)")
    parser.add_argument("nodes", nargs="?", help="the places of nodes (.._node.tntp)")
    parser.add_argument("case", help="the folder to write the case to")
    add_network_arguments(parser)
    reading = parser.add_argument_group("what the network's fields mean")
    reading.add_argument(
        "--length-unit", choices=METRES, help="the unit of lengths (default: what the header says, else a guess)"
    )
    reading.add_argument(
        "--time-unit", choices=SECONDS, help="the unit of free-flow times (default: what the header says, else a guess)"
    )
    reading.add_argument(
        "--capacity-hours",
        type=above_0,
        default=Fraction(1),
        metavar="H",
        help="the hours for which capacities are stated, 24 for those of a day (default: 1)",
    )
    reading.add_argument(
        "--lane-capacity",
        type=above_0,
        default=Fraction(1800),
        metavar="N",
        help="the vehicles an hour of one lane, from which the number of lanes is worked out (default: 1800)",
    )
    add_jam_argument(reading)
    reading.add_argument(
        "--wave",
        type=above_0,
        metavar="KMH",
        help="the wave speed of all links; jam densities then follow from capacities",
    )
    demand = parser.add_argument_group("demand")
    demand.add_argument(
        "--scale", type=above_0, default=Fraction(1), metavar="F", help="multiply the trips by F (default: 1)"
    )
    add_od_arguments(demand)


def run(args: argparse.Namespace) -> int:
    """Makes the case."""
    files = args.net, args.trips, args.nodes
    return run_import(args, options_of, partial(import_tntp, *files), partial(steps_of_tntp, *files))


def options_of(args: argparse.Namespace) -> TntpOptions:
    """What the words of the command ask for."""
    return TntpOptions(
        **network_options(args),
        **od_options(args),
        length_unit=args.length_unit,
        time_unit=args.time_unit,
        capacity_hours=args.capacity_hours,
        lane_capacity=args.lane_capacity,
        jam=args.jam,
        wave=args.wave,
        scale=args.scale,
    )
