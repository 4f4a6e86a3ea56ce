"""`ltm-tools from-gmns`: makes a case of a network in the General Modeling Network Specification (GMNS).

NETWORK is a folder with `link.csv`, and `node.csv`, `demand.csv`, `config.csv` and `geometry.csv` where they are there.
CASE is a folder, made where it is not there; `setup.csv`, `links.csv` and `demand.csv` are written into it, and what
has become of each link and node of the network. What the case cannot carry is named, a line each, on the error output,
with what to do; then nothing is written and the status is 1. `ltm routes`, or `ltm-tools splits`, gives the case its
`splits.csv`.

    link.csv     link_id, from_node_id, to_node_id, and length, lanes, free_speed, capacity, facility_type where they
                 are there; a link whose field `directed` is 0 or false is a road in both directions
    node.csv     node_id, zone_id; the first node of a zone stands for it (--zone-nodes)
    demand.csv   o_zone_id, d_zone_id, volume: vehicles of the whole period, spread over it evenly, or over a --profile

Each link gets a triangular diagram: the free speed in whole km/h, the jam density of its lanes, and the wave speed, in
whole km/h, with which the top of the triangle is nearest to the capacity.
"""
from __future__ import annotations

import argparse
from functools import partial

from ..gmns.fields import KMH
from ..gmns.importing import GmnsOptions, import_gmns, steps_of_gmns
from ..network.lengths import METRES, UNITS
from .arguments import add_table_arguments, reading_of
from .imports import (
    add_crossing_arguments,
    add_jam_argument,
    add_network_arguments,
    add_od_arguments,
    add_yielding_argument,
    network_options,
    od_options,
    run_import,
)

NAME = "from-gmns"
SUMMARY = "import a network from GMNS"
EXAMPLES = """\
  ltm-tools from-gmns town CASE --period 30 --horizon 30     the network as it is
  ltm-tools from-gmns city CASE --steps                      what a fit to each of some steps would change
  ltm-tools from-gmns city CASE --fit 5s --rename --profile morning.csv
  then in CASE: ltm routes >splits.csv; ltm load             or ltm-tools splits CASE --routes counted.csv
"""


def add_arguments(parser: argparse.ArgumentParser) -> None:
    """The arguments of the command."""
    parser.add_argument("network", help="the folder with link.csv and node.csv")
    parser.add_argument("case", help="the folder to write the case to")
    add_network_arguments(parser)
    add_yielding_argument(add_crossing_arguments(parser))
    reading = parser.add_argument_group("what the network's fields mean")
    add_jam_argument(reading)
    reading.add_argument(
        "--length-unit",
        choices=METRES,
        help=(
            "the unit of length (default: what config.csv says, else what the places of nodes suggest, which is then "
            "reported first, else m)"
        ),
    )
    reading.add_argument(
        "--speed-unit", choices=KMH, help="the unit of free_speed (default: what config.csv says, else kmh)"
    )
    reading.add_argument(
        "--places",
        choices=UNITS,
        help="the unit of places, for links without a length (default: degrees if they can be degrees)",
    )
    reading.add_argument(
        "--crs",
        type=str.upper,
        metavar="EPSG:CODE",
        help=(
            "the projection of places, such as EPSG:25832, which nodes.csv will name (default: what config.csv says, "
            "else EPSG:4326 for degrees)"
        ),
    )
    reading.add_argument(
        "--capacity",
        choices=["lane", "link"],
        default="lane",
        help="whether capacity, in vehicles an hour, is that of one lane (default) or of all lanes of the link",
    )
    add_table_arguments(reading)
    demand = parser.add_argument_group("demand")
    demand.add_argument(
        "--demand",
        metavar="FILE",
        help="the table of origins and destinations (default: demand.csv of the network, if there is one)",
    )
    demand.add_argument(
        "--zone-nodes",
        choices=["first", "even"],
        default="first",
        help=(
            "which nodes of a zone its trips use: the first (default), or all of them evenly or by a field zone_share"
        ),
    )
    add_od_arguments(demand)


def run(args: argparse.Namespace) -> int:
    """Makes the case."""
    return run_import(args, options_of, partial(import_gmns, args.network), partial(steps_of_gmns, args.network))


def options_of(args: argparse.Namespace) -> GmnsOptions:
    """What the words of the command ask for."""
    return GmnsOptions(
        **network_options(args),
        **od_options(args),
        jam=args.jam,
        length_unit=args.length_unit,
        speed_unit=args.speed_unit,
        places=args.places,
        crs=args.crs,
        capacity=args.capacity,
        reading=reading_of(args),
        demand=args.demand,
        zone_nodes=args.zone_nodes,
    )
