"""`ltm-tools geojson`: the links of a case for a map, with what their loading tells."""
from __future__ import annotations

import argparse

from ..case.clock import start_of
from ..files import write_text
from ..loading.loaded import loaded
from .arguments import add_case_arguments, add_start_argument, clock

NAME = "geojson"
SUMMARY = "write the links as GeoJSON for a GIS, with their queues and delay; needs a nodes.csv beside the case"
EXAMPLES = """\
    ltm-tools geojson CASE -o links.geojson
    ltm-tools geojson CASE --start 7:00 --at 7:45 -o links.geojson

Amounts are vehicles, and times vehicle seconds. nodes.csv has name,x,y and may have crs (docs/ANSWERS.md says more).
"""


def add_arguments(parser: argparse.ArgumentParser) -> None:
    add_case_arguments(parser)
    add_start_argument(parser)
    parser.add_argument("--at", metavar="CLOCK", type=clock, help="add what is on each link at this time")
    parser.add_argument(
        "-o", "--output", metavar="FILE", default="-", help="the file to write (default: the standard output)"
    )


def run(args: argparse.Namespace) -> int:
    start = start_of(args.start, args.case)
    one = loaded(args.case, args.curves, args.program)
    boundary = None if args.at is None else one.boundary_at(args.at, start)
    write_text(args.output, one.case.to_geojson(args.case, one.curves, boundary))
    return 0
