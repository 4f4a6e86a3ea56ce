"""`ltm-tools draw`: pictures for a report, in clock time: how full a path was, a map at a moment, the cumulative curves
of a path."""
from __future__ import annotations

import argparse
import os
from collections.abc import Sequence
from typing import TYPE_CHECKING, Any

from ..case.clock import start_of
from ..counting.result import misfits, read_fit
from ..errors import Fault
from ..loading.loaded import LoadedCase, loaded
from ..case.source import path_named
from ..show.draw import draw_map, draw_misfits, draw_newell, draw_shares, draw_worths
from ..worth.result import read_worths, savings
from .arguments import add_curves_arguments, add_start_argument, clock, write_picture

if TYPE_CHECKING:
    from matplotlib.figure import Figure

NAME = "draw"
SUMMARY = "draw how full a path was, a map at one moment, or the cumulative curves of a path; two cases side by side"
EXAMPLES = """\
    ltm-tools draw full examples/corridor r1 r2 r3 r4 r5 r6 r7 r8 works r9 -o full.png --start 7:00 --other WIDER
    ltm-tools draw map examples/closures -o map.png --start 7:00 --at 7:15
    ltm-tools draw map CASE -o misfits.png --fit fit.csv
    ltm-tools draw map CASE -o worth.png --worth worth.csv
    ltm-tools draw curves examples/spillback a b -o curves.svg
"""


def needs(args: argparse.Namespace) -> Sequence[str]:
    """The libraries beside Python's own that it cannot do without."""
    return ("matplotlib",)


def add_arguments(parser: argparse.ArgumentParser) -> None:
    what = parser.add_subparsers(dest="what", metavar="full|map|curves", required=True)
    full = what.add_parser(
        "full",
        help="the vehicles on each link of a path over time, in percent of what the link can store",
    )
    over = what.add_parser("map", help="the network at one moment, coloured by queues")
    curves = what.add_parser("curves", help="how many vehicles have passed each point of a path")
    for one in (full, over, curves):
        one.add_argument("case", metavar="CASE", help="the folder of a case")
        if one is not over:
            one.add_argument("names", metavar="LINK", nargs="+", help="the links of the path in order")
        one.add_argument(
            "-o",
            "--output",
            dest="picture",
            metavar="PICTURE",
            required=True,
            help="the file to draw into; its ending says its kind, as queue.png or queue.svg",
        )
        add_curves_arguments(one)
        add_start_argument(one)
    for one in (full, over):
        one.add_argument("--other", metavar="OTHER", help="the folder of a second case, drawn beside the first")
        one.add_argument("--other-curves", metavar="FILE", help="a curve file of OTHER")
        one.add_argument("--names", metavar="NAME", nargs=2, dest="titles", help="what stands above the two")
    over.add_argument("--at", metavar="CLOCK", type=clock, help="the moment, as 7:45")
    over.add_argument(
        "--fit", metavar="FILE", help="the fit.csv of `validate`: colours by how much more is loaded than was counted"
    )
    over.add_argument(
        "--worth", metavar="FILE", help="a table of `bottlenecks --format csv`: colours by what more capacity saves"
    )


def run(args: argparse.Namespace) -> int:
    import matplotlib

    matplotlib.use("Agg")
    import matplotlib.pyplot as plot

    if args.what == "map" and [args.at, args.fit, args.worth].count(None) != 2:
        raise Fault(
            "a map is of a moment, --at CLOCK, of a fit, --fit FILE, or of worths, --worth FILE: say one of them"
        )
    both, folders = [loaded(args.case, args.curves, args.program)], [args.case]
    if getattr(args, "other", None) is not None:
        both.append(loaded(args.other, args.other_curves, args.program))
        folders.append(args.other)
    try:
        write_picture(picture(plot, args, both, folders), args.picture)
    finally:
        plot.close("all")
    return 0


def picture(plot: Any, args: argparse.Namespace, both: list[LoadedCase], folders: list[str]) -> "Figure":
    """The picture that is asked for, of one loading or of two."""
    start = start_of(args.start, *folders)
    titles = getattr(args, "titles", None) or [os.path.basename(os.path.abspath(folder)) for folder in folders]
    streets = both[0].case.streets(folders[0])
    if args.what == "full":
        return draw_shares(plot, both, titles, path_named(args.case, both[0].case.links, args.names), start, streets)
    if args.what == "curves":
        return draw_newell(plot, both[0], path_named(args.case, both[0].case.links, args.names), start, streets)
    if args.fit is not None:
        return draw_misfits(plot, both[0], folders[0], titles[0], misfits(read_fit(args.fit)))
    if args.worth is not None:
        return draw_worths(plot, both[0], folders[0], titles[0], savings(read_worths(args.worth)))
    return draw_map(plot, both, folders, titles, both[0].boundary_at(args.at, start), start)
