"""`ltm-tools plot`: pictures of a curve file."""
from __future__ import annotations

import argparse
import os
from collections.abc import Sequence
from typing import TYPE_CHECKING, Any

from ..case import Case
from ..case.history import check_history_of
from ..counting.counts import FIT, HOLD
from ..counting.measures import GEH_BAD, GEH_GOOD
from ..counting.result import flow_pairs, read_fit
from ..errors import Fault
from ..loading.curves import Curves
from ..case.source import links_named, path_named
from ..show.plot import draw_arrivals, draw_counts, draw_iterations, draw_link, draw_path
from .arguments import write_picture

if TYPE_CHECKING:
    from matplotlib.figure import Figure

NAME = "plot"
SUMMARY = "draw a link, a path, arrivals, the iterations of `assign`, or loaded against counted volumes"
EXAMPLES = """example:
  ./ltm examples/corridor curves >/tmp/corridor.csv
  ltm-tools plot path examples/corridor r1 r2 r3 r4 r5 r6 r7 r8 works r9 /tmp/queue.png --curves /tmp/corridor.csv
  ltm-tools plot link examples/corridor works /tmp/works.svg --curves /tmp/corridor.csv
  ltm-tools plot counts fit.csv /tmp/scatter.png"""


def needs(args: argparse.Namespace) -> Sequence[str]:
    """The libraries beside Python's own that it cannot do without."""
    return ("matplotlib",)


def add_arguments(parser: argparse.ArgumentParser) -> None:
    what = parser.add_subparsers(dest="what", metavar="link|path|arrivals|iterations|counts", required=True)
    link = what.add_parser("link", help="what has entered and left a link, and what stands on it")
    path = what.add_parser("path", help="the vehicles per kilometre on each link of a path over time")
    arrivals = what.add_parser("arrivals", help="how many vehicles have arrived at each destination")
    for one in (link, path, arrivals):
        one.add_argument("case", help="the folder of the case, for the length of a slot and the links")
    link.add_argument("name", help="the link")
    path.add_argument("names", nargs="+", metavar="name", help="the links of the path in order")
    for one in (link, path, arrivals):
        one.add_argument("picture", help="the file to draw into; its ending says its kind, as queue.png or queue.svg")
        one.add_argument("--curves", metavar="FILE", help="the curve file (curves.csv in the folder; - is the input)")
    iterations = what.add_parser(
        "iterations", help="the vehicle hours and the relative gap of the iterations of `assign`"
    )
    iterations.add_argument("case", help="the folder that `assign` wrote")
    iterations.add_argument("picture", help="the file to draw into; its ending says its kind")
    counts = what.add_parser("counts", help="loaded against counted volumes, with the lines of GEH 5 and 10")
    counts.add_argument("fit", help="the fit.csv that `validate` wrote")
    counts.add_argument("picture", help="the file to draw into; its ending says its kind")


def run(args: argparse.Namespace) -> int:
    import matplotlib

    matplotlib.use("Agg")
    import matplotlib.pyplot as plot

    try:
        write_picture(picture(plot, args), args.picture)
    finally:
        plot.close("all")
    return 0


def picture(plot: Any, args: argparse.Namespace) -> Figure:
    """The picture that is asked for: of iterations, of a fit, or of a curve file."""
    if args.what == "iterations":
        from ..assign.result import read_iterations

        return draw_iterations(plot, *read_iterations(args.case))
    if args.what == "counts":
        rows = read_fit(args.fit)
        flows = {
            use: [(float(one.counted), float(one.modelled)) for one in flow_pairs(rows, use)] for use in (FIT, HOLD)
        }
        return draw_counts(plot, flows, (GEH_GOOD, GEH_BAD))
    return curve_picture(plot, args)


def curve_picture(plot: Any, args: argparse.Namespace) -> Figure:
    """A picture of a curve file."""
    case = Case.read_network(args.case)
    if args.curves is None and not os.path.exists(os.path.join(args.case, "curves.csv")):
        check_history_of(args.case, "a curve file")
        raise Fault(f"curves.csv is not there: ./ltm {args.case} curves >{args.case}/curves.csv writes it")
    links, streets = {link.name: link for link in case.links}, case.streets(args.case)
    curves = Curves.of_case(args.case, args.curves)
    if args.what == "link":
        return draw_link(plot, curves, links, links_named(args.case, links.values(), [args.name])[0], streets)
    if args.what == "path":
        return draw_path(plot, curves, links, path_named(args.case, links.values(), args.names), streets)
    return draw_arrivals(plot, curves)
