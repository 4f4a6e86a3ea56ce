"""`ltm-tools page`: a loading as one HTML file to look at in a browser."""
from __future__ import annotations

import argparse
import os
from collections.abc import Sequence

from ..case.clock import start_of
from ..counting.result import misfits, read_fit
from ..files import readable, write_text
from ..formats import units_of
from ..loading.curves import Summed
from ..loading.loaded import LoadedCase, loaded
from ..loading.told import check_gap, told_gap
from ..show.page import find_d3, page
from ..worth.result import read_worths, savings
from .arguments import add_curves_arguments, add_each_link_argument, add_gap_argument, add_start_argument

NAME = "page"
SUMMARY = "write a map page: one HTML file with the network over time, the curves of each link, and the queues"
EXAMPLES = """\
    ltm-tools page examples/corridor --start 7:00 -o corridor.html
    ltm-tools page examples/corridor WIDER --names before after -o both.html

The file opens in any browser, without a server or a network. Nodes lie where nodes.csv in the folder says (name,x,y);
without it they are laid out by the lengths of the links. The file contains the library d3, which is taken from Debian's
package node-d3, or from --d3 FILE.
"""


def needs(args: argparse.Namespace) -> Sequence[str]:
    """The libraries beside Python's own that it cannot do without."""
    return ("d3",) if args.d3 is None else ()


def add_arguments(parser: argparse.ArgumentParser) -> None:
    parser.add_argument("case", metavar="CASE", help="the folder of a case")
    parser.add_argument("other", metavar="OTHER", nargs="?", help="the folder of a second, to compare by a switch")
    parser.add_argument("-o", "--output", metavar="FILE", required=True, help="the file to write, as queues.html")
    add_curves_arguments(parser)
    parser.add_argument("--other-curves", metavar="FILE", help="a curve file of OTHER")
    add_start_argument(parser)
    parser.add_argument(
        "--least", metavar="VEHICLES", default="1", help="how many vehicles make a queue in the table (1)"
    )
    parser.add_argument(
        "--fit", metavar="FILE", help="a fit.csv of CASE, as `validate` writes it, as a choice of colours"
    )
    parser.add_argument(
        "--worth", metavar="FILE", help="a table of CASE, of `bottlenecks --format csv`, as a choice of colours"
    )
    add_each_link_argument(parser)
    add_gap_argument(parser)
    parser.add_argument("--names", metavar="NAME", nargs=2, help="what the two cases are called on the switch")
    parser.add_argument("--title", help="the title (else the folder's name)")
    parser.add_argument(
        "--d3", metavar="FILE", help="the library d3 (else $LTM_D3, or that of Debian's package node-d3)"
    )


def run(args: argparse.Namespace) -> int:
    library = find_d3(args.d3)
    check_gap(args.gap, args.curves, args.other_curves)
    asked = [(args.case, args.curves)] + ([(args.other, args.other_curves)] if args.other is not None else [])
    folders = [folder for folder, _ in asked]
    start = start_of(args.start, *folders)
    both = [
        LoadedCase(one.case, Summed(one.curves))
        for one in (loaded(folder, curves, args.program) for folder, curves in asked)
    ]
    called = [os.path.basename(os.path.abspath(folder)) for folder in folders]
    names = [readable(name) for name in args.names or called]
    title = readable(args.title or called[0])
    found = None if args.fit is None else misfits(read_fit(args.fit))
    saved = None if args.worth is None else savings(read_worths(args.worth))
    gaps = [told_gap(folder, args.program) if args.gap else None for folder in folders]
    least = max(1, units_of(args.least))
    text = page(both, folders, names, start, least, title, library, args.each_link, gaps, misfits=found, savings=saved)
    write_text(args.output, text)
    return 0
