"""`ltm-tools inspect`: what a case has, and what is to be known before it is run. It changes nothing."""
import argparse

from ..case.inspect import inspect, link_lines
from ..loading.inspect import loading_lines
from ..program import check_folder
from .arguments import add_curves_arguments

NAME = "inspect"
SUMMARY = "show what a case contains, how much memory it needs, and what load would refuse first"
EXAMPLES = """examples:
  ltm-tools inspect examples/detour
  ltm-tools inspect examples/detour --links
  ltm-tools inspect examples/detour --load

If a record is wrong, the summary leaves it out. With --load or --curves the loading is looked at as well: whether
vehicles stand still at its end, since when and why (gridlock), and what rounding takes from full roads."""


def add_arguments(parser: argparse.ArgumentParser) -> None:
    parser.add_argument("folder", help="the folder of the case")
    parser.add_argument(
        "--links",
        action="store_true",
        help="add a table of all links: length, times, the longest step each allows in ms, storage in vehicles",
    )
    parser.add_argument(
        "--load", action="store_true", help="look at the loading as well, which takes the time and memory of a load"
    )
    add_curves_arguments(parser)


def run(args: argparse.Namespace) -> int:
    check_folder(args.folder)
    told = link_lines(args.folder) if args.links else inspect(args.folder)
    if args.load or args.curves is not None:
        told += loading_lines(args.folder, args.curves, args.program)
    for line in told:
        print(line)
    return 0
