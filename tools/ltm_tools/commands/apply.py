"""`ltm-tools apply`: a case, a script of edits, and the case that they make."""
from __future__ import annotations

import argparse
import sys

from ..case import Case
from ..case.history import check_history_of
from ..errors import Fault
from ..files import shown
from ..scenario.scripts import script_batches
from ..scenario.versions import write_version
from .arguments import add_program_argument

NAME = "apply"
SUMMARY = "write the case that the edits of a script leave"
EXAMPLES = """\
    ltm-tools apply examples/spillback examples/spillback/script.jsonl /tmp/wider
    ltm /tmp/wider load

Lines of the script that are no edits are ignored. The program decides which batches are accepted; batches that it
refuses are reported on the standard error, and change nothing. Entry limits (edits `limit`) go to limits.csv, exit
limits to signals.csv.
"""


def add_arguments(parser: argparse.ArgumentParser) -> None:
    parser.add_argument("case", metavar="CASE", help="the folder of a case")
    parser.add_argument("script", metavar="SCRIPT", help="a script, as a session reads it, or - for the standard input")
    parser.add_argument("folder", metavar="FOLDER", help="the folder to write")
    add_program_argument(parser)


def run(args: argparse.Namespace) -> int:
    check_history_of(args.case, "a session")  # before the routes of a city are made
    case = Case.read(args.case)
    if case.splits is None:
        raise Fault(f"{args.case} has no splits.csv, so it has no loading and takes no edits")
    batches = script_batches(args.case, args.script, args.program)
    for batch in batches:
        if not batch.accepted:
            print(
                f"line {batch.number} is refused, and makes nothing: {batch.cause(case)}:"
                f" {shown(batch.line.decode('utf-8', 'surrogateescape'))}",
                file=sys.stderr,
            )
    made = [batch.edits for batch in batches if batch.accepted]
    write_version(args.case, made, args.folder)
    print(f"{args.folder}: the case after {len(made)} of {len(batches)} batches")
    return 0
