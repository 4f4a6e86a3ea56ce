"""Arguments that several commands have, and what their texts mean."""
from __future__ import annotations

import argparse
import io
import os
import re
from collections.abc import Mapping, Sequence
from fractions import Fraction
from typing import Any

from ..case import Case
from ..errors import Fault
from ..files import write_bytes, write_text
from ..formats import MINUTE_MS, above_0_or_none, clock_ms, clock_text, count_text, exact_or_none
from ..listing import FORMATS, Cell, csv_text, json_text
from ..tables import Reading

MOST_TOLD = 100_000  # lines of a table by time
WHOLE_WORD = re.compile(r"-?[0-9]{1,9}", re.ASCII)


def add_program_argument(parser: argparse.ArgumentParser) -> None:
    """The option `--program`, for commands that run the program."""
    parser.add_argument(
        "--program",
        metavar="FILE",
        help="the program ltm (default: $LTM, else the one built in the clone, else ltm on the path)",
    )


def add_case_arguments(parser: argparse.ArgumentParser) -> None:
    """The folder of a case, and where its curves come from."""
    parser.add_argument("case", metavar="CASE", help="the folder of a case")
    add_curves_arguments(parser)


def add_curves_arguments(parser: argparse.ArgumentParser) -> None:
    """The options `--curves` and `--program`."""
    parser.add_argument(
        "--curves",
        metavar="FILE",
        help="a curve file of the case, or - for the standard input (default: the program loads the case)",
    )
    add_program_argument(parser)


def add_start_argument(parser: argparse.ArgumentParser) -> None:
    """The option `--start`."""
    parser.add_argument(
        "--start",
        metavar="CLOCK",
        type=clock,
        help="the clock time at which slot 0 begins, such as 6:30 (default: what clock.txt says, else 0:00)",
    )


def add_each_link_argument(parser: argparse.ArgumentParser) -> None:
    """The option `--each-link`."""
    parser.add_argument(
        "--each-link",
        action="store_true",
        help=(
            "show every link by itself (default: a link that was cut before a crossing is shown together with its "
            "turns)"
        ),
    )


def add_gap_argument(parser: argparse.ArgumentParser) -> None:
    """Whether the gap is told."""
    parser.add_argument(
        "--gap",
        action="store_true",
        help=(
            "also estimate the total travel time on the fastest routes at the link times of each loading, and the "
            "gap; with thousands of links this takes minutes"
        ),
    )


def add_format_arguments(parser: argparse.ArgumentParser) -> None:
    """The options `--format` and `--output`, for commands that write a table."""
    parser.add_argument(
        "--format", choices=FORMATS, default="text", help="text to read (default), or csv or json for programs"
    )
    parser.add_argument(
        "-o", "--output", metavar="FILE", default="-", help="the file to write (default: the standard output)"
    )


def add_reading_arguments(
    parser: argparse.ArgumentParser, files: Mapping[str, str], start: str, counted: str
) -> "argparse._MutuallyExclusiveGroup":
    """The case, and options: one of these with a file, as they are told here; `--start`, with what slot 0 is where
    nothing is said; `--slice`, with what its minutes are; and how tables are read. The options of which one is given
    can be added to."""
    parser.add_argument("case", help="the folder of the case")
    kind = parser.add_mutually_exclusive_group(required=True)
    for name, told in files.items():
        kind.add_argument(name, metavar="FILE", help=told)
    parser.add_argument(
        "--start",
        metavar="CLOCK",
        type=clock,
        help=f"the clock time of slot 0, which goes into clock.txt (what that says, else {start})",
    )
    parser.add_argument("--slice", type=whole, default=15, metavar="MINUTES", help=f"the minutes {counted} (15)")
    add_table_arguments(parser)
    return kind


def add_counts_arguments(parser: argparse.ArgumentParser) -> None:
    """The options with measured counts and times, and how they are read."""
    parser.add_argument("--counts", metavar="FILE", nargs="+", required=True, help="the tables of counts")
    parser.add_argument("--times", metavar="FILE", help="a table of measured travel times")
    parser.add_argument(
        "--detectors", metavar="FILE", help="on which link each detector of a table of SUMO stands: detector,link"
    )
    parser.add_argument(
        "--span",
        metavar=("FROM", "TO"),
        nargs=2,
        type=clock,
        help="for tables without times: the clock times between which vehicles were counted",
    )
    parser.add_argument(
        "--count-error",
        metavar=("PERCENT", "VEHICLES"),
        nargs=2,
        type=exact_number,
        help="the error of counts without one of their own: a percentage and a number of vehicles (5 0.5)",
    )
    parser.add_argument(
        "--leave-out-unknown",
        action="store_true",
        help="leave out counts of links that are not in the case, or were contracted, and say how many",
    )


def add_table_arguments(parser: "argparse._ActionsContainer") -> None:
    """The options `--encoding` and `--lenient`, for commands that read tables of other tools."""
    parser.add_argument(
        "--encoding", help="the encoding of the files (default: UTF-8, else guessed from what they hold)"
    )
    parser.add_argument(
        "--lenient",
        action="store_true",
        help="accept rows with more or fewer fields than the header; extra fields are ignored",
    )


def reading_of(args: argparse.Namespace) -> Reading:
    """How tables are to be read, by these options."""
    return Reading(args.encoding, args.lenient)


def clock(text: str) -> int:
    """A clock time of the command line, in ms since midnight."""
    try:
        return clock_ms(text)
    except Fault as fault:
        raise argparse.ArgumentTypeError(str(fault)) from None


def whole(text: str) -> int:
    """A whole number of the command line."""
    if WHOLE_WORD.fullmatch(text) is None:
        raise argparse.ArgumentTypeError(f"{text!r} is no whole number below 1,000,000,000")
    return int(text)


def exact_number(text: str) -> Fraction:
    """A number of the command line that is not below 0, as 2 or 0.5."""
    exact = exact_or_none(text)
    if exact is None or exact < 0:
        raise argparse.ArgumentTypeError(f"{text!r} is no number that is at least 0")
    return exact


def number(text: str) -> float:
    """The same as a number of the machine."""
    return float(exact_number(text))


def minutes(text: str) -> int:
    """Minutes of the command line, as 5, 0.5 or 1/60, in ms."""
    number = exact_or_none(text)
    if number is None:
        number = above_0_or_none(text)  # as 1/60, a step of a second, which no decimal says
    if number is None:
        raise argparse.ArgumentTypeError(f"{text!r} is no number of minutes")
    ms = number * MINUTE_MS
    if ms < 1 or ms.denominator != 1:
        raise argparse.ArgumentTypeError(f"{text!r} minutes are no whole number of milliseconds above 0")
    return ms.numerator


def check_every(every_ms: int, case: Case) -> None:
    """A Fault where a line at every so many ms of the horizon would be too many."""
    lines = case.setup.horizon_ms // every_ms
    if lines > MOST_TOLD:
        raise Fault(
            f"--every gives {count_text(lines)} lines for a horizon of {clock_text(case.setup.horizon_ms)}, and"
            f" at most {count_text(MOST_TOLD)} are told"
        )


def write_picture(figure: Any, path: str) -> None:
    """Writes a figure of matplotlib, in the form that the file's name says; as a PNG, with that behind its name, where
    it says none."""
    name, ending = os.path.splitext(path)
    form = ending.removeprefix(".") or "png"
    made = io.BytesIO()
    try:
        figure.savefig(made, format=form, dpi=110)
    except (OSError, ValueError) as error:
        raise Fault(f"{path}: {error}") from None
    write_bytes(f"{name}.{form}", made.getvalue())


def write_table(args: argparse.Namespace, header: Sequence[str], rows: Sequence[Sequence[Cell]], text: str) -> None:
    """Writes a table in the form that `args.format` asks for, to the file `args.output`: `text` for people, else header
    and rows."""
    if args.format == "csv":
        write_text(args.output, csv_text(header, rows))
    elif args.format == "json":
        write_text(args.output, json_text(header, rows))
    else:
        write_text(args.output, text)
