"""`ltm-tools compare`: two cases side by side, or two versions of one."""
from __future__ import annotations

import argparse
import sys
from collections.abc import Callable

from ..case.clock import start_of
from ..case.source import approaches_of
from ..case.streets import read_streets, street_and_id, with_streets
from ..errors import Fault
from ..files import write_text
from ..formats import MINUTE_MS, clock_text
from ..listing import Cell, TimeUnit, csv_text, json_text, seconds, text_table, time_unit, vehicles
from ..loading.compare import Comparison, Pairs, change, most_changed
from ..loading.remaining import told_apart
from ..loading.sides import side
from ..loading.told import check_gap
from ..scenario.scripts import script_batches
from ..scenario.versions import side_by_side
from .arguments import (
    add_each_link_argument,
    add_format_arguments,
    add_gap_argument,
    add_program_argument,
    add_start_argument,
    check_every,
    minutes,
    whole,
)

NAME = "compare"
SUMMARY = "compare two cases, or two versions of one: travel time, delay by link and origin, arrivals over time"
EXAMPLES = """\
    ltm-tools compare examples/corridor WIDER --start 7:00
    ltm-tools compare examples/corridor WIDER --format csv --table links -o links.csv
    ltm-tools compare examples/incident --script examples/incident/script.jsonl --versions 0 1

Version V is the case after the first V batches of the script that the program accepts; version 0 is the case itself. A
change is the number of the second case less that of the first. `spent` is the total travel time, `queued` the delay in
queues, and `waited` the delay waiting to enter, in vehicle hours: 2.5 vehicle hours are one vehicle for two and a half
hours, or five for half an hour. `not_there` are vehicles that have not arrived by the end: if their number differs by
over 0.1 % of the vehicles, hours cannot be compared, and a line says so. CSV has one table, JSON all of them, with
vehicle seconds.
"""
TABLES = ("totals", "links", "origins", "arrivals")


def add_arguments(parser: argparse.ArgumentParser) -> None:
    parser.add_argument("case", metavar="CASE", help="the folder of a case")
    parser.add_argument(
        "other", metavar="OTHER", nargs="?", help="the folder of another case, for example with road works"
    )
    parser.add_argument(
        "--script",
        metavar="SCRIPT",
        help="instead of OTHER: a script of edits of CASE, as a session reads it, or - for the standard input",
    )
    parser.add_argument(
        "--versions",
        metavar="V",
        type=whole,
        nargs=2,
        help="compare the case after so many accepted batches of the script (default: 0, and all)",
    )
    for name, text in (("curves", "CASE"), ("other-curves", "OTHER")):
        parser.add_argument(f"--{name}", metavar="FILE", help=f"a curve file of {text} (default: the program loads it)")
    add_program_argument(parser)
    add_start_argument(parser)
    parser.add_argument(
        "--every",
        metavar="MINUTES",
        type=minutes,
        default=5 * MINUTE_MS,
        help="how often arrivals are listed (default: 5)",
    )
    parser.add_argument(
        "--links",
        metavar="N",
        type=whole,
        default=10,
        help="how many of the links that changed most the text lists (default: 10)",
    )
    add_gap_argument(parser)
    parser.add_argument("--table", choices=TABLES, default="links", help="which table to write as CSV (default: links)")
    add_each_link_argument(parser)
    add_format_arguments(parser)


def run(args: argparse.Namespace) -> int:
    if args.links < 0:
        raise Fault("--links is 0 or more")
    args.start = start_of(args.start, *(folder for folder in (args.case, args.other) if folder is not None))
    found, names = by_script(args) if args.script is not None else by_folders(args)
    for one in found.both:
        check_every(args.every, one.case)
    args.approaches = {} if args.each_link else approaches(found, args)
    args.streets = {**(read_streets(args.other) if args.other is not None else {}), **read_streets(args.case)}
    if args.format == "text":
        write_text(args.output, text(found, names, args))
        return 0
    tables = {name: (header, rows) for name, header, rows in all_tables(found, args)}
    if not found.comparable():
        print(f"ltm-tools {NAME}: {told_apart(*found.remaining())}", file=sys.stderr)
    if args.format == "csv":
        write_text(args.output, csv_text(*tables[args.table]))
    else:
        parts = [f'"{name}": {json_text(*table).rstrip()}' for name, table in tables.items()]
        write_text(args.output, "{\n" + ",\n".join(parts) + "\n}\n")
    return 0


def approaches(found: Comparison, args: argparse.Namespace) -> dict[str, tuple[str, ...]]:
    """The links of either case that were cut before a crossing, with their turns."""
    made: dict[str, tuple[str, ...]] = {}
    for folder, one in zip((args.case, args.other or args.case), found.both):
        for name, links in approaches_of(folder, one.case.links).items():
            made[name] = tuple(dict.fromkeys((*made.get(name, ()), *links)))
    return made


def by_folders(args: argparse.Namespace) -> tuple[Comparison, tuple[str, str]]:
    """Two cases side by side, and what they are called."""
    if args.other is None or args.versions is not None:
        raise Fault(
            "there is nothing to compare: name the folder of another case, or a --script"
            if args.other is None
            else "--versions needs a --script"
        )
    check_gap(args.gap, args.curves, args.other_curves)
    one = side(args.case, args.curves, args.program, args.gap)
    other = side(args.other, args.other_curves, args.program, args.gap)
    return Comparison(one, other), (args.case, args.other)


def by_script(args: argparse.Namespace) -> tuple[Comparison, tuple[str, str]]:
    """Two versions of a case side by side, and what they are called."""
    if (args.other, args.curves, args.other_curves) != (None, None, None):
        raise Fault(
            "with --script both are versions of one case, whose loadings the program makes: no other case, and"
            " no curve file"
        )
    made = [batch.edits for batch in script_batches(args.case, args.script, args.program) if batch.accepted]
    one, other = args.versions or (0, len(made))
    return (
        side_by_side(args.case, made, (one, other), args.program, args.gap),
        (f"version {one} of {args.case}", f"version {other} of {len(made)}"),
    )


def exact(name: str, pair: tuple[int | None, int | None], shown: Callable[[int], Cell]) -> list[Cell]:
    """A name with both numbers and their change."""
    return [name, *(None if number is None else shown(number) for number in pair), shown(change(pair))]


def all_tables(found: Comparison, args: argparse.Namespace) -> list[tuple[str, list[str], list[list[Cell]]]]:
    """The tables for programs, each with its name and header: times in vehicle seconds, amounts in vehicles, moments in
    ms."""
    header = ["name", "one", "other", "change"]
    totals = [exact(f"{name}_seconds", pair, seconds) for name, pair in found.times().items()]
    totals += [exact(name, pair, vehicles) for name, pair in found.amounts().items()]
    links = [exact(name, pair, seconds) for name, pair in found.links(args.approaches).items()]
    moments: list[list[Cell]] = [
        [args.start + moment, *exact("", pair, vehicles)[1:]] for moment, pair in found.arrivals(args.every).items()
    ]
    return [
        ("totals", header, totals),
        ("links", *with_streets(header, links, "name", args.streets)),
        ("origins", header, [exact(name, pair, seconds) for name, pair in found.origins().items()]),
        ("arrivals", ["ms", *header[1:]], moments),
    ]


def text(found: Comparison, names: tuple[str, str], args: argparse.Namespace) -> str:
    """All tables for people."""
    unit = time_unit(*(number for pair in found.times().values() for number in pair if number is not None))
    header = ["", "one", "other", "change"]
    lines = [f"one is {names[0]}, other is {names[1]}; time in {unit.name}, amounts in vehicles\n\n"]
    rows = [exact(name, pair, unit.show) for name, pair in found.times().items()]
    rows += [exact(name, pair, vehicles) for name, pair in found.amounts().items()]
    lines.append(text_table(header, rows))
    if not found.comparable():
        lines.append(f"{told_apart(*found.remaining())}\n")
    links = {street_and_id(name, args.streets): pair for name, pair in found.links(args.approaches).items()}
    lines += changes_text("queued on links", links, args.links, unit, "link")
    lines += changes_text("waited at origins", found.origins(), args.links, unit, "origin")
    moments = [
        [clock_text(args.start + moment), *exact("", pair, vehicles)[1:]]
        for moment, pair in found.arrivals(args.every).items()
    ]
    lines.append("\narrived by\n" + text_table(["clock", *header[1:]], moments))
    return "".join(lines)


def changes_text(title: str, pairs: Pairs, count: int, unit: TimeUnit, what: str) -> list[str]:
    """The part of the text on the links, or the origins, that changed most."""
    changed, shown = most_changed(pairs), most_changed(pairs, count)
    if not changed:
        return [f"\n{title}: no change\n"]
    told = (
        f"the {len(shown)} of {len(changed)} that changed most"
        if len(shown) < len(changed)
        else f"{len(changed)} changed"
    )
    return [
        f"\n{title}: {told}\n",
        text_table([what, "one", "other", "change"], [exact(name, pair, unit.show) for name, pair in shown.items()]),
    ]
