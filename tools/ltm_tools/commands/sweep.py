"""`ltm-tools sweep`: many scenarios of one case, on all processors of a machine or on a cluster of Dask."""
from __future__ import annotations

import argparse
import os
import sys
import time
from collections.abc import Iterable, Iterator, Sequence

from ..case import Case
from ..case.history import check_history_of
from ..case.source import links_named
from ..errors import Fault
from ..files import write_text
from ..formats import count_text, counted, vehicles_text
from ..listing import csv_text
from ..loading.remaining import TOLD_APART
from ..program import find_program
from ..sweep.here import chunks, here
from ..sweep.scenarios import AS_IT_IS, FAILED, Row, SweepScenario, result_header, read_scenarios, remaining
from .arguments import add_program_argument, whole

NAME = "sweep"
SUMMARY = "run many scenarios of a case on all processors, or on a Dask cluster"
EXAMPLES = """\
    ltm-tools sweep examples/closures closures.jsonl -o results.csv
    ltm-tools sweep examples/closures closures.jsonl -o results.csv --scheduler tcp://10.0.0.7:8786

A line of the file of scenarios is {"name": .., "batches": [[EDIT, ..], ..]}, or {"edits": [EDIT, ..]} for one
batch. Results come in the order of the file: the totals at the end of the horizon, or the batch and edit that is
refused. On a cluster every worker needs the program, at the same path or as its $LTM, and Python's package
`distributed`.
"""
BAR = 30


class Progress:
    """A bar on the standard error, where that is a terminal or it is asked for."""

    def __init__(self, count: int, shown: bool) -> None:
        self.count, self.shown, self.done, self.began, self.told = count, shown, 0, time.monotonic(), 0.0

    def add(self, more: int) -> None:
        """Tells that so many more are done."""
        self.done += more
        now = time.monotonic()
        if self.shown and (now - self.told > 0.2 or self.done == self.count):
            self.told = now
            filled = BAR * self.done // self.count
            pace = self.done / max(now - self.began, 1e-9)
            print(
                f"\r[{'#' * filled}{' ' * (BAR - filled)}] {self.done} of {self.count}, {pace:.0f} a second ",
                end="",
                file=sys.stderr,
                flush=True,
            )

    def end(self) -> None:
        """Ends the line of the bar."""
        if self.shown:
            print(file=sys.stderr)


def needs(args: argparse.Namespace) -> Sequence[str]:
    """The libraries beside Python's own that it cannot do without."""
    return () if args.scheduler is None else ("distributed",)


def add_arguments(parser: argparse.ArgumentParser) -> None:
    parser.add_argument("case", metavar="CASE", help="the folder of a case")
    parser.add_argument(
        "scenarios",
        metavar="SCENARIOS",
        help="a file of scenarios with one JSON object in each line, or - for the standard input",
    )
    parser.add_argument(
        "-o", "--output", metavar="FILE", default="-", help="the CSV file to write (default: the standard output)"
    )
    parser.add_argument(
        "--links",
        metavar="NAME",
        nargs="+",
        action="extend",
        default=[],
        help="add what has entered and left these links; a name that begins with - is given as --links=-a",
    )
    parser.add_argument(
        "--delay",
        action="store_true",
        help="add total travel time, delay in queues and delay waiting to enter, in vehicle seconds",
    )
    parser.add_argument(
        "--sessions",
        metavar="N",
        type=whole,
        default=os.cpu_count() or 1,
        help="how many sessions run on this machine at once (default: one for each processor)",
    )
    parser.add_argument(
        "--scheduler", metavar="ADDRESS", help="run on a Dask cluster with this scheduler, such as tcp://10.0.0.7:8786"
    )
    parser.add_argument(
        "--progress", action="store_true", help="show progress, even if the standard error is no terminal"
    )
    add_program_argument(parser)


def run(args: argparse.Namespace) -> int:
    if args.sessions < 1:
        raise Fault(f"{args.sessions} sessions cannot run")
    check_history_of(args.case, "a session")  # before the routes of a city are made
    case = Case.read(args.case)
    names = {link.name for link in case.links}
    args.links = links_named(args.case, case.links, args.links)
    for name in args.links:
        if name not in names:
            raise Fault(f"the case has no link {name}")
    found = read_scenarios(args.scenarios)
    progress = Progress(max(1, len(found)), args.progress or sys.stderr.isatty())
    rows = list(collected(rows_by_piece(args, found), progress))
    first = rows.pop(0) if args.delay and rows else None
    write_text(args.output, csv_text(result_header(args.links, args.delay), rows))
    for line in told_after(rows, first):
        print(f"ltm-tools {NAME}: {line}", file=sys.stderr)
    return 0


def rows_by_piece(args: argparse.Namespace, found: Sequence[SweepScenario]) -> Iterable[list[Row]]:
    """The rows of results, piece by piece in order; with delays that of the case as it is before them."""
    parts = chunks(found)
    if args.delay and parts:
        parts = [[AS_IT_IS, *parts[0]], *parts[1:]]
    if args.scheduler is None:
        return here(
            args.case,
            str(find_program(args.program)),
            args.links,
            args.delay,
            parts,
            min(args.sessions, max(1, len(parts))),
        )
    from ..sweep.cluster import there

    return there(args.scheduler, args.case, args.program, args.links, args.delay, parts)


def told_after(rows: Sequence[Row], first: Row | None) -> Iterator[str]:
    """What is to be known of the rows: how many failed, and of how many the hours cannot be compared with those of the
    case as it is."""
    failed = sum(row[2].startswith(FAILED) for row in rows)
    if failed:
        yield f"{counted(failed, 'scenario')} of {count_text(len(rows))} failed: their rows say why"
    base = remaining(first) if first is not None else None
    ends = [end for row in rows if (end := remaining(row)) is not None]
    if base is not None and (apart := sum(not end.comparable(base) for end in ends)):
        yield (
            f"the hours of {count_text(apart)} of {counted(len(rows), 'scenario')} cannot be compared with those of the"
            f" case as it is, in which {vehicles_text(base.not_there)} vehicles have not arrived by the end: in each"
            f" over {TOLD_APART} of the vehicles more or fewer have not (not_there); take a longer horizon"
        )


def collected(parts: Iterable[list[Row]], progress: Progress) -> Iterator[Row]:
    """The rows of all parts, of which progress is told."""
    try:
        for part in parts:
            progress.add(sum(row[0] != str(AS_IT_IS.number) for row in part))
            yield from part
    finally:
        progress.end()
