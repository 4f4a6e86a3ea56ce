"""`ltm-tools queues`: where queues stand, and when."""
from __future__ import annotations

import argparse
from collections.abc import Mapping

from ..case.clock import start_of
from ..case.source import approaches_of
from ..case.streets import read_streets, street_and_id, with_streets
from ..formats import clock_text, units_of
from ..listing import Cell, percent, seconds, text_table, time_unit, vehicles
from ..loading.delay import Report
from ..loading.loaded import loaded, told_delay
from ..loading.queues import Queue, queues
from .arguments import add_case_arguments, add_each_link_argument, add_format_arguments, add_start_argument, write_table

NAME = "queues"
SUMMARY = "list queues: where and when they stand, how long they grow, and the delay they cause"
EXAMPLES = """\
    ltm-tools queues examples/corridor --start 7:00
    ltm-tools queues examples/corridor --least 10 --format csv -o queues.csv

The queue of a link is the vehicles that could have left it at free speed and have not; at an origin, those that wait
to enter. Each row is a span of time in which at least VEHICLES stand there, from the first moment to the last (`...`
is beyond the horizon). `share` is the worst queue in percent of what the link can store, `delay` the vehicle time in
the queue.
"""
HEADER = ("kind", "name", "from", "to", "worst", "at", "share", "delay")
FIELDS = ("kind", "name", "from_ms", "to_ms", "lasts", "worst", "worst_ms", "storage", "delay")


def add_arguments(parser: argparse.ArgumentParser) -> None:
    add_case_arguments(parser)
    add_start_argument(parser)
    parser.add_argument(
        "--least",
        metavar="VEHICLES",
        default="1",
        help="how many vehicles make a queue (default: 1; 0.001 lists every queue)",
    )
    parser.add_argument(
        "--sort", choices=("delay", "worst", "from", "case"), default="delay", help="the order of rows (default: delay)"
    )
    add_each_link_argument(parser)
    add_format_arguments(parser)


ORDERS = {
    "delay": lambda queue: -queue.delay,
    "worst": lambda queue: -queue.worst,
    "from": lambda queue: queue.first,
    "case": lambda queue: 0,
}


def run(args: argparse.Namespace) -> int:
    least = max(1, units_of(args.least))
    start = start_of(args.start, args.case)
    loading = loaded(args.case, args.curves, args.program)
    approaches = {} if args.each_link else approaches_of(args.case, loading.case.links)
    found = sorted(queues(loading.curves, loading.case, least, approaches), key=ORDERS[args.sort])
    step_ms, told, streets = loading.curves.step_ms, "", read_streets(args.case)
    if args.format == "text":
        told = text(found, told_delay(loading, args.case, args.curves, args.program), step_ms, start, least, streets)
    rows = [fields(queue, step_ms, start) for queue in found]
    write_table(args, *with_streets(FIELDS, rows, "name", streets), told)
    return 0


def fields(queue: Queue, step_ms: int, start: int) -> list[Cell]:
    """A queue for programs: times in ms since midnight, amounts in vehicles, the delay in vehicle seconds."""
    return [
        queue.kind,
        queue.name,
        start + queue.first * step_ms,
        start + queue.last * step_ms,
        int(queue.lasts),
        vehicles(queue.worst),
        start + queue.at * step_ms,
        None if queue.storage is None else vehicles(queue.storage),
        seconds(queue.delay),
    ]


def text(found: list[Queue], told: Report, step_ms: int, start: int, least: int, streets: Mapping[str, str]) -> str:
    """The table for people, with what all queues bring below it."""

    def when(k: int) -> str:
        return clock_text(start + k * step_ms)

    unit = time_unit(told.delay)
    rows: list[list[Cell]] = [
        [
            queue.kind,
            street_and_id(queue.name, streets) if queue.kind == "link" else queue.name,
            when(queue.first),
            "..." if queue.lasts else when(queue.last),
            vehicles(queue.worst),
            when(queue.at),
            None if queue.storage is None else f"{percent(queue.worst, queue.storage)} %",
            unit.show(queue.delay),
        ]
        for queue in found
    ]
    lines = [
        f"queues of at least {vehicles(least)} vehicles: {len(found)}; the delay is in {unit.name}\n",
        text_table(HEADER, rows) if rows else "",
        f"delay of these {unit.show(sum(queue.delay for queue in found))}, of all {unit.show(told.delay)}: "
        f"{unit.show(told.queued)} in queues of links, {unit.show(told.waited)} at origins\n",
    ]
    return "".join(lines)
