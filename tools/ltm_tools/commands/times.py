"""`ltm-tools times`: how long a path takes, by departure."""
from __future__ import annotations

import argparse
from collections.abc import Mapping

from ..case.clock import start_of
from ..case.source import path_named
from ..case.streets import read_streets, street_and_id
from ..formats import MINUTE_MS, clock_text
from ..listing import Cell, text_table
from ..loading.loaded import loaded
from ..loading.times import Path, TripTimes
from .arguments import add_curves_arguments, add_format_arguments, add_start_argument, check_every, minutes, write_table

NAME = "times"
SUMMARY = "show how long a path takes for departures over the day, including the wait at the origin"
EXAMPLES = """\
    ltm-tools times examples/corridor r1 r2 r3 r4 r5 r6 r7 r8 works r9 --every 5 --start 7:00
    ltm-tools times examples/incident west east --by-link --every 2

A vehicle that departs waits at the first node of the path until all who wanted to set out earlier have left, and leaves
each link once all vehicles that entered before it have left, in no less than the free-flow time. `none` means that it
does not arrive within the horizon. With --no-wait, the time of one link is the program's answer to `time`.
"""


def add_arguments(parser: argparse.ArgumentParser) -> None:
    parser.add_argument("case", metavar="CASE", help="the folder of a case")
    parser.add_argument("links", metavar="LINK", nargs="+", help="the links of the path in order")
    add_curves_arguments(parser)
    add_start_argument(parser)
    parser.add_argument(
        "--every",
        metavar="MINUTES",
        type=minutes,
        default=5 * MINUTE_MS,
        help="how often a vehicle departs (default: 5)",
    )
    parser.add_argument(
        "--no-wait", action="store_true", help="begin at the entry of the first link, without the wait at the origin"
    )
    parser.add_argument("--by-link", action="store_true", help="add a column for each link, also in text")
    add_format_arguments(parser)


def run(args: argparse.Namespace) -> int:
    start = start_of(args.start, args.case)
    case, curves = loaded(args.case, args.curves, args.program)
    check_every(args.every, case)
    path = Path(curves, case, path_named(args.case, case.links, args.links), not args.no_wait)
    trips = list(path.trips(args.every))
    names = [link.name for link in path.links]
    header = ["departs_ms", "total_ms", "delay_ms", "wait_ms", *names]
    shown = text(path, trips, start, args.by_link, read_streets(args.case))
    write_table(args, header, [fields(path, trip, start) for trip in trips], shown)
    return 0


def fields(path: Path, trip: TripTimes, start: int) -> list[Cell]:
    """A trip for programs: times in ms, nothing where there is none."""
    late = None if trip.total is None else trip.total - path.free_ms
    return [start + trip.departs, trip.total, late, *trip.parts, *[None] * (1 + len(path.links) - len(trip.parts))]


def text(path: Path, trips: list[TripTimes], start: int, by_link: bool, streets: Mapping[str, str]) -> str:
    """The table for people."""
    header = [
        "departs",
        "arrives",
        "time",
        "delay",
        "wait",
        *([street_and_id(link.name, streets) for link in path.links] if by_link else []),
    ]
    rows: list[list[Cell]] = []
    for trip in trips:
        parts = [*map(span, trip.parts), *[""] * (1 + len(path.links) - len(trip.parts))]
        arrives = (
            "none" if trip.total is None else clock_text(to_seconds(start + trip.departs + trip.total, path.free_ms))
        )
        late = None if trip.total is None else trip.total - path.free_ms
        rows.append(
            [
                clock_text(start + trip.departs),
                arrives,
                span(trip.total),
                span(late),
                *(parts if by_link else parts[:1]),
            ]
        )
    along = list(dict.fromkeys(streets[link.name] for link in path.links if streets.get(link.name)))
    by = f", by {', '.join(along)}" if along else ""
    ends = f"from {path.links[0].tail} to {path.links[-1].head}, {len(path.links)} link{'s' * (len(path.links) != 1)}"
    return f"{ends}{by}, {span(path.free_ms)} on empty roads; times in minutes and seconds\n" + text_table(header, rows)


def to_seconds(moment: int, free_ms: int) -> int:
    """A moment to the nearest second, where the path takes a minute or more."""
    return (moment + 500) // 1000 * 1000 if free_ms >= MINUTE_MS else moment


def span(ms: int | None) -> str:
    """A time as minutes and seconds, with a tenth where that is not whole: `5:00`, `0:02.5`; to the nearest tenth."""
    if ms is None:
        return "none"
    tenths = (ms + 50) // 100
    whole, part = divmod(tenths, 10)
    return f"{whole // 60}:{whole % 60:02}" + (f".{part}" if part else "")
