"""`ltm-tools bottlenecks`: what a little more and a little less capacity is worth, link by link."""
from __future__ import annotations

import argparse
import os
import sys
from collections.abc import Iterable, Mapping, Sequence
from decimal import Decimal
from fractions import Fraction

from ..case import Case
from ..case.clock import start_of
from ..case.source import links_named
from ..case.streets import read_streets, street_and_id, with_streets
from ..errors import Fault
from ..formats import clock_text, counted, exact_or_none
from ..listing import Cell, TimeUnit, percent, text_table, time_unit
from ..worth.result import FIELDS, cells, delays_changed_most, tenths
from ..worth.spread import Asked, Sessions
from ..worth.trials import Trials
from ..worth.weighing import MOST_PART, TIMES_ROUNDING, Tried, Worth, by_savings, candidates, ranked, to_weigh
from .arguments import add_format_arguments, add_program_argument, add_start_argument, clock, whole, write_table

NAME = "bottlenecks"
SUMMARY = "rank stop lines and roads by what a little more, and a little less, of their capacity is worth"
EXAMPLES = """\
    ltm-tools bottlenecks examples/corridor --start 7:00
    ltm-tools bottlenecks CASE --by 10% --from 7:30 --to 8:30 -o worth.csv

The case is loaded anew for each link that may hold a queue, with its capacity raised by a part; all else stays, routes
as well. The links that save most are then loaded with less capacity too. The table has the change of the total travel
time of all vehicles, the greatest saving first, and where the delay falls and rises most. Where the delay rises
elsewhere by much of what it falls, the queue only moves on. docs/IMPROVE.md says more.
"""
HEADER = ("link", "held by", "veh/h", "more", "travel time", "less", "travel time", "moves on", "delay falls", "rises")


def needs(args: argparse.Namespace) -> Sequence[str]:
    """The libraries beside Python's own that it cannot do without."""
    return () if args.scheduler is None else ("distributed",)


def add_arguments(parser: argparse.ArgumentParser) -> None:
    parser.add_argument("case", metavar="CASE", help="the folder of a case")
    parser.add_argument(
        "--by", metavar="PERCENT", type=part, default=Fraction(5, 100), help="the part of each capacity to change (5%%)"
    )
    parser.add_argument(
        "--links", metavar="LINK", nargs="+", help="try these links alone, by their names in the case or in its source"
    )
    for word in ("from", "to"):
        parser.add_argument(
            f"--{word}", metavar="CLOCK", type=clock, dest=f"{word}_ms", help=f"change limits {word} this clock time"
        )
    add_start_argument(parser)
    parser.add_argument("--most", metavar="N", type=whole, default=20, help="how many links are looked at closely (20)")
    parser.add_argument(
        "--sessions",
        metavar="N",
        type=whole,
        default=os.cpu_count() or 1,
        help="how many sessions run on this machine at once (default: one for each processor)",
    )
    parser.add_argument(
        "--scheduler", metavar="ADDRESS", help="run on a Dask cluster with this scheduler, such as tcp://10.0.0.7:8786"
    )
    add_format_arguments(parser)
    add_program_argument(parser)


def part(text: str) -> Fraction:
    """A part of a capacity, in per cent."""
    found = exact_or_none(text.strip().removesuffix("%"))
    if found is None or not 0 < found / 100 <= MOST_PART:
        raise argparse.ArgumentTypeError(
            f"{text} is no part of a capacity: per cent above 0, at most {MOST_PART * 100}"
        )
    return found / 100


def run(args: argparse.Namespace) -> int:
    if args.sessions < 1:
        raise Fault(f"{args.sessions} sessions cannot run")
    trials = Trials(args.case, args.program)
    try:
        links = weighed_links(args, trials)
        asked = changed_slots(args, trials.case)
        sessions = Sessions(args.case, args.program, args.sessions, args.scheduler)
        close, others = links, list[Worth]()
        if args.links is None and len(links) > args.most:
            close, others = ranked(watched(sessions.worths(links, asked), len(links)), trials.delays, args.most)
        pieces = [to_weigh(trials, link) for link in close]
    finally:
        trials.close()
    found = by_savings(watched(sessions.worths(pieces, asked), len(pieces)))
    streets = read_streets(args.case)
    write_table(
        args,
        *with_streets(FIELDS, [cells(worth) for worth in (*found, *by_savings(others))], "link", streets),
        text(found, len(links), len(found) + len(others), trials.base.spent, streets),
    )
    return 0


def weighed_links(args: argparse.Namespace, trials: Trials) -> list[str]:
    """The links that are to be weighed: those asked for, else those that may hold a queue."""
    case = trials.case
    if args.links is None:
        return [link.name for link in candidates(case, trials.delays)]
    trials.base  # the program takes the case
    names = {link.name for link in case.links}
    found = links_named(args.case, case.links, args.links)
    for name in found:
        if name not in names:
            raise Fault(f"the case has no link {name}")
    return found


def changed_slots(args: argparse.Namespace, case: Case) -> Asked:
    """The slots in which limits are changed, and by which part."""
    start, step, slots = start_of(args.start, args.case), case.setup.step_ms, case.setup.slots
    first = 0 if args.from_ms is None else (args.from_ms - start) // step
    end = slots if args.to_ms is None else -((start - args.to_ms) // step)
    if not 0 <= first < end <= slots:
        raise Fault(
            f"the span to change is not within the case, which lasts from {clock_text(start)} to"
            f" {clock_text(start + slots * step)}"
        )
    return first, end, args.by


def watched(found: Iterable[Worth], count: int) -> list[Worth]:
    """All that is found, of which progress is told where the standard error is a terminal."""
    worths, shown = [], sys.stderr.isatty()
    for worth in found:
        worths.append(worth)
        if shown:
            print(f"\r{len(worths)} of {counted(count, 'link')} ", end="", file=sys.stderr, flush=True)
    if shown:
        print(file=sys.stderr)
    return worths


def text(listed: Sequence[Worth], tried: int, effects: int, spent: int, streets: Mapping[str, str]) -> str:
    """The table for people, with what is to be known of it below."""
    unit = time_unit(spent)
    rows = [row(worth, unit, streets) for worth in listed]
    lines = [
        f"{counted(tried, 'link')} tried, {counted(effects, 'link')} with an effect, {len(listed)} listed; "
        f"total travel time {unit.show(spent)} {unit.name}\n",
        text_table(HEADER, rows) if rows else "",
    ]
    hidden = [worth.link for worth in listed if not worth.is_clear]
    if hidden:
        lines.append(
            f"~ less than {TIMES_ROUNDING} times what rounding to thousandths makes there: {', '.join(hidden)}\n"
        )
    return "".join(lines)


def row(worth: Worth, unit: TimeUnit, streets: Mapping[str, str]) -> list[Cell]:
    """A row for people."""

    def named(sign: int) -> str:
        return ", ".join(f"{name} {signed(unit.show(change))}" for name, change in delays_changed_most(worth, sign))

    def told(tried: Tried | None) -> list[Cell]:
        if tried is None:
            return [None, None]
        return [signed(tenths(tried.per_hour)), ("" if worth.is_clear else "~") + signed(unit.show(tried.effect.spent))]

    return [
        street_and_id(worth.link, streets),
        worth.kind,
        tenths(worth.per_hour),
        *told(worth.more),
        *told(worth.less),
        f"{percent(worth.rises, worth.falls)} %" if worth.falls else None,
        named(-1),
        named(1),
    ]


def signed(number: Decimal) -> str:
    """A number with its sign."""
    return f"{number:+f}" if number else format(abs(number), "f")
