"""`ltm-tools closures`: the effect of closing links, where none, a share or all of those who pass choose another
route."""
from __future__ import annotations

import argparse
import sys
from collections.abc import Iterator, Sequence
from typing import TYPE_CHECKING

from ..case import Case
from ..case.clock import start_of
from ..case.source import links_named
from ..case.streets import read_streets, street_and_id, with_streets
from ..errors import Fault
from ..formats import MINUTE_MS, clock_text, counted, exact_or_none, vehicles_text
from ..listing import HOURS, Cell, seconds, text_table, vehicles
from .arguments import (
    add_format_arguments,
    add_program_argument,
    add_start_argument,
    clock,
    minutes,
    number,
    whole,
    write_table,
)

if TYPE_CHECKING:
    from ..assign.closing import Closure, Cost, Passed
    from ..assign.looking import Look

NAME = "closures"
SUMMARY = "show the effect of closing links, if no, some or all drivers choose another route"
EXAMPLES = """\
    ltm-tools closures ASSIGNED --from 7:10 --to 7:25 --start 7:00
    ltm-tools closures ASSIGNED --from 7:10 --to 7:25 --start 7:00 --links a b --respond nobody 10 half all

A line for each closure: what enters the link in that time if it is open, and for each word of --respond by how many
vehicle hours travel time rises; the part of it that the new route choice alone changes, the road being open, so that a
gain by better routes is not taken for one by the closure; and who has not arrived by the end of the horizon. Drivers
respond who would pass, from when the road is closed until it is open again: a share of them who learn which routes are
best with the closure, or each by the times of the `moment`, as those who have a navigation device and no experience.
"""
FIELDS = (
    "link",
    "from_ms",
    "to_ms",
    "vehicles",
    "respond",
    "spent",
    "cost",
    "rerouting",
    "not_there",
    "regret",
    "iteration",
)


def needs(args: argparse.Namespace) -> Sequence[str]:
    """The libraries beside Python's own that it cannot do without."""
    return ("numpy",) if args.scheduler is None else ("numpy", "distributed")


def add_arguments(parser: argparse.ArgumentParser) -> None:
    parser.add_argument("case", metavar="CASE", help="the folder of a case, ideally one that `assign` made")
    parser.add_argument(
        "--from", dest="first", metavar="CLOCK", type=clock, required=True, help="when a link is closed"
    )
    parser.add_argument("--to", dest="end", metavar="CLOCK", type=clock, required=True, help="when it is opened again")
    add_start_argument(parser)
    parser.add_argument(
        "--links",
        metavar="NAME",
        nargs="+",
        action="extend",
        default=[],
        help="the links to close, each by itself; a name that begins with - is given as --links=-a",
    )
    parser.add_argument(
        "--busiest",
        metavar="N",
        type=whole,
        default=10,
        help="without --links, how many of the busiest links to close (default: 10)",
    )
    parser.add_argument(
        "--respond",
        metavar="WHO",
        nargs="+",
        default=["nobody", "all"],
        help=(
            "who chooses another route: nobody, half, all, a number in per cent, or moment: all, by the travel times "
            "of the moment (default: nobody all)"
        ),
    )
    parser.add_argument(
        "--iterations",
        metavar="N",
        type=whole,
        default=8,
        help="in how many loadings informed drivers find their routes (default: 8)",
    )
    parser.add_argument(
        "--period",
        type=minutes,
        default=5 * MINUTE_MS,
        metavar="MINUTES",
        help="how long turning fractions stay the same (default: 5)",
    )
    parser.add_argument(
        "--step", type=number, default=3.0, metavar="SIZE", help="the size of the first step (default: 3)"
    )
    parser.add_argument(
        "--processes",
        metavar="N",
        type=whole,
        default=1,
        help="how many closures to work out on this machine at once (default: 1)",
    )
    parser.add_argument(
        "--scheduler", metavar="ADDRESS", help="run on a Dask cluster with this scheduler, such as tcp://10.0.0.7:8786"
    )
    add_format_arguments(parser)
    add_program_argument(parser)


def run(args: argparse.Namespace) -> int:
    from ..assign.assigning import AssignOptions
    from ..assign.rerouting import Base
    from ..assign.spread import costs

    informed = [per_cent_of(word) for word in args.respond]
    if args.iterations < 1 or args.processes < 1:
        raise Fault("--iterations and --processes are at least 1")
    options = AssignOptions(iterations=args.iterations, period_ms=args.period, size=args.step)
    base = Base(Case.read(args.case), options)
    args.start = start_of(args.start, args.case)
    first, end = slots_of(args, base.case)
    args.links = links_named(args.case, base.case.links, args.links)
    look, passed = base.look(first, end, args.program)
    chosen = chosen_of(args, passed)
    closures = closures_of(chosen, first, end)
    found = []
    for one in costs(args.case, args.program, options, informed, closures, args.processes, args.scheduler):
        found.append(one)
        if sys.stderr.isatty():
            print(f"\r{len(found)} of {len(closures)} ", end="", file=sys.stderr, flush=True)
    if sys.stderr.isatty():
        print(file=sys.stderr)
    rows = [row for link, of_link in zip(chosen, found) for row in fields(link, of_link, look, args)]
    args.streets = read_streets(args.case)
    write_table(args, *with_streets(FIELDS, rows, "link", args.streets), "".join(text(chosen, found, look, args)))
    return 0


def per_cent_of(word: str) -> int:
    """How many per cent a word of `--respond` says."""
    from ..assign.closing import WORDS

    number_ = exact_or_none(word)
    if word in WORDS:
        return WORDS[word]
    if number_ is None or number_.denominator != 1 or not 0 <= number_ <= 100:
        raise Fault(f"--respond {word!r}: it is nobody, moment, half, all, or whole per cent from 0 to 100")
    return int(number_)


def slots_of(args: argparse.Namespace, case: Case) -> tuple[int, int]:
    """The slots that `--from` and `--to` say; a Fault where they are not boundaries of slots within the horizon."""
    found = []
    for option, moment in (("--from", args.first), ("--to", args.end)):
        slot, rest = divmod(moment - args.start, case.setup.step_ms)
        if rest or not 0 <= slot <= case.setup.slots:
            raise Fault(
                f"{option} {clock_text(moment)} is not where a slot of {case.setup.step_ms} ms begins within"
                f" the horizon, {clock_text(args.start)} to {clock_text(args.start + case.setup.horizon_ms)}"
            )
        found.append(slot)
    if found[0] >= found[1]:
        raise Fault("--from is not before --to")
    return found[0], found[1]


def chosen_of(args: argparse.Namespace, passed: Sequence[Passed]) -> list[Passed]:
    """The links to shut, with what enters them."""
    by_name = {link.link: link for link in passed}
    for name in args.links:
        if name not in by_name:
            raise Fault(f"the case has no link {name}")
    return [by_name[name] for name in args.links] if args.links else list(passed[: args.busiest])


def closures_of(chosen: Sequence[Passed], first: int, end: int) -> list[Closure]:
    """A closure of each link."""
    from ..assign.closing import Closure

    return [Closure(link.link, first, end) for link in chosen]


def fields(link: Passed, costs: Sequence[Cost], look: Look, args: argparse.Namespace) -> Iterator[list[Cell]]:
    """A closure for programs, a row for each who respond: times in vehicle seconds."""
    for word, cost in zip(args.respond, costs):
        yield [
            link.link,
            args.first,
            args.end,
            vehicles(link.units),
            word,
            seconds(cost.spent),
            seconds(cost.spent - look.spent),
            seconds(cost.alone - look.spent),
            vehicles(cost.not_there),
            seconds(round(cost.regret)),
            cost.iteration,
        ]


def text(
    chosen: Sequence[Passed], found: Sequence[Sequence[Cost]], look: Look, args: argparse.Namespace
) -> Iterator[str]:
    """The table for people."""
    yield (
        f"{counted(len(chosen), 'link')}, each closed by itself from {clock_text(args.first)} to"
        f" {clock_text(args.end)}: by how many vehicle hours the total travel time rises; `routes` is the part that the"
        " new route choice alone makes, with the road open; `late` are vehicles that have not arrived by the end\n"
    )
    yield (
        f"open: {HOURS.show(look.spent)} vehicle hours, relative gap {look.per_cent:.2f} %, late"
        f" {vehicles_text(look.not_there)}\n\n"
    )
    header = ["link", "vehicles"] + [name for word in args.respond for name in (told(word), "routes", "late")]
    rows: list[list[Cell]] = []
    for link, costs in zip(chosen, found):
        rows.append([street_and_id(link.link, args.streets), vehicles(link.units)])
        for cost in costs:
            changed = cost.alone - look.spent
            rows[-1] += [HOURS.show(cost.spent - look.spent), HOURS.show(changed), vehicles(cost.not_there)]
    yield text_table(header, rows)
    if look.per_cent > 2:
        yield (
            f"\nthe open case has a relative gap of {look.per_cent:.2f} %: drivers would gain by other routes without a"
            f" closure too; `ltm-tools assign` finds these\n"
        )


def told(word: str) -> str:
    """A word of `--respond` in the header."""
    return word if exact_or_none(word) is None else f"{word} %"
