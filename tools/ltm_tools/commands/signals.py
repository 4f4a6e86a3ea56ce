"""Gives a case its signals: cycles of greens become exit limits by slot; or finds better plans for those that it
has."""
from __future__ import annotations

import argparse
import os
from collections.abc import Mapping, Sequence
from fractions import Fraction
from itertools import accumulate
from pathlib import Path

from ..case import Case
from ..case.clock import read_clock, write_clock
from ..case.history import check_history_of
from ..case.roads import Roads
from ..case.routes import with_routes
from ..case.source import Source
from ..demand.signal_plans import read_signals
from ..errors import Fault
from ..files import output_folder
from ..formats import UNITS, counted, exact_or_none, many
from ..listing import HOURS
from ..replacing import together
from ..scenario.open import OpenCase
from ..sumo.net import Program
from ..sumo.programs import programs_of
from ..sumo.signals import cycle_of
from ..timing.optimising import RESERVE, Signalled, Wanted, searching, signalled
from ..timing.result import CYCLES_FILE, PROGRAMS_FILE, programs_text, timed, write_programs, write_result
from ..timing.search import LEAST_PART, LEVELS, Search
from ..timing.stages import Controller
from ..timing.trying import Plan
from .arguments import add_program_argument, add_table_arguments, clock, reading_of, whole

NAME = "signals"
SUMMARY = "make the signals of a case from cycles with green times, or find plans that save travel time"
EXAMPLES = """\
  ltm-tools signals CASE --cycles greens.csv --clock 7:00
  ltm-tools signals CASE --cycles greens.csv --even
  ltm-tools signals CASE --optimise -o OUT --sumo town.net.xml town.add.xml

  greens.csv   link,cycle,green_from,green_to,offset,start,end as main,90,0,42,10,7:00,9:00
Cycle, green and offset are in seconds; a cycle begins at the offset after the start of the case. start and end are
clock times, or seconds after the start of the case; if they are empty, the plan always runs. A link with several green
times has a row for each. A field `to` names the link into which a green lets traffic: such a plan by turn becomes one
limit of the link, in which each green counts for the fraction of its turn, by a field `share`, else by the demand and
splits of the case. signals.csv is replaced.

With --optimise the plans in turns.csv are changed junction by junction, and what shortens the total travel time is
kept; the routes stay. docs/IMPROVE.md says more."""

MOST_NAMED = 8
MOST_RESERVE = Fraction(1, 2)


def add_arguments(parser: argparse.ArgumentParser) -> None:
    """The arguments of the command."""
    parser.add_argument("case", help="the folder of the case")
    kind = parser.add_mutually_exclusive_group(required=True)
    kind.add_argument("--cycles", metavar="FILE", help="a table of cycles with green times")
    kind.add_argument("--optimise", action="store_true", help="find better plans for the signals that the case has")
    parser.add_argument(
        "--clock",
        metavar="CLOCK",
        type=clock,
        help="the clock time of slot 0, which goes into clock.txt (what that says, else 0:00)",
    )
    parser.add_argument(
        "--even",
        action="store_true",
        help="one limit for each link, the mean of its cycle: fewer rows, and no platoons",
    )
    add_table_arguments(parser)
    add_search_arguments(parser.add_argument_group("with --optimise"))
    add_program_argument(parser)


def add_search_arguments(parser: "argparse._ArgumentGroup") -> None:
    """The options of a search for better plans."""
    parser.add_argument(
        "-o", "--output", dest="to", metavar="OUT", help="the folder for the case with the plans that are found"
    )
    parser.add_argument(
        "--rounds",
        metavar="N",
        type=whole,
        default=len(LEVELS),
        help=f"how often all junctions are tried ({len(LEVELS)})",
    )
    parser.add_argument(
        "--least-green", metavar="SECONDS", type=milliseconds, default=5000, help="how short a green may be (5)"
    )
    parser.add_argument(
        "--least-saving",
        metavar="PERCENT",
        type=per_cent,
        default=LEAST_PART,
        help="what a change of a junction has to save, of the total travel time over the number of junctions (5)",
    )
    parser.add_argument(
        "--reserve",
        metavar="PERCENT",
        type=reserve,
        default=RESERVE,
        help="how much less stop lines let through where plans are judged, so that none just suffices (10)",
    )
    parser.add_argument("--keep", metavar="NODE", nargs="+", default=[], help="junctions whose plans stay")
    parser.add_argument(
        "--cycle", metavar="SECONDS", nargs="+", type=milliseconds, default=[], help="common cycles to try as well"
    )
    parser.add_argument(
        "--wave", metavar="LINK", nargs="+", action="append", default=[], help="a path to begin with a green wave"
    )
    parser.add_argument(
        "--sumo",
        metavar="FILE",
        nargs="+",
        type=Path,
        help="the net, and files with programs, to write programs for SUMO",
    )
    parser.add_argument(
        "--sessions", metavar="N", type=whole, default=os.cpu_count() or 1, help="how many sessions run at once"
    )


def milliseconds(text: str) -> int:
    """Seconds of the command line, in ms."""
    seconds = exact_or_none(text)
    if seconds is None or seconds <= 0:
        raise argparse.ArgumentTypeError(f"{text} is no number of seconds above 0")
    return int(seconds * UNITS)


def per_cent(text: str) -> Fraction:
    """A part in per cent, 0 or more."""
    number = exact_or_none(text.removesuffix("%"))
    if number is None or not 0 <= number <= 100:
        raise argparse.ArgumentTypeError(f"{text} is no part in per cent, from 0 to 100")
    return number / 100


def reserve(text: str) -> Fraction:
    """A part in per cent that a stop line can do without."""
    found = per_cent(text)
    if found > MOST_RESERVE:
        raise argparse.ArgumentTypeError(f"{text} is no reserve in per cent, from 0 to {MOST_RESERVE * 100}")
    return found


def run(args: argparse.Namespace) -> int:
    """Writes the signals, and tells what they are."""
    return optimise(args) if args.optimise else by_cycles(args)


def by_cycles(args: argparse.Namespace) -> int:
    """Gives the case the signals of a table."""
    case = Case.read(args.case, routes=False)  # so that no routes are written that the program makes
    routed = with_routes(case)
    source = Source.read(args.case, Roads.of(case.links))
    begins = args.clock if args.clock is not None else read_clock(args.case) or 0
    made = read_signals(args.cycles, routed, source, start_ms=begins, even=args.even, reading=reading_of(args))
    case.signals, case.setup.signals = made.limits, True
    with together():
        case.write(args.case)
        if args.clock is not None:
            write_clock(args.case, begins)
    print(f"{many(len(made.limits), 'record')} of signals, of {many(made.links, 'link')}")
    print(*made.notes, sep="\n", end="\n" if made.notes else "")
    return 0


def optimise(args: argparse.Namespace) -> int:
    """Finds better plans, and writes the case with them."""
    if args.to is None:
        raise Fault("--optimise leaves the case as it is: -o OUT names the folder for the one with better plans")
    if args.sessions < 1 or args.rounds < 0:
        raise Fault(f"{min(args.sessions, args.rounds)} is no number of sessions or rounds")
    check_history_of(args.case, "a session")  # before the routes of a city are made
    with output_folder(args.to):
        programs = programs_of(args.sumo) if args.sumo else {}
        found = signalled(args.case, args.program, controllers_of(programs))
        check_names(args.keep, found)
        wanted = Wanted(args.least_green, args.least_saving, args.keep, args.cycle, args.wave, args.reserve)
        with searching(found, wanted, args.program, args.sessions) as (search, judged_spent):
            print(f"as it is: {hours(found.spent)}, with the reserve {hours(judged_spent)}")
            print(f"begins with {hours(search.spent)}", flush=True)
            climb(search, found, args.rounds)
        write(args, found, {**found.plan, **search.plan}, programs)
    with OpenCase(args.to, args.program) as opened:
        spent = opened.session.delay().spent
    print(f"{hours(spent)} in place of {hours(found.spent)}; {args.to} has the case, {CYCLES_FILE} its plans")
    if args.sumo:
        print(f"{args.to}/{PROGRAMS_FILE} has them for SUMO, as a further additional file")
    return 0


def controllers_of(programs: Mapping[str, Program]) -> dict[str, Controller]:
    """The controllers of approaches by their programs."""
    return {
        edge: Controller(one.signal, cycle_of(one), tuple(accumulate([0, *(length for length, _ in one.phases[:-1])])))
        for edge, one in programs.items()
    }


def check_names(keep: Sequence[str], found: Signalled) -> None:
    """A Fault where a junction that is to keep its plan is none with signals."""
    names = [one.name for one in found.junctions]
    for name in keep:
        if name not in names:
            raise Fault(f"no junction with signals is called {name}; the first ones are {' '.join(names[:MOST_NAMED])}")


def write(args: argparse.Namespace, found: Signalled, plan: Plan, programs: Mapping[str, Program]) -> None:
    """Writes the case with a plan, and programs for SUMO where they are asked for."""
    held = [(one, plan[one.name], programs.get(one.turns[0].approach)) for one in found.junctions]
    with together():
        write_result(args.case, args.to, timed(found.turns, found.junctions, plan), found.volumes)
        if args.sumo:
            known = [(one, timing, program) for one, timing, program in held if program is not None]
            write_programs(args.to, programs_text(known, read_clock(args.case) or 0))


def climb(search: Search, found: Signalled, rounds: int) -> None:
    """Runs the rounds, each told as it is done; an interrupt ends them, and the best is kept."""
    try:
        for one in search.run(rounds):
            print(
                f"round {one.number}: {hours(one.spent)}, {counted(one.changed, 'junction')} of"
                f" {len(search.junctions)} changed, {one.loadings} loadings",
                flush=True,
            )
    except KeyboardInterrupt:
        print("stopped: the best so far is kept", flush=True)


def hours(time: int) -> str:
    """Vehicle time in hours."""
    return f"{HOURS.show(time)} {HOURS.name}"
