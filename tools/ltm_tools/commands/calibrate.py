"""`ltm-tools calibrate`: demand at which the loading meets counts."""
from __future__ import annotations

import argparse
import sys
import time
from collections.abc import Callable, Iterator, Sequence
from dataclasses import replace
from fractions import Fraction
from hashlib import sha256
from typing import TYPE_CHECKING

from ..case import Case
from ..case.clock import start_of
from ..case.history import check_history_of
from ..counting.counts import FIT, HOLD, Count, Placing
from ..counting.doubts import doubts
from ..counting.reading import read_counts, read_times
from ..errors import Fault
from ..files import output_folder
from ..formats import MINUTE_MS, count_text, counted, vehicles_text
from ..listing import HOURS, rounded
from ..loading.loaded import made_by_program
from ..case.source import path_named
from ..replacing import together
from .arguments import (
    add_counts_arguments,
    add_program_argument,
    add_start_argument,
    add_table_arguments,
    minutes,
    reading_of,
    whole,
)
from .validate import fits, reader_of, worst

if TYPE_CHECKING:
    from ..calibrate.routes import Rounds
    from ..calibrate.search import Iteration, Trial, Search
    from ..calibrate.spread import Spread

NAME = "calibrate"
SUMMARY = "find a demand, near the case's own, at which the loading meets counts and measured travel times"
EXAMPLES = """\
    ltm-tools calibrate examples/counts --counts examples/counts/counts.csv -o CALIBRATED
    ltm-tools calibrate CASE --counts counts.csv --times times.csv -o CALIBRATED --hold 20
    ltm-tools calibrate CASE --counts counts.csv -o CALIBRATED --slice 30 --errors errors.csv --processes 4
    ltm-tools calibrate CASE --counts counts.csv -o CALIBRATED --hold 20 --rounds 4
    ltm-tools calibrate CASE --counts counts.csv --times times.csv -o CALIBRATED --capacities class

Counts are as `validate` takes them. CALIBRATED is a case like any other, with fit.csv, demand_fit.csv and
iterations.csv. Each iteration prints a line: the number of loadings so far, the parts of the sum that is minimised
(counts and prior), GEH below 5 and RMSN of the counts that are fitted and of those held out, hours in queues, seconds.
Ctrl-C keeps the best demand so far. docs/CALIBRATE.md says how it works, and what counts cannot show.
"""
MOST_TIMES_PRIOR = 3  # an unknown at so many times its prior is told
MOST_CAPACITIES = 10  # that are listed
STILL_FALLS = 0.95  # of the sum before: an iteration that leaves less is not the last that is worth it
HEADER = (
    f"{'':>3} {'loadings':>8} {'counts':>11} {'prior':>9} {'GEH<5':>8} {'RMSN':>7} {'held':>8} {'RMSN':>7}"
    f" {'queued h':>10} {'seconds':>8}  slopes"
)


def needs(args: argparse.Namespace) -> Sequence[str]:
    """The libraries beside Python's own that it cannot do without."""
    return ("numpy",) if args.scheduler is None else ("numpy", "distributed")


def add_arguments(parser: argparse.ArgumentParser) -> None:
    parser.add_argument("case", metavar="CASE", help="the folder of a case, whose demand is the prior")
    parser.add_argument(
        "-o", "--output", dest="folder", metavar="CALIBRATED", required=True, help="the folder of the case to write"
    )
    add_program_argument(parser)
    add_start_argument(parser)
    add_counts_arguments(parser)
    add_table_arguments(parser)
    parser.add_argument(
        "--slice",
        type=minutes,
        default=15 * MINUTE_MS,
        metavar="MINUTES",
        help="the length of a slice, within which the demand from an origin to a destination keeps its profile (15)",
    )
    parser.add_argument(
        "--hold",
        type=whole,
        default=0,
        metavar="PERCENT",
        help="hold out this percentage of the places with counts: they are measured, not fitted (0)",
    )
    parser.add_argument("--errors", metavar="FILE", help="how wrong the prior may be: a table effect,error")
    parser.add_argument("--iterations", type=whole, default=6, metavar="N", help="how many iterations at most (6)")
    parser.add_argument(
        "--rounds",
        type=whole,
        default=0,
        metavar="N",
        help="at most so many iterations, in each of which routes are assigned to the demand, in place of --iterations"
        " on the case's own splits",
    )
    parser.add_argument(
        "--period",
        type=minutes,
        default=5 * MINUTE_MS,
        metavar="MINUTES",
        help="with --rounds: how long turning fractions stay the same (5)",
    )
    parser.add_argument(
        "--directions",
        type=whole,
        default=32,
        metavar="N",
        help="the exact response of the loading is worked out along at most N main directions, if shares of the"
        " loading do not lead far enough (32)",
    )
    parser.add_argument(
        "--samples",
        type=whole,
        default=16,
        metavar="N",
        help="how many demands that fit as well are loaded for the range (16)",
    )
    parser.add_argument(
        "--capacities",
        metavar="BY",
        help="fit factors for the capacities of stop lines too: of each `class` of links with one speed and jam"
        " density, or of each `junction`",
    )
    parser.add_argument("--processes", type=whole, default=1, metavar="N", help="how many sessions run at once (1)")
    parser.add_argument(
        "--scheduler", metavar="ADDRESS", help="the scheduler of a cluster of Dask, as tcp://10.0.0.7:8786"
    )


def run(args: argparse.Namespace) -> int:
    check_options(args)
    with output_folder(args.folder):
        calibrate(args)
    return 0


def calibrate(args: argparse.Namespace) -> None:
    """Seeks the demand, and writes what was found."""
    from ..calibrate.result import validation, write_result
    from ..calibrate.routes import ROUTES, Rounds
    from ..calibrate.search import Search
    from ..calibrate.spread import spread_of

    check_history_of(args.case, "a session")  # before the routes of a city are made
    start, case = start_of(args.start, args.case), Case.read(args.case)
    placing = Placing.read(args.case, case)
    counts, notes = read_counts(args.counts, reader_of(args, start, placing), placing, args.leave_out_unknown)
    timed = [] if args.times is None else read_times(args.times, start, placing.source, reading_of(args))
    paths = [path_named(args.case, case.links, one.links) for one in timed]
    prior, options, counts = asked(args, case, counts)
    done: list[Iteration] = []
    spread: Spread | None = None
    seeker: Search | Rounds = Search(prior, counts, timed, paths, options, args.program)
    if args.rounds:
        routes = replace(ROUTES, period_ms=args.period)
        seeker = Rounds(prior, counts, timed, paths, options, args.program, args.rounds, routes)
    with seeker:
        try:
            for line in tell_iterations(seeker, done, notes, start, args):
                print(line, flush=True)
            if args.samples and seeker.found is not None:
                spread = spread_of(seeker.found, args.samples)
        except KeyboardInterrupt:
            if seeker.found is None:
                raise
            seeker.restart()
            print("stopped: the best so far is kept", flush=True)
        search = seeker.found
        assert search is not None and search.best is not None
        with together():
            write_result(args.case, args.folder, search, search.best, done, spread, start)
        best = validation(search.target, search.best)
        print(fits(best) + "\n" + worst(best, start, case.streets(args.case)), end="")
        for line in ending(search, spread, done, args):
            print(line)


def check_options(args: argparse.Namespace) -> None:
    """A Fault where an option is out of its range."""
    from ..calibrate.capacities import KINDS

    for name, values in (("hold", range(0, 91)), ("processes", range(1, 65)), ("samples", range(0, 1001))):
        if getattr(args, name) not in values:
            raise Fault(f"--{name} is from {values[0]} to {values[-1]}")
    if min(args.iterations, args.directions, args.rounds) < 0:
        raise Fault("--iterations, --directions and --rounds are not below 0")
    if args.capacities not in (None, *KINDS):
        raise Fault(f"--capacities is {' or '.join(KINDS)}")
    if args.capacities and (args.rounds or args.scheduler):
        raise Fault("--capacities cannot be used with --rounds or --scheduler")


def asked(args: argparse.Namespace, case: Case, counts: list[Count]):  # type: ignore[no-untyped-def]
    """The unknowns, the options and the counts as they are asked for."""
    from ..calibrate.search import CalibrateOptions
    from ..calibrate.unknowns import Errors, Prior, slice_slots

    errors = Errors() if args.errors is None else Errors.read(args.errors)
    prior = Prior(case, slice_slots(Fraction(args.slice, MINUTE_MS), case))
    if not prior.unknowns:
        raise Fault(f"{args.case}: the case has no demand, and the search starts from one")
    return (
        prior,
        CalibrateOptions(args.iterations, args.directions, errors, args.processes, args.scheduler, args.capacities),
        held_out(counts, args.hold),
    )


def held_out(counts: list[Count], percent: int) -> list[Count]:
    """The counts, those of so many of 100 places held out: of the places in the order of a sum of their names."""
    names = sorted({count.name for count in counts}, key=lambda name: sha256(name.encode()).digest())
    held = {*names[: round(len(names) * percent / 100)]}
    found = [replace(count, use=HOLD) if count.name in held else count for count in counts]
    if not any(count.use == FIT for count in found):
        raise Fault("all counts are held out, and none is left to fit")
    return found


def tell_iterations(
    seeker: Search | Rounds, done: list[Iteration], notes: Sequence[str], start: int, args: argparse.Namespace
) -> Iterator[str]:
    """A line for each iteration, which are put into `done`; before the second what is suspicious, on the standard
    error."""
    from ..calibrate.result import validation

    began, wanted = time.monotonic(), seeker.target
    held = len(wanted.counts) - len(wanted.chosen)
    yield (
        f"{counted(len(seeker.prior.unknowns), 'unknown')}, {count_text(len(wanted.chosen))} counts to fit, {held} held"
        f" out, {counted(len(wanted.timed), 'time')}"
    )
    yield HEADER
    for one in seeker.run():
        done.append(one)
        fit = validation(wanted, one.best)
        if len(done) == 1:
            prior = made_by_program(seeker.prior.case, args.case, args.program)
            for line in (*notes, *doubts(fit.met, prior.case, prior.curves, start)):
                print(line, file=sys.stderr)
        yield iteration_line(one, fit, time.monotonic() - began)
        began = time.monotonic()


def iteration_line(one: Iteration, fit: object, took: float) -> str:
    """The line of an iteration."""
    from ..counting.measures import percent
    from ..counting.validating import Validation

    assert isinstance(fit, Validation)
    parts = []
    for use in (FIT, HOLD):
        found = fit.by_span(use)
        parts.append(f"{'':>8} {'':>7}" if found is None else f"{percent(found.below_5):>6} % {found.rmsn or 0:>5} %")
    point = one.best
    return (
        f"{one.number:>3} {one.loadings:>8} {point.of_counts:>11.2f} {point.value - point.of_counts:>9.2f}"
        f" {parts[0]} {parts[1]} {HOURS.show(point.loaded.hours.queued):>10} {took:>8.2f}  {one.way}"
        + ("" if one.gap is None else f", relative gap {one.gap:.2f} %")
    )


def ending(search: Search, spread: Spread | None, done: Sequence[Iteration], args: argparse.Namespace) -> Iterator[str]:
    """What is told at the end: totals, the range, how much is known, and what is suspicious."""
    point, begun = search.best, search.begun
    assert point is not None and begun is not None
    rows = search.prior.of_rows(search.effects.amounts(point.effects))
    before, after = int(search.prior.units.sum()), int(rows.sum())
    change = rounded(1000 * (after - before), 10 * max(1, before), 1)
    yield (
        f"demand {vehicles_text(before)} becomes {vehicles_text(after)} vehicles ({change:+} %)"
        f"{range_of(spread, 3, vehicles_text)}"
    )
    yield from hours_lines(begun, point, spread)
    if spread is not None:
        much, little = int((spread.known >= 0.9).sum()), int((spread.known < 0.1).sum())
        yield (
            f"of {counted(len(spread.known), 'unknown')} {much} are known to nine tenths by these counts, and {little}"
            f" to less than one"
        )
    yield from capacity_lines(search, point, spread)
    units = [0] * len(search.prior.unknowns)
    for place, count in zip(search.prior.of.tolist(), rows.tolist()):
        units[place] += count
    far = sum(count > MOST_TIMES_PRIOR * one.units for one, count in zip(search.prior.unknowns, units))
    if far:
        yield f"{counted(far, 'unknown')} at more than {MOST_TIMES_PRIOR} times the prior: see demand_fit.csv"
    word = "round" if args.rounds else "iteration"
    most = args.rounds or args.iterations
    if most and done[-1].number == most and done[-1].best.value < STILL_FALLS * done[-2].best.value:
        yield f"the last of {counted(most, word)} still came much nearer: give more --{word}s"
    if args.rounds:
        kept = next(one.number for one in done if one.best is point)
        yield f"round {kept} is kept, whose demand meets the counts best on its own routes; round 0 is the prior"
    misfit = point.of_counts / len(search.target.errors)
    if misfit > 1:
        yield (
            f"the mean square misfit is {misfit:.2f} of the counts' errors; expected about 1 or less: look at the"
            f" worst counts, at capacities and routes there, before you trust this demand"
        )


def hours_lines(begun: Trial, point: Trial, spread: Spread | None) -> Iterator[str]:
    """Vehicle hours, hours in queues, and vehicles that have not arrived by the end: of the prior, of what was found,
    and the range of demands that fit as well."""
    for name, place in (("vehicle hours", 0), ("hours in queues", 1)):
        values = [HOURS.show(one.loaded.hours[place]) for one in (begun, point)]
        yield f"{name}: {values[0]} by the prior, {values[1]} found{range_of(spread, place, HOURS.show)}"
    late = [vehicles_text(one.loaded.hours.late) for one in (begun, point)]
    yield f"not arrived by the end: {late[0]} by the prior, {late[1]} found{range_of(spread, 2, vehicles_text)}"


def capacity_lines(search: Search, point: Trial, spread: Spread | None) -> Iterator[str]:
    """The factors of capacities that are furthest from 1."""
    from ..calibrate.result import capacity_rows

    rows = [] if search.capacities is None else capacity_rows(search, point, spread)
    for name, links, factor, known in sorted(rows, key=lambda row: -abs(float(str(row[2])) - 1))[:MOST_CAPACITIES]:
        lines = counted(len(str(links).split()), "stop line")
        yield f"{name}: {factor} of the capacity of {lines}" + ("" if known is None else f", known to {known}")


def range_of(spread: Spread | None, place: int, show: Callable[[int], object]) -> str:
    """The range of a number of a loading over demands that fit as well."""
    if spread is None or not spread.points:
        return ""
    values = [one.loaded.hours[place] for one in spread.points]
    return f"; {show(min(values))} to {show(max(values))} where counts fit as well"
