"""`ltm-tools assign`: shares of routes at which nobody gains by another way."""
from __future__ import annotations

import argparse
import time
from collections.abc import Iterator, Sequence
from typing import TYPE_CHECKING

from ..case import Case
from ..errors import Fault
from ..files import output_folder
from ..formats import MINUTE_MS, UNITS, counted, vehicles_text
from ..listing import HOURS
from ..program import output
from ..replacing import alone_in, together
from .arguments import add_program_argument, minutes, number, whole

if TYPE_CHECKING:
    from ..assign.assigning import Iteration
    from ..assign.rounds import Rounds

NAME = "assign"
SUMMARY = "find the route choice at which nobody gains by another route, from loadings of the program"
EXAMPLES = """\
    ltm-tools assign CASE -o ASSIGNED
    ltm-tools assign CASE -o ASSIGNED --iterations 60 --until 0.5 --period 15
    ltm-tools assign OTHER -o ASSIGNED --from ASSIGNED_BEFORE
    ltm-tools assign TOWN_WITH_TURNS -o ASSIGNED --rounds 3

A line for each iteration: the total travel time in vehicle hours; the relative gap, what all would save who took the
routes that are best in the mean over a period, in per cent of their travel time; the exact gap, against the fastest
arrival at each moment, which with signals nobody can choose; the vehicles that have not arrived by the end; the size
of the step that follows; and seconds. The iteration with the fewest vehicles that have not arrived is kept, and of
several the one with the least gap, also where Ctrl-C stops it. ASSIGNED is a case like any other, with the iterations
in `iterations.csv`.
"""
LAST, STEADY = 5, 3.0  # the last iterations, and by how many per cent hours may rise in them without a swing
HEADER = f"{'':>3} {'hours':>12} {'relative gap':>14} {'exact gap':>12} {'not arrived':>13} {'step':>8} {'seconds':>8}"


def needs(args: argparse.Namespace) -> Sequence[str]:
    """The libraries beside Python's own that it cannot do without."""
    return ("numpy",)


def add_arguments(parser: argparse.ArgumentParser) -> None:
    parser.add_argument("case", metavar="CASE", help="the folder of a case")
    parser.add_argument(
        "-o",
        "--output",
        dest="folder",
        metavar="ASSIGNED",
        required=True,
        help="the folder to write the case with the new turning fractions to",
    )
    parser.add_argument(
        "--iterations", type=whole, default=30, metavar="N", help="how many iterations at most (default: 30)"
    )
    parser.add_argument(
        "--until",
        type=number,
        default=0.0,
        metavar="GAP",
        help="stop when the relative gap is at most this percentage (default: 0)",
    )
    parser.add_argument(
        "--period",
        type=minutes,
        default=5 * MINUTE_MS,
        metavar="MINUTES",
        help="how long turning fractions stay the same (default: 5)",
    )
    parser.add_argument(
        "--from",
        dest="start",
        metavar="SHARES",
        help="begin with the splits of another case, such as an assigned one (default: those of CASE)",
    )
    parser.add_argument(
        "--step",
        type=number,
        metavar="SIZE",
        help="the size of the first step (default: 3, for averages 1); take a smaller one if hours swing",
    )
    parser.add_argument(
        "--rounds",
        type=whole,
        default=1,
        metavar="N",
        help=(
            "rounds of iterations; between two rounds, turns that yield get their part of the green by the traffic of"
            " the last one (default: 1)"
        ),
    )
    parser.add_argument(
        "--method", default="gradient", metavar="METHOD", help="gradient (default), averages or self-regulating"
    )
    parser.add_argument(
        "--processes",
        metavar="N",
        type=whole,
        default=1,
        help="how many processes work out destinations, with the same result (1)",
    )
    add_program_argument(parser)


def run(args: argparse.Namespace) -> int:
    from ..assign.assigning import AssignOptions
    from ..assign.result import splits_from
    from ..assign.rounds import Rounds, turns_that_yield

    case = Case.read(args.case)
    if args.rounds < 1:
        raise Fault("--rounds is at least 1")
    if args.iterations < 0:
        raise Fault("--iterations is at least 0, which loads the shares of the case and changes none")
    if args.processes < 1:
        raise Fault("--processes is at least 1")
    options = AssignOptions(args.iterations, args.until, args.period, args.step, args.method, args.processes)
    turns = turns_that_yield(args.case, case) if args.rounds > 1 else []
    rounds = Rounds(case, options, None if args.start is None else splits_from(args.start, case), args.rounds, turns)
    done: list[Iteration] = []
    with output_folder(args.folder):
        assign(rounds, done, args)
    with alone_in([args.folder]):  # what stands there is read again, and another run may be about to replace it
        lines = list(ending(rounds, done, args))
    print(*lines, sep="\n")
    return 0


def assign(rounds: Rounds, done: list[Iteration], args: argparse.Namespace) -> None:
    """Assigns, tells each iteration, and writes the best."""
    from ..assign.result import write_result

    try:
        for line in tell_iterations(rounds, args.program, done):
            print(line, flush=True)
    except KeyboardInterrupt:
        if not done:
            raise
        print("stopped: the best so far is kept", flush=True)
    with together():
        write_result(args.case, args.folder, rounds, done)


def tell_iterations(rounds: Rounds, program: str | None, done: list[Iteration]) -> Iterator[str]:
    """A line for each iteration, which are put into `done`, and one for each further round."""
    assignment, began = rounds.assignment, time.monotonic()
    net = assignment.net
    yield (
        f"{counted(len(net.names), 'link')}, {counted(len(net.end_names), 'destination')},"
        f" {counted(len(assignment.spans), 'period')} of {assignment.options.period_ms / MINUTE_MS:g} minutes"
    )
    yield HEADER
    for one in rounds.run(program):
        if done and one.round > done[-1].round:
            yield (
                f"round {one.round}: turns that yield get their part of the green by the traffic of the best"
                " iteration"
            )
        done.append(one)
        now = time.monotonic()
        yield line_of(one, now - began)
        began = now


def line_of(one: Iteration, seconds: float) -> str:
    """The line of an iteration."""
    exact = "" if one.exact is None else f"{one.exact:.2f} %"
    return (
        f"{one.number:>3} {HOURS.show(one.look.spent):>12} {one.look.per_cent:>12.2f} % {exact:>12}"
        f" {vehicles_text(one.look.not_there):>13} {one.size:>8.3f} {seconds:>8.2f}"
        + (f"  {one.demand} % of the demand" if one.demand < 100 else "")
    )


def ending(rounds: Rounds, done: Sequence[Iteration], args: argparse.Namespace) -> Iterator[str]:
    """What is told of the result: the best iteration, whether hours swing, whether it is as near as was wanted, and its
    gap."""
    best = rounds.best_one
    assert best is not None
    gap = best.look.gap
    yield (
        f"{args.folder}: iteration {best.number}, {HOURS.show(best.look.spent)} vehicle hours, relative gap"
        f" {gap.per_cent:.2f} %"
    )
    if gap.all - gap.arriving >= UNITS:
        arriving = f"{100 * gap.arriving / gap.all:.1f} %"
        yield f"the gap is that of the {arriving} of {vehicles_text(round(gap.all))} vehicles that arrive"
    yield from steady([one for one in done if one.round == best.round and one.demand == 100][-LAST:])
    if args.until and best.look.per_cent > args.until:
        yield (
            f"it has not come to {args.until:g} %: more --iterations, a smaller --step or a longer --period may,"
            f" with --from {args.folder}"
        )
    if best.look.not_there:
        from ..assign.result import late_line

        yield late_line(args.folder, args.program)
    yield from exact(args)


def exact(args: argparse.Namespace) -> Iterator[str]:
    """The program's own gap of the result, and why it is the larger one."""
    line = output(args.folder, "gap", program=args.program).decode("ascii", "replace").splitlines()[0]
    words = line.split()
    spent, gap = float(words[3]), float(words[7])
    yield (
        f"the program's exact gap is {100 * gap / spent if spent else 0:.2f} %: it holds each departure against the"
        " fastest arrival at that moment, as within a signal's cycle; nobody can choose by that"
    )
    yield line


def steady(last: Sequence[Iteration]) -> Iterator[str]:
    """By how much hours rose in the last iterations, where these are several, and what to do where they swing."""
    if len(last) > 1:
        spent = [one.look.spent for one in last]
        rise = max(100 * (after / min(spent[: place + 1]) - 1) for place, after in enumerate(spent))
        yield (
            f"in the last {len(last)} iterations hours rose by {rise:.2f} % at most"
            + (
                ": it swings; try a smaller --step, and turns with all their lanes (--lanes full)"
                if rise > STEADY
                else ""
            )
        )
