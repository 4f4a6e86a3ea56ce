"""What the commands that import a network have in common: arguments on the step, the fit and the names, and how a
refusal is told."""
from __future__ import annotations

import argparse
import sys
from collections.abc import Callable
from dataclasses import replace
from fractions import Fraction
from typing import Any, TypeVar

from ..errors import Fault
from ..formats import MOST_SLOT_UNITS, MOST_STEP_MS, UNITS, above_0_or_none, clock_ms
from ..network.imported import Imported
from ..network.importing import NotCarried
from ..network.bad_option import BadOption
from ..network.crossings.options import SATURATION, CrossingOptions, GapAcceptance
from ..network.crossings.turns_file import gap_or_none
from ..network.options import Options
from .arguments import whole

Asked = TypeVar("Asked", bound=Options)


def step_argument(text: str) -> int:
    """A step in ms, as `5000`, or in seconds, as `5s`."""
    number, unit = (
        (text.removesuffix("ms"), 1)
        if text.endswith("ms") or not text.endswith("s")
        else (text.removesuffix("s"), 1000)
    )
    step = (above_0_or_none(number) or Fraction(0)) * unit
    if step.denominator != 1 or not 1 <= step <= MOST_STEP_MS:
        raise argparse.ArgumentTypeError(f"{text!r} is no step; as 5000 or 5s, at most {MOST_STEP_MS} ms")
    return int(step)


def above_0(text: str) -> Fraction:
    """A number above 0."""
    number = above_0_or_none(text)
    if number is None:
        raise argparse.ArgumentTypeError(f"{text!r} is no number above 0")
    return number


def add_network_arguments(parser: argparse.ArgumentParser) -> None:
    """The arguments on the step, the fit, the names and how vehicles are counted."""
    add_step_arguments(parser.add_argument_group("step and fit"))
    add_counting_arguments(parser.add_argument_group("how vehicles enter and are counted"))


def add_step_arguments(group: argparse._ArgumentGroup) -> None:
    """The arguments on the step, the fit and the names."""
    group.add_argument(
        "--fit",
        type=step_argument,
        metavar="STEP",
        help=(
            "fit the network to this step, such as 5000 (ms) or 5s: merge, contract, shift and lengthen links that "
            "are too short, and split nodes with more than 4 links in or out; every change is reported and listed in "
            "changes.csv"
        ),
    )
    group.add_argument(
        "--no-balance",
        action="store_true",
        help="with --fit: do not adjust other links to keep the travel times of used routes",
    )
    group.add_argument(
        "--step",
        type=step_argument,
        help="the step of a network that is left as it is (default: the longest that every link allows)",
    )
    group.add_argument(
        "--least-step",
        type=step_argument,
        default=1000,
        metavar="STEP",
        help="the shortest step to propose (default: 1000)",
    )
    group.add_argument(
        "--steps", action="store_true", help="show what a fit to each of several steps would change, and write nothing"
    )
    group.add_argument(
        "--rename",
        action="store_true",
        help="replace names that a case cannot have; source_links.csv and source_nodes.csv list old and new names",
    )


def add_counting_arguments(group: argparse._ArgumentGroup) -> None:
    """The arguments on origins, and on how amounts are rounded."""
    group.add_argument(
        "--origin-capacity",
        type=whole,
        default=MOST_SLOT_UNITS // UNITS,
        metavar="N",
        help="the most vehicles that leave an origin in a step (default: 32)",
    )
    group.add_argument(
        "--entries",
        choices=("links", "none"),
        default="links",
        help=(
            "how trips enter at a node that other traffic passes: by an entry link with the capacity of their road "
            "(links, default), or by pushing in with --origin-capacity (none)"
        ),
    )
    group.add_argument(
        "--moves",
        type=int,
        choices=(0, 1),
        help=(
            "how the flow of a turn is rounded down: 1 for the turn as a whole, 0 for each destination, which costs "
            "capacity if there are many (default: 1 with more than 16 destinations)"
        ),
    )
    group.add_argument(
        "--history",
        type=int,
        choices=(0, 1),
        help="whether the case keeps the history of its loading, which the live map and all sessions need: 1 refuses a"
        " case that is too large for it, 0 keeps none, and writes the demand as a matrix if it can (default: 1 if it is"
        " not too large)",
    )
    group.add_argument(
        "--routes",
        type=int,
        choices=(0, 1),
        help="1: where no traffic is counted or simulated, nodes take their free-flow routes by the column routes of"
        " setup.csv, and splits.csv has no record; 0: ltm routes writes them (default: 1 without history if"
        " destinations, links or rows are too many for one)",
    )
    group.add_argument(
        "--carry",
        type=int,
        choices=(0, 1),
        default=1,
        help="1: what is left over when a capacity or a limit is rounded down in a step is carried to the next; 0: it"
        " is lost (1)",
    )


def add_od_arguments(demand: argparse._ArgumentGroup) -> None:
    """The arguments on demand between zones: when it sets out, and what is left out of it."""
    demand.add_argument(
        "--period",
        type=whole,
        default=60,
        metavar="MINUTES",
        help="the minutes over which the demand sets out evenly (default: 60)",
    )
    demand.add_argument(
        "--profile", metavar="FILE", help="when the demand sets out, instead of --period: a table from,to,share"
    )
    demand.add_argument(
        "--start",
        metavar="CLOCK",
        help=("the clock time of slot 0, such as 7:00, which goes into clock.txt (default: the first of the profile)"),
    )
    demand.add_argument(
        "--horizon",
        type=whole,
        default=120,
        metavar="MINUTES",
        help="the length of the horizon in minutes (default: 120)",
    )
    add_destinations_argument(demand)
    demand.add_argument(
        "--leave-out-unreached", action="store_true", help="leave out demand that has no route, and report how much"
    )


def od_options(args: argparse.Namespace) -> dict[str, Any]:
    """What these arguments ask for, by the names of options."""
    return {
        "period": args.period,
        "profile": args.profile,
        "start_ms": clock_ms(args.start) if args.start is not None else None,
        "horizon": args.horizon,
        "leave_out_unreached": args.leave_out_unreached,
    }


def add_destinations_argument(group: argparse._ArgumentGroup) -> None:
    """The argument on how many destinations are kept."""
    group.add_argument(
        "--destinations",
        type=whole,
        metavar="N",
        help="keep the N destinations with most vehicles; other trips end at the nearest of these",
    )


def add_jam_argument(group: argparse._ArgumentGroup) -> None:
    """The argument on how near vehicles stand."""
    group.add_argument(
        "--jam", type=above_0, default=Fraction(150), help="jam density of a lane in vehicles/km (default: 150)"
    )


def add_crossing_arguments(parser: argparse.ArgumentParser) -> argparse._ArgumentGroup:
    """The arguments on crossings, whose turns may be links of their own."""
    group = parser.add_argument_group("crossings")
    group.add_argument(
        "--turns",
        default="signals",
        metavar="WHICH",
        help=(
            "where turns become links of their own: signals (default: where a signal holds a link, or a turn is "
            "forbidden), all (wherever a link leads on to several), none, or the names of nodes, separated by commas"
        ),
    )
    group.add_argument(
        "--apart",
        choices=("groups", "turns", "ends"),
        default="groups",
        help=(
            "which nodes become several, so that nobody turns back where no turn leads back: groups (default), each "
            "whose allowed turns fall apart into groups of links that do not meet, one node for each group; turns, "
            "the same, and where only a turn back joins the groups of a node, and another turn back is forbidden, its "
            "turns become links; ends, dead ends alone"
        ),
    )
    group.add_argument(
        "--turn-length",
        type=whole,
        default=CrossingOptions.length_m,
        metavar="M",
        help="the metres before a crossing on which a turn has its own lanes (default: 98)",
    )
    group.add_argument(
        "--permissive",
        type=permissive_argument,
        metavar="HOW",
        help=(
            "the capacity of a turn that yields, during its green or at a sign: gaps (default), a fraction such as "
            "0.5, or free"
        ),
    )
    group.add_argument(
        "--gap",
        type=gap_argument,
        metavar="TC,TF,N",
        help=(
            "for gaps at signals: critical gap and follow-up time in seconds, and how many vehicles of a lane go when"
            " the green ends (default: 4.5,2.2,1)"
        ),
    )
    group.add_argument(
        "--saturation",
        type=saturation_argument,
        default=SATURATION,
        metavar="VEHICLES",
        help=(
            "the vehicles an hour that a lane lets through at a signal or a sign (default: 1800), or road: as many as"
            " its road carries"
        ),
    )
    return group


def add_route_arguments(group: argparse._ArgumentGroup) -> None:
    """The arguments on crossings of a source that has routes."""
    group.add_argument(
        "--lanes",
        choices=("full", "shared", "counted"),
        default="full",
        help=(
            "what a turn has of the lanes that it shares with others: full (default), all of them; shared, the part "
            "that its vehicles take by the counted routes, and at least an even part; counted, exactly that part, for"
            " routes that do not change"
        ),
    )
    add_yielding_argument(
        group,
        ranks=True,
        more=", and turns that are links have no gaps of their own at roundabouts and where the right comes first",
    )
    group.add_argument(
        "--origins",
        choices=("edge", "turns", "node"),
        default="edge",
        help=(
            "where trips begin: on the first edge of their route, and leave by it, if it is long enough (edge, "
            "default); the same at crossings whose turns are links, and elsewhere at the node of that edge (turns; "
            "also with --entries none); or at the node everywhere, from which they may take any edge (node)"
        ),
    )
    group.add_argument(
        "--volumes",
        metavar="ROUTES",
        help="the vehicles by which traffic at crossings is counted (default: those of the case)",
    )


YIELDING = {
    "ranks": (
        "as with gaps, and turns also wait for the queues of turns that yield themselves and go before them, in traffic"
        " that is counted as queues let it come"
    ),
    "gaps": "an approach lets pass what finds gaps in the counted traffic, and its vehicles wait for these",
    "none": "vehicles do not yield",
}


def add_yielding_argument(group: argparse._ArgumentGroup, ranks: bool = False, more: str = "") -> None:
    """The argument on approaches that yield as a whole, by ranks where turns can have these; and what else `none`
    means."""
    words = [word for word in YIELDING if ranks or word != "ranks"]
    told = [f"{word}{' (default)' if word == words[0] else ''}, {YIELDING[word]}" for word in words]
    group.add_argument(
        "--yielding",
        choices=words,
        default=words[0],
        help=f"how vehicles yield at junctions without lights whose turns are no links: {'; '.join(told)}{more}",
    )


def saturation_argument(text: str) -> Fraction | None:
    """Vehicles an hour; none for what the road carries."""
    return None if text == "road" else above_0(text)


def permissive_argument(text: str) -> Fraction | None:
    """A share of the green, 1 where it is free; none for gaps."""
    if text in ("gaps", "free"):
        return Fraction(1) if text == "free" else None
    share = above_0(text)
    if share > 1:
        raise argparse.ArgumentTypeError(f"{text!r} is neither gaps, free nor a share of at most 1")
    return share


def gap_argument(text: str) -> GapAcceptance:
    """A gap as its three numbers with commas between."""
    gap = gap_or_none(text.split(","))
    if gap is None:
        raise argparse.ArgumentTypeError(
            f"{text!r} is no gap; as 4.5,2.2,1: two times in seconds above 0, and a number" " of vehicles"
        )
    return gap


def crossing_options(args: argparse.Namespace) -> CrossingOptions:
    """What these arguments ask for."""
    if args.gap is not None and args.permissive is not None:
        raise Fault("--gap goes with --permissive gaps alone")
    words = {"signals", "all", "none"}
    names = tuple(name for name in args.turns.split(",") if name)
    made = CrossingOptions(
        turns=args.turns if args.turns in words else names,
        length_m=args.turn_length,
        apart=args.apart != "ends",
        joined=args.apart == "turns",
        saturation=args.saturation,
        permissive=args.permissive or args.gap or GapAcceptance(),
    )
    if not hasattr(
        args, "lanes"
    ):  # a source without routes, whose turns have no ranks: gaps are all there is to ask for
        return replace(made, yielding="none") if args.yielding == "none" else made
    return replace(made, lanes=args.lanes, origins=args.origins, yielding=args.yielding)


def network_options(args: argparse.Namespace) -> dict[str, Any]:
    """What these arguments ask for, by the names of options."""
    return {
        "fit": args.fit,
        "balance": not args.no_balance,
        "step": args.step,
        "least_step": args.least_step,
        "rename": args.rename,
        "origin_capacity": args.origin_capacity,
        "destinations": args.destinations,
        **({"crossings": crossing_options(args)} if hasattr(args, "turns") else {}),
        "moves": None if args.moves is None else args.moves == 1,
        "entries": args.entries == "links",
        "carry": args.carry == 1,
        "history": None if args.history is None else args.history == 1,
        "routes": None if args.routes is None else args.routes == 1,
    }


def run_import(
    args: argparse.Namespace,
    options_of: Callable[[argparse.Namespace], Asked],
    make: Callable[[Asked], Imported],
    steps: Callable[[Asked], list[str]],
) -> int:
    """Makes a case and writes it, or tells what steps would change; tells what was made, or what cannot be carried."""
    try:
        asked = options_of(args)
        if args.steps:
            print(*steps(asked), sep="\n")
            return 0
        made = make(asked)
    except BadOption as fault:
        raise Fault(f"--{fault.name.replace('_', '-')} {fault.rule}") from None
    except NotCarried as fault:
        print(*fault.told(), sep="\n", file=sys.stderr)
        return 1
    older = made.write(args.case)  # before it is told, whoever reads that, as head does, and goes
    print(*made.told, *older, sep="\n")
    return 0
