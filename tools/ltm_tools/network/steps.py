"""What a fit to each of some steps would change, in lines."""
from __future__ import annotations

from collections.abc import Iterable
from fractions import Fraction

from ..case import Case, Demand, Link, Setup
from ..errors import Fault
from ..formats import MOST_SLOTS, count_text
from .fit import FittedNetwork
from .network import Network, diagram_of, road_totals

STEPS = (500, 1000, 1500, 2000, 3000, 5000, 6000, 10_000, 15_000, 20_000, 30_000, 60_000)


def longest_step(raw: Network) -> int:
    """The longest step in ms that changes nothing."""
    return min(diagram_of(road).longest_step_ms for road in raw.roads.values())


def fit_advice(raw: Network) -> list[str]:
    """What the steps would change, and how to ask for one."""
    try:
        longest = longest_step(raw)
        told = [f"the longest step that changes no link is {longest} ms; --fit STEP fits the network to a step:"]
    except Fault:
        longest, told = 0, ["--fit STEP fits the network to a step:"]
    # from the step before the longest one on, as a node that is split asks for more
    first = max(0, sum(step <= longest for step in STEPS) - 2)
    return told + steps_table(raw, STEPS[first : first + 8])


def steps_table(
    raw: Network, steps: Iterable[int] = STEPS, horizon_ms: int | None = None, ends: Iterable[str] = ()
) -> list[str]:
    """What a fit to each of some steps would change, a line each; with a horizon and the nodes where trips end also
    about how many cells the case would have."""
    told = [
        "  --fit    links   merged  contracted  shifted  lengthened  nodes split  length   free-flow times" + "    "
        " about cells" * (horizon_ms is not None)
    ]
    ends = list(ends)
    metres, time, _ = road_totals(raw.roads.values())
    for step in steps:
        fit = FittedNetwork(raw, step)
        try:
            network = fit.run()
        except Fault as fault:
            told.append(f"  {step:<7} {fault}")
            continue
        counts = [
            sum(change.kind == kind for change in fit.changes)
            for kind in ("merged", "contracted", "shifted", "lengthened", "node split")
        ]
        now = road_totals(network.roads.values())
        cells = "" if horizon_ms is None else f"{cells_told(fit, horizon_ms, ends):>22}"
        told.append(
            f"  {step:<7}{len(network.roads):>7}{counts[0]:>9}{counts[1]:>12}{counts[2]:>9}{counts[3]:>12}"
            f"{counts[4]:>13}{signed(now[0] / metres - 1):>9}{signed(now[1] / time - 1):>12}{cells}"
        )
    return told


def cells_told(fit: FittedNetwork, horizon_ms: int, ends: Iterable[str]) -> str:
    """About how many cells the case of a fitted network has, with trips that end at these nodes of the source."""
    slots = max(1, -(-horizon_ms // fit.step))
    links = [Link(road.name, road.tail, road.head, 1, 1, 1, 1) for road in fit.network.roads.values()]
    case = Case(Setup(fit.step, slots, 1), links, [Demand("", fit.node_of(end), 0, 1, 1) for end in ends])
    return count_text(case.cells()) if slots <= MOST_SLOTS else f"{count_text(slots)} slots"


def signed(share: Fraction) -> str:
    """A share of change in per cent, with its sign."""
    return f"{float(share) * 100:+.2f} %"
