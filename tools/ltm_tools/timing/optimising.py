"""From a case with turns to better plans of its signals: what is to be searched, the plan to begin with, and the
search."""
from __future__ import annotations

import os
import tempfile
from collections.abc import Callable, Iterator, Mapping, Sequence
from contextlib import contextmanager
from dataclasses import dataclass
from fractions import Fraction

from ..case import Case
from ..case.roads import Roads
from ..case.source import Source
from ..errors import Fault
from ..formats import MINUTE_MS
from ..network.crossings.options import CrossingOptions
from ..network.crossings.recount import by_volumes
from ..network.crossings.turn import Turn
from ..network.crossings.turns_file import read_turns
from ..network.crossings.volumes import Volumes
from ..scenario.open import OpenCase
from .search import LEAST_PART, Rules, Search
from .stages import Controller, Junction, Timing, junctions_of
from .starts import by_flows, wave, with_cycle
from .trying import Limits, Plan, Trier, Triers

SLICE_MS = CrossingOptions.slice_minutes * MINUTE_MS
RESERVE = Fraction(1, 10)
"""Plans are judged with stop lines that let so much less through, so that a plan that just suffices is none."""


@dataclass(frozen=True)
class Wanted:
    """What is asked of a search: the least green in ms, what a change of a junction has to save as a part of the total
    travel time over the number of junctions, the junctions that keep their plan, common cycles in ms to try, paths
    that are to have a green wave, and which part of what stop lines let through is held in reserve."""

    least_ms: int = 5000
    least_part: Fraction = LEAST_PART
    keep: Sequence[str] = ()
    cycles: Sequence[int] = ()
    waves: Sequence[Sequence[str]] = ()
    reserve: Fraction = RESERVE


@dataclass(frozen=True)
class Signalled:
    """A case with the turns of its crossings: its junctions, what its loading has of vehicles by link, and its total
    travel time."""

    case: Case
    source: Source
    turns: Sequence[Turn]
    junctions: Sequence[Junction]
    volumes: Volumes
    spent: int

    @property
    def plan(self) -> Plan:
        """The plan of its files."""
        return {one.name: one.timing for one in self.junctions}


def signalled(
    folder: str, program: str | os.PathLike[str] | None, controllers: Mapping[str, Controller] | None = None
) -> Signalled:
    """The signals of a case and what its loading says of them; a Fault where it has none by turn. Controllers are those
    of approaches, by their names in the source."""
    case = Case.read(folder)
    roads = Roads.of(case.links)
    source, turns = Source.read(folder, roads), read_turns(folder, roads.links)
    heads = {name: link.head for name, link in source.links.items()}
    junctions = named_apart(junctions_of(turns, heads, controllers))
    if not junctions:
        raise Fault(f"{folder}: turns.csv has no turn with a signal, so that there is no plan to improve")
    with OpenCase(folder, program) as session_of:
        spent = session_of.session.delay().spent
        volumes = volumes_of(lambda slot: session_of.session.state(slot).left, case)
    return Signalled(case, source, turns, junctions, volumes, spent)


def named_apart(junctions: Sequence[Junction]) -> list[Junction]:
    """The junctions, those of one node with numbers behind its name."""
    seen: dict[str, int] = {}
    found = []
    for one in junctions:
        seen[one.name] = seen.get(one.name, 0) + 1
        name = one.name if seen[one.name] == 1 else f"{one.name}#{seen[one.name]}"
        found.append(Junction(name, one.turns, one.timing, one.shift_ms))
    return found


def volumes_of(left_by: Callable[[int], Mapping[str, int]], case: Case) -> Volumes:
    """The vehicles that leave each link in each slice of a loading, by what has left each by a boundary."""
    made, step, slots = Volumes(SLICE_MS), case.setup.step_ms, case.setup.slots
    ends = [min(-(-time // step), slots) for time in range(0, slots * step + SLICE_MS, SLICE_MS)]
    left = left_by(0)
    for number, end in enumerate(ends[1:]):
        before, left = left, left_by(end)
        for link in case.links:
            if units := left[link.name] - before[link.name]:
                made.counts.setdefault(link.name, {})[number] = units
                made.slices = max(made.slices, number + 1)
    return made


def starts(found: Signalled, wanted: Wanted) -> list[Plan]:
    """The plans to begin with: that of the files; with each of the cycles that, and the one by the flows; and all of
    them with the waves."""
    free = [one for one in found.junctions if one.name not in wanted.keep]
    flows = {**found.plan, **{one.name: by_flows(one, found.volumes, wanted.least_ms) for one in free}}
    plans: list[Plan] = [found.plan]
    for cycle in wanted.cycles:
        for plan in (found.plan, flows):
            timed = {one.name: with_cycle(one, plan[one.name], cycle, wanted.least_ms) for one in free}
            plans.append({**plan, **{name: timing for name, timing in timed.items() if timing is not None}})
    if wanted.waves:
        plans += [waved(found, plan, wanted) for plan in list(plans)]
    return plans


def waved(found: Signalled, plan: Plan, wanted: Wanted) -> Plan:
    """A plan with the waves, one after another; junctions that keep their plan do so."""
    made: dict[str, Timing] = dict(plan)
    links = {link.name: link.free_ms for link in found.case.links}
    times = {name: links.get(one.link or "", 0) for name, one in found.source.links.items()}
    for path in wanted.waves:
        made = wave(found.junctions, made, path, times, links)
    return {**made, **{name: plan[name] for name in wanted.keep if name in plan}}


@contextmanager
def searching(
    found: Signalled, wanted: Wanted, program: str | os.PathLike[str] | None, sessions: int
) -> Iterator[tuple[Search, int]]:
    """A search from the best of all plans to begin with, and the total travel time of the plan of the files, both with
    the reserve."""
    limits = Limits(found.case, found.junctions, found.volumes, wanted.reserve)
    free = [one for one in found.junctions if one.name not in wanted.keep]
    with tempfile.TemporaryDirectory(prefix="ltm_signals_") as folder:
        case = limits.judged(by_volumes(found.case, found.turns, found.volumes).case, found.plan)
        case.setup.signals = True
        case.write(folder)
        with Triers(lambda: Trier(folder, program, limits, found.plan), sessions) as triers:
            plans = starts(found, wanted)
            times = triers.spent(plans)
            best = min(range(len(plans)), key=lambda place: (times[place], place))
            rules = Rules(found.volumes, wanted.least_ms, wanted.least_part)
            yield Search(free, plans[best], times[best], triers, rules), times[0]
