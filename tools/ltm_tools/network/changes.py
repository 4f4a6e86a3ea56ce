"""What an import changed, in lines."""
from __future__ import annotations

from collections.abc import Container, Iterable, Mapping
from fractions import Fraction

from ..case.streets import street_and_id
from .fit import metres_text
from .importing import Carried
from .network import road_totals
from .steps import longest_step, signed

NO_STREETS: Mapping[str, str] = {}
NODE_SPLIT = "node split"
"""The kind of a change that is named by its node."""


def changes_told(
    made: Carried,
    routes: Iterable[tuple[tuple[str, ...], int]],
    added: Container[str] = (),
    streets: Mapping[str, str] = NO_STREETS,
) -> list[str]:
    """What was changed: the step and the network, the most used routes with it, and names. `added` are roads that the
    source does not have, `streets` the names of its streets."""
    told = (
        [*changes_table(made, added, streets), *routes_table(made, routes, streets)]
        if made.fit is not None
        else [f"the longest step that changes nothing is {longest_step(made.raw)} ms"]
    )
    renamed = sum(name != source for names in (made.link_names, made.node_names) for source, name in names.items())
    return told + ([f"{renamed} names are made, and stand in source_links.csv and source_nodes.csv"] if renamed else [])


def changes_table(made: Carried, added: Container[str] = (), streets: Mapping[str, str] = NO_STREETS) -> list[str]:
    """What a fit changed: for each kind of change how many, how many metres and seconds, and the one that moves
    most."""
    if made.fit is None:
        return []
    told = [f"a fit to {made.step} ms changes:"]
    kinds = dict.fromkeys(change.kind for change in made.fit.changes)
    for kind in kinds:
        some = [change for change in made.fit.changes if change.kind == kind]
        moved, time = sum(abs(change.metres) for change in some), sum((change.time for change in some), Fraction(0))
        worst = max(some, key=lambda change: abs(change.metres))
        told.append(
            f"  {kind:<17}{len(some):>6}  {metres_text(Fraction(moved)):>9} m  {float(time) / 1000:>+9.1f} s "
            f" most: {worst.name if kind == NODE_SPLIT else street_and_id(worst.name, streets)}, {worst.note}"
        )
    if not kinds:
        told.append("  nothing")
    before, after = road_totals(road for name, road in made.raw.roads.items() if name not in added), road_totals(
        made.network.roads.values()
    )
    told.append(
        f"  length {float(before[0]) / 1000:.1f} km becomes {float(after[0]) / 1000:.1f} km"
        f" ({signed(after[0] / before[0] - 1)}),"
        f" free-flow times {float(before[1]) / 1000:.0f} s become {float(after[1]) / 1000:.0f} s"
        f" ({signed(after[1] / before[1] - 1)})"
    )
    return told


def routes_table(
    made: Carried,
    routes: Iterable[tuple[tuple[str, ...], int]],
    streets: Mapping[str, str] = NO_STREETS,
    count: int = 20,
) -> list[str]:
    """How the free-flow times of the most used routes, told by roads of the source and how many drive them, have
    moved."""
    most = sorted(routes, key=lambda item: (-item[1], item[0]))[:count]
    roads, moved = made.roads, []
    for names, _ in most:
        before = sum((made.raw.roads[name].time for name in names), Fraction(0))
        after = sum(roads.links[name].free_ms for name in made.source.route(names, roads))
        moved.append((after / before - 1, names, before, after))
    if not moved:
        return []
    mean = sum((share for share, *_ in moved), Fraction(0)) / len(moved)
    worst = max(moved, key=lambda item: abs(item[0]))
    return [
        f"free-flow times of the {len(moved)} most used routes: {signed(mean)} in the mean, at worst"
        f" {signed(worst[0])}"
        f" ({' to '.join(street_and_id(worst[1][place], streets) for place in (0, -1))},"
        f" {float(worst[2]) / 1000:.1f} s becomes {worst[3] / 1000:.1f} s)"
    ]
