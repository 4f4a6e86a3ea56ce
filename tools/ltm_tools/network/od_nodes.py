"""Demand between zones, by the nodes of a raw network where its trips begin and end."""
from __future__ import annotations

from fractions import Fraction

from ..demand.matrices import Amounts
from ..demand.volumes import Volumes
from ..formats import MINUTE_MS
from .ends import nearest_kept, most_used
from .early import check_cells, check_ends, check_routes, destinations_that_fit
from .importing import NotCarried
from .network import Network
from .od_case import OdOptions, check_rows
from .reach import Reach


def pairs_of(raw: Network, amounts: Amounts) -> Volumes:
    """The nodes between which there is demand, wherever ways lead."""
    pairs = Volumes()
    for origin, destination in amounts.volumes:
        for start in raw.origins.get(origin, ()):
            for end in raw.destinations.get(destination, ()):
                if start != end:
                    pairs.add(start, end, 0)
    return pairs


def check_pairs(raw: Network, amounts: Amounts, options: OdOptions, all_turns: bool = True) -> None:
    """TooLarge where demand of which nothing is left out surely is more than a case can have, before it is seen for
    each pair of nodes where ways lead. Where turns may be forbidden yet, routes are not counted."""
    if options.destinations is not None or options.leave_out_unreached:
        return
    pairs, horizon_ms = pairs_of(raw, amounts), options.horizon * MINUTE_MS
    check_ends(pairs, options, destinations_that_fit(raw, horizon_ms, options.fit or options.step))
    check_cells(raw, pairs.end_names(), options, horizon_ms)
    if all_turns:
        check_routes(raw, pairs.end_names(), options)


def check_volumes(volumes: Volumes, options: OdOptions) -> None:
    """TooLarge where demand between nodes has more destinations, pairs or rows than a case may have."""
    check_ends(volumes, options)
    check_rows(volumes, options)


def kept_by_node(raw: Network, amounts: Amounts, options: OdOptions, notes: list[str]) -> Volumes:
    """The demand by nodes that is kept; these are then the ends of the network."""
    volumes = by_node(raw, amounts, options.leave_out_unreached, notes)
    if options.destinations is not None and volumes:
        volumes = fewer_ends(raw, volumes, options.destinations, notes)
    raw.ends = set(volumes.names)
    return volumes


def by_node(raw: Network, amounts: Amounts, leave_out: bool, notes: list[str]) -> Volumes:
    """The demand by nodes; NotCarried with all zones that have no node and all pairs without a route."""
    faults: list[str] = []
    volumes = Volumes()
    left_out = Fraction(0)
    reach = Reach(raw)
    for origin, destination, count, per in amounts.volumes.rows():
        starts, ends = raw.origins.get(origin), raw.destinations.get(destination)
        if starts is None or ends is None:
            unknown = [zone for zone, of in ((origin, starts), (destination, ends)) if of is None]
            faults.append(
                f"demand from {origin} to {destination}: no node on a link stands for zone {' or '.join(unknown)}"
            )
            continue
        for start, share in starts.items():
            for end, part in ends.items():
                numerator = count * share.numerator * part.numerator
                denominator = per * share.denominator * part.denominator
                if start == end:
                    amounts.inner += Fraction(numerator, denominator)
                elif reach.leads(start, end):
                    volumes.add(start, end, numerator, denominator)
                elif leave_out:
                    left_out += Fraction(numerator, denominator)
                else:
                    faults.append(no_route(raw, (origin, destination), start, end))
    if faults:
        advice = (
            []
            if all("stands for zone" in fault for fault in faults)
            else ["--leave-out-unreached leaves out demand without a route, and reports how much"]
        )
        if any("stands for zone" in fault for fault in faults):
            advice.append("node.csv says which node stands for a zone, in its fields node_id and zone_id")
        raise NotCarried(faults, advice)
    if left_out:
        notes.append(f"{float(left_out):g} vehicles have no route and are left out")
    return volumes


def no_route(raw: Network, zones: tuple[str, str], start: str, end: str) -> str:
    """What is wrong where no route leads between two nodes with demand."""
    return f"demand from {zones[0]} to {zones[1]}: " + (
        f"no route leads from node {start} to node {end}" if raw.outs[start] else f"no link leads out of node {start}"
    )


def fewer_ends(raw: Network, volumes: Volumes, most: int, notes: list[str]) -> Volumes:
    """The demand with trips to other than the most used destinations ending at the nearest of these."""
    units: dict[str, int] = {}
    for _, end, amount in volumes.units("demand to {1}"):
        units[end] = units.get(end, 0) + amount
    kept = most_used(units, most)
    near = nearest_kept(raw, kept, [end for end in units if end not in kept])
    made = Volumes()
    moved = inner = time = Fraction(0)
    reach = Reach(raw)
    for (start, end), volume in volumes.items():
        node = near[end].node if end in near else end
        if end not in kept and (end not in near or start == node or not reach.leads(start, node)):
            inner += volume
            continue
        if end != node:
            moved += volume
            time += volume * near[end].time
        made.add(start, node, volume.numerator, volume.denominator)
    whole = volumes.whole()
    notes.append(
        f"{len(kept)} of {len(units)} destinations are kept; {float(moved / whole) * 100:.1f} % of the"
        f" vehicles end at another node, in the mean"
        f" {float(time / moved) / 1000 if moved else 0:.0f} s away, and {float(inner):g} vehicles have no"
        f" way left and are left out"
    )
    return made
