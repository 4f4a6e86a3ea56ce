"""Where vehicles leave the inside: of each node and destination of the whole case, by the turning fractions in its
loading, the part that leaves at each node.

Vehicles leave at a node by a link that is not inside, or at their destination where that lies inside. The parts of a
node are those of the nodes that its links lead to, by their fractions, at the moment at which vehicles come there in
the loading. As long as splits stay the same, the parts do; where links make a loop, they are worked out round after
round until they change no more.
"""
from __future__ import annotations

from bisect import bisect_right
from collections.abc import Mapping, Sequence
from dataclasses import dataclass, field

from ..case import Case
from ..case.rows import Link
from ..loading.counts import as_list
from ..loading.curves import Curves
from .inside import Inside

Parts = Mapping[str, float]
"""The part of vehicles that leaves at each node."""
ROUNDS, CLOSE = 10_000, 1e-15
AHEAD_MS, MOST_AHEAD = 600_000, 600  # how long before a change of splits it is looked for, in ms and in slots


@dataclass
class Exits:
    """Of each destination of the whole case the slots from which on its splits inside stay the same; of each of these
    spans the fractions of each node by link, and the parts of those that come to it if nothing changes later; and of
    each link inside the slot in which those leave it that enter it in a slot. A change is seen so many slots before."""

    inside: Inside
    since: Mapping[str, Sequence[int]]
    fractions: Mapping[tuple[str, int], Mapping[str, Parts]]
    parts: Mapping[tuple[str, int], Mapping[str, Parts]]
    leaves: Mapping[str, Sequence[int]]
    ahead: int
    known: dict[tuple[str, str, int], Parts] = field(default_factory=dict)

    def behind(self, destination: str, link: str, slot: int) -> Parts:
        """Where those leave the inside that enter a link in a slot."""
        return self.at(destination, self.inside.roads.links[link].head, self.leaves[link][slot])

    def at(self, destination: str, node: str, slot: int) -> Parts:
        """Where those leave the inside that are at a node in a slot."""
        since = self.since.get(destination, (0,))
        span = bisect_right(since, slot) - 1
        shares = self.fractions.get((destination, span), {}).get(node)
        if shares is None and node == destination:
            return {node: 1.0}
        if shares is None or span + 1 == len(since) or since[span + 1] - slot > self.ahead:
            return self.parts.get((destination, span), {}).get(node, {})
        key = destination, node, slot
        if key not in self.known:
            found: dict[str, float] = {}
            for link, share in shares.items():
                there = self.behind(destination, link, slot) if link in self.inside.names else {node: 1.0}
                for end, part in there.items():
                    found[end] = found.get(end, 0.0) + share * part
            self.known[key] = found
        return self.known[key]


def exits_of(case: Case, curves: Curves, inside: Inside) -> Exits:
    """Where vehicles leave the inside of a case with its loading."""
    nodes = set(inside.nodes)
    rows = [row for row in case.standing_splits() if row.node in nodes]
    since: dict[str, list[int]] = {}
    standing: dict[tuple[str, str], list[tuple[int, Mapping[str, int]]]] = {}
    for row in sorted(rows, key=lambda row: row.from_slot):
        since.setdefault(row.destination, [0])
        if since[row.destination][-1] != row.from_slot:
            since[row.destination].append(row.from_slot)
        standing.setdefault((row.destination, row.node), []).append((row.from_slot, row.weights))
    fractions: dict[tuple[str, int], dict[str, Parts]] = {}
    for (destination, node), found in standing.items():
        slots = [slot for slot, _ in found]
        for span, slot in enumerate(since[destination]):
            weights = found[bisect_right(slots, slot) - 1][1]
            end = (*since[destination], case.setup.slots)[span + 1]
            fractions.setdefault((destination, span), {})[node] = shares_of(curves, destination, weights, slot, end)
    parts = {key: parts_of(key[0], shares, inside) for key, shares in fractions.items()}
    step = case.setup.step_ms
    leaves = {link.name: leaving(link, curves, step) for link in inside.links}
    return Exits(inside, since, fractions, parts, leaves, min(MOST_AHEAD, AHEAD_MS // step))


def shares_of(curves: Curves, destination: str, weights: Mapping[str, int], first: int, end: int) -> Parts:
    """The fractions of a node in some slots by link: those of what has entered them, which rounding may have moved a
    little from the weights; by the weights where nothing has."""
    counts = {link: curves.up(link, destination) for link, weight in weights.items() if weight}
    flows = {link: int(up[end] - up[first]) for link, up in counts.items()}
    if not any(flows.values()):
        flows = {link: weights[link] for link in counts}
    whole = sum(flows.values())
    return {link: units / whole for link, units in flows.items() if units}


def leaving(link: Link, curves: Curves, step_ms: int) -> list[int]:
    """The slot in which the vehicle leaves a link that enters it in the middle of each slot, the last where it does not
    by the end; not before it can at free speed."""
    up, down = as_list(curves.up(link.name)), as_list(curves.down(link.name))
    slots, free, boundary, found = len(up) - 1, -(-link.free_ms // step_ms), 0, []
    for slot in range(slots):
        while boundary < slots and 2 * down[boundary] < up[slot] + up[slot + 1]:
            boundary += 1
        found.append(min(slots - 1, max(slot + free, boundary - 1)))
    return found


def parts_of(destination: str, shares: Mapping[str, Parts], inside: Inside) -> dict[str, Parts]:
    """Where those for a destination leave the inside, from each node, by the fractions of one span."""
    found: dict[str, dict[str, float]] = {node: {} for node in shares}
    if destination in inside.nodes:
        found[destination] = {destination: 1.0}
    order = [node for node in backwards(shares, inside) if node != destination]
    for _ in range(ROUNDS):
        change = 0.0
        for node in order:
            new: dict[str, float] = {}
            for link, share in shares[node].items():
                there = found.get(inside.roads.links[link].head, {}) if link in inside.names else {node: 1.0}
                for end, part in there.items():
                    new[end] = new.get(end, 0.0) + share * part
            change = max([change, *(abs(part - found[node].get(end, 0.0)) for end, part in new.items())])
            found[node] = new
        if change <= CLOSE:
            break
    return dict(found)


def backwards(shares: Mapping[str, Parts], inside: Inside) -> list[str]:
    """The nodes with those first that others lead to, as far as there are no loops."""
    order: dict[str, None] = {}
    for start in shares:
        path = [(start, iter(heads(shares, start, inside)))]
        seen = {start}
        while path:
            node, rest = path[-1]
            for after in rest:
                if after not in order and after not in seen:
                    seen.add(after)
                    path.append((after, iter(heads(shares, after, inside))))
                    break
            else:
                order[node] = None
                path.pop()
    return list(order)


def heads(shares: Mapping[str, Parts], node: str, inside: Inside) -> list[str]:
    """The nodes that have fractions to which a node leads."""
    found = (inside.roads.links[link].head for link in shares[node] if link in inside.names)
    return [head for head in found if head in shares]
