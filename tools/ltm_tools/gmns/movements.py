"""Reads the turns of a GMNS network, `movement.csv`: by which link onto which, from which lanes, and how they are
controlled.

Where the table has rows for a node, a turn without a row is forbidden. Where it has none, each link leads on to each,
but not back.
"""
from __future__ import annotations

from collections.abc import Iterable, Iterator, Mapping
from dataclasses import dataclass, field
from fractions import Fraction
from pathlib import Path

from ..demand.cycles import Green
from ..files import Row
from ..formats import MINUTE_MS
from ..network.crossings.movements import Held, Movement, Pair
from ..network.crossings.options import MINOR_GAP
from ..network.network import Network
from ..tables import read, whole_ids
from .fields import EMPTY, fraction_or_none, number_or_none
from .net import Read, file_of

NAMES = {
    "mvmt_id": ("movement_id", "id", "mvmt"),
    "node_id": ("node",),
    "ib_link_id": ("ib_link", "inbound_link_id", "in_link_id", "from_link_id"),
    "ob_link_id": ("ob_link", "outbound_link_id", "out_link_id", "to_link_id"),
    "type": ("mvmt_type", "movement_type"),
    "ctrl_type": ("control_type", "control", "ctrl"),
}
SIGNALS = ("signal", "signal_with_rtor", "signalized")
SIGNS = ("stop", "stop_2_way", "yield")
ALL_STOP = "stop_4_way"
MOST_LANE = 30


@dataclass
class MovementTurns:
    """The turns that `movement.csv` tells: by approach and exit, their type as `left`, and by `mvmt_id`; those that a
    signal is to hold."""

    turns: dict[Pair, Movement] = field(default_factory=dict)
    types: dict[Pair, str] = field(default_factory=dict)
    ids: dict[str, Pair] = field(default_factory=dict)
    signals: set[Pair] = field(default_factory=set)
    signs: set[Pair] = field(default_factory=set)
    """Those that yield at a sign."""


def read_movements(folder: Path, made: Read) -> MovementTurns:
    """The turns that a folder tells; none where it has no `movement.csv`."""
    path, told = file_of(folder, "movement.csv"), MovementTurns()
    if not path.exists():
        return told
    table = read(path, ("ib_link_id", "ob_link_id"), NAMES, made.units.reading)
    made.notes += table.notes
    whole_ids(table.rows, ("mvmt_id", "node_id", "ib_link_id", "ob_link_id"))
    unknown = all_stop = 0
    for row in table.rows:
        pair = pair_of(row, made.network)
        if pair is None:
            unknown += 1
            continue
        told.turns[pair] = movement_of(row, pair, made)
        told.types[pair] = row.text("type", "").lower()
        told.ids[row.text("mvmt_id", "")] = pair
        control = row.text("ctrl_type", "").lower()
        if control in SIGNALS:
            told.signals.add(pair)
        elif control in SIGNS:
            told.signs.add(pair)
        all_stop += control == ALL_STOP
    made.notes += [
        f"{count} rows of movement.csv {why}"
        for count, why in (
            (unknown, "are between links that do not meet, or are not for cars, and are left out"),
            (all_stop, "have a stop sign for all ways, which is not carried: vehicles there do not wait"),
        )
        if count
    ]
    return told


def pair_of(row: Row, network: Network) -> Pair | None:
    """The roads of a row: a link that is driven both ways is the one that ends, or begins, at the node; none where they
    do not meet."""
    node = row.text("node_id", "")
    for approach in sides(row.text("ib_link_id"), network):
        for after in sides(row.text("ob_link_id"), network):
            meets = network.roads[approach].head
            if meets == network.roads[after].tail and node in ("", meets):
                return approach, after
    return None


def sides(name: str, network: Network) -> Iterator[str]:
    """The roads of a link, in each direction that it has."""
    return (road for road in (name, f"{name}_r") if road in network.roads)


def movement_of(row: Row, pair: Pair, made: Read) -> Movement:
    """A turn with its lanes, which count from the middle of the road, and what it may let pass and costs."""
    lanes: tuple[int, ...] = ()
    if row.text("start_ib_lane", "").lower() not in EMPTY:
        first = row.whole("start_ib_lane")
        last = first if row.text("end_ib_lane", "").lower() in EMPTY else row.whole("end_ib_lane")
        if max(abs(first), abs(last)) > MOST_LANE:
            raise row.fault("start_ib_lane", f"a lane is at most {MOST_LANE}")
        lanes = tuple(lane for lane in range(min(first, last), max(first, last) + 1) if lane != 0)
    penalty = number_or_none(row, "penalty") or 0.0
    if penalty < 0:
        made.count("have a turn with a penalty below 0, which counts as 0")
    return Movement(
        *pair, lanes, capacity=fraction_or_none(row, "capacity"), penalty_ms=round(max(0.0, penalty) * 1000)
    )


def all_turns(told: MovementTurns, network: Network) -> dict[Pair, Movement]:
    """The turns at all nodes: those that are told, and where nothing is told of a node all but those back."""
    known = {network.roads[approach].head for approach, _ in told.turns}
    made: dict[Pair, Movement] = {}
    for node in network.nodes:
        for approach in network.ins[node]:
            pairs = [(approach, after) for after in network.outs[node]]
            if node in known:
                made |= {pair: told.turns[pair] for pair in pairs if pair in told.turns}
            else:
                onward = [pair for pair in pairs if network.roads[pair[1]].head != network.roads[approach].tail]
                made |= {pair: Movement(*pair) for pair in onward or pairs}
    return made


def by_signs(told: MovementTurns, network: Network, jam: Fraction) -> dict[Pair, Held]:
    """How turns yield at signs: to those from elsewhere at their node that have neither sign nor signal and go straight
    on or to the left or have the same exit, a turn to the right to those with its exit alone."""
    made: dict[Pair, Held] = {}
    first = [pair for pair in told.turns if pair not in told.signs and pair not in told.signals]
    for pair in told.signs:
        others = [
            other
            for other in first
            if other[0] != pair[0]
            and network.roads[other[0]].head == network.roads[pair[0]].head
            and (other[1] == pair[1] or "right" not in (told.types[pair], told.types[other]))
        ]
        if others:
            made[pair] = Held(
                (), (Green(MINUTE_MS, 0, MINUTE_MS),), tuple(others), lanes_with(others, told, network, jam), MINOR_GAP
            )
    return made


def lanes_with(
    turns: Iterable[Pair], told: MovementTurns, network: Network, jam: Fraction
) -> tuple[tuple[str, int], ...]:
    """The lanes of some turns that are told, each an approach and a number."""
    return tuple(
        dict.fromkeys(
            (pair[0], lane)
            for pair in turns
            for lane in told.turns[pair].lanes or range(max(1, round(network.roads[pair[0]].jam / jam)))
        )
    )


def lanes_of(network: Network, jam: Fraction, turns: Mapping[Pair, Movement]) -> dict[str, int]:
    """How many lanes approaches have of which the lanes of turns are told, by what they store."""
    return {
        approach: max(1, round(network.roads[approach].jam / jam))
        for (approach, _), turn in turns.items()
        if turn.lanes
    }
