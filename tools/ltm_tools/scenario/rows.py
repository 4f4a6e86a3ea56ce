"""Rows of a case: its own, and what edits make of them.

What an edited case keeps loads as its session shows it, to the last thousandth. The numbers of destinations decide how
shares are rounded: so where the order of the files would be another, rows of demand with 0 vehicles stand first and
name the destinations in theirs.
"""
from __future__ import annotations

from collections.abc import Callable, Iterable, Mapping, Sequence
from dataclasses import replace
from typing import Generic, TypeVar

from ..case import Case, Demand, Limit, Link, Split
from ..formats import MOST_SLOT_UNITS

Row = TypeVar("Row", Demand, Split)
Weights = Mapping[str, int]
SplitRows = Sequence[tuple[int, Weights]]
"""The first slot of each split row of a node for a destination, and its weights."""
DemandKey = tuple[str, str, int, int]
"""The origin and the destination of a row of demand, its first slot, and the slot that ends it."""


class OwnRows:
    """The rows that a case itself has, by what edits name: demand by origin, splits by node and destination, limits by
    link."""

    def __init__(self, case: Case) -> None:
        self.slots = case.setup.slots
        self.destinations = set(case.destinations)
        self.links: dict[str, Link] = {link.name: link for link in case.links}
        self.demand: dict[str, dict[DemandKey, int]] = {}
        self.splits: dict[str, dict[str, SplitRows]] = {}
        for row in case.standing_demand():
            self.demand.setdefault(row.origin, {})[row.origin, row.destination, row.from_slot, row.to_slot] = row.units
        found: dict[tuple[str, str], list[tuple[int, Weights]]] = {}
        for split in sorted(case.standing_splits(), key=lambda row: row.from_slot):
            found.setdefault((split.node, split.destination), []).append((split.from_slot, split.weights))
        for (node, destination), rows in found.items():
            self.splits.setdefault(node, {})[destination] = rows
        self.limits, self.exits = by_link(case.limits), by_link(case.signals)


def by_link(rows: Iterable[Limit]) -> dict[str, list[Limit]]:
    """The rows of limits of each link, in order."""
    found: dict[str, list[Limit]] = {}
    for row in rows:
        found.setdefault(row.link, []).append(row)
    return found


class ByKey(Generic[Row]):
    """Rows in their order, of which one with the key of others takes their place, behind all."""

    def __init__(self, rows: Iterable[Row], key: Callable[[Row], object]) -> None:
        self.key: Callable[[Row], object] = key
        self.count = 0
        self.rows: dict[int, Row] = {}
        self.places: dict[object, list[int]] = {}
        for row in rows:
            self.add(row)

    def add(self, row: Row) -> None:
        """Adds a row behind the others."""
        self.rows[self.count] = row
        self.places.setdefault(self.key(row), []).append(self.count)
        self.count += 1

    def put(self, row: Row) -> None:
        """Adds a row behind the others, and takes out those with its key."""
        self.take_out(self.key(row))
        self.add(row)

    def take_out(self, key: object) -> None:
        """Takes out the rows with a key."""
        for place in self.places.pop(key, ()):
            del self.rows[place]


class Layers:
    """Rows of limits in their order, of which a later one goes over earlier ones of its link."""

    def __init__(self, rows: Iterable[Limit]) -> None:
        self.count = 0
        self.of: dict[str, dict[int, Limit]] = {}
        for row in rows:
            self.add(row)

    def add(self, row: Limit) -> None:
        """Adds a row over the others."""
        self.of.setdefault(row.link, {})[self.count] = row
        self.count += 1

    def lay(self, row: Limit) -> None:
        """Adds a row over the others, and takes out those of which it leaves nothing; it is left out where it takes
        nothing back."""
        under = self.of.get(row.link, {})
        self.of[row.link] = {
            place: other
            for place, other in under.items()
            if other.from_slot < row.from_slot or other.to_slot > row.to_slot
        }
        over = any(
            other.from_slot < row.to_slot and other.to_slot > row.from_slot for other in self.of[row.link].values()
        )
        if over or row.units < MOST_SLOT_UNITS:
            self.add(row)

    def rows(self) -> list[Limit]:
        """All rows in their order."""
        return [row for _, row in sorted(pair for rows in self.of.values() for pair in rows.items())]


class EditableRows:
    """Rows that edits change, by a method for each kind of change. One that is not overridden changes nothing, as with
    rows that lack what it changes."""

    def put_demand(self, row: Demand) -> None:
        """Sets a row of demand; one with 0 units is taken out."""

    def put_split(self, row: Split) -> None:
        """Sets a split row, in place of one with its node, destination and slot."""

    def put_splits(self, node: str, destination: str, rows: SplitRows) -> None:
        """Sets all split rows of a node for a destination: others go."""

    def put_limit(self, row: Limit) -> None:
        """Sets the entry limit of a link in some slots."""

    def put_exit(self, row: Limit) -> None:
        """Sets the exit limit of a link in some slots."""

    def put_diagram(self, link: str, diagram: Mapping[str, int]) -> None:
        """Sets the diagram of a link, by the names of its fields."""

    def put_slots(self, slots: int) -> None:
        """Raises the number of slots."""


class EditedRows(EditableRows):
    """The rows of a case, and what accepted edits make of them, each in about the same time however many came
    before."""

    def __init__(self, case: Case) -> None:
        self.case = case.copied()
        self._destinations = dict.fromkeys(case.destinations)
        self._links = {link.name: link for link in self.case.links}
        self._demand: ByKey[Demand] = ByKey(
            self.case.demand, lambda row: (row.origin, row.destination, row.from_slot, row.to_slot)
        )
        self._splits: ByKey[Split] = ByKey(
            self.case.splits or (), lambda row: (row.node, row.destination, row.from_slot)
        )
        self._slots: dict[tuple[str, str], set[int]] = {}  # at which the rows of each pair begin
        for row in self._splits.rows.values():
            self._slots.setdefault((row.node, row.destination), set()).add(row.from_slot)
        self._limits, self._signals = Layers(self.case.limits), Layers(self.case.signals)

    def put_demand(self, row: Demand) -> None:
        self._destinations.setdefault(row.destination)
        self._demand.put(row)

    def put_split(self, row: Split) -> None:
        self._destinations.setdefault(row.destination)
        self._slots.setdefault((row.node, row.destination), set()).add(row.from_slot)
        self._splits.put(row)

    def put_splits(self, node: str, destination: str, rows: SplitRows) -> None:
        self._destinations.setdefault(destination)
        for begin in self._slots.pop((node, destination), ()):
            self._splits.take_out((node, destination, begin))
        for slot, weights in rows:
            self.put_split(Split(node, destination, slot, dict(weights)))

    def put_limit(self, row: Limit) -> None:
        self._limits.lay(row)

    def put_exit(self, row: Limit) -> None:
        self._signals.lay(row)

    def put_diagram(self, link: str, diagram: Mapping[str, int]) -> None:
        for name, value in diagram.items():
            setattr(self._links[link], name, value)

    def put_slots(self, slots: int) -> None:
        self.case.setup.slots = slots

    def kept(self) -> Case:
        """The case that the edits leave."""
        demand, splits = (
            list(self._demand.rows.values()),
            None if self.case.splits is None else list(self._splits.rows.values()),
        )
        case = replace(
            self.case, demand=demand, splits=splits, limits=self._limits.rows(), signals=self._signals.rows()
        ).copied()
        case.setup.signals = case.setup.signals or bool(case.signals)
        case.setup.limits = case.setup.limits or bool(case.limits)
        if case.destinations != list(self._destinations):
            case.demand = [self._naming(node) for node in self._destinations] + case.demand
        return case

    def _naming(self, destination: str) -> Demand:
        """A row of demand without vehicles, which names a destination and stands for nothing."""
        origin = next(link.tail for link in self.case.links if link.tail != destination)
        return Demand(origin, destination, 0, 1, 0)
