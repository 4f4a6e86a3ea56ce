"""The edits of a session: a class for each, with its object in a line of a script, what it makes of rows, and the edits
that undo it.

A new edit is a class here, and a name in `KINDS`. Amounts are thousandths of a vehicle; slots go up to, and without,
`to_slot`. The functions below give edits as objects of a script, ready for `json.dumps`.
"""
from __future__ import annotations

from collections.abc import Callable, Iterable, Mapping
from dataclasses import dataclass
from itertools import groupby
from typing import ClassVar, Protocol

from ..case import rows
from ..errors import Fault
from ..files import shown
from ..formats import MOST_SLOT_UNITS, short_vehicles, units_of
from .rows import OwnRows, EditableRows, SplitRows, Weights

Told = dict[str, object]
"""An edit as an object of a script."""
NO_LIMIT = MOST_SLOT_UNITS  # the limit of a link for which none was set


class Edit(Protocol):
    """An edit."""

    kind: ClassVar[str]

    @property
    def key(self) -> tuple[object, ...]:
        """What it sets, whatever to: a later edit with the same key covers it."""

    def told(self) -> Told:
        """The edit as an object of a script."""

    def make(self, rows: EditableRows) -> None:
        """Makes the edit of rows."""

    def back(self, own: OwnRows) -> list[Edit] | None:
        """Edits that set what it has changed to what a case has; None where no edits do."""


@dataclass(frozen=True, slots=True)
class Demand:
    """Sets a row of demand; with 0 units it is taken out."""

    kind: ClassVar[str] = "demand"
    origin: str
    destination: str
    from_slot: int
    to_slot: int
    units: int

    @property
    def key(self) -> tuple[object, ...]:
        return self.kind, *self.of_row

    @property
    def of_row(self) -> tuple[str, str, int, int]:
        """The ends and the slots of the row."""
        return self.origin, self.destination, self.from_slot, self.to_slot

    @classmethod
    def of(cls, told: Mapping[str, object]) -> Demand:
        """The edit of an object of a script."""
        return cls(
            text_member(told, "origin"),
            text_member(told, "destination"),
            whole_member(told["from"]),
            whole_member(told["to"]),
            units_member(told),
        )

    def told(self) -> Told:
        ends = {"origin": self.origin, "destination": self.destination}
        return {"kind": self.kind, **ends, **span_told(self.from_slot, self.to_slot, self.units)}

    def make(self, rows: EditableRows) -> None:
        rows.put_demand(demand_row(self))

    def back(self, own: OwnRows) -> list[Edit] | None:
        """A destination that the case does not have stays."""
        if self.destination not in own.destinations:
            return None
        return [Demand(*self.of_row, own.demand.get(self.origin, {}).get(self.of_row, 0))]


@dataclass(frozen=True, slots=True)
class Limit:
    """Sets the entry limit of a link in each of these slots; without units the link has none."""

    kind: ClassVar[str] = "limit"
    link: str
    from_slot: int
    to_slot: int
    units: int = NO_LIMIT

    @property
    def key(self) -> tuple[object, ...]:
        return self.kind, self.link, self.from_slot, self.to_slot

    @classmethod
    def of(cls, told: Mapping[str, object]) -> Limit:
        """The edit of an object of a script."""
        return cls(text_member(told, "link"), whole_member(told["from"]), whole_member(told["to"]), units_member(told))

    def told(self) -> Told:
        return {"kind": self.kind, "link": self.link, **span_told(self.from_slot, self.to_slot, self.units)}

    def make(self, rows: EditableRows) -> None:
        rows.put_limit(limit_row(self))

    def back(self, own: OwnRows) -> list[Edit] | None:
        return [
            Limit(self.link, *span) for span in limit_spans(own.limits.get(self.link, ()), self.from_slot, self.to_slot)
        ]


@dataclass(frozen=True, slots=True)
class Exit:
    """Sets the exit limit of a link in each of these slots; without units the link has none."""

    kind: ClassVar[str] = "exit"
    link: str
    from_slot: int
    to_slot: int
    units: int = NO_LIMIT

    @property
    def key(self) -> tuple[object, ...]:
        return self.kind, self.link, self.from_slot, self.to_slot

    @classmethod
    def of(cls, told: Mapping[str, object]) -> Exit:
        """The edit of an object of a script."""
        return cls(text_member(told, "link"), whole_member(told["from"]), whole_member(told["to"]), units_member(told))

    def told(self) -> Told:
        return {"kind": self.kind, "link": self.link, **span_told(self.from_slot, self.to_slot, self.units)}

    def make(self, rows: EditableRows) -> None:
        rows.put_exit(limit_row(self))

    def back(self, own: OwnRows) -> list[Edit] | None:
        return [
            Exit(self.link, *span) for span in limit_spans(own.exits.get(self.link, ()), self.from_slot, self.to_slot)
        ]


@dataclass(frozen=True, slots=True)
class Split:
    """Sets a split row."""

    kind: ClassVar[str] = "split"
    node: str
    destination: str
    from_slot: int
    weights: Weights

    @property
    def key(self) -> tuple[object, ...]:
        return self.kind, self.node, self.destination, self.from_slot

    @classmethod
    def of(cls, told: Mapping[str, object]) -> Split:
        """The edit of an object of a script."""
        return cls(
            text_member(told, "node"),
            text_member(told, "destination"),
            whole_member(told["from"]),
            weights_of(told["weights"]),
        )

    def told(self) -> Told:
        ends = {"node": self.node, "destination": self.destination}
        return {"kind": self.kind, **ends, "from": self.from_slot, "weights": dict(self.weights)}

    def make(self, rows: EditableRows) -> None:
        rows.put_split(split_row(self))

    def back(self, own: OwnRows) -> list[Edit] | None:
        """The row itself where the case has it, else all of its node; the first rows of a node for a destination
        stay."""
        found = own.splits.get(self.node, {}).get(self.destination)
        if found is None:
            return None
        weights = dict(found).get(self.from_slot)
        if weights is None:
            return [Splits(self.node, self.destination, tuple(found))]
        return [Split(self.node, self.destination, self.from_slot, weights)]


@dataclass(frozen=True, slots=True)
class Splits:
    """Sets all split rows of a node for a destination, each the slot from which on it stands, the first 0, and its
    weights: others go."""

    kind: ClassVar[str] = "splits"
    node: str
    destination: str
    rows: SplitRows

    @property
    def key(self) -> tuple[object, ...]:
        return self.kind, self.node, self.destination

    @classmethod
    def of(cls, told: Mapping[str, object]) -> Splits:
        """The edit of an object of a script."""
        listed = told["rows"]
        if not isinstance(listed, list):
            raise TypeError("rows is no list")
        return cls(
            text_member(told, "node"),
            text_member(told, "destination"),
            tuple((whole_member(slot), weights_of(weights)) for slot, weights in listed),
        )

    def told(self) -> Told:
        ends = {"node": self.node, "destination": self.destination}
        return {"kind": self.kind, **ends, "rows": [[slot, dict(weights)] for slot, weights in self.rows]}

    def make(self, rows: EditableRows) -> None:
        rows.put_splits(self.node, self.destination, self.rows)

    def back(self, own: OwnRows) -> list[Edit] | None:
        """The first rows of a node for a destination stay."""
        found = own.splits.get(self.node, {}).get(self.destination)
        return None if found is None else [Splits(self.node, self.destination, tuple(found))]


@dataclass(frozen=True, slots=True)
class Diagram:
    """Sets the diagram of a link for the whole horizon."""

    kind: ClassVar[str] = "diagram"
    link: str
    length_m: int
    free_kmh: int
    wave_kmh: int
    jam_per_km: int

    @property
    def key(self) -> tuple[object, ...]:
        return self.kind, self.link

    @property
    def of_link(self) -> dict[str, int]:
        """The diagram by the names of its fields."""
        return {name: getattr(self, name) for name in DIAGRAM}

    @classmethod
    def of(cls, told: Mapping[str, object]) -> Diagram:
        """The edit of an object of a script."""
        return cls(text_member(told, "link"), *(whole_member(told[name]) for name in DIAGRAM))

    def told(self) -> Told:
        return {"kind": self.kind, "link": self.link, **self.of_link}

    def make(self, rows: EditableRows) -> None:
        rows.put_diagram(self.link, self.of_link)

    def back(self, own: OwnRows) -> list[Edit] | None:
        link = own.links[self.link]
        return [Diagram(link.name, link.length_m, link.free_kmh, link.wave_kmh, link.jam_per_km)]


@dataclass(frozen=True, slots=True)
class Horizon:
    """Raises the number of slots."""

    kind: ClassVar[str] = "horizon"
    slots: int

    @property
    def key(self) -> tuple[object, ...]:
        return (self.kind,)

    @classmethod
    def of(cls, told: Mapping[str, object]) -> Horizon:
        """The edit of an object of a script."""
        return cls(whole_member(told["slots"]))

    def told(self) -> Told:
        return {"kind": self.kind, "slots": self.slots}

    def make(self, rows: EditableRows) -> None:
        rows.put_slots(self.slots)

    def back(self, own: OwnRows) -> list[Edit] | None:
        """The horizon never falls."""
        return None


DIAGRAM = ("length_m", "free_kmh", "wave_kmh", "jam_per_km")
KINDS: dict[str, Callable[[Mapping[str, object]], Edit]] = {
    one.kind: one.of for one in (Demand, Limit, Exit, Split, Splits, Diagram, Horizon)  # type: ignore[attr-defined]
}


def edit_of(told: Edit | Mapping[str, object]) -> Edit:
    """The edit of an object of a script that the program takes, or the edit itself; a Fault where it is none."""
    if not isinstance(told, Mapping):
        return told
    try:
        return KINDS[str(told["kind"])](told)
    except (KeyError, TypeError, ValueError, Fault):
        raise Fault(f"{shown(str(told))} is no edit") from None


def told_of(edit: Edit | Mapping[str, object]) -> Told:
    """An edit as an object of a script."""
    return dict(edit) if isinstance(edit, Mapping) else edit.told()


def text_member(told: Mapping[str, object], member: str) -> str:
    """The text of a member."""
    return str(told[member])


def whole_member(value: object) -> int:
    """A whole number."""
    if type(value) is not int:
        raise TypeError(f"{value!r} is no whole number")
    return value


def units_member(told: Mapping[str, object]) -> int:
    """The vehicles of an edit, in thousandths."""
    return units_of(str(told["vehicles"]))


def weights_of(value: object) -> dict[str, int]:
    """The weights of a split row."""
    if not isinstance(value, Mapping):
        raise TypeError(f"{value!r} is no object of weights")
    return dict(value)


def span_told(from_slot: int, to_slot: int, units: int) -> Told:
    """Slots and an amount, as members of an object."""
    return {"from": from_slot, "to": to_slot, "vehicles": short_vehicles(units)}


def by_slot(limits: Iterable[rows.Limit], first: int, end: int) -> list[int]:
    """The limit that rows leave in each of these slots."""
    units = [NO_LIMIT] * (end - first)
    for row in limits:
        if row.from_slot < end and row.to_slot > first:
            start, last = max(first, row.from_slot) - first, min(end, row.to_slot) - first
            units[start:last] = [row.units] * (last - start)
    return units


def runs(units: Iterable[int], first: int) -> list[tuple[int, int, int]]:
    """Of each run of slots with the same limit, from a first slot on: where it begins and ends, and the limit."""
    found, slot = [], first
    for each, same in groupby(units):
        count = len(list(same))
        found.append((slot, slot + count, each))
        slot += count
    return found


def limit_spans(limits: Iterable[rows.Limit], first: int, end: int) -> list[tuple[int, int, int]]:
    """The runs of slots with the same limit that rows leave in these slots."""
    return runs(by_slot(limits, first, end), first)


def demand_row(edit: Demand) -> rows.Demand:
    """The row of demand that an edit sets."""
    return rows.Demand(*edit.of_row, edit.units)


def split_row(edit: Split) -> rows.Split:
    """The split row that an edit sets."""
    return rows.Split(edit.node, edit.destination, edit.from_slot, dict(edit.weights))


def limit_row(edit: Limit | Exit) -> rows.Limit:
    """The row of limits that an edit sets."""
    return rows.Limit(edit.link, edit.from_slot, edit.to_slot, edit.units)


def demand(origin: str, destination: str, from_slot: int, to_slot: int, units: int) -> Told:
    """Sets a demand row; with 0 units it is taken out."""
    return Demand(origin, destination, from_slot, to_slot, units).told()


def limit(link: str, from_slot: int, to_slot: int, units: int = NO_LIMIT) -> Told:
    """Sets the entry limit of a link in each of these slots; without units the link has none."""
    return Limit(link, from_slot, to_slot, units).told()


def exit_limit(link: str, from_slot: int, to_slot: int, units: int = NO_LIMIT) -> Told:
    """Sets the exit limit of a link in each of these slots; without units the link has none."""
    return Exit(link, from_slot, to_slot, units).told()


def split(node: str, destination: str, from_slot: int, weights: Weights) -> Told:
    """Sets a split row."""
    return Split(node, destination, from_slot, weights).told()


def splits(node: str, destination: str, rows: Iterable[tuple[int, Weights]]) -> Told:
    """Sets all split rows of a node for a destination, each the slot from which on it stands, the first 0, and its
    weights: others go."""
    return Splits(node, destination, tuple(rows)).told()


def diagram(link: str, length_m: int, free_kmh: int, wave_kmh: int, jam_per_km: int) -> Told:
    """Sets the diagram of a link for the whole horizon."""
    return Diagram(link, length_m, free_kmh, wave_kmh, jam_per_km).told()


def horizon(slots: int) -> Told:
    """Raises the number of slots."""
    return Horizon(slots).told()
