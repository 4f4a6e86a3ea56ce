"""The demand and the shares of a case as a list of changes leaves them, change by change.

A change of demand or shares is worked out from what the case has, and not from what an earlier change of the same made
of it: so a later one covers an earlier one in the slots that both have, and takes nothing from it.
"""
from __future__ import annotations

from collections.abc import Mapping, Sequence
from itertools import groupby
from math import gcd
from typing import NamedTuple

from ..case import rows
from ..errors import Fault
from ..formats import WHOLE_BELOW
from .edits import Demand, Edit, Splits
from .rows import DemandKey, OwnRows, EditableRows, SplitRows, Weights


class Percentage(NamedTuple):
    """A percentage in the slots from `first` up to, and without, `end`; of shares that of a link."""

    first: int
    end: int
    percent: int
    link: str = ""


class Standing(EditableRows):
    """The rows of demand by origin and those of splits by node that stand, and the changes made of them."""

    def __init__(self, own: OwnRows) -> None:
        self.slots = own.slots
        self.demand, self.splits = dict(own.demand), dict(own.splits)  # of which none is changed, but replaced
        self.demand_changes: dict[str, list[Percentage]] = {}
        self.share_changes: dict[str, list[Percentage]] = {}

    def change_demand(self, origin: str, change: Percentage) -> list[Edit]:
        """The edits that set the demand of an origin to a percentage; none where nothing sets out then."""
        before = self.demand_rows(origin)
        self.demand_changes.setdefault(origin, []).append(change)
        after = self.demand_rows(origin)
        gone: list[Edit] = [Demand(*key, 0) for key in before if key not in after]
        return gone + [Demand(*key, units) for key, units in after.items() if before.get(key) != units]

    def change_share(self, node: str, change: Percentage) -> list[Edit]:
        """The edits that set what share of those who have a choice at a node takes a link; none where nobody has."""
        before = self.split_rows(node)
        self.share_changes.setdefault(node, []).append(change)
        after = self.split_rows(node)
        return [
            Splits(node, destination, tuple(rows))
            for destination, rows in after.items()
            if list(rows) != list(before[destination])
        ]

    def make(self, edit: Edit) -> None:
        """Makes an edit; changes of the same before it become part of what stands."""
        edit.make(self)

    def put_demand(self, row: rows.Demand) -> None:
        of_origin = self.demand[row.origin] = self.demand_rows(row.origin)
        self.demand_changes.pop(row.origin, None)
        key = (row.origin, row.destination, row.from_slot, row.to_slot)
        of_origin.pop(key, None)
        if row.units:
            of_origin[key] = row.units

    def put_split(self, row: rows.Split) -> None:
        others = self._settled(row.node).get(row.destination, ())
        self.splits[row.node][row.destination] = sorted(
            [*(one for one in others if one[0] != row.from_slot), (row.from_slot, row.weights)], key=lambda one: one[0]
        )

    def put_splits(self, node: str, destination: str, rows: SplitRows) -> None:
        self._settled(node)[destination] = list(rows)

    def _settled(self, node: str) -> dict[str, SplitRows]:
        """The rows of a node, of which its changes are part from now on."""
        self.splits[node] = found = self.split_rows(node)
        self.share_changes.pop(node, None)
        return found

    def demand_rows(self, origin: str) -> dict[DemandKey, int]:
        """The rows of an origin after its changes."""
        rows, changes = self.demand.get(origin, {}), self.demand_changes.get(origin, [])
        return demand_after(rows, changes) if changes else dict(rows)

    def split_rows(self, node: str) -> dict[str, SplitRows]:
        """The rows of a node by destination, after its changes."""
        changes = self.share_changes.get(node, [])
        return {
            destination: splits_after(rows, changes, self.slots) if changes else list(rows)
            for destination, rows in self.splits.get(node, {}).items()
        }


def cut_slots(first: int, end: int, changes: Sequence[Percentage]) -> list[tuple[int, int]]:
    """Slots cut where a change begins or ends."""
    cuts = sorted(
        {first, end, *(slot for change in changes for slot in (change.first, change.end) if first < slot < end)}
    )
    return list(zip(cuts, cuts[1:]))


def demand_after(rows: Mapping[DemandKey, int], changes: Sequence[Percentage]) -> dict[DemandKey, int]:
    """Rows of demand, each cut where a change begins or ends, its vehicles shared by the length of the parts; those
    that none meets stay whole."""
    found: dict[DemandKey, int] = {}
    for key, units in rows.items():
        origin, destination, begin, finish = key
        done = 0
        if not any(change.first < finish and change.end > begin for change in changes):
            found[key] = found.get(key, 0) + units
            continue
        for first, end in cut_slots(begin, finish, changes):
            upto = units * (end - begin) // (finish - begin)
            percent = next((change.percent for change in reversed(changes) if change.first <= first < change.end), 100)
            part = (origin, destination, first, end)
            found[part] = found.get(part, 0) + (upto - done) * percent // 100
            done = upto
    return {key: units for key, units in found.items() if units}


def splits_after(rows: SplitRows, changes: Sequence[Percentage], slots: int) -> SplitRows:
    """Split rows after changes of shares, those with the same weights made one."""
    found: list[tuple[int, Weights]] = []
    ends = [first for first, _ in rows[1:]] + [slots]
    for (begin, weights), finish in zip(rows, ends):
        for first, _ in cut_slots(begin, finish, changes):
            now = weights
            standing = {change.link: change for change in changes if change.first <= first < change.end}
            for change in standing.values():  # of each link the last
                now = weights_shared(now, change.link, change.percent)
            found.append((first, now))
    return [next(same) for _, same in groupby(found, key=lambda row: row[1])]


def weights_shared(weights: Weights, link: str, percent: int) -> Weights:
    """Weights of which a link has so many percent, and the others what is left in the proportion that they had; the
    same where there is no choice, or the link does not lead there."""
    others = {name: weight for name, weight in weights.items() if name != link and weight}
    rest = sum(others.values())
    if not rest or not weights.get(link):
        return weights
    made = {link: percent * rest, **{name: weight * (100 - percent) for name, weight in others.items()}}
    common = gcd(*made.values())
    made = {name: weight // common for name, weight in made.items() if weight}
    if max(made.values()) >= WHOLE_BELOW:
        raise Fault(f"the shares beside {link} would have weights that are too large")
    return made
