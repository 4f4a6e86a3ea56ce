"""The rows of a case: its setup, links, demand, splits and limits, with the numbers that the program makes of them
(docs/MODEL.md)."""
from collections.abc import Iterable, Iterator
from dataclasses import dataclass, field
from fractions import Fraction
from itertools import groupby

from ..formats import (
    MOST_CELLS,
    MOST_DEMAND_ROWS,
    MOST_DESTINATIONS,
    MOST_DESTINATIONS_ASKED,
    MOST_DESTINATIONS_NO_HISTORY,
    MOST_FILE_BYTES,
    MOST_LARGE_FILE_BYTES,
    MOST_LINKS,
    MOST_LINKS_ASKED,
    MOST_LINKS_NO_HISTORY,
    MOST_ROUTED_ROWS,
    MOST_ROWS_ASKED,
    MOST_ROWS_NO_HISTORY,
    MOST_SLOTS,
    MOST_SLOT_UNITS,
    MOST_SPLIT_ROWS,
    MOST_STEP_MS,
)


@dataclass(slots=True)
class Setup:
    """The file `setup.csv`: the step in ms, the number of slots, what an origin can send in a slot in thousandths of a
    vehicle; whether there are a `signals.csv` and a `limits.csv`; the most cells, rows of demand and as many of splits,
    links and destinations, each None where the column is not there; whether what moves through a turn is floored
    for the turn, and not for each destination; whether what is left over of a capacity, rounded down, is carried to the
    next slot; whether a loading keeps its history, the counts of each destination at every boundary; and whether nodes
    without a split row for a destination take their free-flow routes."""

    step_ms: int
    slots: int
    origin_capacity: int
    signals: bool = False
    limits: bool = False
    cells: int | None = None
    rows: int | None = None
    links: int | None = None
    destinations: int | None = None
    moves: bool = False
    carry: bool = False
    history: bool = True
    routes: bool = False

    @property
    def horizon_ms(self) -> int:
        """The length of all slots."""
        return self.step_ms * self.slots

    @property
    def most_cells(self) -> int:
        """How many cells the case may have."""
        return MOST_CELLS if self.cells is None else self.cells

    @property
    def most_demand_rows(self) -> int:
        """How many rows of demand the case may have."""
        return MOST_DEMAND_ROWS if self.rows is None else self.rows

    @property
    def most_split_rows(self) -> int:
        """How many split rows the case may have, with those of routes."""
        if self.routes:
            return MOST_ROWS_ASKED if self.history else MOST_ROUTED_ROWS
        return self.split_rows_asked

    @property
    def split_rows_asked(self) -> int:
        """How many split rows the case may have where it does not ask for routes."""
        return MOST_SPLIT_ROWS if self.rows is None else self.rows

    @property
    def most_links(self) -> int:
        """How many links the case may have."""
        return MOST_LINKS if self.links is None else self.links

    @property
    def most_destinations(self) -> int:
        """How many destinations the case may have."""
        return MOST_DESTINATIONS if self.destinations is None else self.destinations

    @property
    def rows_asked(self) -> int:
        """How many rows the column `rows` may ask for."""
        return MOST_ROWS_ASKED if self.history else MOST_ROWS_NO_HISTORY

    @property
    def most_file_bytes(self) -> int:
        """How many bytes the files of demand and of splits may have, each."""
        return MOST_LARGE_FILE_BYTES if self.most_demand_rows > MOST_ROWS_ASKED else MOST_FILE_BYTES

    @property
    def links_asked(self) -> int:
        """How many links the column `links` may ask for."""
        return MOST_LINKS_ASKED if self.history else MOST_LINKS_NO_HISTORY

    @property
    def destinations_asked(self) -> int:
        """How many destinations the column `destinations` may ask for."""
        return MOST_DESTINATIONS_ASKED if self.history else MOST_DESTINATIONS_NO_HISTORY

    def has_room(self, cells: int) -> bool:
        """Whether the case may have so many cells: any number where no history is kept."""
        return not self.history or cells <= self.most_cells


@dataclass(slots=True)
class Link:
    """A row of `links.csv`: whole metres, km/h and vehicles/km."""

    name: str
    tail: str
    head: str
    length_m: int
    free_kmh: int
    wave_kmh: int
    jam_per_km: int

    @property
    def free_ms(self) -> int:
        """The free-flow time: how soon a vehicle that enters can leave, rounded up."""
        return -(-self.length_m * 3600 // self.free_kmh)

    @property
    def wave_ms(self) -> int:
        """The wave time: how soon room at the exit is felt at the entry, rounded up."""
        return -(-self.length_m * 3600 // self.wave_kmh)

    @property
    def storage_units(self) -> int:
        """What stands on the link at jam density, in thousandths of a vehicle."""
        return self.jam_per_km * self.length_m

    def capacity(self, step_ms: int) -> int:
        """What passes in a slot of this step at most, in thousandths of a vehicle, rounded down."""
        return self.jam_per_km * self.free_kmh * self.wave_kmh * step_ms // ((self.free_kmh + self.wave_kmh) * 3600)

    def capacity_at(self, step_ms: int, slot: int) -> int:
        """What passes in a slot of this step at most where what is left over is carried from slot to slot: what the
        slots up to it let through together, less what those before it do."""
        flow = self.jam_per_km * self.free_kmh * self.wave_kmh * step_ms
        parts = (self.free_kmh + self.wave_kmh) * 3600
        return flow * (slot + 1) // parts - flow * slot // parts

    def passing(self, step_ms: int, carry: bool) -> Fraction:
        """What passes in a slot of this step in the mean, in thousandths of a vehicle: rounded down in each, or exactly
        where what is left over is carried."""
        flow = self.jam_per_km * self.free_kmh * self.wave_kmh * step_ms
        return Fraction(flow, (self.free_kmh + self.wave_kmh) * 3600) if carry else Fraction(self.capacity(step_ms))

    def lost(self, step_ms: int) -> Fraction:
        """The part of the capacity that is lost where it is rounded down in each slot of this step."""
        flow = self.jam_per_km * self.free_kmh * self.wave_kmh * step_ms
        return Fraction(flow % ((self.free_kmh + self.wave_kmh) * 3600), flow)

    def most_capacity(self, step_ms: int, carry: bool) -> int:
        """The most that passes in any slot of this step."""
        flow = self.jam_per_km * self.free_kmh * self.wave_kmh * step_ms
        return -(-flow // ((self.free_kmh + self.wave_kmh) * 3600)) if carry else self.capacity(step_ms)

    @property
    def least_step_ms(self) -> int:
        """The shortest step in which at least a thousandth of a vehicle passes."""
        return -(-(self.free_kmh + self.wave_kmh) * 3600 // (self.jam_per_km * self.free_kmh * self.wave_kmh))

    def passing_step(self, carry: bool) -> int:
        """The longest step in which no more passes than may in a slot, 32 vehicles; 0 where that is none."""
        pace = self.jam_per_km * self.free_kmh * self.wave_kmh
        parts = (self.free_kmh + self.wave_kmh) * 3600
        return MOST_SLOT_UNITS * parts // pace if carry else ((MOST_SLOT_UNITS + 1) * parts - 1) // pace

    @property
    def passing_step_ms(self) -> int:
        """The same where each slot is rounded down."""
        return self.passing_step(False)

    @property
    def longest_step_ms(self) -> int:
        """The longest step at which the program takes the link: both times are at least a step, and no more than 32
        vehicles pass in it."""
        return self.longest_step(False)

    def longest_step(self, carry: bool) -> int:
        """The same, or where what is left over of a capacity is carried."""
        return min(self.free_ms, self.wave_ms, self.passing_step(carry), MOST_STEP_MS)


@dataclass(slots=True)
class Demand:
    """A row of `demand.csv`: thousandths of a vehicle over the slots from `from_slot` up to, and without, `to_slot`."""

    origin: str
    destination: str
    from_slot: int
    to_slot: int
    units: int


def last_rows(rows: Iterable[Demand]) -> Iterable[Demand]:
    """Of rows with the same first four fields the last, where the first of them stood."""
    return {(row.origin, row.destination, row.from_slot, row.to_slot): row for row in rows}.values()


@dataclass(slots=True)
class Split:
    """A row of `splits.csv`: how a node shares what is for a destination over its out-links, from a slot on."""

    node: str
    destination: str
    from_slot: int
    weights: dict[str, int]


@dataclass(slots=True)
class Limit:
    """A row of `signals.csv` (what may leave a link in each slot) or of `limits.csv` (what may enter it), in
    thousandths of a vehicle."""

    link: str
    from_slot: int
    to_slot: int
    units: int


@dataclass(slots=True)
class Rows:
    """The rows of a case, as they stand in its files and in their order. `splits` is None where there is no
    `splits.csv`."""

    setup: Setup
    links: list[Link] = field(default_factory=list)
    demand: list[Demand] = field(default_factory=list)
    splits: list[Split] | None = None
    signals: list[Limit] = field(default_factory=list)
    limits: list[Limit] = field(default_factory=list)

    @property
    def nodes(self) -> list[str]:
        """The nodes in order of first being named in `links`, the tail before the head: the program's numbers."""
        return list(dict.fromkeys(end for link in self.links for end in (link.tail, link.head)))

    @property
    def destinations(self) -> list[str]:
        """The destinations in the order of their numbers: those of demand first, then those of splits."""
        found = dict.fromkeys(row.destination for row in self.demand)
        return list(found | dict.fromkeys(row.destination for row in self.splits or ()))

    def link(self, name: str) -> Link:
        """The link of this name; KeyError where there is none."""
        for link in self.links:
            if link.name == name:
                return link
        raise KeyError(name)

    def out_links(self, node: str) -> list[Link]:
        """The links that leave a node, in order."""
        return [link for link in self.links if link.tail == node]

    def in_links(self, node: str) -> list[Link]:
        """The links that enter a node, in order."""
        return [link for link in self.links if link.head == node]

    def standing_demand(self) -> list[Demand]:
        """The demand that counts: of rows with the same first four fields the last, and none with 0 vehicles."""
        runs = [(origin, list(rows)) for origin, rows in groupby(self.demand, lambda row: row.origin)]
        if len({origin for origin, _ in runs}) < len(runs):  # rows of an origin stand apart, and may be the same
            runs = [("", self.demand)]
        return [row for _, rows in runs for row in last_rows(rows) if row.units]

    def standing_splits(self) -> list[Split]:
        """The split rows that count: of rows with the same first three fields the last."""
        return list({(row.node, row.destination, row.from_slot): row for row in self.splits or ()}.values())

    def degrees(self) -> Iterator[tuple[int, int]]:
        """For each node how many links enter it and how many leave it."""
        enter, leave = dict.fromkeys(self.nodes, 0), dict.fromkeys(self.nodes, 0)
        for link in self.links:
            leave[link.tail] += 1
            enter[link.head] += 1
        return ((enter[node], leave[node]) for node in enter)

    def cells(self, slots: int | None = None) -> int:
        """How many cells the program counts, with the slots of the setup or with these (docs/FORMATS.md)."""
        fixed, each = self.cells_by_slot()
        return fixed + each * (self.setup.slots if slots is None else slots)

    def cells_by_slot(self) -> tuple[int, int]:
        """The cells that there are without a slot, and those that each slot adds."""
        ends, widths, nodes = len(self.destinations), 0, 0
        for enter, leave in self.degrees():
            arms = enter + (leave > 0)
            widths += 2 * (arms + leave) * ends + 1 + leave + arms
            nodes += 1
        boundary = 2 * (2 * len(self.links) + nodes + 1) * ends
        return boundary, widths + boundary + 2 * len(self.links)

    def slots_that_fit(self, most_cells: int | None = None) -> int:
        """The most slots with which the cells are within the limit of the setup, or this one; 0 where not one fits, and
        at most 10,000."""
        fixed, each = self.cells_by_slot()
        if each == 0:
            return MOST_SLOTS
        return max(0, min(MOST_SLOTS, ((self.setup.most_cells if most_cells is None else most_cells) - fixed) // each))
