"""Cases that are made to be measured: grids and corridors of one kind of road, with routes by the program itself."""
import json
from dataclasses import dataclass
from pathlib import Path

from ltm_tools.case import Case, Demand, Link
from ltm_tools.case.rows import Setup
from ltm_tools.program import output

STEP_MS = 10_000
ROAD = {"length_m": 300, "free_kmh": 50, "wave_kmh": 18, "jam_per_km": 300}
CELLS, ROWS = 4_294_967_295, 500_000  # the most that a setup may ask for
CLASSIC = 54_000_000  # cells, from which on a setup has to ask


@dataclass(frozen=True)
class Made:
    """A case to be made: a grid of so many rows and columns of nodes, or a corridor where there is one row; how many
    destinations and slots; and how many vehicles go from each origin to each destination in the first half."""

    name: str
    rows: int
    columns: int
    destinations: int
    slots: int
    vehicles: int = 1

    @property
    def nodes(self) -> list[tuple[int, int]]:
        """The nodes by row and column."""
        return [(row, column) for row in range(self.rows) for column in range(self.columns)]

    def links(self) -> list[Link]:
        """The links: of a grid both ways between neighbours, of a corridor one way."""
        found = []
        for row, column in self.nodes:
            ends = [(row, column + 1)] if self.rows == 1 else [(row, column + 1), (row + 1, column)]
            for end in ends:
                if end[0] < self.rows and end[1] < self.columns:
                    ways = [((row, column), end)] if self.rows == 1 else [((row, column), end), (end, (row, column))]
                    found += [link(tail, head) for tail, head in ways]
        return found

    def ends(self) -> list[tuple[int, int]]:
        """The destinations, spread evenly over the nodes; of a corridor the last nodes."""
        nodes = self.nodes
        if self.rows == 1:
            return nodes[-self.destinations :]
        return [nodes[place * len(nodes) // self.destinations] for place in range(self.destinations)]

    def origins(self) -> list[tuple[int, int]]:
        """The origins: all nodes of a grid, the first of a corridor."""
        return self.nodes[:1] if self.rows == 1 else self.nodes

    def case(self) -> Case:
        """The case, as yet without splits."""
        demand = [
            Demand(name(start), name(end), 0, self.slots // 2, self.vehicles * 1000)
            for start in self.origins()
            for end in self.ends()
            if start != end
        ]
        setup = Setup(STEP_MS, self.slots, 11_000)
        case = Case(setup, self.links(), demand, None, [], [])
        if case.cells() > CLASSIC or len(demand) > 10_000:
            setup.cells, setup.rows, setup.links, setup.destinations = CELLS, ROWS, 16_000, 256
        return case

    def write(self, folder: Path) -> Case:
        """Writes the case into a folder, with the splits of its fastest routes."""
        case = self.case()
        case.write(folder)
        (folder / "splits.csv").write_bytes(output(folder, "routes"))
        return case


def name(node: tuple[int, int]) -> str:
    """The name of a node."""
    return f"n{node[0]}_{node[1]}"


def link(tail: tuple[int, int], head: tuple[int, int]) -> Link:
    """A link between two nodes."""
    return Link(f"{name(tail)}-{head[0]}_{head[1]}", name(tail), name(head), **ROAD)


def closures(case: Case, path: Path, count: int, part: float = 1.0) -> int:
    """Writes a script that closes so many links, one after the other and each for five slots of the last part of the
    horizon, and settles each; how many pairs of node and slot the case has."""
    links, slots = case.links, case.setup.slots
    begin = int(slots * (1 - part))
    with open(path, "w", encoding="ascii") as file:
        for number in range(count):
            at = begin + (slots - begin) * (number * 7 % count + 1) // (count + 2)
            edit = {
                "kind": "limit",
                "link": links[len(links) * (number * 5 % count) // count].name,
                "from": at,
                "to": min(at + 5, slots),
                "vehicles": "0",
            }
            for line in ({"do": "edit", "edits": [edit]}, {"do": "settle"}):
                file.write(json.dumps(line) + "\n")
    return len(case.nodes) * slots
