"""Where the nodes of a case lie and its links run: the files `nodes.csv` and `shapes.csv` beside its files, which the
program does not read.

The header of `nodes.csv` has `name`, `x` and `y`, and may have `crs`, the same in each row: the projection of x and y
as an EPSG code, as `EPSG:25832`. With `EPSG:4326` x and y are degrees of longitude and latitude; without a `crs` they
are lengths in some unit, x to the east and y to the north. That of `shapes.csv` is `link,points`: of each link that
does not run straight its points from its first node to its last, as `x y;x y;x y`, in the projection of `nodes.csv`.
Other columns are passed over, and `shapes.csv` where no `nodes.csv` is.
"""
from __future__ import annotations

import math
import os
import re
from collections.abc import Iterable
from dataclasses import dataclass, field, replace

from ..errors import Fault
from ..files import read_table, write_records
from ..replacing import take_away
from .rows import Link, Rows

FILE, SHAPES_FILE = "nodes.csv", "shapes.csv"
FILES = (FILE, SHAPES_FILE)
DEGREES = "EPSG:4326"
METRES_PER_DEGREE = 6_371_008.8 * math.pi / 180  # of latitude, on a sphere of the mean radius of the Earth
CRS = re.compile(r"EPSG:[0-9]{4,6}", re.ASCII)
Place = tuple[float, float]
Line = tuple[Place, ...]


@dataclass(slots=True)
class Places:
    """The place of each node, their projection where it is known, the points of each link that does not run straight,
    and, in a plane, the metres of a unit where they are known and by what x was shortened."""

    of: dict[str, Place]
    crs: str | None = None
    shapes: dict[str, Line] = field(default_factory=dict)
    metres: float | None = None
    shorter: float = 1.0

    def line(self, link: Link) -> Line:
        """The points of a link: its shape, or else its two ends."""
        return self.shapes.get(link.name) or (self.of[link.tail], self.of[link.head])

    def plane(self) -> Places:
        """The places in a plane with one scale in all directions, for a picture: degrees are shortened by the latitude
        of the middle."""
        if self.crs != DEGREES or not self.of:
            return replace(self, metres=None if self.crs is None else 1.0)
        latitudes = [y for _, y in self.of.values()]
        shorter = math.cos(math.radians((min(latitudes) + max(latitudes)) / 2))
        shapes = {name: tuple((x * shorter, y) for x, y in line) for name, line in self.shapes.items()}
        of = {name: (x * shorter, y) for name, (x, y) in self.of.items()}
        return Places(of, None, shapes, METRES_PER_DEGREE, shorter)

    def write(self, folder: str | os.PathLike[str]) -> None:
        """Writes `nodes.csv` into a folder, and `shapes.csv` where some link has a shape, which else is taken away."""
        crs = [self.crs] if self.crs is not None else []
        write_records(
            os.path.join(folder, FILE),
            ["name", "x", "y", *["crs"] * len(crs)],
            [[name, number_text(x), number_text(y), *crs] for name, (x, y) in self.of.items()],
        )
        path = os.path.join(folder, SHAPES_FILE)
        if self.shapes:
            write_records(path, ("link", "points"), [[name, points_text(line)] for name, line in self.shapes.items()])
        else:
            take_away(path)


def number_text(number: float) -> str:
    """A coordinate, to the hundred-millionth: as degrees a thousandth of a metre."""
    return f"{number:.8f}".rstrip("0").rstrip(".")


def points_text(line: Iterable[Place]) -> str:
    """The points of a link as `shapes.csv` has them."""
    return ";".join(f"{number_text(x)} {number_text(y)}" for x, y in line)


def points_of(text: str) -> Line | None:
    """The points that a text tells, two or more; None where it tells none."""
    try:
        pairs = [tuple(map(float, part.split())) for part in text.split(";")]
    except ValueError:
        return None
    if len(pairs) < 2 or not all(len(pair) == 2 and all(map(math.isfinite, pair)) for pair in pairs):
        return None
    return tuple((pair[0], pair[1]) for pair in pairs)


def read_places(folder: str | os.PathLike[str], case: Rows) -> Places | None:
    """The places of all nodes of a case, and the shapes of its links, where its folder has the files; a Fault where a
    node has none."""
    path = os.path.join(folder, FILE)
    if not os.path.exists(path):
        return None
    places = Places({})
    for row in read_table(path, ("name", "x", "y")):
        name, crs = row.text("name"), row.text("crs", "").upper() or None
        if crs is not None and CRS.fullmatch(crs) is None:
            raise row.fault("crs", "write a projection as in EPSG:25832")
        if name in places.of:
            raise row.fault("name", "this node has a place already")
        if places.of and crs != places.crs:
            raise row.fault("crs", "all rows are to have the same projection")
        places.crs = crs
        places.of[name] = (float(row.number("x")), float(row.number("y")))
    for node in case.nodes:
        if node not in places.of:
            raise Fault(f"{path}: the node {node} has no place")
    places.shapes = read_shapes(folder)
    return places


def read_shapes(folder: str | os.PathLike[str]) -> dict[str, Line]:
    """The shapes of links, where a folder has the file."""
    path = os.path.join(folder, SHAPES_FILE)
    shapes: dict[str, Line] = {}
    for row in read_table(path, ("link", "points")) if os.path.exists(path) else ():
        name, line = row.text("link"), points_of(row.text("points"))
        if name in shapes:
            raise row.fault("link", "this link has a shape already")
        if line is None:
            raise row.fault("points", "expected two points or more, as x y;x y")
        shapes[name] = line
    return shapes
