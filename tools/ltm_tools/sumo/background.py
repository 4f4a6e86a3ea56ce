"""What of a net of SUMO carries no vehicles of a case, for a map: edges that are left out, and the polygons of
additional files (`.poly.xml`), simplified."""
from __future__ import annotations

import math
import xml.etree.ElementTree as ElementTree
from collections.abc import Iterable
from pathlib import Path

from ..case.background import Background, Shape
from ..case.places import Line
from ..network.placing import Map
from .net import elements, opened
from .places import shape_of

TOLERANCE_M = 2.0
"""How far a simplified line may be from what it stands for."""
OSM_NET, OSM = b"osm-files", "© OpenStreetMap contributors"
KINDS = {
    "water": ("water", "river", "lake", "stream", "canal", "basin", "wetland"),
    "building": ("building",),
    "rail": ("rail", "tram", "subway"),
    "green": ("forest", "wood", "grass", "park", "meadow", "green", "garden", "leisure", "farm", "scrub", "cemetery"),
}
HEAD_BYTES = 65_536  # of a net, in which its maker names its sources


def background_of(net: Path, unused: Iterable[tuple[str, Line]], polygons: Iterable[Path], drawn: Map) -> Background:
    """The shapes of edges that are left out, by their kinds, and of polygons, as `shapes.csv` has points."""
    found = [*unused, *(pair for path in polygons for pair in polygons_of(path))]
    shapes = [(kind, simplified(line)) for kind, line in found]
    kept = tuple(Shape(kind, drawn.line(line)) for kind, line in shapes if len(line) > 1 and drawn.has(*line))
    with opened(net) as file:
        is_osm = OSM_NET in file.read(HEAD_BYTES)
    return Background(kept, drawn.crs, OSM if is_osm else "")


def polygons_of(path: Path) -> Iterable[tuple[str, Line]]:
    """The polygons of a file with their kinds."""
    for element in elements(path):
        if element.tag in ("poly", "polygon"):
            yield kind_of(element), shape_of(element)


def kind_of(element: ElementTree.Element) -> str:
    """The kind of a polygon, by the words of its type."""
    text = element.get("type", "").lower()
    return next((kind for kind, words in KINDS.items() if any(word in text for word in words)), "other")


def simplified(line: Line) -> Line:
    """A line without points that are no farther than the tolerance from it (Douglas and Peucker's rule)."""
    if len(line) < 3:
        return line
    kept, left = {0, len(line) - 1}, [(0, len(line) - 1)]
    while left:
        first, last = left.pop()
        off, at = max(
            ((apart(line[place], line[first], line[last]), place) for place in range(first + 1, last)), default=(0.0, 0)
        )
        if off > TOLERANCE_M:
            kept.add(at)
            left += [(first, at), (at, last)]
    return tuple(line[place] for place in sorted(kept))


def apart(point: tuple[float, float], start: tuple[float, float], end: tuple[float, float]) -> float:
    """How far a point is from the line between two others."""
    (x, y), whole = (end[0] - start[0], end[1] - start[1]), math.dist(start, end)
    if not whole:
        return math.dist(point, start)
    share = max(0.0, min(1.0, ((point[0] - start[0]) * x + (point[1] - start[1]) * y) / whole**2))
    return math.dist(point, (start[0] + share * x, start[1] + share * y))
