"""Where a net of SUMO lies: how its metres become places of the world, and along what points its edges run."""
from __future__ import annotations

import math
import xml.etree.ElementTree as ElementTree

from ..case.places import DEGREES, Line
from ..formats import exact_or_none
from ..network.placing import Map
from ..network.projection import projection_of

NO_PROJECTION = "!"


def map_of(location: ElementTree.Element) -> Map:
    """How places of a net become those of the world: what was added to them is taken off, and degrees are made of them,
    where its projection is UTM or none. Else they stay metres of the net."""
    told = location.get("projParameter", NO_PROJECTION)
    projection = projection_of(told)
    added = [exact_or_none(text) for text in location.get("netOffset", "0,0").split(",")[:2]]
    if len(added) < 2 or None in added:
        return Map()
    east, north = (number for number in added if number is not None)
    if projection is not None:
        return Map((east, north), projection, DEGREES)
    return Map((east, north)) if told == NO_PROJECTION else Map()


def shape_of(edge: ElementTree.Element) -> Line:
    """The points of an edge that does not run straight; none where they are no numbers."""
    points = []
    for text in edge.get("shape", "").split():
        try:
            x, y = map(float, text.split(",")[:2])
        except ValueError:
            return ()
        if not (math.isfinite(x) and math.isfinite(y)):
            return ()
        points.append((x, y))
    return tuple(points)
