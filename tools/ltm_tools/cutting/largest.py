"""How far the loading of a cut is from that of the whole case."""
from __future__ import annotations

from ..loading.counts import as_list
from ..loading.curves import Curves
from .inside import Inside


def largest_difference(whole: Curves, own: Curves, inside: Inside) -> tuple[str, int, int]:
    """The link, the boundary and the thousandths of vehicles by which what has entered or left a link of the inside
    differs most."""
    found = (inside.links[0].name, 0, 0)
    for link in inside.links:
        for one, other in ((whole.up, own.up), (whole.down, own.down)):
            for boundary, (before, after) in enumerate(zip(as_list(one(link.name)), as_list(other(link.name)))):
                if abs(after - before) > found[2]:
                    found = (link.name, boundary, abs(after - before))
    return found
