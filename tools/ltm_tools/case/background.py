"""What a map draws behind the links of a case: the file `background.json` beside it, which the program does not read.

It is an object with `attribution` (a text for the map, or empty), `crs` (as in `nodes.csv`, or null) and `shapes`: a
list of objects with `kind` (`road`, `rail`, `water`, `green`, `building` or `other`) and `points`, pairs of x and y as
`shapes.csv` has them. Roads and rails are lines, the others areas whose last point leads back to the first.
"""
from __future__ import annotations

import json
import os
from dataclasses import dataclass

from ..errors import Fault
from ..files import read_text, write_text
from ..replacing import take_away
from .places import Line

FILE = "background.json"
KINDS = ("road", "rail", "water", "green", "building", "other")
DECIMALS = 7  # of a coordinate: in degrees about a centimetre


@dataclass(frozen=True, slots=True)
class Shape:
    """A line or an area of a kind."""

    kind: str
    points: Line


@dataclass(frozen=True, slots=True)
class Background:
    """The shapes behind a case, their projection where it is known, and whom a map has to name."""

    shapes: tuple[Shape, ...] = ()
    crs: str | None = None
    attribution: str = ""


def write_background(folder: str | os.PathLike[str], background: Background) -> None:
    """Writes the file; without shapes it is taken away."""
    path = os.path.join(folder, FILE)
    if not background.shapes:
        return take_away(path)
    shapes = [
        json.dumps(
            {"kind": it.kind, "points": [[round(x, DECIMALS), round(y, DECIMALS)] for x, y in it.points]},
            separators=(",", ":"),
        )
        for it in background.shapes
    ]
    head = f'{{"attribution":{json.dumps(background.attribution)},"crs":{json.dumps(background.crs)},"shapes":[\n'
    return write_text(path, head + ",\n".join(shapes) + "\n]}\n")


def read_background(folder: str | os.PathLike[str]) -> Background | None:
    """The background of a case; None where its folder has no such file."""
    path = os.path.join(folder, FILE)
    if not os.path.exists(path):
        return None
    try:
        told = json.loads(read_text(path))
        shapes = tuple(Shape(it["kind"], tuple((float(x), float(y)) for x, y in it["points"])) for it in told["shapes"])
        made = Background(shapes, told["crs"], str(told["attribution"]))
    except (ValueError, KeyError, TypeError) as error:
        raise Fault(
            f"{path}: this is no background of a case ({error}); take it away, or import the case anew"
        ) from None
    wrong = next((it.kind for it in made.shapes if it.kind not in KINDS or len(it.points) < 2), None)
    if wrong is not None:
        raise Fault(f"{path}: a shape of kind {wrong!r}; kinds are {', '.join(KINDS)}, each of two points or more")
    return made
