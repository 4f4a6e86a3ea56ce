"""The files beside a case, of those of its links and nodes that a cut keeps."""
from __future__ import annotations

import os
from collections.abc import Callable, Sequence

from ..case import Case
from ..case.background import Background, Shape, read_background, write_background
from ..case.beside import LINKS_FILE, NODES_FILE, TURNS_FILE
from ..case.clock import read_clock, write_clock
from ..case.places import FILE as PLACES_FILE
from ..case.places import SHAPES_FILE, Places
from ..case.streets import FILE as STREETS_FILE
from ..files import read_table, write_text
from ..formats import record_text
from .inside import Inside

Folder = str | os.PathLike[str]
Fields = dict[str, str]


def write_beside(folder: Folder, to: Folder, case: Case, inside: Inside) -> None:
    """Writes what lies beside a case into the folder of its inside, the clock as it is."""
    links, nodes = inside.names, set(inside.nodes)
    parts = kept_parts(folder, inside)

    def of_source(row: Fields, seen: set[str]) -> Fields | None:
        """A row of a link of the source; its own link is none where that is not inside and others of it are."""
        name = row["source"].strip()
        is_first, link = name not in seen, row["link"].strip()
        seen.add(name)
        if name not in parts or not (is_first or link in links):
            return None
        return row if link in links else {**row, "link": ""}

    def of_turn(row: Fields) -> Fields | None:
        opposing = " ".join(name for name in row.get("opposing", "").split() if name in links)
        return {**row, "opposing": opposing} if row["link"].strip() in links else None

    seen: set[str] = set()
    keep: dict[str, tuple[Sequence[str], Callable[[Fields], Fields | None]]] = {
        PLACES_FILE: (("name",), lambda row: row if row["name"].strip() in nodes else None),
        SHAPES_FILE: (("link",), lambda row: row if row["link"].strip() in links else None),
        STREETS_FILE: (("link",), lambda row: row if row["link"].strip() in links | parts else None),
        LINKS_FILE: (("source", "link"), lambda row: of_source(row, seen)),
        NODES_FILE: (("node",), lambda row: row if row["node"].strip() in nodes else None),
        TURNS_FILE: (("link",), of_turn),
    }
    for name, (fields, one) in keep.items():
        write_kept(os.path.join(folder, name), os.path.join(to, name), fields, one)
    if (begins := read_clock(folder)) is not None:
        write_clock(to, begins)
    background, places = read_background(folder), case.places(folder)
    if background is not None:
        shapes = background.shapes if places is None else near(background, places, inside)
        if shapes:
            write_background(to, Background(tuple(shapes), background.crs, background.attribution))


def kept_parts(folder: Folder, inside: Inside) -> set[str]:
    """The links of the source of which a part is inside."""
    path = os.path.join(folder, LINKS_FILE)
    rows = read_table(path, ("source", "link")) if os.path.exists(path) else ()
    return {row.text("source") for row in rows if row.text("link", "") in inside.names}


def write_kept(path: str, to: str, wanted: Sequence[str], keep: Callable[[Fields], Fields | None]) -> None:
    """Writes the rows of a table that are kept into another file; nothing where there is no such table. Some fields are
    wanted of its header."""
    if os.path.exists(path):
        rows = read_table(path, wanted)
        kept = [fields for row in rows if (fields := keep(row.fields)) is not None]
        if kept:
            header = list(rows[0].fields)
            lines = [record_text(header), *(record_text(fields.get(name, "") for name in header) for fields in kept)]
            write_text(to, "".join(f"{line}\n" for line in lines))


def near(background: Background, places: Places, inside: Inside) -> Sequence[Shape]:
    """The shapes of a background that come into the box around the inside, or all where their projection is another."""
    if background.crs != places.crs:
        return background.shapes
    points = [point for link in inside.links for point in places.line(link)]
    (left, right), (low, high) = ((min(side), max(side)) for side in zip(*points))
    return [
        shape
        for shape in background.shapes
        if max(x for x, _ in shape.points) >= left
        and min(x for x, _ in shape.points) <= right
        and max(y for _, y in shape.points) >= low
        and min(y for _, y in shape.points) <= high
    ]
