"""The files of a case, written."""
import os
from collections.abc import Iterable, Iterator, Sequence

from ..errors import Fault
from ..files import make_folder, write_bytes, write_lines, write_records
from ..formats import (
    DEMAND,
    HEADERS,
    MATRIX,
    PROFILE,
    SETUP,
    SPLITS,
    field_text,
    is_name,
    record_text,
    short_vehicles,
    weights_text,
)
from ..replacing import SETUP_FILE, take_away, together
from .matrix import PROFILE_FILE, Matrix, as_matrix, has_profile
from .rows import Demand, Limit, Rows, Setup, Split


def demand_records(demand: Iterable[Demand]) -> Iterator[Sequence[object]]:
    """The records of `demand.csv` behind its header."""
    return ([row.origin, row.destination, row.from_slot, row.to_slot, short_vehicles(row.units)] for row in demand)


def matrix_records(matrix: Matrix) -> Iterator[Sequence[object]]:
    """The records of a `demand.csv` that is a matrix, behind its header."""
    return ([origin, destination, short_vehicles(units)] for origin, destination, units in matrix.pairs())


def split_line(row: Split) -> str:
    """A record of `splits.csv`, without its end."""
    return f"{row.node},{row.destination},{row.from_slot},{weights_text(row.weights)}"


def demand_bytes(case: Rows, matrix: Matrix | None = None) -> int:
    """The bytes of `demand.csv`: of its rows, or of the matrix that says them."""
    names = {row.origin for row in case.demand} | {row.destination for row in case.demand}
    size = {name: len(field_text(name)) for name in names}
    whole = len(record_text(DEMAND if matrix is None else MATRIX)) + 1
    for origin, destination, *numbers in demand_records(case.demand) if matrix is None else matrix_records(matrix):
        whole += size[str(origin)] + size[str(destination)] + len(",".join(map(str, numbers))) + len(",,\n")
    return whole


def split_bytes(case: Rows) -> int:
    """The bytes of `splits.csv` where there are splits."""
    lines = [record_text(SPLITS), *map(split_line, case.splits)] if case.splits is not None else []
    return sum(len(line) + 1 for line in lines)


def write_split_lines(folder: str | os.PathLike[str], lines: Sequence[bytes]) -> None:
    """Writes the `splits.csv` of a case whose records are lines already, with their ends."""
    write_bytes(os.path.join(folder, "splits.csv"), b"".join((",".join(SPLITS).encode(), b"\n", *lines)))


def write_demand(folder: str | os.PathLike[str], demand: Sequence[Demand], setup: Setup) -> None:
    """Writes the `demand.csv` of a case with this setup: as a matrix, with its `profile.csv`, where the case keeps no
    history and a matrix says these rows; else as rows, without the `profile.csv` of a matrix that stood there."""
    matrix, profile = None if setup.history else as_matrix(demand), os.path.join(folder, PROFILE_FILE)
    rows = demand_records(demand) if matrix is None else matrix_records(matrix)
    with together():
        write_records(os.path.join(folder, "demand.csv"), DEMAND if matrix is None else MATRIX, rows)
        if matrix is not None:
            slices = ([part.from_slot, part.to_slot, part.share] for part in matrix.slices)
            write_records(profile, PROFILE, slices)
        elif has_profile(folder):
            take_away(profile)


def write_splits(folder: str | os.PathLike[str], splits: Iterable[Split]) -> None:
    """Writes the `splits.csv` of a case."""
    write_lines(os.path.join(folder, "splits.csv"), SPLITS, map(split_line, splits))


def write_limits(folder: str | os.PathLike[str], limits: Iterable[Limit], file: str = "limits") -> None:
    """Writes the `limits.csv` of a case, or its `signals.csv`."""
    write_lines(
        os.path.join(folder, f"{file}.csv"),
        HEADERS[file],
        (f"{row.link},{row.from_slot},{row.to_slot},{short_vehicles(row.units)}" for row in limits),
    )


def write_rows(case: Rows, folder: str | os.PathLike[str]) -> None:
    """Writes the files of the case, all or none; of what it does not have, as splits or signals, none is written."""
    for name in {end for link in case.links for end in (link.name, link.tail, link.head)}:
        if not is_name(name):
            raise Fault(f"{name!r} cannot be a name of a case")
    setup = case.setup
    more: dict[str, object] = {}
    if setup.signals or case.signals:
        more["signals"] = 1
    if setup.limits or case.limits:
        more["limits"] = 1
    asked = {"cells": setup.cells, "rows": setup.rows, "links": setup.links, "destinations": setup.destinations}
    more |= {name: most for name, most in asked.items() if most is not None}
    if setup.moves:
        more["moves"] = 1
    if setup.carry:
        more["carry"] = 1
    if not setup.history:
        more["history"] = 0
    if setup.routes:
        more["routes"] = 1
    links = (
        [link.name, link.tail, link.head, link.length_m, link.free_kmh, link.wave_kmh, link.jam_per_km]
        for link in case.links
    )
    with together():
        make_folder(folder)
        write_records(
            os.path.join(folder, SETUP_FILE),
            (*SETUP, *more),
            [[setup.step_ms, setup.slots, short_vehicles(setup.origin_capacity), *more.values()]],
        )
        write_records(os.path.join(folder, "links.csv"), HEADERS["links"], links)
        write_demand(folder, case.demand, setup)
        if case.splits is not None:
            write_splits(folder, case.splits)
        for file, limits in (("signals", case.signals), ("limits", case.limits)):
            if file in more:
                write_limits(folder, limits, file)
