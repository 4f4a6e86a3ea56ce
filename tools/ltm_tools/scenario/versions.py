"""Versions of a case: what it is after so many accepted batches, kept in a folder or side by side."""
from __future__ import annotations

import os
import tempfile
from collections.abc import Iterable, Mapping, Sequence

from ..case import Case
from ..case.beside import BESIDE
from ..errors import Fault
from ..files import read_bytes, write_bytes
from ..loading.compare import Comparison
from ..loading.sides import Side, side
from ..loading.told import Program
from ..replacing import together
from .edits import Edit, edit_of
from .rows import EditedRows

Batches = Sequence[Sequence[Edit | Mapping[str, object]]]
"""Accepted batches, of edits or of their objects in a script."""


def case_after(case: Case, made: Iterable[Iterable[Edit | Mapping[str, object]]]) -> Case:
    """A case after accepted batches."""
    rows = EditedRows(case)
    for batch in made:
        for edit in batch:
            edit_of(edit).make(rows)
    return rows.kept()


def case_at(folder: str | os.PathLike[str], made: Batches, version: int | None = None) -> Case:
    """The case of a folder after the first `version` of these accepted batches, or after all."""
    last = len(made) if version is None else version
    if not 0 <= last <= len(made):
        raise Fault(f"there is no version {last}: {len(made)} batches are accepted")
    return case_after(Case.read(folder), made[:last])


def write_version(
    folder: str | os.PathLike[str], made: Batches, to: str | os.PathLike[str], version: int | None = None
) -> None:
    """Writes that case into another folder, with the files beside it as they are where the first folder has them:
    places, shapes, the clock, and names of a source."""
    kept = {name: read_bytes(path) for name in BESIDE if os.path.exists(path := os.path.join(folder, name))}
    case = case_at(folder, made, version)
    with together():
        case.write(to)
        for name, data in kept.items():
            write_bytes(os.path.join(to, name), data)


def side_by_side(
    folder: str | os.PathLike[str],
    made: Batches,
    versions: tuple[int, int | None],
    program: Program,
    gap: bool = False,
) -> Comparison:
    """Two versions of a case side by side: each after the first so many of these accepted batches, or after all where
    it is None."""
    one, other = (side_of(folder, made, version, program, gap) for version in versions)
    return Comparison(one, other)


def side_of(folder: str | os.PathLike[str], made: Batches, version: int | None, program: Program, gap: bool) -> Side:
    """The side of a version."""
    with tempfile.TemporaryDirectory() as kept:
        case_at(folder, made, version).write(kept)
        return side(kept, None, program, gap)
