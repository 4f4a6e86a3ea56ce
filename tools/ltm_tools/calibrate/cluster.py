"""Loadings of many demands by the workers of a cluster of Dask, each with a session that it keeps open."""
from __future__ import annotations

from collections.abc import Iterator, Sequence

import numpy

from ..assign.net import Whole
from ..counting.counts import Count, Timed
from ..sweep.cluster import in_worker, kept_of, spread
from .loader import Loaded, Loader, Program

Asked = tuple[tuple[Count, ...], tuple[Timed, ...], tuple[tuple[str, ...], ...]]
"""Counts, times, and the links of their routes."""


def load_in_worker(units: list[int], files: dict[str, bytes], key: str, program: str, asked: Asked) -> Loaded:
    """In a worker: what the loading of these units by row has, by the session that is open there."""

    def work() -> Loaded:
        loader = kept_of(files, key, program, lambda folder, path: Loader(folder, *asked, path))
        return loader.load(numpy.array(units, dtype=numpy.int64))

    return in_worker(work)


def all_loaded(address: str, folder: str, program: Program, many: Sequence[Whole], asked: Asked) -> Iterator[Loaded]:
    """What the loadings of these units by row have, in order, by the workers of a scheduler."""
    named = None if program is None else str(program)
    return spread(address, folder, named, load_in_worker, [units.tolist() for units in many], (asked,))
