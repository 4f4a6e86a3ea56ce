"""Closures one after another here, in several processes, or on a cluster of Dask."""
from __future__ import annotations

import os
from collections.abc import Iterator, Sequence
from concurrent.futures import ProcessPoolExecutor

from ..case import Case
from ..errors import Fault
from ..program import find_program
from ..sweep.cluster import folder_of, worker_program, spread
from .assigning import AssignOptions
from .closure import Closure, Cost
from .rerouting import Base

_bases: dict[tuple[str, AssignOptions], Base] = {}  # in a process: the case that it looked at last


def base_of(folder: str, options: AssignOptions) -> Base:
    """In a process: the case of a folder, which is read once."""
    if (folder, options) not in _bases:
        _bases.clear()
        _bases[folder, options] = Base(Case.read(folder, splits=True), options)
    return _bases[folder, options]


def cost_of(closure: Closure, folder: str, options: AssignOptions, informed: Sequence[int], program: str) -> list[Cost]:
    """In a process: what a closure costs with each of these per cent informed."""
    return base_of(folder, options).costs(closure, informed, program)


def here(
    folder: str,
    program: str,
    options: AssignOptions,
    informed: Sequence[int],
    closures: Sequence[Closure],
    processes: int,
) -> Iterator[list[Cost]]:
    """The costs of each closure, in order, by so many processes of this machine."""
    if processes == 1:
        for closure in closures:
            yield cost_of(closure, folder, options, informed, program)
        return
    pool = ProcessPoolExecutor(processes)
    try:
        futures = [pool.submit(cost_of, closure, folder, options, informed, program) for closure in closures]
        for future in futures:
            yield future.result()
    finally:
        pool.shutdown(cancel_futures=True)


def run_closure(
    closure: tuple[str, int, int],
    files: dict[str, bytes],
    key: str,
    program: str,
    options: AssignOptions,
    informed: Sequence[int],
) -> list[Cost]:
    """In a worker: the costs of a closure. Whatever is wrong is a plain Fault, which can be sent."""
    try:
        return cost_of(
            Closure(*closure),
            folder_of(files, key),
            options,
            informed,
            str(worker_program(program)),
        )
    except Exception as error:
        raise Fault(
            str(error) if isinstance(error, Fault) else f"a worker failed: {type(error).__name__}: {error}"
        ) from None


def there(
    address: str,
    folder: str,
    named: str | None,
    options: AssignOptions,
    informed: Sequence[int],
    closures: Sequence[Closure],
) -> Iterator[list[Cost]]:
    """The costs of each closure, in order, by the workers of a cluster."""
    for costs in spread(
        address, folder, named, run_closure, [tuple(closure) for closure in closures], (options, list(informed))
    ):
        yield [Cost(*cost) for cost in costs]


def costs(
    folder: str,
    program: str | os.PathLike[str] | None,
    options: AssignOptions,
    informed: Sequence[int],
    closures: Sequence[Closure],
    processes: int = 1,
    scheduler: str | None = None,
) -> Iterator[list[Cost]]:
    """The costs of each closure, in order: here, or by the workers of a scheduler."""
    if scheduler is None:
        return here(folder, str(find_program(program)), options, informed, closures, processes)
    return there(scheduler, folder, None if program is None else str(program), options, informed, closures)
