"""Work on all processors of this machine, by sessions that each take pieces of it."""
from __future__ import annotations

import threading
from collections.abc import Callable, Iterator, Sequence
from concurrent.futures import ThreadPoolExecutor
from typing import Protocol, TypeVar

from ..errors import Fault
from .scenarios import Row, Runner, SweepScenario

CHUNK = 8


class Open(Protocol):
    """What keeps a session open."""

    def close(self) -> None:
        """Ends the session."""

    def stop(self) -> None:
        """Ends the session at once, whatever it does, and opens none again."""


Kept = TypeVar("Kept", bound=Open)
Piece = TypeVar("Piece")
Found = TypeVar("Found")


def chunks(found: Sequence[SweepScenario], size: int = CHUNK) -> list[Sequence[SweepScenario]]:
    """The scenarios in pieces, in order."""
    return [found[place : place + size] for place in range(0, len(found), size)]


def here(
    folder: str,
    program: str,
    links: Sequence[str],
    delay: bool,
    pieces: Sequence[Sequence[SweepScenario]],
    sessions: int,
) -> Iterator[list[Row]]:
    """The rows of results of each piece, in order, by so many sessions of this machine."""

    def run(runner: Runner, piece: Sequence[SweepScenario]) -> list[Row]:
        return [runner.run(scenario) for scenario in piece]

    return in_sessions(lambda: Runner(folder, program, links, delay), run, pieces, sessions)


def in_sessions(
    make: Callable[[], Kept], run: Callable[[Kept, Piece], Found], pieces: Sequence[Piece], sessions: int
) -> Iterator[Found]:
    """What `run` gives of each piece, in order, by so many at once; each has one that `make` gives."""
    own = threading.local()
    kept: list[Kept] = []

    def work(piece: Piece) -> Found:
        if not hasattr(own, "kept"):
            own.kept = make()
            kept.append(own.kept)
        return run(own.kept, piece)

    pool = ThreadPoolExecutor(sessions)
    try:
        yield from pool.map(work, pieces)
    except BaseException:
        for one in kept:
            one.stop()
        raise
    finally:
        pool.shutdown(cancel_futures=True)
    close_all(kept)


def close_all(kept: Sequence[Open]) -> None:
    """Ends each session; the first Fault of them is raised when all have ended."""
    faults = []
    for one in kept:
        try:
            one.close()
        except Fault as fault:
            faults.append(fault)
    if faults:
        raise faults[0]
