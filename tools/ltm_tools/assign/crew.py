"""The destinations of a case, worked out here or by several processes of this machine: the same numbers either way.

Processes are forked with plans of the destinations that are theirs, and keep what they make of them. The times of a
loading, and what comes to nodes, lie in memory that all share; what goes to and fro are words, steps and rows. They end
with the one that began them.
"""
from __future__ import annotations

import gc
import mmap
import multiprocessing
import signal
from collections.abc import Iterable, Iterator, Sequence
from contextlib import contextmanager
from math import prod
from multiprocessing.connection import Connection
from typing import Any, NamedTuple

import numpy

from ..errors import Fault
from .gaps import Gap
from .looking import Times
from .net import Real
from .parts import Plan, Step, Told
from .shares import Pair, PairRows
from .steps import Traffic


class Said(NamedTuple):
    """What a loading says: the gap and the turn regret of each destination, and what comes to each node in each span,
    `[spans, N]`."""

    gaps: list[Gap]
    regrets: list[float]
    flow: Real


class Crew:
    """Parts of the destinations, in order."""

    def __init__(self, plans: Sequence[Plan]) -> None:
        self.plans = plans
        self.parts = [plan.part() for plan in plans]

    def look(self, times: Times) -> Said:
        """What a loading with these times says."""
        told = self._told(times)
        return said(told, numpy.concatenate([of_part.flow for of_part in told], axis=2))

    def _told(self, times: Times) -> list[Told]:
        """The same by part."""
        return [part.look(times) for part in self.parts]

    def step(self, step: Step, traffic: Traffic, size: float, gently: bool) -> None:
        """Makes a step by what the last loading said."""
        for part in self.parts:
            part.step(step, traffic, size, gently)

    def rows(self) -> dict[Pair, PairRows]:
        """The split rows of the shares of now."""
        return {pair: rows for part in self.parts for pair, rows in part.rows().items()}

    def lines(self) -> list[bytes]:
        """The same as lines of `splits.csv`, in a piece for each part."""
        return [part.lines() for part in self.parts]

    def keep(self, name: str) -> None:
        """Keeps the shares of now by a name."""
        for part in self.parts:
            part.keep(name)

    def back(self, name: str) -> None:
        """Goes back to the shares that were kept by a name."""
        for part in self.parts:
            part.back(name)

    def load(self, part: float) -> None:
        """Has so much of the demand set out."""
        for one in self.parts:
            one.load(part)


def said(told: Sequence[Told], flow: Real) -> Said:
    """What parts say, and what comes to each node in each span for each destination, together."""
    gaps = [gap for of_part in told for gap in of_part.gaps]
    return Said(gaps, [regret for of_part in told for regret in of_part.regrets], flow.sum(axis=2))


class Board:
    """What processes share: the times of a loading, and what comes to each node in each span for each destination."""

    def __init__(self, plans: Sequence[Plan]) -> None:
        net, spans = plans[0].net, plans[0].spans
        boundaries, nodes = net.slots + 1, len(net.node_names)
        self.times = Times(in_common((boundaries, len(net.names))), in_common((boundaries, nodes)))
        self.flow: Real = in_common((len(spans), nodes, len(net.end_names)), numpy.float64)


def in_common(shape: tuple[int, ...], kind: type = numpy.int64) -> Any:
    """An array that this process and those that it forks share."""
    count = prod(shape)
    return numpy.frombuffer(mmap.mmap(-1, max(1, count) * numpy.dtype(kind).itemsize), kind, count).reshape(shape)


class Member(Crew):
    """The crew of one of several processes: what it reads and tells of a loading lies on a board."""

    def __init__(self, plans: Sequence[Plan], board: Board) -> None:
        super().__init__(plans)
        self.board = board

    def look_there(self) -> list[Told]:
        """What the loading on the board says, without what comes to nodes, which it puts there."""
        found = []
        for plan, told in zip(self.plans, self._told(self.board.times)):
            self.board.flow[:, :, plan.places] = told.flow
            found.append(told._replace(flow=numpy.empty(0)))
        return found


class Forked(Crew):
    """Parts that processes have: each has some that follow one another."""

    def __init__(self, plans: Sequence[Plan], pipes: Sequence[Connection], board: Board) -> None:
        super().__init__([])
        self.plans, self.pipes, self.board = plans, pipes, board

    def _all(self, method: str, *words: Any) -> list[Any]:
        """What a method gives in each process, in order."""
        for pipe in self.pipes:
            pipe.send((method, words))
        found = []
        for pipe in self.pipes:
            try:
                done, answer = pipe.recv()
            except EOFError:
                raise Fault("a process that works out destinations has ended") from None
            if not done:
                raise Fault(f"a process that works out destinations failed: {answer}")
            found.append(answer)
        return found

    def look(self, times: Times) -> Said:
        """The same, by its processes, as with all below."""
        self.board.times.leave[:], self.board.times.set_out[:] = times
        told = [of_part for of_process in self._all("look_there") for of_part in of_process]
        return said(told, self.board.flow)

    def step(self, step: Step, traffic: Traffic, size: float, gently: bool) -> None:
        self._all("step", step, traffic, size, gently)

    def rows(self) -> dict[Pair, PairRows]:
        return {pair: rows for of_process in self._all("rows") for pair, rows in of_process.items()}

    def lines(self) -> list[bytes]:
        return [lines for of_process in self._all("lines") for lines in of_process]

    def keep(self, name: str) -> None:
        self._all("keep", name)

    def back(self, name: str) -> None:
        self._all("back", name)

    def load(self, part: float) -> None:
        self._all("load", part)


def serve(crew: Crew, pipe: Connection) -> None:
    """In a process: does what is asked until nobody asks any more."""
    while True:
        try:
            method, words = pipe.recv()
        except EOFError:
            return
        try:
            answer = True, getattr(crew, method)(*words)
        except Exception as error:
            answer = False, f"{type(error).__name__}: {error}"
        try:
            pipe.send(answer)
        except OSError:  # the one that asked has been interrupted
            return


def shared(plans: Sequence[Plan], processes: int) -> Iterator[Sequence[Plan]]:
    """The plans in so many groups of neighbours, as alike in size as can be; none is empty."""
    count = min(processes, len(plans))
    ends = [len(plans) * place // count for place in range(count + 1)]
    yield from (plans[first:end] for first, end in zip(ends, ends[1:]))


@contextmanager
def crew_of(plans: Sequence[Plan], processes: int) -> Iterator[Crew]:
    """The parts of these plans in this process, or in so many."""
    if processes == 1 or len(plans) == 1:
        yield Crew(plans)
        return
    context = multiprocessing.get_context("fork")
    board, begun = Board(plans), []
    pipes: list[Connection] = []
    try:
        for group in shared(plans, processes):
            ours, theirs = context.Pipe()
            begun.append(context.Process(target=begin, args=(group, board, theirs, [*pipes, ours]), daemon=True))
            begun[-1].start()
            theirs.close()
            pipes.append(ours)
        yield Forked(plans, pipes, board)
    finally:
        for pipe in pipes:
            pipe.close()
        for one in begun:
            one.join(5)
            if one.is_alive():
                one.kill()


def begin(plans: Sequence[Plan], board: Board, pipe: Connection, others: Iterable[Connection]) -> None:
    """In a process: closes the ends of pipes that are not its own, and serves. An interrupt is for the one that began
    it."""
    signal.signal(signal.SIGINT, signal.SIG_IGN)
    signal.signal(signal.SIGTERM, signal.SIG_DFL)
    gc.freeze()  # what is there already stays in the memory that all share
    for other in others:
        other.close()
    serve(Member(plans, board), pipe)
