"""What a case is loaded by while its shares and limits change: it is told them, and gives the counts of the loading.
All engines give the same counts; which is the faster one depends on the case."""
from __future__ import annotations

import os
import tempfile
from abc import ABC, abstractmethod
from dataclasses import replace
from types import TracebackType

import numpy

from ..case import Case, Split
from ..errors import Fault
from ..formats import MOST_FILE_BYTES, MOST_ROWS_ASKED, count_text
from ..loading.answers import Gap
from ..scenario.edits import Edit
from .net import Net, Whole
from .shares import Shares

Program = str | os.PathLike[str] | None


class Counts:
    """The counts of a loading by boundary, in thousandths of a vehicle: what has entered and left each link, `[slots +
    1, L]`, and of each origin what it has produced and what has left it."""

    def __init__(self, net: Net) -> None:
        self.entered = numpy.zeros((net.slots + 1, len(net.names)), dtype=numpy.int64)
        self.left = numpy.zeros_like(self.entered)
        self.origins: dict[int, tuple[Whole, Whole]] = {}


class Engine(ABC):
    """A case whose split rows are those that it is told, in a folder of its own. It is a context manager."""

    def __init__(self, net: Net, shares: Shares, program: Program, case: Case | None = None) -> None:
        """The case is that of the net, or one with another demand."""
        self.net, self.case, self.program = net, case or net.case, program
        self.folder = tempfile.TemporaryDirectory(prefix="ltm_assign_")
        try:
            self._begin(shares)
        except BaseException:
            self.folder.cleanup()
            raise

    def __enter__(self) -> "Engine":
        return self

    def __exit__(
        self, kind: type[BaseException] | None, error: BaseException | None, trace: TracebackType | None
    ) -> None:
        self.folder.cleanup()

    @property
    @abstractmethod
    def told(self) -> Shares:
        """The shares that it has, which stay as they are."""

    @abstractmethod
    def _begin(self, shares: Shares) -> None:
        """Writes the case with its first shares."""

    @abstractmethod
    def limit(self, edit: Edit) -> None:
        """Sets an entry limit beside the case's own."""

    @abstractmethod
    def tell(self, shares: Shares) -> bool:
        """Has the case these shares: whether they are others than it has."""

    @abstractmethod
    def counts(self) -> Counts:
        """The counts of what is told, once it is loaded."""

    @abstractmethod
    def spent(self) -> tuple[int, int]:
        """The vehicle time of what is loaded, in thousandths of a vehicle times ms, and who is not there by the end."""

    @abstractmethod
    def _gap(self) -> Gap:
        """The program's own gap of what is loaded."""

    def exact_gap(self) -> float:
        """The program's own gap of what is loaded, in per cent of the vehicle time."""
        gap = self._gap()
        return 100 * gap.gap / gap.spent if gap.spent else 0.0


def check_size(rows: int, size: int = 0, most_rows: int = MOST_ROWS_ASKED, most_bytes: int = MOST_FILE_BYTES) -> None:
    """A Fault where shares take more split rows, or bytes, than a case may have."""
    for found, most, what in ((rows, most_rows, "split rows"), (size, most_bytes, "bytes of split rows")):
        if found > most:
            raise Fault(
                f"the shares take {count_text(found)} {what}, and at most {count_text(most)} may be: give a longer"
                " --period"
            )


def case_with(case: Case, splits: list[Split], most: int | None = None) -> Case:
    """The case with these split rows, and with room for them, or for so many."""
    made = Case.of(case)
    made.splits = splits
    made.setup = replace(case.setup, rows=max(most or len(made.splits), case.setup.split_rows_asked))
    if made.setup.rows == case.setup.split_rows_asked:
        made.setup.rows = case.setup.rows
    return made
