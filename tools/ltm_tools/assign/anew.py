"""A case that is loaded anew whenever its shares or limits have changed, by `ltm totals`, which keeps no history."""
from __future__ import annotations

from dataclasses import replace

import numpy

from ..case import Limit
from ..case.writing import write_limits, write_split_lines
from ..errors import Fault
from ..loading.answers import Gap
from ..loading.delay import demand_by_origin, produced
from ..loading.told import told_gap
from ..loading.totals import told_totals
from ..program import refusal, start
from ..scenario import edits
from ..scenario.edits import Edit
from .engine import Counts, Engine, case_with, check_size
from .net import Net
from .shares import LineShares, Shares

WORDS = ["totals", "1"]
TRIES = 2  # runs of the program, where the first one is killed


class Anew(Engine):
    """An engine whose files are written, and read by the program, at each change."""

    def _begin(self, shares: Shares) -> None:
        made = case_with(self.case, [], most=self.case.setup.rows_asked)
        made.setup.limits = True
        made.write(self.folder.name)
        origins = demand_by_origin(self.case)
        self.produced = {
            node: numpy.asarray(produced(origins.get(self.net.node_names[node], []), self.net.slots + 1))
            for node in self.net.origins
        }
        self.limits: list[Limit] = list(self.case.limits)
        self.shares = LineShares([])
        self.loaded: Counts | None = None
        self.tell(shares)

    @property
    def told(self) -> Shares:
        return self.shares

    def limit(self, edit: Edit) -> None:
        assert isinstance(edit, edits.Limit), "it is an entry limit"
        self.limits.append(edits.limit_row(edit))
        write_limits(self.folder.name, self.limits)
        self.loaded = None

    def tell(self, shares: Shares) -> bool:
        lines = shares.lines()
        if lines == self.shares.pieces:
            return False
        setup = replace(self.case.setup, rows=self.case.setup.rows_asked)
        rows, size = sum(piece.count(b"\n") for piece in lines), sum(map(len, lines))
        check_size(rows, size, setup.most_split_rows, setup.most_file_bytes)
        write_split_lines(self.folder.name, lines)
        self.shares, self.loaded = LineShares(lines), None
        return True

    def counts(self) -> Counts:
        for left in range(TRIES - 1, -1, -1):
            if self.loaded is None:
                self.loaded = self._load(may_die=left > 0)
        assert self.loaded is not None, "the last run that fails is a fault"
        return self.loaded

    def _load(self, may_die: bool) -> Counts | None:
        """The counts of a run of the program; None where it has been killed, which may be."""
        with start(self.folder.name, WORDS, self.program) as process:
            written, _ = process.communicate()
        if process.returncode < 0 and may_die:
            return None
        if process.returncode:
            raise Fault(refusal(self.folder.name, WORDS, process.returncode, written))
        return self._counts(written)

    def _counts(self, written: bytes) -> Counts:
        """The counts of what the program has written."""
        found, net = Counts(self.net), self.net
        numbers = {net.node_names[node]: node for node in net.origins}
        for node, counts in self.produced.items():
            found.origins[node] = counts, numpy.zeros_like(counts)
        for line in told_totals(written.splitlines(), net.slots):
            if line.kind == "link":
                place = net.place[line.name]
                found.entered[1:, place], found.left[1:, place] = line.counts
            else:
                found.origins[numbers[line.name]][1][1:] = line.counts[0]
        return found

    def spent(self) -> tuple[int, int]:
        return spent_of(self.net, self.counts())

    def _gap(self) -> Gap:
        return told_gap(self.folder.name, self.program)


def spent_of(net: Net, counts: Counts) -> tuple[int, int]:
    """The vehicle time of a loading, in thousandths of a vehicle times ms, and who is not there by the end, as the
    program tells them."""
    standing = counts.entered - counts.left
    waiting = [produced - departed for produced, departed in counts.origins.values()]
    spent = int(standing[1:].sum()) + sum(int(of_node[1:].sum()) for of_node in waiting)
    return spent * net.step, int(standing[-1].sum()) + sum(int(of_node[-1]) for of_node in waiting)
