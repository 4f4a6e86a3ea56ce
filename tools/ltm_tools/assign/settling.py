"""A session that is told what has changed, and settles that alone: where it takes no more lines another takes its
place."""
from __future__ import annotations

from types import TracebackType

from ..errors import Fault
from ..formats import MOST_LINES, MOST_ROWS_ASKED
from ..loading import answers
from ..loading.counts import counts_of
from ..scenario.batches import in_batches
from ..scenario.edits import Edit, Splits
from ..scenario.open import OpenCase
from .engine import Counts, Engine, case_with, check_size
from .net import Net, Whole
from .shares import Pair, PairRows, RowShares, Shares, split_rows, total_rows


class Settling(Engine):
    """An engine that keeps the history of a loading, and works out anew what a change concerns."""

    MOST_LINES = MOST_LINES  # that a session takes

    def _begin(self, shares: Shares) -> None:
        self.rows = dict(shares.rows())
        self.opened_with = dict(self.rows)
        self.limits: list[Edit] = []  # those that stand beside the case's own
        case_with(self.case, split_rows(self.rows), most=MOST_ROWS_ASKED).write(self.folder.name)
        self.open = OpenCase(self.folder.name, self.program, most_lines=self.MOST_LINES, again=self.standing)

    def __exit__(
        self, kind: type[BaseException] | None, error: BaseException | None, trace: TracebackType | None
    ) -> None:
        try:
            self.open.__exit__(kind, error, trace)
        finally:
            super().__exit__(kind, error, trace)

    @property
    def told(self) -> Shares:
        return RowShares(dict(self.rows))

    def standing(self) -> list[Edit]:
        """The edits that a session lacks which has just been opened."""
        changed = {pair: rows for pair, rows in self.rows.items() if rows != self.opened_with.get(pair)}
        return [*self.limits, *split_edits(changed)]

    def _make(self, edits: list[Edit]) -> None:
        """Has the session make edits, which stand already."""
        batches = list(in_batches(edits))

        def make() -> None:
            for batch in batches:
                self.open.add(batch)

        self.open.tried(make)

    def limit(self, edit: Edit) -> None:
        self.limits.append(edit)
        self._make([edit])

    def tell(self, shares: Shares) -> bool:
        rows = shares.rows()
        check_size(total_rows(rows))
        changed = {pair: of_pair for pair, of_pair in rows.items() if of_pair != self.rows.get(pair)}
        self.rows.update(changed)
        self._make(split_edits(changed))
        return bool(changed)

    def counts(self) -> Counts:
        return self.open.tried(self._counts)

    def _counts(self) -> Counts:
        self.open.settle()
        return shown_counts(self.open, self.net)

    def spent(self) -> tuple[int, int]:
        return self.open.tried(self._spent)

    def _spent(self) -> tuple[int, int]:
        totals = self.open.session.totals()
        return self.open.session.delay().spent, totals.on_links + totals.waiting

    def _gap(self) -> answers.Gap:
        return self.open.tried(lambda: self.open.session.gap())


def shown_counts(open_case: OpenCase, net: Net) -> Counts:
    """The counts of the loading that is shown, of all links and origins."""
    found = Counts(net)
    for place, name in enumerate(net.names):
        answer = open_case.session.answer(do="curve", link=name)
        found.entered[:, place], found.left[:, place] = both_counts(answer, "out", net)
    for node in net.origins:
        answer = open_case.session.answer(do="departures", node=net.node_names[node])
        found.origins[node] = both_counts(answer, "left", net)
    return found


def both_counts(answer: str, word: str, net: Net) -> tuple[Whole, Whole]:
    """The two rows of counts of an answer to `curve` or `departures`, the second behind a word."""
    first, second = answers.both_texts(answer.encode(), word.encode())
    found = counts_of(first), counts_of(second)
    if any(counts is None or len(counts) != net.slots + 1 for counts in found):
        raise Fault(f"the program answers {answer[:60]!r}, which is no curve of {net.slots + 1} boundaries")
    return found[0], found[1]  # type: ignore[return-value]


def split_edits(rows: dict[Pair, PairRows]) -> list[Edit]:
    """Edits that set these rows."""
    return [Splits(node, end, tuple(of_pair)) for (node, end), of_pair in rows.items()]
