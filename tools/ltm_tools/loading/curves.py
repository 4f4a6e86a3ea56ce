"""Curve files, as `ltm curves` writes them: cumulative counts by link, node, destination and boundary.

Counts are thousandths of a vehicle at each boundary, the first before slot 0. They are numpy arrays of int64 where
numpy is installed, and else lists of int. The text of each record is kept as it was read, and becomes numbers when it
is asked for: so a file takes about its own size in memory, and one link of a large file costs next to nothing.
"""
from __future__ import annotations

import os
import sys
from collections.abc import Iterable, Iterator, Sequence
from typing import TYPE_CHECKING

from ..case import Case
from ..case.fields import fetch
from ..case.reading import read_setup
from ..errors import Fault
from ..files import bytes_text, records
from ..formats import CURVES, MOST_COUNT
from ..libraries import pandas_or_fault
from ..listing import json_cell, seconds, vehicles
from . import delay
from .counts import Counts, counts_of, greatest, less, total, zeros

if TYPE_CHECKING:
    import pandas

KINDS = ("up", "down", "dep", "arr")
MARK = b"\xef\xbb\xbf"


class Curves:
    """The counts of a curve file. `step_ms` is the length of a slot, `boundaries` how many counts each curve has."""

    def __init__(self, step_ms: int, boundaries: int, texts: dict[tuple[str, str], dict[str, bytes]]) -> None:
        self.step_ms, self.boundaries = step_ms, boundaries
        self._texts = texts

    @classmethod
    def of_case(cls, folder: str | os.PathLike[str], path: str | os.PathLike[str] | None = None) -> "Curves":
        """The curves of a case: of `curves.csv` in its folder, of another file, or of the standard input where the path
        is `-`."""
        setup = read_setup(fetch(folder, "setup"))
        return cls.read(os.path.join(folder, "curves.csv") if path is None else path, setup.step_ms, setup.slots + 1)

    @classmethod
    def read(cls, path: str | os.PathLike[str], step_ms: int, boundaries: int) -> "Curves":
        """The curves of a file, with as many counts each as there are boundaries."""
        try:
            if os.fspath(path) == "-":
                return cls.of_lines(sys.stdin.buffer, "the input", step_ms, boundaries)
            with open(path, "rb") as file:
                return cls.of_lines(file, os.fspath(path), step_ms, boundaries)
        except OSError as error:
            raise Fault(f"{path}: {error.strerror or error}") from None

    @classmethod
    def of_lines(cls, lines: Iterable[bytes], place: str, step_ms: int, boundaries: int) -> "Curves":
        """The curves that the lines of a curve file tell; `place` is what a Fault calls it."""
        return cls(step_ms, boundaries, _texts_of(_fields(lines, place), place, boundaries))

    @property
    def links(self) -> list[str]:
        """The names of the links, in the order of the case."""
        return [name for kind, name in self._texts if kind == "up"]

    @property
    def nodes(self) -> list[str]:
        """The names of the nodes, in the order of the case."""
        return [name for kind, name in self._texts if kind == "dep"]

    @property
    def destinations(self) -> list[str]:
        """The names of the destinations, in the order of the case."""
        return [name for kind, name in self._texts if kind == "arr"]

    def up(self, link: str, destination: str | None = None) -> Counts:
        """What has entered a link by each boundary, over all destinations or for one."""
        return self.counts("up", link, destination)

    def down(self, link: str, destination: str | None = None) -> Counts:
        """What has left a link by each boundary."""
        return self.counts("down", link, destination)

    def on_link(self, link: str, destination: str | None = None) -> Counts:
        """What stands on a link at each boundary."""
        return less(self.up(link, destination), self.down(link, destination))

    def departed(self, node: str, destination: str | None = None) -> Counts:
        """What has left the origin of a node by each boundary."""
        return self.counts("dep", node, destination)

    def arrived(self, destination: str) -> Counts:
        """What has arrived at a destination by each boundary."""
        return self.counts("arr", destination, destination)

    def all_arrived(self) -> Counts:
        """What has arrived at all destinations by each boundary."""
        ends = [self.arrived(name) for name in self.destinations]
        return total(ends) if ends else zeros(self.boundaries)

    def counts(self, kind: str, name: str, destination: str | None = None) -> Counts:
        """The counts of a kind and name: of one destination, or the sums over all."""
        if not self._texts:  # a case without destinations has a file of the header alone
            return zeros(self.boundaries)
        texts = self._texts.get((kind, name))
        if texts is None:
            raise Fault(f"the curve file has no `{kind}` of {name}")
        if destination is not None and destination not in texts:
            raise Fault(f"the curve file has no `{kind}` of {name} for {destination}")
        chosen = texts.values() if destination is None else [texts[destination]]
        return total([self._numbers(text, kind, name) for text in chosen])

    def _numbers(self, text: bytes, kind: str, name: str) -> Counts:
        counts = counts_of(text)
        if counts is None or len(counts) != self.boundaries or greatest(counts) > MOST_COUNT:
            raise Fault(f"the curve file's `{kind}` of {name} has a count that is no number, or one that is too large")
        return counts

    def told_of_links(self, case: Case, boundary: int | None = None) -> dict[str, dict[str, object]]:
        """What they tell of each link of their case, in vehicles and vehicle seconds; and what stands on it at a
        boundary."""
        told: dict[str, dict[str, object]] = {}
        report = delay.report(self, case)
        for link in case.links:
            up, down, late = self.up(link.name), self.down(link.name), report.links[link.name]
            told[link.name] = {
                "entered": vehicles_number(int(up[-1])),
                "left": vehicles_number(int(down[-1])),
                "storage": vehicles_number(link.storage_units),
                "most_queue": vehicles_number(late.most),
                "most_queue_ms": late.at * self.step_ms,
                "spent": float(json_cell(seconds(late.spent))),
                "queued": float(json_cell(seconds(late.queued))),
            }
            if boundary is not None:
                told[link.name].update(
                    on_link=vehicles_number(int(up[boundary] - down[boundary])),
                    queue=vehicles_number(int(delay.queue(self, link)[boundary])),
                )
        return told

    def to_pandas(self, kinds: Sequence[str] = KINDS, by_destination: bool = False) -> "pandas.DataFrame":
        """A table of the counts, in thousandths of a vehicle: a row for each boundary, its index the milliseconds since
        the start; a column for each kind and name, and for each destination where that is asked for."""
        pandas = pandas_or_fault()
        columns: dict[tuple[str, ...], Counts] = {}
        for (kind, name), texts in self._texts.items():
            if kind not in kinds:
                continue
            if by_destination:
                columns.update({(kind, name, end): self.counts(kind, name, end) for end in texts})
            else:
                columns[kind, name] = self.counts(kind, name)
        frame = pandas.DataFrame(
            columns, index=pandas.RangeIndex(0, self.boundaries * self.step_ms, self.step_ms, name="ms")
        )
        if columns:
            frame.columns.names = ["kind", "name", "destination"][: 2 + by_destination]
        return frame


class Summed(Curves):
    """Curves that keep each sum over destinations, for whom asks for all of them several times; nobody is to change
    one."""

    def __init__(self, of: Curves) -> None:
        super().__init__(of.step_ms, of.boundaries, of._texts)
        self._of = of
        self._sums: dict[tuple[str, str], Counts] = {}

    def all_arrived(self) -> Counts:
        return self._of.all_arrived()

    def counts(self, kind: str, name: str, destination: str | None = None) -> Counts:
        if destination is not None:
            return self._of.counts(kind, name, destination)
        if (kind, name) not in self._sums:
            self._sums[kind, name] = self._of.counts(kind, name)
        return self._sums[kind, name]


def vehicles_number(units: int) -> float:
    """Vehicles, as a number of JSON."""
    return float(json_cell(vehicles(units)))


def _fields(lines: Iterable[bytes], place: str) -> Iterator[list[bytes]]:
    """The fields of each record. Where there are quotes, or line ends other than a newline, the general reader cuts
    them."""
    kept = list(lines)
    if any(b'"' in line or b"\r" in line for line in kept):
        for record in records(b"".join(kept)):
            yield [field.encode("utf-8", "surrogateescape") for field in record.fields]
        return
    kept.reverse()
    first = True
    while kept:  # each line is let go once its fields are cut
        line = kept.pop().rstrip(b"\n")
        if first:
            line, first = line.removeprefix(MARK), False
        if line:
            yield line.split(b",")


def _texts_of(rows: Iterator[list[bytes]], place: str, boundaries: int) -> dict[tuple[str, str], dict[str, bytes]]:
    if [bytes_text(field) for field in next(rows, [])] != list(CURVES):
        raise Fault(f"{place}: the curve file does not begin with {','.join(CURVES)}")
    texts: dict[tuple[str, str], dict[str, bytes]] = {}
    for number, row in enumerate(rows, 2):
        if len(row) != len(CURVES) or bytes_text(row[0]) not in KINDS:
            raise Fault(f"{place} row {number}: it is no record of a curve file")
        kind, name, destination = map(bytes_text, row[:3])
        if row[3].count(b" ") + 1 != boundaries:
            raise Fault(
                f"{place} row {number}: it has {row[3].count(b' ') + 1} counts, and the case has {boundaries}"
                f" boundaries"
            )
        group = texts.setdefault((kind, name), {})
        if destination in group:
            raise Fault(f"{place} row {number}: `{kind}` of {name} for {destination} stands there twice")
        group[destination] = row[3]
    return texts
