"""Tables of counts and travel times, as people have them: plain tables, and those of SUMO and DTALite.

Times of plain tables are clock times, or seconds after the beginning of slot 0; those of SUMO's files are its own,
which count from midnight. The format of DTALite's `measurement.csv` is from memory, and was not checked against a copy.
"""
from __future__ import annotations

from collections.abc import Callable, Iterator, Mapping, Sequence
from dataclasses import dataclass, field, replace
from fractions import Fraction
from pathlib import Path
from typing import TYPE_CHECKING

from ..errors import Fault
from ..files import shown
from ..formats import LONGEST_SECONDS, MINUTE_MS, clock_ms, counted, exact_or_none
from ..loading.flows import Span
from ..case.source import Source
from ..sumo.net import elements, number_attribute
from ..tables import Reading, Stream, TableRow
from .counts import ENTRY, EXIT, FIT, HOLD, Count, Placing, CountRow, Timed, placed, root_of

if TYPE_CHECKING:
    import xml.etree.ElementTree as ElementTree

NAMES: Mapping[str, Sequence[str]] = {
    "link": ("link_id", "edge_id", "edge", "road_link_id"),
    "from": ("begin", "interval_begin", "start", "from_time", "start_time"),
    "to": ("until", "interval_end", "to_time", "end_time"),
    "vehicles": ("count", "volume", "counts", "obs_count", "edge_entered"),
}
TIMES: Mapping[str, Sequence[str]] = {"departs": ("from", "depart"), "seconds": ("time", "travel_time")}
DETECTORS: Mapping[str, Sequence[str]] = {"detector": ("id", "detector_id"), "link": ("edge", "link_id", "edge_id")}
XML_ENDINGS = (".xml", ".xml.gz")
MOST_NAMED = 5  # links that are not in the case


@dataclass
class CountsReading:
    """How counts are read: when slot 0 begins in ms since midnight, the table of SUMO's detectors, the span of tables
    without times, how tables are read, and the error of counts that have none of their own, as a part of them and in
    vehicles. `notes` says what was done."""

    start: int
    source: Source
    detectors: str | None = None
    span: Span | None = None
    reading: Reading = Reading()
    error: tuple[Fraction, Fraction] | None = None
    notes: list[str] = field(default_factory=list)

    def with_error(self, count: Count) -> Count:
        """A count with the error that is asked for, where it has none of its own."""
        if self.error is None or count.error is not None:
            return count
        part, least = self.error
        return replace(count, error=root_of((part * count.vehicles) ** 2 + least * least))

    def rows(self, path: str) -> Iterator[CountRow]:
        """The rows of a file of counts, whatever its kind."""
        if path.endswith(XML_ENDINGS):
            yield from self.edge_data(Path(path))
            return
        stream = Stream(path, (), {}, self.reading)
        self.notes += stream.notes
        fields = stream.fields
        if "detector" in fields and {"qpkw", "time"} <= {*fields}:
            yield from self.detected(stream)
        elif {"from_node_id", "to_node_id"} <= {*fields} and not {"link", "link_id"} & {*fields}:
            yield from self.measured(stream)
        else:
            stream.close()
            yield from self.plain(path)

    def moment(self, row: TableRow, name: str) -> int:
        """A time of a plain table in ms after slot 0: a clock time, or seconds after it."""
        text = row.text(name)
        if ":" in text:
            try:
                return clock_ms(text) - self.start
            except Fault:
                raise row.fault(name, "expected a clock time, as 7:45, or seconds after slot 0") from None
        return milliseconds(exact_or_none(text), lambda rule: row.fault(name, rule))

    def plain(self, path: str) -> Iterator[CountRow]:
        """A table with `link,from,to,vehicles`, or GMNS's names of these."""
        head = Stream(path, (), NAMES, self.reading)
        head.close()
        names = dict(NAMES)
        if "to" not in head.fields and "end" in head.fields:
            names["to"] = (*NAMES["to"], "end")
        timed = self.span is None or "from" in head.fields
        wanted = ("link", "from", "to", "vehicles") if timed else ("link", "vehicles")
        for row in Stream(path, wanted, names, self.reading):
            link = row.text("link")
            end = place_on_link(row)
            span = Span(self.moment(row, "from"), self.moment(row, "to")) if timed else self.span
            assert span is not None
            name = row.text("place", f"{link} {end}" if end != ENTRY else link)
            error = None if not row.fields.get("error", "").strip() else row.number("error")
            if error is not None and error <= 0:
                raise row.fault("error", "expected an error above 0, in vehicles")
            yield CountRow(row.place, name, link, end, span, vehicles_of(row, "vehicles"), error, use_of(row))

    def edge_data(self, path: Path) -> Iterator[CountRow]:
        """SUMO's edgeData: `entered` with those that departed on the edge, else `left` with those that arrived, else
        `count`."""
        for element in elements(path):
            if element.tag != "interval":
                continue
            place = f"{path}, interval {element.get('begin', '')}"
            begin, end = (
                milliseconds(number_attribute(element, name, place), Fault) - self.start for name in ("begin", "end")
            )
            for edge in element.iter("edge"):
                name = edge.get("id", "")
                counted = edge_count(edge, f"{place}, edge {name}")
                if counted is not None and not name.startswith(":"):
                    yield CountRow(f"{place}, edge {name}", name, name, counted[0], Span(begin, end), counted[1])

    def detected(self, stream: Stream) -> Iterator[CountRow]:
        """SUMO's table of detectors, with times in minutes: the counts of the detectors of a link are summed. An
        interval is as long as the shortest time between two."""
        if self.detectors is None:
            raise Fault(f"{stream.path}: this is a table of detectors; --detectors says on which link each stands")
        links = detector_links(self.detectors, self.reading)
        found: list[tuple[TableRow, str, int]] = []
        for row in stream:
            name = row.text("detector")
            if name not in links:
                raise row.fault("detector", f"{self.detectors} has no such detector")
            found.append((row, name, milliseconds(60 * row.number("time"), lambda rule: row.fault("time", rule))))
        moments = sorted({moment for _, _, moment in found})
        every = self.every_of(stream, moments)
        self.notes.append(f"{stream.path}: intervals of {Fraction(every, MINUTE_MS)} minutes, by the times in it")
        for row, name, moment in found:
            vehicles = vehicles_of(row, "qpkw")
            if vehicles is not None and "qlkw" in stream.fields:
                vehicles += vehicles_of(row, "qlkw") or 0
            begin, (link, end) = moment - self.start, links[name]
            yield CountRow(f"{row.place} ({name})", link, link, end, Span(begin, begin + every), vehicles, lane=name)

    def every_of(self, stream: Stream, moments: Sequence[int]) -> int:
        """How long an interval of a table of detectors is."""
        if len(moments) > 1:
            return min(after - before for before, after in zip(moments, moments[1:]))
        if self.span is None:
            raise Fault(f"{stream.path}: all rows have one time, so --span is to say how long an interval is")
        return self.span.end - self.span.begin

    def measured(self, stream: Stream) -> Iterator[CountRow]:
        """DTALite's `measurement.csv`: counts of links by their nodes. Rows of other types are passed over."""
        if self.span is None:
            raise Fault(f"{stream.path}: it has no times; --span FROM TO says when was counted, as --span 7:00 8:00")
        by_nodes: dict[tuple[str, str], list[str]] = {}
        for name, link in self.source.links.items():
            by_nodes.setdefault((link.tail, link.head), []).append(name)
        counted = next((name for name in ("count", "count1", "obs_count", "volume") if name in stream.fields), "count")
        passed_over = 0
        for row in stream:
            if row.text("measurement_type", "link").lower() != "link":
                passed_over += 1
                continue
            ends = row.text("from_node_id").removesuffix(".0"), row.text("to_node_id").removesuffix(".0")
            names = by_nodes.get(ends, [f"from {ends[0]} to {ends[1]}"])
            if len(names) > 1:
                raise Fault(f"{row.place}: {' and '.join(names)} lead from {ends[0]} to {ends[1]}; name the link")
            yield CountRow(row.place, names[0], names[0], ENTRY, self.span, vehicles_of(row, counted))
        if passed_over:
            self.notes.append(f"{stream.path}: {passed_over} rows that are of no link are left out")


def milliseconds(seconds: Fraction | None, fault: Callable[[str], Fault]) -> int:
    """Seconds in ms; a Fault where there are none, or too many, or a part of a ms."""
    if seconds is None or abs(seconds) > LONGEST_SECONDS:
        raise fault("expected a clock time, as 7:45, or seconds after slot 0")
    ms = seconds * 1000
    if ms.denominator != 1:
        raise fault("expected a time of whole milliseconds")
    return ms.numerator


def vehicles_of(row: TableRow, name: str) -> Fraction | None:
    """The vehicles of a field that are not below 0; None where it is empty."""
    if not row.fields.get(name, "").strip():
        return None
    vehicles = row.number(name)
    if vehicles < 0:
        raise row.fault(name, "a count is not below 0; leave it empty where nothing was counted")
    return vehicles


def use_of(row: TableRow) -> str:
    """What a row is for: to be fitted, or to be held out."""
    use = row.text("use", FIT).lower()
    if use not in (FIT, HOLD):
        raise row.fault("use", "expected fit or hold")
    return use


def place_on_link(row: TableRow) -> str:
    """Where on its link a row counts: `entry`, `exit`, or metres from the entry."""
    text = row.text("end", ENTRY).lower()
    if text in (ENTRY, EXIT):
        return text
    metres = exact_or_none(text)
    if metres is None or metres < 0:
        raise row.fault("end", "expected entry, exit, or metres from the entry")
    return str(metres)


def edge_count(edge: ElementTree.Element, place: str) -> tuple[str, Fraction] | None:
    """The end of an edge at which its data counts, and how many; None where it has no count."""
    for name, more, end in (("entered", "departed", ENTRY), ("left", "arrived", EXIT), ("count", "", ENTRY)):
        if edge.get(name) is not None:
            vehicles = number_attribute(edge, name, place)
            if more and edge.get(more) is not None:
                vehicles += number_attribute(edge, more, place)
            if vehicles < 0:
                raise Fault(f"{place}: {name} is {shown(edge.get(name, ''))}: a count is not below 0")
            return end, vehicles
    return None


def detector_links(path: str, reading: Reading) -> dict[str, tuple[str, str]]:
    """The link of each detector, and the end or place on it: of a table `detector,link[,end]`, or of SUMO's own file,
    whose detectors stand on lanes, at the entry."""
    links: dict[str, tuple[str, str]] = {}
    if path.endswith(XML_ENDINGS):
        for element in elements(Path(path)):
            name, lane = element.get("id"), element.get("lane")
            if name is not None and lane is not None:
                links[name] = lane.rpartition("_")[0], ENTRY
    else:
        for row in Stream(path, ("detector", "link"), DETECTORS, reading):
            links[row.text("detector")] = row.text("link"), place_on_link(row)
    if not links:
        raise Fault(f"{path}: no detector stands in it; expected detector,link or SUMO's file of detectors")
    return links


def read_counts(
    paths: Sequence[str], reader: CountsReading, placing: Placing, leave_out: bool = False
) -> tuple[list[Count], list[str]]:
    """The counts of all tables, and what is to be said of reading them."""
    rows = [row for path in paths for row in reader.rows(path)]
    counts = [reader.with_error(count) for count in placed(rows, placing, leave_out)]
    if placing.left_out:
        names = ", ".join(list(placing.left_out)[:MOST_NAMED])
        reader.notes.append(f"counts of {counted(len(placing.left_out), 'link')} that the case has not: {names}")
    missing = len({(row.name, row.span) for row in rows if row.vehicles is None})
    if missing:
        reader.notes.append(f"{counted(missing, 'count')} left empty, which are no counts of 0")
    if not counts:
        raise Fault(f"{' '.join(paths)}: no count of a link of this case")
    return counts, reader.notes


def read_times(path: str, start: int, source: Source, reading: Reading = Reading()) -> list[Timed]:
    """The measured times of a table `route,departs,seconds`: links with blanks between, of the case or of its source;
    when one departs; and the time."""
    found = []
    reader = CountsReading(start, source, reading=reading)
    for row in Stream(path, ("route", "departs", "seconds"), TIMES, reading):
        links = tuple(row.text("route").split())
        unknown = [name for name in links if name not in source.links]
        if unknown:
            raise row.fault("route", f"{unknown[0]} is no link of the case, nor of its source")
        seconds, error = row.number("seconds"), None
        if row.fields.get("error", "").strip():
            error = row.number("error")
        if seconds <= 0 or (error is not None and error <= 0):
            raise row.fault("seconds" if seconds <= 0 else "error", "expected a number of seconds above 0")
        name = row.text("place", " ".join(links))
        found.append(Timed(name, links, reader.moment(row, "departs"), seconds, error, use_of(row), row.place))
    return found
