"""`ltm-tools validate`: how well a loading meets counts and measured travel times."""
from __future__ import annotations

import argparse
import sys
from collections.abc import Mapping, Sequence
from decimal import Decimal
from fractions import Fraction

from ..case.clock import start_of
from ..case.streets import read_streets
from ..counting.counts import FIT, Placing
from ..counting.doubts import doubts
from ..counting.loaded import all_counted, all_timed
from ..counting.measures import WANTED_PART, Fit, percent
from ..counting.reading import CountsReading, read_counts, read_times
from ..counting.result import FIELDS, cells
from ..counting.validating import Met, MetTime, Validation
from ..errors import Fault
from ..files import write_text
from ..formats import clock_text
from ..listing import Cell, csv_text, rounded, text_table
from ..loading.flows import Span
from ..loading.loaded import loaded
from .arguments import (
    add_case_arguments,
    add_counts_arguments,
    add_start_argument,
    add_table_arguments,
    reading_of,
)

NAME = "validate"
SUMMARY = "compare a loading with counts and measured travel times: GEH, RMSN, R2, screen lines, the worst counts"
EXAMPLES = """\
    ltm-tools validate examples/corridor --counts counts.csv --start 7:00
    ltm-tools validate CASE --counts counts.csv --times times.csv -o fit.csv
    ltm-tools validate CASE --counts edges.xml --leave-out-unknown
    ltm-tools validate CASE --counts measured.csv --detectors detectors.csv

counts.csv has link,from,to,vehicles and may have place, end, error and use; times.csv has route,departs,seconds. Links
are those of the case or of its source; times are clock times, or seconds after slot 0. Also read: SUMO's edgeData
(.xml), its tables of detectors, and DTALite's measurement.csv with --span. docs/COUNTS.md says more.
"""
MOST_WORST = 5


def add_arguments(parser: argparse.ArgumentParser) -> None:
    add_case_arguments(parser)
    add_start_argument(parser)
    add_counts_arguments(parser)
    add_table_arguments(parser)
    parser.add_argument("-o", "--output", metavar="FILE", help="write a row for each count there, as CSV")


def run(args: argparse.Namespace) -> int:
    start = start_of(args.start, args.case)
    one = loaded(args.case, args.curves, args.program)
    placing = Placing.read(args.case, one.case)
    counts, notes = read_counts(args.counts, reader_of(args, start, placing), placing, args.leave_out_unknown)
    found = all_counted(counts, one.curves, one.case)
    met = tuple(Met(count, units) for count, units in zip(counts, found))
    times: list[MetTime] = []
    if args.times is not None:
        timed = read_times(args.times, start, placing.source, reading_of(args))
        seconds = all_timed(timed, one.curves, one.case, args.case)
        times = [MetTime(one_time, took) for one_time, took in zip(timed, seconds)]
    told = Validation(met, tuple(times))
    lines, report = (*notes, *doubts(met, one.case, one.curves, start)), text(told, start, read_streets(args.case))
    if args.output is not None:
        write_text(args.output, csv_text(FIELDS, [cells(row, start) for row in met]))
    for line in lines:
        print(line, file=sys.stderr)
    if args.output != "-":
        sys.stdout.write(report)
    return 0


def reader_of(args: argparse.Namespace, start: int, placing: Placing) -> CountsReading:
    """How counts are read, by the options."""
    span = None if args.span is None else Span(args.span[0] - start, args.span[1] - start)
    error = None if args.count_error is None else (args.count_error[0] / 100, args.count_error[1])
    if error is not None and not error[1]:
        raise Fault("--count-error has 0 vehicles: expected a number above 0, as a count may be 0")
    return CountsReading(start, placing.source, args.detectors, span, reading_of(args), error)


def text(told: Validation, start: int, streets: Mapping[str, str]) -> str:
    """The report for people."""
    parts = [fits(told)]
    if lines := told.lines():
        parts.append(screen_lines(told, len(lines)))
    if told.times:
        parts.append(travel_times(told, start))
    parts.append(worst(told, start, streets))
    return "\n".join(parts)


def worst(told: Validation, start: int, streets: Mapping[str, str]) -> str:
    """The table of the worst counts."""
    rows = [worst_row(one, start, streets) for one in told.worst(MOST_WORST)]
    return "the worst counts\n" + text_table(("place", "from", "to", "counted", "loaded", "GEH", "row"), rows)


def fits(told: Validation) -> str:
    """The table of measures: by hour and by count, for counts to fit and those held out."""
    rows: list[list[Cell]] = []
    for use in told.uses:
        name = "" if told.uses == [FIT] else f", {use}"
        hours, spans = told.by_hour(use), told.by_span(use)
        if hours is not None:
            rows.append([f"by hour{name}", *fit_cells(hours)])
        if spans is not None:
            misfit = told.misfit(use)
            assert misfit is not None
            rows.append([f"by count{name}", *fit_cells(spans)])
    header = ("", "counts", "GEH < 5", "< 10", "in band", "RMSN", "slope", "R2", "total", "GEH of total")
    wanted = percent(WANTED_PART).normalize()
    foot = f"wanted: GEH below 5, and flows in their band, at {wanted} % by hour; slope 0.9 to 1.1, R2 above 0.95\n"
    return text_table(header, rows) + foot


def fit_cells(fit: Fit) -> list[Cell]:
    """The measures of a fit: shares in per cent, and how far the sum of all flows is off."""
    off = None if not fit.counted else percent((fit.modelled - fit.counted) / fit.counted)
    return [
        fit.count,
        f"{percent(fit.below_5)} %",
        f"{percent(fit.below_10)} %",
        f"{percent(fit.in_band)} %",
        None if fit.rmsn is None else f"{fit.rmsn} %",
        decimals(fit.slope, 3),
        decimals(fit.r2, 3),
        None if off is None else f"{off:+} %",
        fit.total_geh,
    ]


def decimals(number: Fraction | None, places: int) -> Decimal | None:
    """A number with so many decimals."""
    return None if number is None else rounded(number.numerator, number.denominator, places)


def screen_lines(told: Validation, number: int) -> str:
    """The table of screen lines."""
    lines = told.lines()
    rows: list[list[Cell]] = [
        [
            line.name,
            decimals(line.counted, 1),
            decimals(line.modelled, 1),
            None if not line.counted else f"{percent((line.modelled - line.counted) / line.counted):+} %",
            "yes" if line.is_met else "no",
        ]
        for line in lines
    ]
    met = sum(line.is_met for line in lines)
    return f"screen lines within 5 %: {met} of {number}\n" + text_table(
        ("place", "counted", "loaded", "off", "within"), rows
    )


def travel_times(told: Validation, start: int) -> str:
    """The table of travel times."""
    met = sum(one.is_met for one in told.times)
    rows: list[list[Cell]] = [
        [
            one.timed.name,
            clock_text(start + one.timed.departs),
            decimals(one.timed.seconds, 1),
            "none" if one.seconds is None else decimals(one.seconds, 1),
            "yes" if one.is_met else "no",
        ]
        for one in told.times
    ]
    head = f"travel times within 15 %, or a minute: {met} of {len(told.times)}; in seconds\n"
    return head + text_table(("route", "departs", "measured", "loaded", "within"), rows)


def worst_row(one: Met, start: int, streets: Mapping[str, str]) -> Sequence[Cell]:
    """A row of the worst counts, a place on a single link by its street."""
    count = one.count
    links = list(dict.fromkeys(point.link for point in count.points))
    street = streets.get(links[0], "") if len(links) == 1 else ""
    return [
        f"{street} ({count.name})" if street else count.name,
        clock_text(start + count.span.begin),
        clock_text(start + count.span.end),
        decimals(count.vehicles, 3),
        rounded(one.units, 1000, 3),
        one.pair.geh,
        count.row.rpartition("/")[2],
    ]
