"""`ltm-tools flows`: what passes each link by interval, and the level of service of approaches."""
from __future__ import annotations

import argparse
from collections.abc import Iterable, Mapping
from decimal import Decimal
from fractions import Fraction

from ..case.clock import start_of
from ..errors import Fault
from ..files import write_text
from ..formats import HOUR_MS, MINUTE_MS, clock_text
from ..listing import FORMATS, Cell, json_number, rounded, text_table, vehicles
from ..loading.flows import Flow, Flows, Span, flows_of
from ..loading.loaded import LoadedCase, loaded
from ..loading.service import Service, Services
from ..case.source import approach_heads, approaches_of, links_or_approaches, parts_of_links
from ..case.streets import read_streets, street_and_id, with_streets
from .arguments import add_case_arguments, add_each_link_argument, add_start_argument, check_every, minutes, write_table

NAME = "flows"
SUMMARY = "count what enters and leaves each link by interval, with mean speed and density, or the level of service"
EXAMPLES = """\
    ltm-tools flows examples/corridor --every 15 --start 7:00
    ltm-tools flows examples/corridor --every 5 --links r8 works -o flows.csv
    ltm-tools flows examples/incident --service

A row has the vehicles that entered a link in an interval and those that left it, exactly as the program counts them;
the mean time, delay and speed of those that left; and the mean number of vehicles on a kilometre. Where nobody left
there is no time. --service lists approaches that a signal or a limit holds: vehicles, delay a vehicle, the letter of
the Highway Capacity Manual (signals: A to 10 s, B 20, C 35, D 55, E 80; signs: A to 10 s, B 15, C 25, D 35, E 50), and
the queue that is not exceeded in 95 % of the interval's slots. docs/COUNTS.md says more.
"""
FIELDS = ("link", "source", "from", "to", "entered", "left", "time_s", "delay_s", "speed_kmh", "density_per_km")
SERVICE_FIELDS = (
    "node",
    "approach",
    "movement",
    "from",
    "to",
    "vehicles",
    "delay_s",
    "control",
    "level",
    "queue95",
    "queue95_m",
    "queue_end",
)
KINDS = {".csv": "csv", ".json": "json", ".geojson": "geojson"}
QUARTER = 15 * MINUTE_MS


def add_arguments(parser: argparse.ArgumentParser) -> None:
    add_case_arguments(parser)
    add_start_argument(parser)
    parser.add_argument(
        "--every",
        metavar="MINUTES",
        type=minutes,
        help="the length of an interval, from slot 0 on (15; with --service 60)",
    )
    parser.add_argument(
        "--links", metavar="LINK", nargs="+", help="show these links alone, by their names in the case or in its source"
    )
    parser.add_argument(
        "--service", action="store_true", help="the level of service of approaches, movements and crossings instead"
    )
    add_each_link_argument(parser)
    parser.add_argument(
        "--format",
        choices=(*FORMATS, "geojson"),
        help="text for people, csv, json or geojson for programs (else as the ending of FILE says, or text)",
    )
    parser.add_argument(
        "-o", "--output", metavar="FILE", default="-", help="the file to write (default: the standard output)"
    )


def run(args: argparse.Namespace) -> int:
    args.format = args.format or next((kind for end, kind in KINDS.items() if args.output.endswith(end)), "text")
    if args.service and args.format == "geojson":
        raise Fault("--service is a table of approaches, and not a map: take --format csv or json")
    start = start_of(args.start, args.case)
    one = loaded(args.case, args.curves, args.program)
    every = args.every or (HOUR_MS if args.service else QUARTER)
    check_every(every, one.case)
    approaches = {} if args.each_link else approaches_of(args.case, one.case.links)
    only = None if args.links is None else links_or_approaches(args.case, one.case.links, args.links, approaches)
    if args.service:
        heads = approach_heads(args.case, one.case.links)
        rows = Services(one.curves, one.case, approaches, heads).table(every, only)
        table, streets = [service_cells(row, start) for row in rows], read_streets(args.case)
        shown = service_text(rows, start, streets)
        write_table(args, *with_streets(SERVICE_FIELDS, table, "approach", streets), shown)
        return 0
    found = flows_of(one.curves, one.case, every, approaches, only)
    write_flows(args, one, found, start)
    return 0


def write_flows(args: argparse.Namespace, one: LoadedCase, found: Flows, start: int) -> None:
    """Writes the flows in the form that is asked for."""
    parts = parts_of_links(args.case, one.case.links)
    if args.format == "geojson":
        told = {name: [told_flow(flow, start) for flow in found.rows[name]] for name in found.rows}
        by_link = {link: told[name] for name, links in found.links.items() for link in links[:1]}
        write_text(args.output, one.case.to_geojson(args.case, rows=by_link))
        return
    rows = [cells(flow, sources(found, parts, flow.name), start) for flow in found.all()]
    streets = read_streets(args.case)
    write_table(args, *with_streets(FIELDS, rows, "link", streets), text(found, start, streets))


def sources(found: Flows, parts: dict[str, list[str]], name: str) -> str:
    """The links of the source that are part of a row's links, with blanks between."""
    return " ".join(dict.fromkeys(part for link in found.links[name] for part in parts.get(link, ())))


def hundredths(number: Fraction | None) -> Decimal | None:
    """A number to the nearest hundredth."""
    return None if number is None else rounded(number.numerator, number.denominator, 2)


def seconds_hundredths(ms: Fraction | None) -> Decimal | None:
    """Milliseconds as seconds, to the nearest hundredth."""
    return None if ms is None else hundredths(ms / 1000)


def when(span: Span, start: int) -> list[Cell]:
    """The clock times of an interval."""
    return [clock_text(start + span.begin), clock_text(start + span.end)]


def numbers(flow: Flow) -> list[Decimal | None]:
    """The numbers of a row: vehicles that entered and left, seconds, km/h, vehicles/km."""
    return [
        vehicles(flow.entered),
        vehicles(flow.left),
        seconds_hundredths(flow.mean_ms),
        seconds_hundredths(flow.delay_ms),
        hundredths(flow.speed_kmh),
        hundredths(flow.density),
    ]


def cells(flow: Flow, source: str, start: int) -> list[Cell]:
    """A row for programs."""
    return [flow.name, source, *when(flow.span, start), *numbers(flow)]


def told_flow(flow: Flow, start: int) -> dict[str, object]:
    """A row for a map, whose `from` and `to` are nodes."""
    begins, ends = when(flow.span, start)
    told = {name: json_number(number) for name, number in zip(FIELDS[4:], numbers(flow))}
    return {"from_time": begins, "to_time": ends, **told}


def text(found: Flows, start: int, streets: Mapping[str, str]) -> str:
    """The table for people."""
    header = ("link", "from", "to", "entered", "left", "time s", "delay s", "km/h", "vehicles/km")
    rows = [[street_and_id(flow.name, streets), *when(flow.span, start), *numbers(flow)] for flow in found.all()]
    return "vehicles by link and interval; time, delay and speed of those that left\n" + text_table(header, rows)


def service_cells(row: Service, start: int) -> list[Cell]:
    """A row of the level of service for programs."""
    return [
        row.node,
        row.approach,
        row.movement,
        *when(row.flow.span, start),
        vehicles(row.flow.left),
        seconds_hundredths(row.flow.delay_ms),
        row.control,
        row.letter,
        None if row.queue is None else vehicles(row.queue),
        None if row.queue_mm is None else rounded(row.queue_mm, 1000, 1),
        vehicles(row.rest),
    ]


def service_text(rows: Iterable[Service], start: int, streets: Mapping[str, str]) -> str:
    """The table of the level of service for people: a block for each crossing."""
    header = (
        "approach",
        "movement",
        "from",
        "to",
        "vehicles",
        "delay s",
        "level",
        "queue 95 %",
        "metres",
        "at the end",
    )
    blocks: dict[str, list[list[Cell]]] = {}
    for row in rows:
        told = service_cells(row, start)
        name = street_and_id(row.approach, streets) if row.approach else "all approaches"
        shown = [name, street_and_id(row.movement, streets), *told[3:7], row.letter or None, *told[9:]]
        blocks.setdefault(f"{row.node} ({row.control or 'no control'})", []).append(shown)
    if not blocks:
        return "no approach has a signal or a limit at its end; --links names some to be listed all the same\n"
    tables = [f"{node}\n{text_table(header, table)}" for node, table in blocks.items()]
    return "vehicles that left, their mean delay, and the queue in vehicles and metres\n\n" + "\n".join(tables)
