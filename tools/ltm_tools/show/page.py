"""A loading as one HTML file to look at in a browser."""
from __future__ import annotations

import array
import base64
import html
import re
import sys
from collections.abc import Iterable, Mapping, Sequence
from fractions import Fraction
from pathlib import Path

from ..case import Case
from ..case.places import Places
from ..case.source import approaches_of
from ..errors import Fault
from ..files import read_text
from ..libraries import D3, d3_place, is_d3, lack_of
from ..listing import TimeUnit, percent, time_unit, vehicles
from ..loading import delay
from ..loading.answers import Gap
from ..loading.counts import Counts, as_list, total
from ..loading.loaded import LoadedCase
from ..loading.queues import Queue, queues
from .network import numbered, placed_networks, told_network
from .scripts import joined_scripts, json_of, modules

WEB = Path(__file__).resolve().parent / "web"


def find_d3(named: str | None = None) -> str:
    """The text of the library d3, version 5 to 7; a Fault that says how to have it."""
    place = d3_place() if named is None else named
    if place is None:
        raise Fault(lack_of([D3]))
    text = read_text(place)
    if not is_d3(place):
        raise Fault(f"{place} is not d3.min.js of version 5 to 7")
    return text.rstrip()


def packed_flows(rows: list[Counts]) -> str:
    """What passes in each slot, row by row, two bytes each, in base 64. In a loading no more than 32,000 units pass in
    a slot."""
    packed = array.array("H")
    for counts in rows:
        found = as_list(counts)
        packed.extend([after - before for before, after in zip(found, found[1:])])
    if sys.byteorder == "big":
        packed.byteswap()
    return base64.b64encode(packed.tobytes()).decode("ascii")


def told_case(
    one: LoadedCase,
    folder: str,
    name: str,
    start: int,
    least: int,
    places: Places,
    bent: bool,
    unit: TimeUnit,
    each_link: bool,
    misfits: Mapping[str, Fraction],
    savings: Mapping[str, int],
) -> dict[str, object]:
    """All that the page has to know of a loading."""
    case, curves = one
    approaches = {} if each_link else approaches_of(folder, case.links)
    number = {node: index for index, node in enumerate(case.nodes)}
    both = [delay.checked_curves(curves, link) for link in case.links]
    rows = delay.demand_by_origin(case)
    return {
        "name": name,
        "step": curves.step_ms,
        "slots": curves.boundaries - 1,
        "start": start,
        **told_network(folder, case, places, bent),
        "origins": [
            {"name": node, "node": number[node], "demand": [[row.from_slot, row.to_slot, row.units] for row in of]}
            for node, of in rows.items()
        ],
        "capacities": [float(link.passing(curves.step_ms, case.setup.carry)) for link in case.links],
        "misfits": told_misfits(case, misfits),
        "savings": told_savings(case, savings),
        "entered": packed_flows([up for up, _ in both]),
        "left": packed_flows([down for _, down in both]),
        "departed": packed_flows([departed(one, node) for node in rows]),
        "queues": [told_queue(queue, unit) for queue in queues(curves, case, least)],
        **(
            {
                "joined": [told_queue(queue, unit) for queue in queues(curves, case, least, approaches)],
                "approaches": numbered(case, approaches),
            }
            if approaches
            else {}
        ),
    }


def told_misfits(case: Case, misfits: Mapping[str, Fraction]) -> dict[str, float]:
    """By the numbers of links by how many per cent more is loaded than was counted."""
    number = numbers_of(case, misfits, "fit")
    return {number[name]: float(percent(part.numerator, part.denominator)) for name, part in misfits.items()}


def told_savings(case: Case, savings: Mapping[str, int]) -> dict[str, float]:
    """By the numbers of links the total travel time that more capacity saves, in the unit for all of them."""
    number, unit = numbers_of(case, savings, "table of worths"), time_unit(*savings.values())
    return {number[name]: float(unit.show(time)) for name, time in savings.items()}


def numbers_of(case: Case, names: Iterable[str], table: str) -> dict[str, str]:
    """The numbers of links by name; a Fault where a table names one that the case does not have."""
    number = {link.name: str(index) for index, link in enumerate(case.links)}
    unknown = [name for name in names if name not in number]
    if unknown:
        raise Fault(f"the {table} is not of this case: it has no link {unknown[0]}")
    return number


def departed(one: LoadedCase, node: str) -> Counts:
    """What has left an origin; a Fault where that cannot be of a loading."""
    counts = one.curves.departed(node)
    delay.check_curve(counts, f"what has left the origin {node}")
    return counts


def told_queue(queue: Queue, unit: TimeUnit) -> dict[str, object]:
    """A queue for the page's table."""
    share = None if queue.storage is None else float(percent(queue.worst, queue.storage))
    return {
        "kind": queue.kind,
        "name": queue.name,
        "first": queue.first,
        "last": queue.last,
        "lasts": queue.lasts,
        "worst": queue.worst,
        "at": queue.at,
        "share": share,
        "delay": queue.delay,
        "told": format(unit.show(queue.delay), "f"),
    }


def page_totals(one: LoadedCase, told: delay.Report, gap: Gap | None, unit: TimeUnit) -> list[tuple[str, str]]:
    """The numbers above the map, the gap with them where it was asked for."""
    arrived = int(one.curves.all_arrived()[-1])
    times = [("spent", told.spent), ("queued", told.queued), ("waited", told.waited)]
    times += [("least", gap.least), ("gap", gap.gap)] if gap else []
    return [(f"{name}, {unit.name}", format(unit.show(time), "f")) for name, time in times] + [
        ("arrived, vehicles", format(vehicles(arrived), "f"))
    ]


def busiest(one: LoadedCase) -> int:
    """The boundary at which most stand in queues of links."""
    counts = [delay.queue(one.curves, link) for link in one.case.links]
    return delay.most(total(counts))[1] if counts else 0


def page(
    both: list[LoadedCase],
    folders: list[str],
    names: list[str],
    start: int,
    least: int,
    title: str,
    library: str,
    each_link: bool = False,
    gaps: Sequence[Gap | None] = (None, None),
    story: Mapping[str, object] | None = None,
    misfits: Mapping[str, Fraction] | None = None,
    savings: Mapping[str, int] | None = None,
) -> str:
    """The text of the page; links that were cut before a crossing are told with their turns, or with `each_link` each
    by itself alone. The `story` of a scenario beside its base has what was changed and the effect, as a live map shows
    them. `misfits` are of the links of the first case, in parts of what was counted; `savings` what more of their
    capacity saves of the total travel time, in units times ms."""
    places, bent = placed_networks(folders, [one.case for one in both])
    reports = [delay.report(one.curves, one.case) for one in both]
    unit = time_unit(*(report.spent for report in reports))
    cases = [
        told_case(
            one,
            folders[index],
            name,
            start,
            least,
            places[index],
            bent,
            unit,
            each_link,
            misfits or {} if not index else {},
            savings or {} if not index else {},
        )
        for index, (one, name) in enumerate(zip(both, names))
    ]
    for case, one, report, gap in zip(cases, both, reports, gaps):
        case["totals"] = page_totals(one, report, gap, unit)
    told = {
        "title": title,
        "least": format(vehicles(least), "f"),
        "unit": unit.name,
        "savings": time_unit(*(savings or {}).values()).name,
        "boundary": busiest(both[0]),
        "cases": cases,
        "story": story,
    }
    styles = "".join(read_text(WEB / name) for name in ("shared.css", "page.css"))
    parts = {
        "TITLE": html.escape(title),
        "STYLE": styles,
        "DATA": json_of(told).replace("<", "\\u003c"),
        "LIBRARY": library.replace("</script", "<\\/script"),
        "SCRIPT": joined_scripts(modules("page.js", [WEB])),
    }
    return re.sub("@([A-Z]+)@", lambda found: parts[found[1]], read_text(WEB / "page.html"))
