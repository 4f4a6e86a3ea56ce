"""Pictures of a network, and of two cases side by side, by matplotlib: a path by share of storage, a map at a time, the
cumulative curves of a path. Times are clock times."""
from __future__ import annotations

import math
from collections.abc import Callable, Mapping, Sequence
from fractions import Fraction
from typing import TYPE_CHECKING, Any

from ..case import Link
from ..case.places import Line, Place, Places, read_places
from ..case.streets import street_and_id
from ..errors import Fault
from ..formats import MINUTE_MS, clock_text
from ..listing import time_unit
from ..loading import delay
from ..loading.counts import Counts, float_vehicles
from ..loading.loaded import LoadedCase
from ..loading.times import path_links
from . import layout
from .texts import plain

if TYPE_CHECKING:
    from matplotlib.axes import Axes
    from matplotlib.figure import Figure

NO_STREETS: Mapping[str, str] = {}
NICE_MINUTES = (1, 2, 5, 10, 15, 30, 60, 120, 180, 360, 720, 1440)
MOST_NAMED = 40  # nodes, whose names are drawn
COLOURS = "YlOrRd"
MOST_MISFIT = 30  # per cent, at the ends of the colours
LEAST_PERCENT = 1  # of a queue that is coloured on a map
BENT_STEPS = 20
MOST_MITRE = 2.5  # how far out the corner of a line beside another lies at most, over how far it is beside


def clock_axis(axes: "Axes", start: int, last: int) -> None:
    """Clock times below an axis in ms since midnight, from the start to the last moment."""
    from matplotlib.ticker import FuncFormatter, MultipleLocator

    axes.set_xlim(start, last)
    every = (
        next((each for each in NICE_MINUTES if (last - start) / (each * MINUTE_MS) <= 8), NICE_MINUTES[-1]) * MINUTE_MS
    )
    if last - start < 2 * MINUTE_MS:
        every = max(1, (last - start) // 4)
    axes.xaxis.set_major_locator(MultipleLocator(every))
    axes.xaxis.set_major_formatter(FuncFormatter(lambda ms, _: clock_text(round(ms))))
    axes.set_xlabel("time")


def moments(one: LoadedCase, start: int) -> list[int]:
    """The boundaries in ms since midnight."""
    return [start + k * one.curves.step_ms for k in range(one.curves.boundaries)]


def occupancy(one: LoadedCase, names: Sequence[str]) -> list[list[float]]:
    """For each link and slot the mean of what stands there at the slot's beginning and at its end, in percent of what
    the link stores."""
    rows = []
    for link in path_links(one.case.links, names):
        on = [int(count) for count in one.curves.on_link(link.name)]
        rows.append([50 * (a + b) / link.storage_units for a, b in zip(on, on[1:])])
    return rows


def draw_shares(
    plot: Any,
    both: Sequence[LoadedCase],
    titles: Sequence[str],
    names: Sequence[str],
    start: int,
    streets: Mapping[str, str] = NO_STREETS,
) -> "Figure":
    """Time to the right, the way upwards, and as colour how full each link is, by its street where that has a name; two
    cases side by side with one scale."""
    figure, found = plot.subplots(
        1, len(both), figsize=(2 + 6.5 * len(both), 5.5), layout="constrained", squeeze=False, sharey=True
    )
    for axes, one, title in zip(found[0], both, titles):
        path, times = path_links(one.case.links, names), moments(one, start)
        ends = [0.0]
        for link in path:
            ends.append(ends[-1] + link.length_m / 1000)
        mesh = axes.pcolormesh(times, ends, occupancy(one, names), cmap=COLOURS, vmin=0, vmax=100, rasterized=True)
        axes.hlines(ends[1:-1], times[0], times[-1], color="white", linewidth=0.8)
        axes.set_title(plain(title))
        clock_axis(axes, times[0], times[-1])
        by_name = axes.secondary_yaxis("right")
        by_name.set_yticks([(a + b) / 2 for a, b in zip(ends, ends[1:])], labels(path, streets))
        by_name.tick_params(length=0)
    found[0][0].set_ylabel(f"km from {path_links(both[0].case.links, names)[0].tail}")
    figure.colorbar(mesh, ax=list(found[0]), label="vehicles on the link, in percent of what it stores", pad=0.02)
    return figure


def labels(path: Sequence[Link], streets: Mapping[str, str]) -> list[str]:
    """The links of a path as people know them, for a picture."""
    return [plain(street_and_id(link.name, streets)) for link in path]


def draw_newell(
    plot: Any, one: LoadedCase, names: Sequence[str], start: int, streets: Mapping[str, str] = NO_STREETS
) -> "Figure":
    """How many vehicles have passed each point of a path: sideways between two curves is the time between the points,
    upwards what is between them. What was produced at the path's origin stands above."""
    path, times = path_links(one.case.links, names), moments(one, start)
    figure, axes = plot.subplots(figsize=(9, 6), layout="constrained")
    rows = delay.demand_by_origin(one.case).get(path[0].tail)
    if rows:
        axes.plot(
            times,
            float_vehicles(delay.produced(rows, one.curves.boundaries)),
            color="#7a1fa2",
            linestyle="--",
            label=f"produced at {path[0].tail}",
        )
    shown = labels(path, streets)
    points: list[tuple[str, Counts]] = [(f"entered {shown[0]}", one.curves.up(path[0].name))]
    points += [(f"left {label}", one.curves.down(link.name)) for label, link in zip(shown, path)]
    colours = plot.get_cmap("viridis")
    for place, (label, counts) in enumerate(points):
        axes.plot(times, float_vehicles(counts), color=colours(0.92 * place / max(1, len(points) - 1)), label=label)
    axes.set_title(f"Vehicles past each point, from {path[0].tail} to {path[-1].head}")
    axes.set_ylabel("vehicles since the start")
    axes.set_ylim(bottom=0)
    axes.grid(alpha=0.25)
    axes.legend(loc="upper left", frameon=False, fontsize="small", ncols=1 + len(points) // 12)
    clock_axis(axes, times[0], times[-1])
    return figure


def draw_map(
    plot: Any, both: Sequence[LoadedCase], folders: Sequence[str], titles: Sequence[str], boundary: int, start: int
) -> "Figure":
    """The network at a boundary, each link coloured by its queue in percent of what it stores; two cases side by
    side."""
    from matplotlib.collections import LineCollection

    if not all(one.case.links for one in both):
        raise Fault("there is nothing to draw: the case has no link")
    figure, found = plot.subplots(1, len(both), figsize=(2 + 6 * len(both), 6), layout="constrained", squeeze=False)
    for axes, one, folder, title in zip(found[0], both, folders, titles):
        queues = [
            int(delay.queue(one.curves, link)[min(boundary, one.curves.boundaries - 1)]) for link in one.case.links
        ]
        parts = [100 * queue / link.storage_units for queue, link in zip(queues, one.case.links)]
        at, lines = roads(one, folder)
        axes.add_collection(LineCollection(lines, colors="#c3ccd5", linewidths=1.6, zorder=1))
        order = sorted(range(len(lines)), key=parts.__getitem__)
        shown = LineCollection(
            [lines[k] for k in order],
            cmap=COLOURS,
            linewidths=[1.6 + 3 * parts[k] / 100 if parts[k] >= LEAST_PERCENT else 0 for k in order],
            zorder=2,
        )
        shown.set_array([parts[k] for k in order])
        shown.set_clim(0, 100)
        axes.add_collection(shown)
        finish(axes, at, f"{plain(title)} at {clock_text(start + boundary * one.curves.step_ms)}")
    figure.colorbar(shown, ax=list(found[0]), label="queue, in percent of what the link stores", shrink=0.7, pad=0.02)
    return figure


def draw_misfits(plot: Any, one: LoadedCase, folder: str, title: str, misfits: Mapping[str, Fraction]) -> "Figure":
    """The network, each link that was counted coloured by how much more is loaded than was counted, in per cent: blue
    where too few pass, red where too many."""
    parts = {link: float(100 * part) for link, part in misfits.items()}
    return draw_signed(plot, one, folder, title, parts, MOST_MISFIT, "loaded over counted, in per cent", "fit")


def draw_worths(plot: Any, one: LoadedCase, folder: str, title: str, savings: Mapping[str, int]) -> "Figure":
    """The network, each link coloured by the total travel time that more of its capacity saves, in units times ms: red
    where it saves time, blue where it costs time. The strongest colour is that of the greatest."""
    unit = time_unit(*savings.values())
    times = {link: float(unit.show(time)) for link, time in savings.items()}
    most = max((abs(time) for time in times.values()), default=0.0) or 1.0
    label = f"{unit.name} that more capacity saves"

    def width(part: float) -> float:
        return 1.6 + 3 * part if 100 * part >= LEAST_PERCENT else 0

    return draw_signed(plot, one, folder, title, times, most, label, "table of worths", width)


def draw_signed(
    plot: Any,
    one: LoadedCase,
    folder: str,
    title: str,
    values: Mapping[str, float],
    most: float,
    label: str,
    table: str,
    width: Callable[[float], float] = lambda part: 3.6,
) -> "Figure":
    """The network, links coloured by values of a table from blue, at so much below 0, to red, at so much above, and of
    a width by what part of that they are."""
    from matplotlib.collections import LineCollection

    unknown = [name for name in values if all(link.name != name for link in one.case.links)]
    if unknown or not values:
        raise Fault(
            f"the {table} is not of this case: it has no link {unknown[0]}" if unknown else f"the {table} has no link"
        )
    figure, axes = plot.subplots(figsize=(8, 6), layout="constrained")
    at, lines = roads(one, folder)
    axes.add_collection(LineCollection(lines, colors="#c3ccd5", linewidths=1.6, zorder=1))
    order = sorted((abs(values[link.name]), k) for k, link in enumerate(one.case.links) if link.name in values)
    known = [k for _, k in order]
    parts = [values[one.case.links[k].name] for k in known]
    widths = [width(abs(part) / most) for part in parts]
    shown = LineCollection([lines[k] for k in known], cmap="RdBu_r", linewidths=widths, zorder=2)
    shown.set_array(parts)
    shown.set_clim(-most, most)
    axes.add_collection(shown)
    finish(axes, at, plain(title))
    extend = "both" if any(abs(part) > most for part in parts) else "neither"
    figure.colorbar(shown, ax=axes, label=label, shrink=0.7, pad=0.02, extend=extend)
    return figure


def roads(one: LoadedCase, folder: str) -> tuple[Mapping[str, Place], list[list[Place]]]:
    """The places of nodes, and the line of each link beside where it runs."""
    drawn, bends = drawing_places(one, folder)
    at = drawn.of
    size = (
        max(
            max(x for x, _ in at.values()) - min(x for x, _ in at.values()),
            max(y for _, y in at.values()) - min(y for _, y in at.values()),
        )
        or 1.0
    )
    return at, [drawn_aside(bent(drawn.line(link), bend), 0.004 * size) for link, bend in zip(one.case.links, bends)]


def finish(axes: "Axes", at: Mapping[str, Place], title: str) -> None:
    """A map with the names of nodes where they are few, and its title."""
    if len(at) <= MOST_NAMED:
        for node, place in at.items():
            axes.annotate(node, place, xytext=(4, 4), textcoords="offset points", fontsize="small")
    axes.autoscale()
    axes.margins(0.08)
    axes.set_aspect("equal", adjustable="datalim")
    axes.set_axis_off()
    axes.set_title(title)


def drawing_places(one: LoadedCase, folder: str) -> tuple[Places, list[float]]:
    """Where nodes and links are drawn, and how far each link is bent."""
    known = read_places(folder, one.case)
    if known is not None:
        return known.plane(), [0.0] * len(one.case.links)
    at = layout.laid_out(one.case.nodes, [(link.tail, link.head, float(link.length_m)) for link in one.case.links])
    return Places(at), layout.bends(at, [(link.tail, link.head) for link in one.case.links])


def bent(line: Line, bend: float) -> Line:
    """The line between two places, bent to the left by so many parts of its length."""
    if not bend:
        return line
    (x, y), (to_x, to_y) = line[0], line[-1]
    east, north = to_x - x, to_y - y
    parts = [step / BENT_STEPS for step in range(BENT_STEPS + 1)]
    return tuple(
        (x + part * east - 4 * bend * part * (1 - part) * north, y + part * north + 4 * bend * part * (1 - part) * east)
        for part in parts
    )


def drawn_aside(line: Line, off: float) -> list[Place]:
    """A line so far to the right of another, so that both directions are seen; at a corner where both sides of it meet,
    or not much farther out."""
    sides = []
    for (x, y), (to_x, to_y) in zip(line, line[1:]):
        length = math.hypot(to_x - x, to_y - y) or 1.0
        sides.append(((to_y - y) / length, (x - to_x) / length))
    points = []
    for (x, y), before, after in zip(line, [sides[0], *sides], [*sides, sides[-1]]):
        right = before[0] + after[0], before[1] + after[1]
        square = right[0] ** 2 + right[1] ** 2 or 1e-9
        far = off * min(2 / square, MOST_MITRE / math.sqrt(square))
        points.append((x + right[0] * far, y + right[1] * far))
    return points
