"""Pictures of a curve file, as `ltm curves` writes it, by matplotlib: a link, a path, arrivals; and of iterations.

All counts are sums over destinations, in vehicles; times are in minutes.
"""
import math
from collections.abc import Mapping, Sequence
from typing import TYPE_CHECKING, Any

from ..case import Link
from ..case.streets import street_and_id
from ..errors import Fault
from ..formats import MINUTE_MS
from ..listing import HOURS
from ..loading.counts import float_vehicles
from ..loading.curves import Curves
from ..loading.times import path_links
from .texts import legend, plain

if TYPE_CHECKING:
    from matplotlib.axes import Axes
    from matplotlib.figure import Figure

NO_STREETS: Mapping[str, str] = {}
ENTERED, LEFT, BETWEEN, BOUND = "#1f77b4", "#d62728", "#444444", "#999999"
MOST_LINES = 8
LEAST_GAP = 0.001  # per cent that are drawn


def kilometres(link: Link) -> float:
    """The length of a link in km."""
    return link.length_m / 1000


def boundary_minutes(count: int, curves: Curves) -> list[float]:
    """The moments of so many boundaries."""
    return [k * curves.step_ms / MINUTE_MS for k in range(count)]


def time_axes(axes: "Axes", last: float) -> None:
    """Axes of time in minutes up to the last, with a grid."""
    from matplotlib.ticker import MaxNLocator

    axes.set_xlim(0, last)
    axes.xaxis.set_major_locator(MaxNLocator(integer=last >= 5))
    axes.grid(alpha=0.25)
    for side in ("top", "right"):
        axes.spines[side].set_visible(False)


def draw_link(
    plot: Any, curves: Curves, links: dict[str, Link], name: str, streets: Mapping[str, str] = NO_STREETS
) -> "Figure":
    """Two cumulative curves over the queue between them."""
    [link] = path_links(links.values(), [name])
    entered, left, between = (
        float_vehicles(counts) for counts in (curves.up(name), curves.down(name), curves.on_link(name))
    )
    times, storage = boundary_minutes(len(entered), curves), link.storage_units / 1000
    figure, (upper, lower) = plot.subplots(
        2, 1, figsize=(8, 6), sharex=True, height_ratios=(2, 1), layout="constrained"
    )
    called = f"{streets[name]} (link {name})" if streets.get(name) else f"Link {name}"
    figure.suptitle(plain(f"{called}, from {link.tail} to {link.head}, {kilometres(link):g} km"))
    upper.fill_between(times, left, entered, color=ENTERED, alpha=0.12, linewidth=0)
    upper.plot(times, entered, color=ENTERED, label="entered")
    upper.plot(times, left, color=LEFT, label="left")
    upper.set_ylabel("vehicles since the start")
    upper.set_ylim(bottom=0)
    upper.legend(loc="upper left", frameon=False)
    lower.axhline(storage, color=BOUND, linestyle="--", label="storage")
    lower.plot(times, between, color=BETWEEN, label="on the link")
    lower.set_ylabel("vehicles on the link")
    lower.set_xlabel("time in minutes")
    lower.set_ylim(0, 1.35 * max(storage, max(between)))
    lower.legend(loc="upper left", frameon=False, ncols=2)
    for axes in (upper, lower):
        time_axes(axes, times[-1])
    return figure


def kilometres_along(path: list[Link]) -> list[float]:
    """The kilometres along a path at which its links begin and end."""
    ends = [0.0]
    for link in path:
        ends.append(ends[-1] + kilometres(link))
    return ends


def draw_path(
    plot: Any, curves: Curves, links: dict[str, Link], names: list[str], streets: Mapping[str, str] = NO_STREETS
) -> "Figure":
    """Time to the right, the way upwards, and how dense traffic stands as colour: for each slot and link the mean of
    what stands there at the slot's beginning and at its end."""
    path = path_links(links.values(), names)
    ends = kilometres_along(path)
    rows = []
    for link in path:
        on = float_vehicles(curves.on_link(link.name))
        rows.append([(a + b) / 2 / kilometres(link) for a, b in zip(on, on[1:])])
    edges = boundary_minutes(len(rows[0]) + 1, curves)
    figure, axes = plot.subplots(figsize=(9, 5.5), layout="constrained")
    mesh = axes.pcolormesh(edges, ends, rows, cmap="YlOrRd", vmin=0, rasterized=True)
    figure.colorbar(mesh, ax=axes, label="vehicles per km", pad=0.02)
    axes.hlines(ends[1:-1], 0, edges[-1], color="white", linewidth=0.8)
    axes.set_title(f"Vehicles on the way from {path[0].tail} to {path[-1].head}")
    axes.set_xlabel("time in minutes")
    axes.set_ylabel("km along the way")
    axes.set_xlim(0, edges[-1])
    axes.set_ylim(0, ends[-1])
    by_name = axes.secondary_yaxis("right")
    shown = [plain(street_and_id(link.name, streets)) for link in path]
    by_name.set_yticks([(a + b) / 2 for a, b in zip(ends, ends[1:])], shown)
    by_name.tick_params(length=0)
    by_name.set_ylabel("link")
    return figure


def draw_arrivals(plot: Any, curves: Curves) -> "Figure":
    """A line for each destination, those with fewest arrivals in one line together where there are many."""
    from matplotlib.ticker import MaxNLocator

    arrived = {name: float_vehicles(curves.arrived(name)) for name in curves.destinations}
    if not arrived:
        raise Fault("the curve file has no destination")
    order = sorted(arrived, key=lambda name: -float(arrived[name][-1]))
    shown = order if len(order) <= MOST_LINES else order[: MOST_LINES - 1]
    times = boundary_minutes(len(arrived[order[0]]), curves)
    figure, axes = plot.subplots(figsize=(8, 5), layout="constrained")
    lines = [axes.plot(times, arrived[name])[0] for name in shown]
    names = list(shown)
    if len(shown) < len(order):
        rest = [sum(counts) for counts in zip(*(arrived[name] for name in order[len(shown) :]))]
        lines += axes.plot(times, rest, color=BOUND)
        names.append(f"{len(order) - len(shown)} others together")
    axes.set_title("Arrivals")
    axes.set_xlabel("time in minutes")
    axes.set_ylabel("vehicles since the start")
    axes.set_ylim(bottom=0)
    axes.yaxis.set_major_locator(MaxNLocator(integer=True))
    legend(axes, lines, names, loc="upper left", frameon=False, title="destination")
    time_axes(axes, times[-1])
    return figure


def draw_iterations(plot: Any, spent: Sequence[int], gaps: Sequence[float]) -> "Figure":
    """Vehicle hours and the relative gap by iteration, the gap on a scale of powers of ten; times in thousandths of a
    vehicle times ms, gaps in per cent."""
    figure, (upper, lower) = plot.subplots(2, 1, figsize=(8, 5), sharex=True, layout="constrained")
    upper.plot([time / HOURS.size for time in spent], color=ENTERED, marker=".")
    upper.set_ylabel("vehicle hours")
    lower.semilogy([max(gap, LEAST_GAP) for gap in gaps], color=LEFT, marker=".")
    lower.set_ylabel("relative gap, %")
    lower.set_xlabel("iteration")
    for axes in (upper, lower):
        time_axes(axes, max(1, len(spent) - 1))
    return figure


def draw_counts(plot: Any, flows: Mapping[str, Sequence[tuple[float, float]]], gehs: Sequence[int]) -> "Figure":
    """What is loaded over what was counted, in vehicles an hour, by what counts are for; between lines of equal GEH."""
    figure, axes = plot.subplots(figsize=(6.5, 6), layout="constrained")
    most = 1.05 * max((number for pairs in flows.values() for pair in pairs for number in pair), default=0) or 1.0
    ticks = [most * k / 200 for k in range(201)]
    axes.plot([0, most], [0, most], color=BOUND, linewidth=0.8)
    for geh, style in zip(gehs, ("--", ":")):
        above = [loaded_at(counted, geh) for counted in ticks]
        axes.plot(ticks, above, color=BOUND, linestyle=style, linewidth=1, label=f"GEH {geh}")
        axes.plot(above, ticks, color=BOUND, linestyle=style, linewidth=1)
    for colour, mark, (use, pairs) in zip((ENTERED, LEFT), "ox", flows.items()):
        if pairs:
            label = {"fit": "counts", "hold": "held out"}.get(use, use)
            axes.scatter(*zip(*pairs), s=16, color=colour, marker=mark, label=label, alpha=0.7, zorder=3)
    axes.set_xlim(0, most)
    axes.set_ylim(0, most)
    axes.set_aspect("equal")
    axes.set_xlabel("counted, vehicles an hour")
    axes.set_ylabel("loaded, vehicles an hour")
    axes.grid(alpha=0.25)
    axes.legend(loc="upper left", frameon=False)
    return figure


def loaded_at(counted: float, geh: int) -> float:
    """The greater flow at which GEH has a value: with d their difference, 2 d^2 = GEH^2 (2 counted + d)."""
    square = geh * geh
    return counted + (square + math.sqrt(square * square + 16 * square * counted)) / 4
