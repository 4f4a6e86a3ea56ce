"""A route that a browser has put together: how long it takes by departure, and the curves of its links, now and in the
base."""
from __future__ import annotations

from collections.abc import Sequence
from typing import Literal

from ..errors import Fault
from ..loading.times import Trips, path_links
from .messages import Told
from .scenario import Scenario

MOST_LINKS = 200  # of a route
MOST_DEPARTURES = 240
Route = tuple[str, ...]
Both = tuple[Sequence[int], Sequence[int]]


def route_of(told: object, scenario: Scenario) -> Route:
    """The links that a browser tells as a route, each beginning where the one before it ends; none where it tells
    nothing. A Fault where they are no route."""
    if told is None:
        return ()
    if not isinstance(told, list) or not 0 < len(told) <= MOST_LINKS or not all(isinstance(one, str) for one in told):
        raise Fault(f"A route has 1 to {MOST_LINKS} links.")
    return tuple(link.name for link in path_links(scenario.case.links, told))


def told_route(scenario: Scenario, route: Route) -> Told:
    """Of a route the travel time by departure in ms, with the wait at its first node, None where the end is not reached
    within the horizon; and of its links what has entered and left them, and their free-flow and wave times in ms."""
    every = -(-scenario.slots // MOST_DEPARTURES)
    curves = {"now": [scenario.curve(name) for name in route], "base": base_curves(scenario, route)}
    links = [(scenario.link(name), scenario.case.links[scenario.links[name]]) for name in route]
    times = {
        "now": travel_times(scenario, route, curves["now"], "now", every),
        "base": travel_times(scenario, route, curves["base"], "base", every),
    }
    parts = [
        {"link": name, "now": now, "base": base, "free": [one.free_ms, was.free_ms], "wave": one.wave_ms}
        for name, now, base, (one, was) in zip(route, curves["now"], curves["base"], links)
    ]
    return {"route": list(route), "revision": scenario.revision, "every": every, "times": times, "parts": parts}


def base_curves(scenario: Scenario, route: Route) -> list[Both]:
    """What has entered and left each link in the base."""
    return [scenario.base.link(scenario.links[name]) for name in route]


def travel_times(
    scenario: Scenario, route: Route, curves: Sequence[Both], of: Literal["now", "base"], every: int
) -> list[int | None]:
    """How long the route takes those who set out at each so many boundaries, in ms."""
    case_links = [scenario.case.links[scenario.links[name]] for name in route]
    links = [scenario.link(name) for name in route] if of == "now" else case_links
    produced, departed = departures(scenario, links[0].tail, of)
    trips = Trips(links, scenario.step, curves, produced, departed)
    return [trip.total for trip in trips.trips(every * scenario.step)]


def departures(scenario: Scenario, node: str, of: Literal["now", "base"]) -> Both:
    """What has been produced at a node and what has left it; nothing where nobody sets out."""
    if node not in scenario.origins:
        return [0] * (scenario.slots + 1), [0] * (scenario.slots + 1)
    return scenario.departures(node) if of == "now" else scenario.base.departures[node]
