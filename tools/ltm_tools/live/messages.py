"""What browsers and the server tell one another: texts of JSON objects, and frames.

A browser tells `token`, once and first; then `see` with a boundary, and with `since` one before it for flows, `pick`
with a link or node or none, `route` with the names of links one behind the other or none, `beside` with the name of a
scenario that is to be shown beside the list or none, `edit` with a change (see the module `asks`), which with `amend`
replaces that of an entry by its number, `undo` with the number of an entry, `switch` with that and whether it is `on`,
`back` and `again` to undo and redo what it changed last, `stop` with what it calls a change for which shares are
sought, and `keep`, `recall` and `drop` with the name of a scenario.
"""
from __future__ import annotations

import json
from collections.abc import Mapping, Sequence
from dataclasses import dataclass

from ..case import Case
from ..errors import Fault
from ..loading.answers import AllDelays, Totals
from ..loading.remaining import Remaining
from ..show.scripts import json_of
from .asks import Members
from .entries import Entry, covered
from .hearing import Found
from .scenario import Scenario

Told = dict[str, object]
SCENES = ("keep", "recall", "drop")


@dataclass(frozen=True, slots=True)
class Make:
    """A change of the list that a browser asks for, and what the browser calls it: `edit`, `amend` and `undo` of an
    entry by its number, `switch`, `back` and `again` for its own last change; of a closure with informed drivers, their
    shares once these are found."""

    what: str
    edit: Members
    number: int
    on: bool
    at: int | None
    found: Found | None = None

    @property
    def is_sought(self) -> bool:
        """Whether shares are to be found before it is made."""
        edit = self.edit
        return (
            self.what == "edit"
            and self.found is None
            and edit.get("kind") == "close"
            and edit.get("informed", 0) not in (0, None)
        )


def object_of(data: str | bytes) -> Members:
    """The JSON object of a message; a Fault where it is none."""
    try:
        told = json.loads(data)
    except (ValueError, RecursionError):
        raise Fault("no JSON") from None
    if not isinstance(told, dict):
        raise Fault("no JSON object")
    return told


def make_of(told: Members) -> Make | None:
    """The change of the list that a message asks for; None where it asks for none."""
    at, edit, on = whole_number_of(told.get("at")), told.get("edit"), told.get("on")
    if isinstance(edit, dict):
        number = whole_number_of(told.get("amend"))
        return Make("edit", edit, 0, True, at) if number is None else Make("amend", edit, number, True, at)
    if (number := whole_number_of(told.get("undo"))) is not None:
        return Make("undo", {}, number, True, at)
    if (number := whole_number_of(told.get("switch"))) is not None and isinstance(on, bool):
        return Make("switch", {}, number, on, at)
    for what in SCENES:
        if what in told:
            return Make(what, {"name": told[what]}, 0, True, at)
    for what in ("back", "again"):
        if told.get(what) is True:
            return Make(what, {}, 0, True, at)
    return None


def whole_number_of(value: object) -> int | None:
    """A whole number, and nothing else: true and 1.0 are none."""
    return value if isinstance(value, int) and not isinstance(value, bool) else None


def asked_boundary(told: Members, slots: int) -> int | None:
    """The boundary that a message asks to see, if it does."""
    see = whole_number_of(told.get("see"))
    return see if see is not None and 0 <= see <= slots else None


def asked_since(told: Members, boundary: int) -> int | None:
    """The boundary from which on a message asks to see what has left links, if it does."""
    since = whole_number_of(told.get("since"))
    return since if since is not None and 0 <= since <= boundary else None


def picked_of(told: object, scenario: Scenario) -> tuple[str, str] | None:
    """The link, node or approach with its turns that `pick` tells, as `{"link": "a"}`: which of these, and its name;
    None where it is none."""
    known: dict[str, Mapping[str, object]] = {
        "link": scenario.links,
        "node": scenario.nodes,
        "approach": scenario.approaches,
    }
    for kind, names in known.items():
        name = told.get(kind) if isinstance(told, dict) else None
        if isinstance(name, str) and name in names:
            return kind, name
    return None


def told_list(entries: Sequence[Entry], slots: int) -> list[Told]:
    """The list, for browsers."""
    return [
        {
            "id": entry.number,
            "by": entry.by,
            "text": entry.text,
            "on": entry.on,
            "covered": over,
            "ask": entry.ask.members() if entry.ask else {},
            **({"effect": entry.effect} if entry.effect else {}),
        }
        for entry, over in zip(entries, covered(entries, slots))
    ]


def told_delays(delays: AllDelays) -> Told:
    """The vehicle time of all, and of links and nodes each what is queued or waited, the most, and when: times in
    thousandths of a vehicle times ms, amounts in thousandths of a vehicle."""
    return {
        "totals": [delays.spent, delays.queued, delays.waited],
        "links": [[one.queued, one.most, one.at] for one in delays.links.values()],
        "nodes": [[one.waited, one.most, one.at] for one in delays.nodes.values()],
    }


def told_totals(base: Totals, now: Totals) -> Told:
    """Who is not there by the end, in the base and now, and whether hours can be compared."""
    one, other = (Remaining(told.generated, told.on_links + told.waiting) for told in (base, now))
    return {
        "generated": [one.generated, other.generated],
        "there": [one.not_there, other.not_there],
        "comparable": one.comparable(other),
    }


def told_curve(scenario: Scenario, kind: str, name: str) -> Told:
    """The curves of a link or an origin, now and in the base, and of a link its free-flow time in both, in ms; of an
    approach those of its links."""
    told: Told = {"curve": name, "kind": kind, "revision": scenario.revision}
    if kind == "approach":
        return {**told, "parts": [told_curve(scenario, "link", link) for link in scenario.approaches[name]]}
    if kind == "node":
        now = scenario.departures(name)
        return {**told, "now": now, "base": scenario.base.departures.get(name, now)}
    place, link = scenario.links[name], scenario.link(name)
    return {
        **told,
        "now": scenario.curve(name),
        "base": scenario.base.link(place),
        "free": [link.free_ms, scenario.case.links[place].free_ms],
        "kmh": link.free_kmh,
    }


def text_of(told: Mapping[str, object]) -> str:
    """The text of a message."""
    return json_of(told)


def choices_of(case: Case) -> dict[str, list[str]]:
    """Of each node where some have a choice of a way the links that they have, in order."""
    found: dict[str, dict[str, None]] = {}
    outs: dict[str, list[str]] = {}
    for link in case.links:
        outs.setdefault(link.tail, []).append(link.name)
    for row in case.standing_splits():
        ways = [name for name, weight in row.weights.items() if weight]
        if len(ways) > 1:
            found.setdefault(row.node, {}).update(dict.fromkeys(ways))
    return {node: [name for name in outs.get(node, ()) if name in ways] for node, ways in found.items()}
