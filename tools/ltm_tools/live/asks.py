"""What a browser may ask to be changed: a kind, whole numbers and names of the case, each checked here."""
from __future__ import annotations

from collections.abc import Mapping
from dataclasses import dataclass, field

from ..case import Case
from ..case.streets import street_and_id
from ..errors import Fault
from ..formats import MOST_KMH, clock_text, count_text

MOST_PER_HOUR = 1_000_000  # vehicles
MOST_SECONDS = 3_600  # of a signal's cycle
MOST_PERCENT = 1_000  # of demand
MOST_GREENS = 64  # links with a green of their own, and greens of each
OF_LINKS = ("close", "let_in", "let_out", "signal", "speed")
OF_NODES = ("demand", "share")
AT_THE_END = ("let_out", "signal")  # of a road they act where it is left
Members = Mapping[str, object]
Greens = tuple[tuple[str, tuple[tuple[int, int, int], ...]], ...]
"""Of each link the greens of a cycle: from a second up to another, and how many percent then pass."""


@dataclass(frozen=True, slots=True)
class Known:
    """What the roads of a case are: those that were cut before a crossing, each with its links, the turns behind the
    first; the crossings with the turns that lead over them; and the names of streets."""

    roads: Mapping[str, tuple[str, ...]] = field(default_factory=dict)
    crossings: Mapping[str, tuple[str, ...]] = field(default_factory=dict)
    streets: Mapping[str, str] = field(default_factory=dict)

    def shown(self, name: str) -> str:
        """A road as people know it."""
        return street_and_id(name, self.streets)


@dataclass(frozen=True, slots=True)
class Ask:
    """A change of a link, a road with its turns, a crossing, or a node. Slots run from `first` up to, and without,
    `end`; what a kind does not have is 0, or empty.

    `close` lets nothing into a link, and `informed` percent of those who would pass know of it; `let_in` and `let_out`
    let vehicles an hour in or out; `signal` lets out while it is green: the first of its cycles begins at `first`, or,
    where it has `greens` by link, `offset` seconds after slot 0; `speed` is the free speed in km/h of all slots;
    `demand` is a node's demand in percent of what it is without such a change; `share` is the percentage that takes a
    link at a node, of all who have a choice there and may take it."""

    kind: str
    link: str = ""
    node: str = ""
    first: int = 0
    end: int = 0
    per_hour: int = 0
    green: int = 0
    cycle: int = 0
    kmh: int = 0
    percent: int = 0
    informed: int = 0
    offset: int = 0
    road: str = ""
    crossing: str = ""
    greens: Greens = ()
    links: tuple[str, ...] = ()
    name: str = ""

    def members(self) -> dict[str, object]:
        """The change as the members of an object, as `ask_of` reads them."""
        named = {name: value for name in ("link", "node", "road", "crossing") if (value := getattr(self, name))}
        numbers = {name: getattr(self, field) for name, field in numbers_of(self.kind, bool(self.greens)).items()}
        heard = {"informed": self.informed} if self.informed else {}
        greens = {"greens": {link: [list(span) for span in spans] for link, spans in self.greens}}
        return {"kind": self.kind, **named, **numbers, **heard, **(greens if self.greens else {})}

    def text(self, start: int, step_ms: int) -> str:
        """The change in words, slot 0 beginning at a clock time (ms)."""
        span = f"{clock_text(start + self.first * step_ms)} to {clock_text(start + self.end * step_ms)}"
        who = {50: "half", 100: "all"}.get(self.informed, f"{self.informed} %")
        heard = f", {who} of the drivers informed" if self.informed else ""
        road = self.name or self.link
        said = {
            "close": f"{road} closed, {span}{heard}",
            "let_in": f"{road} lets in {self.per_hour}/h, {span}",
            "let_out": f"{road} lets out {self.per_hour}/h, {span}",
            "signal": f"{road} {self.plan_text()}, {span}",
            "speed": f"{road} at {self.kmh} km/h, the whole time",
            "demand": f"demand of {self.node} at {self.percent} %, {span}",
            "share": f"{self.percent} % take {road} at {self.node}, {span}",
        }
        return said[self.kind]

    def plan_text(self) -> str:
        """The plan of a signal in words."""
        if not self.greens:
            return f"green {self.green} s of {self.cycle} s"
        spans = {spans for _, spans in self.greens}
        if len(spans) == 1:
            (only,) = spans
            times = " and ".join(f"{first}-{end} s" for first, end, _ in only) or "never"
            return f"green {times} of {self.cycle} s, offset {self.offset} s"
        return f"with {len(self.greens)} green times in {self.cycle} s, offset {self.offset} s"


SPAN = {"from": "first", "to": "end"}
NUMBERS: dict[str, dict[str, str]] = {
    "close": SPAN,
    "let_in": {**SPAN, "per_hour": "per_hour"},
    "let_out": {**SPAN, "per_hour": "per_hour"},
    "signal": {**SPAN, "green": "green", "cycle": "cycle"},
    "speed": {"kmh": "kmh"},
    "demand": {**SPAN, "percent": "percent"},
    "share": {**SPAN, "percent": "percent"},
}
RANGES = {
    "per_hour": (0, MOST_PER_HOUR),
    "green": (0, MOST_SECONDS),
    "cycle": (1, MOST_SECONDS),
    "offset": (0, MOST_SECONDS),
    "kmh": (1, MOST_KMH),
    "percent": (0, MOST_PERCENT),
    "informed": (0, 100),
}
LABELS = {
    "from": "The first slot",
    "to": "The slot that ends it",
    "per_hour": "The number of vehicles per hour",
    "green": "The green time in seconds",
    "cycle": "The cycle in seconds",
    "offset": "The offset in seconds",
    "kmh": "The speed in km/h",
    "percent": "The percentage",
    "informed": "The percentage of informed drivers",
}


def numbers_of(kind: str, has_greens: bool) -> dict[str, str]:
    """The numbers of a kind, each with the field that has it."""
    return {**SPAN, "cycle": "cycle", "offset": "offset"} if has_greens else NUMBERS[kind]


def ask_of(told: Members, case: Case, known: Known = Known()) -> Ask:
    """The change that an object asks for; a Fault that says what is wrong with it."""
    kind = told.get("kind")
    if not isinstance(kind, str) or kind not in NUMBERS:
        raise Fault(f"A change is one of {', '.join(NUMBERS)}.")
    names = names_of(kind, told, case, known)
    more = {"informed": "informed"} if kind == "close" and "informed" in told else {}
    greens = greens_of(told["greens"], case) if kind == "signal" and "greens" in told else ()
    wanted = {**numbers_of(kind, bool(greens)), **more}
    numbers = {field: whole_in(told, name, case.setup.slots) for name, field in wanted.items()}
    if "first" in numbers and numbers["first"] >= numbers["end"]:
        raise Fault("The change ends before it begins.")
    ask = Ask(kind, **names, **numbers, greens=greens)  # type: ignore[arg-type]
    check_parts(ask, case)
    return ask


def names_of(kind: str, told: Members, case: Case, known: Known) -> dict[str, object]:
    """The link, road, crossing or node that a change is about, with the links that it acts on."""
    names: dict[str, object] = {}
    if kind in OF_NODES:
        names["node"] = name_in(told, "node", set(case.nodes))
    if kind == "demand":
        return names
    if kind == "signal" and "crossing" in told:
        crossing = name_in(told, "crossing", set(known.crossings))
        turns = known.crossings[crossing]
        return {**names, "crossing": crossing, "link": turns[0], "links": turns, "name": f"crossing {crossing}"}
    if kind in OF_LINKS and "road" in told:
        road = name_in(told, "road", set(known.roads))
        first, *turns_of_it = known.roads[road]
        links = {"speed": (first, *turns_of_it), **dict.fromkeys(AT_THE_END, tuple(turns_of_it))}.get(kind, (first,))
        return {**names, "road": road, "link": first, "links": links, "name": known.shown(road)}
    link = name_in(told, "link", {link.name for link in case.links})
    return {**names, "link": link, "links": (link,), "name": known.shown(link)}


def greens_of(told: object, case: Case) -> Greens:
    """The greens of links that a plan tells; a Fault where they are none."""
    links = {link.name for link in case.links}
    if not isinstance(told, dict) or not 0 < len(told) <= MOST_GREENS or not links.issuperset(told):
        raise Fault(f"A plan has green times for 1 to {MOST_GREENS} links of the case.")
    return tuple((link, tuple(span_of(span) for span in listed(spans))) for link, spans in told.items())


def listed(spans: object) -> list[object]:
    if not isinstance(spans, list) or len(spans) > MOST_GREENS:
        raise Fault(f"A link has at most {MOST_GREENS} green times in a cycle.")
    return spans


def span_of(span: object) -> tuple[int, int, int]:
    """A green: from a second of the cycle up to another, and how many percent pass."""
    if isinstance(span, list) and len(span) == 3 and all(type(one) is int for one in span):
        first, end, percent = span
        if 0 <= first < end <= MOST_SECONDS and 0 < percent <= 100:
            return first, end, percent
    raise Fault("A green time begins before it ends, in whole seconds of the cycle, as 0-30.")


def check_parts(ask: Ask, case: Case) -> None:
    """A Fault where the parts of a change do not fit together."""
    if ask.green > ask.cycle:
        raise Fault(f"A green time of {ask.green} s is longer than its cycle of {ask.cycle} s.")
    for link, spans in ask.greens:
        if link not in ask.links:
            raise Fault(f"{link} is no turn of {ask.name}.")
        if any(end > ask.cycle for _, end, _ in spans):
            raise Fault(f"{link}: a green time ends after the cycle of {ask.cycle} s.")
        if any(after < end for (_, end, _), (after, _, _) in zip(sorted(spans), sorted(spans)[1:])):
            raise Fault(f"{link}: two green times overlap.")
    if ask.kind == "share":
        if ask.percent > 100:
            raise Fault("A share is at most 100 %.")
        if ask.link not in {link.name for link in case.out_links(ask.node)}:
            raise Fault(f"{ask.link} does not begin at {ask.node}.")


def name_in(told: Members, member: str, names: set[str]) -> str:
    """A name of the case; a Fault where it is none."""
    name = told.get(member)
    if not isinstance(name, str) or name not in names:
        raise Fault(f"The case has no such {member}.")
    return name


def whole_in(told: Members, member: str, slots: int) -> int:
    """A whole number in its range; a Fault where it is none."""
    least, most = RANGES.get(member) or ((0, slots - 1) if member == "from" else (1, slots))
    value = told.get(member)
    if type(value) is not int or not least <= value <= most:
        raise Fault(f"{LABELS[member]} is a whole number from {least} to {count_text(most)}.")
    return value
