"""Plans of signals: greens as people have them, by link or by turn, made into exit limits of a case."""
from __future__ import annotations

import os
from collections.abc import Iterable, Sequence
from dataclasses import dataclass
from fractions import Fraction

from ..case import Case, Limit, Link, Setup
from ..case.source import Source
from ..errors import Fault
from ..files import Row, existing
from ..formats import MOST_FILE_BYTES, clock_text, count_text
from ..tables import Reading, read
from .cycles import Green, Plan, by_turn, check_green, even_limits, exit_limits
from .flows import turn_shares
from .values import moment_ms

NAMES = {
    "link": ("from_link", "in_link", "edge"),
    "cycle": ("cycle_s", "cycle_time", "cycle_length"),
    "green_from": ("green_start", "from"),
    "green_to": ("green_end",),
    "to": ("to_link", "out_link", "turn"),
    "start": ("start_time",),
    "end": ("end_time",),
}


@dataclass(frozen=True, slots=True)
class TurnGreen:
    """A green of a link from a time up to another (ms after slot 0), for one of its turns or, with an empty name, for
    all of it; with the turn's share of the link's traffic where it is known."""

    link: str
    turn: str
    share: Fraction | None
    green: Green
    start_ms: int
    end_ms: int


@dataclass(frozen=True)
class Signals:
    """The exit limits of signal plans, how many links they are of, and notes on how they were made."""

    limits: list[Limit]
    links: int
    notes: list[str]


def read_signals(
    path: str | os.PathLike[str],
    case: Case,
    source: Source,
    *,
    start_ms: int = 0,
    even: bool = False,
    reading: Reading = Reading(),
) -> Signals:
    """The signals of a table of greens, for a case whose slot 0 begins at a clock time; with `even` one limit for each
    plan, the mean of its cycle."""
    table = read(existing(path), ("link", "cycle", "green_from", "green_to"), NAMES, reading)
    made = signals_of([green_of(row, source, case, start_ms) for row in table.rows], case, even=even)
    return Signals(made.limits, made.links, [*table.notes, *made.notes])


def signals_of(greens: Iterable[TurnGreen], case: Case, *, even: bool = False) -> Signals:
    """The signals of greens of the links of a case."""
    plans, notes = plans_of(greens, case)
    limits = plan_limits(plans, case, even)
    check_size(limits)
    return Signals(limits, len({plan.link for plan in plans}), notes + arrival_notes(plans, case))


def check_size(limits: Sequence[Limit]) -> None:
    """A Fault where the file signals.csv would be larger than a file may be."""
    size = sum(len(f"{limit.link},{limit.from_slot},{limit.to_slot},{limit.units / 1000:.3f}\n") for limit in limits)
    if size > MOST_FILE_BYTES:
        raise Fault(
            f"{count_text(len(limits))} records of signals have {count_text(size)} bytes, and a file may have"
            f" {count_text(MOST_FILE_BYTES)}; --even needs fewer"
        )


def arrival_notes(plans: Iterable[Plan], case: Case) -> list[str]:
    """A note where links with a signal end at a destination, so that arriving vehicles wait for green as well."""
    heads = {link.name: link.head for link in case.links}
    ends = set(case.destinations)
    count = len({plan.link for plan in plans if heads[plan.link] in ends})
    if not count:
        return []
    return [
        f"{count} of the links end at a destination: vehicles that arrive there wait for green as well, as the"
        f" limit holds all that leave the link"
    ]


def green_of(row: Row, source: Source, case: Case, clock: int) -> TurnGreen:
    """The green of a row of the table."""
    link, turn = (link_of(row, source, field) for field in ("link", "to"))
    if link is None:
        raise row.fault(
            "link", "this link was contracted, so that it can have no signal; give its green to the one before it"
        )
    cycle, start, end, offset = (
        int(row.number(field, default) * 1000)
        for field, default in (("cycle", None), ("green_from", None), ("green_to", None), ("offset", 0))
    )
    green = Green(cycle, start, end, offset)
    check_green(link, green)
    share = row.number("share") if row.text("share", "") else None
    times = [time_of(row, field, clock) for field in ("start", "end")]
    return TurnGreen(
        link, turn or "", share, green, times[0] or 0, case.setup.horizon_ms if times[1] is None else times[1]
    )


def link_of(row: Row, source: Source, field: str) -> str | None:
    """The link of the case for a link of the source; an empty text where the field is empty, None where the link was
    contracted."""
    name = row.text(field, "" if field == "to" else None)
    if name and name not in source.links:
        raise row.fault(field, "it is no link of the case, nor of its source")
    return source.links[name].link if name else ""


def time_of(row: Row, field: str, clock: int) -> int | None:
    """A time in ms after slot 0, from a clock time or seconds; None where the field is empty."""
    text = row.text(field, "")
    if not text:
        return None
    time = moment_ms(row, field) - (clock if ":" in text else 0)
    if time < 0 and field == "end":
        raise row.fault(field, f"it ends before the case begins at {clock_text(clock)}")
    return max(0, time)


def plans_of(greens: Iterable[TurnGreen], case: Case) -> tuple[list[Plan], list[str]]:
    """The plans by link and time, those by turn made plans of their link, and a note on these."""
    groups: dict[tuple[str, int, int], list[TurnGreen]] = {}
    for green in greens:
        groups.setdefault((green.link, green.start_ms, green.end_ms), []).append(green)
    turns = None
    plans, turned = [], 0
    for (link, start, end), group in groups.items():
        if end <= start:
            raise Fault(f"link {link}: a plan from {start / 1000:g} to {end / 1000:g} s; it begins before it ends")
        if not any(green.turn for green in group):
            plans.append(Plan(link, tuple(green.green for green in group), start, end))
            continue
        if turns is None and any(green.share is None for green in group):
            turns = turn_shares(case.links, case.demand, case.splits or [])
        plans.append(Plan(link, greens_of_turns(link, group, (turns or {}).get(link, {})), start, end))
        turned += 1
    notes = (
        [f"{turned} plans have greens by turn: the limit of a link counts each green for the share of its turn"]
        if turned
        else []
    )
    check_apart(plans)
    return plans, notes


def check_apart(plans: Iterable[Plan]) -> None:
    """A Fault where two plans of a link run at one time."""
    last: dict[str, Plan] = {}
    for plan in sorted(plans, key=lambda plan: (plan.link, plan.start_ms)):
        before = last.get(plan.link)
        if before is not None and before.end_ms > plan.start_ms:
            raise Fault(
                f"link {plan.link}: a plan begins at {plan.start_ms / 1000:g} s, while one runs until"
                f" {before.end_ms / 1000:g} s; give each an end"
            )
        last[plan.link] = plan


def greens_of_turns(link: str, group: Iterable[TurnGreen], flows: dict[str, float]) -> tuple[Green, ...]:
    """The greens of a link of those of its turns, whose shares are those of the group, else by vehicles that flow."""
    greens: dict[str, list[Green]] = {}
    shares: dict[str, Fraction] = {}
    for one in group:
        if not one.turn:
            raise Fault(f"link {link}: some of its greens name a turn and some do not; name all, or none")
        greens.setdefault(one.turn, []).append(one.green)
        shares[one.turn] = (
            one.share if one.share is not None else Fraction(flows.get(one.turn, 0.0)).limit_denominator(1_000_000)
        )
    return by_turn(greens, shares)


def plan_limits(plans: Iterable[Plan], case: Case, even: bool = False) -> list[Limit]:
    """The exit limits of plans by link and slot, or with `even` one for each plan."""
    links = {link.name: link for link in case.links}
    limits: list[Limit] = []
    for plan in plans:
        limits += limits_of_plan(plan, links[plan.link], case.setup, even)
    return limits


def limits_of_plan(plan: Plan, link: Link, setup: Setup, even: bool = False) -> list[Limit]:
    """The exit limits of a plan of a link by slot, or with `even` the mean of its cycle; what is rounded off of the
    link's capacity is carried to the next slot where the case does so."""
    capacity = link.passing(setup.step_ms, setup.carry)
    if even:
        return even_limits(plan, capacity=capacity, step_ms=setup.step_ms, slots=setup.slots, carry=setup.carry)
    return exit_limits(plan, capacity=capacity, step_ms=setup.step_ms, slots=setup.slots)
