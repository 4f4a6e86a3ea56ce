"""Where rounding a capacity down to whole thousandths in each slot takes a part of it, and reds that are short for a
step (docs/MODEL.md)."""
from __future__ import annotations

from collections.abc import Collection, Mapping
from fractions import Fraction
from itertools import groupby

from ..formats import count_text, counted
from .closed import by_link, open_slots
from .rows import Link, Rows
from .streets import street_and_id

MOST_LOST = Fraction(1, 1000)
"""The part of a link's capacity up to which rounding it down in each slot is not worth a warning."""
STEPS_OF_RED = 10
"""With so many steps in a red the delay of a queue is at most a tenth too much, as one that ends within a step counts
to its end."""


def lossy_links(case: Rows) -> dict[str, Fraction]:
    """The links that lose more than `MOST_LOST` of their capacity in each slot, with the part that is lost; none where
    what is left over is carried."""
    step = case.setup.step_ms
    if case.setup.carry:
        return {}
    lost = {link.name: link.lost(step) for link in case.links if link.capacity(step) > 0}
    return {name: part for name, part in lost.items() if part > MOST_LOST}


def rounding_lines(case: Rows, streets: Mapping[str, str]) -> list[str]:
    """The warning about such links, with the worst and what to do; none where there are none."""
    lossy = lossy_links(case)
    if not lossy:
        return []
    return [
        f"rounding    {counted(len(lossy), 'link')} with over {float(MOST_LOST * 100):.1f} % less capacity, since it is"
        " rounded down to whole thousandths of a vehicle in each slot",
        f"            the worst is {worst_text(lossy, streets)}",
        f"            {to_do(case, {link.name for link in case.links})}",
    ]


def worst_text(lossy: Mapping[str, Fraction], streets: Mapping[str, str]) -> str:
    """The link that loses most, and how much."""
    worst = max(lossy, key=lambda name: lossy[name])
    return f"{street_and_id(worst, streets)}, with {float(lossy[worst] * 100):.2f} % less"


def to_do(case: Rows, names: Collection[str]) -> str:
    """What mends the loss of some links: the word that carries, or the least step that loses little."""
    step = least_step(case, names)
    longer = "" if step is None else f"; or take a step of {count_text(step)} ms, the least with which they lose less"
    return f"write 1 in the column carry of setup.csv, which carries what is left over to the next slot{longer}"


def least_step(case: Rows, names: Collection[str]) -> int | None:
    """The least step above that of the case, in ms, with which none of these links loses more than `MOST_LOST`; None
    where the links of the case allow none."""
    links = [link for link in case.links if link.name in names]
    longest = min(link.longest_step_ms for link in case.links)
    return next((step for step in range(case.setup.step_ms + 1, longest + 1) if loses_little(links, step)), None)


def loses_little(links: Collection[Link], step_ms: int) -> bool:
    """Whether none of these links loses more than `MOST_LOST` with a step."""
    return all(link.lost(step_ms) <= MOST_LOST for link in links)


def shortest_reds(case: Rows) -> dict[str, int]:
    """Of each link with a signal the slots of its shortest red that green comes before and behind."""
    found: dict[str, int] = {}
    for name, rows in by_link(case.signals).items():
        runs = [(green, len(list(run))) for green, run in groupby(open_slots(rows, case.setup.slots))]
        reds = [count for green, count in runs[1:-1] if not green]
        if reds:
            found[name] = min(reds)
    return found


def red_lines(case: Rows, streets: Mapping[str, str]) -> list[str]:
    """The warning about reds of few steps, with the worst and what to do; none where there are none."""
    short = {name: slots for name, slots in shortest_reds(case).items() if slots < STEPS_OF_RED}
    if not short:
        return []
    worst = min(short, key=lambda name: short[name])
    least = short[worst]
    step = least * case.setup.step_ms // STEPS_OF_RED
    return [
        f"reds        {counted(len(short), 'link')} with reds of fewer than {STEPS_OF_RED} steps: in light traffic the"
        f" delay before them counts up to {round(100 / least)} % too much, since a queue that ends within a step counts"
        " to the end of it",
        f"            the shortest has {counted(least, 'step')} ({street_and_id(worst, streets)});"
        f" with steps of {count_text(step)} ms it is at"
        f" most {100 // STEPS_OF_RED} %",
    ]
