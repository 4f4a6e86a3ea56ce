"""The file `turns.csv` beside a case: of each turn its link, lanes and greens, what it yields to, and how much it gets.

What is counted, `vehicles` and `factors`, is not read again.
"""
from __future__ import annotations

import os
from collections.abc import Iterable, Mapping, Sequence
from dataclasses import dataclass
from fractions import Fraction
from pathlib import Path

from ...case import Link
from ...case.beside import TURNS_FILE
from ...demand.cycles import Green, check_green
from ...errors import Fault
from ...files import Row, read_table, write_records
from ...formats import above_0_or_none, exact_or_none, short_vehicles
from .options import GapAcceptance
from .turn import Turn
from .volumes import Volumes

FIELDS = (
    "approach",
    "exit",
    "link",
    "vehicles",
    "lanes",
    "saturation",
    "cycle",
    "offset",
    "greens",
    "permitted",
    "opposing",
    "opposing_saturation",
    "permissive",
    "factors",
)


@dataclass(frozen=True)
class Turns:
    """The turns of a case, and the vehicles by which those that yield get their part."""

    turns: tuple[Turn, ...]
    volumes: Volumes

    def write(self, folder: str | os.PathLike[str]) -> None:
        """Writes `turns.csv` beside a case."""
        write_records(Path(folder) / TURNS_FILE, FIELDS, (record(turn, self.volumes) for turn in self.turns))


def record(turn: Turn, volumes: Volumes) -> tuple[str, ...]:
    """The fields of a turn."""
    greens = turn.protected + turn.permitted
    cycle = (green_seconds(greens[0].cycle_ms), green_seconds(greens[0].offset_ms)) if greens else ("", "")
    yields = ("", "", "", "")
    if turn.permitted:
        yields = (
            " ".join(turn.opposing),
            decimal(turn.opposing_saturation),
            permissive_text(turn.permissive),
            " ".join(f"{float(factor):.3f}" for factor in turn.factors(volumes)),
        )
    return (
        turn.approach,
        turn.exit,
        turn.link,
        short_vehicles(volumes.whole(turn.link)),
        decimal(turn.lanes),
        decimal(turn.saturation),
        *cycle,
        spans_text(turn.protected),
        spans_text(turn.permitted),
        *yields,
    )


def decimal(number: Fraction) -> str:
    """A number of thousandths as a decimal without zeros at its end."""
    return short_vehicles(int(number * 1000))


def green_seconds(ms: int) -> str:
    """Milliseconds as seconds."""
    return short_vehicles(ms)


def spans_text(greens: Iterable[Green]) -> str:
    """Greens in seconds of the cycle, as `0-42 50-60*1/2`, with the share of the lanes where it is not 1."""
    return " ".join(
        f"{green_seconds(green.from_ms)}-{green_seconds(green.to_ms)}" + (f"*{green.share}" if green.share != 1 else "")
        for green in greens
    )


def permissive_text(permissive: GapAcceptance | Fraction) -> str:
    """A gap as its three numbers, or a share."""
    if isinstance(permissive, Fraction):
        return str(permissive)
    return " ".join(map(decimal, (permissive.critical, permissive.follow_up, permissive.at_end)))


def read_turns(folder: str | os.PathLike[str], links: Mapping[str, Link]) -> list[Turn]:
    """The turns of a case; a Fault where it has none."""
    path = Path(folder) / TURNS_FILE
    if not path.exists():
        raise Fault(f"{path}: there is none; from-sumo and from-gmns write it with --turns signals, all or NODES")
    turns = [turn_of(row, links) for row in read_table(path, FIELDS)]
    for turn in turns:
        for link in turn.opposing:
            if link not in links:
                raise Fault(f"{path}: turn {turn.link} yields to {link}, which is no link of the case")
    return turns


def turn_of(row: Row, links: Mapping[str, Link]) -> Turn:
    """A row of the file."""
    if row.text("link") not in links:
        raise row.fault("link", "it is no link of the case")
    greens = {name: greens_in(row, name) for name in ("greens", "permitted")}
    return Turn(
        approach=row.text("approach"),
        exit=row.text("exit"),
        link=row.text("link"),
        lanes=row.number("lanes"),
        saturation=row.number("saturation"),
        protected=greens["greens"],
        permitted=greens["permitted"],
        opposing=tuple(row.text("opposing", "").split()),
        opposing_saturation=row.number("opposing_saturation", 0),
        permissive=permissive_of(row) if greens["permitted"] else GapAcceptance(),
    )


def greens_in(row: Row, name: str) -> tuple[Green, ...]:
    """The greens of a field."""
    made = []
    for text in row.text(name, "").split():
        span, _, share = text.partition("*")
        start, _, end = span.partition("-")
        numbers = [exact_or_none(part) for part in (start, end)]
        part = Fraction(0) if share == "0" else share_or_none(share) if share else Fraction(1)
        if None in numbers or part is None:
            raise row.fault(
                name,
                "expected greens as 0-42 50-60*1/2, in seconds of the cycle, with the share of the"
                " lanes that have them",
            )
        cycle, offset, *times = (
            int(number * 1000)
            for number in (row.number("cycle"), row.number("offset", 0), *(one for one in numbers if one is not None))
        )
        green = Green(cycle, times[0], times[1], offset, part)
        check_green(row.text("link"), green)
        made.append(green)
    return tuple(made)


def share_or_none(text: str) -> Fraction | None:
    """A share above 0 and at most 1, as `0.5` or `1/2`, or none where a text tells none."""
    share = above_0_or_none(text)
    return share if share is not None and share <= 1 else None


def permissive_of(row: Row) -> GapAcceptance | Fraction:
    """What a turn that yields goes by."""
    texts = row.text("permissive").split()
    share = share_or_none(texts[0]) if len(texts) == 1 else None
    if share is not None:
        return share
    gap = gap_or_none(texts)
    if gap is None:
        raise row.fault("permissive", GAP_RULE)
    return gap


GAP_RULE = (
    "expected a share above 0 and at most 1, or a critical gap and a follow-up time above 0 in seconds, and"
    " how many vehicles of a lane go when a green ends"
)


def gap_or_none(texts: Sequence[str]) -> GapAcceptance | None:
    """The gap of three numbers, or none where these are not such."""
    numbers = [number for text in texts if (number := exact_or_none(text)) is not None]
    if len(numbers) != 3 or len(texts) != 3 or numbers[0] <= 0 or numbers[1] <= 0 or numbers[2] < 0:
        return None
    return GapAcceptance(*numbers)
