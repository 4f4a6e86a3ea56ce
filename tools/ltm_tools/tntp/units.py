"""The units of lengths and times of a network, which its format leaves open: as they are asked for, as a header names
them, or as they can be guessed."""
from __future__ import annotations

from collections.abc import Mapping, Sequence
from dataclasses import dataclass
from fractions import Fraction

from ..errors import Fault
from ..network.lengths import LENGTH_WORDS, METRES, metres
from ..network.lines import Point
from .reading import TntpLink, TntpNet

SECONDS = {"min": Fraction(60), "s": Fraction(1), "h": Fraction(3600), "0.01h": Fraction(36)}
WORDS = {
    **LENGTH_WORDS,
    **{name: name for name in SECONDS},
    **dict.fromkeys(("mins", "minute", "minutes"), "min"),
    **dict.fromkeys(("sec", "secs", "second", "seconds"), "s"),
    **dict.fromkeys(("hr", "hrs", "hour", "hours"), "h"),
}
SLOW, FAST = 20, 130
"""km/h between which the middle free speed of a network is believed."""
DETOUR = 0.8, 1.6
"""How many times as long as the line between its ends the middle link may be."""


@dataclass(frozen=True, slots=True)
class TntpUnits:
    """The unit of lengths and that of times, and what is to be said of them."""

    length: str
    time: str
    notes: tuple[str, ...] = ()

    def metres(self, link: TntpLink) -> Fraction:
        """The metres of a link."""
        return link.length * METRES[self.length]

    def seconds(self, link: TntpLink) -> Fraction:
        """The free-flow time of a link."""
        return link.time * SECONDS[self.time]

    def kmh(self, links: Sequence[TntpLink]) -> float:
        """The middle free speed of links that have a length and a time."""
        speeds = sorted(
            self.metres(link) / self.seconds(link) * Fraction(18, 5) for link in links if link.length and link.time
        )
        return float(speeds[len(speeds) // 2]) if speeds else 0.0


def network_units(
    net: TntpNet, places: Mapping[str, Point], in_degrees: bool, length: str | None, time: str | None
) -> TntpUnits:
    """The units of a network; a Fault that asks for them where more than one would do."""
    said = {name: WORDS[unit] for name, unit in net.units.items() if unit in WORDS}
    named = [f"{name}s in {unit}" for name, unit in said.items() if {"length": length, "time": time}[name] is None]
    length, time = length or said.get("length"), time or said.get("time")
    notes = (f"the header says: {' and '.join(named)}",) if named else ()
    if length is not None and time is not None:
        return TntpUnits(length, time, notes)
    for one in (time,) if time is not None else SECONDS:
        fitting = [made for unit in METRES if length in (None, unit) if likely(made := TntpUnits(unit, one), net)]
        if in_degrees and len(fitting) > 1:
            fitting = [made for made in fitting if as_long_as_drawn(made, net, places)] or fitting
        if len(fitting) == 1:
            return TntpUnits(fitting[0].length, one, (*notes, guess_told(fitting[0], net)))
        if fitting:
            raise Fault(asking(fitting, net))
    raise Fault(
        "the units of lengths and times are not known, and with none of them half of the links are driven at"
        f" {SLOW} to {FAST} km/h: give --length-unit and --time-unit"
    )


def likely(units: TntpUnits, net: TntpNet) -> bool:
    """Whether the middle speed can be that of a network for cars."""
    return SLOW <= units.kmh(net.links) <= FAST


def as_long_as_drawn(units: TntpUnits, net: TntpNet, places: Mapping[str, Point]) -> bool:
    """Whether the middle link is about as long as the line between its ends, which are places in degrees."""
    ratios = sorted(
        float(units.metres(link) / drawn)
        for link in net.links
        if link.tail in places and link.head in places
        if (drawn := metres((places[link.tail], places[link.head]), "degrees")) > 0 and link.length
    )
    return bool(ratios) and DETOUR[0] <= ratios[len(ratios) // 2] <= DETOUR[1]


def guess_told(units: TntpUnits, net: TntpNet) -> str:
    """A guess in words."""
    return (
        f"lengths are taken as {units.length} and times as {units.time}, a guess by which the middle link is driven at"
        f" {units.kmh(net.links):.0f} km/h: --length-unit and --time-unit say them"
    )


def asking(fitting: Sequence[TntpUnits], net: TntpNet) -> str:
    """The question which of some units are right."""
    said = " and ".join(f"{made.kmh(net.links):.0f} km/h if lengths are in {made.length}" for made in fitting)
    return (
        f"the unit of lengths is not known: with times in {fitting[0].time} the middle link is driven at {said};"
        f" give --length-unit {' or '.join(made.length for made in fitting)}"
    )
