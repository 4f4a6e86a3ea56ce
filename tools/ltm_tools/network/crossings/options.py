"""What is asked of the crossings of an import."""
from __future__ import annotations

from dataclasses import dataclass
from fractions import Fraction
from typing import Literal

from ..bad_option import BadOption

MOST_TURN_M = 1_000


@dataclass(frozen=True, slots=True)
class GapAcceptance:
    """How a turn that must yield finds its way through the traffic that has priority: the critical gap and the
    follow-up time in seconds, and how many vehicles of a lane still go when a green ends."""

    critical: Fraction = Fraction(9, 2)
    follow_up: Fraction = Fraction(11, 5)
    at_end: Fraction = Fraction(1)


MINOR_GAP = GapAcceptance(Fraction(13, 2), Fraction(7, 2), Fraction(0))
"""That of a turn from a way that yields to another at a sign; the Highway Capacity Manual has 6.2 to 7.1 and 3.3 to 4.0
seconds."""
MAJOR_GAP = GapAcceptance(Fraction(41, 10), Fraction(11, 5), Fraction(0))
"""That of a turn without a signal from a way whose other turns yield to nobody, as a left turn."""
ROUND_GAP = GapAcceptance(Fraction(87, 20), Fraction(57, 20), Fraction(0))
"""That of a turn into a roundabout: the mean of the two of the Highway Capacity Manual, 4.1 and 2.6, 4.6 and 3.1
seconds."""

EQUAL_GAP = GapAcceptance(Fraction(58, 5), Fraction(7, 2), Fraction(0))
"""That of a turn where nobody has priority and the right comes first. The manual has none: it is the one with which
single junctions pass what they do in SUMO (docs/TURNS.md)."""


SATURATION = Fraction(1800)
"""Vehicles an hour that a lane lets through at a stop line while it is green: in practice 1,700 to 1,900; the Highway
Capacity Manual begins with 1,900 and takes off for lane width, lorries, grade, parking and the like."""


@dataclass(frozen=True, kw_only=True)
class CrossingOptions:
    """Which crossings have their turns as links, and how these are."""

    turns: Literal["signals", "all", "none"] | tuple[str, ...] = "signals"
    """`signals`: where a signal holds a link, or a turn is forbidden; `all`: wherever a link leads on to several; else
    the nodes that are named."""
    length_m: int = 98
    """The metres before a crossing on which a turn has lanes of its own, where the link is that long."""
    lanes: Literal["full", "shared", "counted"] = "full"
    """Whether a turn has all lanes that serve it, of each the part of the time that its counted vehicles take there, or
    this and at least an even part of each. Of a source without routes it has all."""
    saturation: Fraction | None = SATURATION
    """The most vehicles an hour that a lane lets through at a signal or a sign; None for as many as its road
    carries."""
    permissive: GapAcceptance | Fraction = GapAcceptance()
    """How much of its lanes a turn gets where it must yield: by gaps, this one in its green, or a share, 1 for all."""
    yielding: Literal["ranks", "gaps", "none"] = "ranks"
    """How approaches of junctions without lights yield whose turns are no links. `gaps`: they let pass what finds gaps
    in the counted traffic, and their vehicles wait for these; `ranks`: these also wait for the queues of turns that
    yield themselves and go before them; `none`: they do not yield. In a source without routes traffic is that on least
    routes, and turns have no ranks, so that both words mean gaps."""
    apart: bool = True
    """Whether a node becomes several where its allowed turns fall apart into groups of links; else dead ends do
    alone."""
    joined: bool = False
    """Whether turns become links where a turn back alone joins these groups, and another turn back is forbidden."""
    origins: Literal["edge", "turns", "node"] = "edge"
    """Whether trips begin on the link with which their route does, as far as it is long enough; on it where the turns
    of its node are links, and elsewhere at the node; or at the node, from which they may take each link."""
    slice_minutes: int = 10
    """The minutes over which traffic with priority is counted."""

    @property
    def yields(self) -> bool:
        """Whether approaches yield whose turns are no links."""
        return self.yielding != "none"

    def __post_init__(self) -> None:
        if not 1 <= self.length_m <= MOST_TURN_M:
            raise BadOption("turn_length", f"is 1 to {MOST_TURN_M}")
        if self.saturation is not None and self.saturation <= 0:
            raise BadOption("saturation", "is above 0")
        if isinstance(self.permissive, Fraction) and not 0 < self.permissive <= 1:
            raise BadOption("permissive", "is above 0 and at most 1")
