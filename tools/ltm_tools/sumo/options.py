"""What is asked of an import of a net of SUMO."""
from __future__ import annotations

import os
from dataclasses import dataclass
from fractions import Fraction
from typing import ClassVar, Literal

from ..network.options import Options


@dataclass(frozen=True, kw_only=True)
class SumoOptions(Options):
    """What is read of a net and its vehicles. Moments are in ms, as vehicles have them; names are made unless it is
    said otherwise."""

    rename: bool = True
    begin_ms: int | None = None
    """When slot 0 begins; without it the quarter of an hour before the first vehicle."""
    end_ms: int | None = None
    """Vehicles that set out from then on are left out."""
    horizon: int | None = None
    """The minutes that are loaded; without it 30 after the last vehicle sets out."""
    demand_slice: int | None = None
    """The minutes of a row of demand; without it the fewest with not too many rows."""
    slice: int | None = None
    """The minutes of a row of splits; without it 15, or more where there were too many rows."""
    volumes: str | os.PathLike[str] | None = None
    """The vehicles by which traffic at crossings is counted; without it those of the case."""
    signals: bool = True
    """Whether programs of signals count."""
    wait_at_ends: bool = False
    """Whether trips wait for a signal at the end of their last edge, which they need not do in SUMO."""
    yellow: bool = True
    """Whether vehicles go on yellow, as in SUMO."""
    vehicle_class: str = "passenger"
    headway: Fraction = Fraction(113, 100)
    """Seconds between vehicles of a lane, beside the time to drive `spacing`, as in SUMO's mesoscopic run."""
    spacing: Fraction | None = None
    """Metres of a standing vehicle; without it the mean of the types of vehicles, 7.5 where they say nothing."""

    ends: Literal["node", "edge"] = "edge"
    """Whether a trip ends at the node to which its last edge leads, by whichever edge it comes there, or on that edge,
    as far as a case takes so many destinations."""
    allow_losses: bool = False
    """Whether vehicles may be lost that are more than one in a hundred."""

    RANGES: ClassVar[dict[str, tuple[int, int | None]]] = {
        "horizon": (1, None),
        "slice": (1, None),
        "demand_slice": (1, None),
        **Options.RANGES,
    }
