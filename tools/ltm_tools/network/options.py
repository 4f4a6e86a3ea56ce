"""What is asked of an import, whatever the network comes from."""
from __future__ import annotations

from dataclasses import dataclass
from typing import ClassVar

from ..formats import (
    MOST_DESTINATIONS_ASKED,
    MOST_DESTINATIONS_NO_HISTORY,
    MOST_FILE_BYTES,
    MOST_LINKS_ASKED,
    MOST_LINKS_NO_HISTORY,
    MOST_ROUTED_ROWS,
    MOST_ROWS_ASKED,
    MOST_ROWS_NO_HISTORY,
    MOST_SLOT_UNITS,
    MOST_STEP_MS,
    UNITS,
)
from .bad_option import BadOption
from .crossings.options import CrossingOptions

LEAST_ROUTE_BYTES = len("a,b,0,c=1\n")


@dataclass(frozen=True, kw_only=True)
class Options:
    """How a network becomes the links of a case. Steps are in ms."""

    fit: int | None = None
    """The step to which the network is fitted; without it the network is left as it is."""
    balance: bool = True
    """With a fit, whether other links are changed so that the times of used routes stay as they were."""
    step: int | None = None
    """The step of a network that is left as it is; without it the longest that every link allows."""
    least_step: int = 1000
    """The shortest step to propose."""
    rename: bool = False
    """Whether names are made for those that a case cannot have."""
    origin_capacity: int = MOST_SLOT_UNITS // UNITS
    """The most vehicles that leave an origin in a step."""
    destinations: int | None = None
    """How many destinations are kept, those with most vehicles; other trips end at the nearest one."""
    moves: bool | None = None
    """Whether what moves through a turn is floored for the turn, and not for each destination; without it, where there
    are more than 16."""

    history: bool | None = None
    """Whether the case keeps the history of its loading, as sessions need it, and is refused where it is too large for
    that; without it, where it is not."""
    routes: bool | None = None
    """Whether nodes of a case without splits take their free-flow routes, which are not written then; without it, where
    the case keeps no history and has more links, destinations or rows than one with a history may have."""
    carry: bool = True
    """Whether what is left over of a capacity, rounded down in a slot, is carried to the next."""
    entries: bool = True
    """Whether trips that begin at a node that others drive over come to it by a link of their own."""
    crossings: CrossingOptions = CrossingOptions()
    """Which crossings have their turns as links, and how."""

    RANGES: ClassVar[dict[str, tuple[int, int | None]]] = {
        "origin_capacity": (1, MOST_SLOT_UNITS // UNITS),
        "destinations": (1, MOST_DESTINATIONS_NO_HISTORY),
        "fit": (1, MOST_STEP_MS),
        "step": (1, MOST_STEP_MS),
        "least_step": (1, MOST_STEP_MS),
    }

    def __post_init__(self) -> None:
        for name, (least, most) in self.RANGES.items():
            value = getattr(self, name)
            if value is not None and not (least <= value and (most is None or value <= most)):
                raise BadOption(name, f"is at least {least}" if most is None else f"is {least} to {most}")
        if self.destinations is not None and self.destinations > self.most_destinations:
            raise BadOption("destinations", f"is 1 to {self.most_destinations} with --history 1")

    @property
    def most_destinations(self) -> int:
        """How many destinations the case may have."""
        return MOST_DESTINATIONS_ASKED if self.history else MOST_DESTINATIONS_NO_HISTORY

    @property
    def most_links(self) -> int:
        """How many links it may have."""
        return MOST_LINKS_ASKED if self.history else MOST_LINKS_NO_HISTORY

    @property
    def most_rows(self) -> int:
        """How many rows of demand it may have, and of splits."""
        return MOST_ROWS_ASKED if self.history else MOST_ROWS_NO_HISTORY

    @property
    def most_routes(self) -> int:
        """How many rows of routes it may have: in the program alone, where it may ask for these."""
        if self.routes is False:
            return min(self.most_rows, MOST_FILE_BYTES // LEAST_ROUTE_BYTES)
        return MOST_ROWS_ASKED if self.history else MOST_ROUTED_ROWS
