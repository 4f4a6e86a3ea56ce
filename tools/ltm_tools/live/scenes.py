"""Scenarios that are kept under a name to be set side by side: the list of each, and its effect as it was told."""
from __future__ import annotations

from bisect import bisect_right
from collections.abc import Sequence
from dataclasses import dataclass

from ..errors import Fault
from .entries import Entry
from .frames import Boundary, frame
from .messages import Told

MOST = 5
MOST_NAME = 40  # signs


@dataclass(frozen=True, slots=True)
class Scene:
    """A list of changes under a name, with its effect."""

    name: str
    entries: tuple[Entry, ...]
    costs: Told
    places: Sequence[int] = ()
    moments: Sequence[Boundary] = ()  # the loading at these boundaries

    def frame(self, boundary: int, base: Sequence[Boundary]) -> bytes:
        """A frame of the last of its moments up to a boundary, beside the base there; its revision is -1."""
        at = max(0, bisect_right(self.places, boundary) - 1)
        place = self.places[at]
        return frame(-1, place, self.moments[at], base[place])


class Scenes:
    """The scenarios that are kept, in the order in which they came."""

    def __init__(self) -> None:
        self.kept: list[Scene] = []

    def keep(
        self,
        name: object,
        entries: Sequence[Entry],
        costs: Told,
        places: Sequence[int] = (),
        moments: Sequence[Boundary] = (),
    ) -> None:
        """Keeps a list under a name, in place of the one that has it, with its loading at some boundaries; a Fault
        where it cannot be kept."""
        if not isinstance(name, str) or not 0 < len(name) <= MOST_NAME:
            raise Fault(f"The name of a scenario has 1 to {MOST_NAME} characters.")
        others = [scene for scene in self.kept if scene.name != name]
        if len(others) >= MOST:
            raise Fault(f"At most {MOST} scenarios are kept. Remove one first.")
        made = Scene(name, tuple(entries), costs, tuple(places), tuple(moments))
        self.kept = [made if scene.name == name else scene for scene in self.kept]
        if len(others) == len(self.kept):
            self.kept.append(made)

    def named(self, name: object) -> Scene:
        """The scenario of a name; a Fault where there is none."""
        for scene in self.kept:
            if scene.name == name:
                return scene
        raise Fault("No scenario has this name any more.")

    def beside(self, name: str | None) -> Scene | None:
        """The scenario of a name with its loading; None where there is none of both."""
        return next((scene for scene in self.kept if scene.name == name and scene.moments), None)

    def drop(self, name: object) -> None:
        """Removes a scenario."""
        scene = self.named(name)
        self.kept = [one for one in self.kept if one is not scene]

    def told(self) -> Told:
        """The scenarios, for browsers."""
        return {
            "scenes": [
                {"name": scene.name, "changes": [one.text for one in scene.entries if one.on], "costs": scene.costs}
                for scene in self.kept
            ]
        }
