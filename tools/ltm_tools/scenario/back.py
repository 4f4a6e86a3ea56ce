"""Edits that take a scenario back, so that a session shows its case again without being opened anew."""
from __future__ import annotations

from collections.abc import Iterable

from .edits import Demand, Edit
from .rows import OwnRows


def taken_back(made: Iterable[Edit], own: OwnRows) -> list[Edit] | None:
    """Edits after which the session's loading is that of the case again, where these were made; None where no edits do
    that: the horizon never falls, a new destination stays, and the first split rows of a node for a destination too.
    Rows of demand that go come before those that come back, so that there are never more than may be."""
    found: dict[object, Edit] = {}
    for edit in made:
        back = edit.back(own)
        if back is None:
            return None
        for one in back:
            found[one.key] = one
    return sorted(found.values(), key=lambda edit: isinstance(edit, Demand) and edit.units > 0)
