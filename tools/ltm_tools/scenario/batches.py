"""Edits cut into batches, each of which a line of a script takes."""
from __future__ import annotations

import json
from collections.abc import Iterable, Iterator

from ..formats import MOST_EDITS, MOST_LINE_BYTES
from .edits import Edit

Batch = list[Edit]
ROOM = len(json.dumps({"do": "edit", "edits": []}))
"""The bytes of a line beside its edits."""


def in_batches(edits: Iterable[Edit], room: int = ROOM) -> Iterator[Batch]:
    """Edits in batches, as few as leave so many bytes of their lines. An edit that is too long stands alone."""
    batch: Batch = []
    left = MOST_LINE_BYTES - room
    for edit in edits:
        size = len(json.dumps(edit.told())) + len(", ")
        if batch and (len(batch) == MOST_EDITS or size > left):
            yield batch
            batch, left = [], MOST_LINE_BYTES - room
        batch.append(edit)
        left -= size
    if batch:
        yield batch
