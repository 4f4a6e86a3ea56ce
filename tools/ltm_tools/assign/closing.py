"""The effect of closing the entry of a link for a while, where nobody, a share or all of those who pass choose another
route.

The informed are a share of those at each node from which the road is in use, for the destinations for which it is; they
are not some drivers. They choose anew from when the road is closed until it is open again; all other shares are those
of the case, as its rows have them. Informed drivers of a share learn, in as many loadings as are wanted, which links
are best with the closure; those of the moment, who are those alone that would come to the road, choose each by the
times of now, and learn nothing.
"""
from __future__ import annotations

import os
from collections.abc import Callable

from ..case import Case
from .assigning import AssignOptions
from .closure import ALL, HALF, MOMENT, NOBODY, WORDS, Closure, Cost, Passed, Response
from .rerouting import Base

__all__ = ["ALL", "HALF", "MOMENT", "NOBODY", "WORDS", "Base", "Closure", "Cost", "Passed", "Response", "respond"]
RESPONDING = AssignOptions(iterations=8)


def respond(
    case: Case,
    closure: Closure,
    informed: int,
    options: AssignOptions = RESPONDING,
    program: str | os.PathLike[str] | None = None,
    done: Callable[[int], object] = lambda _: None,
) -> Response:
    """The effect of a closure on a case as it stands where so many per cent of those who pass choose another route, or
    all do by the times of the `MOMENT`; and edits of splits by which they do. The closure itself is none of them.
    `done` is called with the number of loadings that are done before each, and may end it by an exception."""
    return Base(case, options).response(closure, informed, program, done)
