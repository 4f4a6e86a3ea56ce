"""Texts in pictures as they are: matplotlib reads what stands between two `$` as a formula, and leaves out of a legend
what begins with `_`."""
from __future__ import annotations

from collections.abc import Sequence
from typing import TYPE_CHECKING, Any

from ..files import readable

if TYPE_CHECKING:
    from matplotlib.axes import Axes


def plain(text: str) -> str:
    """A text for a picture that is shown as it is."""
    return readable(text).replace("$", r"\$")


def legend(axes: "Axes", lines: Sequence[Any], names: Sequence[str], **more: Any) -> None:
    """A legend with a name for each line, whatever it begins with: the names are put in when it has been made."""
    made = axes.legend(lines, [str(number) for number in range(len(lines))], **more)
    for text, name in zip(made.get_texts(), names):
        text.set_text(plain(name))
