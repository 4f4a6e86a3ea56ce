"""Tables of the page, and numbers in them."""
from collections.abc import Sequence
from dataclasses import dataclass, field

DASH = "-"


@dataclass
class Table:
    """A table of the page: its heads, its rows, and remarks below it."""

    heads: Sequence[str]
    rows: list[Sequence[str]] = field(default_factory=list)
    remarks: list[str] = field(default_factory=list)

    def text(self) -> str:
        """The table in Markdown."""
        lines = [self.heads, ["---"] * len(self.heads), *self.rows]
        table = "\n".join("| " + " | ".join(cells) + " |" for cells in lines)
        return "\n\n".join([table, *self.remarks])


def figure(value: float) -> str:
    """A number with three figures, or whole where it has more."""
    if value >= 100:
        return f"{value:,.0f}"
    return f"{value:.1f}" if value >= 10 else f"{value:.2f}" if value >= 1 else f"{value:.3f}"


def amount(cells: float) -> str:
    """Cells in millions."""
    return f"{cells / 1e6:,.0f} million"


def ratio(ours: float, theirs: float) -> str:
    """How many times theirs ours is."""
    return f"{ours / theirs:.2f}" if theirs > 0 else DASH


def clock_text(seconds: float) -> str:
    """Seconds by a clock, with two figures, or whole where they have more: the next figure is another one each time."""
    return f"{seconds:,.0f} s" if seconds >= 10 else f"{seconds:.1f} s" if seconds >= 1 else f"{seconds:.2g} s"


def memory_text(megabytes: float) -> str:
    """Memory in MB, or in GB where it is one or more."""
    return f"{megabytes:,.0f} MB" if megabytes < 1024 else f"{megabytes / 1024:.1f} GB"
