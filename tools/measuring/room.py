"""What all sections share: where they work, which programs are measured, and the towns that several use."""
import functools
import shutil
import sys
from collections.abc import Sequence
from dataclasses import dataclass
from pathlib import Path

from ltm_tools.program import CLONE

from .runs import Cost, cost_of

TOOLS = CLONE / "tools" / "ltm-tools"
MAKE = CLONE / "examples" / "from_sumo" / "make.py"
STEPS = {"town": "5s", "region": "15s"}
HORIZONS = {"town": "75", "region": "45"}
ENDS = ("--ends", "node")  # one for each node, so that the region has 12 destinations


@dataclass(frozen=True)
class Room:
    """A folder to work in; the program, the plain engine where there is one, how much memory runs may take, in MB, and
    in how many iterations a city is assigned; and which shapes of networks are measured, all where none is named."""

    folder: Path
    program: Path
    plain: Path | None
    memory: float
    iterations: int = 20
    shapes: tuple[str, ...] = ()

    def tool(self, *words: str | Path) -> Cost:
        """What a command of the tools costs, with all that it starts."""
        return cost_of([sys.executable, TOOLS, *words])

    def made(self, name: str, *more: str) -> tuple[Path, Cost]:
        """A case of the example's town or region, imported with more words, and what the import cost."""
        return imported(self.folder, name, more)


def has_sumo() -> bool:
    """Whether SUMO is installed."""
    return all(shutil.which(word) for word in ("sumo", "netgenerate", "duarouter"))


@functools.cache
def sources(folder: Path, name: str) -> list[Path]:
    """The files of a made town or region: net, vehicles, and the signals of the town."""
    where = folder / name
    cost_of([sys.executable, MAKE, name, where])
    kinds = ("net", "rou", "add") if name == "town" else ("net", "rou")
    return [where / f"{name}.{kind}.xml" for kind in kinds]


@functools.cache
def imported(folder: Path, name: str, more: Sequence[str]) -> tuple[Path, Cost]:
    """See `Room.made`."""
    files = sources(folder, name)
    case = folder / "_".join([name, *(word.strip("-") for word in more)])
    fit = ("--fit", STEPS[name], "--horizon", HORIZONS[name])
    cost = cost_of([sys.executable, TOOLS, "from-sumo", *files, case, *fit, "--saturation", "road", *ENDS, *more])
    return case, cost


WHOLE = ("--turns", "none", "--no-yellow", "--entries", "none")  # as the tutorial has the town
