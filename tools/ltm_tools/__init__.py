"""Tools beside the proved program `ltm`: cases, sessions, curve files, and commands over them.

    from ltm_tools import Case, Curves, Session, edits

Nothing here is proved. What a case is, and what a loading is, `ltm` decides; these tools read and write its files.

Units: times in milliseconds (`ms`), amounts of traffic in thousandths of a vehicle (`units`), lengths in metres, speeds
in km/h, jam densities in vehicles/km, slots counted from 0.
"""
from importlib import import_module
from typing import TYPE_CHECKING

if TYPE_CHECKING:
    from .case import Case as Case
    from .errors import Fault as Fault
    from .loading import delay as delay
    from .loading.curves import Curves as Curves
    from .scenario import edits as edits
    from .scenario.session import Refused as Refused, Session as Session

CLASSES = {
    "Case": "case",
    "Curves": "loading.curves",
    "Fault": "errors",
    "Refused": "scenario.session",
    "Session": "scenario.session",
}
MODULES = {"delay": "loading.delay", "edits": "scenario.edits"}


def __getattr__(name: str) -> object:
    """A class, or a module, from its place when it is first asked for: so that a command loads no more than it
    needs."""
    if name in MODULES:
        return import_module(f".{MODULES[name]}", __name__)
    if name not in CLASSES:
        raise AttributeError(f"module {__name__!r} has no attribute {name!r}")
    return getattr(import_module(f".{CLASSES[name]}", __name__), name)
