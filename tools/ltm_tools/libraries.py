"""Libraries that some commands need beside Python's own: found, or named with the package that has them.

Debian's packages belong to /usr/bin/python3, and `python3` on the path may be another Python. So where a library is
missing from the Python that runs, and /usr/bin/python3 has it, the command is run by that one.
"""
import importlib
import importlib.util
import os
import re
import subprocess
import sys
from collections.abc import Sequence
from pathlib import Path
from typing import Any

from .errors import Fault

DEBIAN_PYTHON = "/usr/bin/python3"
D3 = "d3"  # the one that is no module of Python, but a script for browsers
PACKAGES = {
    D3: "node-d3",
    "distributed": "python3-distributed",
    "matplotlib": "python3-matplotlib",
    "numpy": "python3-numpy",
    "pandas": "python3-pandas",
    "tornado": "python3-tornado",
}
D3_PLACES = (
    "/usr/share/nodejs/d3/dist/d3.min.js",
    "/usr/share/javascript/d3/d3.min.js",
    "/usr/lib/node_modules/d3/dist/d3.min.js",
)
D3_VERSION = re.compile(rb"d3js\.org v([0-9]+)")
D3_FITS = range(5, 8)
TRIED = "LTM_TOOLS_RUN_AGAIN"  # set in the environment of a run by the other Python, so that there is no third
PROBE = (
    "import importlib.util as u, sys; print(*[n for n in sys.argv[1:] if u.find_spec(n) is None]);"
    " sys.exit(sys.version_info < (3, 10))"
)
RUN = "import sys; sys.path.append(sys.argv.pop(1)); from ltm_tools.cli import main; sys.exit(main())"


def is_d3(path: str) -> bool:
    """Whether a file is the library d3, of a version that the pages work with."""
    try:
        with open(path, "rb") as file:
            version = D3_VERSION.search(file.read(200))
    except OSError:
        return False
    return version is not None and int(version[1]) in D3_FITS


def d3_place() -> str | None:
    """The file of d3 that LTM_D3 names, or that Debian's package has; None where there is none."""
    places = [*filter(None, [os.environ.get("LTM_D3")]), *D3_PLACES]
    return next((place for place in places if is_d3(place)), None)


def missing(names: Sequence[str]) -> list[str]:
    """Which of these libraries are not there, by the Python that runs."""
    return [name for name in names if (d3_place() if name == D3 else importlib.util.find_spec(name)) is None]


def packages_of(names: Sequence[str]) -> str:
    """The Debian packages that have these libraries."""
    return " ".join(PACKAGES.get(name, name) for name in names)


def need(names: Sequence[str], more: str = "", script: str | None = None) -> None:
    """Returns where all these libraries are there; else runs the command, or this script, anew by Debian's Python where
    that has them, and else raises a Fault that names all the packages, and what `more` says."""
    absent = missing(names)
    if not absent:
        return
    modules = [name for name in absent if name != D3]
    if modules and TRIED not in os.environ and debian_has([name for name in names if name != D3]):
        sys.stdout.flush()
        tools = ["-c", RUN, str(Path(__file__).resolve().parents[1])]
        arguments = [DEBIAN_PYTHON, *(tools if script is None else [script]), *sys.argv[1:]]
        os.execve(DEBIAN_PYTHON, arguments, {**os.environ, TRIED: "1"})
    raise Fault(f"{lack_of(absent)}{more}")


def lack_of(absent: Sequence[str]) -> str:
    """What is to be done where these libraries are missing."""
    modules = [name for name in absent if name != D3]
    named = [f"{' and '.join(modules)} for Python"] if modules else []
    ways = [f"python3 -m pip install {' '.join(modules)}"] if modules else []
    if D3 in absent:
        named.append("the library d3, version 5 to 7")
        ways.append("--d3 FILE with a d3.min.js")
    has_then = f", which {DEBIAN_PYTHON} has then" if modules else ""
    other = " and ".join(ways)
    return f"this needs {', and '.join(named)}: apt-get install {packages_of(absent)}{has_then}, or {other}"


def is_debian_python() -> bool:
    """Whether Debian's Python runs, and sees its packages: one in a virtual environment does not."""
    same = os.path.realpath(DEBIAN_PYTHON) == os.path.realpath(sys.executable)
    return same and sys.prefix == sys.base_prefix


def debian_missing(names: Sequence[str]) -> list[str] | None:
    """Which of these libraries Debian's Python does not have; None where that one runs, or none that is recent."""
    if not os.access(DEBIAN_PYTHON, os.X_OK) or is_debian_python():
        return None
    told = subprocess.run([DEBIAN_PYTHON, "-c", PROBE, *names], stdout=subprocess.PIPE, stderr=subprocess.DEVNULL)
    return None if told.returncode else told.stdout.decode().split()


def debian_has(names: Sequence[str]) -> bool:
    """Whether Debian's Python is another than the one that runs, and has all these libraries."""
    return debian_missing(names) == []


def pandas_or_fault() -> Any:
    """The library pandas, for what gives its frames; a Fault that names the package where it is not there."""
    try:
        return importlib.import_module("pandas")
    except ImportError:
        raise Fault(
            "this needs pandas for Python: apt-get install python3-pandas, which /usr/bin/python3 has then"
        ) from None
