"""What several tests use: folders that are made and let go, cases as texts, and a program that is made for a test."""
import hashlib
import importlib.machinery
import importlib.util
import os
import shutil
import stat
import sys
import tempfile
import unittest
from collections.abc import Callable
from pathlib import Path
from typing import Any

from ltm_tools import libraries

TOOLS = Path(__file__).resolve().parents[1]
CLONE = TOOLS.parent
EXAMPLES = CLONE / "examples"
BUILT = Path(os.environ.get("LTM") or CLONE / "crates" / "ltm" / "out" / "ltm").absolute()
needs_program = unittest.skipUnless(os.access(BUILT, os.X_OK), "the program ltm is not built")

# how Debian's packages are seen to be there: by the words that they have, a file or a module; libraries by the library
WORDS = {
    "black": ("black",),
    "chromium": ("chromium",),
    "chromium-driver": ("chromedriver",),
    "eslint": ("eslint",),
    "flake8": ("flake8",),
    "mypy": ("mypy",),
    "sumo": ("sumo", "netgenerate", "netconvert", "duarouter"),
}
FILES = {"sumo-tools": "/usr/share/sumo/tools/game/bs3d/bs.net.xml"}
MODULES = {"python3-pip": "pip"}


def is_there(package: str) -> bool:
    """Whether what a test uses of one of Debian's packages is there, wherever it comes from."""
    if package in FILES:
        return os.path.exists(FILES[package])
    if package in MODULES:
        return importlib.util.find_spec(MODULES[package]) is not None
    if package in WORDS:
        return all(shutil.which(word) is not None for word in WORDS[package])
    return not libraries.missing([name for name, other in libraries.PACKAGES.items() if other == package])


def lack_of(*packages: str) -> str:
    """Which of these packages are not there, as the reason of a skip; nothing where all are. `tools/test --without`
    knows packages by these names."""
    absent = [package for package in packages if not is_there(package)]
    return f"not installed: {', '.join(absent)}" if absent else ""


def needs(*packages: str) -> Callable[[Any], Any]:
    """Has a test skipped where one of these packages is not there."""
    lack = lack_of(*packages)
    return unittest.skipIf(lack, lack)


needs_d3 = needs("node-d3")
needs_dask = needs("python3-distributed")
needs_matplotlib = needs("python3-matplotlib")
needs_numpy = needs("python3-numpy")
needs_pandas = needs("python3-pandas")
needs_pip = needs("python3-pip")

# the smallest case, as examples/one_road has it
ROAD = {
    "setup": "step_ms,slots,origin_capacity\n1000,4,1\n",
    "links": "link,from,to,length_m,free_kmh,wave_kmh,jam_per_km\na,n1,n2,20,36,18,150\n",
    "demand": "origin,destination,from_slot,to_slot,vehicles\nn1,n2,0,2,1\n",
    "splits": "node,destination,from_slot,weights\nn1,n2,0,a=1\n",
}


def digest(folder: Path) -> str:
    """The sum of all files of a folder with their names."""
    made = hashlib.sha256()
    for path in sorted(folder.iterdir()):
        made.update(path.name.encode() + b"\0" + path.read_bytes() + b"\0")
    return made.hexdigest()


def script(name: str) -> Any:
    """A script of this folder's parent as a module; nothing is written beside it."""
    loader = importlib.machinery.SourceFileLoader(name, str(TOOLS / name))
    spec = importlib.util.spec_from_loader(name, loader)
    assert spec is not None
    module = importlib.util.module_from_spec(spec)
    sys.modules[name] = module  # dataclasses look a class's module up by its name
    was, sys.dont_write_bytecode = sys.dont_write_bytecode, True
    try:
        loader.exec_module(module)
    finally:
        sys.dont_write_bytecode = was
    return module


class FolderTest(unittest.TestCase):
    """A test with an empty folder of its own, `self.folder`."""

    def setUp(self) -> None:
        made = tempfile.TemporaryDirectory()
        self.addCleanup(made.cleanup)
        self.folder = Path(made.name)

    def case(self, **files: str | bytes | None) -> Path:
        """The smallest case in a folder, with these files in place of its own; None takes one out."""
        folder = self.folder / "case"
        folder.mkdir(exist_ok=True)
        for name, text in {**ROAD, **files}.items():
            path = folder / f"{name}.csv"
            if text is None:
                path.unlink(missing_ok=True)
            else:
                path.write_bytes(text.encode() if isinstance(text, str) else text)
        return folder

    def program(self, body: str) -> Path:
        """A program in Python in place of `ltm`."""
        path = self.folder / "made_program"
        path.write_text(f"#!{sys.executable}\nimport sys\n{body}\n")
        path.chmod(path.stat().st_mode | stat.S_IXUSR)
        return path
