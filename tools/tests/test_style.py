"""The style of all Python and JavaScript here: laid out by `black`, and nothing that `flake8`, `mypy` and `eslint` find
with the settings in `tools/.flake8`, `tools/pyproject.toml` and `tools/eslint.json`."""
import os
import subprocess
import unittest
from pathlib import Path

from support import CLONE, TOOLS, needs

PARTS = ("tools", "examples")


# where Debian has the modules that its eslint uses, also for a node of others
NODE_PATH = {"NODE_PATH": "/usr/share/nodejs:/usr/lib/nodejs"}


def finds(*words: str) -> str:
    """What a program finds, run where its settings are; nothing where it ends well."""
    done = subprocess.run(
        words, cwd=TOOLS, capture_output=True, text=True, timeout=600, env={**os.environ, **NODE_PATH}
    )
    return "" if done.returncode == 0 else done.stdout + done.stderr


def is_python(path: Path) -> bool:
    """Whether a file is a module, or a script by its first line."""
    return path.is_file() and (path.suffix == ".py" or path.read_bytes().startswith(b"#!/usr/bin/env python3\n"))


def files() -> list[str]:
    """All files in Python."""
    return [str(path) for part in PARTS for path in sorted((CLONE / part).rglob("*")) if is_python(path)]


def scripts() -> list[str]:
    """All modules in JavaScript."""
    return [str(path) for path in sorted((TOOLS / "ltm_tools").rglob("*.js"))]


class Style(unittest.TestCase):
    def test_files(self) -> None:
        self.assertGreater(len(files()), 100)

    @needs("black")
    def test_layout(self) -> None:
        self.assertEqual(finds("black", "--config", "pyproject.toml", "--check", "--quiet", "--diff", *files()), "")

    @needs("flake8")
    def test_faults(self) -> None:
        self.assertEqual(finds("flake8", *files()), "")

    @needs("eslint")
    def test_scripts(self) -> None:
        self.assertGreater(len(scripts()), 20)
        self.assertEqual(finds("eslint", "--no-eslintrc", "-c", "eslint.json", "--format", "unix", *scripts()), "")

    @needs("mypy")
    def test_types(self) -> None:
        self.assertEqual(finds("mypy"), "")


if __name__ == "__main__":
    unittest.main()
