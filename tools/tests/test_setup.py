"""tools/setup: the one list of packages, which has all that the tools and the tests name; where nothing can be
installed it says so, a line for each package."""
import os
import subprocess
import unittest

from support import CLONE, FILES, FolderTest, MODULES, TOOLS, WORDS
from ltm_tools import libraries

APT = """#!/bin/bash
echo "$*" >>"$MADE/asked"
case " $* " in *" sumo "*) echo "E: Unable to locate package sumo"; exit 100 ;; esac
for word; do case $word in install | -*) ;; *=*) ;; *) echo "$word" >>"$MADE/installed" ;; esac; done
"""
QUERY = """#!/bin/bash
grep -qsx "${@: -1}" "$MADE/installed" && printf 'installed %s' "${VERSION:-1.15.0+dfsg}"
"""


def listed(*groups: str) -> list[str]:
    """The packages that it lists."""
    return subprocess.run([TOOLS / "setup", "--list", *groups], stdout=subprocess.PIPE, text=True).stdout.split()


class Packages(unittest.TestCase):
    def test_each_that_is_named_is_listed(self) -> None:
        every = listed("tests")
        self.assertEqual(set(every), {"python3", *libraries.PACKAGES.values(), *WORDS, *FILES, *MODULES})
        self.assertEqual(set(listed()), {"python3", *libraries.PACKAGES.values()})
        self.assertEqual(listed("live"), ["python3", "python3-numpy", "python3-tornado", "node-d3"])

    def test_no_other_list(self) -> None:
        """Documents and scripts name the command, and not a second list."""
        for path in (CLONE / "README.md", CLONE / "CONTRIBUTING.md", CLONE / ".ci" / "run"):
            text = path.read_text(encoding="utf-8")
            self.assertIn("tools/setup", text, path)
            self.assertNotIn("python3-matplotlib", text, path)


class Installs(FolderTest):
    """With an apt-get that is made for the test, which installs all but SUMO."""

    def setUp(self) -> None:
        super().setUp()
        for name, text in (
            ("apt-get", APT),
            ("dpkg-query", QUERY),
            ("id", "#!/bin/sh\necho ${AS:-0}\n"),
        ):
            (self.folder / name).write_text(text)
            (self.folder / name).chmod(0o755)

    def run_setup(self, *words: str, **variables: str) -> tuple[int, list[str]]:
        environment = {**os.environ, "PATH": f"{self.folder}:/usr/bin:/bin", "MADE": str(self.folder), **variables}
        done = subprocess.run([TOOLS / "setup", *words], env=environment, stdout=subprocess.PIPE, text=True)
        return done.returncode, [line for line in done.stdout.splitlines() if not line.startswith("E: ")]

    def test_one_that_cannot_be_had_costs_no_other(self) -> None:
        self.assertEqual(self.run_setup("tests"), (1, ["not installed: sumo: E: Unable to locate package sumo"]))
        self.assertEqual(set((self.folder / "installed").read_text().split()), {*listed("tests"), "update"} - {"sumo"})
        self.assertIn("update", (self.folder / "asked").read_text().splitlines()[0])

    def test_all_are_there(self) -> None:
        (self.folder / "installed").write_text("\n".join(listed("tests")) + "\n")
        self.assertEqual(self.run_setup("tests"), (0, ["all 16 packages are installed"]))
        self.assertFalse((self.folder / "asked").exists())
        self.assertEqual(
            self.run_setup("--check", "tests", VERSION="1.18.0"),
            (1, ["not installed: sumo: this is version 1.18.0, and 1.15.x is wanted"]),
        )

    def test_who_may_not(self) -> None:
        status, lines = self.run_setup("pages", AS="1000")
        self.assertEqual(
            (status, lines[1]), (1, "not installed: node-d3: only root may install it: sudo tools/setup pages")
        )
        self.assertFalse((self.folder / "asked").exists())

    def test_a_group_that_is_none(self) -> None:
        self.assertEqual(self.run_setup("pagess")[0], 2)


if __name__ == "__main__":
    unittest.main()
