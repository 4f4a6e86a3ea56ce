"""All tests of the tools where none of Debian's packages is installed: none fails, and each that is skipped says what
it needs. So no test can want a package that it does not ask for."""
import os
import re
import shutil
import site
import subprocess
import sys
import unittest

from support import FILES, TOOLS, WORDS
from ltm_tools import libraries

BARE = "LTM_TESTS_BARE"  # set in the environment of the run without packages
# hides folders behind an empty one, and programs behind what cannot be run, for the command that follows alone
HIDE = (
    'while [ "$1" != -- ]; do if [ -d "$1" ]; then mount -t tmpfs -o ro tmpfs "$1"; else mount --bind /dev/null "$1";'
    ' fi || exit 99; shift; done; shift; exec "$@"'
)
SKIPPED = re.compile(r"skipped: .*: (not installed: |no program is built|the program ltm is not built|this run is)")


def hidden() -> list[str]:
    """The folders of libraries, and the programs, that packages have."""
    folders = [*site.getsitepackages(), *(os.path.dirname(place) for place in (*libraries.D3_PLACES, *FILES.values()))]
    programs = [shutil.which(word) for words in WORDS.values() for word in words]
    return [path for path in dict.fromkeys([*folders, *programs]) if path is not None and os.path.exists(path)]


def without_packages() -> list[str]:
    """The words before a command that take the packages from it: by mounts, where there is the right to."""
    for rights in (["unshare", "--mount"], ["unshare", "--mount", "--map-root-user"]):
        words = [*rights, "sh", "-c", HIDE, "sh", *hidden(), "--"]
        if subprocess.run([*words, "true"], capture_output=True).returncode == 0:
            return [*words, sys.executable]
    return [sys.executable, "-I", "-S"]


class Bare(unittest.TestCase):
    @unittest.skipIf(BARE in os.environ, "this run is the one without packages")
    def test_all(self) -> None:
        environment = {**os.environ, BARE: "1", libraries.TRIED: "1", "PYTHONNOUSERSITE": "1"}
        done = subprocess.run(
            [*without_packages(), str(TOOLS / "test")],
            env=environment,
            stdin=subprocess.DEVNULL,
            stdout=subprocess.PIPE,
            stderr=subprocess.STDOUT,
            text=True,
        )
        self.assertEqual(done.returncode, 0, done.stdout[-20_000:])
        skipped = [line for line in done.stdout.splitlines() if line.startswith("skipped: ")]
        self.assertEqual([line for line in skipped if not SKIPPED.match(line)], [])
        if os.path.exists("/usr/bin/dpkg"):
            self.assertGreater(len(skipped), 20)


if __name__ == "__main__":
    unittest.main()
