"""The archives for machines without the kit: what is in them, and that they install and answer there."""
import os
import shutil
import subprocess
import sys
import tarfile
import unittest
from pathlib import Path
from unittest import mock

from support import CLONE, needs_pip
from support_clone import PROVES, SYSTEM, Clone
from ltm_tools.version import VERSION

NAME = f"ltm-{VERSION}-x86_64"


class Packed(Clone):
    """A clone whose program is proved and whose texts are committed."""

    def setUp(self) -> None:
        super().setUp()
        self.rt(PROVES)
        self.dist = self.folder / "dist"
        with mock.patch.dict(os.environ, {"PATH": f"{self.made / 'bin'}:{SYSTEM}", "MADE": str(self.made)}):
            self.build('echo packed: "$@"')
        (self.top / ".gitignore").write_text("out/\n__pycache__/\n")
        self.git("init", "-q")
        self.git("add", ".")
        self.git("-c", "user.name=a", "-c", "user.email=a@b", "commit", "-qm", "all")

    def git(self, *words: str) -> str:
        return subprocess.run(["git", "-C", self.top, *words], check=True, capture_output=True, text=True).stdout

    def pack(self) -> "subprocess.CompletedProcess[str]":
        return self.run_ltm("--package", str(self.dist))

    def unpacked(self) -> Path:
        """The folder that the archive unpacks to."""
        self.assertEqual(self.pack().returncode, 0)
        with tarfile.open(self.dist / f"{NAME}.tar.gz") as tar:
            tar.extractall(self.folder / "unpacked")
        return self.folder / "unpacked" / NAME


class Archive(Packed):
    def install(self, here: Path, into: Path) -> "subprocess.CompletedProcess[str]":
        return subprocess.run(
            [here / "install.sh", into], env={"PATH": SYSTEM}, capture_output=True, text=True, timeout=60
        )

    def test_it_installs_where_no_kit_is(self) -> None:
        here, into = self.unpacked(), self.folder / "into"
        for _ in range(2):  # a copy of before is replaced
            done = self.install(here, into)
            self.assertEqual((done.returncode, done.stderr), (0, ""))
            self.assertEqual(sorted(path.name for path in into.iterdir()), ["ltm", "ltm-tools", "ltm_tools"])
        answer = subprocess.run([into / "ltm", "load"], capture_output=True, text=True)
        self.assertEqual(answer.stdout, "packed: load\n")
        done = subprocess.run([into / "ltm-tools", "--help"], env=self.environment(), capture_output=True, text=True)
        self.assertEqual(done.returncode, 0)

    def test_a_machine_on_which_it_does_not_run(self) -> None:
        """The loader's words, and what the program needs by the versions that it names."""
        with mock.patch.dict(os.environ, {"PATH": f"{self.made / 'bin'}:{SYSTEM}", "MADE": str(self.made)}):
            self.build("echo ltm: no such library >&2\nexit 1\n# \0GLIBC_2.9\0GLIBC_2.34\0GLIBC_2.28")
        here = self.unpacked()
        done = self.install(here, self.folder / "into")
        self.assertEqual((done.returncode, (self.folder / "into").exists()), (1, False))
        needs = "ltm does not run on this machine: it needs Linux on x86_64 with glibc 2.34 or later"
        self.assertIn(needs, done.stderr)
        self.assertIn("ltm: no such library", done.stderr)
        self.assertIn("It needs Linux on x86_64 with glibc 2.34 or later.", (here / "PROVED.md").read_text())
        wheels = [path.name for path in self.dist.glob("*.whl")]
        self.assertEqual(wheels, [f"ltm-{VERSION}-py3-none-manylinux_2_34_x86_64.whl"])

    def test_what_is_not_to_be_replaced(self) -> None:
        here, into = self.unpacked(), self.folder / "into"
        into.mkdir()
        (into / "ltm").write_text("mine")
        done = self.install(here, into)
        self.assertEqual((done.returncode, (into / "ltm").read_text()), (1, "mine"))
        self.assertIn("was not installed by this script: move it away", done.stderr)

    def test_a_file_that_was_changed(self) -> None:
        here = self.unpacked()
        (here / "ltm").write_text("another")
        done = self.install(here, self.folder / "into")
        self.assertEqual(done.returncode, 1)
        self.assertIn("these are not the files that were packed", done.stderr)
        self.assertFalse((self.folder / "into").exists())

    def test_the_note(self) -> None:
        here = self.unpacked()
        note = (here / "PROVED.md").read_text()
        for told in (f"`ltm` {VERSION}", self.git("rev-parse", "HEAD").strip(), "made-kit", "No licence"):
            self.assertIn(told, note)
        done = subprocess.run(
            ["sha256sum", "--quiet", "--check", here / "ltm.sums"], cwd=self.top, capture_output=True, text=True
        )
        self.assertEqual((done.returncode, done.stdout), (0, ""))

    def test_the_same_bytes(self) -> None:
        self.pack()
        before = {path.name: path.read_bytes() for path in self.dist.iterdir()}
        shutil.rmtree(self.dist)
        self.pack()
        self.assertEqual({path.name: path.read_bytes() for path in self.dist.iterdir()}, before)
        self.assertEqual(len(before), 2)

    def test_changes_that_no_commit_names(self) -> None:
        (self.top / "HANDLES").write_text("Handles allowed: none.\n")
        with mock.patch.dict(os.environ, {"PATH": f"{self.made / 'bin'}:{SYSTEM}", "MADE": str(self.made)}):
            self.build("echo packed")
        done = self.pack()
        self.assertEqual((done.returncode, self.dist.exists()), (1, False))
        self.assertIn("has changes that are not committed, the first in HANDLES", done.stderr)

    def test_a_program_that_is_not_proved(self) -> None:
        self.change(self.text("ltm_a"), "// changed\n")
        done = self.pack()
        self.assertEqual((done.returncode, self.dist.exists()), (1, False))
        self.assertIn("./ltm --prove first", done.stderr)

    def change(self, path: Path, text: str) -> None:
        path.write_text(text)

    def text(self, crate: str) -> Path:
        return self.top / "crates" / crate / "src" / "lib.rt"


class Wheel(Packed):
    @needs_pip
    def test_pip_installs_it(self) -> None:
        self.assertEqual(self.pack().returncode, 0)
        wheel, venv = next(self.dist.glob("*.whl")), self.folder / "venv"
        subprocess.run([sys.executable, "-m", "venv", "--without-pip", venv], check=True, capture_output=True)
        pip = [sys.executable, "-m", "pip", "--python", str(venv / "bin" / "python"), "--disable-pip-version-check"]
        done = subprocess.run([*pip, "install", "--no-index", "--quiet", wheel], capture_output=True, text=True)
        self.assertEqual(done.returncode, 0, done.stderr)
        environment = {"PATH": SYSTEM}
        answer = subprocess.run([venv / "bin" / "ltm", "load"], env=environment, capture_output=True, text=True)
        self.assertEqual(answer.stdout, "packed: load\n")
        found = "import ltm_tools.program as it; print(it.find_program())"
        done = subprocess.run([venv / "bin" / "python", "-c", found], env=environment, capture_output=True, text=True)
        self.assertEqual(done.stdout, f"{(venv / 'bin' / 'ltm')}\n", done.stderr)
        done = subprocess.run(
            [venv / "bin" / "ltm-tools", "inspect", CLONE / "examples" / "one_road"],
            env=environment,
            capture_output=True,
            text=True,
        )
        self.assertIn("network     1 link", done.stdout, done.stderr)


if __name__ == "__main__":
    unittest.main()
