"""Tests of tools/clauses: heads, public calls with their clauses, and whether the page is what the crates say."""
import contextlib
import io
import tempfile
import unittest
from pathlib import Path
from unittest import mock

from support import FolderTest, script

clauses = script("clauses")

ROOT = """\
//! - **What it is**: a gate: what passes it is
//!   counted.
//! - **On what it stands**: `ltm_units` alone.
mod gate;
pub use gate::{Gate, gates_open};
"""
SOURCE = """\
/// A gate opens. It does so
/// at once.
pub fn gates_open()
    ensures { GatesOpen }
{}

/// Not passed on.
pub fn hidden()
    ensures { GatesOpen }
{}

impl Gate {
    /// How many have passed; none
    /// at first.
    #[inline]
    pub fn passed(&self) -> u32
        requires { self.now }
        ensures { result ≡ self.now }
        ensures small { result < 2 }
    {
        self.inner()
    }

    fn inner(&self) -> u32
        ensures { IsInner }
    {
        0
    }
}
"""


class Reads(FolderTest):
    def setUp(self) -> None:
        super().setUp()
        (self.folder / "lib.rt").write_text(ROOT, encoding="utf-8")
        (self.folder / "gate.rt").write_text(SOURCE, encoding="utf-8")

    def test_head(self) -> None:
        self.assertEqual(
            clauses.head_of(self.folder),
            {"What it is": "a gate: what passes it is counted.", "On what it stands": "`ltm_units` alone."},
        )

    def test_public_calls_alone_with_their_clauses(self) -> None:
        found = clauses.calls_of(self.folder / "gate.rt", clauses.passed_on(self.folder))
        self.assertEqual(
            [(call.name, call.clauses, call.says) for call in found],
            [
                ("gates_open", ["`GatesOpen`"], "A gate opens"),
                ("Gate::passed", ["–", "`small`"], "How many have passed; none at first"),
            ],
        )

    def test_section(self) -> None:
        told = clauses.section("ltm_gate", 2, self.folder)
        self.assertTrue(told.startswith("## `ltm_gate`\n\nLevel 2. A gate: what passes it is counted.\n\nIt stands on"))
        self.assertEqual(told.splitlines()[-1], "`Gate::passed` | –, `small` | How many have passed; none at first")


class ThePage(unittest.TestCase):
    def test_is_what_the_crates_say(self) -> None:
        said = io.StringIO()
        with contextlib.redirect_stderr(said):
            self.assertEqual(clauses.main(["--check"]), 0, said.getvalue())

    def test_has_each_crate_that_is_no_test(self) -> None:
        page = (clauses.TOP / clauses.PAGE).read_text(encoding="utf-8")
        crates = {path.name for path in (clauses.TOP / "crates").iterdir() if path.name.startswith("ltm")}
        self.assertEqual({line[4:-1] for line in page.splitlines() if line.startswith("## `")}, crates)

    def test_another_page_is_told(self) -> None:
        with tempfile.TemporaryDirectory() as folder:
            other = Path(folder, "CRATES.md")
            other.write_text("old")
            with mock.patch.object(clauses, "PAGE", str(other)), contextlib.redirect_stderr(io.StringIO()) as said:
                self.assertEqual(clauses.main(["--check"]), 1)
                self.assertIn("run tools/clauses", said.getvalue())
                self.assertEqual((other.read_text(), clauses.main([])), ("old", 0))
                self.assertEqual(clauses.main(["--check"]), 0)


if __name__ == "__main__":
    unittest.main()
