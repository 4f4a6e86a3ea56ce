"""Tests of tools/try_wrong: how it reads what `rt must-fail` says, and what it copies."""

import tempfile
import unittest
from pathlib import Path

from support import script

try_wrong = script("try_wrong")
Edit = try_wrong.Edit

# As `rt must-fail` wrote it, cut in their ends.
SAID = """\
rt: ltm_limits: 1 of its 5 must-fail edits were tried by an earlier run on this machine, and nothing that they\
 stand on has changed
rt: must-fail ltm_limits/never_set_is_closed.edit: refused, as it must be: src/limits.rt:40:9: error: open goal
rt: must-fail ltm_limits/slow.edit: refused, as it must be (only by a limit of the prover, which gave no\
 verdict): out of steps
rt: must-fail ltm_limits/same_as_before.edit: NOT REFUSED: the crate is still proved with this edit (one\
 that means the same as before cannot be refused: remove it)
rt: must-fail ltm_limits/old_text.edit: BAD EDIT: an 'old:' text is in src/limits.rt 0 times, and not once
rt: must-fail ltm_limits/killed.edit: NOT TRIED: its check was killed, most likely for memory, so\
 nothing is known of it: run this again
"""


class ReadsVerdicts(unittest.TestCase):
    def test_each_kind(self):
        names = ["never_set_is_closed", "slow", "same_as_before", "old_text", "killed", "unheard_of"]
        found = try_wrong.verdicts([Edit("ltm_limits", it) for it in names], SAID.splitlines())
        self.assertEqual(
            [it.kind for it in found], ["refused", "refused", "NOT REFUSED", "BAD EDIT", "not tried", "not tried"]
        )
        self.assertEqual(try_wrong.summary(found), "2 refused, 4 not")

    def test_line_tells_why_not(self):
        found = try_wrong.read_verdict(SAID.splitlines()[4])
        self.assertEqual(
            found.line(), "ltm_limits/old_text: BAD EDIT: an 'old:' text is in src/limits.rt 0 times, and not once"
        )
        self.assertEqual(try_wrong.read_verdict(SAID.splitlines()[1]).line(), "ltm_limits/never_set_is_closed: refused")

    def test_same_name_in_another_crate_tells_nothing(self):
        found = try_wrong.verdicts([Edit("ltm_curve", "never_set_is_closed")], SAID.splitlines())
        self.assertEqual(found[0].kind, "not tried")

    def test_other_lines_tell_of_no_edit(self):
        self.assertIsNone(try_wrong.read_verdict("rt: ltm_limits: begins with what a check kept in /tmp/x"))


class CopiesTrees(unittest.TestCase):
    def setUp(self):
        room = tempfile.TemporaryDirectory()
        self.addCleanup(room.cleanup)
        self.top, self.scratch = Path(room.name, "top"), Path(room.name, "scratch")
        for path in (
            "crates/a/src/lib.rt",
            "crates/a/out/rlib/big",
            "crates/a/out/incremental/a",
            "crates/a/out/a",
            "crates/a/wrong/one.edit",
            "crates/a/must-fail/two.edit",
            "crates/b/src/lib.rt",
            "crates/b/out/rlib/small",
            "crates/b/out/incremental/b",
            "crates.txt",
            "HANDLES",
        ):
            file = self.top / path
            file.parent.mkdir(parents=True, exist_ok=True)
            file.write_text(path)

    def test_all_edits_in_one_folder_and_all_libraries(self):
        try_wrong.copy_tree(self.top, self.scratch, ["a"])
        self.assertEqual(sorted(it.name for it in self.scratch.glob("crates/a/must-fail/*")), ["one.edit", "two.edit"])
        self.assertEqual((self.scratch / "crates/a/must-fail/one.edit").read_text(), "crates/a/wrong/one.edit")
        built = sorted(
            str(it.relative_to(self.scratch)) for it in self.scratch.glob("crates/*/out/**/*") if it.is_file()
        )
        self.assertEqual(built, ["crates/a/out/incremental/a", "crates/a/out/rlib/big", "crates/b/out/rlib/small"])
        self.assertTrue((self.top / "crates/a/wrong/one.edit").exists())

    def test_names(self):
        self.assertEqual(try_wrong.chosen(self.top, []), ["a"])
        self.assertEqual(try_wrong.edits_of(self.top / "crates/a"), [Edit("a", "one"), Edit("a", "two")])
        with self.assertRaisesRegex(try_wrong.Fault, "c is no crate"):
            try_wrong.chosen(self.top, ["c"])

    def test_one_name_twice_is_a_fault(self):
        (self.top / "crates/a/must-fail/one.edit").write_text("")
        with self.assertRaisesRegex(try_wrong.Fault, "one.edit stands in wrong/ and in must-fail/"):
            try_wrong.edits_of(self.top / "crates/a")


if __name__ == "__main__":
    unittest.main()
