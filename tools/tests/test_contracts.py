"""Tests of tools/contracts: what a contract is, which arguments count, and what is over a measure."""

import contextlib
import io
import sys
import tempfile
import unittest
from pathlib import Path
from unittest import mock

from support import script

contracts = script("contracts")

SOURCE = (
    """\
pub trait Gate {
    /// Two clauses, with a comment between, and no body.
    fn pass(&mut self, alloc: Global, who: u32) -> bool
        requires { who < 65536 }

        // and it opens
        ensures opens { result ≡ true };
}

pub(crate) fn plain(a: u32, b: &[(u32, u32)], mut c: Vec<u32>) -> u32 {
    a
}

pub fn wide<K: Kind, F: Fn(u32, u32) -> u32>(&self, each: F, to: [u32; 4])
    requires room { (setting_of scenario.now).slots ≤ """
    + "x" * 80
    + """ }
{
    within(each)
}
"""
)


def functions():
    with tempfile.TemporaryDirectory() as folder:
        path = Path(folder) / "a.rt"
        path.write_text(SOURCE, encoding="utf-8")
        return list(contracts.functions_of(path, Path(folder)))


class Reads(unittest.TestCase):
    def test_each_function_with_its_clauses(self):
        self.assertEqual(
            [(it.name, it.public, it.clauses) for it in functions()],
            [("pass", False, 2), ("plain", False, 0), ("wide", True, 1)],
        )

    def test_arguments_without_self_and_the_allocator(self):
        self.assertEqual([it.arguments for it in functions()], [1, 3, 2])

    def test_lines_of_a_contract_are_its_clauses_alone(self):
        self.assertEqual([[number for number, _ in it.lines] for it in functions()], [[4, 7], [], [15]])


class Heads(unittest.TestCase):
    def test_each_of_the_four_lines_is_asked_for(self):
        with tempfile.TemporaryDirectory() as folder:
            lines = [f"//! - **{it}**: so." for it in contracts.HEADS]
            (Path(folder) / "main.rt").write_text("\n".join(lines), encoding="utf-8")
            self.assertEqual(contracts.heads_missing(Path(folder)), [])
            (Path(folder) / "main.rt").write_text(
                "\n".join(lines[:2] + [lines[2].replace("**", "")] + lines[3:]), encoding="utf-8"
            )
            self.assertEqual(contracts.heads_missing(Path(folder)), ["What a call costs"])


class Prints(unittest.TestCase):
    def run_on(self, *words):
        with tempfile.TemporaryDirectory() as folder:
            source = Path(folder) / "crates" / "ltm_gate" / "src"
            source.mkdir(parents=True)
            (source / "lib.rt").write_text(SOURCE, encoding="utf-8")
            out, err = io.StringIO(), io.StringIO()
            with mock.patch.object(contracts, "TOP", Path(folder)), mock.patch.object(
                sys, "argv", ["contracts", *words]
            ):
                with contextlib.redirect_stdout(out), contextlib.redirect_stderr(err):
                    status = contracts.main()
        return status, out.getvalue(), err.getvalue()

    def test_places_and_counts(self):
        status, out, _ = self.run_on("ltm_gate")
        self.assertEqual(status, 0)
        lines = out.splitlines()
        self.assertEqual(lines[0], "crates/ltm_gate/src/lib.rt:15: wide: 136 columns")
        self.assertEqual(lines[1], "crates/ltm_gate/src/lib.rt:4: pass: 65536")
        self.assertEqual(lines[2], "3 functions, 3 clauses in 3 lines")
        self.assertEqual(lines[3], "lines over 100 columns: 1 (33.3 in 100); over 120: 1")
        self.assertEqual(
            lines[5], "lines with a number that has no name: 1; `(setting_of scenario.now)` stands 1 times"
        )

    def test_no_such_crate(self):
        self.assertEqual(self.run_on("ltm_none"), (1, "", "contracts: there is no crate ltm_none\n"))


if __name__ == "__main__":
    unittest.main()
