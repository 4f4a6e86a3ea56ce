"""Tests of tools/layers: levels, arrows, the drawing, and whether a page has it."""

import contextlib
import io
import tempfile
import unittest
from pathlib import Path

from support import script

layers = script("layers")

CRATES = """\
# the program
ltm: ltm_top ltm_left ltm_base
# below it
ltm_top may_wait=2: ltm_left ltm_right ltm_base csv
ltm_left: ltm_base
ltm_right: ltm_base csv
ltm_base:
test_all: ltm_top ltm_base
"""

DRAWING = """\
     4  ltm          ->  top
     3  top          ->  left  right
     2  left  right  ->  base
     1  base

    tests alone
        test_all     ->  top"""


class Draws(unittest.TestCase):
    def test_levels_are_one_above_the_highest_below(self):
        found = layers.levels(layers.read_crates(CRATES))
        self.assertEqual(found, {"ltm": 4, "ltm_top": 3, "ltm_left": 2, "ltm_right": 2, "ltm_base": 1, "test_all": 4})

    def test_arrows_are_those_that_no_other_path_makes(self):
        found = layers.arrows(layers.read_crates(CRATES))
        self.assertEqual(found["ltm"], ["ltm_top"])
        self.assertEqual(found["ltm_top"], ["ltm_left", "ltm_right"])

    def test_drawing(self):
        self.assertEqual(layers.drawing(layers.read_crates(CRATES)), DRAWING)

    def test_a_circle_is_a_fault(self):
        with self.assertRaisesRegex(layers.Fault, "a stands on itself"):
            layers.drawing(layers.read_crates("a: b\nb: a\n"))


class ReplacesTheDrawing(unittest.TestCase):
    def setUp(self):
        room = tempfile.TemporaryDirectory()
        self.addCleanup(room.cleanup)
        self.top = Path(room.name)
        (self.top / "docs").mkdir()
        (self.top / "crates.txt").write_text(CRATES)
        self.page = self.top / layers.PAGE
        self.page.write_text(f"before\n\n{layers.BEGIN}\nold\n{layers.END}\n\nbehind\n")

    def checked(self):
        said = io.StringIO()
        with contextlib.redirect_stdout(said):
            return layers.layers(self.top, check=True), said.getvalue()

    def test_check_tells_of_another_drawing_and_changes_nothing(self):
        before = self.page.read_text()
        status, said = self.checked()
        self.assertEqual((status, said.count("\n")), (1, 1))
        self.assertEqual(self.page.read_text(), before)

    def test_draws_between_the_marks_and_nowhere_else(self):
        self.assertEqual(layers.layers(self.top, check=False), 0)
        page = self.page.read_text()
        self.assertEqual(page, f"before\n\n{layers.BEGIN}\n\n{DRAWING}\n\n{layers.END}\n\nbehind\n")
        self.assertEqual(self.checked(), (0, ""))

    def test_a_page_without_its_marks_is_a_fault(self):
        self.page.write_text("no marks")
        with self.assertRaisesRegex(layers.Fault, "has not the two marks"):
            layers.layers(self.top, check=True)


if __name__ == "__main__":
    unittest.main()
