"""No road of an example seems to save time when it is closed, but by routes that are better without the closure too."""
import importlib
import subprocess
import sys
import unittest
from pathlib import Path
from typing import Any
from unittest.mock import patch

from support import BUILT, EXAMPLES, FolderTest, needs_numpy, needs_program
from ltm_tools import libraries

if not libraries.missing(("numpy",)):
    from ltm_tools.assign.closure import ALL, HALF, MOMENT, NOBODY, Closure, Cost
    from ltm_tools.errors import Fault


def script() -> Any:
    """The script as a module."""
    with patch.object(sys, "path", [str(EXAMPLES / "assign"), *sys.path]):
        return importlib.import_module("gains")


@needs_numpy
class Gains(FolderTest):
    def test_what_saves_time_by_itself(self) -> None:
        """Half save 10 in place of the 30 that their routes save with the road open; all save 5 beyond what theirs
        do, which no closure should."""
        answers = [Cost(NOBODY, 1200, 0, 0.0, 0, 1000), Cost(HALF, 990, 0, 0.0, 1, 970), Cost(ALL, 965, 0, 0.0, 1, 970)]
        self.assertEqual(list(script().gains(["x"], [answers])), [("x", "all", 5)])

    def test_what_is_told(self) -> None:
        """Little time is told in vehicle seconds, and is not 0.00 hours."""
        little, much = (script().Gain("x", "all", saved) for saved in (970_000, 36 * 10**9))
        first = "8 answers of 2 roads, of which 1 save time by themselves"
        self.assertEqual([*script().told(2, [little])], [first, "x, all: 0.97 vehicle seconds"])
        self.assertEqual([*script().told(2, [much])], [first, "x, all: 10.00 vehicle hours"])
        self.assertEqual([*script().told(2, [])], [first.replace("1", "0")])

    def test_answers_that_are_kept_are_read_again(self) -> None:
        """Those of two roads, one after another; a file of another closure is refused."""
        path, answers = self.folder / "kept.csv", {}
        for road, spent in (("x", 1200), ("y", 900)):
            answers[road] = [Cost(informed, spent, 3, 0.0, 0, 1000) for informed in (NOBODY, MOMENT, HALF, ALL)]
            script().keep(path, Closure(road, 5, 9), answers[road])
        self.assertEqual(script().kept_answers(path, (5, 9)), answers)
        self.assertEqual(len(list(script().gains(answers, answers.values()))), 4)
        with self.assertRaisesRegex(Fault, "closed in other slots"):
            script().kept_answers(path, (5, 10))
        self.assertEqual(script().kept_answers(self.folder / "none.csv", (5, 9)), {})

    @needs_program
    def test_the_roads_of_the_example(self) -> None:
        """All roads in use, and a second time from what was kept."""
        told = "28 answers of 7 roads, of which 0 save time by themselves\n"
        kept = self.folder / "kept.csv"
        self.assertEqual(self.run_script("--kept", kept), (told, ""))
        self.assertEqual(kept.read_text().count("\n"), 29)
        self.assertEqual(self.run_script("--kept", kept), (told, ""))
        self.assertEqual(kept.read_text().count("\n"), 29)

    @needs_program
    def test_a_road_that_nobody_enters_is_left_out(self) -> None:
        told = self.run_script("--to", "0:00:10", "--from", "0:00")[0]
        self.assertEqual(told, "8 answers of 2 roads, of which 0 save time by themselves\n")

    def run_script(self, *words: "str | Path") -> "tuple[str, str]":
        """What the script prints of the example, closed from 0:10 to 0:15 where no words say otherwise."""
        line = [
            sys.executable,
            EXAMPLES / "assign" / "gains.py",
            EXAMPLES / "closures",
            "--from",
            "0:10",
            "--to",
            "0:15",
        ]
        done = subprocess.run(
            [*map(str, line), *map(str, words), "--program", str(BUILT)], capture_output=True, text=True
        )
        return done.stdout, done.stderr


if __name__ == "__main__":
    unittest.main()
