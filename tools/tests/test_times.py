"""Times of paths: by hand on the worked corridor, and one link against what the program and another engine answer."""
import csv
import io
import random
import unittest
from contextlib import redirect_stderr, redirect_stdout

from support import BUILT, EXAMPLES, FolderTest, needs_program
from support_loadings import DATA, read
from ltm_tools import cli
from ltm_tools.commands.times import span
from ltm_tools.errors import Fault
from ltm_tools.loading.loaded import loaded
from ltm_tools.loading.times import Path, TripTimes, at, first_moment
from ltm_tools.scenario.session import Session


class ByHand(unittest.TestCase):
    def test_moments_of_a_curve(self) -> None:
        counts = [0, 0, 100, 103]
        self.assertEqual(
            [at(counts, 1000, ms) for ms in (0, 1000, 1005, 1500, 2000, 2333, 2334, 3000)],
            [0, 0, 0, 50, 100, 100, 101, 103],
        )
        self.assertEqual(
            [first_moment(counts, 1000, count) for count in (0, 1, 50, 100, 101, 103, 104)],
            [0, 1010, 1500, 2000, 2334, 3000, None],
        )

    def test_corridor(self) -> None:
        case, curves = read("spillback")
        path = Path(curves, case, ["a", "b"])
        self.assertEqual(path.free_ms, 4000)
        # at 0 all is empty. At 3 s 2100 are produced: they have left by 4.2 s; 2100 have left a by 12.5 s; b takes 2 s
        self.assertEqual(path.trip(0), TripTimes(0, [0, 2000, 2000]))
        self.assertEqual(path.trip(3000), TripTimes(3000, [1200, 8300, 2000]))
        self.assertEqual(path.trip(3000).total, 11_500)
        # at 6 s 4200 are produced, which have left by 12 s; then 4200 never leave a. At 9 s 6300, and 5000 ever leave
        self.assertEqual(path.trip(6000), TripTimes(6000, [6000, None]))
        self.assertEqual(path.trip(9000), TripTimes(9000, [None]))
        self.assertIsNone(path.trip(9000).total)
        # 1500 have left a by 9.5 s
        self.assertEqual(Path(curves, case, ["a", "b"], wait=False).trip(3000), TripTimes(3000, [0, 6500, 2000]))

    def test_paths_that_are_none(self) -> None:
        case, curves = read("spillback")
        self.assertRaisesRegex(Fault, "no link c", Path, curves, case, ["a", "c"])
        self.assertRaisesRegex(Fault, "a begins at n1, and b ends at n3", Path, curves, case, ["b", "a"])

    def test_spans(self) -> None:
        self.assertEqual(
            [span(ms) for ms in (0, 49, 50, 61_000, 59_960, None)], ["0:00", "0:00", "0:00.1", "1:01", "1:00", "none"]
        )


class Answers(unittest.TestCase):
    def test_of_another_engine(self) -> None:
        """`version 0 link NAME slot N time M`"""
        asked = 0
        for file in sorted(DATA.glob("*/answers.out")):
            case, curves = read(file.parent.name)
            for words in map(str.split, file.read_text().splitlines()):
                if words[-2] == "time":
                    trip = Path(curves, case, [words[3]], wait=False).trip(int(words[5]) * curves.step_ms)
                    self.assertEqual(str(trip.total) if trip.total is not None else "none", words[-1], words)
                    asked += 1
        self.assertGreaterEqual(asked, 5)

    @needs_program
    def test_of_the_program(self) -> None:
        """Of links that queue, each at random slots."""
        pick = random.Random(7)
        for name in ("incident", "corridor", "closures", "spillback"):
            case, curves = loaded(str(EXAMPLES / name), None, str(BUILT))
            with Session(EXAMPLES / name, program=BUILT) as session:
                for link in case.links:
                    path = Path(curves, case, [link.name], wait=False)
                    for slot in pick.sample(range(case.setup.slots), min(12, case.setup.slots)):
                        self.assertEqual(
                            path.trip(slot * curves.step_ms).total,
                            session.time(link.name, slot).ms,
                            (name, link.name, slot),
                        )


@needs_program
class Command(FolderTest):
    def run_it(self, *words: str) -> str:
        with redirect_stdout(io.StringIO()) as written:
            self.assertEqual(cli.run(["times", str(EXAMPLES / "spillback"), "--program", str(BUILT), *words]), 0)
        return written.getvalue()

    def test_text(self) -> None:
        lines = self.run_it("a", "b", "--every", "0.05", "--start", "7:00").splitlines()
        self.assertEqual(lines[0], "from n1 to n3, 2 links, 0:04 on empty roads; times in minutes and seconds")
        self.assertEqual(lines[3].split(), ["7:00:03", "7:00:14.5", "0:11.5", "0:07.5", "0:01.2"])
        self.assertEqual(lines[4].split(), ["7:00:06", "none", "none", "none", "0:06"])

    def test_every_second(self) -> None:
        """A sixtieth of a minute, which no decimal says."""
        rows = list(csv.DictReader(io.StringIO(self.run_it("a", "b", "--every", "1/60", "--format", "csv"))))
        self.assertEqual([row["departs_ms"] for row in rows[:3]], ["0", "1000", "2000"])
        with redirect_stderr(io.StringIO()) as told, self.assertRaises(SystemExit):
            self.run_it("a", "b", "--every", "1/70000")
        self.assertIn("'1/70000' minutes are no whole number of milliseconds above 0", told.getvalue())

    def test_csv(self) -> None:
        rows = list(csv.DictReader(io.StringIO(self.run_it("a", "b", "--every", "0.05", "--format", "csv"))))
        self.assertEqual(
            rows[1],
            {
                "departs_ms": "3000",
                "total_ms": "11500",
                "delay_ms": "7500",
                "wait_ms": "1200",
                "a": "8300",
                "b": "2000",
            },
        )
        self.assertEqual(
            rows[2], {"departs_ms": "6000", "total_ms": "", "delay_ms": "", "wait_ms": "6000", "a": "", "b": ""}
        )


if __name__ == "__main__":
    unittest.main()
