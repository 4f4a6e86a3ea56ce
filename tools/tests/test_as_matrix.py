"""A demand that is written as a matrix: where rows are one, held against all shares that there might be; that what is
written reads as the same rows; and that commands over a matrix do what they do over its rows, and leave no profile
beside rows and no matrix without one."""
import random
import re
import unittest
from collections.abc import Iterable, Sequence
from itertools import combinations
from pathlib import Path
from unittest import mock

import commands
from stage import RUNS, Run
from support import ROAD, FolderTest, needs_program
from support_runs import CASES, RunsTest, begins, runs, without_history
from ltm_tools.case import Case, Demand, Link, Setup, sizes
from ltm_tools.case.matrix import Slice, as_matrix, is_matrix, parts
from ltm_tools.case.sizes import ask_for_sizes
from ltm_tools.case.writing import demand_bytes
from ltm_tools.errors import TooLarge
from ltm_tools.formats import MOST_SHARE, MOST_UNITS
from ltm_tools.sweep.cluster import case_bytes, folder_of

Pair = tuple[str, str, int]


def rows_of(slices: Sequence[Slice], pairs: Iterable[Pair]) -> list[Demand]:
    """The rows that a matrix says, without those of 0."""
    return [
        Demand(origin, destination, part.from_slot, part.to_slot, units)
        for origin, destination, amount in pairs
        for part, units in zip(slices, parts(amount, slices))
        if units
    ]


def each_slot(*shares: int) -> list[Slice]:
    """A slice of one slot for each share."""
    return [Slice(slot, slot + 1, share) for slot, share in enumerate(shares)]


class Found(unittest.TestCase):
    def check(self, rows: list[Demand], slices: list[Slice], *pairs: Pair) -> None:
        """The rows are this matrix."""
        found = as_matrix(rows)
        assert found is not None
        self.assertEqual((list(found.slices), list(found.pairs())), (slices, list(pairs)))

    def test_rows_over_the_same_slots(self) -> None:
        """Each row is a record, also one of 0, and one of a pair that comes again."""
        rows = [Demand("a", "b", 3, 9, 5), Demand("a", "b", 3, 9, 7), Demand("b", "c", 3, 9, 0)]
        self.check(rows, [Slice(3, 9, 1)], ("a", "b", 5), ("a", "b", 7), ("b", "c", 0))

    def test_the_least_shares(self) -> None:
        """Of 2,000 in three slices a half and a quarter are 2, 1 and 1, whatever they were; a pair of 1 has one row."""
        slices = [Slice(0, 3, 20), Slice(3, 4, 10), Slice(6, 9, 10)]
        rows = rows_of(slices, [("a", "b", 2000), ("a", "c", 1)])
        self.assertEqual([row.units for row in rows], [1000, 500, 500, 1])
        self.check(rows, [Slice(0, 3, 2), Slice(3, 4, 1), Slice(6, 9, 1)], ("a", "b", 2000), ("a", "c", 1))

    def test_rows_of_0(self) -> None:
        """They name their pair, and are in the way where they take an earlier row out."""
        slices = each_slot(1, 1)
        rows = [
            Demand("a", "b", 0, 1, 2),
            Demand("a", "b", 1, 2, 2),
            Demand("a", "c", 0, 1, 0),
            Demand("a", "d", 5, 9, 0),
        ]
        self.check(rows, slices, ("a", "b", 4), ("a", "c", 0), ("a", "d", 0))
        self.assertIsNone(as_matrix([*rows[:2], Demand("a", "b", 1, 2, 0)]))
        self.assertIsNone(as_matrix([rows[0], Demand("a", "b", 4, 5, 0)]))

    def test_rows_that_are_no_matrix(self) -> None:
        one, two = Demand("a", "b", 0, 3, 4), Demand("a", "b", 3, 6, 4)
        for why, rows in (
            ("nothing", []),
            ("nothing but 0", [Demand("a", "b", 0, 3, 0)]),
            ("slices that overlap", [one, Demand("a", "b", 2, 6, 4)]),
            ("slices within one another", [one, Demand("a", "c", 1, 2, 4)]),
            ("an order that is none", [two, one]),
            ("a row twice", [one, one, two]),
            ("a pair that stands apart", [one, Demand("a", "c", 0, 3, 4), two]),
            ("a pair that comes again", [one, two, Demand("a", "c", 3, 6, 0), one, two]),
            ("other shares", [one, two, Demand("a", "c", 0, 3, 4), Demand("a", "c", 3, 6, 8)]),
            ("more than a record may have", [Demand("a", "b", k, k + 1, MOST_UNITS // 2 + 1) for k in range(2)]),
            ("rounded up", [Demand("a", "b", 0, 3, 1), Demand("a", "c", 0, 3, 1), Demand("a", "c", 3, 6, 1)]),
        ):
            with self.subTest(why):
                self.assertIsNone(as_matrix(rows))

    def test_at_the_bounds(self) -> None:
        """The vehicles of a record, and the sum of shares: where the first of two is one of so many by a pair, by the
        other it is less than one of 0.002 fewer, and so of no fewer."""
        half = MOST_UNITS // 2
        self.check([Demand("a", "b", k, k + 1, half) for k in range(2)], each_slot(1, 1), ("a", "b", MOST_UNITS))
        for total, is_one in ((MOST_SHARE, True), (MOST_SHARE + 1, False)):
            rows = rows_of(each_slot(1, total - 1), [("a", "b", total), ("a", "c", 500 * total - 1)])
            self.assertEqual([row.units for row in rows[::2]], [1, 499])
            self.assertEqual(as_matrix(rows) is not None, is_one)

    def test_profiles_at_random(self) -> None:
        """200 matrices are found in their rows, with shares that say the same and sum to no more."""
        pick = random.Random(94)
        for _ in range(200):
            count = pick.choice((2, 3, 4, 24, 96))
            most = pick.choice((3, 30, 1000))
            slices = [Slice(2 * k, 2 * k + pick.choice((1, 2)), pick.randrange(1, most)) for k in range(count)]
            size = pick.choice((30, 5_000, 10**9))
            pairs = [(f"o{k % 7}", f"d{k // 7}", pick.randrange(1, size)) for k in range(pick.choice((1, 3, 40)))]
            rows = rows_of(slices, pairs)
            found = as_matrix(rows)
            assert found is not None
            self.assertEqual(rows_of(found.slices, found.pairs()), rows)
            self.assertLessEqual(sum(part.share for part in found.slices), sum(part.share for part in slices))

    def test_held_against_all_shares(self) -> None:
        """Rows of up to 4 thousandths a pair are a matrix exactly if shares that sum to at most 12 say them: 12 is the
        least number that 1 to 4 divide."""
        pick, seen = random.Random(95), [0, 0]
        for _ in range(800):
            shares, pairs = [pick.randrange(1, 4) for _ in range(3)], [("a", end, pick.randrange(5)) for end in "bcd"]
            rows = rows_of(each_slot(*shares), pairs)
            for row in pick.sample(rows, min(len(rows), pick.choice((0, 0, 1, 2)))):
                row.units = pick.randrange(1, 3)
            sums = {row.destination: 0 for row in rows}
            for row in rows:
                sums[row.destination] += row.units
            if max(sums.values(), default=9) > 4:
                continue
            spans = sorted({row.from_slot for row in rows})
            tried = (
                [
                    Slice(slot, slot + 1, after - before)
                    for slot, before, after in zip(spans, (0, *cuts), (*cuts, total))
                ]
                for total in range(1, 13)
                for cuts in combinations(range(1, total), len(spans) - 1)
            )
            is_one = any(rows_of(slices, (("a", *pair) for pair in sums.items())) == rows for slices in tried)
            with self.subTest(rows=rows):
                found = as_matrix(rows)
                self.assertEqual(found is not None, is_one)
                if found is not None:
                    self.assertEqual(rows_of(found.slices, found.pairs()), rows)
            seen[is_one] += 1
        self.assertGreater(min(seen), 50)


ONE = [Demand("n1", "n2", 0, 2, 1000)]
TWO = [Demand("n1", "n2", 0, 2, 1000), Demand("n1", "n2", 3, 4, 500)]
OVER = [Demand("n1", "n2", 0, 2, 1000), Demand("n1", "n2", 1, 4, 500)]


class Written(FolderTest):
    def written(self, demand: list[Demand], history: bool = False) -> dict[str, str]:
        """The files of demand of the smallest case, written with this one; it reads as the same rows."""
        case = Case.read(self.case())
        case.demand, case.setup.history = demand, history
        case.write(self.folder / "out")
        self.assertEqual(Case.read(self.folder / "out").standing_demand(), demand)
        return {
            name: (self.folder / "out" / f"{name}.csv").read_text()
            for name in ("demand", "profile")
            if (self.folder / "out" / f"{name}.csv").exists()
        }

    def test_where_no_history_is_kept(self) -> None:
        self.assertEqual(
            self.written(ONE),
            {"demand": "origin,destination,vehicles\nn1,n2,1\n", "profile": "from_slot,to_slot,share\n0,2,1\n"},
        )
        self.assertEqual(
            self.written(TWO),
            {
                "demand": "origin,destination,vehicles\nn1,n2,1.5\n",
                "profile": "from_slot,to_slot,share\n0,2,2\n3,4,1\n",
            },
        )

    def test_rows_without_the_profile_that_stood_there(self) -> None:
        """Where rows are no matrix, and where the case keeps a history; one of others that is called so stays."""
        header = "origin,destination,from_slot,to_slot,vehicles\n"
        self.written(TWO)
        self.assertEqual(self.written(OVER), {"demand": header + "n1,n2,0,2,1\nn1,n2,1,4,0.5\n"})
        self.written(TWO)
        self.assertEqual(self.written(ONE, history=True), {"demand": header + "n1,n2,0,2,1\n"})
        other = "from,to,share\n7:00,8:00,1\n"
        (self.folder / "out" / "profile.csv").write_text(other)
        self.assertEqual(self.written(OVER)["profile"], other)
        self.written(TWO)
        self.assertNotEqual((self.folder / "out" / "profile.csv").read_text(), other)

    def test_a_file_whose_header_is_in_quotes(self) -> None:
        """It is known as the program knows it, as are blank lines and a mark before it, and a quote that is no end."""
        for text, due in (
            ('"origin",destination,"vehicles"\nn1,n2,1\n', True),
            ("\ufeff\r\n\norigin,destination,vehicles\rn1,n2,1", True),
            ('\norigin,destination,"vehicles\n"\n', False),
            ('origin,destination,vehicles,"\n', False),
            ("n1,n2,1\norigin,destination,vehicles\n", False),
            ("\n\n", False),
            ("", False),
        ):
            self.assertEqual(is_matrix(text.encode()), due, text)

    def test_all_or_nothing(self) -> None:
        """Where the profile cannot be written the rows stand as they did."""
        self.written(OVER)
        before = self.files()
        with mock.patch("ltm_tools.case.writing.PROFILE", mock.MagicMock(__iter__=mock.Mock(side_effect=OSError))):
            self.assertRaises(OSError, self.written, TWO)
        self.assertEqual(self.files(), before)

    def files(self) -> dict[str, bytes]:
        return {path.name: path.read_bytes() for path in (self.folder / "out").iterdir()}

    def test_its_bytes(self) -> None:
        case = Case(Setup(1000, 4, 1000, history=False), [], TWO)
        self.assertEqual(demand_bytes(case, as_matrix(TWO)), len("origin,destination,vehicles\nn1,n2,1.5\n"))


class Told(unittest.TestCase):
    LINE = (
        "as the case keeps no history, its demand is a matrix: demand.csv has one record for each of 1 pair of origin"
        " and destination, and profile.csv says when the vehicles of all of them set out, in 2 slices of slots; ltm and"
        " all tools read this as 2 rows"
    )

    def case(self, demand: list[Demand]) -> Case:
        return Case(Setup(1000, 4, 1000), [Link("a", "n1", "n2", 20, 36, 18, 150)], demand)

    def test_by_an_import(self) -> None:
        self.assertIn(self.LINE, ask_for_sizes(self.case(TWO), history=False))
        for demand, history in ((OVER, False), (TWO, True), (TWO, None)):
            self.assertNotIn("matrix", "".join(ask_for_sizes(self.case(demand), history=history)))

    def test_a_file_that_would_be_too_long_as_rows(self) -> None:
        """It is the matrix that must not be."""
        most = len("origin,destination,vehicles\nn1,n2,1.5\n")
        for less, history in ((0, False), (1, False), (0, True)):
            many = {"MOST_DEMAND_ROWS": 1, "MOST_LARGE_FILE_BYTES": most - less, "MOST_FILE_BYTES": most - less}
            with mock.patch.multiple(sizes, **many), self.subTest(less=less, history=history):
                if less or history:
                    with self.assertRaisesRegex(TooLarge, "demand.csv would have"):
                        ask_for_sizes(self.case(TWO), history=history, routes=True)
                else:
                    told = ask_for_sizes(self.case(TWO), history=history, routes=True)
                    self.assertIn("2 rows of demand and 0 of splits, so the column rows", told[-2])


PROFILE_TEXT = "from_slot,to_slot,share\n0,3,1\n3,6,2\n"
MATRIX_TEXT = "origin,destination,vehicles\nn1,n3,4\nn1,n4,1.5\nn2,n3,0.7\n"
ROWS_TEXT = """origin,destination,from_slot,to_slot,vehicles
n1,n3,0,3,1.333
n1,n3,3,6,2.667
n1,n4,0,3,0.5
n1,n4,3,6,1
n2,n3,0,3,0.233
n2,n3,3,6,0.467
"""
SECONDS = re.compile(r" +[0-9.]+(?=$|  (?:prior|less|shares|responses)$)", re.MULTILINE)
REWRITE = ("demand", "splits case --routes", "signals", "turns", "apply", "cut", "assign", "calibrate")
"""How the commands begin that write a demand."""


def as_a_matrix(case: Path) -> None:
    """Gives a case this demand as a matrix."""
    (case / "demand.csv").write_text(MATRIX_TEXT)
    (case / "profile.csv").write_text(PROFILE_TEXT)


def as_rows(case: Path) -> None:
    """Gives it the same demand as rows."""
    (case / "demand.csv").write_text(ROWS_TEXT)


Outcome = tuple[int, str, str, dict[str, bytes], dict[str, list[Demand]]]


@needs_program
class Commands(RunsTest):
    def outcome(self, run: Run, is_one: bool, history: bool) -> Outcome:
        """What a command says over cases whose demand is a matrix or not, with a history or without one; the files that
        it leaves but for those of demand; and the demand of each case."""

        def change(case: Path) -> None:
            (as_a_matrix if is_one else as_rows)(case)
            if not history:
                without_history(case)

        status, out, err, made = self.told(run, change)
        left = {name: made[name] for name in made if not name.endswith(("/demand.csv", "/profile.csv"))}
        folders = [name for name in (*CASES, "made") if (self.ran / name / "demand.csv").exists()]
        for name in folders:
            demand = (self.ran / name / "demand.csv").read_bytes()
            self.assertEqual(is_matrix(demand), (self.ran / name / "profile.csv").exists(), name)
            if f"{name}/demand.csv" in made:
                self.assertTrue(run.words.startswith(REWRITE), run.words)
                self.assertFalse(history and is_matrix(demand), name)
        rows = {name: Case.read(self.ran / name, splits=False).standing_demand() for name in folders}
        return status, SECONDS.sub("", out), err, left, rows

    def test_as_over_its_rows(self) -> None:
        """They say and make the same; `inspect` but for the line on the matrix."""
        for run in RUNS:
            if begins(run, "from-", "live", "plot") or run not in runs(run.words):
                continue
            for history in (True, False):
                with self.subTest(run.words, history=history):
                    one, other = self.outcome(run, True, history), self.outcome(run, False, history)
                    if run.words == "inspect case":
                        lines = [line for line in one[1].split("\n") if not line.startswith("matrix ")]
                        one = (one[0], "\n".join(lines), *one[2:])
                    self.assertEqual(one, other)
                    if history:
                        self.assertEqual(one[0], 0, one[2])

    def test_what_is_rewritten_is_a_matrix_without_history(self) -> None:
        for words in ("signals case --cycles", "apply", "assign"):
            (run,) = runs(words) or [None]
            if run is None:
                continue
            for is_one in (True, False):
                for history in (True, False):
                    if begins(run, "apply") and not history:
                        continue
                    self.outcome(run, is_one, history)
                    folder = self.ran / ("case" if begins(run, "signals") else "made")
                    texts = (MATRIX_TEXT, PROFILE_TEXT) if not history else (ROWS_TEXT, None)
                    profile = folder / "profile.csv"
                    with self.subTest(run.words, is_one=is_one, history=history):
                        self.assertEqual((folder / "demand.csv").read_text(), texts[0])
                        self.assertEqual(profile.read_text() if profile.exists() else None, texts[1])

    def test_the_demand_of_a_table(self) -> None:
        """Of a case without history: a matrix where the profile splits all pairs alike, and rows where what is left
        over of one is not rounded down: of 0.003 a fifth is 0.001."""
        run = next(run for run in RUNS if begins(run, "demand case --table table.csv --profile short.csv"))
        self.outcome(run, False, False)
        case, table, header = self.ran / "case", self.ran / "table.csv", "origin,destination,vehicles\n"
        self.assertEqual((case / "demand.csv").read_text(), header + "n1,n3,1.5\nn1,n4,2\n")
        self.assertEqual((case / "profile.csv").read_text(), "from_slot,to_slot,share\n0,5,1\n5,10,4\n")
        table.write_text(header + "n1,n3,1.5\nn1,n4,0.003\n")
        words = "demand", str(case), "--table", str(table), "--profile", str(self.ran / "short.csv"), "--start", "7:00"
        self.assertEqual(commands.run(*words)[0], 0)
        self.assertFalse((case / "profile.csv").exists())
        self.assertTrue((case / "demand.csv").read_text().endswith("n1,n4,0,5,0.001\nn1,n4,5,10,0.002\n"))

    def test_the_files_for_a_cluster(self) -> None:
        """A worker has the profile of a matrix too."""
        folder = self.case(**{**ROAD, "demand": "origin,destination,vehicles\nn1,n2,1\n"})
        (folder / "profile.csv").write_text("from_slot,to_slot,share\n0,2,1\n")
        files = case_bytes(str(folder))
        self.assertEqual(Case.read(folder_of(files, str(folder))), Case.read(folder))
        (folder / "demand.csv").write_text(ROAD["demand"])
        self.assertNotIn("profile", case_bytes(str(folder)))


if __name__ == "__main__":
    unittest.main()
