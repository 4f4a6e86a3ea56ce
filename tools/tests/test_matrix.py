"""A demand that stands as a matrix over the slices of a profile: what the second reader makes of it, the faults of both
files, and that the program agrees, on matrices and profiles that are made at random too (`test_mutants` changes them).

The parts and the faults that are written out here were worked out by hand after docs/FORMATS.md.
"""
import random
import subprocess
import unittest
from collections.abc import Sequence
from pathlib import Path

from support import BUILT, FolderTest, needs_program
from ltm_tools.case import Case
from ltm_tools.case.bad_case import BadCase, NoFile, TooLong
from ltm_tools.case.explain import explain
from ltm_tools.case.inspect import inspect
from ltm_tools.case.matrix import Slice, parts
from ltm_tools.case.writing import demand_records
from ltm_tools.errors import Fault
from ltm_tools.formats import DEMAND, MATRIX, MOST_SHARE, PROFILE, short_vehicles

BASE = Path(__file__).resolve().parent / "data" / "delay" / "base"
SLOTS = 12
PAIRS = (("n1", "n3"), ("n1", "n4"), ("n2", "n3"), ("n2", "n4"))


def text(header: Sequence[str], rows: Sequence[Sequence[object]]) -> str:
    """A file with this header and these records."""
    return "".join(",".join(map(str, row)) + "\n" for row in (header, *rows))


class MatrixTest(FolderTest):
    def made(self, profile: str | bytes | None, demand: str | bytes, **files: str) -> Path:
        """The base case in the folder, with this profile and this demand, and these files in place of its own."""
        for name in ("setup", "links", "splits"):
            (self.folder / f"{name}.csv").write_text(files.get(name) or (BASE / f"{name}.csv").read_text())
        for name, data in (("profile", profile), ("demand", demand)):
            path = self.folder / f"{name}.csv"
            path.unlink(missing_ok=True)
            if data is not None:
                path.write_bytes(data.encode() if isinstance(data, str) else data)
        return self.folder

    def fault(self) -> Fault | None:
        """The first fault of the case, by the second reader."""
        try:
            Case.read(self.folder, splits=True)
        except Fault as fault:
            return fault
        return None

    def program(self, word: str = "load") -> tuple[int, str]:
        """The status of the program, and what it writes."""
        run = subprocess.run([BUILT, word], cwd=self.folder, capture_output=True, text=True)
        return run.returncode, run.stdout

    def told(self) -> tuple[int, str]:
        """The status and the line that are due for the first fault; of a case without fault 0 and nothing."""
        fault = self.fault()
        line = fault.line() + "\n" if isinstance(fault, (BadCase, TooLong)) else ""
        return 3 if isinstance(fault, NoFile) else 7 if isinstance(fault, TooLong) else 6 if fault else 0, line


class Parts(unittest.TestCase):
    def test_by_hand(self) -> None:
        """The shares up to each slice are rounded down, and not each share."""
        for units, shares, due in (
            (1000, (1, 1, 1), [333, 333, 334]),
            (2, (2, 1, 2), [0, 1, 1]),
            (5, (2, 3, 4), [1, 1, 3]),
            (7, (1, 1, 1, 1), [1, 2, 2, 2]),
            (1, (3, 2), [0, 1]),
            (0, (1, 5), [0, 0]),
            (1_000_000_000, (1, 999_999, 1_000_000), [500, 499_999_500, 500_000_000]),
        ):
            with self.subTest(units=units, shares=shares):
                slices = [Slice(slot, slot + 1, share) for slot, share in enumerate(shares)]
                self.assertEqual(list(parts(units, slices)), due)

    def test_nothing_is_lost(self) -> None:
        pick = random.Random(91)
        for _ in range(300):
            slices = [Slice(k, k + 1, pick.choice((1, 2, 3, 7, MOST_SHARE))) for k in range(pick.randrange(1, 30))]
            units = pick.choice((0, 1, 2, 999, 10**9, pick.randrange(10**9)))
            self.assertEqual(sum(parts(units, slices)), units)


class Reading(MatrixTest):
    def test_rows(self) -> None:
        self.made(
            text(PROFILE, [(0, 2, 1), (2, 3, 1), (6, 12, 1)]), text(MATRIX, [("n1", "n3", 1), ("n2", "n3", "0.002")])
        )
        case = Case.read(self.folder, splits=True)
        self.assertEqual(
            [(row.origin, row.from_slot, row.to_slot, row.units) for row in case.standing_demand()],
            [("n1", 0, 2, 333), ("n1", 2, 3, 333), ("n1", 6, 12, 334), ("n2", 2, 3, 1), ("n2", 6, 12, 1)],
        )

    def test_a_later_record_replaces(self) -> None:
        self.made(
            text(PROFILE, [(0, 6, 1), (6, 12, 1)]),
            text(MATRIX, [("n1", "n3", 4), ("n2", "n3", 1), ("n1", "n3", "0.001")]),
        )
        standing = Case.read(self.folder, splits=True).standing_demand()
        self.assertEqual(
            sorted((row.origin, row.from_slot, row.units) for row in standing),
            [("n1", 6, 1), ("n2", 0, 500), ("n2", 6, 500)],
        )

    def test_what_is_written_are_rows(self) -> None:
        self.made("from_slot,to_slot,share\n0,6,1\n6,12,2\n", "origin,destination,vehicles\nn1,n3,1\n")
        Case.read(self.folder, splits=True).write(self.folder / "rows")
        self.assertEqual(
            (self.folder / "rows" / "demand.csv").read_text(),
            text(DEMAND, [("n1", "n3", 0, 6, "0.333"), ("n1", "n3", 6, 12, "0.667")]),
        )
        self.assertFalse((self.folder / "rows" / "profile.csv").exists())

    def test_inspected(self) -> None:
        """A matrix is told as its rows, and that it is one; where its profile is wrong, the rest is told."""
        profile = text(PROFILE, [(0, 6, 1), (6, 12, 1)])
        told = "\n".join(inspect(str(self.made(profile, text(MATRIX, [("n1", "n3", 1), ("n2", "n3", 2)])))))
        line = (
            "\nmatrix      demand.csv has one record for each pair of origin and destination, and profile.csv says when"
            " the vehicles of all of them set out, in 2 slices of slots\n"
        )
        self.assertIn("vehicles in 4 rows, setting out from 0:00 to 0:00:12" + line, told)
        rows = [("n1", "n3", 0, 6, "0.5"), ("n1", "n3", 6, 12, "0.5"), ("n2", "n3", 0, 6, 1), ("n2", "n3", 6, 12, 1)]
        self.assertEqual(told.replace(line, "\n"), "\n".join(inspect(str(self.made(None, text(DEMAND, rows))))))
        told = "\n".join(inspect(str(self.made(text(PROFILE, []), text(MATRIX, [("n1", "n3", 1)])))))
        self.assertIn("bad case profile row 2 Rows", told)


PAIR = "origin,destination,vehicles\nn1,n3,1\n"
DAY = "from_slot,to_slot,share\n0,12,1\n"
FAULTS = (
    # the profile, the demand, and the line that is due; None for a status 3
    (None, PAIR, None),
    ("from_slot,to_slot\n0,12\n", PAIR, "profile row 1 Header"),
    ("", PAIR, "profile row 1 Header"),
    ("from_slot,to_slot,share\n", PAIR, "profile row 2 Rows"),
    (DAY + "1,2\n", PAIR, "profile row 3 Width"),
    ("from_slot,to_slot,share\nx,12,1\n", PAIR, "profile row 2 Field 1"),
    ("from_slot,to_slot,share\n0,-1,0\n", PAIR, "profile row 2 Field 2"),
    ("from_slot,to_slot,share\n0,13,0.5\n", PAIR, "profile row 2 Field 3"),
    ("from_slot,to_slot,share\n0,13,1\n", PAIR, "profile row 2 BadSlots"),
    ("from_slot,to_slot,share\n4,4,0\n", PAIR, "profile row 2 BadSlots"),
    ("from_slot,to_slot,share\n0,3,1\n2,5,1\n", PAIR, "profile row 3 BadSlots"),
    ("from_slot,to_slot,share\n5,6,1\n0,2,1\n", PAIR, "profile row 3 BadSlots"),
    ("from_slot,to_slot,share\n0,3,1\n3,5,0\n", PAIR, "profile row 3 Range 3"),
    ("from_slot,to_slot,share\n0,3,1000001\n", PAIR, "profile row 2 Range 3"),
    (DAY, "origin,destination,vehicles\nn1,n3\n", "demand row 2 Width"),
    (DAY, "origin,destination,vehicles\n,n3,1\n", "demand row 2 Field 1"),
    (DAY, "origin,destination,vehicles\nn1,n 3,1\n", "demand row 2 Field 2"),
    (DAY, PAIR + "n1,n3,1.0005\n", "demand row 3 Field 3"),
    (DAY, PAIR + "n9,n8,1\n", "demand row 3 Unknown 1"),
    (DAY, PAIR + "n1,n8,1\n", "demand row 3 Unknown 2"),
    (DAY, PAIR + "n3,n3,1\n", "demand row 3 NoOrigin"),
    (DAY, PAIR + "n1,n1,1\n", "demand row 3 SameEnds"),
    (DAY, "origin,destination,vehicle\nn1,n3,1\n", "demand row 1 Header"),
    # the profile stands before the demand, and is not looked at where the demand has rows
    ("from_slot,to_slot,share\n", PAIR + "n9,n8,1\n", "profile row 2 Rows"),
    ("no profile", text(DEMAND, [("n1", "n3", 0, 13, 1)]), "demand row 2 BadSlots"),
)
ROWS = "step_ms,slots,origin_capacity,rows\n1000,12,1,6\n"
ENDS = "step_ms,slots,origin_capacity,destinations\n1000,12,1,1\n"
TWO_SPLITS = "node,destination,from_slot,weights\nn1,n3,0,a=1\nn2,n3,0,b=1\n"
FOUR_SPLITS = TWO_SPLITS + "n1,n4,0,a=1\nn2,n4,0,c=1\n"
THREE = "from_slot,to_slot,share\n0,1,1\n1,2,1\n5,9,1\n"


class Faults(MatrixTest):
    def test_each(self) -> None:
        for profile, demand, due in FAULTS:
            with self.subTest(profile=profile, demand=demand):
                self.made(profile, demand)
                self.assertEqual(self.told(), (3, "") if due is None else (6, f"bad case {due}\n"))
                self.assertNotEqual(explain(str(self.folder), *self.told(), ["load"]), [])

    @needs_program
    def test_the_program_tells_these(self) -> None:
        for profile, demand, due in FAULTS:
            for word in ("load", "routes"):
                with self.subTest(profile=profile, demand=demand, word=word):
                    self.made(profile, demand)
                    self.assertEqual(self.program(word), (3, "") if due is None else (6, f"bad case {due}\n"))

    def bounds(self) -> list[tuple[str, str, str]]:
        """Setups and matrices at a bound and one beyond, each with the fault that is due."""
        two = "origin,destination,vehicles\nn1,n3,1\nn2,n3,1\n"
        return [
            (ROWS, two, ""),
            (ROWS, two + "n1,n4,0.001\n", "demand row 4 TooManyRows"),
            (ROWS, two + "n1,n4,0\n", ""),
            (ROWS, "origin,destination,vehicles\nn1,n3,1\nn2,n3,0.002\nn1,n4,0.001\n", ""),
            (ROWS, "origin,destination,vehicles\nn1,n3,1\nn2,n3,0.002\nn1,n4,0.002\n", "demand row 4 TooManyRows"),
            (ENDS, two, ""),
            (ENDS, two + "n1,n4,0\n", "demand row 4 TooManyDestinations"),
        ]

    def test_at_the_bounds(self) -> None:
        for setup, demand, due in self.bounds():
            with self.subTest(setup=setup, demand=demand):
                self.made(THREE, demand, setup=setup, splits=FOUR_SPLITS if setup == ROWS else TWO_SPLITS)
                self.assertEqual(self.told(), (6, f"bad case {due}\n") if due else (0, ""))

    @needs_program
    def test_the_program_at_the_bounds(self) -> None:
        for setup, demand, due in self.bounds():
            with self.subTest(setup=setup, demand=demand):
                self.made(THREE, demand, setup=setup, splits=FOUR_SPLITS if setup == ROWS else TWO_SPLITS)
                status, told = self.program()
                self.assertEqual((status, told if status else ""), (6, f"bad case {due}\n") if due else (0, ""))


def slices_at_random(pick: random.Random) -> list[tuple[int, int, int]]:
    """Slices in order and apart, most of them side by side."""
    ends = sorted(pick.sample(range(SLOTS + 1), pick.randrange(2, SLOTS + 1)))
    spans = [span for span in zip(ends, ends[1:]) if pick.random() < 0.9] or [(ends[0], ends[1])]
    return [(*span, pick.choice((1, 1, 2, 3, 7, 1000, MOST_SHARE))) for span in spans]


def pairs_at_random(pick: random.Random) -> list[tuple[str, str, str]]:
    """Records of a matrix, some of the same ends twice."""
    amounts = (0, 1, 2, 5, 999, 4000, 12_345)
    return [(*pick.choice(PAIRS), short_vehicles(pick.choice(amounts))) for _ in range(pick.randrange(6))]


@needs_program
class Program(MatrixTest):
    def test_as_rows(self) -> None:
        """300 matrices load as the rows that the second reader makes of them."""
        pick = random.Random(92)
        for _ in range(300):
            profile, demand = text(PROFILE, slices_at_random(pick)), text(MATRIX, pairs_at_random(pick))
            self.made(profile, demand)
            rows = list(demand_records(Case.read(self.folder, splits=True).demand))
            loaded = self.program(), self.program("gap")
            self.made(None, text(DEMAND, rows))
            with self.subTest(profile=profile, demand=demand):
                self.assertEqual(loaded, (self.program(), self.program("gap")))
                self.assertEqual(loaded[0][0], 0)


if __name__ == "__main__":
    unittest.main()
