"""The columns behind the third of `setup.csv`, and `limits.csv`: what a case is refused for, in the program's order and
words.

`data/faults/cases.json` has for each case the files in which it differs from `data/delay/base`, bytes as Latin-1 and
null where a file is missing, and by command the status and the line of an engine that was written without this one;
`sizes.json` has those with the columns `rows`, `links`, `destinations` and `moves`. Those of `history.json`, with the
column `history`, were worked out by hand after docs/FORMATS.md.
"""
import json
import os
import random
import subprocess
import unittest
from pathlib import Path
from typing import Any

from support import BUILT, FolderTest, needs_program
from ltm_tools.case import Case
from ltm_tools.case.bad_case import BadCase, NoFile, TooLong
from ltm_tools.case.explain import explain
from ltm_tools.errors import Fault
from ltm_tools.formats import MOST_FILE_BYTES, SETUP, SETUP_MORE, headers_of

DATA = Path(__file__).resolve().parent / "data"
BASE = DATA / "delay" / "base"
SIZES = json.loads((DATA / "faults" / "sizes.json").read_text())
HISTORY = json.loads((DATA / "faults" / "history.json").read_text())
TOLD = json.loads((DATA / "faults" / "cases.json").read_text()) | SIZES | HISTORY
FILES = ("setup", "links", "demand", "splits", "signals", "limits")


class ColumnsTest(FolderTest):
    def made(self, files: dict[str, str | None]) -> Path:
        """The base case in a folder of the test, with these files in place of its own."""
        for file in FILES:
            own, path = BASE / f"{file}.csv", self.folder / f"{file}.csv"
            text = files.get(file, own.read_text("latin-1") if own.exists() else None)
            path.unlink(missing_ok=True)
            if text is not None:
                path.write_bytes(text.encode("latin-1"))
        return self.folder

    def fault(self, word: str) -> Fault | None:
        try:
            Case.read(self.folder, splits=word != "routes")
        except Fault as fault:
            return fault
        return None


class Faults(ColumnsTest):
    def test_each(self) -> None:
        """149 of the cases are refused by `load`, 101 by `routes`."""
        refused = 0
        for name, told in TOLD.items():
            self.made(told["files"])
            for word in ("load", "routes"):
                if word in told:
                    status, line = told[word]
                    fault = self.fault(word)
                    refused += fault is not None
                    with self.subTest(name, word=word):
                        self.assertEqual((3 if isinstance(fault, NoFile) else 6 if fault else 0), status, fault)
                        self.assertEqual(fault.line() if isinstance(fault, BadCase) else None, line or None)
        self.assertEqual(refused, 250)

    def test_each_is_explained(self) -> None:
        for name, told in TOLD.items():
            for word in ("load", "routes"):
                if word in told and told[word][0]:
                    with self.subTest(name, word=word):
                        self.assertNotEqual(
                            explain(str(self.made(told["files"])), told[word][0], told[word][1], [word]), []
                        )

    @needs_program
    def test_the_program_tells_these(self) -> None:
        self.tells({name: told for name, told in TOLD.items() if name not in SIZES and name not in HISTORY})

    @needs_program
    def test_the_program_tells_these_of_sizes(self) -> None:
        self.tells(SIZES)

    @needs_program
    def test_the_program_tells_these_of_history(self) -> None:
        self.tells(HISTORY)

    @needs_program
    def test_setups_made_at_random(self) -> None:
        """The second reader and the program agree on 300 setups whose fields lie at and about their limits."""
        pick, seen = random.Random(74), set()
        for number in range(300):
            self.made({"setup": setup_at_random(pick), "signals": None, "limits": None})
            for word in ("load", "routes"):
                run = subprocess.run([BUILT, word], cwd=self.folder, capture_output=True, text=True)
                fault = self.fault(word)
                line = fault.line() + "\n" if isinstance(fault, (BadCase, TooLong)) else ""
                told = 3 if isinstance(fault, NoFile) else 7 if isinstance(fault, TooLong) else 6 if fault else 0
                with self.subTest((self.folder / "setup.csv").read_text("latin-1"), word=word):
                    self.assertEqual((run.returncode, run.stdout if run.returncode else ""), (told, line))
                seen.add((run.returncode, line))
        self.assertGreater(len(seen), 12)

    def tells(self, cases: dict[str, Any]) -> None:
        """The program's status for each of these, and its line where it refuses."""
        for name, told in cases.items():
            self.made(told["files"])
            for word in ("load", "routes"):
                if word in told:
                    run = subprocess.run([BUILT, word], cwd=self.folder, capture_output=True, text=True)
                    with self.subTest(name, word=word):
                        self.assertEqual(run.returncode, told[word][0])
                        if run.returncode:
                            self.assertEqual(run.stdout.strip(), told[word][1])


def setup_at_random(pick: random.Random) -> str:
    """A setup with some of the columns, in order but for one in ten, most of whose fields are near a limit."""
    near = {
        "cells": (1, 1479, 1480, 4_294_967_295),
        "rows": (3, 5, 6, 500_000, 8_000_000),
        "links": (3, 4, 16_000, 40_000),
        "destinations": (1, 2, 256, 2_000),
    }
    columns = [column for column in SETUP_MORE if pick.random() < 0.5]
    if pick.random() < 0.1:
        pick.shuffle(columns)
    fields = []
    for column in columns:
        number = pick.choice(near[column]) + pick.choice((0, 0, 1)) if column in near else pick.choice((0, 0, 1, 1, 2))
        fields.append(pick.choice(("", "x", "-1", f"0{number}")) if pick.random() < 0.03 else str(number))
    return f"{','.join((*SETUP, *columns))}\n{','.join(('1000', '12', '1', *fields))}\n"


class Columns(ColumnsTest):
    def test_headers(self) -> None:
        """Of ten columns each or not, in order: 1,024 headers."""
        more = [header[len(SETUP) :] for header in headers_of("setup")]
        self.assertEqual((len(more), len(set(more))), (1024, 1024))
        self.assertTrue(
            {
                (),
                ("signals",),
                ("limits", "cells"),
                ("cells", "rows"),
                ("rows", "moves"),
                ("moves", "carry"),
                ("carry", "history"),
                ("history", "routes"),
                ("signals", "links", "destinations"),
                SETUP_MORE,
            }
            <= set(more)
        )
        self.assertTrue(
            all(
                [SETUP_MORE.index(column) for column in header] == sorted(SETUP_MORE.index(column) for column in header)
                for header in more
            )
        )

    def test_both_files_are_fetched_before_either_is_read(self) -> None:
        """signals.csv first: too long beside a missing limits.csv, or missing beside a too long limits.csv."""
        asks = {"setup": "step_ms,slots,origin_capacity,signals,limits\n1000,12,1,1,1\n"}
        self.made({**asks, "signals": "x"})
        with (self.folder / "signals.csv").open("r+b") as file:
            file.truncate(MOST_FILE_BYTES + 1)
        fault = self.fault("load")
        assert isinstance(fault, TooLong)
        self.assertEqual(fault.line(), "too long signals")
        self.assertEqual(str(fault), "signals.csv has 16,777,217 bytes, and at most 16,777,216 are read")
        (self.folder / "signals.csv").replace(self.folder / "limits.csv")
        fault = self.fault("load")
        assert isinstance(fault, NoFile)
        self.assertEqual(fault.file, "signals")
        self.assertIsNone(self.fault("routes"))

    def test_what_the_columns_say(self) -> None:
        case = Case.read(self.made({**TOLD["head-signals-limits-cells-good7"]["files"]}))
        self.assertEqual(
            (case.setup.signals, case.setup.limits, case.setup.cells, case.setup.most_cells),
            (True, True, 2_000_000_000, 2_000_000_000),
        )
        self.assertTrue(case.signals and case.limits)
        setup = Case.read(self.made({})).setup
        self.assertEqual(
            (
                setup.most_cells,
                setup.most_demand_rows,
                setup.most_split_rows,
                setup.most_links,
                setup.most_destinations,
                setup.moves,
                setup.carry,
                setup.history,
                setup.routes,
            ),
            (54_000_000, 10_000, 50_000, 4_000, 64, False, False, True, False),
        )
        setup = Case.read(self.made(SIZES["sizes-signals-limits-cells-rows-links-destinations-moves"]["files"])).setup
        self.assertEqual(
            (
                setup.signals,
                setup.limits,
                setup.most_cells,
                setup.most_demand_rows,
                setup.most_split_rows,
                setup.most_links,
                setup.most_destinations,
                setup.moves,
            ),
            (True, True, 1480, 6, 6, 4, 2, True),
        )

    def test_they_are_written(self) -> None:
        """Each column that a setup has is written, and read again; one that it does not have is not written."""
        header = "step_ms,slots,origin_capacity,rows,links,destinations,moves,carry,history\n"
        for values in ("500000,16000,256,1,0,1", "8000000,40000,2000,0,0,0", "3,4,2,0,1,0", "3,4,2,0,0,1"):
            case = Case.read(self.made({"setup": f"{header}1000,12,1,{values}\n", "splits": None}))
            self.assertEqual(
                (case.setup.moves, case.setup.carry, case.setup.history),
                (values[-5] == "1", values[-3] == "1", values[-1] == "1"),
            )
            case.write(self.folder / "again")
            self.assertEqual(Case.read(self.folder / "again"), case)
        text = (self.folder / "again" / "setup.csv").read_text()
        self.assertEqual(text, "step_ms,slots,origin_capacity,rows,links,destinations\n1000,12,1,3,4,2\n")

    def test_capacity_is_over_with_what_is_carried(self) -> None:
        """32,000.69 thousandths pass in a slot: one slot of several lets 32,001 pass, unless each is rounded down."""
        links = "link,from,to,length_m,free_kmh,wave_kmh,jam_per_km\na,n1,n2,1000,29,29,7945\n"
        files: dict[str, str | None] = {"links": links, "demand": "origin,destination,from_slot,to_slot,vehicles\n"}
        files |= {"splits": None, "signals": None, "limits": None}
        for carry in (0, 1):
            self.made(files | {"setup": f"step_ms,slots,origin_capacity,carry\n1000,12,1,{carry}\n"})
            fault = self.fault("routes")
            self.assertEqual(fault and fault.line(), "bad case links row 2 CapacityOver" if carry else None)

    def test_longer_files_where_many_rows_are_asked_for(self) -> None:
        """Of demand and of splits, not of others; a setup that is wrong asks for nothing."""
        setup = "step_ms,slots,origin_capacity,rows,history\n1000,12,1,{},0\n"
        for rows, file, line in (
            (500_001, "demand", None),
            (500_001, "splits", None),
            (500_001, "links", "too long links"),
            (500_000, "demand", "too long demand"),
            (500_000, "splits", "too long splits"),
            (8_000_001, "splits", "too long splits"),
        ):
            self.made({"setup": setup.format(rows), "signals": None, "limits": None})
            path = self.folder / f"{file}.csv"
            path.write_bytes(path.read_bytes() + b"\n" * MOST_FILE_BYTES)
            fault = self.fault("load")
            with self.subTest(rows, file=file):
                self.assertEqual(fault and fault.line(), line)
                if os.access(BUILT, os.X_OK):
                    run = subprocess.run([BUILT, "load"], cwd=self.folder, capture_output=True, text=True)
                    self.assertEqual(
                        (run.returncode, run.stdout.split("\n")[0] == line), (7 if line else 0, bool(line))
                    )

    def test_any_number_of_cells_without_history(self) -> None:
        setup = "step_ms,slots,origin_capacity,cells,history\n1000,12,1,1479,{}\n"
        for history, line in (("0", None), ("1", "bad case whole row 0 CellsOver 1480")):
            self.made({"setup": setup.format(history), "signals": None, "limits": None})
            fault = self.fault("load")
            self.assertEqual(fault and fault.line(), line)

    def test_carry_is_0_or_1(self) -> None:
        for values, place in (("2,2", 4), ("1,2", 5)):
            self.made({"setup": f"step_ms,slots,origin_capacity,moves,carry\n1000,12,1,{values}\n"})
            fault = self.fault("load")
            self.assertEqual(fault and fault.line(), f"bad case setup row 2 Range {place}")

    def test_words(self) -> None:
        for name, parts in {
            "head-bad-limits-signals": [
                "exactly step_ms,slots,origin_capacity, and behind it each of signals, limits,"
                " cells, rows, links, destinations, moves, carry, history, routes or not, in this order"
            ],
            "head-limits-limits-2": ['limits "2"', "1 where there is a limits.csv"],
            "head-signals-limits-cells-cells-0": ['cells "0"', "1 to 4,294,967,295"],
            "sizes-cells-4294967296": ['cells "4294967296"', "below 4294967296"],
            "rows-rows-500001": [
                'rows "500001"',
                "1 to 500,000",
                "without this column it is 10,000 for demand and 50,000 for splits",
            ],
            "sizes-links-16001": [
                'links "16001"',
                "1 to 16,000, and with 0 in the column history up to 40,000",
                "without this column it is 4,000",
            ],
            "history-links-history-40001-0": ['links "40001"', "up to 40,000"],
            "history-history-2": ['history "2"', "it is 0 where a loading keeps no history, and else 1"],
            "history-links-history-3-0": [
                "there are 3 links already",
                "write up to 40000 in the column links of setup.csv; or take a part",
            ],
            "sizes-destinations-257": ['destinations "257"', "1 to 256", "without this column it is 64"],
            "sizes-moves-2": ['moves "2"', "1 where what moves is floored for each turn"],
            "rows-rows-2": [
                "there are 2 rows already",
                "write up to 500000 in the column rows of setup.csv; or gather rows",
            ],
            "rows-rows-5": ["there are 5 rows already"],
            "sizes-links-3": [
                "there are 3 links already",
                "write up to 16000 in the column links of setup.csv; or take a part",
            ],
            "sizes-destinations-1": [
                "n4 would be destination 2, and at most 1 may be",
                "write up to 256 in the column destinations of setup.csv; or gather nearby",
            ],
            "head-limits-missing": ["limits.csv is not there", "put 0 in the field limits"],
            "limits-file-slots-over": ["limits.csv, line 2, to_slot", "the horizon has 12 slots"],
            # 1.1 bytes a cell are 1,628, and MB are rounded up
            "head-cells-cells-1479": [
                "1,480 cells, and at most 1,479",
                "write 1000000 in the column cells of setup.csv, which takes about 1 MB for a load",
                "11 of its 12 slots would fit",
            ],
        }.items():
            told = TOLD[name]
            text = "\n".join(explain(str(self.made(told["files"])), *told["load"]))
            for part in parts:
                with self.subTest(name):
                    self.assertIn(part, text)


if __name__ == "__main__":
    unittest.main()
