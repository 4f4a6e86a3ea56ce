"""What is large, and what is one past a limit: the program takes the one and tells the other. Each limit is that of
docs/FORMATS.md."""
import json
import random
import subprocess
import unittest
from pathlib import Path

from support import BUILT, ROAD, FolderTest, needs_program
from ltm_tools import edits
from ltm_tools.case import Case, Demand, Link, Setup, Split
from ltm_tools.formats import (
    MOST_CELLS,
    MOST_CURVES_BYTES,
    MOST_EDITS,
    MOST_FILE_BYTES,
    MOST_LINE_BYTES,
    MOST_SPLIT_ROWS,
    vehicles_text,
)
from ltm_tools.scenario.rows import EditedRows

ROADS = 4  # of the long case, one behind the other
SLOTS = 10_000  # of the long case
EACH = 250  # what starts there in each slot, half of what a road passes
FREE = 2  # slots that a road takes: 20 m at 36 km/h
PIECE = 262_144  # bytes of a curve file that are read at a time
JAM = 3_000  # what stands on a road: 20 m of 150 vehicles a km


def told(*words: str, folder: Path, script: str = "") -> tuple[int, str]:
    """The status of a run and what it writes."""
    done = subprocess.run([BUILT, *words], cwd=folder, input=script, capture_output=True, text=True)
    return done.returncode, done.stdout


def row_of_roads(roads: int) -> list[Link]:
    """So many roads of 20 m, a0 from n0 to n1 and so on, each of capacity 500 units a slot of a second."""
    return [Link(f"a{k}", f"n{k}", f"n{k + 1}", 20, 36, 18, 150) for k in range(roads)]


def long_case() -> Case:
    """A row of roads of which one end sends to the other over the whole horizon, in free flow."""
    end = f"n{ROADS}"
    return Case(
        Setup(1000, SLOTS, 1000),
        row_of_roads(ROADS),
        [Demand("n0", end, 0, SLOTS, EACH * SLOTS)],
        [Split(f"n{k}", end, 0, {f"a{k}": 1}) for k in range(ROADS)],
    )


def long_curves() -> str:
    """Its loading, by what free flow is: each road hands on what entered it two slots before."""
    end = f"n{ROADS}"
    passed = [" ".join(str(EACH * max(0, k - FREE * road)) for k in range(SLOTS + 1)) for road in range(ROADS + 1)]
    none = " ".join(["0"] * (SLOTS + 1))
    lines = ["kind,name,destination,counts"]
    for road in range(ROADS):
        lines += [f"up,a{road},{end},{passed[road]}", f"down,a{road},{end},{passed[road + 1]}"]
    lines += [f"dep,n{node},{end},{none if node else passed[0]}" for node in range(ROADS + 1)]
    return "\n".join([*lines, f"arr,{end},{end},{passed[ROADS]}", ""])


@needs_program
class ManyCells(FolderTest):
    def test_more_cells_than_without_asking(self) -> None:
        """A load and a session of some 60,000,000: a vehicle drives along the first of many roads."""
        case = Case(
            Setup(1000, SLOTS, 1000),
            row_of_roads(333),
            [Demand("n0", "n1", 0, 2, 1000)],
            [Split("n0", "n1", 0, {"a0": 1})],
        )
        self.assertGreater(case.cells(), MOST_CELLS)
        case.setup.cells = case.cells()
        case.write(self.folder / "case")
        totals = "version 0 generated 1.000 arrived 1.000 on_links 0.000 waiting 0.000"
        status, lines = told("load", folder=self.folder / "case")
        self.assertEqual((status, lines.splitlines()[:1]), (0, [totals]))
        self.assertEqual(
            told("session", "0", folder=self.folder / "case", script='{"do": "totals"}\n'), (0, totals + "\n")
        )


@needs_program
class ManyLinksDestinationsAndRows(FolderTest):
    """A case that is larger in each respect than one that asks for nothing. From each of 155 nodes at the head of a row
    of 4,001 roads a thousandth of a vehicle sets out to each of 65 destinations; in four slots nobody comes there."""

    ORIGINS, ENDS, ROADS, FIRST = 155, 65, 4_001, 200

    def large_case(self) -> Case:
        ends = range(self.FIRST, self.FIRST + self.ENDS)
        case = Case(
            Setup(1000, 4, 1000, rows=20_000, links=8_000, destinations=128),
            row_of_roads(self.ROADS),
            [Demand(f"n{origin}", f"n{end}", 0, 1, 1) for origin in range(self.ORIGINS) for end in ends],
            [Split(f"n{node}", f"n{end}", 0, {f"a{node}": 1}) for end in ends for node in range(end)],
        )
        self.assertGreater(len(case.demand), 10_000)
        self.assertGreater(len(case.links), 4_000)
        return case

    def test_each_way_to_load_it(self) -> None:
        """Vehicles enter their first road in slot 0 and the next one in slot 2, since a road takes two slots."""
        self.large_case().write(self.folder / "case")
        entered = [65 * ((road < self.ORIGINS) + (1 <= road <= self.ORIGINS)) for road in range(self.ROADS)]
        left = [65 * (road < self.ORIGINS) for road in range(self.ROADS)]
        totals = "version 0 generated 10.075 arrived 0.000 on_links 10.075 waiting 0.000"
        links = [
            f"link a{road} in {entered[road] / 1000:.3f} out {left[road] / 1000:.3f}" for road in range(self.ROADS)
        ]
        self.assertEqual(told("load", folder=self.folder / "case"), (0, "\n".join([totals, *links, ""])))
        status, lines = told("gap", folder=self.folder / "case")  # nobody can come there, so all take until the end
        first = "version 0 spent 40.300000 least 40.300000 gap 0.000000 late 10.075"
        self.assertEqual((status, lines.splitlines()[0]), (0, first))
        script = '{"do": "totals"}\n{"do": "state", "slot": 4}\n'
        status, lines = told("session", "0", folder=self.folder / "case", script=script)
        answers = lines.splitlines()
        self.assertEqual((status, answers[0]), (0, totals))
        self.assertTrue(
            answers[1].startswith(" ".join(["version 0 slot 4 in", *map(str, entered), "out", *map(str, left)]))
        )


@needs_program
class Scripts(FolderTest):
    # docs/FORMATS.md has the loading of the smallest case: a vehicle starts, and has arrived at the last boundary
    TOTALS = "version 0 generated 1.000 arrived 1.000 on_links 0.000 waiting 0.000\n"

    def padded(self, command: dict[str, object], size: int) -> list[str]:
        """The command as lines of so many bytes: with spaces behind it, and with a member that is passed over."""
        bare = json.dumps(command)
        noted = json.dumps({**command, "note": ""})
        return [bare.ljust(size) + "\n", noted.replace('""', '"' + "x" * (size - len(noted)) + '"') + "\n"]

    def test_long_lines(self) -> None:
        lines = [line for size in (3_000, 60_000, MOST_LINE_BYTES) for line in self.padded({"do": "totals"}, size)]
        self.assertEqual([len(line) - 1 for line in lines], [3_000, 3_000, 60_000, 60_000, 65_536, 65_536])
        self.assertEqual(told("session", "0", folder=self.case(), script="".join(lines)), (0, 6 * self.TOTALS))

    def test_a_line_past_the_limit(self) -> None:
        for line in self.padded({"do": "totals"}, MOST_LINE_BYTES + 1):
            short = '{"do": "totals"}\n'
            self.assertEqual(
                told("session", "0", folder=self.case(), script=short + line + short),
                (7, self.TOTALS + "too long line 2\n"),
            )

    def more_demand(self, rows: int) -> dict[str, object]:
        """An edit command with so many rows of 0.1 vehicles, from slot 2 on."""
        return {"do": "edit", "edits": [edits.demand("n1", "n2", 2 + k, 3 + k, 100) for k in range(rows)]}

    def test_large_batches(self) -> None:
        """One of 32 edits is accepted, in a short line and in the longest, and one of 33 is no command."""
        folder = self.case(setup="step_ms,slots,origin_capacity\n1000,64,1\n")
        over = json.dumps(self.more_demand(MOST_EDITS + 1)) + "\n"
        for line in (
            json.dumps(self.more_demand(MOST_EDITS)) + "\n",
            *self.padded(self.more_demand(MOST_EDITS), MOST_LINE_BYTES),
        ):
            status, answers = told(
                "session", "0", folder=folder, script=over + line + over + '{"do": "settle"}\n{"do": "totals"}\n'
            )
            self.assertEqual(
                (status, answers.splitlines()[:3]),
                (0, ["refused command NotCommand 0", "accepted version 1", "refused command NotCommand 0"]),
            )
            self.assertEqual(
                answers.splitlines()[4:], ["version 1 generated 4.200 arrived 4.200 on_links 0.000 waiting 0.000"]
            )

    def test_a_thousand_batches(self) -> None:
        """After each is accepted a settle shows the loading of the case that they make of the files."""
        pick = random.Random(40)
        case = Case(
            Setup(1000, 100, 1000),
            row_of_roads(2),
            [],
            [Split("n0", "n2", 0, {"a0": 1}), Split("n1", "n2", 0, {"a1": 1})],
        )
        case.write(self.folder / "before")
        keeper, script = EditedRows(case), ""
        for _ in range(1_000):
            slot = pick.randrange(97)
            edit = pick.choice(
                (
                    edits.demand("n0", "n2", slot, slot + 1, pick.randrange(400)),
                    edits.limit("a0", slot, slot + 3, pick.randrange(500)),
                    edits.exit_limit("a1", slot, slot + 3, pick.randrange(500)),
                    edits.diagram("a1", pick.randrange(10, 40), 36, 18, 150),
                )
            )
            edits.edit_of(edit).make(keeper)
            script += json.dumps({"do": "edit", "edits": [edit]}) + "\n"
        made = keeper.kept()
        made.write(self.folder / "after")
        asked = "".join(
            json.dumps(command) + "\n"
            for command in (
                {"do": "settle"},
                {"do": "totals"},
                {"do": "link", "link": "a0"},
                {"do": "link", "link": "a1"},
            )
        )
        status, answers = told("session", "0", folder=self.folder / "before", script=script + asked)
        lines = answers.splitlines()
        self.assertEqual((status, lines[:1_000]), (0, [f"accepted version {k}" for k in range(1, 1_001)]))
        self.assertTrue(lines[1_000].startswith("settled version 1000 recomputed "), lines[1_000])
        shown = [line.removeprefix("version 1000 ") for line in lines[1_001:]]
        generated = sum(row.units for row in made.standing_demand())
        self.assertTrue(generated > 0 and shown[0].startswith(f"generated {vehicles_text(generated)} "), shown[0])
        status, report = told("load", folder=self.folder / "after")
        self.assertEqual((status, report.removeprefix("version 0 ").splitlines()), (0, shown))


@needs_program
class Routes(FolderTest):
    def test_the_most_rows(self) -> None:
        """Over a ring of 794 nodes 63 destinations have 793 rows each, and the end of a row of roads one for each other
        node of it."""
        ring, ends = 794, 63
        for roads, status in ((41, 0), (42, 6)):
            links = [Link(f"r{k}", f"r{k}", f"r{(k + 1) % ring}", 20, 36, 18, 150) for k in range(ring)] + row_of_roads(
                roads
            )
            demand = [Demand(f"r{k + 1}", f"r{k}", 0, 1, 1) for k in range(ends)] + [Demand("n0", f"n{roads}", 0, 1, 1)]
            Case(Setup(1000, 1, 1000), links, demand).write(self.folder / str(roads))
            rows = [f"r{node},r{end},0,r{node}=1\n" for end in range(ends) for node in range(ring) if node != end] + [
                f"n{k},n{roads},0,a{k}=1\n" for k in range(roads)
            ]
            self.assertEqual(len(rows) - MOST_SPLIT_ROWS, roads - 41)
            written = (
                "".join(["node,destination,from_slot,weights\n", *rows])
                if status == 0
                else "bad case whole row 0 TooManyRows\n"
            )
            self.assertEqual(told("routes", folder=self.folder / str(roads)), (status, written))


@needs_program
class CurveFiles(FolderTest):
    """The words `curves` and `check`."""

    HEADER = "kind,name,destination,counts\n"
    # docs/FORMATS.md has it
    LOADING = (
        HEADER + "up,a,n2,0 500 1000 1000 1000\ndown,a,n2,0 0 0 500 1000\ndep,n1,n2,0 500 1000 1000 1000\n"
        "dep,n2,n2,0 0 0 0 0\narr,n2,n2,0 0 0 500 1000\n"
    )

    def test_what_check_tells(self) -> None:
        for old, new, status, line in (
            ("", "", 0, "loading yes"),
            (self.LOADING, "", 11, "bad curves row 1 Header"),
            ("kind,name", "kind,names", 11, "bad curves row 1 Header"),
            ("arr,n2,n2,0 0 0 500 1000\n", "", 11, "bad curves row 6 Rows"),
            ("arr,n2,n2,0 0 0 500 1000\n", 2 * "arr,n2,n2,0 0 0 500 1000\n", 11, "bad curves row 7 Rows"),
            ("down,a,n2,", "down,a,", 11, "bad curves row 3 Width"),
            ("down,a", "up,a", 11, "bad curves row 3 Field 1"),
            ("dep,n1", "dep,n2", 11, "bad curves row 4 Field 2"),
            ("arr,n2,n2", "arr,n2,n1", 11, "bad curves row 6 Field 3"),
            ("0 0 0 0 0", "0 0 0 0", 11, "bad curves row 5 Field 4"),
            ("dep,n2,n2,0 0 0 0 0", "dep,n2,n2,0 0 0 0 1", 12, "loading no start"),
            ("dep,n1,n2,0", "dep,n1,n2,1", 12, "loading no start"),
            ("down,a,n2,0 0 0 500 1000", "down,a,n2,0 0 0 499 1000", 12, "loading no node n2 slot 2"),
            ("up,a,n2,0 500", "up,a,n2,0 501", 12, "loading no node n1 slot 0"),
        ):
            with self.subTest(line, old=old):
                self.assertIn(old, self.LOADING)
                self.assertEqual(
                    told("check", folder=self.case(curves=self.LOADING.replace(old, new, 1) if old else self.LOADING)),
                    (status, line + "\n"),
                )

    def test_what_curves_writes(self) -> None:
        self.assertEqual(told("curves", folder=self.case()), (0, self.LOADING))
        self.assertEqual(
            told(
                "curves",
                folder=self.case(
                    demand="origin,destination,from_slot,to_slot,vehicles\n",
                    splits="node,destination,from_slot,weights\n",
                ),
            ),
            (0, self.HEADER),
        )

    def test_of_a_case_that_is_refused(self) -> None:
        """Both words tell what is wrong with the case, whatever the curve file is."""
        for word in ("curves", "check"):
            self.assertEqual(told(word, folder=self.case(splits="", curves="")), (6, "bad case splits row 1 Header\n"))
            self.assertEqual(told(word, folder=self.case(links=None, curves="")), (3, ""))
        self.assertEqual(told("check", folder=self.case(curves=None)), (3, ""))

    def test_a_file_of_many_pieces(self) -> None:
        """One that is read in several pieces is written and is found right; with another last count it is not."""
        long_case().write(self.folder)
        text = long_curves()
        self.assertGreater(len(text), 3 * PIECE)
        self.assertTrue(told("curves", folder=self.folder) == (0, text), "the curve file differs")
        for written, answer in (
            (text, (0, "loading yes\n")),
            (text.removesuffix("0\n") + "1\n", (12, f"loading no node n{ROADS} slot {SLOTS - 1}\n")),
        ):
            (self.folder / "curves.csv").write_text(written)
            self.assertEqual(told("check", folder=self.folder), answer)


@needs_program
class LongFiles(FolderTest):
    """Files that are one byte longer than is read, and files that are just as long; what is not written of them takes
    no room."""

    def lengthen(self, name: str, size: int) -> None:
        with (self.folder / "case" / name).open("r+b") as file:
            file.truncate(size)

    def test_a_curve_file(self) -> None:
        folder = self.case(curves=CurveFiles.HEADER + "up\n")
        for size, answer in (
            (MOST_CURVES_BYTES, (11, "bad curves row 2 Width\n")),
            (MOST_CURVES_BYTES + 1, (7, "too long curves\n")),
        ):
            self.lengthen("curves.csv", size)
            self.assertEqual(told("check", folder=folder), answer)

    def test_the_files_of_a_case(self) -> None:
        for name, word in zip(ROAD, ("curves", "check", "load", "check")):
            folder = self.case(curves="")
            self.lengthen(f"{name}.csv", MOST_FILE_BYTES + 1)
            self.assertEqual(told(word, folder=folder), (7, f"too long {name}\n"))

    def test_a_file_of_edits(self) -> None:
        folder = self.case()
        for editor in (1, 2):
            (folder / f"edits{editor}.jsonl").write_text("edit\n")
        for size, answer in (
            (MOST_FILE_BYTES, (13, "bad script edits1 line 1 NotJson\n")),
            (MOST_FILE_BYTES + 1, (7, "too long edits2\n")),
        ):
            self.lengthen("edits2.jsonl", size)
            self.assertEqual(told("editors", "2", folder=folder), answer)


@needs_program
class Limits(FolderTest):
    @needs_program
    def test_of_many_slots(self) -> None:
        """A road that is shut for the last tenth: at its exit the row of roads fills up, and at the entry of the first
        nobody is on his way."""
        shut, end = SLOTS * 9 // 10, SLOTS
        starts = EACH * SLOTS
        by_exit, by_entry = EACH * (shut - FREE * ROADS), EACH * shut
        for edit, arrived, on_links in (
            (edits.exit_limit(f"a{ROADS - 1}", shut, end, 0), by_exit, JAM * ROADS),
            (edits.limit("a0", shut, end, 0), by_entry, 0),
        ):
            keeper = EditedRows(long_case())
            edits.edit_of(edit).make(keeper)
            keeper.kept().write(self.folder)
            waiting = starts - arrived - on_links
            totals = (
                f"generated {vehicles_text(starts)} arrived {vehicles_text(arrived)} on_links"
                f" {vehicles_text(on_links)} waiting {vehicles_text(waiting)}"
            )
            status, report = told("load", folder=self.folder)
            self.assertEqual((status, report.splitlines()[:1]), (0, [f"version 0 {totals}"]))
            long_case().write(self.folder)
            script = json.dumps({"do": "edit", "edits": [edit]}) + '\n{"do": "settle"}\n{"do": "totals"}\n'
            status, answers = told("session", "0", folder=self.folder, script=script)
            self.assertEqual((status, answers.splitlines()[2:]), (0, [f"version 1 {totals}"]))

    @needs_program
    def test_of_all_links_and_slots(self) -> None:
        """The most limits that there may be are read before it is seen that nobody says how the demand goes on."""
        case = Case(
            Setup(1000, SLOTS, 1000, signals=True, limits=True), row_of_roads(4_000), [Demand("n0", "n1", 0, 1, 1)], []
        )
        keeper = EditedRows(case)
        edits.Exit("a3999", 0, SLOTS, 0).make(keeper)
        edits.Limit("a3999", 0, SLOTS, 0).make(keeper)
        keeper.case.write(self.folder)
        self.assertEqual(told("load", folder=self.folder), (6, "bad case whole row 0 NoSplit n0 n1\n"))


if __name__ == "__main__":
    unittest.main()
