"""Tests of tools/measure: what a run costs, the cases that are made, the page, and that no other page has times."""
import json
import re
import signal
import subprocess
import sys
import time
import unittest
from collections.abc import Callable
from pathlib import Path
from unittest import mock

from made_live import needs_live
from support import BUILT, CLONE, TOOLS, FolderTest, needs, needs_numpy, needs_program, script
from support_documents import own_text
from ltm_tools.case import Case
from ltm_tools.errors import Fault
from ltm_tools.tntp.reading import read_net, read_trips
from measuring import cities, page, panning, runs, shapes, speeds, tables
from measuring.made import Made, closures
from measuring.page import Section
from measuring.room import Room
from measuring.sections import SECTIONS

measure = script("measure")
README = CLONE / "README.md"
HOLDS = "import time\nkept = b'x' * 40_000_000\nprint('held', flush=True)\ntime.sleep(1.5)"
STARTS = f"import subprocess, sys\nsubprocess.run([sys.executable, '-c', {HOLDS!r}], check=True)"
BURNS = "import time\nwhile time.process_time() < 0.3: pass\nprint('burnt')"
TIME = re.compile(
    r"\d[\d.,]* (?:ms|s|seconds|minutes|microseconds) of processor time|\d ms each|"
    r"processor time[^.|]{0,40}\d[\d.,]* (?:ms|s|seconds|minutes)\b|\d s, \d[\d.,]* [MG]B\b"
)
WITH_TIMES = {"MEASURED.md", "CHANGELOG.md"}  # the page, and what changed from one version to the next


def table_of(room: Room) -> tables.Table:
    return tables.Table(("what", "ms"), [("a load", "1.0")], ["That is all."])


ONE = Section("one", "First", "Of one.", table_of)
TWO = Section("two", "Second", "Of two.", table_of)


def has_ended(process: int) -> bool:
    """Whether a process has ended, though nobody may have asked for its status yet."""
    try:
        return Path(f"/proc/{process}/stat").read_text().rpartition(")")[2].split()[0] in "ZX"
    except OSError:
        return True


class Costs(FolderTest):
    def test_processor_time_memory_and_output(self) -> None:
        cost = runs.cost_of([sys.executable, "-c", BURNS])
        self.assertTrue(0.3 <= cost.seconds < 3, cost)
        self.assertEqual(cost.output, b"burnt\n")
        self.assertGreater(cost.memory, 3)

    def test_a_run_that_fails(self) -> None:
        with self.assertRaisesRegex(Fault, "ended with status 3: no luck"):
            runs.cost_of([sys.executable, "-c", "import sys; print('no luck', file=sys.stderr); sys.exit(3)"])

    def test_the_clock_and_the_memory_of_all_that_a_run_starts(self) -> None:
        """The run itself holds little, and what it starts 40 MB for a second and a half."""
        with mock.patch("sys.stderr"):
            run = runs.watched([sys.executable, "-c", STARTS])
        self.assertEqual(run.output, b"held\n")
        self.assertTrue(1.5 <= run.clock and run.seconds < run.clock, run)
        self.assertTrue(40 <= run.memory < 400, run)
        with mock.patch("sys.stderr"), self.assertRaisesRegex(Fault, "ended with status 1"):
            runs.watched([sys.executable, "-c", "import sys; sys.exit(1)"])

    def test_memory_is_that_of_the_run_and_not_of_this_process(self) -> None:
        held = bytearray(200_000_000)
        cost = runs.cost_of([sys.executable, "-c", BURNS])
        self.assertTrue(3 < cost.memory < 100, (cost, len(held)))

    def test_a_run_that_takes_too_long_or_too_much(self) -> None:
        """It is ended, with what it started; within both limits it ends as without them, and what it started counts."""
        burns, starts = [sys.executable, "-c", BURNS], [sys.executable, "-c", STARTS]
        began = time.monotonic()
        with self.assertRaisesRegex(runs.PassesLimit, "^over 1 s$"):
            runs.cost_of([sys.executable, "-c", f"{STARTS}\ntime.sleep(60)"], limits=runs.Limits(1, 4000))
        self.assertLess(time.monotonic() - began, 10)
        with self.assertRaisesRegex(runs.PassesLimit, r"^over 0\.03125 GB$"):
            runs.cost_of(starts, limits=runs.Limits(60, 32))
        cost = runs.cost_of(starts, limits=runs.Limits(60, 4000))
        self.assertEqual(cost.output, b"held\n")
        self.assertTrue(40 <= cost.memory < 400 and 1.5 <= cost.clock < 30 and cost.seconds < cost.clock, cost)
        self.assertEqual(runs.cost_of(burns, limits=runs.Limits(60, 4000)).output, b"burnt\n")

    def test_numbers(self) -> None:
        self.assertEqual([tables.clock_text(value) for value in (1234.5, 12.34, 1.04, 0.0634)],
                         ["1,234 s", "12 s", "1.0 s", "0.063 s"])  # fmt: skip
        self.assertEqual([tables.memory_text(value) for value in (8.4, 1023.4, 1536)], ["8 MB", "1,023 MB", "1.5 GB"])
        self.assertEqual([tables.figure(value) for value in (1234.5, 12.34, 1.234, 0.0123)],
                         ["1,234", "12.3", "1.23", "0.012"])  # fmt: skip
        self.assertEqual((tables.ratio(3, 2), tables.ratio(3, 0)), ("1.50", "-"))


class Moving(FolderTest):
    @needs("chromium", "chromium-driver")
    @needs_live
    @needs_program
    def test_a_small_grid(self) -> None:
        """It is panned and played in the browser: each of the three shows frames, none longer than all of them."""
        made, room = Made("grid", 3, 3, 2, 60), Room(self.folder, BUILT, None, 1000.0)
        with mock.patch.dict("os.environ", {"LTM": str(BUILT)}), mock.patch.object(panning, "LASTS", 300):
            ((size, *cells),) = panning.table_of(room, (made,)).rows
        first, there, server, program, *moves = [float(cell.replace(",", "")) for cell in cells]
        self.assertEqual((size, len(moves)), ("24, 60", 6))
        self.assertTrue(0 < first <= there and server > 0 and program >= 0, cells)
        for rate, longest in zip(moves[::2], moves[1::2]):
            self.assertGreaterEqual(longest * rate, 995)  # 1,000 / rate is what a frame takes in the mean


class Shapes(FolderTest):
    def test_each_has_the_size_that_it_is_to_have(self) -> None:
        """Zones, nodes and links as in the list, each link once, and all nodes joined both ways."""
        made = shapes.made_by()
        for name, shape in made.SHAPES.items():
            links = made.links_of(shape)
            connectors = 2 * shape.zones if shape.nodes > shape.zones else 0
            self.assertEqual((len(links) + connectors, len(set(links))), (shape.links, len(links)), name)
            self.assertEqual({end for link in links for end in link}, set(range(shape.junctions)), name)
            self.assertLessEqual(len(set(links) - {(head, tail) for tail, head in links}), 1, name)

    def test_roads_are_used_for_a_part_of_their_capacity(self) -> None:
        """Of all vehicle kilometres in an hour by the shortest ways on the grid, and a block more for each trip."""
        made = shapes.made_by()
        shape = made.SHAPES["anaheim"]
        trips = made.trips_of(shape)
        places = [shape.place(shape.junction_of(zone)) for zone in range(shape.zones)]
        driven = sum(
            trips[one][other] * (abs(places[one][0] - places[other][0]) + abs(places[one][1] - places[other][1]) + 1)
            for one in range(shape.zones)
            for other in range(shape.zones)
        )
        lanes = sum(2 if made.is_main(shape, link) else 1 for link in made.links_of(shape))
        self.assertAlmostEqual(driven / (lanes * 1_800), made.USED, places=4)

    def test_the_files_are_those_of_the_shape(self) -> None:
        status = shapes.made_by().main(["sioux_falls", str(self.folder)])
        self.assertEqual(status, 0)
        net = read_net(self.folder / "sioux_falls_net.tntp")
        self.assertEqual((net.zones, len(net.links), net.first_through), (24, 76, 1))
        amounts, total = read_trips(self.folder / "sioux_falls_trips.tntp")
        self.assertEqual((len(amounts.volumes), sum(amounts.volumes.values())), (24 * 23, total))

    def measured(self, *names: str, **changed: object) -> tables.Table:
        """The table of these shapes, measured with some names of the module changed."""
        room = Room(self.folder, BUILT, None, 1000.0)
        environment = mock.patch.dict("os.environ", {"LTM": str(BUILT)})
        with mock.patch("sys.stderr"), environment, mock.patch.multiple(shapes, **changed):
            return shapes.table_of(room, names)

    @needs_numpy
    @needs_program
    def test_a_small_one(self) -> None:
        """Its runs are told by the clock with their memory, and below by processor time; those that were measured in
        the folder are not measured again, but by another program."""
        words = (*shapes.WORDS[:-1], "70")
        small = self.measured("sioux_falls", WORDS=words)
        ((name, size, sizes, history, *costs),) = small.rows
        self.assertEqual((name, size, sizes, history), ("sioux_falls", "24 / 24 / 76", "109 / 24 / 420", "kept"))
        for cost in costs:
            self.assertRegex(cost, r"^[\d.]+ s, \d+ MB$")
            self.assertGreater(float(cost.split()[0]), 0)
        self.assertEqual((len(costs), len(small.heads), len(small.remarks)), (5, 9, 2))
        self.assertRegex(small.remarks[1].splitlines()[2], r"^\| sioux_falls( \| \d[\d.]*){5} \|$")
        kept = self.folder / "shapes.json"
        found = json.loads(kept.read_text())
        del found["told"]["sioux_falls gap"]
        found["told"]["sioux_falls load"] = ["kept", "kept", ""]
        kept.write_text(json.dumps(found))
        again = self.measured("sioux_falls", WORDS=words)
        self.assertEqual(again.rows[0][5], "kept")
        self.assertEqual(again.rows[0][6], small.rows[0][6])
        self.assertRegex(again.rows[0][7], r"^[\d.]+ s, \d+ MB$")
        kept.write_text(json.dumps({**found, "of": "another program"}))
        self.assertNotIn("kept", self.measured("sioux_falls", WORDS=words).rows[0][5])

    @needs_program
    def test_one_that_is_refused_and_one_that_takes_too_long(self) -> None:
        """Dashes stand behind an import that is refused, and the reason below the table; a run that passes a limit
        says so, and those behind it are measured all the same."""
        none = self.measured("sioux_falls", WORDS=("--destinations", "2001"))
        self.assertEqual(none.rows, [("sioux_falls", "24 / 24 / 76", *["-"] * 7)])
        self.assertEqual(
            none.remarks[2:],
            ["sioux_falls, import: ended with status 1: ltm-tools from-tntp: --destinations is 1 to 2000."],
        )
        (self.folder / "shapes.json").unlink()
        ends = runs.cost_of

        def late(words: list[str], *more: object, limits: runs.Limits | None = None) -> runs.Cost:
            if "load" in words:
                raise runs.PassesLimit("over 900 s")
            if "assign" in words:
                raise Fault(f"{words[0]} ended with status 2: no luck")
            return ends(words, *more, limits=limits)

        table = self.measured("sioux_falls", cost_of=late)
        _, _, _, _, made, load, delay, gap, assign = table.rows[0]
        self.assertEqual((load, assign), ("over 900 s", "-"))
        for cost in (made, delay, gap):
            self.assertRegex(cost, " s, .* MB$")
        self.assertRegex(table.remarks[1], r"sioux_falls \| [\d.]+ \| - \| [\d.]+ \| [\d.]+ \| - \|")
        self.assertEqual(table.remarks[2:], ["sioux_falls, assign: ended with status 2: no luck."])

    def test_a_measurement_that_is_ended_ends_its_run(self) -> None:
        """The run of the program, which would take a minute, is gone; what was measured before it is kept."""
        program = self.program("import os, time\nopen('PID', 'w').write(f'{os.getpid()} ')\ntime.sleep(60)")
        keep = self.folder / "keep"
        words = ["shapes", "--shapes", "sioux_falls", "--keep", keep, "--output", self.folder / "page.md"]
        with subprocess.Popen(
            [sys.executable, TOOLS / "measure", *words, "--program", program], stderr=subprocess.DEVNULL
        ) as process:
            run = keep / "sioux_falls" / "PID"
            self.wait_for(lambda: run.exists() and run.read_text().endswith(" "))
            process.terminate()
            self.assertEqual(process.wait(), 128 + signal.SIGTERM)
        self.wait_for(lambda: has_ended(int(run.read_text())), 5)
        self.assertEqual(
            list(json.loads((keep / "shapes.json").read_text())["told"]), ["sioux_falls import", "sioux_falls sizes"]
        )
        self.assertFalse((self.folder / "page.md").exists())

    def wait_for(self, is_so: Callable[[], bool], seconds: float = 60) -> None:
        """Waits until something is so."""
        end = time.monotonic() + seconds
        while not is_so():
            self.assertLess(time.monotonic(), end)
            time.sleep(0.05)

    def test_one_that_is_not_known(self) -> None:
        with self.assertRaisesRegex(Fault, "paris is no shape: sioux_falls, "):
            shapes.shapes(Room(self.folder, BUILT, None, 1000.0, shapes=("paris",)))


class Cities(FolderTest):
    @needs_numpy
    @needs_program
    def test_a_small_city(self) -> None:
        room = Room(self.folder, BUILT, None, 1000.0, 1)
        with mock.patch.multiple(cities, CITY="small", PROCESSES=1), mock.patch("sys.stderr"):
            table = cities.city(room)
        ((sizes, vehicles, _, iterations, *costs),) = table.rows
        self.assertEqual((sizes, iterations, len(costs)), ("76, 24, 1800", "1", 3))
        self.assertAlmostEqual(int(vehicles.replace(",", "")), 16_000, delta=50)
        self.assertRegex(table.remarks[0], r"^Relative gap by iteration, in per cent: 15\.78, [\d.]+\.$")

    def test_gaps_of_what_assign_prints(self) -> None:
        lines = ["76 links, 24 destinations, 30 periods of 5 minutes", "  hours relative gap  exact gap not arrived"]
        lines += ["  0     1,120.69        15.78 %      16.00 %         0.000    3.000     0.17"]
        lines += ["  1       350.95         0.28 %                      0.000    3.090     0.19  50 % of the demand"]
        self.assertEqual(cities.gaps_of("\n".join(lines)), ["15.78", "(0.28)"])


class Cases(FolderTest):
    def test_a_grid(self) -> None:
        """Of 2 by 3 nodes: 7 pairs of neighbours, both ways; each of the two ends has five origins."""
        case = Made("grid", 2, 3, 2, 10).case()
        self.assertEqual((len(case.links), len(case.nodes), len(case.demand)), (14, 6, 10))

    @needs_program
    def test_closures_are_settled_one_by_one(self) -> None:
        made = Made("corridor", 1, 4, 1, 20, 30)
        with mock.patch.dict("os.environ", {"LTM": str(BUILT)}):
            case = made.write(self.folder)
        self.assertEqual(Case.read(self.folder).cells(), case.cells())
        self.assertEqual(closures(case, self.folder / "script.jsonl", 3), 4 * 20)
        cost = runs.cost_of([BUILT, "session", "0"], self.folder, self.folder / "script.jsonl")
        self.assertEqual(cost.output.count(b"accepted"), 3)
        self.assertGreater(speeds.recomputed(cost), 0)

    @needs_program
    def test_a_plain_engine_has_to_answer_alike(self) -> None:
        small = ((Made("corridor", 1, 4, 1, 20, 30), 2, 1.0),)
        other = self.program("print('version 0')")
        with mock.patch.object(speeds, "BESIDE", small), mock.patch.dict("os.environ", {"LTM": str(BUILT)}):
            table = speeds.beside_plain(Room(self.folder, BUILT, BUILT, 100))
            self.assertEqual(len(table.rows), 3)
            self.assertNotIn(tables.DASH, table.rows[0])
            alone = speeds.beside_plain(Room(self.folder, BUILT, None, 100))
            self.assertEqual(list(alone.rows[0][-2:]), [tables.DASH] * 2)
            with self.assertRaisesRegex(Fault, "the plain engine answers otherwise"):
                speeds.beside_plain(Room(self.folder, BUILT, other, 100))


class ThePage(FolderTest):
    def test_a_section_that_is_measured_anew_leaves_the_others(self) -> None:
        first = page.text_of({"one": "*then*\n\nold", "two": "*then*\n\nkept"}, (ONE, TWO))
        kept = page.kept_of(first, (ONE, TWO))
        self.assertEqual(kept, {"one": "*then*\n\nold", "two": "*then*\n\nkept"})
        second = page.text_of({**kept, "one": "*now*\n\nnew"}, (ONE, TWO))
        self.assertEqual(second, first.replace("*then*\n\nold", "*now*\n\nnew"))
        self.assertIn("Not measured yet.", page.text_of({}, (ONE,)))

    def test_what_is_written_of_a_section(self) -> None:
        told = measure.measured(ONE, Room(self.folder, self.program(""), None, 100))
        self.assertRegex(told.splitlines()[0], r"^\*\d+ \w+ \d{4}, \d+ x .*, an unproved program \([0-9a-f]{12}\)\.\*$")
        self.assertEqual(told.splitlines()[-3:], ["| a load | 1.0 |", "", "That is all."])

    def test_the_page_is_of_this_script(self) -> None:
        text = measure.PAGE.read_text(encoding="utf-8")
        kept = page.kept_of(text, SECTIONS)
        self.assertEqual(set(kept), {section.name for section in SECTIONS})
        self.assertEqual(page.text_of(kept, SECTIONS), text)

    def test_readme_shows_what_was_measured(self) -> None:
        """Its table of sizes is that of the page, for each shape."""
        text = README.read_text(encoding="utf-8")
        kept = page.kept_of(measure.PAGE.read_text(encoding="utf-8"), SECTIONS)
        self.assertEqual(page.copied(text, kept), text)
        shown = page.kept_of(text, SECTIONS)
        self.assertEqual(list(shown), ["shapes"])
        rows = [line.split(" | ")[0] for line in shown["shapes"].splitlines() if line.startswith("| ")]
        self.assertEqual(rows[2:], [f"| {name}" for name in shapes.made_by().SHAPES])

    def test_an_excerpt_in_another_document(self) -> None:
        """When a section was measured and its first table, between the marks; the rest stays, and other sections are
        not shown."""
        marked = "Before.\n\n<!-- measured: one -->{}<!-- end of one -->\n\nBehind.\n"
        kept = {"one": "*then*\n\n    words\n\n| a |\n| --- |\n\nAll.\n\n| b |\n| --- |", "two": "*then*\n\n| c |"}
        text = marked.format("\n\n*then*\n\n| a |\n| --- |\n\n")
        for old in ("\n\nold\n\n", "\n\n"):
            self.assertEqual(page.copied(marked.format(old), kept), text)
        self.assertEqual(page.copied(text, {"two": kept["two"]}), text)

    def test_no_other_page_has_times(self) -> None:
        pages = [README, *(CLONE / "docs").glob("*.md"), *(CLONE / "examples").glob("**/*.md")]
        found = [
            (path.name, match[0])
            for path in pages
            if path.name not in WITH_TIMES
            for match in TIME.finditer(" ".join(own_text(path).split()))
        ]
        self.assertEqual(found, [])
        self.assertTrue(TIME.search("it takes 3.5 s of processor time"))
        self.assertTrue(TIME.search("| city | 3.5 s, 1.2 GB |"))


if __name__ == "__main__":
    unittest.main()
