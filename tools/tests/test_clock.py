"""When slot 0 begins: `clock.txt` is written by what knows it, kept, and where every tool begins that is told no
other."""
import csv
import io
import json
import shutil
import unittest
from pathlib import Path

import commands
from support import FolderTest, needs_matplotlib
from support_loadings import DATA
from support_gmns import PLAIN, GmnsTest
from support_sumo import SumoTest
from ltm_tools.case.clock import read_clock, start_of
from ltm_tools.errors import Fault
from ltm_tools.formats import HOUR_MS

SEVEN = 7 * HOUR_MS


class Reading(FolderTest):
    def told(self, text: str) -> Path:
        (self.folder / "clock.txt").write_text(text)
        return self.folder

    def test_clocks(self) -> None:
        self.assertIsNone(read_clock(self.folder))
        self.assertEqual(
            [read_clock(self.told(text)) for text in ("7:00\n", "07:00:00", "0:00:00.5\r\n")], [SEVEN, SEVEN, 500]
        )

    def test_what_is_none(self) -> None:
        for text in ("", "seven\n", "7:00\n8:00\n", "7:00\n" * 1000):
            with self.assertRaisesRegex(Fault, r"clock\.txt: .*as 7:"):
                read_clock(self.told(text))

    def test_of_two_folders(self) -> None:
        for name, text in (("one", "7:00"), ("other", "8:00"), ("same", "07:00"), ("none", None)):
            (self.folder / name).mkdir()
            if text is not None:
                (self.folder / name / "clock.txt").write_text(text)
        one, other, same, none = (self.folder / name for name in ("one", "other", "same", "none"))
        self.assertEqual(
            [start_of(None, one, same), start_of(None, none, one), start_of(None, none), start_of(5, one, other)],
            [SEVEN, SEVEN, 0, 5],
        )
        with self.assertRaisesRegex(Fault, "one begins at 7:00 and .*other begins at 8:00, .* say --start"):
            start_of(None, one, other)


class Tools(FolderTest):
    """The worked case with its curves, which begins at 7:00."""

    def setUp(self) -> None:
        super().setUp()
        self.made = self.folder / "case"
        shutil.copytree(DATA / "spillback", self.made)
        (self.made / "clock.txt").write_text("7:00\n")
        (self.made / "nodes.csv").write_text("name,x,y\nn1,0,0\nn2,20,0\nn3,40,0\n")

    def run_on(self, *words: str) -> str:
        told = [word.replace("CASE", str(self.made)) for word in words]
        status, out, err = commands.run(*told, "--curves", str(self.made / "curves.csv"))
        self.assertEqual((status, err), (0, ""))
        return out

    def first(self, text: str, field: str) -> int:
        return int(next(iter(csv.DictReader(io.StringIO(text))))[field])

    def test_every_tool_begins_there(self) -> None:
        for words, field in (
            (("times", "CASE", "a", "b"), "departs_ms"),
            (("queues", "CASE", "--sort", "from"), "from_ms"),
            (("compare", "CASE", "CASE", "--other-curves", "CASE/curves.csv", "--table", "arrivals"), "ms"),
        ):
            found = [
                self.first(self.run_on(*words, "--format", "csv", *more), field) for more in ((), ("--start", "0:00"))
            ]
            self.assertEqual(found[0] - found[1], SEVEN, words)
        self.run_on("geojson", "CASE", "--at", "7:00:08", "-o", "CASE/links.json")
        first = json.loads((self.made / "links.json").read_text())["features"][0]
        self.assertEqual(first["properties"]["on_link"], 2.2)

    def test_the_page_begins_there(self) -> None:
        (self.folder / "d3.min.js").write_text("// https://d3js.org v7.0.0\n")
        self.run_on("page", "CASE", "-o", "CASE/page.html", "--d3", str(self.folder / "d3.min.js"))
        self.assertIn(f'"start":{SEVEN},', (self.made / "page.html").read_text())

    @needs_matplotlib
    def test_pictures_begin_there(self) -> None:
        for words in (("map", "CASE", "--at", "7:00:08"), ("curves", "CASE", "a", "b"), ("full", "CASE", "a", "b")):
            self.run_on("draw", *words, "-o", "CASE/drawn.svg")
            self.assertRegex((self.made / "drawn.svg").read_text(), r"<!-- (case at )?7:00", words)


class Gmns(GmnsTest):
    def clock(self) -> str | None:
        path = self.folder / "case" / "clock.txt"
        return path.read_text() if path.exists() else None

    def test_by_a_profile_a_start_or_none(self) -> None:
        self.net(PLAIN, demand="o_zone_id,d_zone_id,volume\n1,3,100\n")
        profile = self.folder / "profile.csv"
        profile.write_text("from,to,share\n7:15,7:30,1\n")
        self.made()
        self.assertIsNone(self.clock())
        self.made("--profile", str(profile))
        self.assertEqual(self.clock(), "7:15\n")
        self.made("--profile", str(profile), "--start", "7:00")
        self.assertEqual(self.clock(), "7:00\n")
        self.made("--start", "6:30")
        self.assertEqual(self.clock(), "6:30\n")
        self.made()
        self.assertEqual(self.clock(), "6:30\n")  # a user's file is left
        self.assertIn("an older clock.txt stands in", self.out)

    def test_demand_signals_and_splits_know_it_and_tell_it(self) -> None:
        self.net(PLAIN)
        self.made("--start", "7:00")
        case, trips, greens, routes = (self.folder / name for name in ("case", "trips.csv", "greens.csv", "routes.csv"))
        trips.write_text("origin,destination,depart\n1,3,7:20\n")
        self.assertIn("slot 0 begins at 7:00\n", commands.run("demand", str(case), "--trips", str(trips))[1])
        self.assertEqual((case / "demand.csv").read_text().splitlines()[1:], ["1,3,15,30,1"])
        routes.write_text("depart,links\n7:20,a b\n")
        self.assertIn("slot 0 begins at 7:00\n", commands.run("splits", str(case), "--routes", str(routes))[1])
        greens.write_text("link,cycle,green_from,green_to,start,end\na,120,0,60,7:10,7:12\n")
        self.assertEqual(commands.run("signals", str(case), "--cycles", str(greens))[0], 0)
        self.assertEqual(
            [line.split(",")[1] for line in (case / "signals.csv").read_text().splitlines()[1:]], ["11"]
        )  # green in slot 10, and red in slot 11
        self.assertEqual(self.clock(), "7:00\n")
        for words in (
            ("demand", "--trips", str(trips), "--start", "7:15"),
            ("splits", "--routes", str(routes), "--start", "7:10"),
            ("signals", "--cycles", str(greens), "--clock", "7:05"),
        ):
            self.assertEqual(commands.run(words[0], str(case), *words[1:])[0], 0)
            self.assertEqual(self.clock(), f"{words[-1]}\n")


class Sumo(SumoTest):
    CAR = '<vehicle id="v" depart="{}"><route edges="in on"/></vehicle>'

    def test_by_the_first_vehicle_or_the_begin(self) -> None:
        path = self.folder / "case" / "clock.txt"
        self.made()
        self.assertFalse(path.exists())
        self.made(routes=self.CAR.format(25_500))
        self.assertEqual(path.read_text(), "7:00\n")
        self.made("--begin", "6:30", routes=self.CAR.format(25_500))
        self.assertEqual(path.read_text(), "6:30\n")
        self.made(routes=self.CAR.format(5_000_000))  # 1388 hours are no clock time
        self.assertFalse(path.exists())


if __name__ == "__main__":
    unittest.main()
