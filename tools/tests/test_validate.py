"""Counts and travel times beside a loading: the measures, on numbers worked by hand; tables as people have them; what
is refused, and what is told."""
import csv
import gzip
import io
import unittest
from decimal import Decimal
from fractions import Fraction

import commands
from support import FolderTest, needs_matplotlib
from support_loadings import read
from ltm_tools.case import Case, Demand, Link, Setup
from ltm_tools.counting.counts import Count, Point
from ltm_tools.counting.doubts import contradictions, still_queued
from ltm_tools.counting.loaded import by
from ltm_tools.counting.measures import Pair, fit_of, is_line_met, is_time_met, root
from ltm_tools.counting.result import misfits, read_fit
from ltm_tools.counting.validating import Met, Validation, hours_of
from ltm_tools.loading.flows import Span

MINUTE = 60_000


def pair(counted: int, modelled: int) -> Pair:
    return Pair(Fraction(counted), Fraction(modelled))


def met(name: str, begin: int, end: int, vehicles: int, units: int) -> Met:
    """A count over minutes at the entry of a link of this name."""
    span = Span(begin * MINUTE, end * MINUTE)
    return Met(Count(name, (Point(name),), span, Fraction(vehicles), None, "fit", "row"), units)


class Measures(unittest.TestCase):
    def test_geh(self) -> None:
        # d = 50 and a sum of 200: 2 * 2500 / 200 = 25
        self.assertEqual((pair(75, 125).geh, pair(75, 125).is_within(5), pair(75, 124).is_within(5)), (5, False, True))
        self.assertEqual((pair(0, 0).geh, pair(0, 50).geh), (0, 10))
        # 2 * 900 / 630 = 2.857.., whose root is 1.6903
        self.assertEqual(pair(300, 330).geh, Decimal("1.69"))

    def test_root(self) -> None:
        self.assertEqual(root(Fraction(2), 3), Decimal("1.414"))
        self.assertEqual(root(Fraction(1, 400), 2), Decimal("0.05"))
        self.assertEqual(root(Fraction(29929, 10**6), 2), Decimal("0.17"))  # 0.173
        self.assertEqual(root(Fraction(30625, 10**6), 2), Decimal("0.18"))  # 0.175

    def test_bands(self) -> None:
        for counted, most in ((100, 100), (699, 100), (700, 105), (2700, 405), (2701, 400)):
            self.assertTrue(pair(counted, counted + most).is_in_band, counted)
            self.assertFalse(pair(counted, counted + most + 1).is_in_band, counted)
        self.assertTrue(is_line_met(Fraction(100), Fraction(105)))
        self.assertFalse(is_line_met(Fraction(100), Fraction(94)))
        self.assertTrue(is_time_met(Fraction(100), Fraction(160)))
        self.assertFalse(is_time_met(Fraction(100), Fraction(161)))
        self.assertTrue(is_time_met(Fraction(1000), Fraction(850)))
        self.assertFalse(is_time_met(Fraction(1000), None))

    def test_a_fit(self) -> None:
        # differences 10, -10 and 30: squares 1100. Means 200 and 210; over the first 22000 of 20000 and 24800
        fit = fit_of([pair(100, 110), pair(200, 190), pair(300, 330)])
        self.assertEqual((fit.slope, fit.r2), (Fraction(11, 10), Fraction(121, 124)))
        self.assertEqual((fit.rmsn_square, fit.rmsn), (Fraction(3 * 1100, 600 * 600), Decimal("9.6")))
        self.assertEqual((fit.below_5, fit.below_10, fit.in_band), (1, 1, 1))
        self.assertEqual(fit.total_geh, Decimal("1.21"))  # 2 * 900 / 1230 = 1.463, whose root is 1.2097
        self.assertEqual((fit_of([pair(3, 4)]).slope, fit_of([pair(0, 4)]).rmsn), (None, None))

    def test_hours(self) -> None:
        # from the first count on: four quarters, a gap, three quarters, and an hour at once; 100 minutes are none
        rows = [met("a", 15 * k, 15 * (k + 1), 10 + k, 1000 * k) for k in (0, 1, 2, 3, 5, 6, 7)]
        rows.append(met("a", 240, 300, 5, 7000))
        rows.append(met("b", 0, 50, 5, 7000))
        rows.append(met("b", 50, 100, 5, 7000))
        found = hours_of(reversed(rows))
        self.assertEqual(
            [(hour.name, hour.span.begin // MINUTE, hour.vehicles, hour.modelled) for hour in found],
            [("a", 0, 46, 6), ("a", 240, 5, 7)],
        )

    def test_errors(self) -> None:
        # 5 % of 20 and half a vehicle: the root of 1.25; a difference of 5 is 20 of these squares
        one = met("a", 0, 60, 20, 25_000)
        self.assertEqual((one.count.square, one.misfit), (Fraction(5, 4), 20))
        self.assertEqual(Validation((one, met("b", 0, 60, 20, 20_000))).misfit(), 10)


class BetweenTheEnds(unittest.TestCase):
    def test_by_hand(self) -> None:
        # a in 20 m: 10 m from the entry, 1 s after it, and 2 s before the exit is felt, with room for 1.5 vehicles
        links = {"a": Link("a", "n1", "n2", 20, 36, 18, 150)}
        calls = []

        def passed(name: str, is_exit: bool, moment: int) -> int:
            calls.append((name, is_exit, moment))
            return 800 if is_exit else 3200

        self.assertEqual(by(Point("a", Fraction(10)), 8000, links, passed), 800 + 1500)
        self.assertEqual(calls, [("a", False, 7000), ("a", True, 6000)])


HEAD = "link,from,to,vehicles\n"


class Tables(FolderTest):
    """The case of `stage.py`: p and q of the source are a, r was contracted, s is b."""

    def setUp(self) -> None:
        from stage import set_up

        super().setUp()
        set_up(self.folder)

    def fit(self, *words: str, **files: str | bytes) -> tuple[list[dict[str, str]], str]:
        """The rows of a fit of these files, and what was told."""
        for name, text in files.items():
            path = self.folder / name.replace("__", ".")
            path.write_bytes(text if isinstance(text, bytes) else text.encode())
        status, out, err = commands.run(
            "validate",
            str(self.folder / "case"),
            "--curves",
            str(self.folder / "case/curves.csv"),
            "-o",
            "-",
            *(str(self.folder / word) if (self.folder / word).exists() else word for word in words),
        )
        self.assertNotIn("Traceback", err)
        return (list(csv.DictReader(io.StringIO(out))) if status == 0 else []), err

    def counts(self, text: str) -> tuple[list[dict[str, str]], str]:
        return self.fit("--counts", "my.csv", my__csv=text)

    def test_a_plain_table(self) -> None:
        # up a is 500 at 1 s, 1999 at 4 s, 2498 .. ; of 7:00:01.5 half of a slot
        rows, _ = self.counts("to,vehicles,link,from\n7:00:04,1.5,q,7:00:01\n4,1,a,1.5\n")
        self.assertEqual(
            [(row["place"], row["links"], row["loaded"]) for row in rows], [("q", "a", "1.499"), ("a", "a", "1.249")]
        )
        self.assertEqual((rows[0]["from"], rows[0]["to"], rows[0]["error"]), ("7:00:01", "7:00:04", "0.506"))

    def test_spreadsheets(self) -> None:
        rows, err = self.fit("--counts", "my.csv", my__csv="Edge_ID;Begin;End;Count\r\nq;0;4;1,5\r\n".encode("utf-16"))
        self.assertEqual([(row["place"], row["counted"], row["loaded"]) for row in rows], [("q", "1.500", "1.999")])
        self.assertIn("UTF-16", err)

    def test_rows_of_one_place(self) -> None:
        rows, _ = self.counts(
            "link,from,to,vehicles,place,error\nb,1,4,1,line,0.3\nc,1,4,2,line,0.4\nb,4,6,,line,\n" "c,4,6,1,line,\n"
        )
        # up b 0.250 at 1 s and c 0.. : the sum of both is what has left a, 0 at 1 s and 1200 at 4 s
        self.assertEqual([(row["place"], row["counted"], row["error"]) for row in rows], [("line", "3.000", "0.500")])

    def test_sumo_edge_data(self) -> None:
        data = (
            '<meandata><interval begin="25200" end="25204.00" id="x"><edge id="p" entered="2" departed="1"/>'
            '<edge id=":x_0" entered="5"/><edge id="s" left="0" arrived="1"/><edge id="q" speed="3"/></interval>'
            "</meandata>"
        )
        rows, _ = self.fit("--counts", "e.xml.gz", e__xml__gz=gzip.compress(data.encode()))
        self.assertEqual(
            [(row["links"], row["end"], row["counted"], row["from"], row["to"]) for row in rows],
            [("a", "entry", "3.000", "7:00", "7:00:04"), ("b", "exit", "1.000", "7:00", "7:00:04")],
        )

    def test_an_error_for_all(self) -> None:
        """Of 30 vehicles a tenth, and 4: 3 and 4 make 5. A row with an error keeps it, and a count of 0 has the 4."""
        table = "link,from,to,vehicles,error\na,1,4,30,\nb,1,4,0,\nc,1,4,30,0.3\n"
        rows, _ = self.fit("--counts", "my.csv", "--count-error", "10", "4", my__csv=table)
        self.assertEqual([row["error"] for row in rows], ["5.000", "4.000", "0.300"])
        rows, err = self.fit("--counts", "my.csv", "--count-error", "10", "0", my__csv=table)
        self.assertEqual((rows, err.count("\n")), ([], 1))
        self.assertIn("--count-error has 0 vehicles", err)

    def test_sumo_detectors(self) -> None:
        table = "Detector;Time;qPKW;vPKW;qLKW\nl1;420;2;50;1\nl2;420;4;50;0\nl1;420,05;5;50;0\n"
        # two lanes of p, 3 s each; the XML file of detectors has them on lanes
        loops = '<inductionLoop id="l1" lane="p_0" pos="2"/><inductionLoop id="l2" lane="p_1" pos="2"/>'
        xml = f"<additional>{loops}</additional>"
        rows, _ = self.fit("--counts", "d.csv", "--detectors", "l.xml", d__csv=table, l__xml=xml)
        found = [(row["place"], row["counted"], row["from"], row["to"]) for row in rows]
        self.assertEqual(found, [("p", "7.000", "7:00", "7:00:03"), ("p", "5.000", "7:00:03", "7:00:06")])
        _, err = self.fit("--counts", "d.csv", "--detectors", "t.csv", t__csv="detector,link\nl1,p\n")
        self.assertIn("has no such detector", err)

    def test_dtalite(self) -> None:
        head = "measurement_id,measurement_type,o_zone_id,d_zone_id,from_node_id,to_node_id,count1\n"
        text = f"{head}1,link,,,1,2,1.5\n2,production,1,,,,9\n"
        rows, err = self.fit("--counts", "measurement.csv", "--span", "7:00", "7:00:04", measurement__csv=text)
        self.assertEqual([(row["place"], row["counted"], row["loaded"]) for row in rows], [("p", "1.500", "1.999")])
        self.assertIn("1 rows that are of no link are left out", err)
        unknown = f"{head}1,link,,,1,9,1.5\n"
        _, err = self.fit("--counts", "measurement.csv", "--span", "7:00", "7:00:04", measurement__csv=unknown)
        self.assertIn("from 1 to 9", err)
        _, err = self.fit("--counts", "measurement.csv")
        self.assertIn("--span FROM TO says when", err)

    def test_what_is_refused(self) -> None:
        for text, told in (
            (HEAD + "z,1,4,1\n", "line 2: z is no link of the case, nor of its source"),
            (HEAD + "r,1,4,1\n", "line 2: link r of the source was contracted"),
            (HEAD + "a,4,4,1\n", "line 2: the count ends no later than it begins"),
            (HEAD + "a,1,4,2\na,6:59:59,7:00:02,1\n", "line 3: the count is not within the horizon"),
            (HEAD + "a,1,13,1\n", "line 2: the count is not within the horizon"),
            (HEAD + "a,1,4,-1\n", 'line 2: vehicles is "-1": a count is not below 0'),
            (HEAD + "a,1,4,many\n", 'line 2: vehicles is "many": expected a number'),
            (HEAD + "a,1,4,3\na,1,4,2\n", "line 3: my.csv line 2 has a count of a in the same time"),
            (HEAD + "a,7:61,4,3\n", 'line 2: from is "7:61": expected a clock time'),
            (HEAD + "a,1,4,\n", "no count of a link of this case"),
            ("link,from,to\na,1,4\n", "no field vehicles or count"),
            ("link,from,to,vehicles,end\na,1,4,1,25\n", "line 2: a is 20 m long, and end is 25"),
            ("link,from,to,vehicles,use\na,1,4,1,never\n", 'line 2: use is "never": expected fit or hold'),
            ("link,from,to,vehicles,error\na,1,4,1,0\n", 'line 2: error is "0": expected an error above 0'),
            ("link,from,to,vehicles,place,use\na,1,4,1,x,\nb,1,4,1,x,hold\n", "place x are to have one use"),
        ):
            rows, err = self.counts(text)
            self.assertEqual((rows, err.count("\n")), ([], 1), text)
            self.assertIn(told, err)

    def test_links_that_are_left_out(self) -> None:
        rows, err = self.fit("--counts", "my.csv", "--leave-out-unknown", my__csv=HEAD + "z,1,4,1\nr,1,4,1\na,1,4,1\n")
        self.assertEqual([row["links"] for row in rows], ["a"])
        self.assertIn("counts of 2 links that the case has not: z, r", err)

    def test_what_is_told(self) -> None:
        # a lets 0.5 vehicles pass in a slot; a count from slot 0
        _, err = self.counts(HEAD + "a,0,4,2.001\nb,1,5,2\n")
        self.assertIn("my.csv line 2: 2.001 vehicles were counted at a, and no more than 2 can pass", err)
        self.assertNotIn("line 3: 2 vehicles", err)
        self.assertIn("counts begin at 7:00, when the loading begins on empty roads", err)
        # in data/delay/spillback 1.8 stand in the queue of a at the end, and 2 wait at n1
        case, curves = read("spillback")
        self.assertEqual(
            [line.partition(" still")[0] for line in still_queued(case, curves)], ["3.8 vehicles (54.3 %)"]
        )
        case, curves = read("road")
        self.assertEqual(list(still_queued(case, curves)), [])
        self.assertIn("1 count left empty", self.counts(HEAD + "a,0,4,2\nb,1,5,\n")[1])

    def test_times(self) -> None:
        (self.folder / "t.csv").write_text("route,departs,seconds,error\na b,7:00:01,1,\np q s,9,2,1\n")
        status, out, _ = commands.run(
            "validate",
            str(self.folder / "case"),
            "--curves",
            str(self.folder / "case/curves.csv"),
            "--counts",
            str(self.folder / "counts.csv"),
            "--times",
            str(self.folder / "t.csv"),
        )
        self.assertEqual(status, 0)
        self.assertIn("travel times within 15 %, or a minute: 1 of 2", out)
        (self.folder / "t.csv").write_text("route,departs,seconds\na z,1,1\n")
        self.assertIn("z is no link of the case", self.fit("--counts", "counts.csv", "--times", "t.csv")[1])
        (self.folder / "t.csv").write_text("route,departs,seconds\np s,1,1\n")
        self.assertIn("t.csv line 2: link s does not begin", self.fit("--counts", "counts.csv", "--times", "t.csv")[1])

    @needs_matplotlib
    def test_pictures(self) -> None:
        fit = self.folder / "fit.csv"
        fit.write_text(self.folder.joinpath("counts.csv").read_text())
        self.assertEqual(commands.run("plot", "counts", str(fit), str(self.folder / "s.png"))[0], 1)
        text = "place,links,end,from,to,counted,loaded,error,geh,use\nx,a b,entry,7:00,8:00,4,5,1,0.4,fit\n"
        fit.write_text(text + "y,a,entry,7:00,8:00,0,0,1,0,hold\n")
        self.assertEqual(misfits(read_fit(fit)), {"a": Fraction(1, 4), "b": Fraction(1, 4)})
        case = str(self.folder / "case")
        self.assertEqual(commands.run("plot", "counts", str(fit), str(self.folder / "s.png"))[0], 0)
        words = ("draw", "map", case, "--curves", f"{case}/curves.csv", "-o", str(self.folder / "m.png"))
        self.assertEqual(commands.run(*words, "--fit", str(fit))[0], 0)
        self.assertIn("say one of them", commands.run(*words)[2])
        fit.write_text(text.replace("a b", "a z"))
        self.assertIn("it has no link z", commands.run(*words, "--fit", str(fit))[2])


class Nodes(unittest.TestCase):
    def test_more_out_than_in(self) -> None:
        # 100 come in, with an error of 5.02, and a stores 3; of 125 out of it 3 errors of both are 24.1, more than 22;
        # of 129 they are 24.6, less than 26
        case = Case(
            Setup(1000, 10, 1),
            [Link("a", "n1", "n2", 20, 36, 18, 150), Link("b", "n2", "n3", 20, 36, 18, 150)],
            [Demand("n1", "n3", 0, 9, 5000)],
        )
        told = [list(contradictions([met("a", 0, 60, 100, 0), met("b", 0, 60, out, 0)], case, 0)) for out in (125, 129)]
        self.assertEqual((len(told[0]), len(told[1])), (0, 1))
        self.assertIn("out of node n2 129 vehicles were counted from 0:00 to 1:00, and 100 into it", told[1][0])


class TheLoading(unittest.TestCase):
    def test_at_an_end_the_program_s_count(self) -> None:
        case, curves = read("spillback")
        from ltm_tools.counting.loaded import all_counted

        counts = [
            Count("x", points, Span(4000, 9500), Fraction(1), None, "fit", "")
            for points in ((Point("a"),), (Point("a", None, True), Point("b")))
        ]
        # up a 2000 and 3700 (3600 and half of 200); down a 400 and 1500, and as much into b
        self.assertEqual(all_counted(counts, curves, case), [1700, 2200])


if __name__ == "__main__":
    unittest.main()
