"""Flows by interval and the level of service, on numbers worked by hand."""
import json
import unittest
from fractions import Fraction
from unittest import mock

import commands
from support import FolderTest, needs_pandas
from support_loadings import DATA, read
from ltm_tools.case import Limit
from ltm_tools.loading import counts as numbers, delay
from ltm_tools.loading.flows import Flows, PassedCurve, Passings, Span, flows_of, intervals
from ltm_tools.loading.service import Services, letter_of, percentile

CURVES = ["--curves", str(DATA / "spillback" / "curves.csv")]


class APassedCurve(unittest.TestCase):
    """Slots of 1 s: 4 units in the first, none in the second, 2 in the third."""

    curve = PassedCurve([0, 4, 4, 6], 1000)

    def test_count_and_area(self) -> None:
        # within a slot rounded down: 4 * 0.6 is 2.4
        self.assertEqual([self.curve.at(moment) for moment in (0, 600, 1000, 1700, 2500, 3000)], [0, 2, 4, 4, 5, 6])
        # a triangle of 4 by 1 s, and 4 s; then the exact half of a slot, from 4 to 5
        self.assertEqual(self.curve.area(2000), 2000 + 4000)
        self.assertEqual(self.curve.area(2500), 6000 + Fraction(4000 + 5000, 4))

    def test_moments(self) -> None:
        # the first two pass by 0.5 s, in the mean at 0.25 s; all four at 0.5 s; the fifth between 2 and 2.5 s
        self.assertEqual(self.curve.moments(0), 0)
        self.assertEqual(self.curve.moments(2), 500)
        self.assertEqual(self.curve.moments(4), 2000)
        self.assertEqual(self.curve.moments(5), 2000 + 2250)
        self.assertEqual(self.curve.moments(6), 2000 + 5000)


class Spillback(unittest.TestCase):
    """Link `a`, 20 m and 2 s: 0.5 vehicles a slot enter up to 3, then 0.2; 0.2 a slot leave from slot 2 on."""

    def of_all(self, every_ms: int = 6000) -> Flows:
        case, curves = read("spillback")
        return flows_of(curves, case, every_ms)

    def test_intervals(self) -> None:
        self.assertEqual(intervals(16_000, 6000), [Span(0, 6000), Span(6000, 12_000), Span(12_000, 16_000)])
        found = self.of_all()
        self.assertEqual([list(found.entered("a")), list(found.left("a"))], [[3000, 1200, 800], [800, 1200, 800]])

    def test_time_speed_and_density(self) -> None:
        # 200 each leave at 2.5, 3.5, 4.5 and 5.5 s in the mean; they entered at 0.5 s (500 of them) and at 1.3 s (300)
        flow = self.of_all().rows["a"][0]
        self.assertEqual(flow.mean_ms, Fraction(3_200_000 - 500 * 500 - 300 * 1300, 800))
        self.assertEqual(flow.mean_ms, 3200)
        self.assertEqual((flow.delay_ms, flow.speed_kmh), (1200, Fraction(45, 2)))
        # on `a` by boundary 0, 500, 1000, 1300, 1600, 1900, 2200: trapezes of 1 s sum up to 7400, in 6 s and on 20 m
        self.assertEqual(flow.density, Fraction(7400 * 1000, 6000 * 20))
        self.assertEqual(flow.hourly, 1800)

    def test_what_nobody_left(self) -> None:
        case, curves = read("spillback")
        flow = Passings(curves, case).flow("b", Span(0, 2000))
        self.assertEqual((flow.left, flow.mean_ms, flow.speed_kmh, flow.density), (0, None, None, 0))

    def test_a_link_with_what_follows_it(self) -> None:
        # of a the units 2000 to 2800 leave at 14 s in the mean, which entered at 4.8 s; of b they take 2 s
        case, curves = read("spillback")
        passings = Passings(curves, case)
        span = Span(12_000, 16_000)
        one, other = passings.flow("a", span), passings.flow("b", span)
        assert one.mean_ms is not None
        both = passings.together("x", ("a", "b"), span)
        self.assertEqual((both.name, both.entered, both.left, both.length_m), ("x", 800, 800, 40))
        self.assertEqual((one.mean_ms, other.mean_ms, both.mean_ms), (9200, 2000, 11_200))
        self.assertEqual((both.delay_ms, both.spent), (7200, one.spent + other.spent))
        self.assertEqual(both.speed_kmh, Fraction(40 * 3600, 11_200))

    def test_without_numpy(self) -> None:
        with mock.patch.object(numbers, "numpy", None), mock.patch.object(delay, "numpy", None):
            listed = self.of_all()
        self.assertEqual(listed, self.of_all())
        self.assertEqual(listed.entered("a")[0], 3000)

    @needs_pandas
    def test_a_frame(self) -> None:
        frame = self.of_all().to_pandas()
        self.assertEqual(list(frame["entered"]), [3000, 1200, 800, 800, 1200, 800])
        self.assertEqual((frame["time_ms"][0], frame["speed_kmh"][0]), (3200.0, 22.5))
        self.assertEqual(str(frame["left"].dtype), "int64")


class Service(unittest.TestCase):
    def test_letters(self) -> None:
        seconds = [10, 10.001, 20, 35, 55, 80, 80.001]
        delays = [Fraction(second).limit_denominator(1000) * 1000 for second in seconds]
        self.assertEqual("".join(letter_of(one, "signal") for one in delays), "ABBCDEF")
        self.assertEqual(
            "".join(letter_of(one * 1000, "yield") for one in map(Fraction, (10, 15, 25, 35, 50, 51))), "ABCDEF"
        )
        self.assertEqual((letter_of(Fraction(0), ""), letter_of(None, "signal")), ("", ""))

    def test_percentile(self) -> None:
        self.assertEqual(percentile(list(range(1, 101))), 95)
        self.assertEqual(percentile([3, 1, 2]), 3)
        self.assertEqual(percentile(list(range(20, 0, -1))), 19)

    def test_a_table(self) -> None:
        # the queue of a is 0 up to boundary 2, then 300, 600, 900, 1200: 95 % of 7 are all of them; 150/km make it 8 m
        case, curves = read("spillback")
        case.signals = [Limit("a", 0, 2, 0), Limit("a", 2, 16, 500), Limit("b", 0, 16, 100)]
        rows = Services(curves, case, {}, {"a": "crossing"}).table(6000)
        self.assertEqual([(row.node, row.approach, row.control) for row in rows[:1]], [("crossing", "a", "signal")])
        self.assertEqual((rows[0].queue, rows[0].queue_mm, rows[0].rest, rows[0].letter), (1200, 8000, 1200, "A"))
        self.assertEqual([row.control for row in rows], ["signal"] * 3 + ["yield"] * 3)

    def test_an_approach_with_its_turns(self) -> None:
        # b counts as the turn behind a: its row has the time of both, and its own queue, which is none
        case, curves = read("spillback")
        case.signals = [Limit("b", 0, 2, 0), Limit("b", 2, 16, 500)]
        turn, approach = Services(curves, case, {"x": ("a", "b")}, {}).table(16_000)
        self.assertEqual(
            [(row.approach, row.movement, row.control) for row in (turn, approach)],
            [("x", "b", "signal"), ("x", "", "signal")],
        )
        self.assertEqual((turn.flow.mean_ms, turn.queue), (approach.flow.mean_ms, 0))
        self.assertEqual(approach.queue, 1800)
        together = Services(curves, case, {}, {"a": "n", "b": "n"}).table(16_000, ["a", "b"])
        self.assertEqual([(row.node, row.approach) for row in together], [("n", "a"), ("n", "b"), ("n", "")])
        self.assertEqual((together[2].flow.left, together[2].rest), (2800 + 2400, 1800))


class Command(FolderTest):
    def test_forms(self) -> None:
        status, told, _ = commands.run("flows", str(DATA / "spillback"), *CURVES, "--every", "0.1", "--start", "7:00")
        self.assertEqual(status, 0)
        row = ["a", "7:00", "7:00:06", "3.000", "0.800", "3.20", "1.20", "22.50", "61.67"]
        self.assertEqual(told.splitlines()[2].split(), row)
        path = self.folder / "flows.csv"
        commands.run("flows", str(DATA / "spillback"), *CURVES, "--every", "0.1", "--links", "b", "-o", str(path))
        self.assertEqual(
            path.read_text().splitlines()[:2],
            [
                "link,source,from,to,entered,left,time_s,delay_s,speed_kmh,density_per_km",
                "b,,0:00,0:00:06,0.800,0.400,2.00,0.00,36.00,10.00",
            ],
        )

    def test_geojson(self) -> None:
        case = self.folder / "case"
        case.mkdir()
        for path in (DATA / "spillback").iterdir():
            (case / path.name).write_bytes(path.read_bytes())
        (case / "nodes.csv").write_text("name,x,y\nn1,0,0\nn2,20,0\nn3,40,0\n")
        status, told, _ = commands.run("flows", str(case), *CURVES, "--every", "0.1", "--format", "geojson")
        features = json.loads(told)["features"]
        self.assertEqual((status, len(features)), (0, 6))
        self.assertEqual(
            [features[4]["properties"][name] for name in ("link", "from_time", "entered")], ["b", "0:00:06", 1.2]
        )
        self.assertEqual(features[4]["geometry"]["coordinates"], [[20.0, 0.0], [40.0, 0.0]])

    def test_faults(self) -> None:
        for words, told in (
            (["--links", "z"], "z is no link of the case, nor of its source"),
            (["--service", "--format", "geojson"], "--service is a table of approaches"),
            (["--every", "0.00001"], "no whole number of milliseconds"),
        ):
            status, _, err = commands.run("flows", str(DATA / "spillback"), *CURVES, *words)
            self.assertEqual((status, err.count("\n")), (1, 1))
            self.assertIn(told, err)


if __name__ == "__main__":
    unittest.main()
