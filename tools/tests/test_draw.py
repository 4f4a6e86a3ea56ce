"""Pictures: what is drawn is what the curves say; each command writes a picture."""
import html
import math
import re
import subprocess
import sys
import unittest
from dataclasses import replace
from typing import Any

from support import ROAD, FolderTest, TOOLS, needs_matplotlib
from support_loadings import DATA, read
from ltm_tools import libraries
from ltm_tools.libraries import DEBIAN_PYTHON
from ltm_tools.loading.curves import Curves
from ltm_tools.loading.loaded import LoadedCase
from ltm_tools.show.draw import drawn_aside, bent, clock_axis, draw_map, draw_shares, draw_worths, occupancy
from ltm_tools.show.layout import scaled
from ltm_tools.show.plot import draw_arrivals, draw_iterations, draw_link

CURVES = str(DATA / "spillback" / "curves.csv")


def has_matplotlib() -> bool:
    if not libraries.missing(["matplotlib"]):
        return True
    try:
        return subprocess.run([DEBIAN_PYTHON, "-c", "import matplotlib"], stderr=subprocess.DEVNULL).returncode == 0
    except OSError:
        return False


class Numbers(unittest.TestCase):
    def test_shares(self) -> None:
        """docs/MODEL.md: on `a` stand 0 at boundary 0, 500 at 1, 1000 at 2, 3000 stored; from 12 on 2200 of 3000."""
        rows = occupancy(LoadedCase(*read("spillback")), ["a", "b"])
        self.assertAlmostEqual(rows[0][0], 100 * 250 / 3000)
        self.assertAlmostEqual(rows[0][1], 100 * 750 / 3000)
        self.assertAlmostEqual(rows[0][15], 100 * 2200 / 3000)
        self.assertAlmostEqual(rows[1][15], 100 * 400 / 1200)

    def test_right_of_the_line(self) -> None:
        self.assertEqual(drawn_aside(((0, 0), (10, 0)), 1), [(0, -1), (10, -1)])
        self.assertEqual(drawn_aside(((0, 0), (0, 10)), 1), [(1, 0), (1, 10)])
        # to the east and then to the north: the corner lies where both sides, moved by 1, meet; a way straight back
        # meets nowhere
        self.assertEqual(drawn_aside(((0, 0), (10, 0), (10, 10)), 1), [(0, -1), (11, -1), (11, 10)])
        self.assertEqual(drawn_aside(((0, 0), (10, 0), (0, 0)), 1), [(0, -1), (10, 0), (0, 1)])
        # from 10 degrees off straight back the corner would lie 11.5 out, and lies 2.5
        sharp = drawn_aside(
            ((0, 0), (10, 0), (10 - 10 * math.cos(math.radians(10)), 10 * math.sin(math.radians(10)))), 1
        )[1]
        self.assertAlmostEqual(math.dist(sharp, (10, 0)), 2.5)
        self.assertEqual(drawn_aside(((1, 1), (1, 1)), 1), [(1, 1), (1, 1)])

    def test_bent_lines(self) -> None:
        line = bent(((0, 0), (10, 0)), 0.1)
        self.assertAlmostEqual(line[10][0], 5)
        self.assertAlmostEqual(line[10][1], 1)
        self.assertEqual((line[0], line[-1]), ((0, 0), (10, 0)))
        self.assertEqual(bent(((0, 0), (3, 4), (10, 0)), 0), ((0, 0), (3, 4), (10, 0)))


@needs_matplotlib
class Texts(FolderTest):
    """Texts stand in a picture as they are: asked of an SVG that has texts as texts."""

    def texts(self, figure: Any) -> list[str]:
        import matplotlib

        with matplotlib.rc_context({"svg.fonttype": "none"}):
            figure.savefig(self.folder / "picture.svg")
        return [
            html.unescape(text)
            for text in re.findall(
                r"<text[^>]*>([^<]*)</text>", (self.folder / "picture.svg").read_text(encoding="utf-8")
            )
        ]

    def plotter(self) -> Any:
        import matplotlib

        matplotlib.use("Agg")
        import matplotlib.pyplot

        return matplotlib.pyplot

    def test_a_legend_has_every_destination(self) -> None:
        names = ["_", "_end", "a$b$", "$", "-x", "plain"]
        plot = self.plotter()
        figure = draw_arrivals(
            plot,
            Curves(1000, 3, {("arr", name): {name: b"0 1000 %d" % (9000 - place)} for place, name in enumerate(names)}),
        )
        self.assertEqual(self.texts(figure)[-len(names) - 1 :], ["destination", *names])
        lines = figure.axes[0].get_legend().get_lines()
        self.assertEqual(
            [line.get_color() for line in lines], [line.get_color() for line in figure.axes[0].get_lines()]
        )
        figure = draw_arrivals(
            plot, Curves(1000, 3, {("arr", f"_{n}"): {f"_{n}": b"0 0 %d" % n} for n in range(10, 20)})
        )
        self.assertEqual(self.texts(figure)[-8:], [*(f"_{n}" for n in range(19, 12, -1)), "3 others together"])

    def test_worths(self) -> None:
        """The greatest of all has the strongest colour: 20 vehicle seconds saved at a link, where 5 are lost at b."""
        figure = draw_worths(
            self.plotter(),
            LoadedCase(*read("spillback")),
            str(DATA / "spillback"),
            "w",
            {"a": 20_000_000, "b": -5_000_000},
        )
        shown = figure.axes[0].collections[1]
        self.assertEqual((list(shown.get_array()), shown.get_clim()), ([-5, 20], (-20, 20)))
        self.assertEqual(figure.axes[1].get_ylabel(), "vehicle seconds that more capacity saves")

    def test_axes(self) -> None:
        """Ticks of a clock at every minute of eight, at every two of nine, and at quarters of less than two minutes;
        100 % is the last colour; and a frame of minutes without its upper and right side."""
        plot, minute = self.plotter(), 60_000
        for last, every in ((8 * minute, minute), (9 * minute, 2 * minute), (minute, minute // 4)):
            axes = plot.subplots()[1]
            clock_axis(axes, 0, last)
            ticks = [tick for tick in axes.get_xticks() if 0 <= tick <= last]
            self.assertEqual(ticks, list(range(0, last + 1, every)))
            self.assertEqual(axes.get_xlim(), (0, last))
        one, folder = LoadedCase(*read("spillback")), str(DATA / "spillback")
        figure = draw_map(plot, [one], [folder], ["a"], 8, 0)
        self.assertEqual(figure.axes[0].collections[1].get_clim(), (0, 100))
        figure = draw_arrivals(plot, one.curves)
        (axes,) = figure.axes
        self.assertEqual(axes.get_xlim(), (0, 16 / 60))
        self.assertEqual([name for name, side in axes.spines.items() if side.get_visible()], ["left", "bottom"])
        upper, lower = draw_iterations(plot, [3_600_000_000] * 3, [3.0, 2.0, 1.0]).axes
        self.assertEqual((upper.get_xlim(), lower.get_xlim()), ((0, 2), (0, 2)))
        plot.close("all")

    def test_lengths_and_times(self) -> None:
        """Kilometres upwards along a path, and what stands on a link over minutes."""
        plot, one = self.plotter(), LoadedCase(*read("spillback"))
        links = {link.name: link for link in one.case.links}
        one.case.links[:] = [replace(link, length_m=50_000) for link in one.case.links]
        axes = draw_shares(plot, [one], ["one"], ["a"], 0).axes[0]
        self.assertEqual(axes.get_ylim(), (0, 50))
        line = draw_link(plot, one.curves, links, "a").axes[1].lines[1]
        self.assertEqual(list(line.get_ydata()), [units / 1000 for units in one.curves.on_link("a")])
        self.assertEqual(line.get_xdata()[-1], one.case.setup.slots * one.case.setup.step_ms / 60_000)
        plot.close("all")

    def test_two_dimensions(self) -> None:
        """Three points of a line, 3 and 5 off the first, are as far apart by their distances to all three."""
        along, across = scaled([[0, 3, 5], [3, 0, 2], [5, 2, 0]])
        for one, other, apart in ((0, 1, 3), (0, 2, 5), (1, 2, 2)):
            self.assertAlmostEqual(math.dist((along[one], across[one]), (along[other], across[other])), apart, 5)

    def test_names_above_pictures(self) -> None:
        """Of a folder too that is no UTF-8."""
        titles = [r"$\frac$", "a$b$c", r"a\$b", "fl\udcfc\udcdf"]
        one, folder = LoadedCase(*read("spillback")), str(DATA / "spillback")
        for number, title in enumerate(titles):
            other = titles[number - 1]
            told = [text.replace("fl\udcfc\udcdf", r"fl\xfc\xdf") for text in (title, other)]
            drawn = self.texts(draw_map(self.plotter(), [one, one], [folder, folder], [title, other], 8, 0))
            self.assertEqual(
                [text for text in drawn if text.endswith("at 0:00:08")], [f"{text} at 0:00:08" for text in told]
            )
            drawn = self.texts(draw_shares(self.plotter(), [one, one], [title, other], ["a", "b"], 0))
            self.assertEqual([text for text in told if text not in drawn], [])


@unittest.skipUnless(has_matplotlib(), "not installed: python3-matplotlib")
class Command(FolderTest):
    def draw(self, *words: str, status: int = 0) -> str:
        done = subprocess.run(
            [sys.executable, str(TOOLS / "ltm-tools"), "draw", *words], capture_output=True, text=True
        )
        self.assertEqual(done.returncode, status, done.stderr)
        return done.stderr

    def test_pictures(self) -> None:
        case = str(DATA / "spillback")
        for name, words in (
            ("full.png", ["full", case, "a", "b", "--other", case, "--other-curves", CURVES]),
            ("map.png", ["map", case, "--at", "0:00:08"]),
            ("curves.png", ["curves", case, "a", "b"]),
        ):
            self.draw(*words, "--curves", CURVES, "-o", str(self.folder / name))
            self.assertEqual((self.folder / name).read_bytes()[:8], b"\x89PNG\r\n\x1a\n")
            self.assertGreater((self.folder / name).stat().st_size, 8000)

    def test_a_case_without_links(self) -> None:
        """One line says so; with or without a second that has some."""
        links, rows = (
            "link,from,to,length_m,free_kmh,wave_kmh,jam_per_km\n",
            {name: text.split("\n")[0] + "\n" for name, text in ROAD.items() if name in ("demand", "splits")},
        )
        case = str(self.case(links=links, **rows))
        curves = self.folder / "curves.csv"
        curves.write_text("kind,name,destination,counts\n")
        for words in (
            [case, "--curves", str(curves)],
            [case, "--curves", str(curves), "--other", str(DATA / "spillback"), "--other-curves", CURVES],
        ):
            told = self.draw("map", *words, "--at", "0:00", "-o", str(self.folder / "map.png"), status=1)
            self.assertEqual(told, "ltm-tools draw: there is nothing to draw: the case has no link\n")

    def test_faults(self) -> None:
        case = str(DATA / "spillback")
        told = self.draw("map", case, "--at", "0:01", "--curves", CURVES, "-o", "x.png", status=1)
        self.assertEqual(told, "ltm-tools draw: 0:01 is not within the horizon, from 0:00 to 0:00:16\n")
        for at, status in (("7:00", 0), ("7:00:16", 0), ("7:00:17", 1), ("6:59:59", 1)):
            self.draw(
                "map",
                case,
                "--at",
                at,
                "--start",
                "7:00",
                "--curves",
                CURVES,
                "-o",
                str(self.folder / "at.png"),
                status=status,
            )
        told = self.draw("curves", case, "a", "--curves", CURVES, "-o", str(self.folder / "x.xyz"), status=1)
        self.assertEqual(told.count("\n"), 1)


if __name__ == "__main__":
    unittest.main()
