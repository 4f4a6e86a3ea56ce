"""The page: what stands in the file, and in headless Chromium that it shows what the curves say."""
import json
import math
import random
import re
import shutil
import subprocess
import unittest
from collections.abc import Sequence
from pathlib import Path
from typing import Any
from unittest import mock

import commands
import made_gmns
from browser import ENTER, RIGHT, BrowserTest
from support import BUILT, EXAMPLES, FolderTest, needs, needs_d3, needs_program
from support_loadings import DATA, read
from support_sumo import edge
from ltm_tools import cli
from ltm_tools.case import Case, Demand, Limit, Link, Setup, Split
from ltm_tools.case.geojson import geojson
from ltm_tools.case.places import read_places
from ltm_tools.counting.result import FIELDS as FIT_FIELDS
from ltm_tools.errors import Fault
from ltm_tools.loading import delay
from ltm_tools.loading.curves import Curves
from ltm_tools.show import layout
from ltm_tools.show.page import WEB, find_d3
from ltm_tools.worth.result import FIELDS as WORTH_FIELDS
from ltm_tools.show.scripts import joined_scripts, modules


def write_page(folder: Path, *words: str) -> Path:
    """A page in a folder, of the spillback case and what these words say."""
    path = folder / "page.html"
    assert cli.run(["page", *words, "-o", str(path)]) == 0
    return path


def with_curves(name: str, other: bool = False) -> list[str]:
    return [str(DATA / name), "--other-curves" if other else "--curves", str(DATA / name / "curves.csv")]


@needs_d3
class Files(FolderTest):
    def test_stands_alone(self) -> None:
        text = write_page(self.folder, *with_curves("spillback"), "--title", "a <b> & c").read_text()
        self.assertEqual(re.findall(r'(?:src|href)="?[^"> ]+', text.split("<script>")[0]), [])
        self.assertIn("<title>a &lt;b&gt; &amp; c</title>", text)
        told = json.loads(text.partition('id="data">')[2].partition("</script>")[0])
        self.assertEqual(told["title"], "a <b> & c")
        self.assertEqual([link["name"] for link in told["cases"][0]["links"]], ["a", "b"])

    def test_modules(self) -> None:
        """Each module stands behind those that it imports, and keeps to itself what it does not export; a name that
        nobody exports, and a circle of imports, are refused."""
        files = {
            "first.js": 'import { two } from "./second.js";\nconst one = 1;\nwindow.sum = one + two;\n',
            "second.js": "const one = 5;\nexport const two = one + 1;\n",
            "lacks.js": 'import { three } from "./second.js";\n',
            "circle.js": 'import { a } from "./round.js";\nexport const b = 1;\n',
            "round.js": 'import { b } from "./circle.js";\nexport const a = 1;\n',
        }
        for name, text in files.items():
            (self.folder / name).write_text(text)
        found = modules("first.js", [self.folder])
        self.assertEqual(list(found), ["second.js", "first.js"])
        asked = f"const window = {{}}; {joined_scripts(found)} console.log(window.sum, typeof one)"
        if (node := shutil.which("node")) is not None:
            told = subprocess.run([node, "-e", asked], capture_output=True, text=True, check=True).stdout
            self.assertEqual(told, "7 undefined\n")
        self.assertRaisesRegex(Fault, "lacks.js imports three, which second.js", modules, "lacks.js", [self.folder])
        self.assertRaisesRegex(Fault, "circle.js imports itself", modules, "circle.js", [self.folder])

    def test_colours(self) -> None:
        """A road without a queue has three to one against the ground, as texts about accessible pages ask of what is no
        text; from there both scales grow darker step by step, so that a grey print orders them."""
        style = (WEB / "shared.css").read_text()
        named = dict(re.findall(r"--([a-z0-9-]+): (#[0-9a-f]{6});", style))
        self.assertGreaterEqual((light(named["ground"]) + 0.05) / (light(named["free"]) + 0.05), 3)
        for scale in ("more", "less"):
            steps = [light(named[name]) for name in ("free", *(f"{scale}-{place}" for place in (1, 2, 3, 4)))]
            self.assertEqual(steps, sorted(steps, reverse=True))
            self.assertGreater(min(one / other for one, other in zip(steps, steps[1:])), 1.1)

    @needs_program
    def test_gap(self) -> None:
        """That of docs/MODEL.md, worked by hand: `least` is 64.900 vehicle seconds, and the gap is 0."""
        case = str(EXAMPLES / "spillback")
        text = write_page(self.folder, case, "--gap", "--program", str(BUILT)).read_text()
        told = json.loads(text.partition('id="data">')[2].partition("</script>")[0])["cases"][0]["totals"]
        self.assertEqual(told[3:5], [["least, vehicle seconds", "64.90"], ["gap, vehicle seconds", "0.00"]])
        status, _, fault = commands.run("page", *with_curves("spillback"), "--gap", "-o", f"{self.folder}/none.html")
        self.assertEqual((status, fault.count("\n")), (1, 1))
        self.assertIn("leave out --curves and --other-curves", fault)

    def test_no_d3(self) -> None:
        (self.folder / "d3.js").write_text("// https://d3js.org v3.5.17 Copyright\n")
        self.assertRaisesRegex(Fault, "is not d3.min.js of version 5 to 7", find_d3, str(self.folder / "d3.js"))


def light(colour: str) -> float:
    """The relative luminance of a colour, as the guidelines for accessible pages define it."""
    parts = [int(colour[place : place + 2], 16) / 255 for place in (1, 3, 5)]
    red, green, blue = (part / 12.92 if part <= 0.04045 else ((part + 0.055) / 1.055) ** 2.4 for part in parts)
    return 0.2126 * red + 0.7152 * green + 0.0722 * blue


class Shuffled(random.Random):
    """Counts how often it shuffles."""

    count = 0

    def shuffle(self, x: Any) -> None:
        Shuffled.count += 1
        super().shuffle(x)


class Drawing(unittest.TestCase):
    def test_lengths(self) -> None:
        """A square of roads of 100 m, and one diagonal of 141 m: it can be drawn exactly."""
        links = [("a", "b", 100.0), ("b", "c", 100.0), ("c", "d", 100.0), ("d", "a", 100.0), ("a", "c", 141.4)]
        at = layout.laid_out("abcd", links)
        for tail, head, length in links:
            self.assertLess(
                abs(((at[tail][0] - at[head][0]) ** 2 + (at[tail][1] - at[head][1]) ** 2) ** 0.5 - length), 25
            )
        self.assertEqual(at, layout.laid_out("abcd", links))

    def test_rounds(self) -> None:
        """As many as there may be moves, thirty at most, and never less than three."""
        # 24 pairs: 3 from each of 4 pivots, and 12 of neighbours
        for moves, rounds in ((1_500_000, 30), (10 * 24, 10), (0, 3)):
            with mock.patch.object(layout, "MOST_MOVES", moves), mock.patch.object(layout.random, "Random", Shuffled):
                Shuffled.count = 0
                layout.laid_out("abcd", [(one, other, 100.0) for one, other in ("ab", "bc", "cd", "da", "ac", "bd")])
                self.assertEqual(Shuffled.count, rounds)

    def test_parts_do_not_overlap(self) -> None:
        at = layout.laid_out("abcde", [("a", "b", 100.0), ("c", "d", 50.0)])
        self.assertLess(max(at["a"][0], at["b"][0]), min(at["c"][0], at["d"][0]))
        self.assertLess(max(at["c"][0], at["d"][0]), at["e"][0])

    def test_bends(self) -> None:
        at = {"a": (0.0, 0.0), "b": (1.0, 0.0), "c": (2.0, 0.01), "d": (1.0, 1.0)}
        self.assertEqual(layout.bends(at, [("a", "b"), ("a", "c"), ("a", "d")]), [0.0, 0.12, 0.0])


class Places(FolderTest):
    def test_places(self) -> None:
        folder = self.case(nodes="name,x,y,crs\nn2,11.5,48.1,EPSG:4326\nn1,11.25,48,epsg:4326\n")
        case = Case.read(folder)
        places = read_places(folder, case)
        assert places is not None
        self.assertEqual(places.of, {"n1": (11.25, 48.0), "n2": (11.5, 48.1)})
        told = json.loads(geojson(case, places, {"a": {"most": 1.5}}))
        self.assertEqual(
            told["features"][0]["geometry"], {"type": "LineString", "coordinates": [[11.25, 48.0], [11.5, 48.1]]}
        )
        self.assertEqual(told["features"][0]["properties"]["most"], 1.5)
        self.assertNotIn("crs", told)
        self.assertIsNone(read_places(DATA / "spillback", case))

    def test_faults(self) -> None:
        for text, fault in (
            ("name,x,y\nn1,0,0\n", "the node n2 has no place"),
            ("name,x\n", "no field y"),
            ("name,x,y\nn1,0,0\nn1,1,1\n", "has a place already"),
            ("name,x,y,crs\nn1,0,0,UTM\n", "EPSG:25832"),
            ("name,x,y,crs\nn1,0,0,EPSG:25832\nn2,0,1,\n", "the same projection"),
        ):
            folder = self.case(nodes=text)
            self.assertRaisesRegex(Fault, fault, read_places, folder, Case.read(folder))


class GeoJson(FolderTest):
    def test_command(self) -> None:
        folder = self.folder / "case"
        Case.read(DATA / "spillback").write(folder)
        (folder / "nodes.csv").write_text("name,x,y,crs\nn1,0,0,EPSG:25832\nn2,20,0,EPSG:25832\nn3,40,0,EPSG:25832\n")
        words = [
            "geojson",
            str(folder),
            "--curves",
            str(DATA / "spillback" / "curves.csv"),
            "--start",
            "7:00",
            "-o",
            str(folder / "links.json"),
        ]
        self.assertEqual(cli.run([*words, "--at", "7:00:08"]), 0)
        told = json.loads((folder / "links.json").read_text())
        self.assertEqual(told["crs"]["properties"]["name"], "urn:ogc:def:crs:EPSG::25832")
        a = told["features"][0]["properties"]
        # docs/MODEL.md: by boundary 8 3400 have entered and 1200 left; 3000 could have left
        self.assertEqual(
            (a["on_link"], a["queue"], a["entered"], a["left"], a["queued"], a["most_queue_ms"]),
            (2.2, 1.8, 5.0, 2.8, 20.7, 8000),
        )
        self.assertEqual(cli.run([*words, "--at", "6:59"]), 1)
        case, curves = read("spillback")
        self.assertEqual(case.to_geojson(folder, curves, 8), (folder / "links.json").read_text())
        self.assertNotIn("entered", json.loads(case.to_geojson(folder))["features"][0]["properties"])
        self.assertRaisesRegex(Fault, "has no nodes.csv", case.to_geojson, DATA / "spillback")


def told_on(page: Path) -> dict[str, Any]:
    """What the page knows of its first case."""
    told: dict[str, Any] = json.loads(page.read_text().partition('id="data">')[2].partition("</script>")[0])["cases"][0]
    return told


# two roads from A to C by B, one of them in a bow, and the way back along it; B lies 400 m east of A, and C 300 m north
# of B
BOW = ((100.0, 50.0), (150.0, 190.0), (300.0, 250.0), (450.0, 190.0), (500.0, 50.0))
PLACES = {"A": BOW[0], "B": BOW[-1], "C": (500.0, 350.0)}


def imported(folder: Path) -> Path:
    """The page of a net that was imported, without vehicles."""
    junctions = "".join(
        f'<junction id="{name}" type="priority" x="{x + 1000}" y="{y - 20}"/>' for name, (x, y) in PLACES.items()
    )
    bow, back = (f'shape="{" ".join(f"{x + 1000},{y - 20}" for x, y in line)}"' for line in (BOW, BOW[::-1]))
    edges = edge("bow", "A", "B", more=bow) + edge("back", "B", "A", more=back) + edge("on", "B", "C")
    (folder / "net.net.xml").write_text(
        f'<net><location netOffset="1000.00,-20.00" projParameter="!"/>{junctions}{edges}</net>'
    )
    assert cli.run(["from-sumo", str(folder / "net.net.xml"), str(folder / "case"), "--horizon", "5"]) == 0
    (folder / "case" / "curves.csv").write_text("kind,name,destination,counts\n")
    return write_page(folder, str(folder / "case"), "--curves", str(folder / "case" / "curves.csv"))


@needs_d3
class Imported(FolderTest):
    def test_the_page_has_the_places_of_the_source(self) -> None:
        told = told_on(imported(self.folder))
        self.assertEqual({node["name"]: (node["x"], node["y"]) for node in told["nodes"]}, PLACES)
        self.assertEqual(
            {link["name"]: link.get("shape") for link in told["links"]},
            {"bow": [list(place) for place in BOW], "back": [list(place) for place in BOW[::-1]], "on": None},
        )

    def test_two_cases_of_which_one_has_places(self) -> None:
        page = imported(self.folder)
        other = Case.read(self.folder / "case")
        other.write(self.folder / "other")
        curves = str(self.folder / "case" / "curves.csv")
        page = write_page(
            self.folder,
            str(self.folder / "case"),
            str(self.folder / "other"),
            "--curves",
            curves,
            "--other-curves",
            curves,
        )
        both = json.loads(page.read_text().partition('id="data">')[2].partition("</script>")[0])["cases"]
        self.assertEqual(both[0]["links"], both[1]["links"])
        self.assertIn("shape", both[1]["links"][0])


@needs_d3
class InABrowser(BrowserTest):
    def text(self, selector: str) -> str:
        return str(self.browser.run("return document.querySelector(arguments[0]).textContent", selector))

    def test_what_a_user_does(self) -> None:
        self.browser.open(write_page(self.folder, *with_curves("spillback"), "--start", "7:00", "--least", "0.001"))
        # it opens at the moment with most in queues, 8 s
        self.assertEqual(self.text("#clock"), "7:00:08")
        self.browser.press("#time", RIGHT * 2)
        self.assertEqual(self.text("#clock"), "7:00:10")
        self.browser.click_map("ltm.middle(args[0])", "a")
        self.assertEqual(self.text("#link h2"), "Link a from n1 to n2, 20 m")
        self.assertEqual(
            self.browser.run("return document.querySelectorAll('#link svg path[stroke]:not(.domain)').length"), 5
        )  # four curves, and the storage
        rows = self.browser.run(
            "return [...document.querySelectorAll('#list tbody tr')].map(row =>"
            " [...row.cells].map(cell => cell.textContent))"
        )
        self.assertEqual(
            rows,
            [
                ["n1 (origin)", "7:00:01", "…", "3.200", "7:00:10", "", "29.00"],
                ["a", "7:00:03", "…", "1.800", "7:00:08", "60.0 %", "20.70"],
            ],
        )
        self.browser.run("document.querySelector('#list tbody tr').click()")
        self.assertEqual(self.text("#link h2"), "Origin n1 vehicles that set out, and those that found room on a link")
        self.assertEqual(self.browser.console(), [])

    def coloured(self, shown: str, link: str) -> tuple[float, list[str]]:
        """What part of the scale a link is coloured by, and the words of the scale."""
        self.browser.run(
            "const list = document.querySelector('#shown'); list.value = arguments[0];"
            "list.dispatchEvent(new Event('change'))",
            shown,
        )
        texts = self.browser.run("return [...document.querySelectorAll('#scale span')].map(one => one.textContent)")
        return float(self.browser.run("return ltm.part(arguments[0])", link)), list(texts)

    def test_colours_of_flows_and_of_a_fit(self) -> None:
        """At 10 s half a vehicle a second could have left `a`, and 1.6 have. Of a fit with 12 vehicles loaded where 10
        were counted it is 20 of 30 per cent."""
        fit = self.folder / "fit.csv"
        fit.write_text(f"{','.join(FIT_FIELDS)}\na,a,entry,7:00,7:00:04,10.000,12.000,1.000,1.00,fit\n")
        self.browser.open(write_page(self.folder, *with_curves("spillback"), "--start", "7:00", "--fit", str(fit)))
        self.browser.press("#time", RIGHT * 2)
        part, texts = self.coloured("flow", "a")
        self.assertAlmostEqual(part, 1.6 / 5)
        self.assertEqual(texts, ["0", "% of the capacity", "100"])
        part, texts = self.coloured("misfit", "a")
        self.assertAlmostEqual(part, 2 / 3)
        self.assertEqual(texts, ["−30", "% more than counted", "+30"])
        self.assertEqual(self.browser.run("return ltm.part('b')"), 0)
        self.assertFalse(self.browser.run("return document.querySelector('#shown [value=misfit]').hidden"))
        self.assertEqual(self.browser.console(), [])
        fit.write_text(fit.read_text().replace("\na,a,", "\nz,z,"))
        words = ["page", *with_curves("spillback"), "--fit", str(fit), "-o", str(self.folder / "other.html")]
        status, _, err = commands.run(*words)
        self.assertEqual((status, err.count("\n")), (1, 1))
        self.assertIn("the fit is not of this case: it has no link z", err)

    def test_colours_of_worths(self) -> None:
        """The greatest of all has the strongest colour: 20 vehicle seconds saved at `a`, where 5 are lost at `b`."""
        table = self.folder / "worth.csv"
        rows = ("a,stop line,1800,90,-20,-20,0,,,,,,,,,,", "b,road,1800,90,5,5,0,,,,,,,,,,")
        table.write_text("\n".join((",".join(WORTH_FIELDS), *rows, "")))
        self.browser.open(write_page(self.folder, *with_curves("spillback"), "--worth", str(table)))
        part, texts = self.coloured("worth", "a")
        self.assertEqual(texts, ["−20", "vehicle seconds saved by more capacity", "+20"])
        self.assertEqual((part, self.browser.run("return ltm.part('b')")), (1, -0.25))
        self.assertFalse(self.browser.run("return document.querySelector('#shown [value=worth]').hidden"))
        self.assertTrue(self.browser.run("return document.querySelector('#shown [value=misfit]').hidden"))
        self.assertEqual(self.browser.console(), [])
        table.write_text(table.read_text().replace("\nb,", "\nz,"))
        words = ["page", *with_curves("spillback"), "--worth", str(table), "-o", str(self.folder / "other.html")]
        self.assertIn("the table of worths is not of this case: it has no link z", commands.run(*words)[2])

    def test_the_table_fits(self) -> None:
        """At 1,300 pixels the column by which it is sorted is in sight, with long names and times."""
        case = Case.read(DATA / "spillback")
        case.links[0].name = case.links[0].name * 32
        case.splits = [
            Split(
                row.node,
                row.destination,
                row.from_slot,
                {name * 32 if name == "a" else name: weight for name, weight in row.weights.items()},
            )
            for row in case.splits or ()
        ]
        case.write(self.folder / "case")
        curves = (DATA / "spillback" / "curves.csv").read_text().replace(",a,", f",{'a' * 32},")
        (self.folder / "case" / "curves.csv").write_text(curves)
        self.browser.open(
            write_page(
                self.folder,
                str(self.folder / "case"),
                "--curves",
                str(self.folder / "case" / "curves.csv"),
                "--start",
                "17:00",
                "--least",
                "0.001",
            )
        )
        self.browser.size(1300, 800)
        told = self.browser.run(
            "const boxes = [...document.querySelectorAll('#list th, #list td')].map(each =>"
            " each.getBoundingClientRect().right), scroll = document.querySelector('.scroll');"
            "return [boxes.length, Math.max(...boxes), scroll.scrollWidth - scroll.clientWidth]"
        )
        self.browser.size(1400, 900)
        self.assertEqual((told[0], told[2]), (21, 0))
        self.assertLess(told[1], 1300)

    def test_a_link_is_found_by_its_name_in_the_source(self) -> None:
        case = self.folder / "case"
        shutil.copytree(DATA / "spillback", case)
        (case / "source_links.csv").write_text("source,from,to,link\nWest#1,1,2,a\nWest#2,2,3,a\nb,3,4,b\n")
        (case / "source_nodes.csv").write_text("source,node\n1,n1\n3,n2\n4,n3\n")
        self.browser.open(write_page(self.folder, str(case), "--curves", str(case / "curves.csv"), "--least", "0.001"))
        self.browser.press("#search", "West#2" + ENTER)
        self.assertEqual(self.text("#link h2"), "Link a from n1 to n2, 20 m")
        rows = "return [...document.querySelectorAll('#list tbody tr')].map(row => row.cells[0].textContent)"
        self.assertEqual(self.browser.run(rows), ["a"])

    def test_a_link_with_its_turns_is_one(self) -> None:
        case = self.folder / "case"
        shutil.copytree(DATA / "spillback", case)
        (case / "source_links.csv").write_text("source,from,to,link\nMain,1,4,a\nMain,1,4,b\n")
        (case / "source_nodes.csv").write_text("source,node\n1,n1\n4,n3\n")
        words = (str(case), "--curves", str(case / "curves.csv"), "--least", "0.001")
        self.browser.open(write_page(self.folder, *words))
        rows = "return [...document.querySelectorAll('#list tbody tr')].map(row => row.cells[0].textContent)"
        self.assertEqual(self.browser.run(rows), ["n1 (origin)", "Main"])
        # of 5.0 that have entered a 2.4 have left b by the last moment, 16 s, and 2.6 are between
        self.assertEqual(
            self.browser.run(
                "const told = ltm.cases[0].curvesOf('Main', true);"
                "return [...told.upper, told.lower[0]].map(each => each[2].at(-1))"
            ),
            [5000, 2400, 2600],
        )
        self.browser.click_map("ltm.middle(args[0])", "a")
        self.assertEqual(self.text("#link h2"), "Link Main from n1 to n2, 20 m, with b")
        # the search takes a line, and the table the rest
        self.assertLess(
            self.browser.run(
                "const [search, table] = ['#search', '#list .scroll'].map(each =>"
                " document.querySelector(each).getBoundingClientRect());"
                "return search.height > 10 ? table.top - search.top : 999"
            ),
            50,
        )
        self.browser.run("document.querySelector('#joined input').click()")
        self.assertEqual(self.browser.run(rows), ["n1 (origin)", "a"])
        self.browser.click_map("ltm.middle(args[0])", "a")
        self.assertEqual(self.text("#link h2"), "Link a from n1 to n2, 20 m")
        self.browser.open(write_page(self.folder, *words, "--each-link"))
        self.assertEqual(
            (self.browser.run(rows), self.browser.run("return document.getElementById('joined').hidden")),
            (["n1 (origin)", "a"], True),
        )
        self.assertEqual(self.browser.console(), [])

    def test_two_cases(self) -> None:
        self.browser.open(
            write_page(
                self.folder,
                str(DATA / "base"),
                str(DATA / "base_signals"),
                *with_curves("base")[1:],
                *with_curves("base_signals", True)[1:],
            )
        )
        self.assertEqual(
            self.browser.run("return [...document.querySelectorAll('#switch button')].map(each => each.textContent)"),
            ["base", "base_signals"],
        )
        shown = []
        for place in (1, 0):
            self.browser.run("document.querySelectorAll('#switch button')[arguments[0]].click()", place)
            shown.append((self.browser.run("return ltm.state.at"), self.text("#totals dd")))
        one, other = ((DATA / name / "delay.out").read_text().split()[3] for name in ("base", "base_signals"))
        self.assertEqual(shown, [(1, f"{float(other):.2f}"), (0, f"{float(one):.2f}")])
        self.assertNotEqual(one, other)
        self.assertEqual(self.browser.console(), [])

    def test_numbers(self) -> None:
        """Queues, waiting and vehicles on links, each at every boundary, are those of the module `delay`."""
        for name in ("grid", "cross", "star", "spill_cross", "spillback"):
            case, curves = read(name)
            self.browser.open(write_page(self.folder, *with_curves(name)))
            told = self.browser.run(
                "const one = ltm.cases[0], ks = d3.range(one.slots + 1), of = (rows, name) =>"
                " rows.map((_, row) => ks.map(k => one[name](row, k)));"
                "return [of(one.links, 'queue'), of(one.links, 'standing'), of(one.origins, 'waiting')]"
            )
            self.assertEqual(told[0], [list(delay.queue(curves, link)) for link in case.links])
            self.assertEqual(told[1], [list(curves.on_link(link.name)) for link in case.links])
            self.assertEqual(
                told[2], [list(delay.waiting(curves, case, node)) for node in delay.demand_by_origin(case)]
            )
            self.assertEqual(self.browser.console(), [])

    def test_links_are_drawn_where_the_source_has_them(self) -> None:
        """Beside the points of the source as far as a link is wide, on its right, in the scale with which the network
        fills the map."""
        self.browser.open(imported(self.folder))
        box = self.browser.run(
            "const box = document.getElementById('network').getBoundingClientRect(); return"
            " [box.left, box.top, box.width, box.height]"
        )
        scale = min((box[2] - 120) / 400, (box[3] - 120) / 300)
        ways = {name: self.browser.run("return ltm.way(arguments[0])", name) for name in ("bow", "back", "on")}
        for name, line in (("bow", BOW), ("back", BOW[::-1]), ("on", (PLACES["B"], PLACES["C"]))):
            drawn = [
                (box[0] + box[2] / 2 + (x - 300) * scale, box[1] + box[3] / 2 - (y - 200) * scale) for x, y in line
            ]
            self.assertEqual(len(ways[name]), len(line))
            for place, (x, y) in enumerate(drawn):
                # to the right of the way there, which is below it where it leads to the east: a link is 3.3 wide, and
                # its middle 2.65 off
                east, south = ways[name][place][0] - x, ways[name][place][1] - y
                ahead, behind = drawn[min(place + 1, len(drawn) - 1)], drawn[max(place - 1, 0)]
                way = ahead[0] - behind[0], ahead[1] - behind[1]
                self.assertGreater(way[0] * south - way[1] * east, 0)
                self.assertLess(2.6, (east**2 + south**2) ** 0.5)
                self.assertLess((east**2 + south**2) ** 0.5, 4)
        self.browser.click_map("ltm.middle(args[0])", "bow")
        self.assertEqual(self.text("#link h2"), "Link bow from A to B, 200 m")
        self.browser.click_map("ltm.middle(args[0])", "back")
        self.assertEqual(self.text("#link h2"), "Link back from B to A, 200 m")
        self.assertEqual(self.browser.console(), [])

    @needs("sumo", "sumo-tools")
    def test_streets_of_a_gmns_network_lie_where_they_do(self) -> None:
        """Each street of a part of Braunschweig as far beside its line in degrees as it is wide, both ways: in a plane
        a degree to the east is shorter by the cosine of the latitude, and the network fills the map."""
        made_gmns.write(self.folder / "gmns")
        (self.folder / "gmns" / "demand.csv").unlink()
        case = self.folder / "case"
        assert (
            cli.run(
                [
                    "from-gmns",
                    str(self.folder / "gmns"),
                    str(case),
                    "--rename",
                    "--horizon",
                    "5",
                    "--period",
                    "5",
                    "--least-step",
                    "100",
                ]
            )
            == 0
        )
        (case / "curves.csv").write_text("kind,name,destination,counts\n")
        self.browser.open(write_page(self.folder, str(case), "--curves", str(case / "curves.csv")))
        nodes, streets = made_gmns.read()
        lines = {one.name: [nodes[one.tail], *one.line, nodes[one.head]] for one in streets}
        (west, east), (south, north) = (
            (min(of), max(of)) for of in zip(*(place for line in lines.values() for place in line))
        )
        shorter = math.cos(math.radians((south + north) / 2))
        box = self.browser.run(
            "const box = document.getElementById('network').getBoundingClientRect(); return"
            " [box.left, box.top, box.width, box.height]"
        )
        scale = min((box[2] - 120) / (east - west) / shorter, (box[3] - 120) / (north - south))
        ways = self.browser.run(
            "return Object.fromEntries(ltm.cases[0].links.map(({name, source}) => [(source ||"
            " [name])[0], ltm.way(name)]))"
        )
        self.assertEqual(ways.keys(), lines.keys())
        for name, line in lines.items():
            drawn = [
                (
                    box[0] + box[2] / 2 + (x - (west + east) / 2) * shorter * scale,
                    box[1] + box[3] / 2 - (y - (south + north) / 2) * scale,
                )
                for x, y in line
            ]
            self.assertLess(
                max(*(apart(place, ways[name]) for place in drawn), *(apart(place, drawn) for place in ways[name])),
                6,
                name,
            )
        self.assertEqual(self.browser.console(), [])

    def test_large(self) -> None:
        """2,000 links and 700 slots: under 20 MB, and open within two seconds of the page's processor time."""
        path = write_page(self.folder, *large(self.folder))
        self.assertLess(path.stat().st_size, 20_000_000)
        self.browser.command("Performance.enable", timeDomain="threadTicks")
        self.browser.open(path)
        self.assertEqual(self.browser.run("return ltm.cases[0].links.length"), 2000)
        told = {each["name"]: each["value"] for each in self.browser.command("Performance.getMetrics")["metrics"]}
        self.browser.command("Performance.disable")
        self.assertGreater(told["TaskDuration"], 0.01)
        self.assertLess(told["TaskDuration"], 2, told)
        self.assertEqual(self.browser.console(), [])


def apart(place: Sequence[float], line: Sequence[Sequence[float]]) -> float:
    """How far a place is from a line."""
    found = []
    for (x, y), (to_x, to_y) in zip(line, line[1:]):
        square = (to_x - x) ** 2 + (to_y - y) ** 2
        along = ((place[0] - x) * (to_x - x) + (place[1] - y) * (to_y - y)) / square if square else 0
        part = max(0.0, min(1.0, along))
        found.append(math.dist(place, (x + part * (to_x - x), y + part * (to_y - y))))
    return min(found)


def large(folder: Path) -> list[str]:
    """A ring of 2,000 links with curves of 700 slots, made by chance; they are shown, and are no loading."""
    pick, links, slots = random.Random(3), 2000, 700
    case = Case(
        Setup(10_000, slots, 32_000),
        [Link(f"l{k}", f"n{k}", f"n{(k + 1) % links}", 300, 54, 18, 150) for k in range(links)],
        [Demand("n0", "n7", 0, 700, 1000)],
        [Split(f"n{k}", "n7", 0, {f"l{k}": 1}) for k in range(links) if k != 7],
        [Limit("l0", 0, 1, 500)],
    )
    case.write(folder / "large")
    with open(folder / "large" / "curves.csv", "w", encoding="ascii") as file:
        file.write("kind,name,destination,counts\n")
        for link in case.links:
            for kind in ("up", "down"):
                counts = [0]
                for _ in range(slots):
                    counts.append(counts[-1] + pick.randrange(0, 9000))
                file.write(f"{kind},{link.name},n7,{' '.join(map(str, counts))}\n")
        for node in case.nodes:
            file.write(f"dep,{node},n7,{' '.join(['0'] * (slots + 1))}\n")
        file.write(f"arr,n7,n7,{' '.join(['0'] * (slots + 1))}\n")
    assert Curves.of_case(folder / "large").boundaries == slots + 1
    return [str(folder / "large"), "--curves", str(folder / "large" / "curves.csv")]


if __name__ == "__main__":
    unittest.main()
