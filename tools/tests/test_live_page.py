"""The live page in headless Chromium: what it shows is the program's, what a user does is done, and nothing of a case
is ever markup."""
import os
import random
import re
import signal
import unittest
import unittest.mock
import zipfile
from pathlib import Path
from xml.etree import ElementTree
from typing import Any

from browser import CTRL, ENTER, LEFT, NULL, SHIFT, TAB
from made_live import needs_live
from support import EXAMPLES, needs_numpy, needs_program
from support_live_page import LivePage
from support_live import ALL, OPEN, ROADS
from ltm_tools.case import Case, Limit

NOT_COMPARABLE = "Do not compare these hours: the vehicles not arrived by the end differ by over 0.1 % of all."
HOSTILE = "<img src=x onerror=document.title=1>"
# of all pixels those where the SVG differs much from the PNG, and those that are not the ground
PIXELS = """\
const image = new Image();
return import("/picture.js").then(made => new Promise((done, failed) => {
  image.onerror = () => failed(new Error("no image"));
  image.onload = () => {
    const one = made.pictureOf(live.app), other = document.createElement("canvas"), {width, height} = one;
    Object.assign(other, {width, height});
    other.getContext("2d").drawImage(image, 0, 0, width, height);
    const [here, there] = [one, other].map(each => each.getContext("2d").getImageData(0, 0, width, height).data);
    let [different, drawn] = [0, 0];
    for (let at = 0; at < here.length; at += 4) {
      const by = Math.max(...[0, 1, 2].map(part => Math.abs(here[at + part] - there[at + part])));
      different += by > 80;
      drawn += here[at] < 200;
    }
    done([different / (width * height), drawn / (width * height)]);
  };
  image.src = "data:image/svg+xml;charset=utf-8," + encodeURIComponent(arguments[0]);
}));"""


@needs_live
@needs_program
class Page(LivePage):
    def test_what_comes_later_moves_nothing(self) -> None:
        """Curves, words and totals that come after a click stand where there was room for them, so that the next click
        hits what it was meant for; one that something lies over says what it would hit."""
        self.serve()
        box = (
            "const boxOf = id => { const {x, y, width, height} = document.getElementById(id).getBoundingClientRect();"
            " return [x, y, width, height]; };"
        )
        changes = "return boxOf('changes')"
        picked = self.browser.run(box + "live.app.picking.named({link: 'north_east'});" + changes)
        self.browser.until("return live.state.curves")
        self.assertEqual(self.browser.run(box + changes), picked)
        places = box + "return [boxOf('network'), boxOf('undo'), boxOf('strip'), boxOf('time')]"
        before, words = self.browser.run(places), self.text("#differs")
        self.shut("north_east", 1)
        self.assertEqual((self.browser.run(places), words), (before, ""))
        self.assertIn("Queues differ", self.text("#differs"))
        self.browser.run(
            "const one = document.createElement('p'); one.id = 'over'; document.body.append(one);"
            "one.style.cssText = 'position: fixed; inset: 0; z-index: 9'"
        )
        with (
            unittest.mock.patch.object(self.browser, "tries", 3),
            self.assertRaisesRegex(AssertionError, 'no click on .*#undo.*id="over".* lies over it; .*changes.: 1'),
        ):
            self.press("#undo")

    def test_each_kind_by_clicks(self) -> None:
        self.serve()
        self.see(60)
        before = self.browser.run("return [...live.state.frame.now.queue, ...live.state.frame.now.standing]")
        self.shut("north_east", 1)
        self.press("#edit .link", 2)  # who is to be sent another way, at its tail
        self.assertEqual(self.text("#edit h2").split()[:2], ["Node", "north"])
        self.press("#edit form button")
        self.wait(2)
        self.click("west_south")
        for number in (1, 2, 3, 4):
            self.press("#edit .kinds button", number)
            self.press("#edit form button")
            self.wait(2 + number)
        self.browser.call(
            "POST",
            self.browser.session + "/actions",
            {"actions": [{"type": "key", "id": "keys", "actions": [{"type": "keyDown", "value": SHIFT}]}]},
        )
        self.browser.click_map("live.nodeAt(args[0])", "west")
        self.browser.type(SHIFT + NULL)
        self.press("#edit form button")
        self.wait(7)
        self.assertEqual(
            self.texts("#list .link"),
            [
                "north_east closed, 7:10 to 7:20",
                "0 % take north_east at north, 7:10 to 7:20",
                "west_south lets in 1125/h, 7:10 to 7:20",
                "west_south lets out 1125/h, 7:10 to 7:20",
                "west_south green 30 s of 90 s, 7:10 to 7:20",
                "west_south at 42 km/h, the whole time",
                "demand of west at 150 %, 7:10 to 7:20",
            ],
        )
        self.assertEqual(self.browser.run("return [...document.querySelectorAll('#list li.covered')].length"), 1)
        self.check()
        for left in range(6, -1, -1):
            self.press("#list .back", random.Random(left).randrange(left + 1))
            self.wait(left)
        self.see(60)
        self.assertEqual(
            self.browser.run("return [...live.state.frame.now.queue, ...live.state.frame.now.standing]"), before
        )
        self.assertEqual((self.texts("#sums .change"), self.browser.console()), ([""] * 5, []))

    def test_off_and_on_and_curves(self) -> None:
        self.serve()
        self.see(60)
        self.shut("north_east", 1)
        with_it = self.texts("#sums dd")
        self.assertIn("Do not compare these hours", self.text("#notice"))
        self.assertEqual(self.browser.run("return document.querySelectorAll('#sums dd.worse').length"), 1)
        # roads and queues now and in the base, the storage, and the moment
        self.assertEqual(
            self.browser.run("return document.querySelectorAll('#curves svg path[stroke]:not(.domain)').length"),
            5 + 4,
        )
        for texts in (self.texts("#sums dd"), with_it):
            self.press("#list input")
            self.wait(1)
            changed = self.texts("#sums .change")
            self.assertEqual(
                any(changed),
                texts is with_it and self.browser.run("return document.querySelector('#list input').checked"),
            )
        self.assertEqual(self.texts("#sums dd"), with_it)

    def test_keyboard_alone(self) -> None:
        """A road is found by its name, shut, looked at later, and opened again."""
        self.serve()
        self.focus("search")
        for count, name in ((1, "north_east"), (2, "west_south")):
            self.browser.type(CTRL + "a" + NULL + name + ENTER)
            self.assertEqual(self.text("#edit h2").split()[:2], ["Road", name])
            self.focus("submit", SHIFT + TAB + NULL)
            self.browser.type(ENTER)
            self.wait(count)
            self.focus("search")
        self.focus("time")
        at = self.browser.run("return live.app.player.here()")
        self.browser.type(LEFT * 3)
        self.browser.until("return live.state.frame.k === arguments[0]", at - 3)
        self.browser.type(CTRL + "z" + NULL)
        self.wait(1)
        self.focus("back", SHIFT + TAB + NULL)
        self.browser.type(ENTER)
        self.wait(0)
        self.focus("search", "")  # where it is: nobody loses the place
        self.assertEqual(self.browser.console(), [])

    def focus(self, name: str, keys: str = TAB) -> None:
        """Goes on by Tab until an element of this id, kind or class has the focus."""
        for _ in range(60):
            if self.browser.run(
                "const {id, type, className} = document.activeElement; return [id, type, className]"
                ".includes(arguments[0])",
                name,
            ):
                return
            self.browser.type(keys)
        raise AssertionError(f"{name} is not reached")

    @needs_numpy
    def test_who_hears_of_a_closure(self) -> None:
        """Its hours are those worked by hand; the words beside the button say who is diverted."""
        self.serve("roads", Case.read(self.case(**ROADS)))
        self.see(300)
        self.click("fast")
        self.assertIn("Nobody changes route", self.text("#edit .hint"))
        self.browser.run("document.querySelector('#edit select').focus()")
        self.browser.type("a")
        self.assertIn("All drivers who would use the road know of it", self.text("#edit .hint"))
        self.press("#edit form button")
        self.wait(1)
        self.assertEqual(self.texts("#list .link"), ["fast closed, 7:05 to 7:20, all of the drivers informed"])
        self.assertEqual((self.text("#sums dd"), self.text("#sums .base")), (f"{ALL:.2f}", f"base {OPEN:.2f} "))
        told = f"rerouting alone +{ALL - OPEN:.2f}, closure 0.00 vehicle seconds"
        self.assertEqual(self.text("#list .effect"), told)
        self.assertRegex(self.text("#notice"), r"^Other routes were found in [0-9.]+ s\.$")
        self.assertRegex(self.text("#edit .hint"), r"It took [0-9.]+ s the last time\.$")
        self.press("#undo")
        self.wait(0)
        self.assertEqual(
            (self.text("#sums dd"), self.text("#sums .change"), self.browser.console()), (f"{OPEN:.2f}", "", [])
        )

    def test_a_road_with_its_turns(self) -> None:
        """A road that was cut before a crossing is told with its turns: its delay is theirs together, and so are its
        curves; without the tick each is told by itself."""
        self.serve(
            "spillback",
            Case.read(EXAMPLES / "spillback"),
            {
                "source_links.csv": "source,from,to,link\nMain,1,4,a\nMain,1,4,b\n",
                "source_nodes.csv": "source,node\n1,n1\n4,n3\n",
            },
        )
        roads = "#roads td:nth-child(1)"
        self.assertEqual(self.texts(roads), ["n1 (origin)", "Main"])
        self.click("a")
        self.browser.until("return live.state.curves && document.querySelector('#curves .hint')")
        self.assertEqual(self.text("#curves .hint"), "with its turns b")
        # of 5.0 that have entered a 2.4 have left b by the last moment, 16 s, and 2.6 are between
        self.assertEqual(
            self.browser.run(
                "const {up, down, standing, queue} = live.state.curves;"
                "return [up, down, standing, queue].map(each => each.at(-1))"
            ),
            [5000, 2400, 2600, 1800],
        )
        self.press("#joined input")
        self.browser.until("return !document.querySelector('#curves .hint') && live.state.curves.down.at(-1) === 2800")
        self.assertEqual((self.texts(roads), self.browser.console()), (["n1 (origin)", "a"], []))

    def test_undo_and_redo_and_a_double_click(self) -> None:
        """A double click closes a road once; Ctrl-Z and Ctrl-Y lead back and forth; a form says what is wrong in words
        of the page; a node called as a member of every object is a node."""
        case = Case.read(EXAMPLES / "closures")
        for link in case.links:
            link.tail, link.head = ({"north": "constructor"}.get(name, name) for name in (link.tail, link.head))
        for row in case.splits:
            row.node = {"north": "constructor"}.get(row.node, row.node)
        self.serve(case=case)
        self.see(60)
        self.click("north_east")
        self.browser.run("const one = document.querySelector('#edit form button'); one.click(); one.click()")
        self.wait(1)
        with_it = self.texts("#sums dd")
        self.browser.type(CTRL + "z" + NULL)
        self.wait(0)
        self.assertEqual(self.texts("#sums .change"), [""] * 5)
        self.browser.type(CTRL + "y" + NULL)
        self.wait(1)
        self.assertEqual((len(self.texts("#list li")), self.texts("#sums dd")), (1, with_it))
        self.press("#edit .link", 0)
        self.assertEqual(self.text("#edit h2").split()[:2], ["Node", "constructor"])
        self.browser.run("live.send({edit: {kind: 'let_in', link: 'north_east', from: 0, to: 9, per_hour: -1}})")
        wanted = "The number of vehicles per hour is a whole number from 0 to 1,000,000."
        self.browser.until("return document.getElementById('notice').textContent === arguments[0]", wanted)
        self.assertEqual(self.browser.console(), [])

    def test_hostile_names_and_the_token(self) -> None:
        """A folder's name that is markup is a text; no address has the token, and a script in the page is not run."""
        address = self.serve(HOSTILE)
        self.assertEqual((self.text("#title"), self.browser.run("return document.images.length")), (HOSTILE, 0))
        self.assertEqual(self.browser.run("return [location.href, document.referrer]"), [address.partition("#")[0], ""])
        self.browser.run(
            "const one = document.createElement('script'); one.textContent = 'window.ran = 1';"
            " document.body.append(one)"
        )
        self.assertIsNone(self.browser.run("return window.ran"))
        self.assertEqual(
            [line for line in self.browser.console() if not re.search("Content.Security.Policy", line)], []
        )

    def test_reload_and_the_end(self) -> None:
        """After a reload, and after the program was killed, the list and its loading are there again; that the server
        is gone is told."""
        self.serve()
        self.shut("north_east", 1)
        self.see(80)
        frame = self.browser.run("return [...live.state.frame.now.queue]")
        self.browser.run("window.before = true; location.reload()")
        self.browser.until("return !window.before")
        self.opened()
        children = Path(f"/proc/{self.server.pid}/task/{self.server.pid}/children").read_text().split()
        os.kill(int(children[0]), signal.SIGKILL)
        self.see(81)
        self.see(80)
        self.assertEqual(
            (self.browser.run("return [...live.state.frame.now.queue]"), len(self.texts("#list li"))), (frame, 1)
        )
        self.stop()
        self.browser.until("return document.getElementById('notice').className === 'bad'")
        self.assertIn("Not connected", self.text("#notice"))

    def test_what_is_kept(self) -> None:
        """The script loads as shown, the zip is a case, and the page opens without a server."""
        self.serve()
        self.shut("north_east", 1)
        self.browser.command("Page.setDownloadBehavior", behavior="allow", downloadPath=str(self.folder))
        effect = self.texts("#sums div"), self.texts("#roads tbody tr")
        for number, name in enumerate(("script.jsonl", "case.zip", "page.html")):
            self.press("#changes .keep button", number)
            if name == "page.html":
                self.browser.run(
                    "for (const [name, text] of Object.entries(arguments[0]))"
                    " document.getElementById('about').elements[name].value = text",
                    {"title": "A week's works", "author": "<b>me</b>", "note": "What if?"},
                )
                self.press("#save")
            self.saved(f"closures-{name}")
        self.assertEqual(
            (self.folder / "closures-script.jsonl").read_bytes(), (self.folder / "script.jsonl").read_bytes()
        )
        self.press("#picture")
        picture = self.saved("closures.png").read_bytes()
        size = [int.from_bytes(picture[place : place + 4], "big") for place in (16, 20)]  # as its first chunk has them
        same = self.browser.run(
            "const {canvas, dense} = live.app.map, {width, height} = canvas;"
            "return import('/picture.js').then(made => {"
            "  const one = made.pictureOf(live.app), [here, there] = [[canvas, 0], [one, made.ABOVE * dense]].map("
            "    ([of, top]) => of.getContext('2d').getImageData(0, top, width, height).data);"
            "  let [drawn, others] = [0, 0];"
            "  for (let at = 0; at < here.length; at += 4) if (here[at + 3] === 255) {"
            "    drawn += 1; others += here[at] !== there[at] || here[at + 1] !== there[at + 1]; }"
            "  return [drawn > 1000, others, one.width, one.height]; })"
        )
        self.assertEqual((picture[:8], same), (b"\x89PNG\r\n\x1a\n", [True, 0, *size]))
        with zipfile.ZipFile(self.folder / "closures-case.zip") as archive:
            archive.extractall(self.folder / "kept")
        self.assertEqual(Case.read(self.folder / "kept").limits, [Limit("north_east", 40, 120, 0)])
        self.browser.open(self.folder / "closures-page.html")
        self.press("#switch button", 1)
        self.assertEqual((self.texts("#switch button"), self.text("#title")), (["base", "now"], "A week's works"))
        self.assertEqual((self.texts("#totals div"), self.texts("#list tbody tr")), effect)
        self.assertEqual(self.texts("#story bdi"), ["north_east closed, 7:06:40 to 7:20"])
        self.assertRegex(self.text("#story p"), r"^<b>me</b>, [0-9]{4}-[0-9]{2}-[0-9]{2}$")
        self.assertEqual(self.texts("#story p")[1:], ["What if?", NOT_COMPARABLE])
        self.browser.run(
            "const shown = document.getElementById('shown'); shown.value = 'change';"
            " shown.dispatchEvent(new Event('change'))"
        )
        self.assertEqual((self.text("#scale span"), self.browser.console()), ("−100", []))

    def test_a_picture_of_lines(self) -> None:
        """The SVG is well formed whatever the case is called, has the totals as texts, and looks as the PNG does, but
        for the edges of letters and lines."""
        self.serve(HOSTILE)
        self.see(60)
        self.shut("north_east", 1)
        self.browser.command("Page.setDownloadBehavior", behavior="allow", downloadPath=str(self.folder))
        self.press("#svg")
        said = self.browser.run("return document.getElementById('notice').textContent")
        self.assertRegex(said, r"^Saved .*\.svg\.$")
        self.browser.until("return live.state.frame.k === live.app.player.here()")
        text = self.browser.run("return import('/picture.js').then(made => made.svgOf(live.app))")
        root = ElementTree.fromstring(text)
        self.assertEqual({one.tag.partition("}")[2] for one in root.iter()}, {"svg", "path", "rect", "text"})
        texts = [one.text for one in root.iter("{http://www.w3.org/2000/svg}text")]
        self.assertTrue(str(texts[0]).startswith(f"{HOSTILE}, 7:"))
        self.assertIn(self.texts("#sums dd")[0], str(texts[1]))
        different, drawn = self.browser.run(PIXELS, text)
        self.assertGreater(drawn, 0.02)
        self.assertLess(different, 0.01)

    def test_the_strip_of_time(self) -> None:
        """All queues at each boundary are the program's, now and in the base; a change leads to where they differ most,
        which the words name; the end of its bar is dragged, which is one change that is undone as one."""
        self.serve()
        self.see(60)
        self.shut("north_east", 1)
        with_it = self.texts("#sums dd")
        states = [{"do": "state", "slot": slot} for slot in range(121)]
        queues = [
            [int(word) for word in re.findall("[0-9]+", line.partition(" queue ")[2])] for line in self.program(*states)
        ]
        empty = self.folder / "script.jsonl"
        kept = empty.read_bytes()
        empty.write_bytes(b"")
        base = [
            [int(word) for word in re.findall("[0-9]+", line.partition(" queue ")[2])] for line in self.program(*states)
        ]
        empty.write_bytes(kept)
        strip = self.browser.run("return live.state.strip")
        self.assertEqual((strip["now"], strip["base"]), ([*map(sum, queues)], [*map(sum, base)]))
        differs = [sum(abs(a - b) for a, b in zip(one, other)) for one, other in zip(queues, base)]
        most = differs.index(max(differs))
        self.assertEqual((strip["differs"], strip["at"]), (differs, list(range(121))))
        self.assertEqual(self.browser.run("return live.app.player.here()"), most)
        self.assertIn(
            f"most at {self.browser.run('return live.state.net.clock(arguments[0])', most)}.", self.text("#differs")
        )
        self.assertEqual(self.browser.run("return live.app.from"), 60)
        x, end, y = self.browser.run(
            "const box = document.querySelector('#strip .bars rect').getBoundingClientRect(), strip = live.app.strip,"
            " left = document.querySelector('#strip svg').getBoundingClientRect().left;"
            "return [box.right - 2, left + strip.x(90), box.top + box.height / 2]"
        )
        self.drag((x, y), (end - 2, y))
        self.browser.until("return live.state.list[0].ask.to === 90")
        self.wait(1)
        self.assertEqual(self.text("#list .link"), "north_east closed, 7:10 to 7:15")
        self.assertNotEqual(self.texts("#sums dd"), with_it)
        self.check()
        self.press("#undo")
        self.browser.until("return live.state.list[0].ask.to === 120")
        self.wait(1)
        self.assertEqual((self.texts("#sums dd"), self.browser.console()), (with_it, []))

    def test_scenarios_side_by_side(self) -> None:
        """Two lists that are kept are columns with the totals and delays that were shown of each; one is shown again
        by its name, which can be undone."""
        self.serve()
        self.see(60)
        shown = []
        for count, name in enumerate(("north_east", "west_south"), 1):
            self.shut(name, 1)
            self.press("#keep")
            self.browser.until("return live.app.scenes.scenes.length === arguments[0]", count)
            shown.append((self.texts("#sums dd"), self.delays(5)))
            self.browser.type(CTRL + "z" + NULL)
            self.wait(0)
        base = self.texts("#sums dd")
        columns = [self.texts(f"#scenes td:nth-child({place})") for place in (2, 3, 4, 5)]
        self.assertEqual(columns, [base, shown[0][0], shown[1][0], base])
        for column, (_, delays) in zip((7, 8), shown):
            found = self.delays(column)
            self.assertEqual({name: found[name] for name in delays}, delays)
        self.press("#scenes th button", 0)
        self.wait(1)
        self.assertEqual(
            (self.text("#list .link"), self.texts("#sums dd")), ("north_east closed, 7:10 to 7:20", shown[0][0])
        )
        self.check()
        self.press("#undo")
        self.wait(0)
        self.assertEqual(self.texts("#sums dd"), base)
        self.press("#scenes th .back", 1)
        self.browser.until("return live.app.scenes.scenes.length === 1")
        self.assertEqual((self.text("#keep"), self.browser.console()), ("Keep as B", []))

    def delays(self, column: int) -> dict[str, str]:
        """The numbers of a column of the table by road."""
        return dict(zip(self.texts("#roads td:nth-child(1)"), self.texts(f"#roads td:nth-child({column})")))

    def drag(self, start: tuple[float, float], end: tuple[float, float]) -> None:
        """Drags with the mouse from a point of the window to another."""
        moves = [{"type": "pointerMove", "duration": 0, "x": round(x), "y": round(y)} for x, y in (start, end)]
        steps = [moves[0], {"type": "pointerDown", "button": 0}, moves[1], {"type": "pointerUp", "button": 0}]
        mouse = {"type": "pointer", "id": "mouse", "parameters": {"pointerType": "mouse"}, "actions": steps}
        self.browser.call("POST", self.browser.session + "/actions", {"actions": [mouse]})

    def test_streets_and_place(self) -> None:
        """A street is found by a part of its name, also a quiet one, and named large with its id small; the map has a
        bar of a round length, names whom it has to name, and its buttons and keys show more of it, or all again."""
        shape = '{"kind":"water","points":[[0,0],[100,0],[100,50],[0,0]]}'
        places = "name,x,y\nwest,0,0\nnorth,100,100\nsouth,100,-100\neast,300,0\ncentre,200,0\n"
        self.serve(
            beside={
                "street_names.csv": "link,street\nwest_south,Long Lane\n",
                "nodes.csv": places,
                "background.json": f'{{"attribution":"the makers","crs":null,"shapes":[{shape}]}}',
            }
        )
        self.focus("search")
        self.browser.type("ng la")
        self.assertEqual(self.texts("#roads td:nth-child(1)"), ["Long Lane west_south"])
        self.browser.type(ENTER)
        self.assertTrue(self.text("#edit h2").startswith("Road Long Lane west_south, "))
        self.press("#edit form button")
        self.wait(1)
        self.assertIn("Long Lane (west_south) closed", self.text("#list .link"))
        self.browser.type(CTRL + "a" + NULL)
        self.assertEqual(
            self.browser.run(
                "return import('/geometry.js').then(made => [1.3, 2, 0.5, 40].map(one => made.roundLength(one)))"
            ),
            [100, 200, 50, 5000],
        )
        net = self.browser.run("return [live.state.net.metres > 0, live.state.net.background.attribution]")
        self.assertEqual(net, [True, "the makers"])
        zoom = "return live.app.map.view.zoom.k"
        self.press("#in")
        self.assertEqual(self.browser.run(zoom), 1.5)
        self.browser.run("document.getElementById('network').focus()")
        self.browser.type("+")
        self.assertEqual(self.browser.run(zoom), 2.25)
        self.press("#fit")
        self.assertEqual((self.browser.run(zoom), self.browser.console()), (1, []))

    def test_sizes(self) -> None:
        """At 1,280 by 720, at 1,300, on a phone and at twice the size nothing is cut off: the table has its last column
        in sight, and the map has room."""
        self.serve()
        self.shut("north_east", 1)
        for width, height in ((1280, 720), (1300, 800), (390, 844), (700, 450)):
            self.browser.size(width, height)
            told: Any = self.browser.run(
                "const boxOf = each => each.getBoundingClientRect(); return"
                " [document.scrollingElement.scrollWidth, innerWidth,"
                " [...document.querySelectorAll('#roads th')].map(each => boxOf(each).right),"
                " boxOf(document.getElementById('network')).height]"
            )
            self.assertLessEqual(told[0], told[1])
            self.assertLessEqual(max(told[2]), told[1])  # which is wider than the phone in Firefox
            self.assertGreater(told[3], 240)


if __name__ == "__main__":
    unittest.main()
