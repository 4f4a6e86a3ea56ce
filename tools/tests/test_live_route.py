"""A route on the live map, put together by clicks: its travel times, how full its roads are, and what blocks it."""
import subprocess
import sys
import unittest
import zipfile
from pathlib import Path

from browser import ENTER
from made_live import needs_live
from support import BUILT, CLONE, needs_program
from support_live_page import LivePage
from ltm_tools.case import Case

# the fastest way from the first link to the last, over two links in place of a slow one
WAY = """\
const all = [[9, 0, 5], [0, 3, 100], [0, 1, 10], [1, 3, 10], [3, 4, 5]];
const links = all.map(([tail, head, free]) => ({tail, head, free}));
return import("/ways.js").then(made => made.wayTo({nodes: d3.range(10), links}, 0, 4));"""
ROUTE = ["west_north", "north_centre", "centre_east"]
AT, FILLS = 115, 75  # boundaries within the closure of the last of them: the one before it is full, and fills up


@needs_live
@needs_program
class Route(LivePage):
    def travel_times(self, case: Path) -> list[int | None]:
        """How long the route takes by departure in each minute, as a load of the case has it, in ms."""
        words = ["times", str(case), *ROUTE, "--every", "1", "--format", "csv", "--program", str(BUILT)]
        told = subprocess.run(
            [sys.executable, str(CLONE / "tools" / "ltm-tools"), *words], stdout=subprocess.PIPE, text=True, check=True
        ).stdout.splitlines()
        place = told[0].split(",").index("total_ms")
        totals = [line.split(",")[place] for line in told[1:]]
        return [int(total) if total else None for total in totals]

    def test_a_route(self) -> None:
        """Two clicks select a route with the only way between; its travel times are those of a load of the case, now
        and in the base, how full a road is follows from the program's states, and the words on the queue are worked by
        hand: behind the closed road the one before it fills up, and blocks the one before that."""
        self.serve()
        self.see(60)
        self.press("#routing")
        self.click("west_north")
        self.click("centre_east")
        self.press("#routing")
        names = "return live.app.route.links.map(link => live.state.net.links[link].name)"
        self.assertEqual(self.browser.run(names), ROUTE)
        self.press("#edit form button")  # which closes the last road that was clicked
        self.wait(1)
        arrived = "return live.state.route && live.state.route.revision === live.state.revision"
        self.browser.until(arrived)
        self.browser.command("Page.setDownloadBehavior", behavior="allow", downloadPath=str(self.folder))
        self.press("#case")
        with zipfile.ZipFile(self.saved("closures-case.zip")) as archive:
            archive.extractall(self.folder / "kept")
        times = self.browser.run("return live.state.route.times")
        self.assertEqual(times["now"][::6], self.travel_times(self.folder / "kept"))
        self.assertEqual(times["base"][::6], self.travel_times(self.where))
        self.assertIn(None, times["now"])

        slots = (FILLS, FILLS + 1, AT)
        *fills, state = [line.split() for line in self.program(*({"do": "state", "slot": slot} for slot in slots))]
        links = [link.name for link in Case.read(self.where).links]
        place = 1 + links.index("north_centre")
        on_it = [int(one[one.index("in") + place]) - int(one[one.index("out") + place]) for one in fills]
        share = sum(on_it) / 2 / (400 * 150)  # in parts of 60 vehicles
        self.assertNotEqual(*on_it)
        self.assertAlmostEqual(self.browser.run(f"return live.state.route.shares.now[1][{FILLS}]"), share)
        self.see(AT)
        queues = {name: int(state[state.index("queue") + 1 + at]) for at, name in enumerate(links)}
        count = (queues["west_north"] + queues["north_centre"]) / 1000
        wanted = f"{count:.1f} vehicles queue from the end of north_centre; west_north is blocked by north_centre."
        self.assertEqual(self.text("#route .blocked"), f"At 7:19:10 {wanted}")
        self.assertEqual(len(self.texts("#route .diagram")), 2)

        self.press("#routing")
        self.click("north_centre")  # where it is to end
        self.assertEqual(self.browser.run(names), ROUTE[:2])
        self.click("south_centre")  # which no road leads to from there
        self.assertRegex(self.text("#notice"), "^No way leads from north_centre to south_centre")
        self.press("#search")
        self.browser.type("centre_east" + ENTER)
        self.assertEqual(self.browser.run(names), ROUTE)
        self.assertEqual(self.browser.run(WAY), [2, 3, 4])
        self.browser.run("live.send({route: ['west_north', 'centre_east']})")
        self.browser.until("return /centre_east begins at/.test(document.getElementById('notice').textContent)")
        self.assertEqual(self.browser.console(), [])


if __name__ == "__main__":
    unittest.main()
