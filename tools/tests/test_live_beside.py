"""Two maps of the live map beside each other: the list, and the base or a scenario that is kept."""
import unittest

from browser import CTRL, NULL, RIGHT
from made_live import needs_live
from support import needs_program
from support_live_page import LivePage

AT = 100  # a boundary
QUEUES = "const {frame} = live.app.beside.sights.state; return [...frame.now.queue]"
ZOOMS = """\
const maps = [live.app.map, live.app.beside.sights.map];
return maps.map(({view: {zoom}}) => [zoom.k, zoom.x, zoom.y].map(Math.round))"""


@needs_live
@needs_program
class Beside(LivePage):
    def turn_to(self, name: str) -> None:
        self.browser.run(
            "const one = document.getElementById('beside'); one.value = arguments[0];"
            " one.dispatchEvent(new Event('change'))",
            name,
        )

    def queues(self) -> list[int]:
        """The queues at the boundary, as the program has them of the list."""
        (state,) = self.program({"do": "state", "slot": AT})
        return [int(word) for word in state.partition(" queue ")[2].partition(" waiting ")[0].split()]

    def test_two_maps(self) -> None:
        """The second map shows the queues that the program had of the scenario when it was kept, whatever the list is
        now, or those of the base; both show the same part, and a click on either selects a road. On a narrow window
        there is one map."""
        self.serve()
        self.see(60)
        base = self.queues()
        self.shut("north_east", 1)
        kept = self.queues()
        self.press("#keep")
        self.browser.until("return live.app.scenes.scenes.length === 1")
        self.browser.type(CTRL + "z" + NULL)
        self.wait(0)
        self.shut("centre_east", 1)
        now = self.queues()
        self.see(AT)
        self.turn_to("A")
        self.browser.until("const {frame} = live.app.beside; return frame && frame.k === arguments[0]", AT)
        self.assertEqual(self.browser.run(QUEUES), kept)
        self.assertEqual(self.browser.run("return [...live.state.frame.now.queue]"), now)
        self.assertEqual(len({tuple(one) for one in (base, kept, now)}), 3)
        self.assertEqual(self.text("#caption"), "scenario A at 7:16:40")
        self.turn_to("base")
        self.assertEqual((self.browser.run(QUEUES), self.text("#caption")), (base, "base at 7:16:40"))

        self.press("#in")
        self.browser.run("document.getElementById('second').focus()")
        self.browser.type(RIGHT)
        first, second = self.browser.run(ZOOMS)
        self.assertEqual((first, first[0]), (second, 2))  # one and a half, rounded
        self.browser.click_where(
            "const {map} = live.app.beside.sights, xs = map.wayInWindow(live.state.net.linkOf.get(args[0]));"
            "return [map.canvas, ...[0, 1].map(at => (xs[0][at] + xs[1][at]) / 2)]",
            "north_east",
        )
        self.assertEqual(self.text("#edit h2").split()[:2], ["Road", "north_east"])
        self.browser.size(800, 700)
        shown = "return [...document.querySelectorAll('#sheets > div')].map(each => each.offsetWidth > 0)"
        self.assertEqual((self.browser.run(shown), self.browser.console()), ([True, False], []))


if __name__ == "__main__":
    unittest.main()
