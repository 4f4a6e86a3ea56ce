"""The colours of the live map beside queues: flows, the misfit to counts, and what capacity is worth."""
import unittest

from made_live import needs_live
from support import needs_program
from support_live_page import LivePage
from ltm_tools.case import Case
from ltm_tools.worth.result import FIELDS

AT, QUARTER = 100, 90  # a boundary, and how many slots of 10 s are a quarter of an hour
FIT = """\
place,links,end,from,to,counted,loaded,error,geh,use
A,north_east,exit,7:00,7:15,100.000,112.000,,1.2,fit
A,north_east,exit,7:15,7:30,100.000,112.000,,1.2,fit
B,west_south,exit,7:00,7:15,200.000,100.000,,8.2,fit
"""
WORTHS = {"north_east": "-7200", "south_east": "3600", "west_south": ""}  # travel time with more capacity, s


def worth_text() -> str:
    """A table as `bottlenecks` writes it."""
    rows = [
        {"link": link, "held_by": "road", "more_per_h": "2300", "more_travel_time_s": spent, "clear": "1"}
        for link, spent in WORTHS.items()
    ]
    return "\n".join([",".join(FIELDS), *(",".join(row.get(name, "") for name in FIELDS) for row in rows), ""])


@needs_live
@needs_program
class Colours(LivePage):
    def turn_to(self, shown: str) -> None:
        self.browser.run(
            "const shown = document.getElementById('shown'); shown.value = arguments[0];"
            " shown.dispatchEvent(new Event('change'))",
            shown,
        )

    def parts(self) -> dict[str, float]:
        """Of each road the part of the darkest colour."""
        script = "const {map, net} = live.app; return net.links.map(({name}, at) => [name, map.partOf(at)])"
        return dict(self.browser.run(script))

    def scale(self) -> list[str]:
        return self.texts("#scale span")

    def offered(self) -> list[str]:
        script = "return [...document.getElementById('shown').options].filter(one => !one.hidden).map(one => one.value)"
        return list(self.browser.run(script))

    def test_colours(self) -> None:
        """Flows are what the program says has left a road in a quarter of an hour, in parts of what 90 slots pass; a
        misfit is 12 of 100, and -50 is beyond the scale; of worths the largest is the darkest."""
        self.serve(beside={"fit.csv": FIT, "worth.csv": worth_text()})
        self.assertEqual(self.offered(), ["queue", "standing", "change", "flow", "misfit", "worth"])
        self.see(60)
        self.shut("south_east", 1)
        self.see(AT)
        self.turn_to("flow")
        self.browser.until("return live.state.frame.now.passed")
        early, late = [line.split() for line in self.program(*({"do": "state", "slot": k} for k in (AT - QUARTER, AT)))]
        names = [link.name for link in Case.read(self.where).links]
        left = [[int(word) for word in one[one.index("out") + 1 :][: len(names)]] for one in (early, late)]
        passed = [after - before for before, after in zip(*left)]
        self.assertEqual(self.browser.run("return [...live.state.frame.now.passed]"), passed)
        self.assertNotEqual(passed, self.browser.run("return [...live.state.frame.base.passed]"))
        flow = passed[names.index("north_east")]  # of a road that passes 150 * 60 * 20 / 80 vehicles an hour
        self.assertAlmostEqual(self.parts()["north_east"], flow / (2_250_000 / 360 * QUARTER))
        self.assertEqual(self.scale(), ["0", "% of the capacity", "100"])

        self.turn_to("misfit")
        told = self.parts()
        self.assertEqual([told[name] for name in ("north_east", "west_south", "west_north")], [12 / 30, -1, 0])
        self.assertEqual(self.scale(), ["−30", "% more than counted", "+30"])
        tell = "return live.app.sights.tell({link: live.state.net.linkOf.get(arguments[0])})"
        self.assertTrue(
            self.browser.run(tell, "north_east").endswith("; counted 200.0, loaded 224.0, +12.0 % loaded over counted")
        )

        self.turn_to("worth")
        told = self.parts()
        self.assertEqual([told[name] for name in ("north_east", "south_east", "west_south")], [1, -0.5, 0])
        self.assertEqual(self.scale()[1:], ["vehicle seconds saved by more capacity", "+7200.00"])
        self.assertEqual(self.browser.console(), [])

    def test_what_a_case_has_no_numbers_for(self) -> None:
        """Without the files their colours are not offered."""
        self.serve()
        self.assertEqual(self.offered(), ["queue", "standing", "change", "flow"])


if __name__ == "__main__":
    unittest.main()
