"""An hour of an analyst with the live map, in the browser: what is asked first of a network, with each number held
against the program."""
import subprocess
import unittest
import zipfile

from browser import CTRL, ENTER, NULL
from made_live import needs_live
from support import BUILT, EXAMPLES, needs_numpy, needs_program
from support_live_page import LivePage
from ltm_tools.case import Case, Limit
from ltm_tools.formats import told_time
from ltm_tools.listing import HOURS

STREETS = "link,street\nnorth_east,High Street\nwest_south,Long Lane\n"
PLAN = "link,cycle,offset,greens,permitted,factors\nsouth_east,90,0,0-30,,\n"


@needs_live
@needs_numpy
@needs_program
class Hour(LivePage):
    def told(self) -> list[str]:
        """The total travel time and the vehicles that have not arrived, as the program tells them of the list."""
        delays, totals = self.program({"do": "delays"}, {"do": "totals"})
        rest = sum(int(totals.split()[at].replace(".", "")) for at in (7, 9))
        return [f"{HOURS.show(told_time(delays.split()[3])):f}", f"{rest / 1000:.3f}"]

    def shown(self) -> list[str]:
        texts = self.texts("#sums dd")
        return [texts[0], texts[-1]]

    def effect(self) -> list[str]:
        """What is shown of the list, which is what the program tells of it."""
        self.assertEqual(self.shown(), self.told())
        return self.shown()

    def test_an_hour(self) -> None:
        case = Case.read(EXAMPLES / "closures")
        case.setup.signals, case.signals = True, [Limit("south_east", 20, 50, 1000)]
        self.serve(case=case, beside={"street_names.csv": STREETS, "turns.csv": PLAN})
        base = self.effect()

        # a busy road by its name, closed for a quarter of an hour from where the slider is; the cost is read
        self.see(60)
        self.press("#search")
        self.browser.type("high st" + ENTER)
        self.assertTrue(self.text("#edit h2").startswith("Road High Street north_east"))
        self.press("#edit form button")
        self.wait(1)
        closed = self.effect()
        self.assertNotEqual(closed, base)
        self.assertIn("Queues differ from 7:10", self.text("#differs"))
        self.press("#keep")
        self.browser.until("return live.app.scenes.scenes.length === 1")

        # undone, and again with half of the drivers informed: what their routes change alone, and what the closure does
        self.browser.run("document.activeElement.blur()")
        self.browser.type(CTRL + "z" + NULL)
        self.wait(0)
        self.assertEqual(self.effect(), base)
        self.browser.run("document.querySelector('#edit select').focus()")
        self.browser.type("h")
        self.press("#edit form button")
        self.wait(1)
        self.effect()
        before, alone, with_it = self.browser.run("return live.state.list[0].effect")
        self.assertEqual([f"{HOURS.show(before):f}", f"{HOURS.show(with_it):f}"], [base[0], self.shown()[0]])
        self.assertGreaterEqual(with_it, alone)  # a closure of a road in use is no gain, whatever its routes mend
        self.browser.run("document.activeElement.blur()")
        self.browser.type(CTRL + "z" + NULL)
        self.wait(0)

        # two signal plans, one beside the other
        plans = []
        self.press("#search")
        self.browser.type(CTRL + "a" + NULL + "south_east" + ENTER)
        for green in ("0-30", "0-60"):
            self.press("#edit .kinds button", 3)
            self.assertEqual(self.browser.run("return document.querySelector('#edit .plan input').value"), "0-30")
            self.browser.run("document.querySelector('#edit .plan input').select()")
            self.browser.run("document.querySelector('#edit .plan input').focus()")
            self.browser.type(green)
            self.press("#edit form button[type=submit]")
            self.wait(1)
            plans.append(self.effect())
            self.press("#keep")
            self.browser.until("return live.app.scenes.scenes.length === arguments[0]", 1 + len(plans))
            self.press("#list .back")
            self.wait(0)
        columns = [self.texts(f"#scenes td:nth-child({place})") for place in (3, 4, 5)]
        self.assertEqual([[column[0], column[-1]] for column in columns], [closed, *plans])

        # more demand; played; where the queue begins; a second browser, which has the same list and totals
        self.press("#search")
        self.browser.type(CTRL + "a" + NULL + "west" + ENTER)
        self.browser.run("live.app.picking.named({node: 'west'})")
        self.press("#edit form button")
        self.wait(1)
        more = self.effect()
        self.press("#search")
        self.browser.type(CTRL + "a" + NULL + " " + NULL)
        self.browser.run("live.app.player.play()")
        self.browser.until("return live.app.player.here() > 80")
        self.browser.run("live.app.player.stop()")
        self.press("#roads tbody tr")
        self.assertEqual(
            self.browser.run("return live.app.player.here()"),
            self.browser.run(
                "return live.state.costs.now."
                "nodes.concat(live.state.costs.now.links).map(one => one[2]).find(at => at === live.app.player.here())"
            ),
        )
        self.browser.run("window.before = true; location.reload()")
        self.browser.until("return !window.before")
        self.opened()
        self.assertEqual((len(self.texts("#list li")), self.shown()), (1, more))

        # handed over: the case that is saved says the same to the program
        self.browser.command("Page.setDownloadBehavior", behavior="allow", downloadPath=str(self.folder))
        self.press("#changes .keep button", 1)
        kept = self.saved("closures-case.zip")
        with zipfile.ZipFile(kept) as archive:
            archive.extractall(self.folder / "kept")
        told = subprocess.run([BUILT, "delay"], cwd=self.folder / "kept", stdout=subprocess.PIPE, check=True, text=True)
        self.assertEqual(f"{HOURS.show(told_time(told.stdout.split()[3])):f}", more[0])
        self.assertEqual(self.browser.console(), [])


if __name__ == "__main__":
    unittest.main()
