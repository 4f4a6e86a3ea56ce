"""Who hears of a closure on a live page: worked by hand, kept and taken back as a whole, sought while others go on."""
import io
import json
import threading
import unittest
import zipfile
from unittest import mock

from made_live import Client, LiveTest, needs_live
from support import BUILT, needs_numpy, needs_program
from support_live import ALL, OPEN, ROADS
from ltm_tools.case import Case
from ltm_tools.live.entries import Effect
from ltm_tools.scenario import edits
from ltm_tools.scenario.session import Session

NOBODY = 120 * 40 + 120 * 340 - 120 * 120 // 4
SHUT = {"kind": "close", "link": "fast", "from": 300, "to": 600}
BY_M = edits.splits("m", "d", [(0, {"on": 1})])
SLOWER = {"kind": "speed", "link": "slow", "kmh": 30}


@needs_numpy
@needs_live
@needs_program
class WhoHears(LiveTest):
    def setUp(self) -> None:
        super().setUp()
        self.where = self.case(**ROADS)

    def seconds(self, client: Client) -> float:
        return float(client.costs["now"]["totals"][0]) / 10**6

    async def kept_seconds(self) -> float:
        """What all spend in the case that is kept, as the program tells it."""
        with zipfile.ZipFile(io.BytesIO(await self.kept("case.zip"))) as archive:
            archive.extractall(self.folder / "kept")
        with Session(self.folder / "kept", program=BUILT) as session:
            return session.delay().spent / 10**6

    async def test_nobody_and_all(self) -> None:
        """The entry is one: it is kept whole, comes back with the script, also while it is off, and is taken back
        whole."""
        await self.start("changes.jsonl")
        client = await self.client()
        before = await client.see(700)
        self.assertEqual(await client.change({"edit": SHUT}), "")
        self.assertEqual(self.seconds(client), NOBODY)
        await client.change({"undo": client.list[0]["id"]})
        self.assertEqual(await client.change({"edit": {**SHUT, "informed": 100}, "at": 3}), "")
        self.assertEqual((self.seconds(client), await self.kept_seconds()), (ALL, ALL))
        self.assertEqual(
            [(told["rounds"], told["most"], told["at"]) for told in client.told if "seeking" in told],
            [(rounds, 8, 3) for rounds in (0, *range(8))],
        )
        self.assertEqual(
            [entry["text"] for entry in client.list], ["fast closed, 7:05 to 7:10, all of the drivers informed"]
        )
        # by m all take 100 s whether the road is closed or not, so that the closure itself changes nothing
        effect = [OPEN * 10**6, ALL * 10**6, ALL * 10**6]
        self.assertEqual(client.list[0]["effect"], effect)
        after = await client.see(700)
        await client.change({"switch": client.list[0]["id"], "on": False})
        self.assertEqual((self.seconds(client), await client.see(700)), (OPEN, before))
        await self.end()
        await self.start("changes.jsonl")
        client = await self.client()
        self.assertEqual([(entry["text"][-14:], entry["on"]) for entry in client.list], [("ivers informed", False)])
        await client.change({"switch": client.list[0]["id"], "on": True})
        self.assertEqual((await client.see(700), client.list[0]["effect"]), (after, effect))
        await self.end()
        await self.start("changes.jsonl")
        client = await self.client()
        self.assertEqual((await client.see(700), self.seconds(client)), (after, ALL))
        await client.change({"undo": client.list[0]["id"]})
        self.assertEqual((await client.see(700), (self.folder / "changes.jsonl").read_bytes()), (before, b""))

    async def test_while_it_is_sought(self) -> None:
        """Others go on, and it comes where it was asked for; where what was before it is taken back, it is refused, and
        so it is where it is stopped."""
        await self.start()
        one, other = await self.client(), await self.client()
        await other.change({"edit": SLOWER})
        go = threading.Event()

        def sought(scenario: object, question: object, done: object) -> object:
            go.wait(60)
            assert callable(done)
            done(1)
            told = (BY_M, edits.splits("o", "d", [(0, {"fast": 1}), (300, {"slow": 1})]))
            return [edits.edit_of(edit) for edit in told], Effect(1, 2, 3)

        with mock.patch("ltm_tools.live.hearing.sought", sought):
            await one.send({"edit": {**SHUT, "informed": 50}, "at": 1})
            await other.until(lambda: other.idle() or self.desk.tasks)
            await other.send({"edit": {**SHUT, "link": "slow"}})
            await other.until(lambda: len(other.list) == 2)
            go.set()
            await one.until(lambda: len(one.list) == 3)
            self.assertEqual([entry["text"][:11] for entry in one.list], ["slow at 30 ", "fast closed", "slow closed"])
            go.clear()
            for told, why in (({"undo": one.list[0]["id"]}, "An earlier change"), ({"stop": 2}, "Stopped")):
                await one.send({"edit": {**SHUT, "informed": 50}, "at": 2})
                await one.until(lambda: self.desk.tasks)
                await one.send(told)
                await one.see(5)
                go.set()
                await one.until(lambda: not self.desk.tasks and one.idle())
                await one.see(6)
                self.assertIn(why, one.all("refused")[-1])
                go.clear()
        self.assertEqual(len(one.list), 2)

    async def test_what_is_refused(self) -> None:
        case = Case.read(self.where)
        case.setup.step_ms = 7_000  # of which five minutes have no whole number
        case.write(self.where)
        await self.start()
        client = await self.client()
        for informed, told in (
            (101, "from 0 to 100"),
            ("all", "from 0 to 100"),
            (True, "from 0 to 100"),
            (50, "no whole number of steps of 7000 ms"),
        ):
            self.assertIn(told, await client.change({"edit": {**SHUT, "informed": informed}}))
        with mock.patch("ltm_tools.live.hearing.missing", lambda names: list(names)):
            self.assertIn(
                "with python3-numpy, which is not installed", await client.change({"edit": {**SHUT, "informed": 50}})
            )
        self.assertEqual(client.list, [])

    async def test_a_script_of_others(self) -> None:
        """Lines that say they are more than they are take nothing with them that is no edit."""
        lines = [
            json.dumps({"do": "totals", "change": {"batches": 3}}),
            '{"do":"totals"}',
            json.dumps(
                {
                    "do": "totals",
                    "change": {
                        "on": False,
                        "kind": "close",
                        "link": "fast",
                        "from": 300,
                        "to": 600,
                        "informed": 50,
                        "batches": 2,
                    },
                }
            ),
            json.dumps({"do": "totals", "change": {"heard": [BY_M, edits.splits("o", "d", [(0, {"slow": 1})])]}}),
            '{"do":"delay"}',
        ]
        script = self.folder / "changes.jsonl"
        script.write_text("\n".join(lines) + "\n")
        await self.start(script.name)
        client = await self.client()
        await client.change({"switch": client.list[0]["id"], "on": True})
        self.assertEqual(self.seconds(client), 240 * 100)
        kept = script.read_text().splitlines()
        self.assertEqual((kept[:2], kept[-1], len(kept)), (lines[:2], lines[-1], 4))


if __name__ == "__main__":
    unittest.main()
