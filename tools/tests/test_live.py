"""The live page's server: what it shows is the program's, whatever browsers do, and nothing of a list is lost."""
import asyncio
import io
import json
import os
import random
import signal
import subprocess
import sys
import unittest
import zipfile
from pathlib import Path

from made_live import Client, LiveTest, needs_live
from support import BUILT, CLONE, needs_program
from ltm_tools.errors import Fault
from ltm_tools.formats import told_time, told_units
from ltm_tools.live.kept import add_change
from ltm_tools.live.scenario import Scenario

SHUT = {"kind": "close", "link": "north_east", "from": 60, "to": 90}
OF_EACH_KIND = [
    SHUT,
    {"kind": "let_in", "link": "west_north", "from": 10, "to": 50, "per_hour": 600},
    {"kind": "let_out", "link": "west_south", "from": 10, "to": 50, "per_hour": 450},
    {"kind": "signal", "link": "south_east", "from": 10, "to": 40, "green": 30, "cycle": 75},
    {"kind": "speed", "link": "west_south", "kmh": 45},
    {"kind": "demand", "node": "west", "from": 30, "to": 60, "percent": 150},
    {"kind": "share", "node": "north", "link": "north_east", "from": 70, "to": 85, "percent": 10},
]


@needs_live
@needs_program
class Shown(LiveTest):
    async def check(self, client: Client) -> None:
        """That what is shown is what the program tells of the kept case, and of the kept script."""
        folder = self.folder / "kept"
        with zipfile.ZipFile(io.BytesIO(await self.kept("case.zip"))) as archive:
            archive.extractall(folder)
        loaded = [line.split() for line in run(folder, "load")]
        delays = [line.split() for line in run(folder, "delay")]
        frame, links = await client.see(120), len(loaded) - 1
        standing = [told_units(words[3]) - told_units(words[5]) for words in loaded[1:]]
        self.assertEqual([int(number) for number in frame[links : 2 * links]], standing)
        self.assertEqual(client.costs["now"]["totals"], [told_time(delays[0][at]) for at in (3, 5, 7)])
        self.assertEqual(client.costs["there"][1], sum(told_units(loaded[0][at]) for at in (7, 9)))
        self.assertEqual(
            client.costs["now"]["links"],
            [[told_time(words[5]), told_units(words[7]), int(words[9])] for words in delays[1:] if words[0] == "link"],
        )
        script = await self.kept("script.jsonl")
        last = run(self.where, "session", "0", script=script + b'{"do":"settle"}\n{"do":"delay"}\n')[-1].split()
        self.assertEqual([told_time(last[at]) for at in (3, 5, 7)], client.costs["now"]["totals"])

    async def test_each_kind_of_change(self) -> None:
        """Each is what the program tells of the case that is kept; taken back, the base is there byte for byte."""
        await self.start()
        client = await self.client()
        before = await client.see(75)
        for told in OF_EACH_KIND:
            self.assertEqual(await client.change({"edit": told}), "")
            await self.check(client)
        self.assertEqual(
            [entry["text"] for entry in client.list][3:6],
            [
                "south_east green 30 s of 75 s, 7:01:40 to 7:06:40",
                "west_south at 45 km/h, the whole time",
                "demand of west at 150 %, 7:05 to 7:10",
            ],
        )
        self.assertNotEqual(await client.see(75), before)
        for number in (4, 1, 7, 2, 6, 3, 5):
            self.assertEqual(await client.change({"undo": number}), "")
        self.assertEqual((client.list, await client.see(75)), ([], before))
        self.assertIn("already", await client.change({"undo": 4}))

    async def test_queues_and_curves(self) -> None:
        """At five boundaries queues and who waits are the program's, now and in the base; and so are curves."""
        await self.start()
        client = await self.client()
        self.assertEqual(await client.change({"edit": SHUT}), "")
        asked = [{"do": "state", "slot": slot} for slot in (0, 59, 75, 90, 120)]
        lines = [json.dumps(one).encode() for one in asked]
        told = run(
            self.where,
            "session",
            "0",
            script=b"\n".join(
                [
                    *lines,
                    json.dumps(
                        {
                            "do": "edit",
                            "edits": [{"kind": "limit", "link": "north_east", "from": 60, "to": 90, "vehicles": "0"}],
                        }
                    ).encode(),
                    b'{"do":"settle"}',
                    *lines,
                    b'{"do":"curve","link":"west_north"}',
                    b'{"do":"departures","node":"west"}',
                ]
            ),
        )
        links, nodes = 7, 5
        for place, one in enumerate(asked):
            wanted = []
            for line in (told[7 + place], told[place]):
                _, entered, left, queue, waiting = (
                    list(map(int, part.split()[1:]))
                    for part in ("in" + line.partition(" in")[2])
                    .replace("out", "\nout")
                    .replace("queue", "\nqueue")
                    .replace("waiting", "\nwaiting")
                    .join(("-\n", ""))
                    .split("\n")
                )
                self.assertEqual((len(queue), len(waiting)), (links, nodes))
                wanted += [*queue, *(a - b for a, b in zip(entered, left)), *waiting]
            self.assertEqual(list(await client.see(one["slot"])), wanted)
        for kind, name, line in (("link", "west_north", told[12]), ("node", "west", told[13])):
            await client.send({"pick": {kind: name}})
            await client.until(lambda: client.curve.get("curve") == name)
            self.assertEqual(
                " ".join(str(number) for counts in client.curve["now"] for number in counts),
                " ".join(word for word in line.split()[4:] if word.isdigit()),
            )

    async def test_two_browsers(self) -> None:
        """A thousand changes by chance from two browsers at once, with a session that is opened anew as its lines are
        used: both see one list and one loading, that of the kept case."""
        self.most_lines = 260
        await self.start()
        one, other = await self.client(), await self.client()
        pick = random.Random(5)
        for _ in range(20):
            for _ in range(50):
                who, entries = pick.choice((one, other)), one.list
                kind = pick.randrange(3)
                if kind and entries:
                    number = pick.choice(entries)["id"]
                    await who.send({"undo": number} if kind == 1 else {"switch": number, "on": pick.random() < 0.5})
                else:
                    told = dict(pick.choice(OF_EACH_KIND))
                    if "from" in told:
                        told["from"], told["to"] = sorted(pick.sample(range(121), 2))
                    await who.send({"edit": told})
                await asyncio.sleep(pick.random() / 100)
            await self.check_both(one, other)
        self.assertGreater(self.scenario.revision, 10)

    async def test_each_undoes_its_own(self) -> None:
        """Two windows: each undoes and redoes what it changed itself, in that order; one that was loaded again is the
        same window, and what another has removed meanwhile is passed by in words."""
        await self.start()
        one, other = await self.client(window="w1"), await self.client()
        before = await one.see(75)
        await one.change({"edit": SHUT})
        await other.change({"edit": OF_EACH_KIND[1]})
        await one.change({"switch": one.list[0]["id"], "on": False})
        both = [entry["text"] for entry in one.list]
        self.assertEqual(await one.change({"back": True}), "")
        self.assertEqual([(entry["text"], entry["on"]) for entry in one.list], [(text, True) for text in both])
        one = await self.client(window="w1")
        self.assertEqual((one.list[0]["by"], one.hello["you"]), ("browser 1", "browser 1"))
        await one.change({"back": True})
        self.assertEqual([entry["text"] for entry in other.list], both[1:])
        self.assertIn("nothing to undo", await one.change({"back": True}))
        await one.change({"again": True})
        self.assertEqual([entry["text"] for entry in other.list], both)
        await other.change({"undo": other.list[0]["id"]})
        self.assertIn("removed already", await one.change({"back": True}))
        await other.change({"back": True})
        self.assertEqual([entry["text"] for entry in other.list], both)
        await other.change({"back": True})
        await other.change({"undo": other.list[0]["id"]})
        self.assertEqual(await one.see(75), before)
        for why in ("removed already", "nothing to redo"):  # the switch that was undone first, and then nothing
            self.assertIn(why, await one.change({"again": True}))

    async def test_scenarios_that_are_kept(self) -> None:
        """At most five, each by a name, with the costs that were told of it; a list that is shown again is the same."""
        await self.start()
        client = await self.client()
        await client.change({"edit": SHUT})
        costs, frame = client.costs, await client.see(80)
        for name in "ABCDEFA":
            await client.send({"keep": name})
        await client.until(lambda: len(client.all("scenes")) == 7 and client.all("refused"))
        (*_, last) = client.all("scenes")
        self.assertEqual([(one["name"], one["costs"] == costs) for one in last], [(name, True) for name in "ABCDE"])
        for told, why in (({"keep": "F"}, "At most 5"), ({"keep": ""}, "1 to 40"), ({"keep": ["A"]}, "1 to 40")):
            count = len(client.all("refused"))
            await client.send(told)
            await client.until(lambda: len(client.all("refused")) > count)
            self.assertIn(why, client.all("refused")[-1])
        await client.change({"undo": client.list[0]["id"]})
        self.assertIn("No scenario", await client.change({"recall": "G"}))
        self.assertEqual(await client.change({"recall": "B"}), "")
        self.assertEqual((client.costs, await client.see(80)), (costs, frame))
        await self.check(client)

    async def check_both(self, one: Client, other: Client) -> None:
        for client in (one, other):
            await client.until(client.idle)
            await client.send({"see": 119})
        await one.see(120)
        self.assertEqual(await one.see(80), await other.see(80))
        self.assertEqual((one.list, one.costs), (other.list, other.costs))
        await self.check(one)

    async def test_a_later_one_covers_an_earlier_one(self) -> None:
        await self.start()
        client = await self.client()
        for first, end in ((60, 90), (50, 80), (80, 95)):
            await client.change({"edit": {**SHUT, "from": first, "to": end}})
        self.assertEqual([entry["covered"] for entry in client.list], [True, False, False])
        await client.change({"switch": client.list[2]["id"], "on": False})
        self.assertEqual(
            [(entry["covered"], entry["on"]) for entry in client.list], [(False, True), (False, True), (False, False)]
        )
        await self.check(client)


@needs_live
@needs_program
class NothingIsLost(LiveTest):
    async def test_each_change_is_on_disk_before_it_is_shown(self) -> None:
        script = self.folder / "changes.jsonl"
        mine = b'{"do": "edit", "edits": [{"kind":"exit","link":"south_east","from":0,"to":9,"vehicles":"1"}]}'
        script.write_bytes(mine + b'\n{"do":"delay"}\n')
        await self.start(script.name)
        client = await self.client()
        seen = []
        for told in (SHUT, OF_EACH_KIND[3], OF_EACH_KIND[5]):
            count = len(client.list)
            await client.send({"edit": told})
            await client.until(lambda: len(client.list) > count)
            seen.append(script.read_bytes())
        self.assertEqual([data.count(b'"change"') for data in seen], [1, 2, 3])
        self.assertTrue(seen[-1].startswith(mine + b'\n{"do":"delay"}\n'))
        await client.change({"switch": client.list[2]["id"], "on": False})
        shown, frame = client.list, await client.see(80)
        await self.end()
        await self.start(script.name)
        client = await self.client()
        self.assertEqual(
            [(entry["text"], entry["on"]) for entry in client.list], [(entry["text"], entry["on"]) for entry in shown]
        )
        self.assertEqual(await client.see(80), frame)
        await client.change({"undo": client.list[0]["id"]})
        self.assertNotIn(mine, script.read_bytes())

    async def test_what_cannot_be_written_is_not_made(self) -> None:
        (self.folder / "there").mkdir()
        await self.start("there/changes.jsonl")
        client = await self.client()
        os.rmdir(self.folder / "there")
        self.assertIn("No such file", await client.change({"edit": SHUT}))
        self.assertEqual(client.list, [])

    async def test_a_script_that_is_refused(self) -> None:
        """The first line that the program would refuse is told; others, whatever they are, stand in the file."""
        limit = '{"kind":"limit","link":"%s","from":0,"to":9,"vehicles":"1"}'
        for line, why in (
            (f'{{"do":"edit","edits":[{limit % "no"}]}}', "refused edit 1 UnknownName.*no link no"),
            ('{"do":"edit","edits":[1]}', "NotCommand 1"),
            ('{"do":"edit","edits":[]}', "NotCommand 0"),
            ('{"do":"edit","edits":[1],"change":{}}', "NotCommand 1"),
            ('{"do":"totals","change":{"on":false,"edits":5}}', "NotCommand 0"),
            ('{"do":"edit","edits":[1],"change":{"kind":["close"]}}', "one of close"),
            ('{"do":"edit","edits":[{"kind":"horizon","slots":900}]}', "setup.csv"),
        ):
            (self.folder / "wrong.jsonl").write_text(f"\n\x00\u00e9\n{line}\n")
            with self.assertRaisesRegex(Fault, f"wrong.jsonl, line 3: .*{why}", msg=line):
                await self.start("wrong.jsonl")

    async def test_the_program_is_killed(self) -> None:
        """Idle, and in the middle of what it does: it is opened anew with the same list."""
        await self.start()
        client = await self.client()
        await client.change({"edit": SHUT})
        frame = await client.see(80)
        os.kill(self.scenario.session.process.pid, signal.SIGKILL)
        await client.see(79)
        self.assertEqual(await client.see(80), frame)
        os.kill(self.scenario.session.process.pid, signal.SIGKILL)
        await client.change({"edit": OF_EACH_KIND[4]})
        self.assertEqual(len(client.list), 2)
        self.assertTrue(client.all("notice"))
        await client.send({"undo": client.list[1]["id"]})
        os.kill(self.scenario.session.process.pid, signal.SIGKILL)
        await client.until(lambda: len(client.list) == 1)
        self.assertEqual(await client.see(80), frame)

    async def test_a_change_that_ends_the_program_twice(self) -> None:
        program = self.program(
            f"""
import subprocess
real = subprocess.Popen([{str(BUILT)!r}, *sys.argv[1:]], stdin=subprocess.PIPE, stdout=sys.stdout)
for line in sys.stdin:
    if '"to": 77' in line:
        real.kill()
        sys.exit(9)
    real.stdin.write(line.encode())
    real.stdin.flush()
real.stdin.close()
real.wait()
"""
        )
        await self.start(program=program)
        client = await self.client()
        await client.change({"edit": SHUT})
        told = await client.change({"edit": {**SHUT, "from": 10, "to": 77}})
        self.assertEqual(told, "The program ended twice at this change, which was not made.")
        await client.change({"edit": {**SHUT, "from": 10, "to": 78}})
        self.assertEqual(
            [entry["text"] for entry in client.list],
            ["north_east closed, 7:10 to 7:15", "north_east closed, 7:01:40 to 7:13"],
        )

    async def test_the_files_change(self) -> None:
        await self.start()
        client = await self.client()
        demand = self.where / "demand.csv"
        demand.write_text(demand.read_text().replace("800", "801"))
        os.kill(self.scenario.session.process.pid, signal.SIGKILL)
        await client.send({"edit": SHUT})
        await client.until(lambda: len(client.all("notice")) > 1)
        self.assertIn("have changed since it was opened", client.all("notice")[-1])


@needs_program
class Lines(unittest.TestCase):
    def test_the_words_of_an_entry(self) -> None:
        """Those that its line has, else those of its first edit."""
        line = [{"kind": "limit", "link": "north_east", "from": 0, "to": 9, "vehicles": "0"}] * 2
        with Scenario(CLONE / "examples" / "closures", BUILT) as scenario:
            self.assertEqual(add_change(scenario, {"text": "Works"}, line[:1], []).text, "Works")
            self.assertEqual(add_change(scenario, {"by": "me"}, line, []).text, "limit north_east and 1 more")


@needs_live
class Command(LiveTest):
    def live(self, *words: str) -> "subprocess.Popen[str]":
        process = subprocess.Popen(
            [sys.executable, str(CLONE / "tools" / "ltm-tools"), "live", *words],
            stdout=subprocess.PIPE,
            stderr=subprocess.PIPE,
            text=True,
        )
        self.addCleanup(process.kill)
        return process

    @needs_program
    def test_it_ends_with_its_program(self) -> None:
        process = self.live(str(self.where), "--program", str(BUILT), "--no-open")
        assert process.stdout is not None
        self.assertRegex(process.stdout.readline(), r"^http://127\.0\.0\.1:[0-9]+/#[\w-]{32}\n$")
        children = Path(f"/proc/{process.pid}/task/{process.pid}/children").read_text().split()
        self.assertEqual(len(children), 1)
        process.send_signal(signal.SIGTERM)
        self.assertEqual(process.communicate(timeout=60), ("", ""))
        self.assertEqual(process.returncode, 0)
        self.assertFalse(Path(f"/proc/{children[0]}").exists())

    def test_a_program_without_the_questions(self) -> None:
        program = self.program('for line in sys.stdin:\n    print("refused command NotCommand 0", flush=True)')
        process = self.live(str(self.where), "--program", str(program), "--no-open")
        _, told = process.communicate(timeout=60)
        self.assertEqual(
            (process.returncode, told),
            (
                1,
                "ltm-tools live: the program's sessions do not answer `state`,"
                " `curve` and `delays`: a newer ltm is needed\n",
            ),
        )

    def test_a_port_that_is_taken(self) -> None:
        import socket

        with socket.socket() as taken:
            taken.bind(("127.0.0.1", 0))
            taken.listen()
            port = taken.getsockname()[1]
            if os.access(BUILT, os.X_OK):
                process = self.live(str(self.where), "--program", str(BUILT), "--no-open", "--port", str(port))
                _, told = process.communicate(timeout=60)
                self.assertEqual(
                    (process.returncode, told),
                    (1, f"ltm-tools live: port {port} of 127.0.0.1: Address already in use\n"),
                )


def run(folder: Path, *words: str, script: bytes = b"") -> list[str]:
    """The lines that the program writes."""
    return (
        subprocess.run([BUILT, *words], cwd=folder, input=script, stdout=subprocess.PIPE, check=True)
        .stdout.decode()
        .splitlines()
    )


if __name__ == "__main__":
    unittest.main()
