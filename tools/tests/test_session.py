"""A session over a pipe, with a program that is made for the test and with the proved one."""
import json
import os
import unittest
from decimal import Decimal
from pathlib import Path
from typing import Any
from unittest import mock

from support import BUILT, EXAMPLES, FolderTest, needs_program
from ltm_tools import edits
from ltm_tools.case import Case
from ltm_tools.errors import Fault
from ltm_tools.loading.delay import Delay, Wait
from ltm_tools.program import output
from ltm_tools.scenario.session import Ended, Refused, Session

DATA = Path(__file__).resolve().parent / "data"

# answers each line by the next of these lines, and writes what it was asked into asked.txt where it runs
ANSWERS = """
answers = {answers!r}
with open("asked.txt", "w") as asked:
    for line, answer in zip(sys.stdin, answers):
        asked.write(line)
        asked.flush()
        print(answer, flush=True)
sys.exit({status})
"""


def again(session: Session, command: dict[str, Any]) -> str:
    """The answer to a command, written from what its call gives."""
    if command["do"] == "state":
        state = session.state(command["slot"])
        parts = {"in": state.entered, "out": state.left, "queue": state.queue, "waiting": state.waiting}
        assert all(
            list(part) == (["n1", "n2", "n3"] if name == "waiting" else ["a", "b"]) for name, part in parts.items()
        )
        return " ".join(
            [
                f"version {state.version} slot {state.slot}",
                *(f"{name} {' '.join(map(str, part.values()))}" for name, part in parts.items()),
            ]
        )
    if command["do"] == "curve":
        curve = session.curve(command["link"])
        return (
            f"version {curve.version} link {command['link']} in {' '.join(map(str, curve.entered))} out"
            f" {' '.join(map(str, curve.left))}"
        )
    told = session.delays()
    assert list(told.links) == ["a", "b"] and list(told.nodes) == ["n1", "n2", "n3"]
    links = " ".join(
        f"{decimals(link.spent, 6)} {decimals(link.queued, 6)} {decimals(link.most, 3)} {link.at}"
        for link in told.links.values()
    )
    nodes = " ".join(f"{decimals(node.waited, 6)} {decimals(node.most, 3)} {node.at}" for node in told.nodes.values())
    return (
        f"version {told.version} spent {decimals(told.spent, 6)} queued {decimals(told.queued, 6)} waited"
        f" {decimals(told.waited, 6)}"
        f" links {links} nodes {nodes}"
    )


def decimals(number: int, places: int) -> str:
    return str(Decimal(number).scaleb(-places).quantize(Decimal(1).scaleb(-places)))


class Pages(FolderTest):
    def test_the_program_asks_for_large_pages(self) -> None:
        shows = self.program("import os\nprint(os.environ['GLIBC_TUNABLES'])")
        with mock.patch.dict(os.environ):
            os.environ.pop("GLIBC_TUNABLES", None)
            self.assertEqual(output(self.case(), "load", program=shows), b"glibc.malloc.hugetlb=1\n")
            os.environ["GLIBC_TUNABLES"] = "my own"
            self.assertEqual(output(self.case(), "load", program=shows), b"my own\n")


class Made(FolderTest):
    def session(self, *answers: str, status: int = 0) -> Session:
        return Session(self.case(), program=self.program(ANSWERS.format(answers=answers, status=status)))

    def test_answers_become_numbers(self) -> None:
        with self.session(
            "accepted version 3",
            "settled version 3 recomputed 42",
            "version 3 generated 7.000 arrived 6.050 on_links 1.000 waiting 0.001",
            "version 3 link a in 7.000 out 6.999",
            "version 3 link a slot 2 time 2500",
            "version 3 link a slot 9 time none",
        ) as session:
            self.assertEqual(session.edit(edits.limit("a", 60, 90, 1250), edits.limit("a", 60, 90)), 3)
            self.assertEqual(session.settle(), (3, 42))
            self.assertEqual(session.totals(), (3, 7000, 6050, 1000, 1))
            self.assertEqual(session.link("a"), (3, 7000, 6999))
            self.assertEqual(session.time("a", 2), (3, 2500))
            self.assertEqual(session.time("a", 9), (3, None))
        self.assertEqual(
            (self.folder / "case" / "asked.txt").read_text().splitlines()[0],
            '{"do": "edit", "edits": [{"kind": "limit", "link": "a", "from": 60, "to": 90, "vehicles":'
            ' "1.25"}, '
            '{"kind": "limit", "link": "a", "from": 60, "to": 90, "vehicles": "32"}]}',
        )

    def test_queues_and_delay(self) -> None:
        """Each of these questions of scripts, asked by its call: the numbers are those of the answer, by an engine that
        was written without this one."""
        told = [
            (json.loads(line), answer) for line, answer in json.loads((DATA / "delay" / "answers.json").read_text())
        ]
        kinds: dict[str, int] = {}
        with self.session(*(answer for _, answer in told)) as session:
            for command, answer in told:
                words = answer.split()
                call = {
                    "delay": session.delay,
                    "queue": lambda: session.queue(command["link"], command["slot"]),
                    "origin": lambda: session.origin(command["node"], command["slot"]),
                }
                with self.subTest(command):
                    if words[0] == "refused":
                        with self.assertRaisesRegex(Refused, answer):
                            session.ask(**command) if words[2] == "NotCommand" else call[command["do"]]()
                    else:
                        numbers = [word for word in words[6 if "slot" in words else 2 :] if "." in word]
                        self.assertEqual(
                            call[command["do"]](),
                            (
                                int(words[1]),
                                *(
                                    int(Decimal(number).scaleb(6 if command["do"] == "delay" else 3))
                                    for number in numbers
                                ),
                            ),
                        )
                        self.assertEqual(len(numbers), 3)
                        kinds[command["do"]] = kinds.get(command["do"], 0) + 1
        self.assertGreater(min(kinds[kind] for kind in ("delay", "queue", "origin")), 15)
        asked = [json.loads(line) for line in (self.folder / "case" / "asked.txt").read_text().splitlines()]
        for (command, answer), line in zip(told, asked):
            self.assertEqual({**command, **line} if "NotCommand" not in answer else line, command)

    def test_all_at_once(self) -> None:
        """Questions on all links or all boundaries of examples/spillback, by an engine that was written without this
        one: what they give tells the answer again, with a number for each name in its order."""
        told = [
            (json.loads(line), answer) for line, answer in json.loads((DATA / "wholes" / "spillback.json").read_text())
        ]
        kinds: dict[str, int] = {}
        with Session(
            EXAMPLES / "spillback",
            program=self.program(
                ANSWERS.format(answers=[answer for _, answer in told], status=0).replace(
                    "asked.txt", f"{self.folder}/asked.txt"
                )
            ),
        ) as session:
            for command, answer in told:
                with self.subTest(command, answer=answer):
                    if command["do"] in ("edit", "settle"):
                        session.ask(**command)
                    elif answer.startswith("refused"):
                        with self.assertRaisesRegex(Refused, answer):
                            session.state(command["slot"])
                    else:
                        self.assertEqual(again(session, command), answer)
                        kinds[command["do"]] = kinds.get(command["do"], 0) + 1
        self.assertEqual(kinds, {"state": 18, "curve": 12, "delays": 12})

    def test_by_name(self) -> None:
        """Worked on examples/spillback: at boundary 4 there are 2 vehicles in a and 0.4 in b, and 0.8 wait; the queue
        of a is longest at 8."""
        curve = "0 500 1000 1500 2000 2500 3000 3200"
        answers = [
            "version 0 slot 4 in 2000 400 out 400 0 queue 600 0 waiting 800 0 0",
            f"version 0 node n1 produced 0 700 1400 2100 2800 3500 4200 4900 left {curve}",
            "version 0 spent 64.900000 queued 20.700000 waited 29.000000 links 30.500000 20.700000 1.800 8"
            " 5.400000 0.000000 0.000 0"
            " nodes 29.000000 3.200 10 0.000000 0.000 0 0.000000 0.000 0",
        ]
        body = ANSWERS.format(answers=answers, status=0).replace("asked.txt", f"{self.folder}/asked.txt")
        with Session(EXAMPLES / "spillback", program=self.program(body)) as session:
            self.assertEqual(
                session.state(4),
                (0, 4, {"a": 2000, "b": 400}, {"a": 400, "b": 0}, {"a": 600, "b": 0}, {"n1": 800, "n2": 0, "n3": 0}),
            )
            self.assertEqual(session.departures("n1"), (0, tuple(range(0, 5600, 700)), tuple(map(int, curve.split()))))
            delays = session.delays()
        self.assertEqual(delays[:4], (0, 64_900_000, 20_700_000, 29_000_000))
        self.assertEqual(delays.links, {"a": Delay(30_500_000, 20_700_000, 1800, 8), "b": Delay(5_400_000, 0, 0, 0)})
        self.assertEqual(delays.nodes, {"n1": Wait(29_000_000, 3200, 10), "n2": Wait(0, 0, 0), "n3": Wait(0, 0, 0)})

    def test_by_so_many_slots(self) -> None:
        """Worked on examples/spillback from the curves of a and b, and of n1, at the boundaries 6, 12 and 16."""
        answers = [
            "version 0 every 6 in 3000 4200 5000 800 2000 2800 out 800 2000 2800 400 1600 2400"
            " departed 3000 4200 5000 0 0 0 0 0 0",
            "refused totals BadSlots",
            "version 0 every 6 in 3000 4200 5000 800 2000 out 800 2000 2800 400 1600 2400 departed 3000 0 0",
            "version 0 generated 7.000 arrived 2.400 on_links 2.600 waiting 2.000",
        ]
        body = ANSWERS.format(answers=answers, status=0).replace("asked.txt", f"{self.folder}/asked.txt")
        with Session(EXAMPLES / "spillback", program=self.program(body)) as session:
            told = session.totals(every=6)
            self.assertEqual(told[:2], (0, 6))
            self.assertEqual(told.entered, {"a": (3000, 4200, 5000), "b": (800, 2000, 2800)})
            self.assertEqual(told.left, {"a": (800, 2000, 2800), "b": (400, 1600, 2400)})
            self.assertEqual(told.departed, {"n1": (3000, 4200, 5000), "n2": (0, 0, 0), "n3": (0, 0, 0)})
            self.assertRaisesRegex(Refused, "refused totals BadSlots: `every` .* at least 1", session.totals, 0)
            self.assertRaisesRegex(Fault, "tells of 3, and the case has 2", session.totals, 6)
            self.assertRaisesRegex(Fault, "has not the parts in, out, departed", session.totals, 6)
        self.assertEqual((self.folder / "asked.txt").read_text().split("\n")[0], '{"do": "totals", "every": 6}')

    def test_names_that_are_words_of_an_answer(self) -> None:
        with self.session("version 2 link in in 0 500 out 0 0", "version 2 node left produced 0 1 left 0 2") as session:
            self.assertEqual(session.curve("in"), (2, (0, 500), (0, 0)))
            self.assertEqual(session.departures("left"), (2, (0, 1), (0, 2)))

    def test_answers_that_do_not_fit(self) -> None:
        """One number too few for a link, and parts that are not there."""
        for answer, fault in (
            ("version 0 slot 4 in out 400 queue 600 waiting 800 0", "tells of 0, and the case has 1"),
            ("version 0 slot 4 in 1 out 400 queue 600", "has not the parts in, out, queue, waiting"),
            ("version 0", "has not the parts"),
        ):
            with self.session(answer) as session, self.subTest(answer):
                self.assertRaisesRegex(Fault, fault, session.state, 4)

    def test_gap(self) -> None:
        """A gap below 0, one above, and a line that is none."""
        with self.session(
            "version 0 spent 64.900000 least 65.275000 gap -0.375000 late 4.900",
            "version 2 spent 65.275001 least 64.900000 gap 0.375001 late 0.000",
            "version 2 spent -1.000000 least 64.900000",
        ) as session:
            self.assertEqual(session.gap(), (0, 64_900_000, 65_275_000, -375_000, 4900))
            self.assertEqual(session.gap(), (2, 65_275_001, 64_900_000, 375_001, 0))
            self.assertRaisesRegex(Fault, "to gap, which is no answer to it", session.gap)

    def test_splits(self) -> None:
        with self.session("accepted version 1") as session:
            session.edit(edits.splits("n1", "n2", [(0, {"a": 1}), (3, {"a": 2, "b": 0})]))
        self.assertEqual(
            (self.folder / "case" / "asked.txt").read_text(),
            '{"do": "edit", "edits": [{"kind": "splits", "node": "n1", "destination": "n2", '
            '"rows": [[0, {"a": 1}], [3, {"a": 2, "b": 0}]]}]}\n',
        )

    def test_refusals(self) -> None:
        with self.session(
            "refused edit 2 Diagram StepTooLong 1440 7200", "refused link UnknownName", "refused command NotCommand 1"
        ) as session:
            for cause, edit in (("Diagram StepTooLong 1440 7200", 2), ("UnknownName", 0), ("NotCommand", 1)):
                with self.assertRaises(Refused) as caught:
                    session.edit(edits.horizon(9))
                self.assertEqual((caught.exception.cause, caught.exception.edit), (cause, edit))

    def test_a_session_that_ends(self) -> None:
        with self.assertRaisesRegex(Fault, "status 6: bad case links row 2 NoCapacity"):
            with self.session("bad case links row 2 NoCapacity", status=6) as session:
                session.totals()
        with self.assertRaisesRegex(Fault, f"status 3: splits.csv is not there: ./ltm {self.folder}/case routes"):
            with Session(self.case(splits=None), program=self.program("sys.exit(3)")) as session:
                session.totals()
        with self.assertRaisesRegex(Fault, "status 9: no answer"):
            with self.session(status=9) as session:
                session.totals()
        session.close()
        self.assertRaisesRegex(Fault, "ltm session 0 has ended", session.totals)

    def test_half_an_answer(self) -> None:
        """What is cut off as the program ends is no answer."""
        program = self.program('sys.stdin.readline()\nprint("settled version 1 recomputed 12", end="", flush=True)')
        with self.assertRaisesRegex(Ended, "recomputed 12"), Session(self.case(), program=program) as session:
            session.settle()

    def test_no_program(self) -> None:
        with self.assertRaisesRegex(Fault, "nowhere is no program that can be run"):
            Session(self.case(), program=self.folder / "nowhere")
        with self.assertRaisesRegex(Fault, "is no folder"):
            Session(self.folder / "nowhere", program=self.program(""))


@needs_program
class Proved(unittest.TestCase):
    def test_the_worked_session(self) -> None:
        """The session of the first example of README, by its stored output."""
        with Session(EXAMPLES / "spillback", program=BUILT) as session:
            self.assertEqual(session.edit(edits.diagram("b", 20, 36, 18, 150)), 1)
            self.assertEqual(session.settle().version, 1)
            self.assertEqual(session.totals(), (1, 7000, 6000, 1000, 0))

    def test_the_worked_gap(self) -> None:
        """That of docs/MODEL.md, of a session that shows the loading it was worked for."""
        with Session(EXAMPLES / "spillback", program=BUILT) as session:
            self.assertEqual(session.gap(), (0, 64_900_000, 64_900_000, 0, 4600))
            with self.assertRaisesRegex(Refused, "refused link UnknownName: links.csv has no link nowhere"):
                session.link("nowhere")

    def test_by_so_many_slots(self) -> None:
        """What `totals` tells by so many slots is what `curve` and `departures` tell at these boundaries, of each link
        and node, before and behind edits, and where more slots lie between two boundaries than there are."""
        for name, link in (("spillback", "b"), ("evening", None), ("merge", None)):
            case = Case.read(EXAMPLES / name)
            with Session(EXAMPLES / name, program=BUILT) as session:
                for version in (0, 1):
                    curves = {one.name: session.curve(one.name) for one in case.links}
                    origins = {one: session.departures(one) for one in case.nodes}
                    last = len(curves[case.links[0].name].entered) - 1
                    self.assertEqual(last, case.setup.slots + version)
                    for every in (1, 2, 7, last - 1, last, last + 1, 2**32 - 1):
                        told = session.totals(every=every)
                        at = [*range(every, last, every), last]
                        self.assertEqual(told[:2], (version, every))
                        self.assertEqual(
                            told.entered, {one: tuple(curve.entered[k] for k in at) for one, curve in curves.items()}
                        )
                        self.assertEqual(
                            told.left, {one: tuple(curve.left[k] for k in at) for one, curve in curves.items()}
                        )
                        self.assertEqual(
                            told.departed, {one: tuple(curve.left[k] for k in at) for one, curve in origins.items()}
                        )
                    if version == 0:
                        closed = edits.limit(link or case.links[0].name, 1, last, 0)
                        session.edit(edits.horizon(last + 1), closed)
                        session.settle()

    @needs_program
    def test_all_at_once(self) -> None:
        """The program tells what is told in the test of that name above."""
        told = [
            (json.loads(line), answer) for line, answer in json.loads((DATA / "wholes" / "spillback.json").read_text())
        ]
        with Session(EXAMPLES / "spillback", program=BUILT) as session:
            for command, answer in told:
                if command["do"] in ("edit", "settle"):
                    self.assertEqual(" ".join(session.ask(**command)), answer)
                elif answer.startswith("refused"):
                    self.assertRaisesRegex(Refused, answer, session.state, command["slot"])
                else:
                    self.assertEqual(again(session, command), answer)


if __name__ == "__main__":
    unittest.main()
