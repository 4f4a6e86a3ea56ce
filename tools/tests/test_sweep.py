"""Many scenarios: each row is what a session of its own tells, in the order of the file, whatever ran where."""
import csv
import io
import json
import unittest
from contextlib import redirect_stderr
from pathlib import Path
from unittest import mock

import commands
from support import BUILT, EXAMPLES, FolderTest, needs_program
from support_sweep import random_scenarios
from ltm_tools import edits
from ltm_tools.case import Case, Demand, Limit, Link, Setup, Split
from ltm_tools.commands.sweep import Progress
from ltm_tools.errors import Fault
from ltm_tools.formats import MOST_DEMAND_ROWS, MOST_LINE_BYTES
from ltm_tools.scenario.back import taken_back
from ltm_tools.scenario.batches import in_batches
from ltm_tools.scenario.edits import edit_of, told_of
from ltm_tools.scenario.rows import OwnRows
from ltm_tools.scenario.session import Refused, Session, command_line
from ltm_tools.sweep.scenarios import Runner, SweepScenario, are_many, read_scenarios, scenario_of


MANY = "closures"


class Lines(unittest.TestCase):
    def test_scenarios(self) -> None:
        self.assertEqual(
            scenario_of('{"edits": [{"kind": "horizon", "slots": 9}]}', 4, "x"),
            SweepScenario(4, "", [[{"kind": "horizon", "slots": 9}]]),
        )
        self.assertEqual(scenario_of('{"name": "a", "batches": []}', 1, "x"), SweepScenario(1, "a", []))
        for line in (
            "",
            "3",
            "{",
            '{"name": "a"}',
            '{"edits": []}',
            '{"edits": [], "batches": []}',
            '{"batches": [[3]]}',
            '{"batches": 3}',
            json.dumps({"edits": [{}] * 33}),
        ):
            self.assertRaises(Fault, scenario_of, line, 1, "x")
        for told, fault in (
            ({"name": "\ud800", "edits": [{}]}, r'x: the name "\\ud800" is no text'),
            ({"edits": [{"link": "a" * 65_536}]}, "x: a line of 65575 bytes is too long"),
        ):
            self.assertRaisesRegex(Fault, fault, scenario_of, json.dumps(told), 1, "x")
        self.assertEqual([len(batch) for batch in in_batches([edits.Horizon(9)] * 70)], [32, 32, 6])


class Back(unittest.TestCase):
    case = Case(
        Setup(1000, 10, 1000),
        [Link("a", "n1", "n2", 20, 36, 18, 150)],
        [Demand("n1", "n2", 0, 4, 1000)],
        [Split("n1", "n2", 0, {"a": 1})],
        [Limit("a", 2, 5, 250), Limit("a", 4, 6, 100)],
    )

    def back(self, made: list[edits.Told], case: Case | None = None) -> list[edits.Told] | None:
        found = taken_back([edit_of(edit) for edit in made], OwnRows(case or self.case))
        return None if found is None else [told_of(edit) for edit in found]

    def test_limits(self) -> None:
        back = self.back
        self.assertEqual(
            back([edits.exit_limit("a", 1, 8, 0)]),
            [
                edits.exit_limit("a", 1, 2),
                edits.exit_limit("a", 2, 4, 250),
                edits.exit_limit("a", 4, 6, 100),
                edits.exit_limit("a", 6, 8),
            ],
        )
        self.assertEqual(back([edits.limit("a", 3, 4, 0)]), [edits.limit("a", 3, 4, 32_000)])

    def test_rows(self) -> None:
        back = self.back
        made = [
            edits.demand("n1", "n2", 0, 4, 7),
            edits.demand("n1", "n2", 1, 2, 7),
            edits.diagram("a", 9, 9, 9, 9),
            edits.split("n1", "n2", 0, {"a": 2}),
        ]
        self.assertEqual(
            back(made),
            [
                edits.demand("n1", "n2", 1, 2, 0),
                edits.diagram("a", 20, 36, 18, 150),
                edits.split("n1", "n2", 0, {"a": 1}),
                edits.demand("n1", "n2", 0, 4, 1000),
            ],
        )

    def test_split_rows_that_the_case_does_not_have(self) -> None:
        """All rows of the node for the destination are set again, whatever was made of them."""
        case = Case(
            self.case.setup,
            self.case.links,
            self.case.demand,
            [Split("n1", "n2", 4, {"a": 3}), Split("n1", "n2", 0, {"a": 1})],
        )
        again = edits.splits("n1", "n2", [(0, {"a": 1}), (4, {"a": 3})])
        self.assertEqual(self.back([edits.split("n1", "n2", 3, {"a": 1})], case), [again])
        self.assertEqual(
            self.back([edits.splits("n1", "n2", [(0, {"a": 9})]), edits.split("n1", "n2", 5, {"a": 1})], case), [again]
        )
        self.assertEqual(
            self.back([edits.splits("n1", "n2", [(0, {"a": 9})]), edits.split("n1", "n2", 4, {"a": 1})], case),
            [again, edits.split("n1", "n2", 4, {"a": 3})],
        )

    def test_what_has_no_way_back(self) -> None:
        back = self.back
        for edit in (edits.horizon(11), edits.splits("n2", "n1", [(0, {"a": 1})]), edits.demand("n1", "n3", 0, 1, 1)):
            self.assertIsNone(back([edit]))

    def test_batches_that_a_line_takes(self) -> None:
        """Edits of many rows stand in as many batches as lines take, and one that is too long for a line in one of its
        own."""
        rows = [(slot, {"a": 1}) for slot in range(1000)]  # some 16 KB
        long = [edits.Splits("n1", "n2", tuple(rows * times)) for times in (1, 1, 1, 3, 9, 1)]
        self.assertEqual(
            [[len(edit.rows) // 1000 for edit in batch] for batch in in_batches(long)], [[1, 1, 1], [3], [9], [1]]
        )
        for batch in list(in_batches(long))[:2]:
            told = [edit.told() for edit in batch]
            self.assertLessEqual(len(command_line({"do": "edit", "edits": told})), MOST_LINE_BYTES)


# a session that accepts each edit but those of a link z, and tells of the delay how many edits it has accepted
SESSION = """
import json
made = 0
for line in sys.stdin:
    told = json.loads(line)
    if told["do"] == "edit":
        bad = any(edit.get("link") == "z" for edit in told["edits"])
        made += 0 if bad else len(told["edits"])
        print("refused edit 1 UnknownName" if bad else f"accepted version {{made}}", flush=True)
    elif told["do"] not in {asked!r}:
        print("refused command NotCommand 0", flush=True)
    else:
        print({{"settle": f"settled version {{made}} recomputed 0",
               "totals": f"version {{made}} generated 1.000 arrived 0.750 on_links 0.250 waiting 0.000",
               "delay": f"version {{made}} spent {{made}}.500000 queued 0.000001 waited 4.000000",
               "link": f"version {{made}} link a in 1.000 out 0.500"}}[told["do"]], flush=True)
"""


class WithDelay(FolderTest):
    def sweep(self, *asked: str) -> tuple[int, str, str]:
        scenarios = self.folder / "scenarios.jsonl"
        scenarios.write_text("".join(json.dumps({"edits": [edits.limit(link, 0, 1, 0)]}) + "\n" for link in ("a", "z")))
        return commands.run(
            "sweep",
            str(self.case()),
            str(scenarios),
            "--delay",
            "--links",
            "a",
            "--sessions",
            "1",
            "--program",
            str(self.program(SESSION.format(asked=("settle", "totals", "link", *asked)))),
        )

    def test_delay(self) -> None:
        header = "line,name,status,generated,arrived,on_links,waiting,not_there,spent,queued,waited,in:a,out:a\n"
        one = "1,,ok,1.000,0.750,0.250,0.000,0.250,1.500000,0.000001,4.000000,1.000,0.500\n"
        other = "2,,batch 1 refused edit 1 UnknownName: links.csv has no link z,,,,,,,,,,\n"
        self.assertEqual(self.sweep("delay"), (0, header + one + other, ""))

    def test_a_program_that_tells_none(self) -> None:
        status, out, err = self.sweep()
        self.assertEqual((status, out), (1, ""))
        self.assertEqual(
            err, "ltm-tools sweep: the sessions of this program do not report delay: refused command NotCommand 0\n"
        )


@needs_program
class Here(FolderTest):
    def sweep(self, *words: str) -> list[list[str]]:
        status, out, err = commands.run("sweep", *words, "--program", str(BUILT))
        self.assertEqual(status, 0, err)
        return list(csv.reader(io.StringIO(out)))

    def test_each_row_is_that_of_a_session_of_its_own(self) -> None:
        for name in ("closures", "signal", "merge", "incident"):
            case = Case.read(EXAMPLES / name)
            path = random_scenarios(self.folder / "scenarios.jsonl", 60, case)
            rows = self.sweep(str(EXAMPLES / name), str(path), "--links", case.links[0].name, "--sessions", "2")
            self.assertEqual(rows[0][-2:], [f"in:{case.links[0].name}", f"out:{case.links[0].name}"])
            for row, scenario in zip(rows[1:], read_scenarios(path), strict=True):
                self.assertEqual(row, self.alone(EXAMPLES / name, case.links[0].name, scenario))

    def test_all_links_by_one_line(self) -> None:
        """A line that tells of all links has the numbers of a line for each, where the horizon is another too."""
        for name in ("closures", "merge"):
            case = Case.read(EXAMPLES / name)
            path, found = random_scenarios(self.folder / "scenarios.jsonl", 40, case, 3), []
            for many in (False, True):
                with mock.patch("ltm_tools.sweep.scenarios.are_many", return_value=many):
                    found.append(
                        self.sweep(
                            str(EXAMPLES / name),
                            str(path),
                            "--sessions",
                            "1",
                            *(f"--links={link.name}" for link in case.links),
                        )
                    )
            self.assertEqual(*found)
            self.assertGreater(sum(row[2] == "ok" for row in found[0]), 10)
        self.assertEqual(
            [are_many(*counts) for counts in ((10, 10), (11, 109), (11, 110), (2000, 2000))], [False, True, False, True]
        )

    def alone(self, folder: Path, link: str, scenario: SweepScenario) -> list[str]:
        front = [str(scenario.number), scenario.name]
        with Session(folder, program=BUILT) as session:
            for number, batch in enumerate(scenario.batches, 1):
                try:
                    session.edit(*batch)
                except Refused as refused:
                    return [*front, f"batch {number} {refused}", *[""] * 7]
            session.settle()
            totals = session.totals()
            told = (*totals[1:], totals.generated - totals.arrived, *session.link(link)[1:])
            return [*front, "ok", *(f"{units // 1000}.{units % 1000:03}" for units in told)]

    def test_sessions_are_kept_open(self) -> None:
        runner = Runner(EXAMPLES / MANY, BUILT)
        for k in range(20):
            runner.run(
                SweepScenario(
                    k, "", [[edits.limit("north_east", k, k + 30, 0), edits.exit_limit("centre_east", 3, 60, 100)]]
                )
            )
        self.assertEqual(runner.open.opened, 1)
        runner.run(SweepScenario(21, "", [[edits.horizon(121)]]))
        last = runner.run(SweepScenario(22, "", []))
        # examples/closures
        self.assertEqual((runner.open.opened, last[3:]), (2, ["800.000", "735.196", "64.804", "0.000", "64.804"]))
        runner.close()

    def test_split_rows_are_taken_back(self) -> None:
        """A split row that the case does not have, and fewer of them, are taken back in the open session; rows that no
        line takes open it anew."""
        case = Case(
            Setup(1000, 10_000, 1000),
            [
                Link("a", "n1", "n2", 20, 36, 18, 150),
                Link("b", "n1", "n3", 20, 36, 18, 150),
                Link("c", "n3", "n2", 20, 36, 18, 150),
            ],
            [Demand("n1", "n2", 0, 4, 2000)],
            [Split("n1", "n2", 0, {"a": 1}), Split("n3", "n2", 0, {"c": 1})],
        )
        many = [Split("n1", "n2", slot, {"a": 1, "b": slot % 2}) for slot in range(1, 4000)]
        for splits, opened in ((case.splits, 1), ([*(case.splits or []), *many], 2)):
            case.splits = splits
            case.write(self.folder / str(opened))
            runner = Runner(self.folder / str(opened), BUILT, ["b"])
            told = [
                runner.run(SweepScenario(0, "", [[edit]] if edit else []))[-2:]
                for edit in (
                    None,
                    edits.split("n1", "n2", 1, {"b": 1}),
                    edits.splits("n1", "n2", [(0, {"b": 1})]),
                    None,
                )
            ]
            runner.close()
            self.assertEqual((runner.open.opened, told[0] == told[3], told[2][0]), (opened, True, "2.000"))
            self.assertNotIn(told[1], (told[0], told[2]))

    def test_a_bar(self) -> None:
        """It is drawn when a fifth of a second has gone by since the last time, and at the end."""
        moments = [100, 101, 101.1, 101.3, 101.4]  # it begins, and then of 4 scenarios each is done
        with mock.patch("time.monotonic", side_effect=moments), redirect_stderr(io.StringIO()) as told:
            bar = Progress(4, True)
            for _ in range(4):
                bar.add(1)
        self.assertEqual(
            [part.split("]")[1][:7] for part in told.getvalue().split("\r")[1:]], [" 1 of 4", " 3 of 4", " 4 of 4"]
        )

    def test_many_lines(self) -> None:
        """A session takes 100,000 lines, and is opened anew before."""
        with mock.patch.object(Runner, "MOST_LINES", 20):
            runner = Runner(EXAMPLES / "signal", BUILT)
        rows = [runner.run(SweepScenario(k, "", [[edits.exit_limit("a", 0, 4, 100)]])) for k in range(30)]
        runner.close()
        self.assertGreater(runner.open.opened, 3)
        self.assertEqual(len({tuple(row[1:]) for row in rows}), 1)

    def test_the_most_rows_of_demand(self) -> None:
        """A scenario that takes a row out and sets another: what it did is taken back with never a row too many."""
        spans = [(first, end) for first in range(150) for end in range(first + 1, 151)]
        rows = [Demand("n1", "n2", *span, 1) for span in spans[:MOST_DEMAND_ROWS]]
        Case(
            Setup(1000, 150, 1000), [Link("a", "n1", "n2", 20, 36, 18, 150)], rows, [Split("n1", "n2", 0, {"a": 1})]
        ).write(self.folder / "full")
        gone = [edits.demand("n1", "n2", *spans[number], 0) for number in (0, 7)]
        fresh = [edits.demand("n1", "n2", *span, 5) for span in spans[MOST_DEMAND_ROWS : MOST_DEMAND_ROWS + 2]]
        told = [{"batches": [[*gone, *fresh]]}, {"edits": [fresh[0]]}, {"batches": []}]
        (self.folder / "scenarios.jsonl").write_text("".join(json.dumps(one) + "\n" for one in told))
        rows_told = self.sweep(str(self.folder / "full"), str(self.folder / "scenarios.jsonl"), "--sessions", "1")
        self.assertEqual(
            [(row[2].split(":")[0], row[3]) for row in rows_told[1:]],
            [("ok", "10.008"), ("batch 1 refused edit 1 TooManyRows", ""), ("ok", "10.000")],
        )
        runner = Runner(self.folder / "full", BUILT)
        for scenario in read_scenarios(self.folder / "scenarios.jsonl"):
            runner.run(scenario)
        runner.close()
        self.assertEqual(runner.open.opened, 1)

    def test_hours_that_are_not_to_be_compared(self) -> None:
        """In examples/closures six of the closures leave over 0.1 % of the 800 vehicles more on their way than the open
        road."""
        case = EXAMPLES / "closures"
        status, out, err = commands.run(
            "sweep", str(case), str(case / "scenarios.jsonl"), "--delay", "--program", str(BUILT)
        )
        self.assertEqual(
            (status, err),
            (
                0,
                "ltm-tools sweep: the hours of 6 of 8 scenarios cannot be compared with those of the case as it is, in"
                " which 64.804 vehicles have not arrived by the end: in each over 0.1 % of the vehicles more or fewer"
                " have not (not_there); take a longer horizon\n",
            ),
        )
        self.assertEqual(
            [row["not_there"] for row in csv.DictReader(io.StringIO(out))],
            ["64.804", "188.767", "188.767", "175.248", "175.248", "99.249", "99.249", "64.804"],
        )
        self.assertEqual(
            commands.run("sweep", str(case), str(case / "scenarios.jsonl"), "--program", str(BUILT))[2], ""
        )


if __name__ == "__main__":
    unittest.main()
