"""A scenario that is kept loads as the session shows it."""
import json
import os
import random
import subprocess
import sys
import time
import unittest
from collections import Counter
from collections.abc import Callable
from pathlib import Path
from typing import Any

import commands
from support import BUILT, EXAMPLES, TOOLS, FolderTest, needs_program
from ltm_tools import edits
from ltm_tools.case import Case, Demand, Limit, Link, Setup, Split
from ltm_tools.case.bad_case import BadCase
from ltm_tools.case.places import read_places
from ltm_tools.case.reading import check_diagram
from ltm_tools.formats import units_of
from ltm_tools.program import output
from ltm_tools.scenario.rows import EditedRows, Layers
from ltm_tools.scenario.session import Refused, Session
from ltm_tools.scenario.versions import case_after
from support_sweep import random_edit

SCRIPTS = int(os.environ.get("LTM_SCRIPTS", "100"))  # how many random scripts a program is asked about
NAMES = ("closures", "signal", "merge", "incident", "detour", "ramp_meter")


class ByHand(unittest.TestCase):
    def setUp(self) -> None:
        self.case = Case(
            Setup(1000, 10, 1000),
            [Link("a", "n1", "n2", 20, 36, 18, 150), Link("b", "n2", "n3", 20, 36, 18, 150)],
            [Demand("n1", "n3", 0, 4, 1000)],
            [Split("n1", "n3", 0, {"a": 1}), Split("n2", "n3", 0, {"b": 1}), Split("n1", "n2", 0, {"a": 1})],
        )

    def kept(self, *made: edits.Told) -> Case:
        return case_after(self.case, [made])

    def test_each_kind(self) -> None:
        made = self.kept(
            edits.horizon(12),
            edits.exit_limit("a", 10, 12, 250),
            edits.diagram("b", 30, 36, 18, 60),
            edits.demand("n1", "n3", 0, 4, 0),
            edits.split("n1", "n3", 0, {"a": 2}),
        )
        self.assertEqual((made.setup.slots, made.setup.signals), (12, True))
        self.assertEqual(made.signals, [Limit("a", 10, 12, 250)])
        self.assertEqual(made.link("b"), Link("b", "n2", "n3", 30, 36, 18, 60))
        self.assertEqual(made.standing_demand(), [])
        self.assertEqual(made.destinations, ["n3", "n2"])
        self.assertEqual(self.case.setup.slots, 10)

    def test_all_split_rows_of_a_pair(self) -> None:
        """Those that stand go, also later ones, those of other pairs stay, and one that comes behind them stands beside
        the new ones."""
        made = self.kept(
            edits.horizon(12),
            edits.split("n1", "n3", 4, {"a": 3}),
            edits.splits("n1", "n3", [(0, {"a": 5}), (7, {"a": 6})]),
            edits.split("n1", "n3", 9, {"a": 7}),
        )
        self.assertCountEqual(
            made.splits or [],
            [
                Split("n2", "n3", 0, {"b": 1}),
                Split("n1", "n2", 0, {"a": 1}),
                Split("n1", "n3", 0, {"a": 5}),
                Split("n1", "n3", 7, {"a": 6}),
                Split("n1", "n3", 9, {"a": 7}),
            ],
        )
        self.case.links.append(Link("c", "n2", "n4", 20, 36, 18, 150))
        self.case.splits = (self.case.splits or []) + [Split("n2", "n4", 0, {"c": 1})]
        made = self.kept(edits.splits("n1", "n4", [(0, {"a": 1})]))
        self.assertEqual((made.destinations, len(made.splits or [])), (["n3", "n2", "n4"], 5))

    def test_the_order_of_destinations(self) -> None:
        """n2 is a destination by its split row alone, and one that demand names later comes behind it: in demand.csv it
        would come before."""
        self.case.links.append(Link("c", "n2", "n4", 20, 36, 18, 150))
        made = self.kept(
            edits.split("n1", "n4", 0, {"a": 1}),
            edits.split("n2", "n4", 0, {"c": 1}),
            edits.demand("n1", "n4", 0, 1, 5),
        )
        self.assertEqual(made.destinations, ["n3", "n2", "n4"])
        self.assertCountEqual(made.standing_demand(), [Demand("n1", "n3", 0, 4, 1000), Demand("n1", "n4", 0, 1, 5)])

    def test_entry_limits(self) -> None:
        made = self.kept(edits.limit("a", 3, 5, 100), edits.exit_limit("b", 0, 2, 0))
        self.assertEqual(
            (made.setup.limits, made.limits, made.setup.signals, made.signals),
            (True, [Limit("a", 3, 5, 100)], True, [Limit("b", 0, 2, 0)]),
        )
        made = self.kept(edits.limit("a", 3, 5, 100), edits.limit("a", 0, 9))
        self.assertEqual((made.setup.limits, made.limits), (False, []))

    def test_limits_over_one_another(self) -> None:
        """A row of which a later one leaves nothing is not kept, and one that takes back what nobody set neither."""
        layers = Layers([])
        for row, kept in (
            (Limit("a", 2, 6, 100), 1),
            (Limit("a", 4, 8, 0), 2),
            (Limit("b", 0, 9, 32_000), 2),
            (Limit("a", 5, 6, 40_000), 3),
            (Limit("a", 4, 8, 7), 2),
            (Limit("a", 6, 9, 32_000), 3),
            (Limit("b", 2, 6, 9), 4),
            (Limit("a", 0, 9, 5), 2),
            (Limit("a", 9, 10, 32_000), 2),
            (Limit("a", 0, 10, 32_000), 1),
        ):
            layers.lay(row)
            self.assertEqual(len(layers.rows()), kept, row)

    def test_many_edits(self) -> None:
        """Of each kind as many as 640 batches have, in a time that grows as their number does: some 0.3 s of a
        processor."""
        count = 20_480
        case = Case(
            Setup(1000, 10_000, 1000),
            [Link(f"a{n}", f"n{n}", f"n{n + 1}", 20, 36, 18, 150) for n in range(1000)],
            [],
            [Split("n0", "n1", 0, {"a0": 1})],
        )
        kinds: list[Callable[[int], edits.Told]] = [
            lambda n: edits.demand("n0", "n1", n % 9999, 10_000, 1000),
            lambda n: edits.split("n0", "n1", n % 9999, {"a0": 1}),
            lambda n: edits.limit(f"a{n % 1000}", n % 9999, 10_000, 0),
            lambda n: edits.exit_limit(f"a{n % 1000}", n % 9999, 10_000, 0),
            lambda n: edits.diagram(f"a{n % 1000}", 20, 36, 18, 160),
        ]
        for kind in kinds:
            keeper, made, before = EditedRows(case), [kind(n) for n in range(count)], time.process_time()
            for edit in made:
                edits.edit_of(edit).make(keeper)
            self.assertLess(time.process_time() - before, 3)
        self.assertEqual(len(EditedRows(case).kept().demand), 0)

    def test_rows_that_are_set_again(self) -> None:
        """They stand behind the others, in place of all with their key; other rows with one key stay as they are."""
        self.case.demand = [
            Demand("n1", "n3", *span, units)
            for span, units in (((0, 4), 1), ((1, 2), 2), ((0, 4), 3), ((1, 2), 4), ((3, 4), 5))
        ]
        made = self.kept(
            edits.demand("n1", "n3", 0, 4, 6), edits.demand("n1", "n3", 3, 4, 7), edits.demand("n1", "n3", 0, 4, 8)
        )
        self.assertEqual([row.units for row in made.demand], [2, 4, 7, 8])
        made.demand[0].units = 0
        self.assertEqual(self.case.demand[1].units, 2)

    def test_limits_of_the_case(self) -> None:
        """Those that its files have stand below, and the columns stay."""
        self.case.setup.limits, self.case.setup.cells, self.case.limits = True, 7000, [Limit("a", 0, 4, 5)]
        self.assertEqual(self.kept(edits.limit("a", 2, 3, 9)).limits, [Limit("a", 0, 4, 5), Limit("a", 2, 3, 9)])
        made = self.kept(edits.limit("a", 0, 10))
        self.assertEqual((made.setup, made.limits), (Setup(1000, 10, 1000, False, True, 7000), []))


class State:
    """What a scenario is, told apart from rows and their order: numbers by name, and limits by link and slot."""

    def __init__(self, case: Case) -> None:
        self.slots, self.ends = case.setup.slots, case.destinations
        self.links = {link.name: (link.length_m, link.free_kmh, link.wave_kmh, link.jam_per_km) for link in case.links}
        self.demand = {
            (row.origin, row.destination, row.from_slot, row.to_slot): row.units for row in case.standing_demand()
        }
        self.splits = {
            (row.node, row.destination, row.from_slot): {name: weight for name, weight in row.weights.items() if weight}
            for row in case.standing_splits()
        }
        self.limits: dict[tuple[str, str, int], int] = {}
        for kind, rows in (("exit", case.signals), ("limit", case.limits)):
            for row in rows:
                self.limit(kind, row.link, row.from_slot, row.to_slot, row.units)

    def limit(self, kind: str, link: str, first: int, end: int, units: int) -> None:
        for slot in range(first, end):
            self.limits.pop((kind, link, slot), None)
            if units < 32_000:
                self.limits[kind, link, slot] = units

    def make(self, edit: dict[str, Any]) -> None:
        kind = edit["kind"]
        if kind in ("limit", "exit"):
            self.limit(kind, edit["link"], edit["from"], edit["to"], units_of(edit["vehicles"]))
        elif kind == "demand":
            key = edit["origin"], edit["destination"], edit["from"], edit["to"]
            self.demand.pop(key, None)
            if units_of(edit["vehicles"]):
                self.demand[key] = units_of(edit["vehicles"])
        elif kind == "split":
            self.splits[edit["node"], edit["destination"], edit["from"]] = {
                name: weight for name, weight in edit["weights"].items() if weight
            }
        elif kind == "splits":
            pair = edit["node"], edit["destination"]
            self.splits = {key: weights for key, weights in self.splits.items() if key[:2] != pair}
            self.splits |= {
                (*pair, slot): {name: weight for name, weight in weights.items() if weight}
                for slot, weights in edit["rows"]
            }
        elif kind == "diagram":
            self.links[edit["link"]] = edit["length_m"], edit["free_kmh"], edit["wave_kmh"], edit["jam_per_km"]
        else:
            self.slots = edit["slots"]

    def takes(self, edit: dict[str, Any], case: Case) -> bool:
        """Whether the program surely accepts the edit, which `random_edit` made for the case."""
        kind = edit["kind"]
        if kind in ("split", "splits"):
            used = {
                name
                for split in case.splits or []
                if (split.node, split.destination) == (edit["node"], edit["destination"])
                for name, weight in split.weights.items()
                if weight
            }
            rows = [weights for _, weights in edit["rows"]] if kind == "splits" else [edit["weights"]]
            return all(
                any(weights.values()) and all(name in used for name, weight in weights.items() if weight)
                for weights in rows
            )
        if kind == "diagram":
            try:
                check_diagram(
                    0,
                    Link("", "", "", *(edit[name] for name in ("length_m", "free_kmh", "wave_kmh", "jam_per_km"))),
                    case.setup.step_ms,
                )
            except BadCase:
                return False
            return True
        if kind == "horizon":
            return bool(edit["slots"] > self.slots and case.cells(edit["slots"]) <= case.setup.most_cells)
        return bool(edit["from"] < edit["to"])


def any_case(pick: random.Random) -> Case:
    """The case of an example; every other one with limits of entry and a number of cells in its files, which leaves
    room for some slots more."""
    case = Case.read(EXAMPLES / pick.choice(NAMES))
    if pick.random() < 0.5:
        case.setup.limits, case.setup.cells = True, case.cells(case.setup.slots + pick.randrange(0, 4))
        for _ in range(pick.randrange(0, 4)):
            first = pick.randrange(case.setup.slots)
            case.limits.append(
                Limit(
                    pick.choice(case.links).name,
                    first,
                    pick.randint(first + 1, case.setup.slots),
                    pick.choice((0, 500, 2000, 32_000)),
                )
            )
    return case


class Files(FolderTest):
    def test_scripts(self) -> None:
        """Of ten times as many random scripts, of all kinds of edits: the case that is kept, read from its files, is
        the scenario that they make."""
        pick, kinds = random.Random(12), dict.fromkeys(
            ("limit", "exit", "demand", "split", "splits", "diagram", "horizon"), 0
        )
        for number in range(10 * SCRIPTS):
            case = any_case(pick)
            keeper, state = EditedRows(case), State(case)
            for _ in range(pick.randint(1, 18)):
                edit = random_edit(pick, keeper.case)
                if state.takes(edit, case):
                    edits.edit_of(edit).make(keeper)
                    state.make(edit)
                    kinds[str(edit["kind"])] += 1
            keeper.kept().write(self.folder / str(number))
            kept = Case.read(self.folder / str(number), splits=True)
            self.assertEqual((vars(State(kept)), kept.setup.cells), (vars(state), case.setup.cells), number)
        self.assertGreaterEqual(min(kinds.values()), 4 * SCRIPTS, kinds)


# a session that accepts each batch
ACCEPTS = """
for number, line in enumerate(sys.stdin, 1):
    print(f"accepted version {number}", flush=True)
"""


class Places(FolderTest):
    PLACES = b'\xef\xbb\xbfname,x,y,crs,of\r\nn2,11.50,48.1,EPSG:4326,"R\xc3\xb6mer, east"\r\nn1,11.25,48,epsg:4326,'

    def kept(self, case: Path) -> list[Path]:
        """The case kept by `apply`, by `Session.save`, and by `apply` in its own folder."""
        script, program = self.folder / "script.jsonl", self.program(ACCEPTS)
        script.write_text(json.dumps({"do": "edit", "edits": [edits.exit_limit("a", 0, 1, 250)]}) + "\n")
        with Session(case, program=program) as session:
            session.edit(edits.exit_limit("a", 0, 1, 250))
            session.save(self.folder / "saved")
        for to in (self.folder / "applied", case):
            self.assertEqual(
                commands.run("apply", str(case), str(script), str(to), "--program", str(program)),
                (0, f"{to}: the case after 1 of 1 batches\n", ""),
            )
        return [self.folder / "saved", self.folder / "applied", case]

    SHAPES = b'points,link\r\n" 11.25 48 ;11.3 48.20;11.5 48.1",a\r\n'

    def test_they_are_kept_as_they_are(self) -> None:
        beside = {
            "nodes.csv": self.PLACES,
            "shapes.csv": self.SHAPES,
            "clock.txt": b"07:00",
            "source_links.csv": b"source,from,to,link\r\n1,2,3,a\n",
            "source_nodes.csv": b"source,node\n2,n1\n",
        }
        first = self.case()
        for name, data in beside.items():
            (first / name).write_bytes(data)
        for folder in self.kept(first):
            self.assertEqual({name: (folder / name).read_bytes() for name in beside}, beside)
            case = Case.read(folder)
            self.assertEqual(case.signals, [Limit("a", 0, 1, 250)])
            self.assertEqual(read_places(folder, case), read_places(self.folder / "case", case))

    def test_where_none_are_none_are_made(self) -> None:
        for folder in self.kept(self.case()):
            self.assertFalse((folder / "nodes.csv").exists() or (folder / "shapes.csv").exists())


@needs_program
class Random(FolderTest):
    def test_scripts(self) -> None:
        """Of random scripts: the totals and each link's counts of the case that a session saves are those that the
        session shows."""
        pick, limited, raised, told = random.Random(11), 0, 0, 0
        self.accepted: Counter[str] = Counter()
        for number in range(SCRIPTS):
            case, folder, to = any_case(pick), self.folder / f"case{number}", self.folder / f"kept{number}"
            case.write(folder)
            written, shown = self.one(pick, folder, to)
            self.assertEqual(written, shown, number)
            kept = Case.read(to)
            self.assertEqual(kept.setup.cells, case.setup.cells)
            limited += kept.setup.limits and not case.setup.limits
            told += bool(case.limits)
            raised += kept.setup.cells is not None and kept.setup.slots > case.setup.slots
        self.assertGreater(min(limited, told), SCRIPTS // 6)
        self.assertGreater(raised, SCRIPTS // 50)
        self.assertGreater(self.accepted["splits"], SCRIPTS // 6)

    def one(self, pick: random.Random, folder: Path, to: Path) -> tuple[list[str], list[str]]:
        """The reports of the case that a session of random edits saves, and what that session shows: totals, delay, and
        each link's counts."""
        case, keeper = Case.read(folder), EditedRows(Case.read(folder))
        with Session(folder, program=BUILT) as session:
            for _ in range(pick.randint(1, 6)):
                batch = [random_edit(pick, keeper.case) for _ in range(3)]
                try:
                    session.edit(*batch)
                except Refused:
                    continue
                for edit in batch:
                    edits.edit_of(edit).make(keeper)
                self.accepted.update(str(edit["kind"]) for edit in batch)
            session.settle()
            session.save(to)
            shown = [" ".join(session.ask(do=word)[2:]) for word in ("totals", "delay")] + [
                " ".join(session.ask(do="link", link=link.name)[2:]) for link in case.links
            ]
        lines = output(to, "load", program=BUILT).decode().splitlines()
        delay = output(to, "delay", program=BUILT).decode().splitlines()[0]
        return [*(line.removeprefix("version 0 ") for line in (lines[0], delay)), *lines[1:]], shown


@needs_program
class Command(FolderTest):
    def run_it(self, *words: str) -> "subprocess.CompletedProcess[str]":
        return subprocess.run(
            [sys.executable, str(TOOLS / "ltm-tools"), "apply", *words],
            capture_output=True,
            text=True,
            env={**os.environ, "LTM": str(BUILT)},
        )

    def test_spillback(self) -> None:
        done = self.run_it(
            str(EXAMPLES / "spillback"), str(EXAMPLES / "spillback" / "script.jsonl"), str(self.folder / "wider")
        )
        self.assertEqual((done.returncode, done.stderr), (0, ""))
        # README.md: what the session shows after the script
        self.assertEqual(
            output(self.folder / "wider", "load", program=BUILT).decode().splitlines(),
            [
                "version 0 generated 7.000 arrived 6.000 on_links 1.000 waiting 0.000",
                "link a in 7.000 out 7.000",
                "link b in 7.000 out 6.000",
            ],
        )

    def test_refused_lines(self) -> None:
        script = self.folder / "script.jsonl"
        script.write_text(
            "\n".join(
                json.dumps(line)
                for line in (
                    {"do": "edit", "edits": [edits.exit_limit("z", 0, 1, 0)]},
                    {"do": "totals"},
                    {"do": "edit", "edits": [edits.exit_limit("a", 0, 1, 0)]},
                    {"do": "edit", "edits": [edits.exit_limit("a", 0, 1, 0), edits.exit_limit("a", 2, 1, 0)]},
                    {"do": "edit", "edits": [edits.exit_limit("a", 0, 1, 0), {"kind": "exits"}]},
                )
            )
        )
        done = self.run_it(str(EXAMPLES / "spillback"), str(script), str(self.folder / "made"))
        self.assertEqual(
            (done.returncode, done.stdout), (0, f"{self.folder / 'made'}: the case after 1 of 4 batches\n")
        )
        first, second, third = done.stderr.splitlines()
        self.assertRegex(first, "^line 1 is refused, and makes nothing: edit 1: .*z.*: ")
        self.assertRegex(second, "^line 4 is refused, and makes nothing: edit 2: .*slot.*: ")
        self.assertRegex(third, "^line 5 is refused, and makes nothing: edit 2: .*kind.*: ")
        self.assertEqual(
            (self.folder / "made" / "signals.csv").read_text(), "link,from_slot,to_slot,vehicles\na,0,1,0\n"
        )
        script.write_bytes(script.read_text().encode("utf-16"))  # of which the program reads no line
        done = self.run_it(str(EXAMPLES / "spillback"), str(script), str(self.folder / "none"))
        self.assertEqual((done.returncode, done.stdout, done.stderr.count("\n")), (1, "", 1))
        self.assertIn("this is UTF-16 and not UTF-8: iconv", done.stderr)
        self.assertFalse((self.folder / "none").exists())


if __name__ == "__main__":
    unittest.main()
