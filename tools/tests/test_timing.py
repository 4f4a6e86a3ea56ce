"""Better signal plans: stages of a cycle, plans to begin with and programs for SUMO, worked by hand; and a road with
two signals, on which a green wave leaves nobody waiting at the second."""
import csv
import re
import subprocess
import unittest
from collections.abc import Callable, Mapping, Sequence
from dataclasses import replace
from fractions import Fraction
from unittest.mock import patch

import commands
from support import BUILT, FolderTest, needs, needs_program
from ltm_tools.case import Case, Limit, Link, Setup
from ltm_tools.demand.cycles import Green
from ltm_tools.errors import Fault
from ltm_tools.network.crossings.turn import Turn
from ltm_tools.network.crossings.volumes import Volumes
from ltm_tools.scenario.edits import NO_LIMIT
from ltm_tools.sumo.net import Program
from ltm_tools.timing.optimising import Wanted, searching, signalled
from ltm_tools.timing.result import phases
from ltm_tools.timing.search import Rules, Search
from ltm_tools.timing.stages import Controller, Junction, Timing, junctions_of, offsets, splits
from ltm_tools.timing.starts import by_flows, with_cycle
from ltm_tools.timing.trying import Limits, Triers, lowered

TURNS = (
    "approach,exit,link,vehicles,lanes,saturation,cycle,offset,greens,permitted,opposing,opposing_saturation,"
    "permissive,factors\n"
)
# Two signals with 30 s of green in 60; from the first to the second, by `b` and its turn, it takes 20 + 10 s. The first
# is green at 0 s, the second, as imported, while nobody comes: from 0 to 30 s.
ROAD = {
    "setup": "step_ms,slots,origin_capacity,signals\n1000,360,32,1\n",
    "links": "link,from,to,length_m,free_kmh,wave_kmh,jam_per_km\n"
    "a,o,m,100,36,18,300\nab,m,n,100,36,18,150\nb,n,p,200,36,18,300\nbc,p,q,100,36,18,150\nc,q,d,100,36,18,300\n",
    "demand": "origin,destination,from_slot,to_slot,vehicles\no,d,0,180,30\n",
    "splits": "node,destination,from_slot,weights\no,d,0,a=1\nm,d,0,ab=1\nn,d,0,b=1\np,d,0,bc=1\nq,d,0,c=1\n",
    "signals": "link,from_slot,to_slot,vehicles\n"
    + "".join(f"{link},{slot + 30},{slot + 60},0\n" for link in ("ab", "bc") for slot in range(0, 360, 60)),
    "turns": TURNS + "a,b,ab,30,1,1800,60,0,0-30,,,,,\nb,c,bc,30,1,1800,60,0,0-30,,,,,\n",
}
# Two streams that cross at m, on ways of their own.
CROSS = {
    "setup": ROAD["setup"],
    "links": "link,from,to,length_m,free_kmh,wave_kmh,jam_per_km\n"
    "a,o,m,100,36,18,300\nab,m,n,100,36,18,150\nb,n,d,100,36,18,300\n"
    "c,p,m,100,36,18,300\nce,m,q,100,36,18,150\ne,q,t,100,36,18,300\n",
    "demand": "origin,destination,from_slot,to_slot,vehicles\no,d,0,180,36\np,t,0,180,36\n",
    "splits": "node,destination,from_slot,weights\no,d,0,a=1\nm,d,0,ab=1\nn,d,0,b=1\n"
    "p,t,0,c=1\nm,t,0,ce=1\nq,t,0,e=1\n",
    "signals": "link,from_slot,to_slot,vehicles\n"
    + "".join(f"ab,{slot + 30},{slot + 60},0\nce,{slot},{slot + 30},0\n" for slot in range(0, 360, 60)),
    "turns": TURNS + "a,b,ab,36,1,1800,60,0,0-30,,,,,\nc,e,ce,36,1,1800,60,0,30-60,,,,,\n",
}


def turn(name: str, *greens: "tuple[int, int]", cycle: int = 90, offset: int = 0) -> Turn:
    """A turn of one lane with these greens, in seconds."""
    return Turn(
        approach=name,
        exit="x",
        link=name,
        lanes=Fraction(1),
        saturation=Fraction(1800),
        protected=tuple(Green(cycle * 1000, start * 1000, end * 1000, offset * 1000) for start, end in greens),
    )


def junction(*turns: Turn) -> Junction:
    """The one junction of turns."""
    [found] = junctions_of(turns, {one.approach: "n" for one in turns})
    return found


def seconds(*lengths: int) -> "tuple[int, ...]":
    return tuple(length * 1000 for length in lengths)


def spans(one: Junction, timing: Timing) -> "list[list[tuple[int, int]]]":
    """The greens of all turns by a timing, in seconds after slot 0, within the first cycle and a half."""
    return [
        [
            ((green.from_ms + green.offset_ms) // 1000, (green.to_ms + green.offset_ms) // 1000)
            for green in turn.protected
        ]
        for turn in one.turns_by(timing)
    ]


class Stages(unittest.TestCase):
    def test_a_green_over_the_end_of_the_cycle_is_one(self) -> None:
        """The first has green from 80 to 10 of the next cycle, the second from 15 to 75: intergreens of 5 s."""
        one = junction(turn("a", (0, 10), (80, 90)), turn("b", (15, 75)))
        self.assertEqual((one.shift_ms, one.timing), (10_000, Timing(10_000, seconds(5, 60, 5, 20))))
        self.assertEqual(one.has_green, (False, True, False, True))
        self.assertEqual(one.changeable(5000), [1, 3])
        self.assertEqual(spans(one, one.timing), [[(80, 100)], [(15, 75)]])

    def test_other_timings_keep_the_order(self) -> None:
        one = junction(turn("a", (0, 40)), turn("b", (45, 85)), turn("c", (0, 85)))
        self.assertEqual(one.timing.lengths, seconds(40, 5, 40, 5))
        other = one.timing.later(20_000).moved(0, 2, 10_000)
        self.assertEqual(spans(one, other), [[(20, 50)], [(55, 105)], [(20, 105)]])
        self.assertEqual(other.later(-30_000).offset_ms, 80_000)

    def test_neighbours_of_a_timing(self) -> None:
        """A quarter of 90 s is 22 whole seconds; a tenth goes either way, as long as 5 s of green are left."""
        one = junction(turn("a", (0, 12)), turn("b", (15, 85)))
        self.assertEqual([near.offset_ms for near in offsets(one.timing, 4)], [22_000, 68_000])
        stages = one.changeable(5000)
        self.assertEqual([near.lengths for near in splits(one.timing, stages, 10, 5000)], [seconds(21, 3, 61, 5)])

    def test_turns_of_other_cycles_are_apart(self) -> None:
        found = junctions_of([turn("a", (0, 10)), turn("b", (0, 10), cycle=60), turn("c", (0, 90))], {})
        self.assertEqual([one.name for one in found], ["a", "b"])

    def test_one_controller_of_two_nodes(self) -> None:
        """Its turns are of one junction, and a phase that begins while greens go on begins a stage."""
        both = [turn("a", (0, 40)), turn("b", (45, 85))]
        nodes, by = {"a": "n", "b": "m"}, Controller("S", 90_000, (0, 40_000, 45_000, 82_000))
        self.assertEqual([one.name for one in junctions_of(both, nodes)], ["n", "m"])
        [found] = junctions_of(both, nodes, {"a": by, "b": by})
        self.assertEqual((found.name, found.timing.lengths), ("S", seconds(40, 5, 37, 3, 5)))
        self.assertEqual(found.changeable(5000), [0, 2])
        with self.assertRaisesRegex(Fault, "signal S has a cycle of 60 s, and turn a of turns.csv one of 90 s"):
            junctions_of(both, nodes, {"a": Controller("S", 60_000, (0,))})


class Starts(unittest.TestCase):
    def test_greens_by_flows(self) -> None:
        """Of 80 s of green each has 5 s, and of the other 70 s three quarters go to the turn with three times as many
        vehicles: 52.5 s, which are 52 whole seconds."""
        one = junction(turn("a", (0, 40)), turn("b", (45, 85)))
        volumes = Volumes(600_000, {"a": {0: 90_000}, "b": {0: 30_000}})
        self.assertEqual(by_flows(one, volumes, 5000).lengths, seconds(57, 5, 23, 5))

    def test_another_cycle(self) -> None:
        """Intergreens stay; 5 s stay with each green, and the rest is in proportion: 35 and 35 of 70 s become 20 and
        20. The offset is at the same part of the cycle."""
        one = junction(turn("a", (0, 40), offset=30), turn("b", (45, 85), offset=30))
        made = with_cycle(one, one.timing, 60_000, 5000)
        self.assertEqual(made, Timing(20_000, seconds(25, 5, 25, 5)))
        self.assertIsNone(with_cycle(one, one.timing, 19_000, 5000))


class Reserve(unittest.TestCase):
    def test_stop_lines_that_let_less_through(self) -> None:
        """A tenth less of 500 is 450; of a road that carries 1,000 and has no limit 900, and of one of 333 units 299.7,
        rounded down. Red stays red."""
        self.assertEqual(lowered([500, 0, NO_LIMIT], 1000, Fraction(1, 10)), [450, 0, 900])
        self.assertEqual(lowered([333], 1000, Fraction(1, 10)), [299])

    def test_limits_of_a_junction(self) -> None:
        """The road of a turn carries a vehicle a second, and its stop line lets half of that through for 40 s of 90. In
        reserve is a tenth, and a twentieth more where its worth is looked at."""
        half = Green(90_000, 0, 40_000, 0, Fraction(1, 2))
        one = junction(replace(turn("a"), protected=(half,)))
        case = Case(Setup(1000, 90, 32_000), [Link("a", "m", "n", 100, 36, 18, 300), Link("b", "m", "n", 9, 9, 9, 9)])
        for reserve, less, units in ((0, 0, 500), (10, 0, 450), (10, 5, 425)):
            limits = Limits(case, [one], Volumes(600_000), Fraction(reserve, 100))
            timing = replace(one.timing, less=Fraction(less, 100))
            self.assertEqual(limits.of("n", timing)["a"], [units] * 40 + [0] * 50)
            case.signals = [Limit("a", 0, 9, 1), Limit("b", 0, 9, 2)]  # of b, which is no turn, they stay
            rows = [Limit("b", 0, 9, 2), Limit("a", 0, 40, units), Limit("a", 40, 90, 0)]
            self.assertEqual(limits.judged(case, {"n": timing}).signals, rows)


class Programs(unittest.TestCase):
    def test_phases_go_with_the_stages(self) -> None:
        """Vehicles go on yellow, so a stage is a green and its yellow, which stays as long as it is: the green has what
        changes. The program begins at 10 s after slot 0, and slot 0 at 7 s of SUMO's time."""
        program = Program("A", "0", "static", 0, ((31_000, "Gr"), (4000, "yr"), (31_000, "rG"), (4000, "ry")))
        one = junction(turn("a", (0, 35), cycle=70), turn("b", (35, 70), cycle=70))
        self.assertEqual(one.timing.lengths, seconds(35, 35))
        self.assertEqual(
            phases(one, Timing(10_000, seconds(40, 30)), program, 7000), (17_000, [36_000, 4000, 26_000, 4000])
        )

    def test_a_program_that_begins_within_a_green(self) -> None:
        """The stage of the first begins 5 s before the end of the program and lasts 20 s of it: its 15 s at the
        beginning become 25 s where it has 30 s."""
        program = Program("A", "0", "static", 0, ((15_000, "Gr"), (40_000, "rG"), (5000, "Gr")))
        one = junction(turn("a", (0, 15), (55, 60), cycle=60), turn("b", (15, 55), cycle=60))
        self.assertEqual((one.shift_ms, one.timing.lengths), (15_000, seconds(40, 20)))
        made = phases(one, Timing(15_000, seconds(30, 30)), program, 0)
        self.assertEqual(made, (50_000, [25_000, 30_000, 5000]))


Costs = Callable[[Mapping[str, Timing]], int]


class Told(Triers):
    """Sessions of a case of which only the total travel time of each plan is known."""

    def __init__(self, costs: Costs) -> None:
        self.costs, self.tries = costs, 0

    def spent(self, plans: "Sequence[Mapping[str, Timing]]") -> "list[int]":
        self.tries += len(plans)
        return [self.costs(plan) for plan in plans]


class Searching(unittest.TestCase):
    def search(self, costs: Costs, part: Fraction = Fraction(1, 20)) -> Search:
        """A search among junctions A, B and C, whose offsets are 0 at first."""
        one = junction(turn("a", (0, 40)), turn("b", (45, 85)))
        some = [replace(one, name=name) for name in "ABC"]
        plan = {other.name: other.timing for other in some}
        return Search(some, plan, costs(plan), Told(costs), Rules(Volumes(600_000), 5000, part))

    def moved(self, search: Search) -> str:
        """The junctions whose plan has changed."""
        return "".join(one.name for one in search.junctions if search.plan[one.name] != one.timing)

    def later(self, plan: "Mapping[str, Timing]", seconds: int = 22) -> "set[str]":
        """The junctions that begin so much later in a plan."""
        return {name for name, timing in plan.items() if timing.offset_ms == seconds * 1000}

    def test_those_of_most_worth_come_first(self) -> None:
        worth = {"A": 1, "B": 30, "C": 2}
        costs = lambda plan: 3000 + sum(worth[name] for name, timing in plan.items() if timing.less == Fraction(1, 20))
        self.assertEqual([one.name for one in self.search(costs).by_worth()], ["B", "C", "A"])

    def test_later_rounds_begin_where_most_was_saved(self) -> None:
        gains = {"A": 60, "B": 300, "C": 120}
        search = self.search(lambda plan: 3000 - sum(gains[name] for name in self.later(plan)))
        with patch.object(search, "near", wraps=search.near) as near:
            list(search.run(2))
        self.assertEqual([one.args[0].name for one in near.call_args_list if one.args[1] == 2], ["B", "C", "A"])

    def test_small_savings_are_no_reason(self) -> None:
        """Of 3,000 for three junctions a twentieth is 50: 50 are not enough, 51 are."""
        gains = {"A": 50, "B": 51}
        search = self.search(lambda plan: 3000 - sum(gains.get(name, 0) for name in self.later(plan)))
        [one] = search.run(1)
        self.assertEqual((one.spent, one.changed, self.moved(search)), (2949, 1, "B"))

    def test_what_saves_alone_and_not_with_another(self) -> None:
        """A and B each save, and both together nothing; so B, which comes behind, keeps its plan. C goes well with
        A."""
        costs = {"": 3000, "A": 2700, "B": 2800, "C": 2900, "AB": 3000, "AC": 2600}
        search = self.search(lambda plan: costs.get("".join(sorted(self.later(plan))), 4000))
        [one] = search.run(1)
        self.assertEqual((one.spent, one.changed, self.moved(search)), (2600, 2, "AC"))

    def test_green_by_flows_is_tried_at_first(self) -> None:
        """No step from a plan saves, but the green that fits the flows does."""
        wanted = seconds(57, 5, 23, 5)
        search = self.search(lambda plan: 3000 - 900 * (plan["B"].lengths == wanted))
        volumes = Volumes(600_000, {"a": {0: 90_000}, "b": {0: 30_000}})
        search.rules = replace(search.rules, volumes=volumes)
        [one, _] = search.run(2)
        self.assertEqual((one.spent, search.plan["B"].lengths), (2100, wanted))
        self.assertEqual(
            search.near(search.junctions[0], 2),
            [*offsets(search.plan["A"], 8), *splits(search.plan["A"], [0, 2], 20, 5000)],
        )

    def test_green_by_flows_comes_before_steps(self) -> None:
        """A step from the plan as it is would save 10 more, which is not enough to be taken in its place."""
        saves = {seconds(57, 5, 23, 5): 300, seconds(47, 5, 33, 5): 310}
        search = self.search(lambda plan: 3000 - saves.get(plan["B"].lengths, 0))
        search.rules = replace(search.rules, volumes=Volumes(600_000, {"a": {0: 90_000}, "b": {0: 30_000}}))
        [one] = search.run(1)
        self.assertEqual((one.spent, one.changed, search.plan["B"].lengths), (2700, 1, seconds(57, 5, 23, 5)))


def interrupted(*_: object) -> "dict[str, int]":
    """What is called when Ctrl-C is pressed."""
    raise KeyboardInterrupt


def reds(case: Case) -> "set[tuple[str, int]]":
    """The links of a case at which nobody may leave in a slot, with the slot."""
    rows = [limit for limit in case.signals if not limit.units]
    return {(row.link, slot) for row in rows for slot in range(row.from_slot, row.to_slot)}


@needs_program
class ARoad(FolderTest):
    def optimise(self, *words: str) -> "tuple[int, str, str]":
        case = self.case(**ROAD)
        out = str(self.folder / "out")
        return commands.run("signals", str(case), "--optimise", "-o", out, "--program", str(BUILT), *words)

    def queued(self, folder: str) -> "dict[str, str]":
        out = commands.run("queues", folder, "--program", str(BUILT), "--least", "0.001", "--format", "csv")[1]
        return {row["name"]: row["delay"] for row in csv.DictReader(out.splitlines())}

    def test_a_green_wave(self) -> None:
        """Who leaves the first signal while it is green comes to the second 30 s later, while it is green."""
        status, out, err = self.optimise("--wave", "a", "b", "c", "--rounds", "0")
        self.assertEqual((status, err), (0, ""))
        with open(self.folder / "out" / "cycles.csv", encoding="utf-8") as file:
            rows = [tuple(row.values()) for row in csv.DictReader(file)]
        self.assertEqual(rows, [("ab", "60", "0", "30", "0"), ("bc", "60", "0", "30", "30")])
        before, after = self.queued(str(self.folder / "case")), self.queued(str(self.folder / "out"))
        self.assertGreater(float(before["bc"]), 0)
        self.assertNotIn("bc", after)
        self.assertEqual(after["ab"], before["ab"])

    def test_what_is_held_in_reserve(self) -> None:
        """Vehicles come to the stop line from 20 to 200 s, 0.2 a second. Of the 6 that stand there after 30 s of red
        the last has left 20 s later where 0.5 a second pass, and 30 s later where a fifth less do: 150 and 180 vehicle
        seconds. After the third red, at 180 s, it is 150 again, or 90, 80 until nobody comes any more, and 5 for the
        last 2."""
        links = ROAD["links"].splitlines(keepends=True)
        road = {
            **ROAD,
            "links": "".join(line for line in links if line[:2] not in ("bc", "c,")).replace("b,n,p,", "b,n,d,"),
            "demand": "origin,destination,from_slot,to_slot,vehicles\no,d,0,180,36\n",
            "splits": "node,destination,from_slot,weights\no,d,0,a=1\nm,d,0,ab=1\nn,d,0,b=1\n",
            "turns": "".join(ROAD["turns"].splitlines(keepends=True)[:2]),
            "signals": "".join(line for line in ROAD["signals"].splitlines(keepends=True) if line[:2] != "bc"),
        }
        found = signalled(str(self.case(**road)), BUILT)
        spent = []
        for reserve in (Fraction(0), Fraction(1, 5)):
            with searching(found, Wanted(reserve=reserve), BUILT, 1) as (search, judged):
                self.assertEqual(search.spent, judged)
                spent.append(judged)
        self.assertEqual(spent[0], found.spent)
        self.assertEqual(spent[1] - spent[0], (180 + 180 + 175 - 3 * 150) * 1000 * 1000)

    def test_rounds_only_gain(self) -> None:
        """Each round tells what is left, never more than the one before; what is told last is what the case takes that
        was written, and the plan of the second signal alone may change."""
        status, out, err = self.optimise("--rounds", "3", "--keep", "m", "--sessions", "2", "--reserve", "50")
        self.assertEqual((status, err), (0, ""))
        lines = out.splitlines()
        left = [float(line.split()[2]) for line in lines if line.startswith("round ")]
        self.assertEqual(left, sorted(left, reverse=True))
        self.assertEqual(len(left), 3)
        told = subprocess.run([str(BUILT), "delay"], cwd=self.folder / "out", capture_output=True, text=True).stdout
        spent = float(told.split()[3]) / 3600
        self.assertEqual(lines[-1].split(" vehicle hours")[0], f"{spent:.2f}")
        self.assertGreater(left[-1], spent + 0.01)
        self.assertIn("ab,60,0,30,0\n", (self.folder / "out" / "cycles.csv").read_text())

    def test_a_common_cycle(self) -> None:
        """Where two streams have half of the cycle each, reds of 15 s keep vehicles half as long as those of 30 s. In 9
        s there is no room for two greens of 5 s, and 300 s are worse."""
        case = self.case(**CROSS)
        words = ("--optimise", "-o", str(self.folder / "out"), "--program", str(BUILT), "--rounds", "0")
        status, out, err = commands.run("signals", str(case), *words, "--cycle", "9", "300", "30")
        self.assertEqual((status, err), (0, ""))
        with open(self.folder / "out" / "cycles.csv", encoding="utf-8") as file:
            rows = [tuple(row.values()) for row in csv.DictReader(file)]
        self.assertEqual(rows, [("ab", "30", "0", "15", "0"), ("ce", "30", "15", "30", "0")])

    def test_an_interrupt_keeps_the_best(self) -> None:
        """What the first round has found is written whole, though the second one ends in the middle."""
        first = self.optimise("--rounds", "1")[1].splitlines()
        wanted, improve = (self.folder / "out" / "cycles.csv").read_text(), Search.improve
        with patch.object(Search, "improve", autospec=True) as tried:
            calls = iter((improve, improve))  # with green times by the flows, and with steps
            tried.side_effect = lambda *words: next(calls, interrupted)(*words)
            status, out, err = self.optimise("--rounds", "3")
        self.assertEqual((status, err), (0, ""))
        self.assertEqual([line for line in out.splitlines() if not line.startswith("stopped")], first)
        self.assertIn("\nstopped: the best so far is kept\n", out)
        self.assertEqual((self.folder / "out" / "cycles.csv").read_text(), wanted)

    def test_the_table_of_plans(self) -> None:
        """`signals --cycles` makes the same limits of it; and any number of sessions finds the same."""
        self.assertEqual(self.optimise("--sessions", "1")[0], 0)
        out, made = self.folder / "out", self.folder / "made"
        files = {path.name: path.read_bytes() for path in out.iterdir()}
        self.assertNotEqual(files["signals.csv"], (self.folder / "case" / "signals.csv").read_bytes())
        self.case(**ROAD).rename(made)
        self.assertEqual(commands.run("signals", str(made), "--cycles", str(out / "cycles.csv"))[0], 0)
        self.assertEqual(reds(Case.read(made)), reds(Case.read(out)))
        self.assertEqual(self.optimise("--sessions", "3")[0], 0)
        self.assertEqual({path.name: path.read_bytes() for path in out.iterdir()}, files)

    def test_what_is_refused(self) -> None:
        case = str(self.case(**ROAD))
        for words, told in (
            ((), "-o OUT names the folder"),
            (("-o", str(self.folder / "out"), "--keep", "x"), "no junction with signals is called x"),
            (("-o", str(self.folder / "out"), "--wave", "x", "y"), "y, on the path of a green wave, is no link"),
            (("-o", str(self.folder / "out"), "--sessions", "0"), "0 is no number of sessions"),
            (("-o", str(self.folder / "out"), "--reserve", "51"), "51 is no reserve in per cent, from 0 to 50"),
        ):
            status, _, err = commands.run("signals", case, "--optimise", "--program", str(BUILT), *words)
            self.assertEqual((status, err.count("\n")), (1, 1))
            self.assertIn(told, err)


VEHICLES = """<routes><vType id="car" sigma="0" speedDev="0"/>
<flow id="a" type="car" begin="0" end="900" vehsPerHour="1000"><route edges="left0A0 A0right0"/></flow>
<flow id="b" type="car" begin="0" end="900" vehsPerHour="200"><route edges="top0A0 A0bottom0"/></flow></routes>
"""
CROSSING = (
    "netgenerate --grid --grid.number 1 --grid.attach-length 200 --default.lanenumber 1 --no-turnarounds"
    " --default-junction-type traffic_light -o x.net.xml"
)


@needs("sumo")
@needs_program
class InSumo(FolderTest):
    def shell(self, *words: str) -> str:
        return subprocess.run(words, cwd=self.folder, check=True, capture_output=True, text=True).stdout

    def duration(self, *words: str) -> float:
        """The mean duration of a trip in SUMO's mesoscopic run, in seconds."""
        run = ("sumo", "-n", "x.net.xml", "-r", "x.rou.xml", "--mesosim", "--meso-junction-control", "--no-step-log")
        found = re.search(
            r"^ Duration: ([0-9.]+)$", self.shell(*run, "--duration-log.statistics", *words), re.MULTILINE
        )
        assert found is not None
        return float(found[1])

    def test_the_plan_saves_there_too(self) -> None:
        """1,000 vehicles an hour have half of the cycle, and 200 the other: more than pass, and the queue of the first
        grows for a quarter of an hour. With a fitting share of the cycle nobody waits longer than a red."""
        self.shell(*CROSSING.split())
        (self.folder / "x.rou.xml").write_text(VEHICLES)
        net, routes, case, out = (str(self.folder / name) for name in ("x.net.xml", "x.rou.xml", "case", "out"))
        self.assertEqual(commands.run("from-sumo", net, routes, case, "--fit", "2s", "--horizon", "30")[0], 0)
        words = ("--optimise", "-o", out, "--rounds", "1", "--sumo", net, "--program", str(BUILT))
        self.assertEqual(commands.run("signals", case, *words)[0], 0)
        before, after = self.duration(), self.duration("-a", "out/programs.add.xml")
        self.assertGreater(before, 60)
        self.assertLess(after, 40)


if __name__ == "__main__":
    unittest.main()
