"""Assignments worked by hand (Wardrop's first principle, Braess's network), link times as the program tells them, and
the command."""
import csv
import importlib
import multiprocessing
import subprocess
import sys
import unittest
from itertools import islice
from pathlib import Path
from unittest.mock import patch

import commands
from support import BUILT, EXAMPLES, FolderTest, needs_numpy, needs_program
from support_assign import LINKS, SIGNALS, TWO
from ltm_tools import libraries
from ltm_tools.case import Case
from ltm_tools.errors import Fault
from ltm_tools.scenario.session import Session

if not libraries.missing(("numpy",)):
    import numpy

    from ltm_tools.assign.assigning import Assignment, AssignOptions
    from ltm_tools.assign.crew import Crew, serve
    from ltm_tools.assign.settling import Settling
    from ltm_tools.assign.exits import Gates, exit_moments, leaving
    from ltm_tools.assign.gaps import Gap
    from ltm_tools.assign.growing import Grown
    from ltm_tools.assign.leading import circling, leading_on
    from ltm_tools.assign.looking import Look
    from ltm_tools.assign.net import Net
    from ltm_tools.assign.result import read_iterations
    from ltm_tools.assign.shares import check_ways

NO_FOLDER = "a file stands there; expected a folder"
# the same with `slow` as a turn that yields to `fast` for the whole of each cycle
TURNS = (
    "approach,exit,link,vehicles,lanes,saturation,cycle,offset,greens,permitted,opposing,opposing_saturation,"
    "permissive,factors\nw,e,slow,0,1,1800,60,0,,0-60,fast,1800,4.5 2.2 1,1\n"
)
# `ou` and `vd` take 40 s and let half a vehicle a second through, `ov` and `ud` 120 s, the bridge `uv` 40 s. Without it
# half go each way, and all take 160 s. With it all take `ou`, `uv`, `vd` for 40 s, until `ou` costs 40 s more; then
# half take `ov`, so that 80 s later the queue of `vd` grows to 40 s, and from then on nobody takes the bridge: all
# take 200 s.
BRAESS = {
    "setup": "step_ms,slots,origin_capacity,signals\n1000,500,32,1\n",
    "links": LINKS + "ou,o,u,400,36,18,300\nov,o,v,1200,36,18,300\nud,u,d,1200,36,18,300\nvd,v,d,400,36,18,300\n"
    "uv,u,v,400,36,18,300\n",
    "demand": "origin,destination,from_slot,to_slot,vehicles\no,d,0,160,160\n",
    "splits": "node,destination,from_slot,weights\no,d,0,ou=1 ov=1\nu,d,0,ud=1\nv,d,0,vd=1\n",
    "signals": SIGNALS + "ou,0,500,0.5\nvd,0,500,0.5\n",
}


# 40 vehicles take 100 s by `direct`, and 40 s by `ou` and `fast`. Nobody passes `u`, where a row leads to `slow`.
HIDDEN = {
    "setup": "step_ms,slots,origin_capacity\n1000,400,32\n",
    "links": LINKS
    + "direct,o,d,1000,36,18,300\nou,o,u,200,36,18,300\nfast,u,d,200,36,18,300\nslow,u,d,2000,36,18,300\n",
    "demand": "origin,destination,from_slot,to_slot,vehicles\no,d,0,40,40\n",
    "splits": "node,destination,from_slot,weights\no,d,0,direct=1\nu,d,0,slow=1\n",
}


class Hand(FolderTest):
    """A test that assigns a case worked by hand."""

    def found(self, files: "dict[str, str]", **options: object) -> "Assignment":
        made = Assignment(Case.read(self.case(**files)), AssignOptions(**options))  # type: ignore[arg-type]
        self.seconds = [one.look.spent / 10**6 for one in made.run(BUILT)]
        return made

    def weights(self, made: "Assignment", node: str, periods: int) -> "list[dict[str, int]]":
        """The weights at a node in the first periods."""
        links = [link for link in range(len(made.net.names)) if made.net.links[link].tail == node]
        return [
            {made.net.names[link]: int(made.best[period, link, 0]) for link in links if made.best[period, link, 0]}
            for period in range(periods)
        ]


@needs_numpy
@needs_program
class ByHand(Hand):
    def test_two_routes(self) -> None:
        """Times are equal once both are used, and the shares those worked by hand to the thousandth: 60 vehicles take
        40 s and 30 in the queue, 120 take 100 s."""
        made = self.found(TWO, period_ms=60_000, iterations=8, size=2.0)
        self.assertEqual(self.weights(made, "o", 3), [{"fast": 1000}, *2 * [{"fast": 500, "slow": 500}]])
        assert made.best_one is not None
        self.assertEqual(made.best_one.look.spent, 16_200_000_000)
        self.assertLess(made.best_one.look.regret, 1000)  # a thousandth of a vehicle second
        made.best_case().write(self.folder / "made")
        with Session(self.folder / "made", program=BUILT) as session:
            self.assertEqual(
                [session.time("fast", slot).ms for slot in (0, 30, 60, 61, 120, 179)], [40_000, 70_000, *4 * [100_000]]
            )

    def test_names_that_are_words_of_an_answer(self) -> None:
        """The same where the fast way is called as the word between the two curves of an answer."""
        made = self.found(
            {name: text.replace("fast", "out") for name, text in TWO.items()}, period_ms=60_000, iterations=8, size=2.0
        )
        self.assertEqual(self.weights(made, "o", 3), [{"out": 1000}, *2 * [{"out": 500, "slow": 500}]])

    def test_braess(self) -> None:
        """The bridge makes all but the first slower: 40 vehicles take 140 s in the mean, 40 take 180, 80 take 200."""
        made = self.found(BRAESS, period_ms=40_000, iterations=20, size=2.0)
        for weights, ou in zip(self.weights(made, "o", 4), (1000, 500, 500, 500)):
            self.assertAlmostEqual(weights["ou"], ou, delta=30)
        for weights, uv in zip(self.weights(made, "u", 6), (1000, 1000, 1000, 1000, 0, 0)):
            self.assertAlmostEqual(weights.get("uv", 0), uv, delta=100)
        self.assertEqual(self.seconds[0], 160 * 160)
        assert made.best_one is not None
        self.assertAlmostEqual(made.best_one.look.spent / 10**6, 28_800, delta=60)
        self.assertLess(made.best_one.look.per_cent, 0.1)

    def test_no_queues(self) -> None:
        """Where nobody queues, free-flow routes are the answer, and no share changes."""
        made = self.found({**TWO, "signals": SIGNALS, "splits": TWO["splits"].replace("slow", "fast")}, until=-1.0)
        self.assertEqual(
            (len(self.seconds), self.seconds[0], made.best_one.look.regret),  # type: ignore[union-attr]
            (1, 180 * 40, 0.0),
        )

    def test_where_nothing_flows(self) -> None:
        """A row that nobody follows hides no way: at first all lose 60 of 100 s, and the next step ends that."""
        made = self.found(HIDDEN, iterations=3)
        self.assertEqual(self.seconds, [4000, 1600])
        self.assertEqual([round(one.look.per_cent, 9) for one in made.run(BUILT)][-1:], [0.0])
        first = next(Assignment(Case.read(self.folder / "case"), AssignOptions()).run(BUILT))
        self.assertEqual((round(first.look.per_cent, 9), first.exact), (60.0, 60.0))

    def test_where_nothing_flows_and_little_is_lost(self) -> None:
        """The best link of a node that nobody passes has all of its shares before anybody comes: 15 s more by `slow`
        are too few for a step that would take all from it by what is lost."""
        self.found({**HIDDEN, "links": HIDDEN["links"].replace("2000", "350")}, iterations=1)
        self.assertEqual(self.seconds, [4000, 1600])

    def test_a_step_of_nothing(self) -> None:
        """Behind a step into a gridlock one of next to no size from the best shares gives the best hours again."""
        case = {**TWO, "setup": TWO["setup"].replace("400", "800"), "signals": SIGNALS + "fast,0,800,0.25\n"}
        made = Assignment(Case.read(self.case(**case)), AssignOptions(period_ms=60_000, size=20.0))
        first, second = islice(made.run(BUILT), 2)
        self.assertGreater(second.look.spent, first.look.spent)
        made.crew.back("best")
        for gently in (False, True):
            assert made.kept.traffic is not None
            made.crew.step(made.rule.step, made.kept.traffic, 1e-6, gently)
            with Settling(made.net, made.crew, BUILT) as engine:
                engine.counts()
                self.assertEqual(engine.spent()[0], first.look.spent)
        hidden = Assignment(Case.read(self.case(**HIDDEN, signals=None)), AssignOptions(iterations=1))
        next(hidden.run(BUILT))
        assert hidden.kept.traffic is not None
        hidden.crew.step(hidden.rule.step, hidden.kept.traffic, 1e-6, False)
        self.assertEqual(hidden.crew.rows(), hidden.best_shares.rows())  # also where nothing flows

    def test_who_has_not_arrived_comes_first(self) -> None:
        """Of two loadings that is the better in which more arrive, and of two in which as many do that in which less is
        lost; what is below a thousandth of the demand does not count."""
        look = Look(1000, 0, 0.0, Gap(50.0, 1000.0, 9000.0, 10_000.0))
        locked = look._replace(not_there=1000, gap=Gap(1.0, 1000.0, 9000.0, 10_000.0))
        worse = look._replace(not_there=9, gap=Gap(60.0, 1000.0, 9000.0, 10_000.0))
        self.assertEqual(
            sorted(one.score for one in (locked, worse, look)), [one.score for one in (look, worse, locked)]
        )

    def test_the_best_of_a_run(self) -> None:
        """The iteration is kept in which most arrive and, of several, least is lost: not one in which fewer arrive with
        a smaller gap. A gridlock ends no run, small as its gap may be."""
        looks = [
            Look(1000, 0, 0.0, Gap(50.0, 1000.0, 9000.0, 10_000.0)),
            Look(1000, 150, 0.0, Gap(20.0, 1000.0, 9000.0, 10_000.0)),  # a few have not arrived
            Look(1000, 900, 0.0, Gap(1.0, 1000.0, 9000.0, 10_000.0)),  # many have not
            Look(1100, 0, 0.0, Gap(40.0, 1100.0, 9000.0, 10_000.0)),
            Look(1000, 0, 0.0, Gap(45.0, 1000.0, 9000.0, 10_000.0)),
        ]
        looked = Assignment._looked

        def as_told(made: "Assignment", *words: object) -> object:
            one, traffic = looked(made, *words)  # type: ignore[arg-type]
            return one._replace(look=looks[one.number]), traffic

        with patch.object(Assignment, "_looked", as_told):
            made = Assignment(Case.read(self.case(**TWO)), AssignOptions(iterations=4, until=1.0, period_ms=60_000))
            self.assertEqual([one.number for one in made.run(BUILT)], [0, 1, 2, 3, 4])
        assert made.best_one is not None
        self.assertEqual(made.best_one.number, 3)

    def test_the_demand_grows(self) -> None:
        """Half of the demand first, more where it is free, half way back where it locks, and all of it in the end."""
        grown, asked = Grown(), []
        grown.found(100, True, 40)
        for locks in (False, True, False, False, False):
            asked.append(grown.next())
            grown.found(asked[-1], locks, 40)
        self.assertEqual((asked, grown.next()), ([50, 60, 55, 65, 75], 85))
        grown.found(100, True, 8)
        self.assertEqual(grown.next(), 100)  # too few iterations are left

    def test_a_gridlock_at_first(self) -> None:
        """Where many have not arrived in the first loading the demand is loaded in parts, and then all of it."""
        case = {**TWO, "setup": TWO["setup"].replace("400", "300"), "signals": SIGNALS + "fast,0,300,0.5\n"}
        case["splits"] = case["splits"].replace("slow", "fast")
        made = Assignment(Case.read(self.case(**case)), AssignOptions(period_ms=60_000, size=2.0, iterations=20))
        found = list(made.run(BUILT))
        self.assertEqual([one.demand for one in found][:2], [100, 50])
        self.assertEqual([one.look.not_there for one in found][:2], [50_000, 0])  # by `fast` half of one a second
        assert made.best_one is not None
        self.assertEqual((made.best_one.demand, made.best_one.look.not_there), (100, 0))
        self.assertLess(made.best_one.look.per_cent, 3)

    def test_made_cities(self) -> None:
        """They have the sizes that are told, and a way for everybody."""
        sizes = (("small", 24, 76, 16_000), ("middle", 38, 914, 30_000), ("large", 147, 2_836, 60_000))
        for name, zones, links, vehicles in sizes:
            folder = self.folder / name
            subprocess.run([EXAMPLES / "assign" / "make.py", name, folder], check=True)
            case = Case.read(folder)
            self.assertEqual((len(case.destinations), len(case.links)), (zones, links))
            self.assertAlmostEqual(sum(row.units for row in case.demand) / 1000, vehicles, delta=1)
            check_ways(Net(case))

    def test_made_cities_are_assigned(self) -> None:
        """At most 40 iterations, and all arrive, with a relative gap of at most 3 %: where the first step leads into a
        gridlock, and where fastest routes on empty roads lose 29 %."""
        for name in ("small", "middle"):
            with self.subTest(name):
                folder = self.folder / name
                subprocess.run([EXAMPLES / "assign" / "make.py", name, folder], check=True)
                made = Assignment(Case.read(folder), AssignOptions(iterations=40, until=3.0))
                *others, last = made.run(BUILT)
                self.assertIs(made.best_one, last)
                self.assertEqual((last.demand, last.look.not_there), (100, 0))
                self.assertLessEqual(last.look.per_cent, 3.0)
                self.assertGreater(others[0].look.per_cent, 10.0)
                self.assertEqual(any(one.demand < 100 for one in others), name == "small")

    def test_where_the_exact_gap_is_asked(self) -> None:
        """Of each loading where that is cheap, else of the first and the last, and in networks that are larger still of
        none."""
        case = Case.read(self.case(**TWO))
        for each, most, asked in (
            (800, 0, [True] * 4),
            (799, 800, [True, False, False, True]),
            (799, 799, [False] * 4),
        ):
            with patch("ltm_tools.assign.assigning.SEARCHED", each), patch(
                "ltm_tools.assign.assigning.MOST_SEARCHED", most
            ):
                made = Assignment(case, AssignOptions(period_ms=60_000, iterations=3, size=20.0))
                self.assertEqual([one.exact is not None for one in made.run(BUILT)], asked)

    def test_swings(self) -> None:
        """With steps by which all go over to what was the best way it swings, and smaller ones end that."""
        made = self.found(TWO, period_ms=60_000, iterations=25, size=20.0)
        # 180 who all take `fast`, 130 s in the mean, and 60 who take it, 70 s, beside 120 by `slow`
        self.assertEqual(self.seconds[1:5], [23_400, 16_200, 23_400, 16_200])
        assert made.best_one is not None
        self.assertLess(made.best_one.look.per_cent, 1)

    def test_gridlock_is_taken_back(self) -> None:
        """Where a quarter of a vehicle a second gets through `fast` and all take it they are 40 s on the way and 270 in
        the mean in its queue, three times what `slow` costs. So the next step is a smaller one from those by `slow`,
        till one is small enough for no queue."""
        case = {**TWO, "setup": TWO["setup"].replace("400", "800"), "signals": SIGNALS + "fast,0,800,0.25\n"}
        made = self.found(case, period_ms=60_000, iterations=3, size=20.0)
        self.assertEqual(self.seconds[:3], [18_000, 180 * 310, 180 * 310])
        self.assertTrue(180 * (0.25 * 40 + 0.75 * 100) <= self.seconds[3] < 18_000, self.seconds)
        assert made.best_one is not None
        self.assertEqual(made.best_one.number, 3)

    def test_one_link_leads_on(self) -> None:
        """Also where two nodes are near each other and the way on leads over one that is far: `b` leads to `a`, and `a`
        to `x`."""
        net = Net(
            Case.read(
                self.case(
                    setup="step_ms,slots,origin_capacity\n1000,60,32\n",
                    links=LINKS
                    + "".join(f"{name},{name[0]},{name[1]},100,36,18,300\n" for name in ("ab", "ba", "ax", "xd")),
                    demand="origin,destination,from_slot,to_slot,vehicles\nb,d,0,10,1\n",
                    splits=None,
                )
            )
        )
        ahead = numpy.array([[{"a": 10, "b": 5, "x": 10**6, "d": 0}[name]] for name in net.node_names])[None]
        self.assertEqual(
            {name for name, leads in zip(net.names, leading_on(net, ahead)[0, :, 0]) if leads}, {"ba", "ax", "xd"}
        )

    def test_links_that_lead_on_are_those_of_plain_raising(self) -> None:
        """On roads of a city, where many nodes are nearer than all behind their links, some in turn for long: raised
        one after another until each has a link that leads on."""
        with patch.object(sys, "path", [str(EXAMPLES / "assign"), *sys.path]):
            net = Net(importlib.import_module("make").case_of("small", 100))
        draw = numpy.random.default_rng(1)
        ahead = net.free_time // 1000 + draw.integers(0, 400, (3, *net.free_time.shape))
        ahead[1] = draw.integers(0, 300, net.free_time.shape)  # some destinations need more rounds than are made
        expected = numpy.zeros((3, *net.leads.shape), dtype=bool)
        for span, end in numpy.ndindex(3, len(net.end_names)):
            links = [(net.tail[link], net.head[link], link) for link in net.leads[:, end].nonzero()[0].tolist()]
            outs: dict[int, list[int]] = {}
            for tail, head, _ in links:
                outs.setdefault(int(tail), []).append(int(head))
            found = ahead[span, :, end].tolist()
            found[net.ends[end]] = -1
            while low := [node for node, heads in outs.items() if found[node] <= min(found[head] for head in heads)]:
                for node in low:
                    found[node] = min(found[head] for head in outs[node]) + 1
            for tail, head, link in links:
                expected[span, link, end] = found[tail] > found[head]
        numpy.testing.assert_array_equal(leading_on(net, ahead), expected)

    def test_circles(self) -> None:
        """What gentle steps look at: who goes back and forth between `a` and `b`, and who comes there, is in a circle;
        where nobody goes back there is none."""
        net = Net(
            Case.read(
                self.case(
                    setup="step_ms,slots,origin_capacity\n1000,60,32\n",
                    links=LINKS
                    + "".join(
                        f"{name},{name[0]},{name[1]},{metres},36,18,300\n"
                        for name, metres in (("ca", 100), ("ab", 100), ("ba", 100), ("ad", 400), ("bd", 200))
                    ),
                    demand="origin,destination,from_slot,to_slot,vehicles\nc,d,0,10,1\n",
                    splits=None,
                )
            )
        )
        for back, found in (0.5, {"a", "b", "c"}), (0.0, set()):
            shares = numpy.array(
                [[{"ca": 1, "ab": 0.5, "ad": 0.5, "ba": back, "bd": 1 - back}[name]] for name in net.names]
            )[None]
            rounds = circling(net, shares)[0, :, 0]
            self.assertEqual({net.node_names[node] for node, is_one in zip(net.tails, rounds) if is_one}, found)


@needs_numpy
@needs_program
class LinkTimes(FolderTest):
    def test_of_the_program(self) -> None:
        """Of all links at all slots: what the program answers to `time`."""
        asked = 0
        for name in ("incident", "closures", "spillback", "detour", "evening", "merge", "lane_drop"):
            case = Case.read(EXAMPLES / name)
            step, boundaries = case.setup.step_ms, numpy.arange(case.setup.slots)
            with Session(EXAMPLES / name, program=BUILT) as session:
                for link in case.links:
                    _, entered, left = session.curve(link.name)
                    moments = exit_moments(
                        numpy.array(entered), numpy.array(left), link.free_ms, link.capacity(step), step, boundaries
                    )
                    for slot, moment in enumerate(moments.tolist()):
                        told = session.time(link.name, slot).ms
                        self.assertEqual(
                            told, moment - slot * step if entered[slot] <= left[-1] else None, (name, link.name, slot)
                        )
                        asked += 1
        self.assertGreater(asked, 3000)

    def test_what_is_shut(self) -> None:
        """Who comes to a link whose entry is shut in the slots 0 and 1 enters at 2 s, and takes 2 s; who would leave in
        slot 4, in which the exit is shut, leaves right behind it."""
        case = Case.read(
            self.case(
                setup="step_ms,slots,origin_capacity,signals,limits\n1000,8,32,1,1\n",
                signals=SIGNALS + "a,4,5,0\n",
                limits=SIGNALS + "a,0,2,0\n",
            )
        )
        net = Net(case)
        entered = numpy.array([0, 0, 0, 0, 1000, 1000, 1000, 1000, 1000])[:, None]
        left = numpy.array([0, 0, 0, 0, 0, 0, 500, 1000, 1000])[:, None]
        found = leaving(net, Gates(net.limits(case.limits), net.limits(case.signals)), entered, left)[:, 0]
        self.assertEqual(found.tolist(), [4000, 4000, 4000, 5001, 7000, 7000, 8000, 9000, 10000])


@needs_numpy
@needs_program
class Command(FolderTest):
    def assign(self, *words: str) -> "tuple[int, str, str]":
        return commands.run(
            "assign",
            str(self.folder / "case"),
            "-o",
            str(self.folder / "made"),
            "--program",
            str(BUILT),
            "--period",
            "1",
            *words,
        )

    def texts(self, name: str = "made") -> "dict[str, bytes]":
        return {path.name: path.read_bytes() for path in Path(self.folder, name).iterdir()}

    def test_result(self) -> None:
        """It tells each iteration, the best is written, and another run, and one in many sessions, write the same."""
        self.case(**TWO, nodes="name,x,y\no,0,0\nd,100,0\n")
        status, out, err = self.assign("--iterations", "3")
        self.assertEqual((status, err, len(out.splitlines())), (0, "", 10), out + err)
        self.assertEqual(out.splitlines()[0], "2 links, 1 destination, 7 periods of 1 minutes")
        gap = subprocess.run([BUILT, "gap"], cwd=self.folder / "made", capture_output=True, text=True, check=True)
        self.assertEqual(out.splitlines()[-1], gap.stdout.splitlines()[0])
        first = self.texts()
        rows = list(csv.DictReader(first["iterations.csv"].decode().splitlines()))
        self.assertEqual([row["iteration"] for row in rows], ["0", "1", "2", "3"])
        self.assertEqual(rows[0]["spent"], "18000.000000")
        best = min(rows, key=lambda row: float(row["gap"]) * float(row["spent"]))
        # with all by `slow`, 100 s each, they lose 60 s, which is exact where nobody queues
        self.assertEqual((rows[0]["gap"], rows[0]["exact_gap"]), ("60.000000", "60.000000"))
        spent, exact = (float(gap.stdout.split()[place]) for place in (3, 7))
        self.assertIn(f"the program's exact gap is {100 * exact / spent:.2f} %", out)
        with Session(self.folder / "made", program=BUILT) as session:
            self.assertEqual(session.delay().spent, round(float(best["spent"]) * 10**6))
        self.assertIn("nodes.csv", first)
        with patch.object(Settling, "MOST_LINES", 9):
            self.assertEqual(self.assign("--iterations", "3")[0], 0)
        self.assertEqual(self.texts(), first)

    def test_processes(self) -> None:
        """Several processes write the same, whatever the destinations are that each works out at once."""
        demand = "o,d,0,180,150\no,e,0,180,30\n"
        splits = "o,d,0,slow=1\no,e,0,slow=1\nd,e,0,on=1\n"
        self.case(
            **{
                **TWO,
                "links": TWO["links"] + "on,d,e,200,36,18,300\n",
                "demand": "origin,destination,from_slot,to_slot,vehicles\n" + demand,
                "splits": "node,destination,from_slot,weights\n" + splits,
            }
        )
        self.assertEqual(self.assign("--iterations", "3")[0], 0)
        first = self.texts()
        with patch("ltm_tools.assign.assigning.ends_at_once", return_value=1):
            for words in ((), ("--processes", "2")):
                self.assertEqual(self.assign("--iterations", "3", *words)[0], 0)
                self.assertEqual(self.texts(), first)
            with patch("ltm_tools.assign.parts.Part.look", side_effect=ValueError("x")):
                told = self.assign("--iterations", "3", "--processes", "2")
        self.assertEqual(
            told[::2], (1, "ltm-tools assign: a process that works out destinations failed: ValueError: x\n")
        )

    def test_nobody_waits_for_the_answer(self) -> None:
        """A process whose answer nobody wants any more, as behind an interrupt, ends without a word."""
        ours, theirs = multiprocessing.Pipe()
        ours.send(("rows", ()))
        crew = Crew([])
        with patch.object(crew, "rows", lambda: ours.close() or {}):
            serve(crew, theirs)

    def test_a_program_that_ends(self) -> None:
        """Where the program is killed once in the middle the shares are those that are found without."""
        self.case(**TWO)
        self.assertEqual(self.assign("--iterations", "3")[0], 0)
        first, counts, calls = self.texts(), Settling._counts, []

        def killed(engine: Settling) -> object:
            calls.append(engine)
            if len(calls) == 2:
                engine.open.session.process.kill()
            return counts(engine)

        with patch.object(Settling, "_counts", killed):
            self.assertEqual(self.assign("--iterations", "3")[0], 0)
        self.assertEqual((self.texts(), calls[0].open.opened), (first, 2))

    def test_swing_is_told(self) -> None:
        """Where hours swing between 16,200 and 23,400 s, 44.44 % more, it says so."""
        self.case(**TWO)
        told = "in the last 5 iterations hours rose by 44.44 % at most: it swings; try a smaller --step"
        self.assertIn(told, self.assign("--iterations", "5", "--step", "20")[1])

    def test_goes_on_from(self) -> None:
        """From the shares that were found the first iteration is the best of before."""
        self.case(**TWO)
        self.assign("--iterations", "4")
        before = list(csv.DictReader((self.folder / "made/iterations.csv").read_text().splitlines()))
        self.assign("--iterations", "0", "--from", str(self.folder / "made"))
        after = list(csv.DictReader((self.folder / "made/iterations.csv").read_text().splitlines()))
        best = min(before, key=lambda row: float(row["gap"]) * float(row["spent"]))
        self.assertEqual((len(after), after[0]["gap"], after[0]["spent"]), (1, best["gap"], best["spent"]))

    def test_rounds(self) -> None:
        """Behind the first round a turn that yields has its part of the green by who drives then. By `fast` drive 120
        in ten minutes, so q = 0.2 a second; c = q exp(-4.5 q) / (1 - exp(-2.2 q)) = 0.228 go in its gaps, and one
        more a cycle: of 0.5 a second 0.490, and so many thousandths of the one a second of `slow`. Other limits
        stay."""
        self.case(
            **{**TWO, "splits": "node,destination,from_slot,weights\no,d,0,fast=1\no,d,60,fast=1 slow=1\n"}, turns=TURNS
        )
        status, out, err = self.assign("--iterations", "0", "--rounds", "2")
        self.assertEqual(
            (status, err, out.splitlines()[3]),
            (0, "", "round 2: turns that yield get their part of the green by the traffic of the best iteration"),
            out,
        )
        self.assertIn("made: iteration 1, ", out)
        with open(self.folder / "made/turns.csv", encoding="utf-8", newline="") as file:
            self.assertEqual([(row["vehicles"], row["factors"]) for row in csv.DictReader(file)], [("60", "0.490")])
        self.assertEqual(
            {(limit.link, limit.units) for limit in Case.read(self.folder / "made").signals},
            {("fast", 500), ("slow", 490)},
        )
        rows = csv.DictReader((self.folder / "made/iterations.csv").read_text().splitlines())
        self.assertEqual([(row["iteration"], row["round"]) for row in rows], [("0", "1"), ("1", "2")])

    def test_stopped(self) -> None:
        """Where it is interrupted the best so far is kept."""
        self.case(**TWO)
        with patch("ltm_tools.commands.assign.time.monotonic", side_effect=[0, 1, 2, KeyboardInterrupt]):
            status, out, err = self.assign()
        self.assertEqual((status, err), (0, ""))
        self.assertIn("stopped: the best so far is kept", out)
        self.assertEqual(len((self.folder / "made/iterations.csv").read_text().splitlines()), 4)

    def test_picture(self) -> None:
        """`plot` draws the iterations of an assigned case, and no other."""
        self.case(**TWO)
        self.assign("--iterations", "1")
        words = "plot", "iterations", str(self.folder / "made"), str(self.folder / "made.png")
        if not libraries.missing(("matplotlib",)):
            self.assertEqual(commands.run(*words), (0, "", ""))
            self.assertGreater((self.folder / "made.png").stat().st_size, 10_000)
        # by `slow` all lose 60 of 100 s
        spent, found = read_iterations(self.folder / "made")
        self.assertEqual((spent[0], found[0]), (18_000_000_000, 60.0))
        self.assertRaisesRegex(
            Fault, "iterations.csv is not there: `ltm-tools assign` writes it", read_iterations, self.folder / "case"
        )

    def test_late(self) -> None:
        """Who is not there by the end is told by destination: 180 less the 60 who took `slow` in time."""
        self.case(
            **{
                **TWO,
                "setup": TWO["setup"].replace("400", "160"),
                "demand": TWO["demand"].replace("180,", "160,"),
                "signals": SIGNALS,
            }
        )
        status, out, _ = self.assign("--iterations", "0")
        self.assertEqual(status, 0)
        self.assertIn("120.000 vehicles have not arrived by the end of the horizon: 120.000 for d;", out)

    def test_faults(self) -> None:
        self.case(**TWO)
        for words, told in (
            (("--period", "0.01"), "a period of 600 ms is no whole number of steps of 1000 ms"),
            (("--rounds", "2"), "turns.csv: there is none; from-sumo and from-gmns write it"),
            (("--rounds", "0"), "--rounds is at least 1"),
            (("--processes", "0"), "--processes is at least 1"),
            (("--iterations", "-1"), "--iterations is at least 0"),
            (("--method", "dice"), "'dice' is no method: gradient, averages, self-regulating are"),
            (("--from", str(EXAMPLES / "closures")), "no split row there is of a node"),
        ):
            status, out, err = self.assign(*words)
            self.assertEqual((status, out, len(err.splitlines())), (1, "", 1), out + err)
            self.assertIn(told, err)
        self.case(**{**TWO, "demand": "origin,destination,from_slot,to_slot,vehicles\n"})
        self.assertIn("nobody chooses a route", self.assign()[2])
        self.assertFalse((self.folder / "made").exists())

    def test_the_folder_is_made_first(self) -> None:
        """Where it cannot be, nothing is loaded; where a run fails, it goes again."""
        self.case(**TWO)
        (self.folder / "made").write_text("")
        with patch.object(Settling, "__init__", side_effect=AssertionError):
            self.assertEqual(self.assign()[::2], (1, f"ltm-tools assign: {self.folder / 'made'}: {NO_FOLDER}\n"))
        (self.folder / "made").unlink()
        with patch.object(Settling, "__init__", side_effect=Fault("it fails")):
            self.assertEqual(self.assign()[::2], (1, "ltm-tools assign: it fails\n"))
        self.assertEqual([path.name for path in self.folder.iterdir()], ["case"])

    def test_no_way(self) -> None:
        """A case whose splits send somebody where no links lead on."""
        self.case(
            **{
                **TWO,
                "links": LINKS + "there,o,p,400,36,18,300\nback,p,o,400,36,18,300\nin,d,o,400,36,18,300\n",
                "splits": "node,destination,from_slot,weights\no,d,0,there=1\np,d,0,back=1\n",
                "signals": SIGNALS,
            }
        )
        self.assertIn("no links lead from o to d: add a link, or take the demand out", self.assign()[2])


if __name__ == "__main__":
    unittest.main()
