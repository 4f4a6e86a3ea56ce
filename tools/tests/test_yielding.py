"""Approaches of junctions without lights that yield as a whole: what they let pass, and how long vehicles wait."""
import hashlib
import math
import subprocess
import unittest
from collections.abc import Sequence
from dataclasses import replace
from fractions import Fraction

from support import BUILT, needs_program
from support_sumo import SumoTest, edge, way

from ltm_tools.case import Case, Link, Setup
from ltm_tools.demand.cycles import Green
from ltm_tools.demand.route_splits import Route
from ltm_tools.network.crossings.approach import Approach, mean_wait
from ltm_tools.network.crossings.movements import Held, Movement
from ltm_tools.network.crossings.options import EQUAL_GAP, MAJOR_GAP, MINOR_GAP, ROUND_GAP, GapAcceptance
from ltm_tools.network.crossings.queued import queued_volumes, settled
from ltm_tools.network.crossings.ranks import by_ranks, joined, no_queue
from ltm_tools.network.crossings.volumes import Volumes, turns_counted
from ltm_tools.network.crossings.yielding import Yielding, add_waits, yield_limits
from ltm_tools.network.network import Network, Node, road_of

JUNCTION = (
    '<junction id="c" type="priority" x="0" y="0"><request index="0" response="00"/>'
    '<request index="1" response="01"/></junction>'
)
NET = (
    "".join(f'<junction id="{name}" type="priority" x="{x}" y="{y}"/>' for name, x, y in (("w", -9, 0), ("s", 0, -9)))
    + '<junction id="e" type="priority" x="9" y="0"/>'
    + JUNCTION
    + edge("main", "w", "c", metres="500.00")
    + edge("side", "s", "c", metres="500.00")
    + edge("out", "c", "e", metres="500.00")
    + way("main", "out", 0, 'via=":c_0_0"')
    + way("side", "out", 0, 'via=":c_1_0"').replace('"M"', '"m"')
)


# a second side road behind the first
SECOND = (
    '<junction id="d" type="priority" x="9" y="9"><request index="0" response="00"/>'
    '<request index="1" response="01"/></junction><junction id="t" type="priority" x="0" y="9"/>'
    + edge("on", "e", "d", metres="500.00")
    + edge("near", "t", "d", metres="500.00")
    + edge("far", "d", "w2", metres="500.00")
    + '<junction id="w2" type="priority" x="9" y="18"/>'
    + way("out", "on")
    + way("on", "far", 0, 'via=":d_0_0"')
    + way("near", "far", 0, 'via=":d_1_0"').replace('"M"', '"m"')
)
# the turns of a T, and to which of them each yields, the first on the right
TURNS = (
    ("w", "S", "000000"),
    ("w", "E", "000000"),
    ("e", "W", "000000"),
    ("e", "S", "000011"),
    ("s", "E", "000010"),
    ("s", "W", "001110"),
)
T_NET = (
    "".join(f'<junction id="{name}" type="priority" x="{x}" y="{y}"/>' for name, x, y in (("w", -9, 0), ("s", 0, -9)))
    + '<junction id="e" type="priority" x="9" y="0"/><junction id="c" type="priority" x="0" y="0">'
    + "".join(f'<request index="{index}" response="{told}"/>' for index, (_, _, told) in enumerate(TURNS))
    + "</junction>"
    + "".join(edge(arm, arm, "c", metres="500.00") + edge(arm.upper(), "c", arm, metres="500.00") for arm in "wes")
    + "".join(
        way(into, out, 0, f'via=":c_{index}_0"').replace('"M"', '"m"' if "1" in told else '"M"')
        for index, (into, out, told) in enumerate(TURNS)
    )
)
T_FLOWS = "".join(
    f'<flow id="{into}{out}" begin="0" end="3600" number="{count}"><route edges="{into} {out}"/></flow>'
    for (into, out, _), count in zip(TURNS, (40, 320, 320, 90, 60, 60))
)


def two_sides(first: int, second: int) -> str:
    """Vehicles of an hour on the main road, 300, and on both side roads."""
    return "".join(
        f'<flow id="{name}" begin="0" end="3600" number="{count}"><route edges="{name} {way_on}"/></flow>'
        for name, count, way_on in (("main", 300, "out on far"), ("side", first, "out on far"), ("near", second, "far"))
    )


def flows(main: int, side: int) -> str:
    """Vehicles at even times in an hour."""
    return "".join(
        f'<flow id="{name}" begin="0" end="3600" number="{count}"><route edges="{name} out"/></flow>'
        for name, count in (("main", main), ("side", side))
        if count
    )


def gap_capacity(flow: float, critical: float = 6.5) -> float:
    """The manual's formula by hand, of a critical gap and 3.5 s, in vehicles an hour."""
    return flow * math.exp(-flow * critical / 3600) / (1 - math.exp(-flow * 3.5 / 3600))


def yielding_turn(approach: str, after: str, gap: GapAcceptance, *opposing: "tuple[str, str]") -> Movement:
    """A turn that yields at all times."""
    always = (Green(60_000, 0, 60_000, 0, Fraction(1)),)
    return Movement(approach, after, (0,), Held((), always, opposing, (), gap))


class Formula(unittest.TestCase):
    def test_the_wait(self) -> None:
        """200 vehicles an hour where 500 pass: 3600 / 500 s at the head, and 225 (x - 1 + ((x - 1)^2 + 8 x / 125)^.5)
        behind others, with x = 0.4. With 750 the 225 (x - 1) 2 s that a growing queue adds are left out."""
        wait = 7.2 + 225 * (-0.6 + math.sqrt(0.36 + 7.2 * 0.4 / 112.5))
        self.assertAlmostEqual(mean_wait(200 / 3600, 500 / 3600), wait)
        wait = 7.2 + 225 * (0.5 + math.sqrt(0.25 + 7.2 * 1.5 / 112.5)) - 450 * 0.5
        self.assertAlmostEqual(mean_wait(750 / 3600, 500 / 3600), wait)

    def test_limits_by_slice(self) -> None:
        """360 and 720 vehicles an hour are 1000 and 2000 thousandths in slots of 10 s, in the second slice of 10
        minutes and after it; the link takes 5000 of them, and as much is no limit."""
        link, setup = Link("a", "n1", "n2", 500, 36, 18, 150), Setup(10_000, 200, 1000, carry=True)
        made = yield_limits(Yielding("a", (Fraction(360), Fraction(720)), 0, 0), link, setup, 600_000)
        self.assertEqual([(row.from_slot, row.to_slot, row.units) for row in made], [(0, 60, 1000), (60, 200, 2000)])
        self.assertEqual(yield_limits(Yielding("a", (Fraction(1800),), 0, 0), link, setup, 600_000), [])

    def test_a_short_link(self) -> None:
        """Of 20 m, where 2 vehicles stand and 600 an hour pass: 2 / 1200 h are 6 s, of which 2 are driven. A link of
        200 m has room for all of the 30 s."""
        raw = Network()
        for name in "abc":
            raw.add_node(Node(name))
        for name, tail, head, metres in (("short", "a", "b", 20), ("long", "b", "c", 200)):
            told = {"metres": Fraction(metres), "kmh": Fraction(36), "jam": Fraction(100), "capacity": Fraction(1800)}
            raw.add(road_of(name, tail, head, **told))
        made = add_waits(raw, [Yielding(name, (Fraction(600),), 30_000, 1000) for name in ("short", "long")])
        self.assertEqual([one.wait_ms for one in made], [4_000, 30_000])
        self.assertEqual([road.time for road in raw.roads.values()], [6_000, 50_000])


class Ranks(unittest.TestCase):
    """What a lane lets take each turn of a junction. A main road leads from w to e and back, and from e one may turn
    left to s; side roads lead in from s and n."""

    MAIN, LEFT = ("w", "e"), ("e", "s")
    AHEAD = Movement(*MAIN, (0,))
    TURNING = yielding_turn(*LEFT, MAJOR_GAP, MAIN)

    def approaches(self, flows: "dict[tuple[str, str], int]", *turns: Movement) -> list[Approach]:
        """The approaches of turns by vehicles an hour; a lane that need not yield lets 1,800 pass."""
        names = {turn.pair: " ".join(turn.pair) for turn in turns}
        volumes = Volumes(3_600_000, {names[pair]: {0: 1000 * flow} for pair, flow in flows.items()})
        by: dict[str, list[Movement]] = {}
        for turn in turns:
            by.setdefault(turn.approach, []).append(turn)
        return [Approach(some, 1, 0.5, volumes, names) for some in by.values()]

    def capacities(self, flows: "dict[tuple[str, str], int]", *turns: Movement) -> "dict[tuple[str, str], float]":
        """What a lane lets take each turn in an hour, by ranks."""
        return {pair: found * 3600 for pair, found in by_ranks(self.approaches(flows, *turns), 0).items()}

    def test_behind_a_left_turn(self) -> None:
        """The left turn finds gaps of 4.1 and 2.2 s in 360 vehicles: 360 e^-0.41 / (1 - e^-0.22) = 1209.81 pass, so
        that of 90 no queue stands with the probability 1 - 90 / 1209.81 = 0.92561. The side road's left turn finds gaps
        of 6.5 and 3.5 s in these 360 and in twice the 90: 540 e^-0.975 / (1 - e^-0.525) = 498.68, and 461.58 with the
        factor. By gaps alone the 90 count once: 450 e^-0.8125 / (1 - e^-0.4375) = 563.53."""
        side = yielding_turn("s", "w", MINOR_GAP, self.MAIN, self.LEFT)
        flows = {self.MAIN: 360, self.LEFT: 90, side.pair: 50}
        found = self.capacities(flows, self.AHEAD, self.TURNING, side)
        self.assertEqual(found[self.MAIN], 1800)
        self.assertAlmostEqual(found[self.LEFT], 1209.81, places=2)
        self.assertAlmostEqual(found[side.pair], 461.58, places=2)
        by_gaps = self.approaches(flows, self.AHEAD, self.TURNING, side)[2]
        self.assertAlmostEqual(by_gaps.by_gaps(0)[side.pair] * 3600, 563.53, places=2)

    def test_left_turns_count_twice_for_side_roads_alone(self) -> None:
        """A left turn of the main road that yields to another finds gaps in what there is: 450 e^-0.5125 /
        (1 - e^-0.275) = 1121.12 pass, and 1037.72 with the 0.92561 of the other's queue."""
        second = yielding_turn("w", "n", MAJOR_GAP, self.MAIN, self.LEFT)
        found = self.capacities({self.MAIN: 360, self.LEFT: 90}, self.AHEAD, self.TURNING, second)
        self.assertAlmostEqual(found[second.pair], 1037.72, places=2)

    def test_behind_a_left_turn_and_the_other_side(self) -> None:
        """The other side road's through vehicles go before the side road's left turn as well. Their own capacity is the
        461.58 above, and of 100 no queue stands with 0.78335; the product p with 0.92561 is 0.72508, of which the
        manual makes 0.65 p - p / (p + 3) + 0.6 p^0.5 = 0.78756. In 360 + 180 + 100 vehicles 435.02 find gaps, and
        342.61 pass."""
        through = yielding_turn("n", "s", MINOR_GAP, self.MAIN, self.LEFT)
        side = yielding_turn("s", "w", MINOR_GAP, self.MAIN, self.LEFT, through.pair)
        flows = {self.MAIN: 360, self.LEFT: 90, through.pair: 100, side.pair: 50}
        found = self.capacities(flows, self.AHEAD, self.TURNING, through, side)
        self.assertAlmostEqual(found[through.pair], 461.58, places=2)
        self.assertAlmostEqual(found[side.pair], 342.61, places=2)

    def test_the_factor(self) -> None:
        """Two queues of one kind stand by chance, with 3/4 and 4/5; of two kinds, the product 0.6 becomes
        0.39 - 1/6 + 0.6 * 0.774597 = 0.688091. A turn with two lanes lets twice as many pass: 7/8. Where nobody comes,
        the factor is 1."""
        left, second = yielding_turn("e", "s", MAJOR_GAP), yielding_turn("w", "n", MAJOR_GAP)
        other = yielding_turn("n", "s", MINOR_GAP)
        flows = {left.pair: 100.0, second.pair: 100.0, other.pair: 100.0}
        capacities = {left.pair: 400.0, second.pair: 500.0, other.pair: 500.0}
        self.assertEqual(no_queue([left], flows, capacities), 0.75)
        self.assertAlmostEqual(no_queue([left, second], flows, capacities), 0.6)
        self.assertAlmostEqual(no_queue([left, other], flows, capacities), 0.688091, places=6)
        self.assertEqual(no_queue([replace(left, lanes=(0, 1))], flows, capacities), 0.875)
        self.assertEqual(no_queue([], flows, capacities), 1)
        self.assertEqual(no_queue([left, other], dict.fromkeys(flows, 0.0), capacities), 1)
        self.assertAlmostEqual(joined(0.5), 0.325 - 1 / 7 + 0.6 * 0.707107, places=6)

    def test_drivers_take_turns(self) -> None:
        """600 vehicles turn left where 1400 e^-1.594 / (1 - e^-0.856) = 494.35 pass, so that their queue stands all the
        time; a side road's turn that yields to these alone lets half of 1200 e^-2.167 / (1 - e^-1.167) = 199.64 pass.
        Of 400 no queue stands with the probability 0.19, and half of 800 e^-1.444 / (1 - e^-0.778) = 349.08 pass."""
        side = yielding_turn("s", "w", MINOR_GAP, self.LEFT)
        for left, passed in ((600, 99.82), (400, 174.54)):
            found = self.capacities({self.MAIN: 1400, self.LEFT: left}, self.AHEAD, self.TURNING, side)
            self.assertAlmostEqual(found[self.LEFT], 494.35, places=2)
            self.assertAlmostEqual(found[side.pair], passed, places=2)
        self.assertEqual(no_queue([self.TURNING], {self.LEFT: 0.2}, {self.LEFT: 0.1}), 0.5)

    def test_where_there_are_no_ranks(self) -> None:
        """Turns that yield to each other, that enter a roundabout, or where the right comes first have the capacity of
        their gaps, to the last bit, as without ranks; and so where those before them have no vehicles."""
        for gap in (MINOR_GAP, ROUND_GAP, EQUAL_GAP):
            turns = [
                yielding_turn("s", "w", gap, self.MAIN, ("n", "e")),
                yielding_turn("n", "e", gap, self.MAIN, ("s", "w")),
            ]
            if gap != MINOR_GAP:
                turns.append(yielding_turn("s", "e", gap, self.MAIN, self.LEFT, ("n", "e")))
            flows = {self.MAIN: 300, self.LEFT: 0 if gap == MINOR_GAP else 100, ("s", "w"): 70, ("n", "e"): 80}
            found = self.approaches(flows, self.AHEAD, self.TURNING, *turns)
            self.assertEqual(by_ranks(found, 0), {pair: one for some in found for pair, one in some.by_gaps(0).items()})

    def test_turns_before_each_other_in_a_ring(self) -> None:
        """Each of three waits for the next: an end is found, between half of what the gaps let pass and all of it."""
        pairs = [("a", "b"), ("b", "c"), ("c", "a")]
        turns = [yielding_turn(*pair, MINOR_GAP, pairs[place - 1]) for place, pair in enumerate(pairs)]
        for passed in self.capacities(dict.fromkeys(pairs, 200), *turns).values():
            self.assertTrue(gap_capacity(200) / 2 <= passed < gap_capacity(200))


class Queued(unittest.TestCase):
    """Vehicles drive over links a, b and c in 30 s each, and are counted by slices of a minute."""

    NAMES = {("a", "b"): "ab", ("b", "c"): "bc"}
    TIMES = {name: Fraction(30_000) for name in "abc"}
    RATES = {name: (Fraction(3600),) for name in "abc"}

    def counted(
        self, end_ms: int = 3_600_000, departs: "Sequence[int]" = (0,) * 10, **rates: int | list[int]
    ) -> Volumes:
        """The count of vehicles that set out at some times, where links let others pass than one a second."""
        routes = [Route(("a", "b", "c"), depart, 1000) for depart in departs]
        own = {name: tuple(map(Fraction, told if isinstance(told, list) else [told])) for name, told in rates.items()}
        return queued_volumes(routes, self.TIMES, 60_000, self.NAMES, self.RATES | own, end_ms)

    def test_where_queues_let_them_come(self) -> None:
        """Ten vehicles come after 30 s, and 360 an hour pass: one every 10 s from then on. At the end of the next link,
        30 s later, they pass as they come. From the second slice on 3,600 pass in place of 360."""
        self.assertEqual(self.counted(a=360).counts, {"ab": {0: 3000, 1: 6000, 2: 1000}, "bc": {1: 6000, 2: 4000}})
        self.assertEqual(self.counted(a=360).slices, 3)
        self.assertEqual(self.counted(a=[360, 3600]).counts["ab"], {0: 3000, 1: 7000})

    def test_with_room_for_all(self) -> None:
        """Vehicles that do not meet are counted as where nothing holds them up."""
        departs = range(0, 600_000, 7_000)
        freely = turns_counted(
            [Route(("a", "b", "c"), depart, 1000) for depart in departs], self.TIMES, 60_000, self.NAMES
        )
        self.assertEqual(self.counted(departs=departs), freely)

    def test_in_the_order_in_which_they_come(self) -> None:
        """One that sets out later and is nearer to the end of b comes first, and those from a wait for it."""
        routes = [Route(("a", "b", "c"), 0, 1000), Route(("b", "c"), 20_000, 1000)]
        found = queued_volumes(routes, self.TIMES, 60_000, self.NAMES, self.RATES | {"b": (Fraction(30),)}, 3_600_000)
        self.assertEqual(found.counts["bc"], {0: 1000, 2: 1000})

    def test_the_end(self) -> None:
        """Who passes at the end or after it is not counted, and drives no further."""
        self.assertEqual(self.counted(90_000, a=360).counts, {"ab": {0: 3000, 1: 3000}, "bc": {1: 3000}})

    def test_a_link_that_lets_nobody_pass(self) -> None:
        """One vehicle an hour passes all the same, so that the count comes to an end."""
        self.assertEqual(self.counted(7_200_000, a=0).counts["ab"], {0: 1000, 60: 1000})

    def test_rounds(self) -> None:
        """The mean of three counts, each made by the mean of those before it, and the first by what it begins with:
        6,000, then 3,000 by these, so 4,500, then 1,500 by these, so 3,500."""
        asked: list[int] = []

        def count(volumes: Volumes) -> Volumes:
            asked.append(volumes.counts["ab"][0])
            return Volumes(60_000, {"ab": {0: 6000 // len(asked) if len(asked) < 3 else 1500}})

        found = settled(Volumes(60_000, {"ab": {0: 9000}}), count)
        self.assertEqual(asked, [9000, 6000, 4500])
        self.assertEqual(found.counts, {"ab": {0: 3500}})


class Imports(SumoTest):
    PLAIN = ("--saturation", "1800")

    def loaded(self, main: int, side: int, *words: str) -> Case:
        return self.made("--fit", "1s", "--begin", "0", *words, net=NET, routes=flows(main, side))

    def test_which_yield(self) -> None:
        """The side road alone, by the traffic of the main road, counted where it comes to the junction."""
        case = self.loaded(600, 100)
        self.assertEqual({row.link for row in case.signals}, {"side"})
        self.assertIn(
            "vehicles on 1 link yield at junctions without lights, by gaps in the counted traffic, and wait ", self.out
        )
        self.assertEqual(self.loaded(600, 100, "--yielding", "none").signals, [])
        self.assertNotIn("without lights", self.out)
        units = {(row.from_slot, row.units) for row in self.loaded(600, 100).signals if 1200 <= row.from_slot < 1800}
        for _, passed in units:
            self.assertAlmostEqual(passed * 3.6, gap_capacity(600), delta=4)

    def test_where_the_right_comes_first(self) -> None:
        """A way that is equal to others waits for longer gaps than one at a sign; turns that are links too."""
        net = NET.replace('state="m"', 'state="="')
        self.made("--fit", "1s", "--begin", "0", net=net, routes=flows(600, 100))
        rows = Case.read(self.folder / "case").signals
        units = {row.units for row in rows if row.link == "side" and 1200 <= row.from_slot < 1800}
        self.assertTrue(units)
        for passed in units:
            self.assertAlmostEqual(passed * 3.6, gap_capacity(600, 11.6), delta=4)
        for words, gap in ((), "11.6 3.5 0"), (("--yielding", "none"), "6.5 3.5 0"):
            self.made("--fit", "1s", "--begin", "0", "--turns", "c", *words, net=net, routes=flows(600, 100))
            lines = (self.folder / "case" / "turns.csv").read_text().splitlines()
            self.assertEqual({row.split(",")[12] for row in lines if row.startswith("side,")}, {gap})

    def test_the_wait_is_in_the_time(self) -> None:
        """To the 50 s on empty roads come 3600 / c s, what others add, and 5 s."""
        free = next(link for link in self.loaded(600, 100, "--yielding", "none").links if link.name == "side").free_ms
        link = next(link for link in self.loaded(600, 100).links if link.name == "side")
        wait = 1000 * (mean_wait(100 / 3600, gap_capacity(600) / 3600) + 5)
        self.assertAlmostEqual(link.free_ms, free + wait, delta=1200)  # 27 or 28 km/h

    def test_gaps_into_a_roundabout(self) -> None:
        """Turns that are links have a roundabout's gaps, and those of any minor road where nobody is to yield."""
        requests = "".join(
            f'<request index="{index}" response="{told}"/>' for index, told in enumerate(("000", "001", "001"))
        )
        net = (
            NET.replace(JUNCTION, f'<junction id="c" type="priority" x="0" y="0">{requests}</junction>')
            + '<junction id="n" type="priority" x="0" y="9"/><roundabout nodes="c" edges="main"/>'
            + edge("off", "c", "n", metres="500.00")
            + way("side", "off", 0, 'via=":c_2_0"').replace('"M"', '"m"')
        )
        for words, gap in ((), "4.35 2.85 0"), (("--yielding", "none"), "6.5 3.5 0"):
            self.made("--fit", "1s", "--begin", "0", "--turns", "all", *words, net=net, routes=flows(600, 100))
            rows = (self.folder / "case" / "turns.csv").read_text().splitlines()
            self.assertEqual({row.split(",")[12] for row in rows if row.startswith("side,")}, {gap})

    def test_gaps_alone(self) -> None:
        """With `--yielding gaps` a T is imported byte for byte as it was before turns had ranks: these limits at the
        beginning of each slice, times and sums are from then."""
        case = self.made("--fit", "1s", "--begin", "0", "--yielding", "gaps", net=T_NET, routes=T_FLOWS)
        limits = {(row.link, row.from_slot): row.units for row in case.signals}
        found = {name: [limits[name, slot] for slot in range(0, 3601, 600)] for name in "es"}
        self.assertEqual(found, {"e": [453, 451, 451, 451, 451, 451, 488], "s": [144, 134, 136, 136, 134, 136, 271]})
        self.assertEqual(
            {link.name: link.free_ms for link in case.links if link.name in found}, {"e": 51429, "s": 64286}
        )
        for name, told in (
            ("signals", "c6187a4c80c2ec19cc8017ea4b7fb7e0f3d331d05ad7ddb11422694e50da040b"),
            ("links", "bfdf3291fca76a468fb9bca1835de337129dc0febf45ca9646395b7fc20c2d4e"),
        ):
            text = (self.folder / "case" / f"{name}.csv").read_bytes()
            self.assertEqual(hashlib.sha256(text).hexdigest(), told)

    def test_ranks(self) -> None:
        """By default the side road of the T waits for the left turns of the main road, too. In the 320 vehicles before
        its right turn 320 e^-0.578 / (1 - e^-0.311) = 671.6 find gaps; in the 320 + 320 + 2 * 90 before its left turn
        820 e^-1.481 / (1 - e^-0.797) = 339.6, times 1 - 90 / 1209.81, as 90 turn left where 1209.81 could: 314.3. Half
        of them go each way, so 1 / (0.5 / 671.6 + 0.5 / 314.3) = 428.2 pass; by gaps alone it is 489."""
        limits = {}
        for words in (), ("--yielding", "gaps"), ("--yielding", "ranks"):
            case = self.made("--fit", "1s", "--begin", "0", *words, net=T_NET, routes=T_FLOWS)
            limits[words] = [row.units for row in case.signals if row.link == "s" and 1200 <= row.from_slot < 1800]
        self.assertEqual(limits[()], limits["--yielding", "ranks"])
        for words, passed in ((), 428.2), (("--yielding", "gaps"), 489.0):
            for units in limits[words]:
                self.assertAlmostEqual(units * 3.6, passed, delta=6)

    def test_traffic_as_a_queue_lets_it_come(self) -> None:
        """Of 1,500 vehicles on the first side road 300 e^-0.542 / (1 - e^-0.292) = 689.9 pass, so that the second
        yields to 989.9, in which 268.1 find gaps; by gaps alone it yields to all 1,800, in which 84.5 do."""
        for words, passed in ((), 268.1), (("--yielding", "gaps"), 84.5):
            case = self.made("--fit", "1s", "--begin", "0", *words, net=NET + SECOND, routes=two_sides(1500, 100))
            units = [row.units for row in case.signals if row.link == "near" and 1200 <= row.from_slot < 1800]
            self.assertTrue(units)
            for some in units:
                self.assertAlmostEqual(some * 3.6, passed, delta=4)

    @needs_program
    def test_a_road_with_two_side_roads(self) -> None:
        """The second side road yields to the main road's vehicles and to those of the first, which all get through."""
        self.made("--fit", "1s", "--begin", "0", net=NET + SECOND, routes=two_sides(100, 1500))
        self.assertAlmostEqual(self.passed("near"), gap_capacity(400), delta=10)
        self.assertAlmostEqual(self.passed("side"), 100, delta=2)

    @needs_program
    def test_a_full_side_road(self) -> None:
        """From end to end: of 1,500 vehicles as many pass in the second half of the hour as the manual lets."""
        self.loaded(400, 1500)
        self.assertAlmostEqual(self.passed("side"), gap_capacity(400), delta=10)

    def passed(self, link: str) -> float:
        """The vehicles an hour that leave a link in the second half of the hour."""
        asked = f'{{"do":"curve","link":"{link}"}}\n'
        place = self.folder / "case"
        run = subprocess.run([BUILT, "session", "0"], cwd=place, input=asked, capture_output=True, text=True)
        words = run.stdout.split()
        left = list(map(int, words[words.index("out") + 1 :]))
        return (left[3600] - left[1800]) / 500


if __name__ == "__main__":
    unittest.main()
