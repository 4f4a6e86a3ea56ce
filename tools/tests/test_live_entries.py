"""What a change of a live scenario is as edits: by numbers worked out by hand."""
import tempfile
import unittest
from pathlib import Path

from ltm_tools.case import Case, Demand, Link, Setup, Split
from ltm_tools.errors import Fault
from ltm_tools.live.asks import Known, ask_of
from ltm_tools.live.entries import Entry, batches_of, covered
from ltm_tools.live.plans import plans_of
from ltm_tools.scenario import edits
from ltm_tools.scenario.batches import in_batches
from ltm_tools.scenario.edits import Told
from ltm_tools.scenario.rows import OwnRows


def case() -> Case:
    """Roads a from n1, then b or c to n3, and d on to n4; slots of 5 s. 50 km/h, 20 km/h and 140 vehicles/km let
    2000/h pass: 2.777 in a slot."""
    ends = {"a": ("n1", "n2"), "b": ("n2", "n3"), "c": ("n2", "n3"), "d": ("n3", "n4")}
    links = [Link(name, *end, 200, 50, 20, 140) for name, end in ends.items()]
    demand = [Demand("n1", "n4", 0, 60, 90_000), Demand("n1", "n3", 40, 50, 7_000), Demand("n2", "n4", 0, 60, 5_000)]
    splits = [
        Split("n1", "n3", 0, {"a": 1}),
        Split("n2", "n3", 0, {"b": 1}),
        Split("n1", "n4", 0, {"a": 1}),
        Split("n2", "n4", 0, {"b": 3, "c": 1}),
        Split("n2", "n4", 30, {"b": 1, "c": 1}),
        Split("n3", "n4", 0, {"d": 1}),
    ]
    return Case(Setup(5_000, 60, 32_000), links, demand, splits)


def entry(number: int, told: dict[str, object], on: bool = True) -> Entry:
    ask = ask_of(told, case())
    return Entry(number, "me", ask.text(0, 5_000), ask, on=on)


def made(*told: dict[str, object]) -> list[list[Told]]:
    """The edits of each of these changes."""
    found = batches_of(case(), OwnRows(case()), [entry(number, one) for number, one in enumerate(told)])
    return [[edit.told() for batch in batches for edit in batch] for batches in found]


def span(kind: str, first: int, end: int, **more: object) -> dict[str, object]:
    return {"kind": kind, "from": first, "to": end, **more}


class Edits(unittest.TestCase):
    def test_links(self) -> None:
        self.assertEqual(
            made(
                span("close", 3, 9, link="b"),
                span("let_in", 3, 9, link="b", per_hour=900),
                span("let_out", 3, 9, link="c", per_hour=100_000),
                {"kind": "speed", "link": "d", "kmh": 30},
            ),
            [
                [edits.limit("b", 3, 9, 0)],
                [edits.limit("b", 3, 9, 1_250)],
                [edits.exit_limit("c", 3, 9, 32_000)],
                [edits.diagram("d", 200, 30, 20, 140)],
            ],
        )

    def test_signal(self) -> None:
        """12 s green of 25 s: two slots of five seconds and two fifths of a third, which let 1.1108 out; what is cut
        off is carried on."""
        found = made(span("signal", 10, 21, link="a", green=12, cycle=25))[0]
        self.assertEqual(
            [(edit["from"], edit["to"]) for edit in found],
            [(10, 12), (12, 13), (13, 15), (15, 17), (17, 18), (18, 20), (20, 21)],
        )
        self.assertEqual([edit["vehicles"] for edit in found], ["32", "1.11", "0", "32", "1.111", "0", "32"])

    def test_a_signal_where_capacity_is_carried(self) -> None:
        """Two fifths of a slot let 2.7777 * 2 / 5 = 1.1111 out, of which nothing is lost."""
        one = case()
        one.setup.carry = True
        asked = entry(1, span("signal", 10, 21, link="a", green=12, cycle=25))
        edits_made = [edit.told() for batch in batches_of(one, OwnRows(one), [asked])[0] for edit in batch]
        self.assertEqual([edit["vehicles"] for edit in edits_made], ["32", "1.111", "0", "32", "1.111", "0", "32"])

    def test_a_road_with_its_turns(self) -> None:
        """Of a road d1 with turns b and c: closed where it begins; a limit of 900/h shared by b and c, which let the
        same through; a speed for all; a plan with a green of 10 s for b, which is two slots of 2.777 vehicles, and none
        for c."""
        known = Known({"r": ("a", "b", "c")}, {"x": ("b", "c")}, {"r": "High Street"})

        def told(**more: object) -> list[Told]:
            one = ask_of({"from": 10, "to": 15, "road": "r", **more}, case(), known)
            self.assertEqual(ask_of(one.members(), case(), known), one)
            (batches,) = batches_of(case(), OwnRows(case()), [Entry(1, "me", one.text(0, 5_000), one)])
            return [edit.told() for batch in batches for edit in batch]

        self.assertEqual(told(kind="close"), [edits.limit("a", 10, 15, 0)])
        self.assertEqual(
            told(kind="let_out", per_hour=900), [edits.exit_limit(name, 10, 15, 625) for name in ("b", "c")]
        )
        self.assertEqual(
            told(kind="speed", kmh=30), [edits.diagram(name, 200, 30, 20, 140) for name in ("a", "b", "c")]
        )
        plan = {"cycle": 25, "offset": 50, "greens": {"b": [[0, 10, 100]], "c": []}}
        for whose in ({}, {"crossing": "x"}):
            self.assertEqual(
                told(kind="signal", **plan, **whose),
                [
                    edits.exit_limit("b", 10, 12, 32_000),
                    edits.exit_limit("b", 12, 15, 0),
                    edits.exit_limit("c", 10, 15, 0),
                ],
            )
        text = ask_of({"kind": "close", "road": "r", "from": 0, "to": 12}, case(), known).text(0, 5_000)
        self.assertEqual(text, "High Street (r) closed, 0:00 to 0:01")
        for wrong, why in (
            ({"greens": {"a": [[0, 10, 100]]}}, "a is no turn of High Street"),
            ({"greens": {"b": [[0, 30, 100]]}}, "ends after the cycle of 25 s"),
            ({"greens": {"b": [[0, 9, 100], [8, 12, 100]]}}, "overlap"),
            ({"greens": {"b": [[9, 9, 100]]}}, "begins before it ends"),
            ({"greens": {"b": [[0, 9, 100]] * 65}}, "at most 64"),
            ({"greens": {}}, "for 1 to 64 links"),
            ({"greens": {"no": []}}, "for 1 to 64 links"),
            ({"road": "s"}, "has no such road"),
            ({"crossing": ["x"]}, "has no such crossing"),
        ):
            with self.assertRaisesRegex(Fault, why):
                told(kind="signal", **{**plan, **wrong})

    def test_plans_that_stand(self) -> None:
        """Greens of both kinds, the permitted ones by the mean of their factors; a plan with parts of a second, one of
        no link and a turn without a plan are left out."""
        rows = ("b,90,5,0-42 50-60*1/2,70-80,0.2 0.4", "c,90.5,0,0-9,,", "d,,,,,", "e,60,0,0-9,,")
        with tempfile.TemporaryDirectory() as folder:
            Path(folder, "turns.csv").write_text(
                "\n".join(["link,cycle,offset,greens,permitted,factors", *rows]) + "\n"
            )
            found = plans_of(folder, dict.fromkeys("abcd"))
        self.assertEqual(found, {"b": {"cycle": 90, "offset": 5, "greens": [(0, 42, 100), (50, 60, 50), (70, 80, 30)]}})

    def test_demand(self) -> None:
        """90 in 60 slots are 15 in ten: half of those in the slots from 20 to 30, and from 40 on."""
        half, none = span("demand", 20, 30, node="n1", percent=50), span("demand", 40, 60, node="n1", percent=0)
        first = [
            edits.demand("n1", "n4", 0, 60, 0),
            edits.demand("n1", "n4", 0, 20, 30_000),
            edits.demand("n1", "n4", 20, 30, 7_500),
            edits.demand("n1", "n4", 30, 60, 45_000),
        ]
        second = [
            edits.demand("n1", "n4", 30, 60, 0),
            edits.demand("n1", "n3", 40, 50, 0),
            edits.demand("n1", "n4", 30, 40, 15_000),
        ]
        self.assertEqual(made(half, none), [first, second])

    def test_a_later_demand_counts_from_the_case(self) -> None:
        """150 % and then 100 % of the same slots is what the case has, in three parts."""
        twice = made(span("demand", 20, 30, node="n1", percent=150), span("demand", 20, 30, node="n1", percent=100))
        self.assertEqual(twice[1], [edits.demand("n1", "n4", 20, 30, 15_000)])

    def test_share(self) -> None:
        """Of 3 to 1 a share of 20 % for b is 1 to 4; behind slot 30 they are 1 to 1, and b's is the same."""
        found = made(
            span("share", 10, 40, node="n2", link="b", percent=20),
            span("share", 10, 20, node="n2", link="c", percent=0),
        )
        self.assertEqual(
            found[0],
            [edits.splits("n2", "n4", [(0, {"b": 3, "c": 1}), (10, {"b": 1, "c": 4}), (40, {"b": 1, "c": 1})])],
        )
        self.assertEqual(
            found[1],
            [
                edits.splits(
                    "n2", "n4", [(0, {"b": 3, "c": 1}), (10, {"b": 1}), (20, {"b": 1, "c": 4}), (40, {"b": 1, "c": 1})]
                )
            ],
        )

    def test_an_earlier_one_that_goes(self) -> None:
        """Edits are worked out anew of what is left: without the half from 20 to 30 none is cut there."""
        one = entry(1, span("demand", 20, 30, node="n1", percent=50), on=False)
        other = entry(2, span("demand", 40, 60, node="n1", percent=0))
        (_, (batch,)) = batches_of(case(), OwnRows(case()), [one, other])
        self.assertEqual(batch[-1], edits.Demand("n1", "n4", 0, 40, 60_000))

    def test_after_lines_of_a_script(self) -> None:
        """A percentage counts from what lines before it leave."""
        line = Entry(1, "me", "", line=[edits.demand("n2", "n4", 0, 60, 50_000)])
        found = batches_of(case(), OwnRows(case()), [line, entry(2, span("demand", 0, 60, node="n2", percent=10))])
        self.assertEqual(found[1], [[edits.Demand("n2", "n4", 0, 60, 5_000)]])

    def test_batches(self) -> None:
        """At most 32 edits, and at most 65,536 bytes."""
        one = edits.Limit("b", 0, 1, 0)
        self.assertEqual([len(batch) for batch in in_batches([one] * 70)], [32, 32, 6])
        long = edits.Splits("n2", "n4", [(slot, {"b": 1}) for slot in range(2_000)])
        self.assertEqual([len(batch) for batch in in_batches([long] * 5)], [1] * 5)

    def test_covered(self) -> None:
        told = [
            span("close", 5, 9, link="b"),
            span("let_in", 4, 7, link="b", per_hour=60),
            span("let_in", 7, 12, link="b", per_hour=60),
            span("signal", 5, 9, link="b", green=5, cycle=9),
            {"kind": "speed", "link": "b", "kmh": 30},
            {"kind": "speed", "link": "b", "kmh": 40},
            span("share", 0, 9, node="n2", link="b", percent=4),
            span("share", 0, 9, node="n2", link="c", percent=4),
        ]
        entries = [entry(number, one) for number, one in enumerate(told)]
        self.assertEqual(covered(entries, 60), [True, False, False, False, True, False, False, False])
        entries[2].on = False
        self.assertEqual(covered(entries, 60), [False] * 4 + [True] + [False] * 3)


class Asked(unittest.TestCase):
    def test_what_is_refused(self) -> None:
        """Strange values of browsers, each with what is wrong."""
        good = span("close", 3, 9, link="b")
        for told, why in (
            ({**good, "link": "no_such"}, "has no such link"),
            ({**good, "link": {"a": 1}}, "has no such link"),
            ({**good, "link": 'a"}\n{"do":"settle"}'}, "has no such link"),
            ({**good, "from": 9}, "ends before it begins"),
            ({**good, "from": -1}, "from 0 to 59"),
            ({**good, "to": 10**30}, "from 1 to 60"),
            ({**good, "from": "3"}, "from 0 to 59"),
            ({**good, "from": 3.0}, "from 0 to 59"),
            ({**good, "from": True}, "from 0 to 59"),
            ({**good, "kind": "x" * 1000}, "one of close"),
            ({**good, "kind": ["close"]}, "one of close"),
            ({}, "one of close"),
            (span("let_in", 3, 9, link="b"), "The number of vehicles per hour is a whole number from 0 to 1,000,000"),
            (span("signal", 3, 9, link="b", green=9, cycle=5), "longer"),
            ({"kind": "speed", "link": "b", "kmh": 0}, "from 1 to"),
            (span("demand", 3, 9, node="<b>"), "has no such node"),
            (span("share", 3, 9, node="n3", link="a", percent=5), "a does not begin at n3"),
            (span("share", 3, 9, node="n2", link="b", percent=101), "at most 100"),
        ):
            with self.assertRaisesRegex(Fault, why, msg=str(told)):
                ask_of(told, case())

    def test_what_would_change_nothing(self) -> None:
        for told, why in (
            (span("demand", 3, 9, node="n3", percent=5), "No vehicles set out at n3"),
            (span("share", 3, 9, node="n3", link="d", percent=5), ""),
        ):
            try:
                found = made(told)[0]
            except Fault as fault:
                self.assertRegex(str(fault), why)
            else:
                self.assertEqual(found, [])


if __name__ == "__main__":
    unittest.main()
