"""Two cases side by side: what differs is the difference of what each has, to the last digit."""
import csv
import io
import json
import shutil
import unittest
from contextlib import redirect_stdout
from decimal import Decimal
from pathlib import Path

import commands
from support import BUILT, EXAMPLES, FolderTest, needs_program
from support_loadings import DATA, read
from ltm_tools import cli, edits
from ltm_tools.case import Case
from ltm_tools.errors import Fault
from ltm_tools.listing import rounded
from ltm_tools.loading.compare import Comparison, change, most_changed
from ltm_tools.loading.loaded import LoadedCase
from ltm_tools.loading.remaining import Remaining
from ltm_tools.loading.sides import of_curves
from ltm_tools.program import output
from ltm_tools.scenario.session import Session

TOLD = {"spent_seconds": "spent", "queued_seconds": "queued", "waited_seconds": "waited"}


def told_by_the_program(folder: Path) -> dict[tuple[str, str], Decimal]:
    """The times of `ltm delay`: of all by their words, queued of each link and waited of each node by kind and name."""
    first, *lines = (line.split() for line in output(folder, "delay", program=BUILT).decode().splitlines())
    told = {("totals", word): Decimal(first[first.index(word) + 1]) for word in TOLD.values()}
    for words in lines:
        told[words[0], words[1]] = Decimal(words[words.index({"link": "queued", "node": "waited"}[words[0]]) + 1])
    return told


class Totals(unittest.TestCase):
    def test_a_case_with_another(self) -> None:
        both = Comparison(of_curves(LoadedCase(*read("base"))), of_curves(LoadedCase(*read("base_signals"))))
        one, other = (
            (DATA / name / "delay.out").read_text().split("\n")[0].split() for name in ("base", "base_signals")
        )
        told = {name: tuple(Decimal(time).scaleb(-6) for time in pair) for name, pair in both.times().items()}
        for place, name in ((3, "spent"), (5, "queued"), (7, "waited")):
            self.assertEqual(told[name], (Decimal(one[place]), Decimal(other[place])))
        self.assertEqual(told["delay"][0], Decimal(one[5]) + Decimal(one[7]))
        links = both.links()
        for line in (DATA / "base_signals" / "delay.out").read_text().splitlines():
            words = line.split()
            if words[0] == "link":
                self.assertEqual(Decimal(links[words[1]][1]).scaleb(-6), Decimal(words[5]))

    def test_a_link_with_its_turns(self) -> None:
        both = Comparison(of_curves(LoadedCase(*read("spillback"))), of_curves(LoadedCase(*read("spillback"))))
        self.assertEqual(both.links({"x": ("a", "b")}), {"x": both.links()["a"]})

    def test_with_itself(self) -> None:
        both = Comparison(of_curves(LoadedCase(*read("grid"))), of_curves(LoadedCase(*read("grid"))))
        self.assertEqual(most_changed(both.links()), {})
        self.assertTrue(
            all(
                one == other
                for pairs in (both.times(), both.amounts(), both.arrivals(1000))
                for one, other in pairs.values()
            )
        )

    def test_other_networks(self) -> None:
        both = Comparison(of_curves(LoadedCase(*read("spillback"))), of_curves(LoadedCase(*read("road"))))
        self.assertEqual(both.links()["b"], (0, None))
        # 16 slots of 1 s, and 5: what comes after is not there
        self.assertEqual(both.arrivals(4000)[8000], (800, None))
        self.assertEqual(both.arrivals(4000)[16000], (2400, None))

    def test_most_changed(self) -> None:
        pairs = {"a": (1, 1), "b": (5, 2), "c": (0, None), "d": (None, 9), "e": (2, 4)}
        self.assertEqual(list(most_changed(pairs)), ["d", "b", "e"])
        self.assertEqual(list(most_changed(pairs, 2)), ["d", "b"])

    def test_change(self) -> None:
        self.assertEqual([change(pair) for pair in ((1, 3), (5, 2), (5, None), (None, 4))], [2, -3, -5, 4])

    def test_rounded(self) -> None:
        self.assertEqual(
            [str(rounded(top, 8, 2)) for top in (1, -1, 0, 12, -12)], ["0.13", "-0.13", "0.00", "1.50", "-1.50"]
        )


LOADING = """kind,name,destination,counts
up,a,n2,0 500 1000 1000 1000
down,a,n2,0 0 0 500 {last}
dep,n1,n2,0 500 1000 1000 1000
dep,n2,n2,0 0 0 0 0
arr,n2,n2,0 0 0 500 {last}
"""


class NotThere(FolderTest):
    """The smallest case, of which one vehicle sets out, beside itself with a thousandth or two that do not arrive."""

    def compare(self, last: int, *words: str) -> tuple[int, str, str]:
        case = str(self.case(curves=LOADING.format(last=1000)))
        other = self.folder / "other.csv"
        other.write_text(LOADING.format(last=last))
        return commands.run(
            "compare", case, case, "--curves", f"{case}/curves.csv", "--other-curves", str(other), *words
        )

    def test_hours_that_are_not_to_be_compared(self) -> None:
        told = (
            "hours cannot be compared: 0.000 and 0.002 vehicles have not arrived by the end, which differ by over 0.1 %"
            " of the vehicles; take a longer horizon\n"
        )
        status, out, err = self.compare(998)
        self.assertEqual((status, err), (0, ""))
        self.assertIn(f"not_there  0.000  0.002   0.002\n{told}\nqueued on links", out)
        for words in (["--format", "csv", "--table", "totals"], ["--format", "json"]):
            status, out, err = self.compare(998, *words)
            self.assertEqual((status, err), (0, f"ltm-tools compare: {told}"))
        self.assertIn('{"name": "not_there", "one": 0.000, "other": 0.002, "change": 0.002}', out)

    def test_a_thousandth_of_the_vehicles(self) -> None:
        for last in (1000, 999):
            for words in ([], ["--format", "csv"]):
                status, out, err = self.compare(last, *words)
                self.assertEqual((status, err), (0, ""))
                self.assertNotIn("cannot be compared", out)
        self.assertTrue(Remaining(0, 0).comparable(Remaining(0, 0)))
        self.assertFalse(Remaining(9_000, 10).comparable(Remaining(9_000, 0)))
        self.assertTrue(Remaining(9_000, 0).comparable(Remaining(10_000, 10)))


@needs_program
class Command(FolderTest):
    """The corridor, and it with works that let through a third more: no queue there."""

    def setUp(self) -> None:
        super().setUp()
        case = Case.read(EXAMPLES / "corridor")
        case.link("works").jam_per_km = 200
        case.write(self.folder / "wider")

    def run_it(self, *words: str) -> str:
        with redirect_stdout(io.StringIO()) as written:
            self.assertEqual(
                cli.run(
                    ["compare", str(EXAMPLES / "corridor"), str(self.folder / "wider"), "--program", str(BUILT), *words]
                ),
                0,
            )
        return written.getvalue()

    def test_text(self) -> None:
        lines = [line.split() for line in self.run_it("--start", "7:00", "--every", "20", "--links", "2").splitlines()]
        self.assertIn(["generated", "2000.000", "2000.000", "0.000"], lines)
        self.assertIn(["arrived", "1939.993", "1939.993", "0.000"], lines)
        self.assertIn(["waited", "at", "origins:", "no", "change"], lines)
        self.assertIn("the 2 of 5 that changed most".split(), [line[-7:] for line in lines])
        self.assertEqual([line[0] for line in lines[-4:]], ["7:00", "7:20", "7:40", "8:00"])

    def test_tables(self) -> None:
        told = json.loads(self.run_it("--format", "json"), parse_float=Decimal)
        links = list(csv.DictReader(io.StringIO(self.run_it("--format", "csv"))))
        self.assertEqual([row["name"] for row in links], [link.name for link in Case.read(EXAMPLES / "corridor").links])
        self.assertEqual([Decimal(row["change"]) for row in links], [Decimal(row["change"]) for row in told["links"]])
        self.assertEqual(
            sum(Decimal(row["one"]) for row in links),
            {row["name"]: row["one"] for row in told["totals"]}["queued_seconds"],
        )

    def test_delay_is_the_program_s(self) -> None:
        """Of all, of each link and of each origin what `ltm delay` tells of that case, to the last digit, and their
        difference."""
        for one, other, apart in (
            ("corridor", self.folder / "wider", 0),
            ("closures", EXAMPLES / "closures", 0),
            ("incident", EXAMPLES / "merge", 1),
            ("spillback", EXAMPLES / "evening", 1),
        ):
            status, text, fault = commands.run(
                "compare", str(EXAMPLES / one), str(other), "--program", str(BUILT), "--format", "json"
            )
            self.assertEqual((status, fault.count("hours cannot be compared"), fault.count("\n")), (0, apart, apart))
            assert_told(
                self,
                json.loads(text, parse_float=Decimal),
                told_by_the_program(EXAMPLES / one),
                told_by_the_program(Path(other)),
            )

    def test_gap(self) -> None:
        """The gap of docs/MODEL.md, worked by hand: 64.900 vehicle seconds are spent, `least` is as much, and 4.600
        vehicles are late. With b as wide as a there is no queue."""
        case, script = str(EXAMPLES / "spillback"), str(EXAMPLES / "spillback" / "script.jsonl")
        told = json.loads(
            commands.run("compare", case, "--script", script, "--gap", "--format", "json", "--program", str(BUILT))[1],
            parse_float=Decimal,
        )
        found = {row["name"]: row["one"] for row in told["totals"]}
        self.assertEqual(
            [str(found[name]) for name in ("spent_seconds", "least_seconds", "gap_seconds", "late")],
            ["64.900000", "64.900000", "0.000000", "4.600"],
        )
        status, out, fault = commands.run("compare", case, case, "--gap", "--curves", "x", "--program", str(BUILT))
        self.assertEqual((status, out, fault.count("\n")), (1, "", 1))
        self.assertIn("leave out --curves and --other-curves", fault)

    def test_as_by_curve_files(self) -> None:
        """What a session tells of two cases is, byte for byte, what comes of their curve files: with signals, with who
        waits and is under way at the end, of networks and horizons that differ, with links of the name of a word."""
        for one, other in (("signal", "closures"), ("spillback", "evening"), ("own_routes", "incident")):
            for name in (one, other):
                folder = self.folder / name
                shutil.copytree(EXAMPLES / name, folder)
                if not (folder / "splits.csv").exists():
                    (folder / "splits.csv").write_bytes(output(folder, "routes", program=BUILT))
                (self.folder / f"{name}.csv").write_bytes(output(folder, "curves", program=BUILT))
            files = ["--curves", str(self.folder / f"{one}.csv"), "--other-curves", str(self.folder / f"{other}.csv")]
            for form in ("text", "json"):
                words = [
                    "compare",
                    str(self.folder / one),
                    str(self.folder / other),
                    "--every",
                    "0.7",
                    "--format",
                    form,
                    "--program",
                    str(BUILT),
                ]
                told = commands.run(*words)
                self.assertEqual(told, commands.run(*words, *files))
                self.assertEqual(told[0], 0)


def assert_told(
    test: unittest.TestCase,
    tables: dict[str, list[dict[str, Decimal]]],
    one: dict[tuple[str, str], Decimal],
    other: dict[tuple[str, str], Decimal],
) -> None:
    """That the tables of a comparison have just these times of both, digit by digit, and their differences."""
    found: tuple[dict[tuple[str, str], str], dict[tuple[str, str], str]] = {}, {}
    for table, kind in (("totals", "totals"), ("links", "link"), ("origins", "node")):
        for row in tables[table]:
            name = TOLD.get(str(row["name"])) if kind == "totals" else str(row["name"])
            if name is not None:
                test.assertEqual(row["change"], (row["other"] or 0) - (row["one"] or 0))
                for place, column in enumerate(("one", "other")):
                    if row[column] is not None:
                        found[place][kind, name] = str(row[column])
    for place, told in enumerate((one, other)):
        test.assertEqual(found[place], {key: str(time) for key, time in told.items()})


@needs_program
class Versions(FolderTest):
    """A session that is edited twice: each of its three versions beside the others."""

    made = [
        [edits.limit("north_east", 60, 90, 0)],
        [edits.exit_limit("west_south", 30, 70, 100), edits.demand("west", "east", 0, 60, 300_000)],
    ]

    def test_versions_of_a_session(self) -> None:
        with Session(EXAMPLES / "closures", program=BUILT) as session:
            times, totals = [session.delay()[1:]], [session.totals()[1:]]
            for batch in self.made:
                session.edit(*batch)
                session.settle()
                times.append(session.delay()[1:])
                totals.append(session.totals()[1:])
            for one, other in ((0, 1), (1, 2), (2, 0), (0, None)):
                found = session.compare(one, other)
                for place, name in enumerate(("spent", "queued", "waited")):
                    self.assertEqual(
                        found.times()[name], (times[one][place], times[2 if other is None else other][place])
                    )
                for place, name in enumerate(("generated", "arrived", "on_links", "waiting")):
                    self.assertEqual(
                        found.amounts()[name], (totals[one][place], totals[2 if other is None else other][place])
                    )
                not_there = [generated - arrived for generated, arrived, *_ in totals]
                self.assertEqual(
                    found.amounts()["not_there"], (not_there[one], not_there[2 if other is None else other])
                )
            self.assertEqual(len(set(times)), 3)
            for version in (0, 1, 2):
                session.save(self.folder / str(version), version)
            self.assertRaisesRegex(Fault, "there is no version 3: 2 batches are accepted", session.compare, 0, 3)
            self.assertRaisesRegex(Fault, "there is no version -1", session.save, self.folder / "none", -1)
        self.assertEqual(Case.read(self.folder / "0"), Case.read(EXAMPLES / "closures"))

    def test_versions_of_a_script(self) -> None:
        """A batch that is refused makes no version; a line that is no edit neither."""
        script = self.folder / "script.jsonl"
        lines = [
            {"do": "edit", "edits": self.made[0]},
            {"do": "totals"},
            {"do": "edit", "edits": [edits.limit("nowhere", 0, 1, 0)]},
            {"do": "edit", "edits": self.made[1]},
        ]
        script.write_text("".join(json.dumps(line) + "\n" for line in lines))
        case = str(EXAMPLES / "closures")
        with Session(case, program=BUILT) as session:
            for version, batch in enumerate(self.made, 1):
                session.edit(*batch)
                session.save(self.folder / str(version))
        for words, one, other in (
            ([], EXAMPLES / "closures", self.folder / "2"),
            (["--versions", "2", "1"], self.folder / "2", self.folder / "1"),
        ):
            status, text, fault = commands.run(
                "compare", case, "--script", str(script), "--program", str(BUILT), "--format", "json", *words
            )
            self.assertEqual((status, fault.count("hours cannot be compared"), fault.count("\n")), (0, 1, 1))
            assert_told(
                self, json.loads(text, parse_float=Decimal), told_by_the_program(one), told_by_the_program(other)
            )
        told = commands.run("compare", case, "--script", str(script), "--program", str(BUILT))[1]
        self.assertEqual(told.split(";")[0], f"one is version 0 of {case}, other is version 2 of 2")

    def test_faults(self) -> None:
        case, script = str(EXAMPLES / "incident"), str(EXAMPLES / "incident" / "script.jsonl")
        for words, part in (
            ([], "name the folder of another case, or a --script"),
            ([case, "--versions", "0", "1"], "--versions needs a --script"),
            ([case, "--script", script], "no other case"),
            (["--script", script, "--curves", "x"], "no curve file"),
            (["--script", script, "--versions", "0", "2"], "there is no version 2: 1 batches are accepted"),
        ):
            status, out, fault = commands.run("compare", case, *words, "--program", str(BUILT))
            self.assertEqual((status, out, fault.count("\n")), (1, "", 1), words)
            self.assertIn(part, fault)


if __name__ == "__main__":
    unittest.main()
