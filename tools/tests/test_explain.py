"""What each fault of a case, of a curve file and of a script is explained by: one worked case for each cause in
docs/FORMATS.md.

The lines of the program are worked out by hand after FORMATS; where the program is at hand it has to write them too.
"""
import json
import subprocess
import unittest
from pathlib import Path

from support import BUILT, FolderTest, ROAD, needs_program
from ltm_tools.case.explain import explain
from ltm_tools.case.script import read_line

DATA = Path(__file__).resolve().parent / "data" / "delay"
LINKS = "link,from,to,length_m,free_kmh,wave_kmh,jam_per_km\n"
DEMAND = "origin,destination,from_slot,to_slot,vehicles\n"
SPLITS = "node,destination,from_slot,weights\n"
SIGNALS = "link,from_slot,to_slot,vehicles\n"
CURVES = "kind,name,destination,counts\n"
ASKS = "step_ms,slots,origin_capacity,signals\n1000,4,1,1\n"
LINK = "20,36,18,150\n"  # free-flow time 2000 ms, wave time 4000 ms, 0.5 vehicles in a second
LOADING = CURVES + (
    "up,a,n2,0 500 1000 1000 1000\ndown,a,n2,0 0 0 500 1000\ndep,n1,n2,0 500 1000 1000 1000\n"
    "dep,n2,n2,0 0 0 0 0\narr,n2,n2,0 0 0 500 1000\n"
)


def links(*rows: str) -> str:
    return ROAD["links"] + "".join(f"{row},{LINK}" for row in rows)


def setup(text: str) -> str:
    return f"step_ms,slots,origin_capacity\n{text}\n"


def star(count: int) -> dict[str, str]:
    """So many destinations beside n2, each at the end of a chain from n1."""
    chain = [f"c{k},n{k + 2},n{k + 3}" for k in range(count)]
    demand = "".join(f"n1,n{k + 3},0,1,1\n" for k in range(count))
    return {"links": links(*chain), "demand": ROAD["demand"] + demand}


# the files that differ from the smallest case; status; the program's line; texts that the explanation has
CASES: dict[str, tuple[dict[str, str], int, str, list[str]]] = {
    "Header": (
        {"links": "link;from;to\n"},
        6,
        "bad case links row 1 Header",
        ["links.csv, line 1", "semicolons", "link,from,to,length_m,free_kmh,wave_kmh,jam_per_km"],
    ),
    "Header with tabs": ({"links": "link\tfrom\tto\n"}, 6, "bad case links row 1 Header", ["tabs", "with commas"]),
    "Header in UTF-16": (
        {"demand": "\0".join(DEMAND)},
        6,
        "bad case demand row 1 Header",
        ["UTF-16", "save it in UTF-8"],
    ),
    "Header below a separator": (
        {"splits": "sep=,\n" + ROAD["splits"]},
        6,
        "bad case splits row 1 Header",
        ["tells a separator", "take it out"],
    ),
    "Header of setup": (
        {"setup": "step,slots\n"},
        6,
        "bad case setup row 1 Header",
        [
            "exactly step_ms,slots,origin_capacity, and behind it each of signals, limits, cells, rows,"
            " links, destinations, moves, carry, history, routes or not, in this order",
            '"step,slots"',
        ],
    ),
    "Header in large letters": ({"demand": DEMAND.upper()}, 6, "bad case demand row 1 Header", ["small letters"]),
    "Header missing": ({"splits": ""}, 6, "bad case splits row 1 Header", ["splits.csv: the file has no record"]),
    "Rows": (
        {"setup": "step_ms,slots,origin_capacity\n"},
        6,
        "bad case setup row 2 Rows",
        ["no record after the header"],
    ),
    "Rows too many": (
        {"setup": setup("1000,4,1\n\n1000,4,1")},
        6,
        "bad case setup row 3 Rows",
        ["setup.csv, line 4 (record 3)", "a second record"],
    ),
    "Width": (
        {"demand": ROAD["demand"] + "n1,n2,0,2\n"},
        6,
        "bad case demand row 3 Width",
        ["demand.csv, line 3", "4 fields, and its header has 5", "missing"],
    ),
    "Field name": (
        {"links": LINKS + f"Stra\u00dfe,n1,n2,{LINK}"},
        6,
        "bad case links row 2 Field 1",
        ['link "Stra\u00dfe"', "1 to 32 ASCII letters, digits, _ or -", "without accents"],
    ),
    "Field whole": (
        {"links": LINKS + "a,n1,n2,20.5,36,18,150\n"},
        6,
        "bad case links row 2 Field 4",
        ['length_m "20.5"', "below 4294967296", "without a point"],
    ),
    "Field vehicles": (
        {"demand": DEMAND + "n1,n2,0,2,1.0005\n"},
        6,
        "bad case demand row 2 Field 5",
        ['vehicles "1.0005"', "three digits behind the point"],
    ),
    "Field weights": (
        {"splits": SPLITS + "n1,n2,0,a=1  a=1\n"},
        6,
        "bad case splits row 2 Field 4",
        ['weights "a=1  a=1"', "one space between two"],
    ),
    "Range": (
        {"setup": setup("60001,4,1")},
        6,
        "bad case setup row 2 Range 1",
        ['step_ms "60001"', "1 to 60000 milliseconds"],
    ),
    "Range of slots": (
        {"setup": setup("1000,10001,1")},
        6,
        "bad case setup row 2 Range 2",
        ['slots "10001"', "1 to 10000", "longer step"],
    ),
    "Range of capacity": (
        {"setup": setup("1000,4,32.001")},
        6,
        "bad case setup row 2 Range 3",
        ['origin_capacity "32.001"', "0.001 to 32 vehicles"],
    ),
    "TwiceNamed": (
        {"links": links("a,n2,n1")},
        6,
        "bad case links row 3 TwiceNamed",
        ["the link a stands already, in row 2"],
    ),
    "SelfLoop": (
        {"links": links("b,n2,n2")},
        6,
        "bad case links row 3 SelfLoop",
        ['to "n2"', "begins and ends at the node n2"],
    ),
    "TooManyLinks": (
        {"links": links(*(f"l{k},k{k},k{k + 1}" for k in range(4000)))},
        6,
        "bad case links row 4002 TooManyLinks",
        ["4,000 links already"],
    ),
    "TooManyOut": (
        {"links": links("b,n1,n3", "c,n1,n4", "d,n1,n5", "e,n1,n6")},
        6,
        "bad case links row 6 TooManyOut",
        ["4 links leave the node n1 already: a, b, c, d"],
    ),
    "TooManyIn": (
        {"links": links("b,n3,n2", "c,n4,n2", "d,n5,n2", "e,n6,n2")},
        6,
        "bad case links row 6 TooManyIn",
        ["4 links enter the node n2 already: a, b, c, d"],
    ),
    "Zero": (
        {"links": LINKS + "a,n1,n2,20,0,18,150\n"},
        6,
        "bad case links row 2 Zero free_kmh",
        ['free_kmh "0"', "at least 1"],
    ),
    "Over": (
        {"links": LINKS + "a,n1,n2,20,36,18,10001\n"},
        6,
        "bad case links row 2 Over jam_per_km",
        ['jam_per_km "10001"', "at most 10,000"],
    ),
    # 16 m at 18 km/h is 3200 ms, and at 36 km/h 1600 ms; 20 m is 2000 ms, 19 m 1900 ms
    "StepTooLong": (
        {"setup": setup("2000,4,1"), "links": LINKS + "a,n1,n2,16,36,18,150\n"},
        6,
        "bad case links row 2 StepTooLong 1600 3200",
        [
            "the free-flow time of 1600 ms is below the step of 2000 ms",
            "a step of at most 1600 ms",
            "a length of at least 20 m at 36 and 18 km/h",
        ],
    ),
    # 1 * 36 * 18 * 5 / (54 * 3600) is 0.0167, and 1 at 300 ms
    "NoCapacity": (
        {"setup": setup("5,4,1"), "links": LINKS + "a,n1,n2,20,36,18,1\n"},
        6,
        "bad case links row 2 NoCapacity",
        ["in a step of 5 ms", "a step of at least 300 ms"],
    ),
    # 10000 * 36 * 18 * 1000 / (54 * 3600) = 33333 units; 33.333 a ms, and so 32000 up to 960 ms
    "CapacityOver": (
        {"links": LINKS + "a,n1,n2,20,36,18,10000\n"},
        6,
        "bad case links row 2 CapacityOver",
        ["33.333 vehicles", "a step of at most 960 ms"],
    ),
    "Unknown origin": (
        {"demand": DEMAND + "node1,n2,0,2,1\n", "links": LINKS + f"a,node_1,n2,{LINK}"},
        6,
        "bad case demand row 2 Unknown 1",
        ['origin "node1"', "no node node1", "there is node_1"],
    ),
    "Unknown destination": (
        {"splits": SPLITS + "n1,n9,0,a=1\n"},
        6,
        "bad case splits row 2 Unknown 2",
        ['destination "n9"', "no node n9"],
    ),
    "Unknown weight": (
        {"links": links("b,n2,n3"), "splits": SPLITS + "n1,n2,0,a=1 b=1\n"},
        6,
        "bad case splits row 2 Unknown 4",
        ['weights "a=1 b=1"', "b is no link out of the node n1: it leaves n2", "the links out of n1 are a"],
    ),
    "Unknown link": (
        {"setup": ASKS, "signals": SIGNALS + "n1,0,1,0\n"},
        6,
        "bad case signals row 2 Unknown 1",
        ['link "n1"', "no link n1"],
    ),
    "NoOrigin": (
        {"demand": DEMAND + "n2,n1,0,2,1\n"},
        6,
        "bad case demand row 2 NoOrigin",
        ["no link leaves the origin n2"],
    ),
    "SameEnds": (
        {"demand": DEMAND + "n1,n1,0,2,1\n"},
        6,
        "bad case demand row 2 SameEnds",
        ["the origin and the destination are both n1"],
    ),
    "BadSlots none": (
        {"demand": DEMAND + "n1,n2,2,2,1\n"},
        6,
        "bad case demand row 2 BadSlots",
        ['from_slot "2"', "up to, and without, slot 2 there is none"],
    ),
    "BadSlots past": (
        {"demand": DEMAND + "n1,n2,0,5,1\n"},
        6,
        "bad case demand row 2 BadSlots",
        ['to_slot "5"', "4 slots, numbered 0 to 3", "at most 4"],
    ),
    "BadSlots of splits": (
        {"splits": SPLITS + "n1,n2,4,a=1\n"},
        6,
        "bad case splits row 2 BadSlots",
        ['from_slot "4"', "slot 4 is not below the horizon"],
    ),
    "BadSlots of signals": (
        {"setup": ASKS, "signals": SIGNALS + "a,0,5,0\n"},
        6,
        "bad case signals row 2 BadSlots",
        ['to_slot "5"', "at most 4"],
    ),
    "ZeroWeight": (
        {"splits": SPLITS + "n1,n2,0,a=0\n"},
        6,
        "bad case splits row 2 ZeroWeight",
        ['weights "a=0"', "all weights are 0"],
    ),
    "TooManyDestinations": (
        star(64),
        6,
        "bad case demand row 66 TooManyDestinations",
        ['destination "n66"', "destination 65, and at most 64"],
    ),
    "TooManyRows": (
        {
            "setup": setup("1000,10000,1"),
            "demand": DEMAND + "".join(f"n1,n2,{k % 5000},{k % 5000 + 1 + k // 5000},1\n" for k in range(10_001)),
        },
        6,
        "bad case demand row 10002 TooManyRows",
        ["10,000 rows already"],
    ),
    "NoSplit of demand": (
        {"splits": SPLITS},
        6,
        "bad case whole row 0 NoSplit n1 n2",
        ["vehicles set out from n1 for n2", "add n1,n2,0,a=1 to splits.csv", "ltm routes"],
    ),
    "NoSplit late": (
        {"splits": SPLITS + "n1,n2,1,a=1\n"},
        6,
        "bad case whole row 0 NoSplit n1 n2",
        ["for node n1 and destination n2 begins at slot 1", "slot 0"],
    ),
    "NoSplit on the way": (
        {"links": links("b,n2,n3", "c,n2,n4"), "splits": SPLITS + "n1,n3,0,a=1\n", "demand": DEMAND + "n1,n3,0,2,1\n"},
        6,
        "bad case whole row 0 NoSplit n2 n3",
        ["traffic for n3 is sent from n1 over a to n2", "LINK one of b, c"],
    ),
    "NoSplit at an end": (
        {"links": links("b,n1,n3"), "splits": SPLITS + "n1,n2,0,a=1 b=1\n"},
        6,
        "bad case whole row 0 NoSplit n3 n2",
        ["over b to n3, and no link leaves n3", "another way"],
    ),
    # 64 chain links and 65 destinations would be one too many, so 63: in all 64 links, 65 nodes, 64 destinations.
    # n1 and the last node have widths 2*1*64 + 2*1*64 + 3 = 259 and 2*1*64 + 2 = 130; the 63 between, 2 arms and
    # 1 out-link, have 2*2*64 + 2*64 + 4 = 388. The widths sum to 24833; a boundary of both curves has
    # 2 * (128 + 65 + 1) * 64 = 24832; the limits are 128: 49793 a slot and 24832 beside
    "CellsOver": (
        {
            "setup": setup("1000,1085,1"),
            **star(63),
            "splits": SPLITS
            + "".join(f"n{v},n{w},0,{'a' if v == 1 else f'c{v - 2}'}=1\n" for w in range(2, 66) for v in range(1, w)),
        },
        6,
        f"bad case whole row 0 CellsOver {49793 * 1085 + 24832}",
        ["54,050,237 cells, and at most 54,000,000", "1,083 of its 1,085 slots would fit"],
    ),
}


class Explained(FolderTest):
    def test_each_cause(self) -> None:
        for name, (files, status, line, parts) in CASES.items():
            told = "\n".join(explain(str(self.fresh(files)), status, line, ["load"]))
            for part in parts:
                with self.subTest(name, part=part):
                    self.assertIn(part, told)

    def test_another_line_is_not_explained(self) -> None:
        for name, (files, status, line, _) in CASES.items():
            for other in (line + "0", "bad case links row 3 Width", "bad case whole row 0 NoSplit n7 n8", ""):
                with self.subTest(name, other=other):
                    self.assertEqual(explain(str(self.fresh(files)), status, other, ["load"]), [])
        self.assertEqual(explain(str(self.fresh({})), 6, "bad case links row 2 Width", ["load"]), [])

    def fresh(self, files: dict[str, str]) -> Path:
        for path in (self.folder / "case").glob("*"):
            path.unlink()
        return self.case(**files)

    @needs_program
    def test_the_program_tells_these(self) -> None:
        for name, (files, status, line, _) in CASES.items():
            with self.subTest(name):
                run = subprocess.run([BUILT, "load"], cwd=self.fresh(files), capture_output=True, text=True)
                self.assertEqual((run.returncode, run.stdout), (status, line + "\n"))

    def test_too_many_split_rows(self) -> None:
        rows = "".join(f"n{v},n{v % 2 + 1},{k},{'ab'[v - 1]}=1\n" for v in (1, 2) for k in range(10_000))
        chain = links("b,n2,n1", "c,n2,n3", "d,n3,n1", "e,n3,n2")
        more = "".join(
            f"{node},{end},{k},{link}=1\n"
            for node, end, link in (("n3", "n1", "d"), ("n3", "n2", "e"), ("n1", "n3", "a"))
            for k in range(10_000)
        )
        case = self.case(setup=setup("1000,10000,1"), links=chain, splits=SPLITS + rows + more + "n2,n3,0,c=1\n")
        self.assertIn("50,000 rows already", explain(str(case), 6, "bad case splits row 50002 TooManyRows")[0])

    def test_routes(self) -> None:
        case = str(self.case(links=links("b,n3,n1"), demand=DEMAND + "n1,n3,0,2,1\n", splits=None))
        told = explain(case, 6, "bad case whole row 0 NoSplit n1 n3", ["routes"])
        self.assertEqual(told[0], "vehicles set out from n1 for n3, and no links lead there from n1")
        self.assertEqual(explain(case, 6, "bad case whole row 0 NoSplit n1 n3", ["load"]), [])


class Missing(FolderTest):
    def test_files(self) -> None:
        case = str(self.case(splits=None))
        self.assertEqual(
            explain(case, 3, "", ["load"]),
            [
                "splits.csv is not there",
                f"    ./ltm {case} routes >{case}/splits.csv writes one, of the fastest routes on empty roads",
            ],
        )
        self.assertEqual(explain(case, 3, "", ["routes"]), [])
        (self.folder / "case" / "links.csv").unlink()
        self.assertEqual(explain(case, 3, "", ["routes"])[0], "links.csv is not there")

    def test_names_in_large_letters(self) -> None:
        case = self.case(splits=None)
        (case / "Splits.csv").write_text(ROAD["splits"])
        self.assertEqual(
            explain(str(case), 3, ""),
            ["splits.csv is not there", "    there is Splits.csv: file names are in small letters"],
        )

    def test_signals(self) -> None:
        self.assertEqual(
            explain(str(self.case(setup=ASKS)), 3, ""),
            ["signals.csv is not there", "    setup.csv asks for it: write it, or put 0 in the field signals"],
        )

    def test_files_beside_the_case(self) -> None:
        case = self.case(edits1="")
        self.assertEqual(explain(str(case), 3, "", ["check"]), ["curves.csv is not there", "    ltm curves writes it"])
        (case / "edits1.jsonl").write_text("")
        self.assertEqual(explain(str(case), 3, "", ["editors", "2"])[0], "edits2.jsonl is not there")


class Sizes(FolderTest):
    def test_files(self) -> None:
        case = self.case()
        with open(case / "splits.csv", "wb") as file:
            file.truncate(16_777_217)
        self.assertEqual(
            explain(str(case), 7, "too long splits"),
            ["splits.csv has 16,777,217 bytes, and at most 16,777,216 are read"],
        )
        self.assertEqual(explain(str(case), 7, "too long links"), [])

    def test_scripts(self) -> None:
        self.assertIn(
            "line 3 of the script has more than 65,536 bytes",
            explain(str(self.case()), 7, "too long line 3", ["session", "0"])[0],
        )
        self.assertIn("more than 100,000 lines", explain(str(self.case()), 8, "too many commands", ["session", "0"])[0])
        self.assertIn("more than 10,000 lines", explain(str(self.case()), 8, "too many commands", ["editors", "1"])[0])


class CurveFiles(FolderTest):
    def told(self, text: str, status: int, line: str) -> str:
        return "\n".join(explain(str(self.case(curves=text)), status, line, ["check"]))

    def test_records(self) -> None:
        for old, new, line, part in (
            ("kind,", "kinds,", "row 1 Header", "the first record is to be kind,name,destination,counts"),
            ("arr,n2,n2,0 0 0 500 1000\n", "", "row 6 Rows", "the record of arr n2 n2 is due"),
            ("500 1000\n", "500 1000\narr,n2,n2,0\n", "row 4 Field 1", 'kind "arr": dep is due here'),
            ("arr,n2,n2,0 0 0 500 1000\n", "arr,n2,n2,0 0 0 500 1000\narr\n", "row 7 Rows", "a record more"),
            ("up,a,n2,0 500", "up,a,n2,0,500", "row 2 Width", "5 fields, and 4 are due"),
            ("down,a", "up,a", "row 3 Field 1", 'kind "up": down is due here'),
            ("down,a", "down,b", "row 3 Field 2", 'name "b": a is due here'),
            ("down,a,n2", "down,a,n1", "row 3 Field 3", 'destination "n1": n2 is due here'),
            (
                "0 500 1000 1000 1000\ndown",
                "0 500 1000 1000\ndown",
                "row 2 Field 4",
                "4 counts, and the case has 5 boundaries",
            ),
            (
                "0 500 1000 1000 1000\ndown",
                "0 5e2 1000 1000 1000\ndown",
                "row 2 Field 4",
                'the count at boundary 1 is "5e2"',
            ),
        ):
            with self.subTest(line):
                self.assertIn(part, self.told(LOADING.replace(old, new, 1), 11, f"bad curves {line}"))
        self.assertEqual(self.told(LOADING, 11, "bad curves row 2 Width"), "")

    def test_no_loading(self) -> None:
        told = self.told(LOADING, 12, "loading no node n1 slot 2")
        self.assertIn("the counts at the end of slot 2, which is 0:00:02 to 0:00:03 of the horizon", told)
        self.assertIn("links into it: none; out of it: a", told)
        self.assertIn("boundary 0", self.told(LOADING, 12, "loading no start"))
        self.assertEqual(self.told(LOADING, 12, "loading no node n9 slot 2"), "")
        self.assertEqual(self.told(LOADING, 12, "loading no node n1 slot 4"), "")


class Scripts(FolderTest):
    def test_why_a_line_is_no_command(self) -> None:
        for line, cause, part in (
            ('{"do": "totals"', "NotJson", "it is no JSON"),
            ('\ufeff{"do": "totals"}', "NotJson", "a mark of its encoding: save the file as UTF-8 without one"),
            ('{"do": "totals", "a": NaN}', "NotJson", "NaN is no number of JSON"),
            ('{"do": "totals", "a": "\\ud800"}', "NotJson", "half of a pair"),
            ('{"do": "\\ud800", "do": "totals"}', "NotJson", "half of a pair"),
            ('{"do": "totals", "a": ' + "[" * 127 + "]" * 127 + "}", "NotJson", "too deep"),
            ('["do"]', "NotCommand 0", 'the member do was looked for, and ["do"] is no object'),
            ('{"Do": "totals"}', "NotCommand 0", "the member do was looked for, and is not there; there is Do"),
            (
                '{"do": "total"}',
                "NotCommand 0",
                'the member do is "total", and it is one of edit, totals, link, time, delay, queue, '
                "origin, state, curve,"
                " departures, delays, gap, settle",
            ),
            ('{"do": "link"}', "NotCommand 0", "the member link was looked for, and is not there"),
            (
                '{"do": "time", "link": "a", "slot": "3"}',
                "NotCommand 0",
                'the member slot is "3"; expected a whole number from 0 to 4294967295: "3" as the number 3',
            ),
            ('{"do": "time", "link": "a", "slot": 3.0}', "NotCommand 0", "the member slot is 3.0"),
            (
                '{"do": "time", "link": "a", "slot": -0}',
                "NotCommand 0",
                "the member slot is -0.0; expected a whole number",
            ),
            ('{"do": "totals", "every": -1}', "NotCommand 0", "the member every is -1; expected a whole number from 0"),
            ('{"do": "totals", "every": null}', "NotCommand 0", "the member every is null; expected a whole number"),
            ('{"do": "time", "link": "a", "slot": true}', "NotCommand 0", "the member slot is true"),
            ('{"do": "link", "link": "a b"}', "NotCommand 0", 'the member link is "a b"; expected a name'),
            ('{"do": "edit"}', "NotCommand 0", "the member edits was looked for"),
            ('{"do": "edit", "edits": []}', "NotCommand 0", "the member edits has 0 edits; expected 1 to 32"),
            (
                '{"do": "edit", "edits": [{"kind": "horizon", "slots": 5}, {"kind": "limit", "link": "a", '
                '"from": 0, "to":'
                ' 1, "vehicles": 0}]}',
                "NotCommand 2",
                "the member vehicles is 0; expected a text with vehicles (digits, or digits, a point and 1 to 3 "
                "digits, at most"
                ' 1000000 vehicles): 0 as the text "0"',
            ),
            (
                '{"do": "edit", "edits": [{"kind": "close"}]}',
                "NotCommand 1",
                "one of demand, limit, exit, split, splits, diagram, horizon",
            ),
            (
                '{"do": "edit", "edits": [{"kind": "split", "node": "a", "destination": "b", "from": 0, "weights":'
                ' "a=1"}]}',
                "NotCommand 1",
                'the member weights is "a=1"; expected an object',
            ),
            (
                '{"do": "edit", "edits": [{"kind": "split", "node": "a", "destination": "b", "from": 0, '
                '"weights": {"a":'
                " 0.5}}]}",
                "NotCommand 1",
                "the member a is 0.5",
            ),
        ):
            with self.subTest(line):
                said = read_line(line.encode())
                self.assertEqual(said.cause, cause)
                self.assertIn(part, said.reason)

    def test_questions_on_queues_and_delay(self) -> None:
        """The program's own answers to these lines, by an engine that was written without it: which are commands, and
        which are not."""
        none = 0
        for line, answer in json.loads((DATA / "answers.json").read_text()):
            none += answer.startswith("refused command ")
            with self.subTest(line):
                self.assertEqual(
                    read_line(line.encode()).cause,
                    answer.removeprefix("refused command ") if answer.startswith("refused command ") else None,
                )
        self.assertGreater(none, 20)
        case = self.case()
        for line in (
            '{"do": "delay"}',
            '{"do": "queue", "link": "a", "slot": 0}',
            '{"do": "origin", "node": "n1", "slot": 0}',
            '{"do": "state", "slot": 0}',
            '{"do": "curve", "link": "a"}',
            '{"do": "departures", "node": "n1"}',
            '{"do": "delays"}',
        ):
            (case / "edits1.jsonl").write_text(line + "\n")
            self.assertIn(
                "stands there, and a file of edits has edits alone",
                explain(str(case), 13, "bad script edits1 line 1 NotEdit")[0],
            )

    def test_splits_and_questions_on_all_at_once(self) -> None:
        """The same of the edit `splits` and of `state`, `curve`, `departures` and `delays`."""
        causes: dict[str | None, int] = {}
        for line, answer in json.loads((DATA.parent / "wholes" / "lines.json").read_text()):
            cause = answer.removeprefix("refused command ") if answer.startswith("refused command ") else None
            causes[cause] = causes.get(cause, 0) + 1
            with self.subTest(line):
                self.assertEqual(read_line(line.encode()).cause, cause)
        self.assertGreater(min(causes.get(cause, 0) for cause in (None, "NotCommand 0", "NotCommand 1")), 15)
        edit = '{"do": "edit", "edits": [{"kind": "splits", "node": "a", "destination": "b", %s}]}'
        for rows, part in (
            ('"row": [[0, {"a": 1}]]', "the member rows was looked for, and is not there"),
            ('"rows": []', "the member rows is empty"),
            ('"rows": [[0, {"a": 1}], 5]', "row 2 of the member rows is 5; expected a slot and weights"),
            (
                '"rows": [["0", {"a": 1}]]',
                'row 1 of the member rows: the member slot is "0"; expected a whole number from 0 to 4294967295',
            ),
            ('"rows": [[0, {"a": 1}], [1, {}]]', "row 2 of the member rows: the member weights has 0 members"),
            ('"rows": [[0, {"a": "1"}]]', 'row 1 of the member rows: the member a is "1"'),
        ):
            self.assertIn(part, read_line((edit % rows).encode()).reason)
        self.assertEqual(
            read_line((edit % '"rows": [[0, {"a": 1}]], "from": 3').encode()).passed_over, ["from of edit 1"]
        )

    def test_members_that_are_passed_over(self) -> None:
        self.assertEqual(read_line(b'{"do": "totals", "every": 3, "slot": 1}').passed_over, ["slot"])
        self.assertEqual(read_line(b'{"do": "delay", "every": "3"}').passed_over, ["every"])
        script = self.folder / "script.jsonl"
        script.write_text(
            '{"do": "totals"}\n{"do": "link", "link": "a", "slot": 3}\n'
            '{"do": "edit", "edits": [{"kind": "horizon", "slots": 9, "to": 1}]}\n{"do"}'
        )
        self.assertEqual(
            explain(str(self.case()), 0, "", ["session", "0"], str(script)),
            [
                "line 2 of the script: passed over: slot",
                "line 3 of the script: passed over: to of edit 1",
                "line 4 of the script: it is no JSON: expecting ':' delimiter, at character 6: \"}\"",
            ],
        )
        script.write_bytes(script.read_bytes().decode().encode("utf-16"))
        self.assertEqual(
            explain(str(self.case()), 0, "", ["session", "0"], str(script))[0], "the script is UTF-16 and not UTF-8"
        )

    def test_files_of_edits(self) -> None:
        case = self.case()
        (case / "edits1.jsonl").write_text(
            '{"do": "edit", "edits": [{"kind": "horizon", "slots": 9}]}\n'
            '{"do": "totals"}\n{"do": "edit", "edits": [1]}\n'
        )
        self.assertEqual(
            explain(str(case), 13, "bad script edits1 line 2 NotEdit")[0],
            "edits1.jsonl, line 2: the command totals stands there, and a file of edits has edits alone",
        )
        self.assertEqual(
            explain(str(case), 13, "bad script edits1 line 3 NotCommand 1")[0],
            "edits1.jsonl, line 3, edit 1: the member kind was looked for, and 1 is no object",
        )
        for line in ("line 1 NotEdit", "line 2 NotJson", "line 4 NotJson", "line 3 NotCommand 2"):
            self.assertEqual(explain(str(case), 13, f"bad script edits1 {line}"), [], line)


class Words(FolderTest):
    def test_usage(self) -> None:
        for words, part in (
            (["lod"], "'lod' is no command: load is one"),
            (["session"], "session takes one number"),
            (["session", "65"], "'65' is not the number that session takes, 0 to 64"),
            (["view", "3"], "1 to 2"),
            (["try", "1", "3"], "NODES, 4 to 400"),
            (["load", "x"], "load takes no more words, and here follows 'x'"),
            (["delay", "x"], "delay takes no more words, and here follows 'x'"),
            (["delays"], "'delays' is no command: delay is one"),
            (["load", "delay"], "load takes no more words"),
            (["Delay"], "'Delay' is no command"),
        ):
            self.assertIn(part, explain(str(self.case()), 2, "", words)[0])
        for words in (
            ["load"],
            ["delay"],
            ["routes", "times"],
            ["try", "7", "400"],
            ["session", "07"],
            ["editors", "8"],
        ):
            self.assertEqual(explain(str(self.case()), 2, "", words), [], words)

    def test_no_history(self) -> None:
        setup_0 = "step_ms,slots,origin_capacity,{}history\n1000,4,1,{}0\n"
        case = str(self.case(setup=setup_0.format("", "")))
        self.assertEqual(
            explain(case, 14, "no history", ["session", "0"]),
            [
                "setup.csv, history 0: session needs the history of a loading, and this case keeps none; load, delay,"
                " gap, totals and routes answer",
                "    It is small enough to keep one: remove the column history from setup.csv",
            ],
        )
        self.assertEqual(explain(case, 14, "loading yes", ["check"]), [])
        self.assertEqual(explain(str(self.case()), 14, "no history", ["check"]), [])
        # 256 destinations and one: more than a case with a history may have
        rows = [f"n1,n{end},0,a=1\n" for end in range(3, 259)]
        rows += [f"n{node},n{end},0,c{node - 2}=1\n" for end in range(3, 259) for node in range(2, end)]
        files = {
            "setup": setup_0.format("destinations,", "300,"),
            **star(256),
            "splits": ROAD["splits"] + "".join(rows),
        }
        self.assertEqual(
            explain(str(self.case(**files)), 14, "no history", ["curves"])[1],
            "    It is too large to keep one, with 257 destinations (at most 256): gather zones into fewer, or import a"
            " smaller area",
        )

    def test_faults_of_the_outside(self) -> None:
        self.assertIn("input failed", explain(str(self.case()), 4, "")[0])
        self.assertIn("output failed", explain(str(self.case()), 5, "")[0])
        # widths 7 and 4, so 4 * 11, then 2 * 5 * (2 + 2 + 1) counts and 2 * 4 limits
        self.assertIn("the case has 102 cells", explain(str(self.case()), 9, "")[0])
        self.assertEqual(explain(str(self.case()), 0, ""), [])
        case = self.case(setup="step_ms,slots,origin_capacity,history\n1000,4,1,0\n")
        self.assertEqual(
            explain(str(case), 9, "")[0], "memory was not found, though the case keeps no history of its loading"
        )


if __name__ == "__main__":
    unittest.main()
