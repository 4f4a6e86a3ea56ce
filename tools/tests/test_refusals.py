"""Why a session refuses a command: one worked case for each cause, and with the program built its own answers."""
import json
import subprocess
import unittest

from support import BUILT, FolderTest, needs_program
from ltm_tools.case import Case
from ltm_tools.case.explain import explain
from ltm_tools.case.refusals import why_refused
from ltm_tools.scenario.edits import Edit, demand, diagram, horizon, limit, split, splits

LINKS = (
    "link,from,to,length_m,free_kmh,wave_kmh,jam_per_km\na,n1,n2,20,36,18,150\nb,n2,n3,20,36,18,150\n"
    "c,n2,n4,20,36,18,150\n"
)
SPLITS = "node,destination,from_slot,weights\nn1,n3,0,a=1\nn2,n3,0,b=1\n"
DEMAND = "origin,destination,from_slot,to_slot,vehicles\nn1,n3,0,2,1\n"

EDITS: list[tuple[Edit, str, str]] = [
    (limit("z", 0, 1, 0), "UnknownName", "links.csv has no link z"),
    (demand("z", "n3", 0, 1, 1), "UnknownName", "links.csv has no node z"),
    (split("n2", "n3", 0, {"a": 1}), "UnknownName", "a is no link out of n2: these are b, c"),
    (demand("n1", "n4", 0, 1, 1), "UnknownDestination", "n4 is no destination of the case; they are n3"),
    (demand("n4", "n3", 0, 1, 1), "NoOrigin", "no link leaves the origin n4"),
    (split("n3", "n3", 0, {"b": 1}), "SameEnds", "both ends are n3"),
    (limit("a", 2, 2, 0), "BadSlots", "from slot 2 up to, and without, slot 2 there is none"),
    (limit("a", 2, 5, 0), "BadSlots", "slots up to, and without, 5 go past the horizon"),
    (split("n2", "n3", 4, {"b": 1}), "BadSlots", "slots from 4 on go past the horizon"),
    (horizon(4), "BadSlots", "a horizon of 4 slots is no longer than the one before, or above 10,000"),
    (split("n2", "n3", 0, {"b": 0}), "ZeroWeight", "all weights are 0"),
    (
        split("n2", "n3", 0, {"c": 1}),
        "OpenSplit",
        "the row would be the first of n2 for n3 and begin after slot 0, or a weight leads to a node where no split row"
        " says how it goes on",
    ),
    (splits("z", "n3", [(0, {"b": 1})]), "UnknownName", "links.csv has no node z"),
    (splits("n2", "n3", [(0, {"b": 1}), (1, {"a": 1})]), "UnknownName", "a is no link out of n2: these are b, c"),
    (splits("n2", "n4", [(0, {"c": 1})]), "UnknownDestination", "n4 is no destination of the case; they are n3"),
    (splits("n3", "n3", [(0, {"b": 1})]), "SameEnds", "both ends are n3"),
    (splits("n2", "n3", [(1, {"b": 1})]), "BadSlots", "the first row begins at slot 1, and is to begin at slot 0"),
    (
        splits("n2", "n3", [(0, {"b": 1}), (2, {"b": 2}), (2, {"b": 3})]),
        "BadSlots",
        "row 3 begins at slot 2, which is not behind slot 2 of the row before",
    ),
    (splits("n2", "n3", [(0, {"b": 1}), (4, {"b": 2})]), "BadSlots", "slots from 4 on go past the horizon"),
    (splits("n2", "n3", [(0, {"b": 1}), (1, {"b": 0, "c": 0})]), "ZeroWeight", "all weights of row 2 are 0"),
    (
        splits("n2", "n3", [(0, {"b": 1}), (1, {"c": 1})]),
        "OpenSplit",
        "a weight leads to a node where no split row says how it goes on",
    ),
    (diagram("a", 20, 0, 18, 150), "Zero free_kmh", "free_kmh: it is 0; it is at least 1"),
    (diagram("a", 20, 36, 1001, 150), "Over wave_kmh", "wave_kmh: it is at most 1,000"),
    # 9 m at 36 km/h is 900 ms, and 1800 ms at 18 km/h; 10 m is a second
    (
        diagram("a", 9, 36, 18, 150),
        "StepTooLong 900 1800",
        "the free-flow time of 900 ms is below the step of 1000 ms; take a step of at most 900 ms, "
        "or a length of at least"
        " 10 m at 36 and 18 km/h",
    ),
    (
        diagram("a", 20, 36, 18, 10_000),
        "CapacityOver",
        "33.333 vehicles pass the link in a step of 1000 ms, and at most 32 may; take a step of at "
        "most 960 ms, or a lower"
        " jam density or speed",
    ),
]


class Refusals(FolderTest):
    def setUp(self) -> None:
        super().setUp()
        self.folder_of_case = self.case(links=LINKS, demand=DEMAND, splits=SPLITS)

    def test_each_cause(self) -> None:
        case = Case.read(self.folder_of_case)
        for edit, cause, reason in EDITS:
            with self.subTest(edit):
                self.assertEqual(
                    why_refused(case, {"do": "edit", "edits": [horizon(9), edit]}, f"refused edit 2 {cause}"), reason
                )
        self.assertEqual(
            why_refused(case, {"do": "link", "link": "z"}, "refused link UnknownName"), "links.csv has no link z"
        )
        self.assertEqual(
            why_refused(case, {"do": "time", "link": "a", "slot": 4}, "refused time BadSlots"),
            "slot 4 is not below the horizon of the loading that is shown",
        )
        self.assertEqual(
            why_refused(case, {"do": "queue", "link": "a", "slot": 5}, "refused queue BadSlots"),
            "slot 5 is past the horizon of the loading that is shown",
        )
        self.assertEqual(
            why_refused(case, {"do": "origin", "node": "z", "slot": 0}, "refused origin UnknownName"),
            "links.csv has no node z",
        )
        self.assertEqual(
            why_refused(case, {"do": "departures", "node": "z"}, "refused departures UnknownName"),
            "links.csv has no node z",
        )
        self.assertEqual(
            why_refused(case, {"do": "state", "slot": 9}, "refused state BadSlots"),
            "slot 9 is past the horizon of the loading that is shown",
        )
        self.assertEqual(
            why_refused(case, {"do": "totals", "every": 0}, "refused totals BadSlots"),
            "`every` is the number of slots between two boundaries that are told, and at least 1",
        )
        self.assertEqual(
            why_refused(case, {"do": "edit", "edits": [horizon(9)]}, "refused edit 1 CellsOver 54000001"),
            "the case would have 54,000,001 cells, and at most 54,000,000 may be",
        )

    def test_another_cause_is_not_explained(self) -> None:
        case = Case.read(self.folder_of_case)
        good = {"do": "edit", "edits": [limit("a", 0, 1, 0)]}
        for answer in (
            "refused edit 1 UnknownName",
            "refused edit 1 UnknownDestination",
            "refused edit 2 BadSlots",
            "refused edit 1 NoMemory",
            "refused command NotJson",
            "accepted version 1",
        ):
            self.assertEqual(why_refused(case, good, answer), "", answer)
        self.assertEqual(
            why_refused(case, {"do": "edit", "edits": [diagram("a", 9, 36, 18, 150)]}, "refused edit 1 NoCapacity"), ""
        )

    def test_by_the_command_line(self) -> None:
        case = str(self.folder_of_case)
        self.assertEqual(
            explain(case, 0, "refused link UnknownName", (), None, '{"do": "link", "link": "z"}'),
            ["links.csv has no link z"],
        )
        self.assertEqual(
            explain(case, 0, "refused command NotCommand 0", (), None, '{"do": "link"}'),
            ["the member link was looked for, and is not there; there is do"],
        )
        self.assertEqual(explain(case, 0, "refused link UnknownName", (), None, '{"do": "link", "link": "a"}'), [])

    def told(self, found: list[tuple[Edit, str, str]]) -> list[str]:
        """What the program answers to these edits, each a batch."""
        script = "".join(json.dumps({"do": "edit", "edits": [edit]}) + "\n" for edit, _, _ in found)
        return subprocess.run(
            [BUILT, "session", "0"], cwd=self.folder_of_case, input=script, capture_output=True, text=True
        ).stdout.splitlines()

    @needs_program
    def test_the_program_tells_these(self) -> None:
        found = [one for one in EDITS if one[0]["kind"] != "splits"]
        self.assertEqual(self.told(found), [f"refused edit 1 {cause}" for _, cause, _ in found])

    @needs_program
    def test_the_program_tells_these_of_splits(self) -> None:
        found = [one for one in EDITS if one[0]["kind"] == "splits"]
        self.assertEqual(len(found), 9)
        self.assertEqual(self.told(found), [f"refused edit 1 {cause}" for _, cause, _ in found])


if __name__ == "__main__":
    unittest.main()
