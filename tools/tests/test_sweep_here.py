"""Sweeps on this machine with a made session: each scenario has its own row, in order, by as many sessions as are asked
for; what goes wrong is one line and status 1."""
import csv
import io
import json
import unittest
from typing import Any
from unittest import mock

import commands
from made_session import SweepTest, row_of
from ltm_tools import edits
from ltm_tools.sweep.scenarios import Runner, result_header


class Swept(SweepTest):
    def sweep(self, scenarios: str, *words: str, program: "str | None" = None) -> "tuple[int, str, str]":
        return commands.run("sweep", str(self.case()), scenarios, "--program", program or self.session(), *words)

    def rows(self, scenarios: str, *words: str, program: "str | None" = None) -> "list[list[str]]":
        status, out, err = self.sweep(scenarios, *words, program=program)
        self.assertEqual((status, err), (0, ""))
        return list(csv.reader(io.StringIO(out)))


class Rows(Swept):
    def test_each_scenario_has_its_row_in_order(self) -> None:
        """45 scenarios are no whole number of pieces; what a refused one made is taken back; the file has what the
        output has."""
        scenarios, rows = self.many(45)
        for sessions in ("1", "3"):
            self.assertEqual(self.rows(scenarios, "--sessions", sessions), [result_header([]), *rows])
        self.assertEqual(self.rows(scenarios, "-o", str(self.folder / "rows.csv")), [])
        with open(self.folder / "rows.csv", encoding="utf-8", newline="") as file:
            self.assertEqual(list(csv.reader(file)), [result_header([]), *rows])

    def test_the_number_of_sessions(self) -> None:
        """So many sessions are opened, and none for which there is no piece; each is kept open."""
        scenarios, _ = self.many(45)
        for sessions, opened in (("1", 1), ("3", 3), ("64", 6)):
            (self.folder / "log").write_text("")
            self.rows(scenarios, "--sessions", sessions, program=self.session(0.02))
            self.assertEqual(self.log().count("opened"), opened)

    def test_pieces_run_side_by_side_and_stay_in_order(self) -> None:
        """The first piece takes a second; the others are done by then, and come behind it all the same."""
        batches = [[[edits.limit("slow" if number == 1 else "a", 0, 1, number)]] for number in range(1, 41)]
        rows = self.rows(self.scenarios(*batches), "--sessions", "2")
        self.assertEqual(rows[2:], [row_of(number, f"s, {number}", batches[number - 1][0]) for number in range(2, 41)])

    def test_lines(self) -> None:
        """Empty lines count as lines; two of one name and of the same edits are two; one without edits is the case's
        own."""
        one = json.dumps({"name": "one", "edits": [edits.limit("a", 0, 1, 5)]})
        (self.folder / "lines.jsonl").write_text(f"\n{one}\n\n{one}\r\n" + '{"batches": []}')
        made = [edits.limit("a", 0, 1, 5)]
        self.assertEqual(
            self.rows(str(self.folder / "lines.jsonl"))[1:],
            [row_of(2, "one", made), row_of(4, "one", made), row_of(5, "", ())],
        )
        (self.folder / "lines.jsonl").write_text("\n")
        self.assertEqual(self.rows(str(self.folder / "lines.jsonl"), "--delay"), [result_header([], True)])

    def test_progress(self) -> None:
        """It is told now and then, and at the end in any case."""
        scenarios, _ = self.many(20)
        status, out, err = self.sweep(scenarios, "--progress", "--sessions", "1")
        self.assertEqual((status, len(out.splitlines())), (0, 21))
        self.assertTrue(err.startswith("\r[") and err.endswith(" a second \n"), err)
        told = [
            line.partition("] ")[2].split(", ")[0].split(" of ")
            for line in err.removeprefix("\r").rstrip("\n").split("\r")
        ]
        self.assertEqual([int(done) for done, _ in told], sorted({8, 16, 20} & {int(done) for done, _ in told}))
        self.assertEqual((told[-1], {count for _, count in told}), (["20", "20"], {"20"}))
        self.assertIn(f"[{'#' * 30}] 20 of 20", err)


class Failed(Swept):
    """One scenario that fails is one row that says so, and a line that says how many; each other one has its row."""

    def test_a_session_that_ends(self) -> None:
        scenarios = self.scenarios(
            *([[edits.limit("end" if number == 9 else "a", 0, 1, number)]] for number in range(20))
        )
        rows = [row_of(number + 1, f"s, {number + 1}", [edits.limit("a", 0, 1, number)]) for number in range(20)]
        case = str(self.folder / "case")
        rows[9] = ["10", "s, 10", f"failed: {case}: ltm session 0 ended with status 9: no answer", *[""] * 5]
        for sessions in ("1", "2"):
            status, out, err = self.sweep(scenarios, "--sessions", sessions)
            self.assertEqual((status, err), (0, "ltm-tools sweep: 1 scenario of 20 failed: their rows say why\n"))
            self.assertEqual(list(csv.reader(io.StringIO(out)))[1:], rows)

    def test_a_session_that_ends_once(self) -> None:
        """The scenario is asked again, of a session that is opened anew."""
        scenarios = self.scenarios([[edits.limit("once", 0, 1, 3)]], [[edits.limit("a", 0, 1, 4)]])
        self.assertEqual(
            self.rows(scenarios, "--sessions", "1")[1:],
            [row_of(1, "s, 1", [edits.limit("once", 0, 1, 3)]), row_of(2, "s, 2", [edits.limit("a", 0, 1, 4)])],
        )

    def test_more_lines_than_a_session_takes(self) -> None:
        """Two scenarios that fit one session each, and not one together; one that fits none is a row that says so."""
        made = [edits.limit("a", number % 4, 4, number) for number in range(60)]
        many = [[edit] for edit in made]
        scenarios = self.scenarios(many, many, [*many, *many], many)
        with mock.patch.object(Runner, "MOST_LINES", 100):
            status, out, err = self.sweep(scenarios, "--sessions", "1", program=self.session(most_lines=100))
        self.assertEqual((status, err), (0, "ltm-tools sweep: 1 scenario of 4 failed: their rows say why\n"))
        rows = [row_of(number, f"s, {number}", made) for number in (1, 2, 4)]
        rows.insert(2, ["3", "s, 3", "failed: it takes 123 lines of a session, which takes 100", *[""] * 5])
        self.assertEqual(list(csv.reader(io.StringIO(out)))[1:], rows)
        self.assertEqual(self.log(), ["opened", "closed"] * 3)


class Words(Swept):
    def test_names_with_an_end_of_a_line(self) -> None:
        """Each row is one record, also where Python's own writer of CSV would put a name of one carriage return as it
        is."""
        names = ["\r", "\n", "\r\n", 'a "b", c', "", " "]
        (self.folder / "lines.jsonl").write_text(
            "".join(json.dumps({"name": name, "batches": []}) + "\n" for name in names)
        )
        rows = [row_of(number, name, ()) for number, name in enumerate(names, 1)]
        self.assertEqual(self.rows(str(self.folder / "lines.jsonl"))[1:], rows)
        self.assertEqual(self.rows(str(self.folder / "lines.jsonl"), "-o", str(self.folder / "rows.csv")), [])
        with open(self.folder / "rows.csv", encoding="utf-8", newline="") as file:
            self.assertEqual(list(csv.reader(file))[1:], rows)

    def test_a_link_whose_name_begins_with_a_dash(self) -> None:
        """It is refused where it looks like an option, and the advice helps."""
        links = "link,from,to,length_m,free_kmh,wave_kmh,jam_per_km\n-a,n1,n2,20,36,18,150\n-b,n1,n2,20,36,18,150\n"
        case = self.case(links=links, splits="node,destination,from_slot,weights\nn1,n2,0,-a=1\n")
        words = ["sweep", str(case), self.scenarios([]), "--program", self.session()]
        status, out, err = commands.run(*words, "--links", "-a")
        self.assertEqual((status, out, err.count("\n")), (1, "", 1))
        advice = err.partition("as in ")[2].split()[0]
        self.assertEqual(advice, "--links=-a")
        status, out, err = commands.run(*words, advice, "--links=-b")
        self.assertEqual(
            (status, err, out.splitlines()[0].split(",")[8:]), (0, "", ["in:-a", "out:-a", "in:-b", "out:-b"])
        )


class Faults(SweepTest):
    def fault(self, scenarios: str, *words: str, **more: Any) -> str:
        """The line of a sweep that fails; no results are written."""
        out_file = self.folder / "rows.csv"
        status, out, err = commands.run(
            "sweep", str(self.case()), scenarios, "--program", self.session(**more), "-o", str(out_file), *words
        )
        self.assertEqual((status, out, len(err.splitlines())), (1, "", 1), err)
        self.assertFalse(out_file.exists())
        return err

    def test_a_session_that_ends_badly(self) -> None:
        self.assertRegex(self.fault(self.scenarios([]), status=3), "ltm session 0 ended with status 3$")

    def test_a_case_that_the_program_does_not_take(self) -> None:
        """That is no row either: no scenario can be run."""
        self.assertRegex(
            self.fault(self.scenarios([], []), most_lines=0), "ltm session 0 ended with status 8: too many lines$"
        )

    def test_a_session_that_refuses_what_is_asked(self) -> None:
        """That is no row: only a batch is refused in one."""
        self.assertRegex(self.fault(self.scenarios([]), "--links", "a", refuses_links=True), "refused link UnknownName")

    def test_words(self) -> None:
        one = self.scenarios([])
        self.assertRegex(self.fault(one, "--sessions", "0"), "0 sessions cannot run")
        self.assertRegex(self.fault(one, "--links", "a", "b"), "the case has no link b")
        (self.folder / "bad.jsonl").write_text('{"edits": [{}]}\n\nnonsense\n')
        self.assertRegex(self.fault(str(self.folder / "bad.jsonl")), 'bad.jsonl line 3: "nonsense" is no JSON')
        self.assertRegex(self.fault(str(self.folder / "nowhere.jsonl")), "No such file")


if __name__ == "__main__":
    unittest.main()
