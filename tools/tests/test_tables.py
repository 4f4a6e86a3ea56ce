"""Tables of other tools: rows that do not fit their header are told, with file and line, and read where that is asked
for."""
import subprocess
import sys
import unittest

import commands
from support import FolderTest, TOOLS

from ltm_tools.errors import Fault
from ltm_tools.files import read_table
from ltm_tools.tables import LENIENT, Reading, Table, read


class Rows(FolderTest):
    def table(self, text: str, lenient: bool = False) -> Table:
        self.path = self.folder / "table.csv"
        self.path.write_text(text)
        return read(self.path, ("a",), None, Reading(is_lenient=lenient))

    def fault(self, text: str) -> str:
        """What is wrong with a table, without its path and the advice."""
        with self.assertRaises(Fault) as told:
            self.table(text)
        self.assertTrue(str(told.exception).endswith(LENIENT), told.exception)
        return str(told.exception).removeprefix(str(self.path)).removesuffix(LENIENT)

    def test_surplus_fields(self) -> None:
        text = "a,b,c\n1,2,3\n11,12,1,650\n"
        self.assertEqual(
            self.fault(text),
            ' line 3: 4 fields, and the header has 3: "650" is surplus, and a field with a separator in it'
            " stands in quotes",
        )
        self.assertEqual(
            [row.fields for row in self.table(text, True).rows],
            [{"a": "1", "b": "2", "c": "3"}, {"a": "11", "b": "12", "c": "1"}],
        )

    def test_missing_fields(self) -> None:
        text = "a;b;c\n\n1;2;3\n11;12\n"
        self.assertEqual(self.fault(text), " line 4: 2 fields, and the header has 3: c is missing")
        self.assertEqual(self.table(text, True).rows[1].text("c", "none"), "none")

    def test_fields_that_stand_twice(self) -> None:
        text = "# made\na,b,b\n1,2,3\n"
        self.assertEqual(self.fault(text), " line 2: the field b stands twice in the header")
        self.assertEqual(self.table(text, True).rows[0].text("b"), "3")

    def test_separators_at_the_end(self) -> None:
        """Where nothing stands behind them there is nothing that could be lost."""
        for text in ("a,b,,\n1,2,3,\n", "a,b,\n1,2\n", "a,b\n1,2,,\n", "a,b\n1,2, \n", "a,b\n1,\n", "a\n1\n\n"):
            self.assertEqual(self.table(text).rows[0].text("a"), "1", text)

    def test_a_field_in_quotes(self) -> None:
        self.assertEqual(self.table('a,b\n11,"1,650"\n').rows[0].text("b"), "1,650")

    def test_a_line_that_tells_a_spreadsheet_the_separator(self) -> None:
        (row,) = self.table("sep=;\n\na;b\n11;1,650\n").rows
        self.assertEqual((row.place, row.text("b")), (f"{self.path} line 4", "1.650"))

    def test_our_own_tables(self) -> None:
        path = self.folder / "nodes.csv"
        for text, told in (
            ("name,x,y\nn1,1,2,3\n", '4 fields, and the header has 3: "3" is surplus'),
            ("name,x,y\n\nn1,1\n", "line 3: 2 fields, and the header has 3: y is missing"),
        ):
            path.write_text(text)
            with self.assertRaisesRegex(Fault, told):
                read_table(path, ("name",))


class Missing(FolderTest):
    def test_what_cannot_be_read(self) -> None:
        self.assertRaisesRegex(Fault, f"^{self.folder}: Is a directory$", read, self.folder)
        self.assertRaisesRegex(Fault, "no.csv: No such file or directory$", read, self.folder / "no.csv")


class Large(FolderTest):
    """The program of a table of twelve megabytes may have no more than 160 MB of memory, of which the Python and its
    modules take some 40."""

    RUN = (
        "import resource, sys; resource.setrlimit(resource.RLIMIT_AS, (160 << 20, 160 << 20));"
        " from ltm_tools.demand.matrices import read_amounts;"
        " print(sum(read_amounts(sys.argv[1]).volumes.values()))"
    )

    def test_a_list_of_many_rows(self) -> None:
        path = self.folder / "table.csv"
        rows = [f"zone{number % 40},place{number // 40},0.5\n" for number in range(1600)]
        path.write_text("origin,destination,vehicles\n" + "".join(rows) * 375)
        done = subprocess.run([sys.executable, "-c", self.RUN, path], cwd=TOOLS, capture_output=True, text=True)
        self.assertEqual((done.stdout, done.stderr), ("300000\n", ""))


class Commands(FolderTest):
    """Each command that reads tables tells it, and takes `--lenient`."""

    def table(self, text: str) -> str:
        (self.folder / "table.csv").write_text(text)
        return str(self.folder / "table.csv")

    def test_every_command(self) -> None:
        case = str(self.case())
        net = self.folder / "net"
        net.mkdir()
        (net / "link.csv").write_text(
            "link_id,from_node_id,to_node_id,length,lanes,free_speed,capacity\na,11,12,1000,1,60,900\n"
        )
        demand = "o_zone_id,d_zone_id,volume\n11,12,1,650\n"
        for words, text in (
            (["from-gmns", str(net), str(self.folder / "made"), "--demand"], demand),
            (["demand", case, "--table"], demand.replace("11,12", "n1,n2")),
            (["demand", case, "--trips"], "o_zone_id,d_zone_id,depart,volume\nn1,n2,0:00:01,1,650\n"),
            (["splits", case, "--turns"], "from_link,to_link,vehicles\n,a,1,650\n"),
            (["splits", case, "--routes"], "links,depart,vehicles\na,0:00,1,650\n"),
            (["signals", case, "--cycles"], "link,cycle,green_from,green_to\na,2,0,1,650\n"),
        ):
            with self.subTest(words=words[0]):
                path = self.table(text)
                status, out, err = commands.run(*words, path)
                self.assertEqual((status, out), (1, ""))
                self.assertIn(f"{path} line 2: ", err)
                self.assertIn('"650" is surplus', err)
                self.assertEqual(err.count("\n"), 1)
                status, _, err = commands.run(*words, path, "--lenient")
                self.assertNotIn("surplus", err)


if __name__ == "__main__":
    unittest.main()
