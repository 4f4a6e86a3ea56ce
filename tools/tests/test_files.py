"""Records as the program cuts them, and the tables of other tools."""
import unittest

from support import FolderTest
from ltm_tools.errors import Fault
from ltm_tools.files import Record, read_table, records, shown, write_records


def fields(text: bytes) -> list[list[str]]:
    return [record.fields for record in records(text)]


class Records(unittest.TestCase):
    def test_line_ends_and_blank_lines(self) -> None:
        for text in (b"a,b\nc,\n", b"a,b\r\nc,\r\n", b"a,b\rc,", b"\n\na,b\n\r\nc,\n\n", b"\xef\xbb\xbfa,b\nc,"):
            self.assertEqual(fields(text), [["a", "b"], ["c", ""]], text)
        self.assertEqual(fields(b""), [])
        self.assertEqual(fields(b"\xef\xbb\xbf"), [])
        self.assertEqual(fields(b" \n"), [[" "]])

    def test_quotes(self) -> None:
        self.assertEqual(fields(b'"a","b,""c"""\n'), [["a", 'b,"c"']])
        self.assertEqual(fields(b'a"b,"c"d"e\n""\n'), [['a"b', 'cd"e'], [""]])
        self.assertEqual(fields(b'"a\nb",c\n"open'), [["a\nb", "c"], ["open"]])

    def test_lines(self) -> None:
        self.assertEqual(list(records(b"a\r\n\r\nb\n")), [Record(1, ["a"]), Record(3, ["b"])])
        self.assertEqual(
            list(records(b'"a\r\nb"\r\n\r\nc\rd\n')), [Record(1, ["a\r\nb"]), Record(4, ["c"]), Record(5, ["d"])]
        )

    def test_bytes_that_are_no_text(self) -> None:
        self.assertEqual(shown(fields(b"Stra\xdfe\n")[0][0]), '"Stra\\xdfe"')
        self.assertEqual(shown("Straße\t"), '"Straße\\t"')


class Tables(FolderTest):
    def test_fields_by_name(self) -> None:
        path = self.folder / "table.csv"
        path.write_bytes("\ufefflength, id ,name\r\n1.5,7,M\u00fcller\r\n\r\n".encode())
        (row,) = read_table(path, ["id", "length"])
        self.assertEqual(
            (row.whole("id"), row.number("length"), row.text("name"), row.number("lanes", 1)), (7, 1.5, "Müller", 1)
        )
        with self.assertRaisesRegex(Fault, 'table.csv row 2: length is "1.5": expected a whole number'):
            row.whole("length")

    def test_faults(self) -> None:
        path = self.folder / "table.csv"
        for data, fault in (
            (b"id,name\n1,M\xfcller\n", "line 2 has the byte 0xfc, which is not UTF-8 and may be Latin-1: iconv"),
            ("id,name\n".encode("utf-16"), "UTF-16"),
            (b"", "the file is empty"),
            (b"name\n", "no field id in the header"),
            (b"id;name\n1;a\n", "it has id;name: save the file with commas"),
        ):
            path.write_bytes(data)
            with self.assertRaisesRegex(Fault, fault):
                read_table(path, ["id"])
        with self.assertRaisesRegex(Fault, "nowhere.csv: No such file"):
            read_table(self.folder / "nowhere.csv")

    def test_written(self) -> None:
        write_records(self.folder / "out.csv", ["a", "b"], [[1, "x"]])
        self.assertEqual((self.folder / "out.csv").read_bytes(), b"a,b\n1,x\n")


if __name__ == "__main__":
    unittest.main()
