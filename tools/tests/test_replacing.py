"""Files come whole or not at all, and several of a case all or none, also where the disk is full or a run is cut
anywhere."""
import contextlib
import fcntl
import itertools
import os
import resource
import shlex
import subprocess
import threading
import unittest
from collections.abc import Iterator
from pathlib import Path
from unittest import mock

import commands
from support import EXAMPLES, ROAD, FolderTest, needs_program
from support_loadings import DATA

from ltm_tools import replacing
from ltm_tools.case import Case, Demand
from ltm_tools.case.bad_case import NoFile
from ltm_tools.case.explain import file_advice
from ltm_tools.case.source import Source
from ltm_tools.errors import Fault
from ltm_tools.files import check_output, make_folder, output_folder, write_bytes, write_text
from ltm_tools.replacing import take_away, together


NOBODY = 65534


def everything(folder: Path) -> dict[str, bytes]:
    """What stands below a folder."""
    return {
        str(path.relative_to(folder)): path.read_bytes() if path.is_file() else b"a folder"
        for path in sorted(folder.rglob("*"))
    }


@contextlib.contextmanager
def room_for(count: int) -> Iterator[None]:
    """No file may have more than so many bytes, as on a disk that is nearly full."""
    were = resource.getrlimit(resource.RLIMIT_FSIZE)
    resource.setrlimit(resource.RLIMIT_FSIZE, (count, were[1]))
    try:
        yield
    finally:
        resource.setrlimit(resource.RLIMIT_FSIZE, were)


class Cut(BaseException):
    """A run ends here, and nothing more is done."""


class One(FolderTest):
    def setUp(self) -> None:
        super().setUp()
        self.path = self.folder / "file"
        self.path.write_text("as it was")

    def test_a_file_is_replaced(self) -> None:
        self.path.chmod(0o640)
        write_text(self.path, "as it is\n")
        self.assertEqual(
            (self.path.read_text(), self.path.stat().st_mode & 0o777, os.listdir(self.folder)),
            ("as it is\n", 0o640, ["file"]),
        )
        write_bytes(self.folder / "other", b"\xff")
        was = os.umask(0)
        os.umask(was)
        self.assertEqual((self.folder / "other").stat().st_mode & 0o777, 0o666 & ~was)

    def test_a_link_goes_on_to_its_file(self) -> None:
        (self.folder / "link").symlink_to("file")
        write_text(self.folder / "link", "new")
        self.assertEqual((self.path.read_text(), os.readlink(self.folder / "link")), ("new", "file"))

    def test_a_full_disk(self) -> None:
        with room_for(20), self.assertRaisesRegex(Fault, "file: File too large"):
            write_text(self.path, "n" * 21)
        self.assertEqual(everything(self.folder), {"file": b"as it was"})

    def test_what_cannot_be_replaced(self) -> None:
        for path, fault in (
            (self.folder, "Is a directory"),
            (self.folder / "no" / "file", "No such file or directory"),
            (self.path / "x", "Not a directory"),
        ):
            with self.assertRaisesRegex(Fault, f"{path}: {fault}"):
                write_text(path, "new")
        denied = PermissionError(13, "Permission denied")
        with mock.patch.object(os, "replace", side_effect=denied), self.assertRaisesRegex(
            Fault, "file: Permission denied"
        ):
            write_text(self.path, "new")
        self.assertEqual(everything(self.folder), {"file": b"as it was"})

    def test_a_file_that_is_write_protected(self) -> None:
        """By an ordinary user, whom a renaming would let pass; nobody where root runs the tests."""
        self.path.chmod(0o444)
        if os.geteuid() == 0:
            self.folder.chmod(0o777)
            os.setresuid(NOBODY, NOBODY, 0)
            self.addCleanup(os.setresuid, 0, 0, 0)
        with self.assertRaisesRegex(Fault, "file: it is write-protected"):
            write_text(self.path, "new")
        with self.assertRaisesRegex(Fault, "file: it is write-protected"), together():
            write_text(self.path, "new")
        with self.assertRaisesRegex(PermissionError, "it is write-protected"):
            take_away(self.path)
        self.assertEqual(everything(self.folder), {"file": b"as it was"})

    def test_the_place_of_a_result_is_tried_first(self) -> None:
        for path, fault in (
            (self.folder, "Is a directory"),
            (self.folder / "no" / "file", "No such file or directory"),
            (self.path / "x", "Not a directory"),
        ):
            self.assertRaisesRegex(Fault, f"{path}: {fault}", check_output, path)
        for path in ("-", self.path, self.folder / "other", "/dev/null"):
            check_output(path)
        with self.assertRaisesRegex(Fault, "a file stands there"), output_folder(self.path):
            self.fail()
        with self.assertRaises(Cut), output_folder(self.folder / "a" / "b"):
            self.assertEqual(os.listdir(self.folder / "a"), ["b"])
            raise Cut
        self.assertEqual(everything(self.folder), {"file": b"as it was"})
        with output_folder(self.folder / "a"):
            pass
        self.assertEqual(everything(self.folder), {"a": b"a folder", "file": b"as it was"})

    def test_what_is_no_file_is_written_where_it_is(self) -> None:
        os.mkfifo(self.folder / "pipe")
        read = os.open(self.folder / "pipe", os.O_RDONLY | os.O_NONBLOCK)
        write_text(self.folder / "pipe", "new")
        self.assertEqual(os.read(read, 9), b"new")
        os.close(read)
        write_text("/dev/null", "new")
        with self.assertRaisesRegex(Fault, "No space left on device"):
            write_text("/dev/full", "new")


class Several(FolderTest):
    NEW = {"setup": "new setup", "demand": "new demand", "splits": "new splits"}

    def write(self, names: tuple[str, ...], away: str | None) -> None:
        with together():
            for name in names:
                write_text(self.folder / "case" / f"{name}.csv", self.NEW[name])
            if away is not None:
                take_away(self.folder / "case" / away)

    def fresh(self) -> dict[str, bytes]:
        for path in (self.folder / "case").glob(".*"):
            path.unlink()
        self.case()
        return everything(self.folder)

    def ways(self) -> Iterator[tuple[tuple[str, ...], str | None]]:
        for count in (1, 2, 3):
            for names in itertools.combinations(self.NEW, count):
                yield from ((names, None), (names, "links.csv"), (names, "not_there.csv"))

    def after(self, names: tuple[str, ...], away: str | None) -> dict[str, bytes]:
        self.fresh()
        self.write(names, away)
        return everything(self.folder)

    def test_all_are_put_in_place(self) -> None:
        self.assertEqual(
            self.after(("setup", "splits"), "links.csv"),
            {
                "case": b"a folder",
                "case/setup.csv": b"new setup",
                "case/splits.csv": b"new splits",
                "case/demand.csv": ROAD["demand"].encode(),
            },
        )

    def test_where_one_fails_all_is_as_it_was(self) -> None:
        """At each renaming and at each file that is taken away, and where something else fails before."""
        for names, away in self.ways():
            for call in ("rename", "replace"):
                for last in itertools.count():
                    was = self.fresh()
                    if not self.fails(call, last, names, away, OSError(28, "No space left on device")):
                        break
                    self.assertEqual(everything(self.folder), was, (names, away, call, last))
        was = self.fresh()
        with self.assertRaises(Cut), together():
            write_text(self.folder / "case" / "setup.csv", "new")
            make_folder(self.folder / "made" / "within")
            write_text(self.folder / "made" / "within" / "file", "new")
            raise Cut
        self.assertEqual(everything(self.folder), was)

    def fails(self, call: str, last: int, names: tuple[str, ...], away: str | None, error: BaseException) -> bool:
        """Writes where the call with this number fails; whether there was one."""
        was, count = getattr(os, call), itertools.count()

        def cut(*words: str) -> None:
            if next(count) == last:
                raise error
            was(*words)

        with mock.patch.object(os, call, cut):
            try:
                self.write(names, away)
            except (Fault, Cut):
                return True
        return False

    def test_a_run_that_is_cut_leaves_no_other_case(self) -> None:
        """After each renaming the case is the old one or the new one, or has no setup."""
        for names, away in self.ways():
            whole = self.after(names, away)
            for call in ("rename", "replace"):
                for last in itertools.count():
                    was = self.fresh()
                    with mock.patch.object(replacing.Changes, "put_back"), mock.patch.object(replacing.Changes, "drop"):
                        if not self.fails(call, last, names, away, Cut()):
                            break
                    left = {
                        name: data for name, data in everything(self.folder).items() if not name.startswith("case/.")
                    }
                    self.assertTrue(
                        left in (was, whole) or "case/setup.csv" not in left, (names, away, call, last, left)
                    )
                    if "case/setup.csv" not in left:
                        self.finish(was)
                        left = self.without_hidden()
                    self.assertIn(left, (was, whole), (names, away, call, last))

    def without_hidden(self) -> dict[str, bytes]:
        """What stands below the folder, but for the files of a write."""
        return {name: data for name, data in everything(self.folder).items() if not name.startswith("case/.")}

    def finish(self, was: dict[str, bytes]) -> None:
        """Does what a refusal says to type, in Python; and old files are told from new ones by their names."""
        with self.assertRaises(Fault) as refused:
            Case.read(self.folder / "case")
        said = str(refused.exception)
        self.assertIn(f"setup.csv is not there; a write was cut here: (cd {self.folder / 'case'} && ", said)
        advice = file_advice(str(self.folder / "case"), NoFile("setup", True, ""))[1]
        self.assertEqual(advice.strip(), said.split("; ", 1)[1])
        for old in (self.folder / "case").glob(".*.old"):
            self.assertEqual(old.read_bytes(), was[f"case/{old.name[1:].rsplit('.', 2)[0]}"])
        for move in said.partition(" && ")[2].partition(") finishes")[0].split(" && "):
            word, *names = shlex.split(move)
            if word == "mv":
                os.replace(*(self.folder / "case" / name for name in names))
                continue
            self.assertEqual((word, names.pop(0)), ("rm", "-f"))
            for name in names:
                (self.folder / "case" / name).unlink(missing_ok=True)

    def test_what_is_to_be_typed_is_for_a_shell(self) -> None:
        """In a folder with blanks and quotes in its name, by a shell in another folder."""
        whole = self.after(("setup", "splits"), None)
        self.fresh()
        with mock.patch.object(replacing.Changes, "put_back"), mock.patch.object(replacing.Changes, "drop"):
            self.assertTrue(self.fails("rename", 3, ("setup", "splits"), None, Cut()))
        folder = (self.folder / "case").rename(self.folder / "a 'case")
        typed = replacing.after_a_cut(folder).partition(": ")[2].partition(" finishes")[0]
        subprocess.run(["sh", "-c", typed], cwd="/", check=True)
        folder.rename(self.folder / "case")
        self.assertEqual(self.without_hidden(), whole)
        self.assertEqual(replacing.after_a_cut(self.folder / "case"), "")

    def test_two_at_once(self) -> None:
        """While another process puts files into the folder a write waits, of one file as of several."""
        for names in (("setup",), ("setup", "splits")):
            was = self.fresh()
            other = os.open(self.folder / "case", os.O_RDONLY)
            fcntl.flock(other, fcntl.LOCK_EX)
            writer = threading.Thread(target=self.write, args=(names, None))
            writer.start()
            writer.join(0.2)
            self.assertTrue(writer.is_alive(), names)
            self.assertEqual(self.without_hidden(), was)
            os.close(other)
            writer.join(10)
            self.assertEqual((self.folder / "case" / "setup.csv").read_text(), "new setup")

    def test_one_within_another_is_part_of_it(self) -> None:
        was = self.fresh()
        with self.assertRaises(Cut), together():
            self.write(("setup",), None)
            self.assertEqual(
                {name: data for name, data in everything(self.folder).items() if not name.startswith("case/.")}, was
            )
            raise Cut
        self.assertEqual(everything(self.folder), was)

    def test_a_file_that_is_written_twice(self) -> None:
        self.fresh()
        with together():
            for text in ("once", "twice"):
                write_text(self.folder / "case" / "setup.csv", text)
        self.assertEqual((self.folder / "case" / "setup.csv").read_text(), "twice")
        self.assertEqual(len(os.listdir(self.folder / "case")), 4)


class FullDisks(FolderTest):
    """Commands that write, with room for less and less: a line and status 1, and all as it was."""

    def sizes(self, *words: str, most: int = 90) -> None:
        """Runs it with room for files of fewer bytes than the largest that it writes, and then with enough."""
        was = everything(self.folder)
        for size in (0, 1, most // 2, most):
            with room_for(size):
                status, _, err = commands.run(*words)
            self.assertEqual((status, err.count("\n")), (1, 1), (size, err))
            self.assertIn("File too large", err)
            self.assertEqual(everything(self.folder), was, size)
        status, _, err = commands.run(*words)
        self.assertEqual((status, err), (0, ""))

    def table(self, text: str) -> str:
        (self.folder / "table.csv").write_text(text)
        return str(self.folder / "table.csv")

    def test_importers(self) -> None:
        self.sizes(
            "from-gmns", str(EXAMPLES / "from_gmns" / "gmns"), str(self.folder / "made" / "case"), "--fit", "30000"
        )
        self.sizes(
            "from-gmns", str(EXAMPLES / "from_gmns" / "gmns"), str(self.folder / "made" / "case"), "--step", "15000"
        )
        was = everything(self.folder)
        for words in (("--fit", "30000"), ("--step", "15000")):
            with mock.patch.object(Source, "write", side_effect=Fault("no room for source_links.csv")):
                self.assertEqual(
                    commands.run(
                        "from-gmns", str(EXAMPLES / "from_gmns" / "gmns"), str(self.folder / "made" / "case"), *words
                    )[0],
                    1,
                )
            self.assertEqual(everything(self.folder), was)

    def test_a_case_in_place(self) -> None:
        """Demand, splits and signals of a case are written anew."""
        rows = "".join(f"n1,n2,0:00:0{at},{at + 1}\n" for at in range(4))
        case = Case.read(self.case())
        case.demand = [Demand("n1", "n2", slot, slot + 1, 1000 + slot) for slot in range(4)]
        case.write(self.folder / "case")
        self.sizes(
            "demand",
            str(self.folder / "case"),
            "--trips",
            self.table("o_zone_id,d_zone_id,depart,volume\n" + rows * 9),
            "--slice",
            "1",
            most=50,
        )

    def test_splits_and_demand(self) -> None:
        """The demand fits where the splits do not."""
        network = "".join(f"l{number},m{number},m{number + 1},300,36,18,150\n" for number in range(8))
        self.case(
            links="link,from,to,length_m,free_kmh,wave_kmh,jam_per_km\n" + network,
            demand="origin,destination,from_slot,to_slot,vehicles\nm0,m8,0,1,1\n",
            setup="step_ms,slots,origin_capacity\n15000,40,8\n",
            splits=None,
        )
        routes = self.table("links,depart,vehicles\n" + " ".join(f"l{number}" for number in range(8)) + ",0:00,2\n")
        self.sizes(
            "splits",
            str(self.folder / "case"),
            "--routes",
            routes,
            "--demand",
            "--slice",
            "10",
            "--start",
            "0:00",
            most=100,
        )
        self.assertLess((self.folder / "case" / "demand.csv").stat().st_size, 100)

    def test_signals(self) -> None:
        self.sizes(
            "signals",
            str(self.case(setup="step_ms,slots,origin_capacity\n1000,40,1\n")),
            "--cycles",
            self.table("link,cycle,green_from,green_to\na,4,0,2\n"),
        )

    def test_outputs(self) -> None:
        words = [
            str(DATA / "spillback"),
            "--curves",
            str(DATA / "spillback" / "curves.csv"),
            "-o",
            str(self.folder / "out"),
        ]
        (self.folder / "out").write_text("as it was")
        self.sizes("queues", *words, "--least", "0.001")
        (self.folder / "d3.min.js").write_text("// https://d3js.org v7.0.0\n")
        self.sizes("page", *words, "--d3", str(self.folder / "d3.min.js"))

    @needs_program
    def test_apply(self) -> None:
        script = self.folder / "script"
        script.write_text(
            '{"do": "edit", "edits": [{"kind": "limit", "link": "a", "from": 0, "to": 1, "vehicles": "0.5"}]}\n' * 3
        )
        case = str(self.case(nodes="name,x,y\n" + "n1,0,0\nn2,10,0\n" + " " * 200))
        self.sizes("apply", case, str(script), str(self.folder / "kept"), most=150)
        self.sizes("apply", case, str(script), case, most=150)


if __name__ == "__main__":
    unittest.main()
