"""The command line: what is wrong is one line and status 1, never a traceback."""
import os
import shutil
import signal
import subprocess
import sys
import time
import unittest
from pathlib import Path
from unittest import mock

import commands
from support import CLONE, EXAMPLES, FolderTest, TOOLS
from support_loadings import DATA
from ltm_tools import cli, libraries
from ltm_tools.errors import Fault

NOBODY = 65534
LOADING = """kind,name,destination,counts
up,-a,n2,0 500 1000 1000 1000
down,-a,n2,0 0 0 500 1000
dep,n1,n2,0 500 1000 1000 1000
dep,n2,n2,0 0 0 0 0
arr,n2,n2,0 0 0 500 1000
"""


def has(*names: str) -> bool:
    return not libraries.missing(names) or libraries.debian_has(names)


def heeding() -> None:
    """A process heeds what one started in the background, or by nohup, does not."""
    signal.signal(signal.SIGINT, signal.default_int_handler)
    signal.signal(signal.SIGHUP, signal.SIG_DFL)


class Command(FolderTest):
    def run_tool(self, *words: "str | Path", **more: object) -> "subprocess.CompletedProcess[str]":
        return subprocess.run(
            [sys.executable, TOOLS / "ltm-tools", *words],
            cwd=self.folder,
            capture_output=True,
            text=True,
            timeout=60,
            **more,
        )  # type: ignore[call-overload, no-any-return]

    def assertFault(self, done: "subprocess.CompletedProcess[str]", part: str) -> None:
        self.assertEqual((done.returncode, done.stdout), (1, ""), done.stderr)
        self.assertEqual(len(done.stderr.splitlines()), 1, done.stderr)
        self.assertIn(part, done.stderr)

    def test_help_names_every_command(self) -> None:
        told = self.run_tool("--help").stdout
        for module in cli.commands():
            self.assertIn(module.NAME, told)
            one = self.run_tool(module.NAME, "--help")
            self.assertEqual(one.returncode, 0)
            self.assertIn(module.SUMMARY.split()[0], one.stdout)
            self.assertIn(module.EXAMPLES.splitlines()[-1], one.stdout)

    def test_words_that_are_wrong(self) -> None:
        self.assertFault(self.run_tool(), "required: COMMAND")
        self.assertFault(self.run_tool("inspekt"), "invalid choice: 'inspekt'")
        self.assertFault(self.run_tool("inspect"), "required: folder")
        self.assertFault(self.run_tool("inspect", "case", "--lnks"), "unrecognized arguments: --lnks")

    def test_files_that_are_wrong(self) -> None:
        self.assertFault(self.run_tool("inspect", "nowhere"), "nowhere is no folder")
        network = self.folder / "network"
        network.mkdir()
        self.assertFault(self.run_tool("from-gmns", network, "case"), "link.csv")
        (network / "link.csv").write_bytes(b"")
        self.assertFault(self.run_tool("from-gmns", network, "case"), "link.csv")
        (network / "link.csv").write_bytes(
            "link_id,from_node_id,to_node_id,length,free_speed,capacity\nStraße,1,2,100,50,900\n".encode("latin-1")
        )
        # read as the Latin-1 that it is: it is the name that is wrong
        done = self.run_tool("from-gmns", network, "case")
        self.assertEqual((done.returncode, done.stdout), (1, ""), done.stderr)
        self.assertRegex(done.stderr, r"^cannot be carried: link 'Straße': .*\n.*--rename.*\n$")

    def test_a_file_in_latin_1_is_read_and_that_is_told(self) -> None:
        network = self.folder / "network"
        network.mkdir()
        (network / "link.csv").write_bytes(
            "link_id,name,from_node_id,to_node_id,length,free_speed,capacity\n"
            "a,Straße,1,2,100,50,900\n".encode("latin-1")
        )
        self.assertIn(
            "link.csv is read as Windows-1252 (Latin-1)\n",
            self.run_tool("from-gmns", network, self.folder / "made").stdout,
        )

    def test_a_folder_without_rights(self) -> None:
        """Asked by nobody where root runs the tests, who may read each folder; what the command imports is there
        already."""
        folder = self.case()
        self.assertEqual(commands.run("inspect", str(folder))[0], 0)
        folder.chmod(0)
        self.addCleanup(folder.chmod, 0o755)
        if os.geteuid() == 0:
            self.folder.chmod(0o755)
            os.setresuid(NOBODY, NOBODY, 0)
            self.addCleanup(os.setresuid, 0, 0, 0)
        status, out, fault = commands.run("inspect", str(folder))
        self.assertEqual((status, out, fault.count("\n")), (1, "", 1))
        self.assertIn("may not be entered", fault)

    def test_a_field_that_is_long(self) -> None:
        """A message that repeats what a file says is cut, in its middle: where, and what to do, stay."""
        long = "x" * 70_000
        for words in (
            ["inspect", self.case(links=f"{long},from\n")],
            ["queues", self.case(links=f"{long},from\n")],
            ["splits", self.case(), "--turns", self.folder / "table"],
            ["demand", self.case(), "--table", self.folder / "table"],
            [long],
        ):
            (self.folder / "table").write_text(f"{long}\n1\n")
            done = self.run_tool(*words)
            for line in (done.stdout + done.stderr).splitlines():
                self.assertLess(len(line), 1000, words)
        self.assertEqual(str(Fault("a" + long + "b")), f"a{long[:599]} .. {long[:299]}b")
        self.assertEqual(len(str(Fault(long[:900]))), 900)

    def test_files_that_are_no_text(self) -> None:
        done = self.run_tool("inspect", self.case(links=b"link\xff\n"))
        self.assertIn('"link\\xff"', done.stdout)

    def inspect_merge(self, stdout: int) -> "subprocess.CompletedProcess[str]":
        """A run that writes little, all at its end."""
        environment = {name: text for name, text in os.environ.items() if name != "PYTHONUNBUFFERED"}
        return subprocess.run(
            [sys.executable, TOOLS / "ltm-tools", "inspect", EXAMPLES / "merge"],
            stdout=stdout,
            stderr=subprocess.PIPE,
            text=True,
            env=environment,
        )

    def test_a_reader_that_has_gone(self) -> None:
        read, write = os.pipe()
        os.close(read)
        done = self.inspect_merge(write)
        os.close(write)
        self.assertEqual((done.returncode, done.stderr), (1, ""))

    def test_a_full_disk(self) -> None:
        with open("/dev/full", "wb") as full:
            done = self.inspect_merge(full.fileno())
        self.assertEqual((done.returncode, done.stderr), (1, "ltm-tools: No space left on device\n"))

    def test_a_closed_output(self) -> None:
        for words, told in (
            (["inspect", EXAMPLES / "merge"], "ltm-tools: the standard output: it is closed\n"),
            (["inspect", "nowhere"], "ltm-tools inspect: nowhere is no folder\n"),
        ):
            done = subprocess.run(
                ["bash", "-c", '"$@" >&-', "run", sys.executable, TOOLS / "ltm-tools", *words],
                stderr=subprocess.PIPE,
                text=True,
            )
            self.assertEqual((done.returncode, done.stderr), (1, told))

    def test_a_folder_whose_name_is_no_text(self) -> None:
        case = os.fsdecode(os.fsencode(self.folder) + b"/\xff")
        shutil.copytree(DATA / "spillback", case)
        curves, out = ["--curves", f"{case}/curves.csv"], str(self.folder / "out")
        (self.folder / "d3.min.js").write_text("// https://d3js.org v7.0.0\n")
        for words in (
            ["page", case, *curves, "--d3", str(self.folder / "d3.min.js"), "-o", out],
            ["compare", case, case, *curves, "--other-curves", f"{case}/curves.csv", "-o", out],
        ):
            self.assertEqual(commands.run(*words), (0, "", ""))
            self.assertIn("\\xff", Path(out).read_text(encoding="utf-8"))

    def test_a_signal_ends_what_was_started(self) -> None:
        """The program ends with the command that waits for it."""
        program = self.program(
            f"import os, pathlib, time;"
            f" pathlib.Path({str(self.folder / 'pid')!r}).write_text(f'{{os.getpid()}}\\n');"
            f" time.sleep(60)"
        )
        noted = self.folder / "pid"
        for number in (signal.SIGTERM, signal.SIGHUP, signal.SIGINT):
            words = [sys.executable, TOOLS / "ltm-tools", "queues", self.case(), "--program", program]
            with subprocess.Popen(words, stderr=subprocess.PIPE, text=True, preexec_fn=heeding) as command:
                while not (noted.exists() and noted.read_text().endswith("\n")):
                    time.sleep(0.05)
                command.send_signal(number)
                told = command.communicate(timeout=30)[1]
            self.assertEqual((command.returncode, told), (128 + number, ""))
            ended = time.monotonic() + 10
            while Path(f"/proc/{noted.read_text().strip()}").exists() and time.monotonic() < ended:
                time.sleep(0.05)
            self.assertFalse(Path(f"/proc/{noted.read_text().strip()}").exists(), number)
            noted.unlink()

    def test_a_folder_whose_name_begins_with_a_dash(self) -> None:
        self.case().rename(self.folder / "-case")
        self.assertIn("takes the case", self.run_tool("inspect", "--", "-case").stdout)
        self.assertFault(self.run_tool("inspect", "-case"), "required: folder")

    def test_the_clone_stays_as_it_is(self) -> None:
        clone = self.folder / "tools"  # one that nobody else has compiled in
        shutil.copytree(TOOLS, clone, ignore=shutil.ignore_patterns("__pycache__", "tests"))
        done = subprocess.run([clone / "ltm-tools", "inspect", self.case()], capture_output=True, text=True)
        self.assertEqual((done.returncode, done.stderr), (0, ""))
        self.assertEqual(list(clone.rglob("__pycache__")), [])


class Libraries(unittest.TestCase):
    def test_a_library_that_is_missing_is_named(self) -> None:
        with mock.patch.object(libraries, "debian_has", return_value=False), self.assertRaisesRegex(
            Fault, "apt-get install python3-matplotlib"
        ):
            with mock.patch.object(libraries, "missing", return_value=["matplotlib"]):
                libraries.need(["matplotlib"])

    def test_all_that_is_missing_is_named_at_once(self) -> None:
        """Libraries for Python, the script for browsers and the program, on a machine that has none of them."""
        with mock.patch.object(libraries, "debian_missing", return_value=["numpy", "tornado"]), mock.patch.object(
            libraries, "D3_PLACES", ()
        ), mock.patch.object(libraries.importlib.util, "find_spec", return_value=None), mock.patch.dict(
            os.environ, {"LTM": "/nowhere/ltm", "LTM_D3": ""}
        ):
            status, out, fault = commands.run("live", str(EXAMPLES / "corridor"))
            self.assertEqual((status, out, fault.count("\n")), (1, "", 1))
            self.assertIn("apt-get install python3-tornado node-d3, ", fault)
            self.assertIn("install tornado and --d3 FILE with a d3.min.js; and /nowhere/ltm is no program", fault)
            fault = commands.run("live", str(EXAMPLES / "corridor"), "--d3", "d3.js")[2]
            self.assertIn("apt-get install python3-tornado, ", fault)
            words = "closures", str(EXAMPLES / "corridor"), "--from", "0:00", "--to", "0:01", "--scheduler", "tcp://a:1"
            self.assertIn("apt-get install python3-numpy python3-distributed, ", commands.run(*words)[2])

    def test_a_python_with_a_part_of_the_standard_library(self) -> None:
        """As of Debian's package python3-minimal."""
        run = "import runpy, sys; sys.modules['shutil'] = None; runpy.run_path(sys.argv[1], run_name='__main__')"
        words = [sys.executable, "-c", run, TOOLS / "ltm-tools"]
        done = subprocess.run(words, capture_output=True, text=True)
        told = "ltm-tools: this Python has no module shutil: apt-get install python3, which tools/setup does\n"
        self.assertEqual((done.returncode, done.stderr), (1, told))

    def test_a_virtual_environment_of_debian_s_python(self) -> None:
        """Its Python is a link to the same file, and sees none of Debian's packages."""
        done = mock.Mock(returncode=0, stdout=b"")
        with mock.patch.object(sys, "executable", libraries.DEBIAN_PYTHON), mock.patch.object(
            sys, "prefix", "/home/v"
        ), mock.patch.object(sys, "base_prefix", "/usr"), mock.patch("subprocess.run", return_value=done) as run:
            self.assertTrue(libraries.debian_has(["numpy"]))
            self.assertEqual(run.call_args.args[0][0], libraries.DEBIAN_PYTHON)
            with mock.patch.object(sys, "prefix", "/usr"):
                self.assertFalse(libraries.debian_has(["numpy"]))

    def test_debian_s_python_runs_what_this_one_cannot(self) -> None:
        with mock.patch.object(libraries, "missing", return_value=["matplotlib"]), mock.patch.object(
            libraries, "debian_has", return_value=True
        ), mock.patch("os.execve") as run, mock.patch.object(
            sys, "argv", ["ltm-tools", "plot", "link"]
        ), mock.patch.dict(
            os.environ
        ):
            os.environ.pop(libraries.TRIED, None)
            with self.assertRaises(Fault):  # since execve, which is made for the test, comes back
                libraries.need(["matplotlib"])
            python, words, environment = run.call_args.args
            self.assertEqual(
                (python, words[3:], environment[libraries.TRIED]),
                ("/usr/bin/python3", [str(TOOLS), "plot", "link"], "1"),
            )
            os.environ[libraries.TRIED] = "1"
            with self.assertRaises(Fault):
                libraries.need(["matplotlib"])
            self.assertEqual(run.call_count, 1)


@unittest.skipUnless(has("matplotlib"), "not installed: python3-matplotlib")
class Pictures(FolderTest):
    def test_a_link_whose_name_begins_with_a_dash(self) -> None:
        """By the Python that runs the tests, whichever that is."""
        case = self.case(
            links="link,from,to,length_m,free_kmh,wave_kmh,jam_per_km\n-a,n1,n2,20,36,18,150\n", curves=LOADING
        )
        picture = self.folder / "link.png"
        for words in (["link", case, "-a", picture], ["path", case, "-a", picture], ["arrivals", case, picture]):
            done = subprocess.run(
                [sys.executable, TOOLS / "ltm-tools", "plot", words[0], "--", *words[1:]],
                capture_output=True,
                text=True,
                cwd=CLONE,
            )
            self.assertEqual((done.returncode, done.stderr), (0, ""))
            self.assertEqual(picture.read_bytes()[:8], b"\x89PNG\r\n\x1a\n")
            picture.unlink()


if __name__ == "__main__":
    unittest.main()
