"""`./ltm`, with an `rt` and a program that are made for the test, in a small clone and a clean environment."""
import fcntl
import functools
import os
import shutil
import signal
import subprocess
import sys
import time
import unittest
from collections.abc import Callable
from pathlib import Path
from unittest import mock

from support import CLONE, ROAD
from support_clone import COSTS, CRATES, Clone, PROVES, SYSTEM
from ltm_tools.errors import Fault
from ltm_tools.proving.plan import Needs, ProofPlan, read_costs, read_crates, stands_on, tail_of
from ltm_tools.proving.sums import sum_of


# `rt try`: says what it was called with, and answers as the test wants
ANSWERS = """#!/bin/bash
printf '%s\\n' "$PWD" "$@" >"$MADE/called"
cat >"$MADE/stdin"
{body}
"""
ENDED = (
    "echo 'checked: ended status={0}' >&2; echo 'run=ended status={0} runners=1 races=unchecked proved=no' >&2;"
    " exit {0}"
)


class NotProved(Clone):
    @unittest.skipIf(shutil.which("rt", path=SYSTEM), "rt lies where the system's commands do")
    def test_no_rt(self) -> None:
        done = self.run_ltm("case", "load")
        self.assertEqual((done.returncode, done.stdout), (1, ""))
        self.assertIn("the command rt of the Rattle kit is not on the path", done.stderr)
        self.assertEqual(self.run_ltm("--prove").returncode, 1)

    def test_rt_answers(self) -> None:
        self.rt(ANSWERS, "echo version 0 generated 1.000;" + ENDED.format(0))
        done = self.run_ltm("case", "load")
        self.assertEqual((done.returncode, done.stdout), (0, "version 0 generated 1.000\n"))
        first, second = done.stderr.splitlines()
        self.assertIn("the program is not proved yet", first)
        self.assertIn("index out of range", first + second)
        self.assertIn("./ltm --prove", second)
        data = [
            word
            for file in ("setup", "links", "demand", "splits")
            for word in ("--data", f"{file}.csv={self.folder / 'case' / file}.csv")
        ]
        self.assertEqual(self.called(), [str(self.top / "crates" / "ltm"), "try", *data, "--", "load"])

    def test_the_script_is_handed_on_whole(self) -> None:
        self.rt(ANSWERS, 'cat "$MADE/stdin";' + ENDED.format(0))
        done = self.run_ltm("case", "session", "0", script='{"do": "totals"}\n{"do": "link", "link": "a", "slot": 1}')
        self.assertEqual(
            (done.returncode, done.stdout), (0, '{"do": "totals"}\n{"do": "link", "link": "a", "slot": 1}')
        )
        self.assertIn("the whole script is read before it is answered", done.stderr)
        self.assertIn("ltm: line 2 of the script: passed over: slot\n", done.stderr)

    def test_a_refusal_keeps_its_status(self) -> None:
        self.case(links="link\n")
        self.rt(ANSWERS, "echo bad case links row 1 Header;" + ENDED.format(6))
        done = self.run_ltm("case", "load")
        self.assertEqual((done.returncode, done.stdout), (6, "bad case links row 1 Header\n"))
        self.assertIn("ltm: links.csv, line 1: the header is to be exactly link,from,to", done.stderr)

    def test_rt_fails(self) -> None:
        for body in (
            "echo half of an output; echo '    | half of an output' >&2; echo 'run=no-answer proved=no' >&2; exit 6",
            "echo half; exit 2",
            "echo half; kill -9 $$",
        ):
            self.rt(ANSWERS, body)
            done = self.run_ltm("case", "curves")
            self.assertEqual((done.returncode, done.stdout), (1, ""), body)
            self.assertIn("rt try gave no answer", done.stderr)
            self.assertNotIn("half", done.stderr)
            self.assertIn("more than 1 MiB", done.stderr)
            self.assertIn("./ltm --prove", done.stderr)

    def test_words_that_are_none(self) -> None:
        self.rt(ANSWERS, "exit 1")
        done = self.run_ltm("case", "lod")
        self.assertEqual((done.returncode, done.stdout), (2, ""))
        self.assertIn("'lod' is no command: load is one", done.stderr)
        self.assertIn("'-x' is no command", self.run_ltm("case", "-x").stderr)
        self.assertFalse((self.made / "called").exists())

    def test_a_source_that_has_changed(self) -> None:
        self.build("echo old")
        (self.top / "crates" / "ltm_a" / "src" / "lib.rt").write_text("// changed\n")
        self.rt(ANSWERS, "echo new;" + ENDED.format(0))
        done = self.run_ltm("case", "load")
        self.assertEqual((done.returncode, done.stdout), (0, "new\n"))
        self.assertIn("a source has changed since the program was proved: crates/ltm_a/src/lib.rt", done.stderr)
        self.assertNotEqual(self.run_ltm("--install", str(self.folder / "bin")).returncode, 0)
        self.assertFalse((self.folder / "bin").exists())

    def test_folders(self) -> None:
        self.assertEqual(self.run_ltm("nowhere", "load").returncode, 2)
        self.assertEqual(self.run_ltm().returncode, 2)
        self.assertIn("a folder of that name is ./-x", self.run_ltm("-x", "load").stderr)


class Proved(Clone):
    def test_it_answers_at_once(self) -> None:
        self.rt(ANSWERS, "exit 1")
        self.build('pwd; echo "$@"; cat')
        done = self.run_ltm("case", "session", "4", script="a line\n")
        self.assertEqual(
            (done.returncode, done.stdout, done.stderr), (0, f"{self.folder / 'case'}\nsession 4\na line\n", "")
        )
        self.assertFalse((self.made / "called").exists())

    def test_it_asks_for_large_pages(self) -> None:
        self.build('echo "$GLIBC_TUNABLES"')
        self.assertEqual(self.run_ltm("case", "load").stdout, "glibc.malloc.hugetlb=1\n")
        with mock.patch.object(self, "environment", lambda: {**Clone.environment(self), "GLIBC_TUNABLES": "my own"}):
            self.assertEqual(self.run_ltm("case", "load").stdout, "my own\n")

    def test_line_by_line(self) -> None:
        self.build("while read -r line; do echo answer to $line; done")
        with subprocess.Popen(
            [self.top / "ltm", "case", "session", "0"],
            cwd=self.folder,
            env=self.environment(),
            stdin=subprocess.PIPE,
            stdout=subprocess.PIPE,
            text=True,
        ) as session:
            for line in ("one", "two"):
                print(line, file=session.stdin, flush=True)
                self.assertEqual(session.stdout.readline(), f"answer to {line}\n")
            session.stdin.close()
        self.assertEqual(session.returncode, 0)

    def test_a_refusal_is_explained(self) -> None:
        self.case(splits=None)
        self.build("exit 3")
        done = self.run_ltm("case", "load")
        self.assertEqual((done.returncode, done.stdout), (3, ""))
        self.assertIn("ltm: splits.csv is not there\n", done.stderr)
        self.build("echo bad case links row 1 Header; exit 6")
        self.case(links="link\n", splits="")
        self.assertIn("ltm: links.csv, line 1: the header", self.run_ltm("case", "load").stderr)

    def test_a_case_without_history(self) -> None:
        self.case(setup="step_ms,slots,origin_capacity,history\n1000,4,1,0\n")
        self.build("echo no history; exit 14")
        told = "ltm: setup.csv, history 0: curves needs the history of a loading"
        done = self.run_ltm("case", "curves")
        self.assertEqual((done.returncode, done.stdout), (14, "no history\n"))
        self.assertIn(told, done.stderr)
        self.assertIn(told.replace("curves", "session"), self.run_ltm("case", "session", "0").stderr)
        self.rt(ANSWERS, "echo no history;" + ENDED.format(14))
        self.built.unlink()
        done = self.run_ltm("case", "curves")
        self.assertEqual((done.returncode, done.stdout), (14, "no history\n"))
        self.assertIn(told, done.stderr)

    def test_a_script_in_a_file(self) -> None:
        self.build("cat >/dev/null")
        (self.folder / "script").write_text(
            '{"do": "edit", "edits": [{"kind": "limit", "link": "a", "from": 0, "to": 1, "vehicles": 0}]}\n'
        )
        with open(self.folder / "script", "rb") as script:
            done = subprocess.run(
                [self.top / "ltm", "case", "session", "0"],
                cwd=self.folder,
                env=self.environment(),
                stdin=script,
                capture_output=True,
                text=True,
            )
        self.assertIn(
            "ltm: line 1 of the script, edit 1: the member vehicles is 0; expected a text with vehicles", done.stderr
        )
        self.assertIn('0 as the text "0"', done.stderr)

    def test_an_output_whose_reader_has_gone(self) -> None:
        self.build("trap '' PIPE; for i in {1..20000}; do echo a line of output || exit 5; done 2>/dev/null")
        done = subprocess.run(
            ["bash", "-c", "set -o pipefail; clone/ltm case load | head -n 1"],
            cwd=self.folder,
            env=self.environment(),
            capture_output=True,
            text=True,
            timeout=60,
        )
        self.assertEqual((done.returncode, done.stdout, done.stderr), (5, "a line of output\n", ""))
        done = subprocess.run(
            ["bash", "-c", "clone/ltm case load >/dev/full"],
            cwd=self.folder,
            env=self.environment(),
            capture_output=True,
            text=True,
            timeout=60,
        )
        self.assertEqual(done.returncode, 5)
        self.assertIn("ltm: the output failed", done.stderr)

    def test_what_is_told(self) -> None:
        self.rt(PROVES)
        self.build("exit 0")
        told = self.run_ltm("--help").stdout
        for word in (
            "load",
            "curves",
            "check",
            "routes",
            "session N",
            "view V",
            "editors K",
            "try START NODES",
            "--prove",
            "--install DIR",
            "docs/FORMATS.md",
        ):
            self.assertIn(word, told)

    def test_the_program_that_a_variable_names(self) -> None:
        """It answers in place of the proved one, and where there is none."""
        self.rt(ANSWERS, "exit 1")
        named = self.program("print('named', *sys.argv[1:])")
        for name in (str(named), named.name):
            done = self.run_ltm("case", "load", LTM=name)
            self.assertEqual((done.returncode, done.stdout, done.stderr), (0, "named load\n", ""))
        self.assertIn(
            f"LTM names {named}, which answers in its place", self.run_ltm("--version", LTM=str(named)).stdout
        )
        self.assertEqual(self.run_ltm("case", "load", LTM=str(self.folder)).returncode, 1)
        done = self.run_ltm("case", "load", LTM="nowhere")
        self.assertEqual(
            (done.returncode, done.stderr),
            (1, "ltm: the variable LTM names nowhere, which is no program that can be run\n"),
        )
        self.build("echo proved")
        self.assertEqual(self.run_ltm("case", "load", LTM="").stdout, "proved\n")
        self.assertRegex(self.run_ltm("--version", LTM=str(self.built)).stdout, "; proved; ")

    def test_check_runs_once(self) -> None:
        """A refusal of `check` is explained by what it has written, which took its time."""
        self.build('echo "$@" >>"$MADE/runs"; echo loading no node n2 slot 1; exit 12')
        done = self.run_ltm("case", "check")
        self.assertEqual((done.returncode, done.stdout), (12, "loading no node n2 slot 1\n"))
        self.assertEqual((self.made / "runs").read_text(), "check\n")
        self.assertIn("ltm: the counts at the end of slot 1", done.stderr)
        self.build("exit 3")
        self.assertEqual(self.run_ltm("case", "check").stdout, "")

    def test_a_script_that_was_partly_read(self) -> None:
        """Lines are counted from the first that the session has read."""
        self.build("cat >/dev/null")
        (self.folder / "script").write_text('none\n{"do": "totals"}\n{"do": "none"}\n')
        done = subprocess.run(
            ["bash", "-c", "{ read -r line; clone/ltm case session 0; } <script"],
            cwd=self.folder,
            env=self.environment(),
            capture_output=True,
            text=True,
        )
        self.assertNotIn("line 1 of the script", done.stderr)
        self.assertIn("ltm: line 2 of the script: ", done.stderr)
        self.assertNotIn("line 3 of the script", done.stderr)


class Surroundings(Clone):
    def test_a_path_for_cd(self) -> None:
        self.build("pwd")
        (self.made / "case").mkdir()
        for cdpath in (str(self.folder), str(self.made), f"{self.made}:{self.folder}:."):
            done = subprocess.run(
                ["clone/ltm", "case", "load"],
                cwd=self.folder,
                env={**self.environment(), "CDPATH": cdpath},
                capture_output=True,
                text=True,
            )
            self.assertEqual((done.returncode, done.stdout, done.stderr), (0, f"{self.folder / 'case'}\n", ""))

    def test_folders_that_end_in_a_newline(self) -> None:
        self.build("cat setup.csv; pwd")
        (self.folder / "case").rename(self.folder / "case\n")
        self.top = self.top.rename(self.folder / "clone\n")
        done = self.run_ltm("case\n", "delay")
        self.assertEqual((done.returncode, done.stderr), (0, ""))
        self.assertEqual(done.stdout, f"{ROAD['setup']}{self.folder}/case\n\n")

    def test_a_signal_ends_what_was_started(self) -> None:
        body = 'echo $$ >"$MADE/pid"; exec sleep 60'
        self.rt(ANSWERS, body)
        for is_built in (False, True):
            if is_built:
                self.build(body)
            for words, number in (
                (["load"], signal.SIGTERM),
                (["check"], signal.SIGHUP),
                (["session", "0"], signal.SIGKILL),
            ):
                with self.subTest(is_built=is_built, words=words):
                    self.end_by(number, words)
        self.assertEqual(
            [path for path in self.made.iterdir() if path.name.startswith("tmp.") and not path.name.endswith("killed")],
            [],
        )

    def end_by(self, number: signal.Signals, words: list[str]) -> None:
        """Runs the wrapper, ends it by a signal, and sees that what it had started ends too."""
        noted = self.made / "pid"
        noted.unlink(missing_ok=True)
        with subprocess.Popen(
            [self.top / "ltm", "case", *words],
            cwd=self.folder,
            env=self.environment(),
            stdin=subprocess.DEVNULL,
            stderr=subprocess.DEVNULL,
            preexec_fn=functools.partial(signal.signal, signal.SIGHUP, signal.SIG_DFL),
        ) as wrapper:
            soon(lambda: noted.exists() and noted.read_text().endswith("\n"))
            wrapper.send_signal(number)
        self.assertNotEqual(wrapper.returncode, 0)
        pid = int(noted.read_text())
        soon(lambda: not is_running(pid))
        self.assertFalse(is_running(pid))


def soon(done: Callable[[], bool]) -> None:
    """Waits until something is so, and at most for ten seconds."""
    for _ in range(200):
        if done():
            return
        time.sleep(0.05)


def is_running(pid: int) -> bool:
    """Whether there is such a process, which has not ended."""
    try:
        return "zombie" not in Path(f"/proc/{pid}/status").read_text()
    except OSError:
        return False


class Proofs(Clone):
    """What counts as proved, by the sums that stand beside the program."""

    def setUp(self) -> None:
        super().setUp()
        self.rt(PROVES)

    def text(self, name: str) -> Path:
        return self.top / "crates" / name / "src" / "lib.rt"

    def change(self, path: Path, text: str) -> None:
        """Another text, with the time of the one before."""
        times = path.stat()
        path.write_text(text)
        os.utime(path, ns=(times.st_atime_ns, times.st_mtime_ns))

    def test_what_is_not_as_it_was_proved(self) -> None:
        lib = self.text("ltm_a")
        for what, reason in (
            (
                lambda: self.change(lib, "// ltm_b\n"),
                "a source has changed since the program was proved: crates/ltm_a/src/lib.rt",
            ),
            (lambda: os.utime(self.text("ltm_c"), (0, 0)), "proved"),
            (lambda: self.text("ltm_low_tests").unlink(), "proved"),
            (
                lambda: self.text("ltm_low").unlink(),
                "a source is gone since the program was proved: crates/ltm_low/src/lib.rt",
            ),
            (
                lambda: lib.with_name("more.rt").write_text(""),
                "a source is new since the program was proved: crates/ltm_a/src/more.rt",
            ),
            (
                lambda: self.change(self.top / "crates.txt", CRATES + "# more\n"),
                "a source has changed since the program was proved: crates.txt",
            ),
            (
                lambda: (self.top / "HANDLES").write_text("Handles allowed: none.\n"),
                "a source is new since the program was proved: HANDLES",
            ),
            (
                lambda: self.change(self.built, "#!/bin/bash\necho another\n"),
                "the program that is there is not the one that was proved",
            ),
            (lambda: self.built.with_name("ltm.sums").unlink(), "the program that is there is not known to be proved"),
            (lambda: self.built.chmod(0o644), "the program is not proved yet"),
        ):
            with self.subTest(reason=reason):
                shutil.rmtree(self.top / "crates")
                (self.top / "HANDLES").unlink(missing_ok=True)
                self.fill()
                self.build("echo as it was")
                self.assertEqual(self.version(), "proved")
                what()
                self.assertEqual(self.version(), reason)

    def test_sums_that_are_kept(self) -> None:
        """Where nothing was touched no sum is made, and a change that keeps size and time is seen."""
        self.build("echo proved")
        time.sleep(2.1)
        self.assertEqual(self.version(), "proved")
        (self.made / "bin" / "python3").write_text("#!/bin/sh\nexit 1\n")
        self.assertEqual(self.version(), "proved")
        self.change(self.text("ltm_a"), "// ltm_b\n")
        self.assertNotEqual(self.version(), "proved")

    def test_sources_behind_a_link(self) -> None:
        """A source that lies behind a link is seen to change as any other is."""
        (self.top / "crates").rename(self.folder / "elsewhere")
        (self.top / "crates").symlink_to(self.folder / "elsewhere")
        self.build("echo proved")
        time.sleep(2.1)
        self.assertEqual([self.version(), self.version()], ["proved", "proved"])
        self.change(self.text("ltm_a"), "// ltm_b\n")
        self.assertNotEqual(self.version(), "proved")

    def test_the_kit_that_proved(self) -> None:
        """`--version` names the kit that proved the program, not the one that is on the path now."""
        self.rt(PROVES)
        with mock.patch.dict(os.environ, {"PATH": f"{self.made / 'bin'}:{SYSTEM}", "MADE": str(self.made)}):
            self.build("exit 0")
        self.rt(PROVES.replace("made-kit", "newer-kit"))
        self.assertRegex(self.run_ltm("--version").stdout, r"^ltm \d+\.\d+\.\d+, commit .*; proved; made-kit\n$")
        self.built.with_name("ltm.sums").unlink()
        self.assertRegex(self.run_ltm("--version").stdout, r"; the program .*; newer-kit\n$")

    def test_what_has_changed_just_now_is_not_kept(self) -> None:
        """Something is touched before it is looked how all stands."""
        self.build("echo proved")
        find = self.made / "bin" / "find"
        find.write_text(f'#!/bin/bash\ntouch "{self.text("ltm_a")}"\nexec /usr/bin/find "$@"\n')
        find.chmod(0o755)
        self.assertEqual(self.version(), "proved")
        self.assertEqual([path.name for path in self.built.parent.iterdir() if "seen" in path.name], [])

    def leave(self, name: str, text: str | bytes) -> None:
        """A file that `rt` leaves beside the program."""
        self.built.with_name(name).write_bytes(text if isinstance(text, bytes) else text.encode())

    def test_a_program_that_rt_has_built(self) -> None:
        """`rt run` leaves a stamp that ends with the program's sum. It counts once, and then the sums do."""
        self.build("echo run", is_proved=False)
        self.leave("ltm.stamp", "0" * 64 + "1" * 64)
        self.assertEqual(self.version(), "the program that is there is not known to be proved")
        self.leave("ltm.stamp", "0" * 64 + sum_of(self.built))
        self.assertEqual(self.version(), "proved")
        self.leave("ltm.stamp", "")
        self.assertEqual(self.version(), "proved")
        self.assertEqual(self.run_ltm("case", "load").stdout, "run\n")

    def test_a_text_that_was_touched_since(self) -> None:
        for what in (
            lambda: self.change(self.text("ltm_a"), "// ltm_b\n"),
            lambda: self.text("ltm_a").unlink(),
            lambda: shutil.rmtree(self.text("ltm_a").parent),
        ):
            shutil.rmtree(self.top / "crates")
            self.fill()
            self.build("echo run", is_proved=False)
            self.leave("ltm.stamp", "0" * 64 + sum_of(self.built))
            time.sleep(0.02)
            what()
            self.assertEqual(self.version(), "the program that is there is not known to be proved")

    def test_a_program_that_the_gate_has_built(self) -> None:
        """`rt ci` makes all `out` folders anew, and at last runs the program and leaves what it wrote."""

        def gate(
            wrote: str, before: Callable[[], object] = lambda: None, after: Callable[[], object] = lambda: None
        ) -> str:
            shutil.rmtree(self.top / "crates")
            self.fill()
            (self.top / "crates" / "ltm" / "stdout").write_text("as is wanted\n")
            time.sleep(0.02)
            for name in stands_on(read_crates(CRATES)):
                (self.top / "crates" / name / "out").mkdir()
            time.sleep(0.02)
            before()
            self.build("echo gate", is_proved=False)
            time.sleep(0.02)
            self.leave("stdout", wrote)
            after()
            return self.version()

        unknown = "the program that is there is not known to be proved"
        self.assertEqual(gate("as is wanted\n"), "proved")
        self.assertEqual(gate("another\n"), unknown)
        self.assertEqual(gate("as is wanted\n", before=lambda: self.change(self.text("ltm_a"), "// ltm_b\n")), unknown)
        self.assertEqual(gate("as is wanted\n", after=lambda: self.change(self.text("ltm_a"), "// ltm_b\n")), unknown)
        self.assertEqual(
            gate("as is wanted\n", after=lambda: (time.sleep(0.02), self.build("echo another", is_proved=False))),
            unknown,
        )


class Installing(Clone):
    def setUp(self) -> None:
        super().setUp()
        self.build('echo installed: "$@"')
        self.into = self.folder / "bin"

    def install(self, into: "str | Path | None" = None) -> "subprocess.CompletedProcess[str]":
        return self.run_ltm("--install", str(into or self.into))

    def answer(self) -> str:
        return subprocess.run([self.into / "ltm", "load"], capture_output=True, text=True).stdout

    def test_install(self) -> None:
        self.assertEqual(self.install().returncode, 0)
        self.assertEqual(self.answer(), "installed: load\n")
        done = subprocess.run(
            [self.into / "ltm-tools", "inspect", self.folder / "case"],
            env=self.environment(),
            capture_output=True,
            text=True,
        )
        self.assertIn("network     1 link, 2 nodes, 1 destination", done.stdout)
        self.assertEqual(sorted(path.name for path in self.into.iterdir()), ["ltm", "ltm-tools", "ltm_tools"])

    def test_its_own_copy_is_replaced(self) -> None:
        self.install()
        (self.into / "ltm_tools" / "__pycache__").mkdir()
        (self.into / "ltm_tools" / "__pycache__" / "cli.pyc").write_text("")
        (self.into / "my_own").write_text("mine")
        self.build('echo again: "$@"')
        done = self.install()
        self.assertEqual((done.returncode, self.answer()), (0, "again: load\n"), done.stderr)
        self.assertEqual(sorted(path.name for path in self.into.iterdir()), ["ltm", "ltm-tools", "ltm_tools", "my_own"])

    def test_what_a_cut_installation_leaves(self) -> None:
        """The tools are renamed first, and the program of before is known."""
        self.install()
        before = (self.into / "ltm").read_bytes()
        self.build('echo again: "$@"')
        self.install()
        (self.into / "ltm").write_bytes(before)
        self.assertEqual((self.install().returncode, self.answer()), (0, "again: load\n"))

    def test_what_is_the_clones(self) -> None:
        link = self.folder / "link"
        link.symlink_to(self.top)
        before = everything(self.top)
        for into in (
            self.top,
            self.top / "tools",
            self.top / "bin",
            self.top / "crates" / "ltm" / "out",
            link,
            link / "tools",
        ):
            done = self.install(into)
            self.assertEqual(done.returncode, 1, into)
            self.assertIn("lies in the clone itself", done.stderr)
        done = subprocess.run(
            ["./ltm", "--install", "."], cwd=self.top, env=self.environment(), capture_output=True, text=True
        )
        self.assertEqual(
            (done.returncode, done.stderr),
            (
                1,
                "ltm-tools install: . lies in the clone itself, which stays as it is: name a folder outside of it\n",
            ),
        )
        self.assertIn("expected a folder", self.run_ltm("--install", "").stderr)
        self.assertEqual(everything(self.top), before)
        # outside of the clone this folder is one like any other
        self.into.mkdir()
        done = subprocess.run(
            [self.top / "ltm", "--install", "."], cwd=self.into, env=self.environment(), capture_output=True, text=True
        )
        self.assertEqual((done.returncode, self.answer()), (0, "installed: load\n"), done.stderr)

    def test_what_is_not_ours(self) -> None:
        tools = self.into / "ltm_tools"

        def put(path: Path, text: str) -> None:
            path.parent.mkdir(exist_ok=True, parents=True)
            path.write_text(text)

        for is_installed, what, named in (
            (False, lambda: put(self.into / "ltm", "mine"), "ltm"),
            (False, lambda: put(self.into / "ltm" / "mine", "mine"), "ltm"),
            (False, lambda: (self.into / "ltm").mkdir(parents=True), "ltm"),
            (False, lambda: put(self.into / "ltm-tools", "mine"), "ltm-tools"),
            (False, lambda: put(tools / "mine", "mine"), "ltm_tools"),
            (False, lambda: tools.mkdir(parents=True), "ltm_tools"),
            (True, lambda: put(tools / "mine", "mine"), "ltm_tools/mine"),
            (True, lambda: put(tools / "cli.py", "mine"), "ltm_tools/cli.py"),
            (True, lambda: put(self.into / "ltm", "mine"), "ltm"),
            (True, lambda: (self.into / "ltm").unlink() or (self.into / "ltm").symlink_to(self.built), "ltm"),
            (True, lambda: (tools / "link").symlink_to(self.folder), "ltm_tools/link"),
        ):
            shutil.rmtree(self.into, ignore_errors=True)
            if is_installed:
                self.install()
            what()
            with self.subTest(is_installed=is_installed, named=named):
                before = everything(self.into)
                done = self.install()
                self.assertEqual(done.returncode, 1)
                self.assertIn(f"{self.into}/{named} is no", done.stderr)
                self.assertEqual(everything(self.into), before)
        (self.folder / "file").write_text("mine")
        self.assertIn("is no folder", self.install(self.folder / "file").stderr)

    def start(self) -> "subprocess.Popen[str]":
        return subprocess.Popen(
            [self.top / "ltm", "--install", self.into], env=self.environment(), stderr=subprocess.PIPE, text=True
        )

    def test_two_at_once(self) -> None:
        """One waits for the other."""
        self.install()
        folder = os.open(self.into, os.O_RDONLY)
        fcntl.flock(folder, fcntl.LOCK_EX)
        both = [self.start(), self.start()]
        with self.assertRaises(subprocess.TimeoutExpired):
            both[0].wait(timeout=3)
        os.close(folder)
        self.assertEqual([(one.communicate()[1][:16], one.returncode) for one in both], [("ltm: installed: ", 0)] * 2)
        self.assertEqual(self.answer(), "installed: load\n")
        self.assertEqual(sorted(path.name for path in self.into.iterdir()), ["ltm", "ltm-tools", "ltm_tools"])

    def test_a_clone_that_may_only_be_read(self) -> None:
        """Whatever its modes are, the copy can be written by its owner, and replaced."""
        for path in (*self.top.rglob("*"), self.top):
            path.chmod(path.stat().st_mode & ~0o222)
        try:
            self.assertEqual(self.install().returncode, 0)
        finally:
            for path in (self.top, *self.top.rglob("*")):
                path.chmod(path.stat().st_mode | 0o200)
        self.assertEqual([path for path in self.into.rglob("*") if not path.stat().st_mode & 0o200], [])
        self.assertEqual(self.install().returncode, 0)

    def test_its_program_is_found_from_any_python(self) -> None:
        """Also where a library is missing, and the tools run themselves anew by the Python that has it."""
        self.install()
        asked = (
            "import sys; sys.path.append(sys.argv.pop(1)); from ltm_tools.program import find_program;"
            " print(find_program())"
        )
        done = subprocess.run(
            [sys.executable, "-c", asked, self.into], cwd="/", env={"PATH": SYSTEM}, capture_output=True, text=True
        )
        self.assertEqual(done.stdout, f"{self.into / 'ltm'}\n", done.stderr)


def everything(top: Path) -> dict[str, bytes]:
    """What stands below a folder; of a link, where it goes."""
    return {
        str(path): os.readlink(path).encode() if path.is_symlink() else path.read_bytes() if path.is_file() else b""
        for path in top.rglob("*")
    }


class Proving(Clone):
    def prove(self) -> "subprocess.CompletedProcess[str]":
        return self.run_ltm("--prove", "--jobs", "4")

    def log(self) -> list[str]:
        return (self.made / "log").read_text().splitlines()

    def test_it_proves_what_the_program_stands_on(self) -> None:
        """The four crates are proved side by side: 60 seconds, 60 more, and the program's 120 at twice the speed: 3
        minutes."""
        self.rt(PROVES, '[ $1 = all ] && cp crates.txt "$MADE/listed"; true')
        done = self.prove()
        self.assertEqual(done.returncode, 0, done.stderr)
        self.assertIn("proving 6 crates, 4 at a time", done.stderr)
        self.assertIn("0 of 6 crates proved, 6 left, 0 minutes gone, about 3 more", done.stderr)
        self.assertIn("6 of 6 crates proved, 0 left", done.stderr)
        self.assertEqual(
            (self.made / "listed").read_text(), "".join(f"ltm_{name}: ltm_low csv\n" for name in "abcd") + "ltm_low:\n"
        )
        self.assertEqual(
            [line.split(" in ")[0] for line in self.log() if line[:7] != "version"],
            ["all check --jobs 4", "run --jobs 4 -- try 1 4"],
        )
        self.assertEqual(self.run_ltm("case", "load").stdout, "proved program: load\n")
        self.assertIn("proved and built already", self.prove().stderr)

    def test_it_goes_on(self) -> None:
        self.rt(PROVES, 'if [ $1 = run ] && [ ! -e "$MADE/second" ]; then touch "$MADE/second"; rm out/ltm; exit 1; fi')
        done = self.prove()
        self.assertEqual(done.returncode, 1)
        self.assertIn("rt run --jobs 4 -- try 1 4 ended with status 1", done.stderr)
        self.assertIn("    a run\n", done.stderr)
        self.assertFalse(self.built.exists())
        before = len(self.log())
        done = self.prove()
        self.assertEqual(done.returncode, 0)
        self.assertIn("5 of 6 crates proved, 1 left, 0 minutes gone, about 1 more", done.stderr)
        self.assertEqual([line.split()[0] for line in self.log()[before:]], ["version", "run", "version"])

    def test_a_change_is_proved_anew(self) -> None:
        self.rt(PROVES)
        self.prove()
        (self.top / "crates" / "ltm_a" / "src" / "lib.rt").write_text("// changed\n")
        self.assertIn("4 of 6 crates proved, 2 left", self.prove().stderr)
        self.rt(PROVES.replace("made-kit", "another kit"))
        (self.top / "crates" / "ltm_a" / "src" / "lib.rt").write_text("// changed again\n")
        self.assertIn("0 of 6 crates proved, 6 left", self.prove().stderr)

    def test_a_crate_that_is_not_proved(self) -> None:
        self.rt(PROVES, 'if [ $1 = all ]; then echo "== ltm_b"; echo "goal open"; exit 1; fi')
        done = self.prove()
        self.assertEqual(done.returncode, 1)
        self.assertIn("    goal open\n", done.stderr)
        self.assertFalse(self.built.exists())

    def test_an_interrupt_ends_what_it_started(self) -> None:
        self.rt(PROVES, 'if [ $1 = all ]; then echo $$ >"$MADE/pid"; exec sleep 60; fi')
        # a shell that starts what runs these tests in the background has it ignore interrupts
        heard = functools.partial(signal.signal, signal.SIGINT, signal.SIG_DFL)
        proof = subprocess.Popen(
            [self.top / "ltm", "--prove", "--jobs", "4"],
            cwd=self.folder,
            env=self.environment(),
            stderr=subprocess.PIPE,
            text=True,
            start_new_session=True,
            preexec_fn=heard,
        )
        for _ in range(200):
            time.sleep(0.05)
            if (self.made / "pid").exists() and (self.made / "pid").read_text().strip():
                break
        os.killpg(proof.pid, signal.SIGINT)
        _, told = proof.communicate(timeout=20)
        self.assertNotEqual(proof.returncode, 0, told)
        with self.assertRaises(ProcessLookupError):
            os.kill(int((self.made / "pid").read_text()), 0)


class Plans(unittest.TestCase):
    """How long a proof takes, by hand: a crate of 60 seconds, four of 60 on it, and a program of 120 on these."""

    def plan(self, lanes: int) -> ProofPlan:
        needs = stands_on(read_crates(CRATES))
        costs = read_costs(COSTS)
        return ProofPlan(needs, {name: float(costs[name.removeprefix("ltm_")]) for name in needs}, lanes)

    def test_side_by_side_and_then_alone(self) -> None:
        plan = self.plan(4)
        self.assertEqual(
            (set(plan.side_by_side), plan.tail), ({"ltm_low", *(f"ltm_{name}" for name in "abcd")}, ["ltm"])
        )

    def test_a_chain_at_the_end_gets_all_processors(self) -> None:
        needs: Needs = {"a": [], "b": ["a"], "c": ["b"], "side": [], "ltm": ["c", "side"]}
        self.assertEqual(tail_of(needs), ["b", "c", "ltm"])
        self.assertEqual(tail_of({**needs, "side": ["b"]}), ["ltm"])  # `c` and `side` can be proved side by side
        self.assertEqual(tail_of({**needs, "side": ["c"]}), ["a", "b", "c", "side", "ltm"])

    def test_the_rest_at_the_pace_of_the_run(self) -> None:
        # 420 seconds of the table: alone at a pace of 1, on more processors at 2, and at most at 2.5
        self.assertEqual([self.plan(lanes).seconds_left((), (), 0) for lanes in (1, 2, 4, 64)], [420, 210, 168, 168])
        # 60 of 420 took 600 seconds: with 240 seconds at a pace of 2.5 that is 840 seconds for 660, and 360 are left
        self.assertAlmostEqual(self.plan(4).seconds_left((), ["ltm_low"], 600), 360 * 840 / 660)
        # nothing is done after 240 seconds, so it is twice as slow as the table
        self.assertEqual(self.plan(4).seconds_left((), (), 240), 2 * 168)
        # what was kept says nothing of the pace
        self.assertEqual(self.plan(4).seconds_left(["ltm_low"], ["ltm_low"], 0), 360 / 2.5)

    def test_crates_that_stand_on_one_another(self) -> None:
        with self.assertRaisesRegex(Fault, "stands on itself"):
            stands_on({"ltm": ["a"], "a": ["b"], "b": ["a"]})

    def test_the_crates_of_this_clone(self) -> None:
        needs = stands_on(read_crates((CLONE / "crates.txt").read_text()))
        self.assertEqual([name for name in needs if name.endswith("_tests")], [])
        self.assertTrue(
            all(
                place > max((list(needs).index(need) for need in lower), default=-1)
                for place, lower in enumerate(needs.values())
            )
        )


if __name__ == "__main__":
    unittest.main()
