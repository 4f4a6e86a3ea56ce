"""Tests of tools/test: what takes too long fails, and with --all what is skipped."""
import importlib.machinery
import importlib.util
import io
import os
import signal
import sys
import time
import types
import unittest
from contextlib import redirect_stdout
from unittest import mock

from once_more import OnceMore
from support import TOOLS
from ltm_tools import libraries


def runner() -> types.ModuleType:
    """The script, under a name that is none of Python's own."""
    loader = importlib.machinery.SourceFileLoader("tools_test", str(TOOLS / "test"))
    spec = importlib.util.spec_from_loader("tools_test", loader)
    assert spec is not None
    module = importlib.util.module_from_spec(spec)
    with mock.patch.object(sys, "path", list(sys.path)):
        loader.exec_module(module)
    return module


def made(**bodies: object) -> type[unittest.TestCase]:
    return type("Made", (unittest.TestCase,), {f"test_{name}": body for name, body in bodies.items()})


class Runs(unittest.TestCase):
    def run_all(self, case: type[unittest.TestCase], *words: str, seconds: float = 1.0) -> tuple[int, str]:
        """The status and the words of a run whose tests may take so long; with 0 no timer runs, and any signal ends
        them."""
        module = runner()
        module.LIMITS = tuple((*limit[:3], seconds, *limit[4:]) for limit in module.LIMITS)
        tests = unittest.defaultTestLoader.loadTestsFromTestCase(case)
        with redirect_stdout(io.StringIO()) as told, mock.patch.object(
            libraries, "missing", return_value=[]
        ), mock.patch.object(unittest.TestLoader, "loadTestsFromNames", return_value=tests):
            status = module.main([*words, "made"])
        self.assertEqual(signal.getitimer(signal.ITIMER_REAL)[0], 0)
        return status, told.getvalue()

    def test_what_takes_too_long(self) -> None:
        """An endless loop and an endless wait, also where every fault is caught; what comes behind them is run."""

        def loops(_: object) -> None:
            while True:
                try:
                    sum(range(1000))
                except Exception:
                    pass

        status, told = self.run_all(made(a_loops=loops, b_waits=lambda _: time.sleep(60), c_is_well=lambda _: None))
        self.assertEqual((status, told.splitlines()[-1]), (1, "1 passed, 2 failed, 0 skipped"))
        self.assertIn("it takes more than 1 seconds of the clock", told)

    def test_both_limits_at_once(self) -> None:
        """The second is reached while the first is told: the test has failed, and the next is run."""

        def both(_: object) -> None:
            limits = (signal.SIGALRM, signal.SIGPROF)
            signal.pthread_sigmask(signal.SIG_BLOCK, limits)
            for number in limits:
                os.kill(os.getpid(), number)
            signal.pthread_sigmask(signal.SIG_UNBLOCK, limits)

        status, told = self.run_all(made(a_both=both, b_is_well=lambda _: None), seconds=0.0)
        self.assertEqual((status, told.splitlines()[-1]), (1, "1 passed, 1 failed, 0 skipped"))

    def test_a_signal_that_comes_late(self) -> None:
        """A signal of the test before ends no test that has time left."""

        def signalled(_: object) -> None:
            for number in (signal.SIGALRM, signal.SIGPROF):
                os.kill(os.getpid(), number)

        status, told = self.run_all(made(a_signalled=signalled), seconds=60.0)
        self.assertEqual((status, told.splitlines()[-1]), (0, "1 passed, 0 failed, 0 skipped"))

    def test_a_browser_that_is_slow_at_first(self) -> None:
        """A test that fails at first passes at its second run, with all made anew, and says so; a fault that stays
        fails."""
        told: list[str] = []

        class Made(OnceMore):
            def anew(self) -> None:
                told.append("anew")

            def setUp(self) -> None:
                self.addCleanup(told.append, "cleaned")

            def test_a_slow(self) -> None:
                self.assertIn("anew", told)

            def test_b_wrong(self) -> None:
                self.assertEqual(1 + 1, 3)

        with mock.patch.object(sys, "__stderr__", io.StringIO()) as errors:
            status, lines = self.run_all(Made)
        self.assertEqual((status, lines.splitlines()[-1]), (1, "1 passed, 1 failed, 0 skipped"))
        self.assertEqual(told, ["cleaned", "anew", "cleaned"] * 2)
        self.assertEqual(errors.getvalue().count("failed, and is run once more:"), 2)

    def test_help(self) -> None:
        with redirect_stdout(io.StringIO()) as told:
            self.assertEqual(runner().main(["--help"]), 0)
        self.assertIn("tools/test [--all [--without NAMES]] [MODULE ..]", told.getvalue())

    def test_what_is_skipped(self) -> None:
        def skips(test: unittest.TestCase) -> None:
            test.skipTest("it is not there")

        case = made(a_is_well=lambda _: None, b_is_skipped=skips)
        for words, status in (((), 0), (("--all",), 1)):
            found, told = self.run_all(case, *words)
            skipped = f"skipped: test_b_is_skipped ({case.__module__}.Made.test_b_is_skipped): it is not there"
            self.assertEqual((found, told.splitlines()[-2:]), (status, [skipped, "1 passed, 0 failed, 1 skipped"]))
        self.assertEqual(self.run_all(made(a_is_well=lambda _: None), "--all")[0], 0)

    def test_a_package_that_could_not_be_had(self) -> None:
        """With --all a skip is let pass where its reason names a package behind --without, and not a part of one."""

        def skips(test: unittest.TestCase) -> None:
            test.skipTest("not installed: sumo-tools")

        case = made(a_is_well=lambda _: None, b_is_skipped=skips)
        for without, status in (("mypy,sumo-tools", 0), ("sumo", 1), ("tools", 1), ("", 1)):
            self.assertEqual(self.run_all(case, "--all", "--without", without)[0], status, without)


if __name__ == "__main__":
    unittest.main()
