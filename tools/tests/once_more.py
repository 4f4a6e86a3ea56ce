"""Tests that are run once more where they fail at first, and say so on standard error. What a browser paints, and when,
depends on the machine and on what else it does; a fault of ours is there both times."""
import functools
import sys
import traceback
import unittest
from collections.abc import Callable

Test = Callable[[unittest.TestCase], None]


class OnceMore(unittest.TestCase):
    """A test of which each method is run once more where it fails at first, after `anew`."""

    def __init_subclass__(cls) -> None:
        super().__init_subclass__()
        for name, test in list(vars(cls).items()):
            if name.startswith("test_"):
                setattr(cls, name, once_more(test))

    def anew(self) -> None:
        """Makes anew what all tests of the class share."""


def once_more(test: Test) -> Callable[[OnceMore], None]:
    """A test that is run once more where it fails at first."""

    @functools.wraps(test)
    def run(case: OnceMore) -> None:
        try:
            test(case)
            return
        except unittest.SkipTest:
            raise
        except Exception:
            told = traceback.format_exc()
        print(f"{case.id()} failed, and is run once more:\n{told}", file=sys.__stderr__, flush=True)
        case.doCleanups()
        case.anew()
        case.setUp()
        test(case)

    return run
