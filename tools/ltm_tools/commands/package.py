"""`ltm-tools package`: archives of the proved program for machines without the kit, as `./ltm --package DIR` does."""
import argparse
import sys
from pathlib import Path

from ..errors import Fault
from ..program import CLONE
from ..proving.packaging import put_archives
from ..proving.sums import why_not

NAME = "package"
SUMMARY = "pack the proved program and these tools for machines without the Rattle kit"
EXAMPLES = """examples:
  ltm-tools package dist        # writes dist/ltm-VERSION-x86_64.tar.gz and a wheel for pip

Unpack the first and run its install.sh DIR, or `pip install` the second in a virtual environment."""


def add_arguments(parser: argparse.ArgumentParser) -> None:
    parser.add_argument("folder", metavar="DIR", help="the folder to write the two archives to")


def run(args: argparse.Namespace) -> int:
    why = why_not(CLONE)
    if why:
        raise Fault(f"{why}: ./ltm --prove first")
    for path in put_archives(CLONE, Path(args.folder)):
        print(f"ltm: packed: {path}", file=sys.stderr)
    return 0
