"""`ltm-tools install`: copies the proved program and these tools into a folder, as `./ltm --install DIR` does."""
import argparse
import sys
from pathlib import Path

from ..errors import Fault
from ..program import CLONE
from ..proving.installing import COMMAND, PACKAGE, PROGRAM, install
from ..proving.sums import why_not

NAME = "install"
SUMMARY = "copy the proved program and these tools to a folder"
EXAMPLES = """examples:
  ltm-tools install ~/.local/bin

It copies ltm, ltm-tools and its folder ltm_tools. It replaces what it installed there before, and nothing else."""


def add_arguments(parser: argparse.ArgumentParser) -> None:
    parser.add_argument("folder", metavar="DIR", help="the folder to copy to, such as ~/.local/bin")


def run(args: argparse.Namespace) -> int:
    if not args.folder:
        raise Fault("expected a folder, as ~/.local/bin")
    why = why_not(CLONE)
    if why:
        raise Fault(f"{why}: ./ltm --prove first")
    into = Path(args.folder)
    install(CLONE, into)
    print(f"ltm: installed: {into / PROGRAM}, and {into / COMMAND} with its folder {PACKAGE}", file=sys.stderr)
    return 0
