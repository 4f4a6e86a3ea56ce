"""The command line: `ltm-tools COMMAND ..`.

Each command is a module of `commands`, called as it is typed, with NAME, SUMMARY (a line), EXAMPLES (text),
`add_arguments(parser)` and `run(args) -> int`, which gives the status. It may have `needs(args)`: the names of the
libraries beside Python's own without which it cannot run with these arguments.
"""
import argparse
import errno
import importlib
import io
import os
import re
import signal
import sys
from collections.abc import Sequence
from types import ModuleType
from typing import NoReturn

from . import libraries
from .errors import Fault, one_line
from .files import check_output
from .program import find_program

# modules, in the order in which they are told
COMMANDS = (
    "inspect",
    "explain",
    "from_gmns",
    "from_sumo",
    "from_tntp",
    "demand",
    "splits",
    "signals",
    "turns",
    "queues",
    "times",
    "flows",
    "validate",
    "calibrate",
    "compare",
    "page",
    "live",
    "geojson",
    "plot",
    "draw",
    "sweep",
    "assign",
    "closures",
    "bottlenecks",
    "drive",
    "apply",
    "cut",
    "prove",
    "install",
    "package",
)

PROGRAM = "ltm-tools"
INTERRUPTED = 130


class Parser(argparse.ArgumentParser):
    """A parser whose fault is one line and status 1."""

    def error(self, message: str) -> NoReturn:
        option = re.match(r"argument (?:-[a-z]/)?(--[a-z-]+): expected", message)
        hint = f"; one that begins with - stands behind =, as in {option[1]}=-a" if option else ""
        if "-" in message.partition(":")[2]:
            hint = "; a name that begins with - stands behind --"
        tell(f"{self.prog}: {message}{hint} ({self.prog} --help says more)")
        sys.exit(1)


def commands(names: Sequence[str] = COMMANDS) -> list[ModuleType]:
    """The modules of all commands, or of some."""
    return [importlib.import_module(f".commands.{name}", __package__) for name in names]


def command_asked(words: Sequence[str]) -> Sequence[str]:
    """The command that is asked for, which loads no other; where there is none, all."""
    name = words[0].replace("-", "_") if words else ""
    return [name] if name in COMMANDS else COMMANDS


def parser_of(modules: Sequence[ModuleType]) -> Parser:
    """The parser of all commands."""
    parser = Parser(
        prog=PROGRAM,
        description="Tools around the proved program ltm. The tools themselves are not proved.",
        epilog=f"{PROGRAM} COMMAND --help explains a command, with examples.",
        allow_abbrev=False,
    )
    choices = parser.add_subparsers(dest="command", metavar="COMMAND", required=True)
    for module in modules:
        one = choices.add_parser(
            module.NAME,
            help=module.SUMMARY,
            description=module.SUMMARY,
            epilog=module.EXAMPLES,
            formatter_class=argparse.RawDescriptionHelpFormatter,
            allow_abbrev=False,
        )
        module.add_arguments(one)
        one.set_defaults(module=module)
    return parser


def run(words: Sequence[str] | None) -> int:
    """Runs a command: its status."""
    words = sys.argv[1:] if words is None else words
    args = parser_of(commands(command_asked(words))).parse_args(words)
    try:
        if hasattr(args.module, "needs"):
            libraries.need(args.module.needs(args), unbuilt(args))
        if getattr(args, "output", None) is not None:
            check_output(args.output)
        status = int(args.module.run(args))
        sys.stdout.flush()
        return status
    except Fault as fault:
        tell(f"{PROGRAM} {args.command}: {fault}")
        return 1


def unbuilt(args: argparse.Namespace) -> str:
    """What is to be said beside missing libraries, where a command runs the program and there is none."""
    if not hasattr(args, "program") or getattr(args, "curves", None) is not None:
        return ""
    try:
        find_program(args.program)
    except Fault as fault:
        return f"; and {fault}"
    return ""


def end_by_signals() -> None:
    """Has the signals that end a run end it as an interrupt does: what it has started ends too, and no file stays half
    written."""
    for number in (signal.SIGTERM, signal.SIGHUP):
        if signal.getsignal(number) is not signal.SIG_IGN:
            signal.signal(number, lambda got, _: sys.exit(128 + got))


def end_output() -> None:
    """Writes what is left of the output; where it cannot be written, nothing is tried anew when Python ends."""
    try:
        sys.stdout.flush()
    except OSError:
        try:
            os.dup2(os.open(os.devnull, os.O_WRONLY), sys.stdout.fileno())
        except (OSError, ValueError):
            pass


def main(words: Sequence[str] | None = None) -> int:
    """Runs a command; whatever is wrong is one line on the standard error, and status 1."""
    if words is None:
        standard_streams()
        end_by_signals()
    for stream in (sys.stdout, sys.stderr):
        if isinstance(stream, io.TextIOWrapper):
            stream.reconfigure(errors="backslashreplace")
    try:
        return status_of(words)
    except BrokenPipeError:
        end_output()  # whoever read the output has gone: there is nobody to tell
        return 1
    except KeyboardInterrupt:
        return INTERRUPTED
    except OSError as error:
        place = f"{os.fsdecode(error.filename)}: " if isinstance(error.filename, (str, bytes, os.PathLike)) else ""
        tell(f"{PROGRAM}: {place}{error.strerror or error}")
        end_output()
        return 1
    except (MemoryError, RecursionError):
        tell(f"{PROGRAM}: memory was not found")
        return 1


def status_of(words: Sequence[str] | None) -> int:
    """Runs a command, or tells what is wrong with its words, or its help: the status, once all is written."""
    try:
        return run(words)
    except SystemExit as end:
        sys.stdout.flush()
        return end.code if isinstance(end.code, int) else int(bool(end.code))


def tell(text: str) -> None:
    """Writes one line on the standard error, if that takes it."""
    try:
        print(one_line(text), file=sys.stderr, flush=True)
    except OSError:
        pass


class Closed(io.TextIOBase):
    """The standard output where it is closed: whatever is written is a fault."""

    def write(self, text: str) -> int:
        raise OSError(errno.EBADF, "it is closed", "the standard output")


def standard_streams() -> None:
    """Puts something in the place of standard streams that are closed, so that no file that is opened later is taken
    for one of them."""
    for number in range(3):
        try:
            os.fstat(number)
        except OSError:
            os.set_inheritable(os.open(os.devnull, os.O_RDWR), True)
    if sys.stdin is None:
        sys.stdin = open(os.devnull, encoding="utf-8")
    if sys.stdout is None:
        sys.stdout = Closed()
    if sys.stderr is None:
        sys.stderr = open(os.devnull, "w", encoding="utf-8")
