"""`ltm-tools explain`: what the program has written, in words."""
import argparse

from ..case.explain import explain
from ..files import read_text
from ..loading.inspect import explain_report
from .arguments import whole

NAME = "explain"
SUMMARY = "explain an answer of ltm in words, and say what to do about it"
EXAMPLES = """examples:
  ltm-tools explain CASE 6 "bad case links row 2 StepTooLong 1440 7200"
  ltm-tools explain CASE 3 "" routes
  ltm-tools explain CASE 0 "" session 0 --script script.jsonl
  ltm-tools explain CASE 0 "refused link UnknownName" --command '{"do": "link", "link": "z"}'

LINE is the last line that the program wrote, and WORD .. are the words it was given (default: load). --report explains
a loading in which vehicles stand still until the end: since when, and whether it is a gridlock. --script explains the
lines of a script that are no commands, and names members that are ignored; --command explains a line `refused ..`."""


def add_arguments(parser: argparse.ArgumentParser) -> None:
    parser.add_argument("folder", help="the folder of the case")
    parser.add_argument("status", type=whole, help="the exit status of ltm")
    parser.add_argument("line", help="the last line that it wrote")
    parser.add_argument("words", nargs="*", metavar="WORD", help="the words it was given")
    parser.add_argument(
        "--command", metavar="COMMAND", dest="asked", help="the line of a script to which LINE is the answer"
    )
    parser.add_argument("--report", metavar="FILE", help="the report that load wrote")
    parser.add_argument("--script", metavar="FILE", help="the script it read from its standard input")


def run(args: argparse.Namespace) -> int:
    for line in explain(args.folder, args.status, args.line, args.words, args.script, args.asked):
        print(line)
    for line in explain_report(args.folder, read_text(args.report)) if args.report is not None else ():
        print(line)
    return 0
