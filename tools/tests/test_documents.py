"""The documents, and the examples that a command's help shows: each command line of the tools has words that its
command takes, each link leads to a file, and a folder or file below /tmp is made by one command alone."""
import contextlib
import functools
import io
import re
import shlex
import unittest
from collections.abc import Iterator

from support import CLONE
from support_documents import DOCUMENTS
from ltm_tools import cli

TOOL = re.compile(r"(?:\$ )?(?:tools/)?ltm-tools (?=[a-z-])")
LINK = re.compile(r"\]\(([^)#\s]+)(?:#[^)\s]*)?\)")
ANCHOR = re.compile(r"\]\(([^)#\s]*)#([^)\s]*)\)")
HEADING = re.compile(r"^#+ (.*)$", re.MULTILINE)
OPERATORS = (">", ">>", "<", "|", "&&", ";", "2>", "2>&1")
NAME = r"(/tmp/[\w.]+)(?![\w./])"
MADE = tuple(
    before + NAME
    for before in (
        r"cp -r \S+ ",
        r"ltm-tools (?:apply|from-gmns) \S+(?: \S+)? ",
        ">",
        r'write\("',
        r"make\.py \w+ ",
        "-o ",
    )
)


def command_lines(text: str) -> Iterator[list[str]]:
    """The words behind `ltm-tools` of each line of a text that is set in and begins with it, up to what is the shell's;
    a blank-set remark behind them is cut."""
    for line in re.sub(r"\\\n\s*", "", text).splitlines():
        found = TOOL.match(line.strip()) if line.startswith("  ") else None
        if found:
            words = shlex.split(re.split(r" {3,}|\s#\s", line.strip()[found.end() :])[0])
            end = next((place for place, word in enumerate(words) if word.startswith(OPERATORS)), len(words))
            yield words[:end]


@functools.cache
def parser() -> cli.Parser:
    return cli.parser_of(cli.commands())


def fault_of(words: list[str]) -> str:
    """What the parser says against these words; nothing where it takes them."""
    with contextlib.redirect_stderr(io.StringIO()) as told, contextlib.redirect_stdout(io.StringIO()):
        try:
            parser().parse_args(words)
        except SystemExit as end:
            return told.getvalue() if end.code else ""
    return ""


def made_by(text: str) -> list[tuple[str, str]]:
    """The folders and files below /tmp that the commands of a document make, each with the command."""
    lines = [line.strip().removeprefix("$ ") for line in text.splitlines() if line.startswith("    ")]
    return [(name, line) for line in lines for form in MADE for name in re.findall(form, line)]


def anchors(text: str) -> set[str]:
    """The names by which a page's headings are linked to."""
    plain = (re.sub(r"\]\([^)]*\)|[^\w\s-]", "", heading.lower()) for heading in HEADING.findall(text))
    return {heading.strip().replace(" ", "-") for heading in plain}


class Words(unittest.TestCase):
    def test_examples_of_a_command(self) -> None:
        for module in cli.commands():
            lines = list(command_lines(module.EXAMPLES))
            self.assertTrue(lines, module.NAME)
            for words in lines:
                self.assertEqual((words[0], fault_of(words)), (module.NAME, ""), words)

    def test_documents(self) -> None:
        lines = [(path.name, words) for path in DOCUMENTS for words in command_lines(path.read_text(encoding="utf-8"))]
        self.assertGreater(len(lines), 20)
        for name, words in lines:
            self.assertEqual(fault_of(words), "", (name, words))

    def test_a_line_that_is_wrong_is_found(self) -> None:
        self.assertEqual(
            list(
                command_lines(
                    "  ltm-tools times a b --links  --x\n text\n"
                    "    $ tools/ltm-tools queues a >b   note\nltm-tools no\n"
                )
            ),
            [["times", "a", "b", "--links", "--x"], ["queues", "a"]],
        )
        self.assertIn("unrecognized arguments: --links", fault_of(["times", "a", "b", "--links"]))


class Links(unittest.TestCase):
    def test_each_leads_to_a_file_that_is_there(self) -> None:
        """Pictures too; addresses are passed over."""
        found = [
            (path, target)
            for path in DOCUMENTS
            for target in LINK.findall(path.read_text(encoding="utf-8"))
            if "://" not in target
        ]
        self.assertGreater(len(found), 100)
        self.assertEqual(
            [f"{path.relative_to(CLONE)}: {target}" for path, target in found if not (path.parent / target).exists()],
            [],
        )

    def test_each_part_of_a_page_is_a_heading(self) -> None:
        found = [
            (path, target, part)
            for path in DOCUMENTS
            for target, part in ANCHOR.findall(path.read_text(encoding="utf-8"))
            if "://" not in target
        ]
        self.assertGreater(len(found), 30)
        self.assertEqual(
            [
                f"{path.relative_to(CLONE)}: {target}#{part}"
                for path, target, part in found
                if part not in anchors((path.parent / target if target else path).read_text(encoding="utf-8"))
            ],
            [],
        )
        self.assertEqual(anchors("# A `b`, [c](d.md)\n## E-f: 2nd\n"), {"a-b-c", "e-f-2nd"})


class Places(unittest.TestCase):
    def test_where_changes_begin(self) -> None:
        """Each file and folder that ARCHITECTURE names for a change or a question is there."""
        text = (CLONE / "docs" / "ARCHITECTURE.md").read_text(encoding="utf-8")
        table = text[text.index("## Where to begin") : text.index("## The layers")]
        self.assertGreater(len(table.splitlines()), 18)
        named = {name.rstrip("/") for name in re.findall(r"`([\w./]*/[\w./]*)`", table)}
        self.assertGreater(len(named), 30)
        tops = (CLONE / "crates", CLONE / "tools", CLONE / "docs")
        there = {
            str(path.with_suffix(suffix))
            for top in tops
            for path in top.rglob("*")
            if "out" not in path.parts
            for suffix in {path.suffix, ""}
        }
        self.assertEqual({name for name in named if not any(place.endswith(f"/{name}") for place in there)}, set())


class Folders(unittest.TestCase):
    def test_each_is_made_by_one_command(self) -> None:
        """What is copied in one document is copied in no other: a copy into a folder that is there stands within it."""
        makers: dict[str, set[str]] = {}
        for path in DOCUMENTS:
            for name, line in made_by(path.read_text(encoding="utf-8")):
                makers.setdefault(name, set()).add(f"{path.name}: {line}" if line.startswith("cp ") else line)
        self.assertGreater(len(makers), 20)
        self.assertEqual({name: lines for name, lines in makers.items() if len(lines) > 1}, {})

    def test_what_makes_one(self) -> None:
        text = (
            "    $ cp -r examples/a /tmp/one\n    tools/ltm-tools apply a b /tmp/two\n"
            "    ./ltm a curves >/tmp/three.csv\nfrom-gmns /tmp/no\n"
        )
        self.assertEqual([name for name, _ in made_by(text)], ["/tmp/one", "/tmp/two", "/tmp/three.csv"])


if __name__ == "__main__":
    unittest.main()
