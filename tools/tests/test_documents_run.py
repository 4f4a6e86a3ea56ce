"""The commands of the documents are run as they stand there, and what the documents show of their outputs is what they
print. A block that no test runs is marked in the document, with one of the reasons below."""
import tempfile
import unittest
from collections import Counter
from collections.abc import Callable
from pathlib import Path

import support_documents as documents
from support import CLONE, FolderTest, lack_of, needs_program
from support_documents import DOCUMENTS
from support_sumo import release

REASONS = {
    "it changes the machine": 1,  # sudo tools/setup
    "it proves": 6,  # the kit's words, for up to an hour
    "it serves until it is ended": 2,  # the live map, which test_live and test_live_page drive
    "it needs several machines": 1,  # test_cluster has workers of its own
    "it takes minutes": 15,  # SUMO of a town, or many iterations
    "threads decide the order": 2,  # examples/run knows both
    "it is a form": 9,  # of FORMATS, in which words in capitals stand for others
    "it is a part of a file": 4,  # that a reader writes, or a commit shows
}
"""How many blocks stand for each reason: a block more is a decision, to be made here."""
LAWS = {"ARCHITECTURE.md", "CLAIMS.md", "CRATES.md", "DECISIONS.md", "MEASURED.md", "READING.md", "REPAIR.md"}
"""Pages about the proof, whose blocks are code and drawings, and the page that tools/measure writes."""
NEEDS = {
    "examples/assign/README.md": ("python3-numpy",),
    "docs/ASSIGN.md": ("python3-numpy", "python3-matplotlib"),
    "docs/CALIBRATE.md": ("python3-numpy", "python3-matplotlib"),
    "docs/COUNTS.md": ("python3-matplotlib",),
    "docs/PAGE.md": ("python3-matplotlib", "node-d3", "sumo-tools", "sumo"),
    "docs/PYTHON.md": ("python3-numpy", "python3-pandas"),
    "docs/TURNS.md": ("python3-matplotlib", "sumo-tools", "sumo"),
    "docs/TUTORIAL.md": ("node-d3", "sumo-tools", "sumo"),
    "examples/corridor/README.md": ("python3-matplotlib",),
    "examples/from_gmns/README.md": ("node-d3", "sumo-tools"),
    "examples/from_sumo/README.md": ("sumo-tools", "sumo"),
}


class Faults:
    """What is wrong in a document: commands that fail, and outputs that are not those shown."""

    def __init__(self, path: Path, folder: Path) -> None:
        self.text = path.read_text(encoding="utf-8")
        self.shell = documents.Shell(folder)
        self.told: list[documents.Told] = []
        self.found: list[str] = []

    def all(self) -> list[str]:
        blocks = documents.blocks(self.text)
        items: list[documents.Block | documents.Step] = [*blocks, *documents.inline(self.text)]
        for item in sorted(items, key=lambda item: item.line):
            if isinstance(item, documents.Step):
                self.step(item)
            elif not item.reason:
                self.block(item)
        return self.found

    def block(self, block: documents.Block) -> None:
        kind = block.kind()
        if kind == "python":
            self.keep(block.line, self.shell.python(block.lines))
        elif kind == "text":
            if not any(told.is_shown(block.lines, whole=False) for told in self.told):
                self.found.append(f"{block.line}: no command before it has printed: {block.lines[0]}")
        elif kind == "shell":
            for step in documents.steps(block):
                self.step(step)

    def step(self, step: documents.Step) -> None:
        if step.is_never():
            self.found.append(f"{step.line}: it is not marked: {step.command}")
        elif not step.is_yours():
            told = self.shell.written(step) or self.shell.run(step.command)
            if not step.printed:
                self.keep(step.line, told)
            elif not told.is_shown(step.printed, whole=True):
                self.found.append(f"{step.line}: {step.command} prints\n" + "\n".join(told.lines))
            self.told.append(told)

    def keep(self, line: int, told: documents.Told) -> None:
        self.told.append(told)
        if told.status:
            self.found.append(f"{line}: {told.command} ends with {told.status}\n" + "\n".join(told.lines))


@needs_program
class Run(unittest.TestCase):
    """A test for each document, named for it."""


def run_of(path: Path) -> Callable[[unittest.TestCase], None]:
    name = str(path.relative_to(CLONE))

    def test(case: unittest.TestCase) -> None:
        lack = lack_of(*NEEDS.get(name, ()))
        if lack:
            case.skipTest(lack)
        if "sumo" in NEEDS.get(name, ()) and not release().endswith(" 1.15.0"):
            case.skipTest("not installed: sumo 1.15.0, by which the numbers of this page were made")
        with tempfile.TemporaryDirectory() as folder:
            case.assertEqual(Faults(path, Path(folder)).all(), [])

    return test


for document in DOCUMENTS:
    if document.name not in LAWS:
        label = "_".join(document.relative_to(CLONE).with_suffix("").parts).lower()
        setattr(Run, f"test_{label}", run_of(document))


class Marks(unittest.TestCase):
    def test_each_block_that_is_not_run_has_a_reason(self) -> None:
        paths = [*DOCUMENTS, CLONE / "CONTRIBUTING.md"]
        texts = [path.read_text(encoding="utf-8") for path in paths]
        used = Counter(block.reason for text in texts for block in documents.blocks(text) if block.reason)
        self.assertEqual(used, REASONS)
        # none stands where no block follows it
        lines = [line for text in texts for line in text.splitlines() if line.startswith("<!-- not run")]
        self.assertEqual(sum(used.values()), len(lines))


class Reading(FolderTest):
    TEXT = (
        "# A\n\n    $ echo 1.250\n    1.250\n    $ echo 7 \\\n        8\n    ..\n\nIt prints\n\n    1.25\n\n"
        "<!-- not run: it proves -->\n\n    rt check\n\nand\n\n    a --> b\n"
    )

    def test_blocks(self) -> None:
        first, second, third, fourth = documents.blocks(self.TEXT)
        kinds = [block.kind() for block in (first, second, third, fourth)]
        self.assertEqual(kinds, ["shell", "text", "shell", "drawing"])
        self.assertEqual((first.line, second.line, third.reason, fourth.reason), (3, 11, "it proves", ""))
        self.assertEqual(
            documents.steps(first),
            [documents.Step(3, "echo 1.250", ("1.250",)), documents.Step(5, "echo 7 \\\n    8", ("..",))],
        )

    def test_faults_are_found(self) -> None:
        """An output that differs, one that nothing prints, a command that fails, and one that is not marked."""
        path = self.folder / "page.md"
        path.write_text(self.TEXT.replace("    1.250\n", "    1.251\n") + "\nand\n\n    cp none\n    sudo true\n")
        found = Faults(path, self.folder).all()
        self.assertEqual([fault.split(":")[0] for fault in found], ["3", "11", "23", "24"])

    def test_what_is_left_out(self) -> None:
        told = documents.Told("x", 0, ("a  1", "b 2", "c 3 seconds"))
        for lines, whole, is_shown in (
            (("a 1", "..", "c .."), True, True),
            (("a 1", "c 3 seconds"), True, False),
            (("b 2",), True, False),
            (("b 2",), False, True),
            (("b",), False, False),
        ):
            self.assertEqual(told.is_shown(lines, whole=whole), is_shown, lines)

    def test_seconds_are_passed_over(self) -> None:
        told = documents.Told("x", 0, ("   step  seconds  by", "1  2.00     0.31  a", "2  3.00     0.4   b"))
        self.assertTrue(told.is_shown(("   step  seconds  by", "1  2.00    10.77  a"), whole=False))
        self.assertFalse(told.is_shown(("   step  seconds  by", "1  2.01     0.31  a"), whole=False))


if __name__ == "__main__":
    unittest.main()
