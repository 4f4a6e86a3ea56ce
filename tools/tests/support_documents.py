"""The commands that documents show, and what they print: found in a text, run in a folder made for it, and compared.

A block is set in by four signs or more, or fenced. A line of it is a command if it begins with `$ `, or with a word
that a shell knows here; what follows a command up to the next one is its output. A block without a command is code of
Python, or a text, which may be the output of a command that stands before it, as may what stands in backticks.
`<!-- not run: REASON -->` on the line before a block says that no test runs it.
"""
import dataclasses
import os
import re
import signal
import subprocess
import sys
from collections.abc import Iterator
from pathlib import Path

from support import BUILT, CLONE

DOCUMENTS = sorted([CLONE / "README.md", *(CLONE / "docs").glob("*.md"), *(CLONE / "examples").glob("**/README.md")])
MEASURED = "MEASURED.md"
COPIED = re.compile(r"<!-- measured: \w+ -->.*?<!-- end of \w+ -->", re.DOTALL)
MARK = re.compile(r"<!-- not run: (.+) -->")
COMMAND = re.compile(
    r"\./ltm |tools/[\w-]+|examples/[\w/]+(?:\.py|run)\b|(?:cp|sed|mkdir|echo|printf|cat|grep|export|sudo|cd) |"
    r"(?:sumo|netgenerate|netconvert|python3|rt|pip|dask-\w+) |[A-Z_]+=\S|\.ci/run"
)
PYTHON = re.compile(r"import |from \S+ import |curves = ")
INLINE = re.compile(r"`((?:\./ltm|tools/ltm-tools) [^`]+)`")
PLACE = re.compile(r"(?<![\w$/{.-])[A-Z]{2,}\b(?!=)|(?<!\S)\.\.(?!\S)|(?<!\S)[A-Z](?!\S)")
NEVER = re.compile(
    r"\bsudo |--prove|--install|--package|(?:^|\s)rt |\.ci/run|\bdask-|pip install|ltm-tools live|"
    r"tools/(?:measure|try_wrong)"
)
"""What no test runs: it changes the machine, proves, or goes on until somebody ends it."""
FAR = "/tmp/"
KEPT = "S G V SUMO_HOME"
"""The variables that a command may set for those after it."""
DRAWN = re.compile(r"={2,}>?|-{2,}(?!\w)|\|-|\| {3}|#{3}|'-|\.\.\. ")
FINE = re.compile(r"\d\.\d\d")
FORMULA = re.compile(r" [=*] |\bwhere\b|\^2")


@dataclasses.dataclass(frozen=True)
class Block:
    """A block of a text, from a line of it on, with the reason for which no test runs it."""

    line: int
    lines: tuple[str, ...]
    reason: str

    def kind(self) -> str:
        """`shell`, `python`, `text`, or `drawing` for what no command prints: drawings and formulas."""
        first, text = self.lines[0], "\n".join(self.lines)
        if COMMAND.match(first) or any(line.startswith("$ ") for line in self.lines):
            return "shell"
        if PYTHON.match(first):
            return "python"
        is_drawn = DRAWN.search(text) or FORMULA.search(text) and not FINE.search(text)
        return "drawing" if is_drawn else "text"


@dataclasses.dataclass(frozen=True)
class Step:
    """A command with the lines that it prints, as they are shown; no lines where none are."""

    line: int
    command: str
    printed: tuple[str, ...] = ()

    def is_yours(self) -> bool:
        """Whether a word in capitals stands for what a reader puts there."""
        return bool(PLACE.search(self.command.replace("SUMO_HOME", "")))

    def is_never(self) -> bool:
        """Whether no test may run it."""
        return bool(NEVER.search(self.command))


def own_text(path: Path) -> str:
    """A document without what tools/measure copies into it from the page of what was measured."""
    text = path.read_text(encoding="utf-8")
    return text if path.name == MEASURED else COPIED.sub("", text)


def blocks(text: str) -> list[Block]:
    """The blocks of a text, in order."""
    found: list[Block] = []
    lines: list[str] = []
    begin, reason, fenced = 0, "", False

    def end() -> None:
        nonlocal lines, reason
        while lines and not lines[-1]:
            lines.pop()
        if lines:
            found.append(Block(begin, tuple(lines), reason))
            lines, reason = [], ""

    for number, line in enumerate(text.splitlines(), 1):
        if line.startswith("```"):
            end()
            fenced = not fenced
        elif fenced or line.startswith("    "):
            begin = begin if lines else number
            lines.append(line if fenced else line[4:])
        elif line.strip():
            end()
            marked = MARK.fullmatch(line.strip())
            reason = marked[1] if marked else ""
        elif lines:
            lines.append("")
    end()
    return found


def steps(block: Block) -> list[Step]:
    """The commands of a block of the shell, each with what it prints."""
    made: list[tuple[int, str, list[str]]] = []
    dollars = any(line.startswith("$ ") for line in block.lines)
    goes_on = False
    for number, line in enumerate(block.lines, block.line):
        if goes_on:
            made[-1] = (made[-1][0], f"{made[-1][1]}\n{line}", [])
        elif line.startswith("$ ") if dollars else COMMAND.match(line):
            made.append((number, line.removeprefix("$ "), []))
        else:
            if made:  # what stands before the first command is a drawing
                made[-1][2].append(line)
            continue
        goes_on = line.endswith("\\")
    return [Step(number, command, trimmed(printed)) for number, command, printed in made]


def trimmed(lines: list[str]) -> tuple[str, ...]:
    """Lines without the empty ones around them."""
    text = "\n".join(lines).strip("\n")
    return tuple(line.rstrip() for line in text.split("\n")) if text else ()


def inline(text: str) -> Iterator[Step]:
    """The commands that stand in backticks within sentences, with the lines on which they begin."""
    for found in INLINE.finditer(re.sub(r"(?m)^ {4}.*$", "", text)):
        step = Step(text[: text.find(found[1])].count("\n") + 1, " ".join(found[1].split()))
        if re.search(r"examples/|/tmp/", step.command) and not step.is_yours() and not step.is_never():
            yield step


def plain(lines: tuple[str, ...]) -> list[str]:
    """Lines without the seconds that a run took, which stand in a column of that name."""
    made = []
    column = -1
    for line in lines:
        found = re.search(r"\bseconds\b", line)
        if found and re.match(r"\s+\w", line):
            column = found.end()
        elif column >= 0:
            line = re.sub(r"\s+\d+\.\d+$", " ?", line[:column]) + line[column:]
        made.append(" ".join(line.split()))
    return made


def pattern_of(shown: tuple[str, ...]) -> str:
    """What lines that are shown stand for: `..` for lines that are left out and, at the end of a line, for its rest."""
    made = ""
    for line in plain(shown):
        if line == "..":
            made += r"(?:.*\n)*?"
        else:
            made += (
                " ".join(map(re.escape, line.removesuffix("..").split()))
                + (".*" if line.endswith("..") else "")
                + r"\n"
            )
    return made


@dataclasses.dataclass(frozen=True)
class Told:
    """What a command has told: its status, and the lines of both outputs, as they come."""

    command: str
    status: int
    lines: tuple[str, ...]

    def is_shown(self, lines: tuple[str, ...], *, whole: bool) -> bool:
        """Whether these lines are what was printed; if not the whole is asked for, other lines may stand before and
        behind them."""
        pattern = pattern_of(lines)
        text = "".join(f"{line}\n" for line in plain(self.lines))
        return bool(re.fullmatch(pattern, text) if whole else re.search(f"^{pattern}", text, re.MULTILINE))


class Shell:
    """Runs the commands of one document, one after another, in a folder that stands for the top of the repository;
    what they make below /tmp, and beside the pictures of documents, they make in folders of their own."""

    def __init__(self, folder: Path) -> None:
        self.top, self.made = folder / "top", folder / "made"
        self.made.mkdir()
        (self.top / "docs").mkdir(parents=True)
        for path in CLONE.iterdir():
            if path.name not in ("docs", ".git"):
                (self.top / path.name).symlink_to(path)
        for path in (CLONE / "docs").iterdir():
            if path.suffix != ".png":
                (self.top / "docs" / path.name).symlink_to(path)
        self.code = ""

    def run(self, command: str) -> Told:
        """Runs a command; variables stay for the next one."""
        return self.bash(command, command.replace(FAR, f"{self.made}/"))

    def written(self, step: Step) -> Told | None:
        """Writes the file that `cat` shows, where it is not there; None of any other command."""
        path = Path(step.command.removeprefix("cat ").replace(FAR, f"{self.made}/"))
        if not step.command.startswith(f"cat {FAR}") or path.exists():
            return None
        path.write_text("".join(f"{line}\n" for line in step.printed))
        return Told(step.command, 0, step.printed)

    def python(self, lines: tuple[str, ...]) -> Told:
        """Runs code; the code that was run before stands in front of it."""
        self.code += "\n".join(lines).replace(FAR, f"{self.made}/") + "\n"
        (self.made / "code.py").write_text(self.code)
        return self.bash(lines[0], f"{sys.executable} {self.made}/code.py")

    def bash(self, name: str, words: str) -> Told:
        keep = f"{self.made}/.variables"
        with subprocess.Popen(
            [
                "bash",
                "-c",
                f"[ ! -f {keep} ] || . {keep}\n{words}\nstatus=$?\ndeclare -p {KEPT} >{keep} 2>&-\nexit $status",
            ],
            cwd=self.top,
            env={**os.environ, "LTM": str(BUILT), "PYTHONDONTWRITEBYTECODE": "1", "PYTHONUNBUFFERED": "1"},
            stdin=subprocess.DEVNULL,
            stdout=subprocess.PIPE,
            stderr=subprocess.STDOUT,
            text=True,
            start_new_session=True,
        ) as process:
            try:
                text, _ = process.communicate()
            except BaseException:
                os.killpg(process.pid, signal.SIGKILL)
                raise
        return Told(name, process.returncode, trimmed(text.replace(f"{self.made}/", FAR).split("\n")))
