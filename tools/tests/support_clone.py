"""A clone of the repository in which `rt` is a script, so that nothing is proved."""
import shutil
import subprocess
import sys

from support import CLONE, FolderTest, TOOLS
from ltm_tools.proving.plan import read_crates, stands_on
from ltm_tools.proving.sums import sums_of, write_sums

SYSTEM = "/usr/bin:/bin"
# `rt` for a proof: crates.txt of the folder says which crates `all check` proves
PROVES = """#!/bin/bash
echo "$@ in ${{PWD##*/}}" >>"$MADE/log"
case $1 in
    version) echo made-kit ;;
    all) ls crates | while read -r name; do
            grep -q "^$name:" crates.txt || exit 1
            echo "== $name"
            echo "logic=proved"
        done || exit 2 ;;
    lib) echo "logic=proved" ;;
    run) mkdir -p out; printf '#!/bin/bash\\necho proved program: "$@"\\n' >out/ltm; chmod +x out/ltm; echo a run ;;
esac
{body}
"""
CRATES = (
    "# the crates\nltm: ltm_a ltm_b ltm_c ltm_d\n"
    + "".join(f"ltm_{name}: ltm_low csv\n" for name in "abcd")
    + "\n# below\nltm_low:\nltm_low_tests: ltm_low\n"
)
COSTS = (
    "| crate | proof | tests | edits | crate | proof | tests | edits |\n|---|---|---|---|---|---|---|---|\n"
    "| ltm | 120 | 300 | | low | 60 | | |\n" + "".join(f"| {name} | 60 | | 2 (90) | | | | |\n" for name in "abcd")
)


class Clone(FolderTest):
    """A clone with a program crate, three below it and one of tests; `rt` stands in a folder of its own."""

    def setUp(self) -> None:
        super().setUp()
        self.top, self.made = self.folder / "clone", self.folder / "made"
        self.top.mkdir()
        (self.made / "bin").mkdir(parents=True)
        shutil.copy(CLONE / "ltm", self.top / "ltm")
        (self.top / "tools").mkdir()
        shutil.copy(TOOLS / "ltm-tools", self.top / "tools" / "ltm-tools")
        shutil.copytree(
            TOOLS / "ltm_tools", self.top / "tools" / "ltm_tools", ignore=shutil.ignore_patterns("__pycache__")
        )
        self.fill()
        python = self.made / "bin" / "python3"
        python.write_text(f'#!/bin/sh\nexec "{sys.executable}" "$@"\n')
        python.chmod(0o755)
        self.built = self.top / "crates" / "ltm" / "out" / "ltm"
        self.case()

    def fill(self) -> None:
        """The texts that are proved."""
        (self.top / "crates.txt").write_text(CRATES)
        (self.top / "CONTRIBUTING.md").write_text(COSTS)
        for crate in ("ltm", "ltm_a", "ltm_b", "ltm_c", "ltm_d", "ltm_low", "ltm_low_tests"):
            (self.top / "crates" / crate / "src").mkdir(parents=True)
            (self.top / "crates" / crate / "src" / "lib.rt").write_text(f"// {crate}\n")

    def rt(self, text: str, body: str = "") -> None:
        path = self.made / "bin" / "rt"
        path.write_text(text.format(body=body))
        path.chmod(0o755)

    def build(self, body: str, is_proved: bool = True) -> None:
        """A program in place of the proved one, with its sums if it is to be one."""
        self.built.parent.mkdir(exist_ok=True)
        self.built.write_text(f"#!/bin/bash\n{body}\n")
        self.built.chmod(0o755)
        if is_proved:
            write_sums(self.top, sums_of(self.top, stands_on(read_crates(CRATES))))

    def environment(self) -> dict[str, str]:
        return {"PATH": f"{self.made / 'bin'}:{SYSTEM}", "MADE": str(self.made), "HOME": str(self.made)}

    def run_ltm(self, *words: str, script: str = "", **variables: str) -> "subprocess.CompletedProcess[str]":
        return subprocess.run(
            [str(self.top / "ltm"), *words],
            cwd=self.folder,
            env={**self.environment(), **variables},
            input=script,
            capture_output=True,
            text=True,
            timeout=60,
        )

    def version(self) -> str:
        """What `--version` says of the proof."""
        return self.run_ltm("--version").stdout.split("; ")[1]

    def called(self) -> list[str]:
        return (self.made / "called").read_text().splitlines()
