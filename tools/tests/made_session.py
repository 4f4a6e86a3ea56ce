"""A session that is made for the tests of sweeps: what it tells is a sum over the limits that stand, so that a row is
right where its scenario's edits, and no others, were made. An edit of the link `z` is refused, at one of `end`, and the
first of `once`, it ends, one of `kill` kills whoever asks it, and after so many lines as it takes it ends."""
import json
import zlib
from collections.abc import Sequence

from support import FolderTest

from ltm_tools import edits
from ltm_tools.formats import vehicles_text
from ltm_tools.scenario.edits import Edit

SESSION = """
import json, os, time, zlib
told_in = open({log!r}, "a", buffering=1)
print("opened", os.getppid(), file=told_in)
standing, shown, made = {{}}, {{}}, 0
for number, line in enumerate(sys.stdin, 1):
    if number > {most_lines}:
        print("too many lines", flush=True)
        sys.exit(8)
    told = json.loads(line)
    for edit in told.get("edits", ()):
        time.sleep(1 if edit["link"] == "slow" else {pause})
        if edit["link"] == "end" or edit["link"] == "once" and not os.path.exists({log!r} + "once"):
            open({log!r} + "once", "w")
            sys.exit(9)
        if edit["link"] == "kill":
            os.kill(os.getppid(), 9)
    if told["do"] == "edit" and any(edit["link"] == "z" for edit in told["edits"]):
        print("refused edit 1 UnknownName", flush=True)
    elif told["do"] == "edit":
        made += 1
        for edit in told["edits"]:
            for slot in range(edit["from"], edit["to"]):
                standing.pop((edit["kind"], slot), None)
                if edit["vehicles"] != "32":
                    standing[edit["kind"], slot] = edit["vehicles"]
        print(f"accepted version {{made}}", flush=True)
    elif told["do"] == "settle":
        shown = dict(standing)
        print(f"settled version {{made}} recomputed 0", flush=True)
    elif told["do"] == "link" and {refuses_links}:
        print("refused link UnknownName", flush=True)
    else:
        units = zlib.crc32(repr(sorted(shown.items())).encode()) % 10**6 + {more}
        number = f"{{units // 1000}}.{{units % 1000:03}}"
        totals = f"generated 1.000 arrived {{number}} on_links 0.250 waiting 0.000"
        said = totals if told["do"] == "totals" else f"link a in 1.000 out {{number}}"
        print(f"version {{made}} {{said}}", flush=True)
print("closed", os.getppid(), file=told_in)
sys.exit({status})
"""


def row_of(number: int, name: str, made: Sequence[Edit]) -> list[str]:
    """The row of results that belongs to a scenario of these edits."""
    standing: dict[tuple[str, int], str] = {}
    for edit in made:
        for slot in range(edit["from"], edit["to"]):  # type: ignore[call-overload]
            standing.pop((str(edit["kind"]), slot), None)
            if edit["vehicles"] != "32":
                standing[str(edit["kind"]), slot] = str(edit["vehicles"])
    units = zlib.crc32(repr(sorted(standing.items())).encode()) % 10**6
    return [str(number), name, "ok", "1.000", vehicles_text(units), "0.250", "0.000", "0.250"]


REFUSED = "refused edit 1 UnknownName: links.csv has no link z"


class SweepTest(FolderTest):
    """A test with the smallest case, the made session, and files of scenarios."""

    def session(
        self, pause: float = 0.0, refuses_links: bool = False, more: int = 0, status: int = 0, most_lines: int = 100_000
    ) -> str:
        """The made session as a program; it takes so long for each edit, tells so many units more, takes so many lines,
        and ends with this status."""
        return str(
            self.program(
                SESSION.format(
                    log=str(self.folder / "log"),
                    pause=pause,
                    refuses_links=refuses_links,
                    more=more,
                    status=status,
                    most_lines=most_lines,
                )
            )
        )

    def log(self) -> list[str]:
        """Which sessions were opened and ended."""
        return (self.folder / "log").read_text().split()[::2]

    def first_asker(self) -> int:
        """The process that opened the first session."""
        return int((self.folder / "log").read_text().split()[1])

    def scenarios(self, *batches: "Sequence[Sequence[Edit]]") -> str:
        """A file of scenarios with these batches."""
        path = self.folder / f"scenarios{len(list(self.folder.glob('*.jsonl')))}.jsonl"
        path.write_text(
            "".join(
                json.dumps({"name": f"s, {number}", "batches": one}) + "\n" for number, one in enumerate(batches, 1)
            )
        )
        return str(path)

    def many(self, count: int) -> "tuple[str, list[list[str]]]":
        """A file of so many scenarios, of which each seventh is refused at its second batch, and the rows that belong
        to them."""
        all_batches, rows = [], []
        for number in range(1, count + 1):
            first, second = (
                edits.limit("a", number % 4, 4, number),
                edits.exit_limit("z" if number % 7 == 0 else "a", 0, 1 + number % 4, 2 * number),
            )
            all_batches.append([[first], [second]])
            refused = [str(number), f"s, {number}", f"batch 2 {REFUSED}", "", "", "", "", ""]
            rows.append(row_of(number, f"s, {number}", (first, second)) if number % 7 else refused)
        return self.scenarios(*all_batches), rows
