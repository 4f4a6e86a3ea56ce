"""A net of SUMO by hand, and the files that `from-sumo` reads beside it."""
import shutil
import subprocess

from support import FolderTest
import commands
from ltm_tools.case import Case


def release() -> str:
    """The release of SUMO that is there, or nothing."""
    if any(shutil.which(word) is None for word in ("sumo", "netgenerate", "duarouter")):
        return ""
    return subprocess.run(["sumo", "--version"], capture_output=True, text=True).stdout.split("\n")[0].strip()


def edge(
    name: str,
    tail: str,
    head: str,
    lanes: int = 1,
    metres: str = "200.00",
    speed: str = "10.00",
    more: str = "",
    lane: str = "",
) -> str:
    text = "".join(
        f'<lane id="{name}_{index}" index="{index}" speed="{speed}" length="{metres}" {lane}/>'
        for index in range(lanes)
    )
    return f'<edge id="{name}" from="{tail}" to="{head}" {more}>{text}</edge>'


def way(edge_name: str, after: str, lane: int = 0, more: str = "") -> str:
    return f'<connection from="{edge_name}" to="{after}" fromLane="{lane}" toLane="0" dir="s" state="M" {more}/>'


# a to b over edge in, then by on or left; back is its way back
EDGES = (
    edge("in", "A", "B", 2)
    + edge("on", "B", "C")
    + edge("left#1", "B", "D")
    + edge("-in", "B", "A")
    + edge("home", "D", "A")
)
WAYS = way("in", "on", 0) + way("in", "left#1", 1) + way("left#1", "home") + way("home", "in")


class SumoTest(FolderTest):
    """Writes nets and vehicles, and makes cases of them."""

    PLAIN: tuple[str, ...] = ("--entries", "none", "--saturation", "road", "--carry", "0", "--ends", "node")
    """Words with which links are those of the net, and carry at their ends what they do between."""

    def make(
        self, *words: str, net: str = EDGES + WAYS, routes: str | None = None, more: str | None = None
    ) -> tuple[int, str, str]:
        """Makes a case of a net, of vehicles, and of another file; of links that are not parted by turns, and where
        none goes on yellow, unless that is said."""
        files = []
        for name, text, root in (
            ("net.net.xml", net, "net"),
            ("more.add.xml", more, "additional"),
            ("routes.rou.xml", routes, "routes"),
        ):
            if text is not None:
                (self.folder / name).write_text(
                    f'<?xml version="1.0" encoding="UTF-8"?>\n<!-- made -->\n<{root} version="1.9">{text}</{root}>'
                )
                files.append(str(self.folder / name))
        turns = () if "--turns" in words else ("--turns", "none")
        yellow = () if "--yellow" in words else ("--no-yellow",)
        return commands.run("from-sumo", *files, str(self.folder / "case"), *self.PLAIN, *words, *turns, *yellow)

    def made(self, *words: str, **files: str) -> Case:
        status, self.out, err = self.make(*words, **files)  # type: ignore[arg-type]
        self.assertEqual((status, err), (0, ""))
        return Case.read(self.folder / "case")

    def refused(self, *words: str, **files: str) -> str:
        status, _, err = self.make(*words, **files)  # type: ignore[arg-type]
        self.assertEqual(status, 1)
        self.assertFalse((self.folder / "case").exists())
        self.assertNotIn("Traceback", err)
        return err
