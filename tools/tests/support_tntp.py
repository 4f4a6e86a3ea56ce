"""What tests of networks in the format of the Transportation Networks collection share: a small network, imported by
the command."""
import commands
from support import FolderTest

from ltm_tools.case import Case

HEAD = "~\tinit_node\tterm_node\tcapacity\tlength\tfree_flow_time\tb\tpower\tspeed\ttoll\tlink_type\t;"
ROWS = (
    "1 3 1800 0.5 0.5",
    "3 1 1800 0.5 0.5",
    "3 4 1600 1.5 1.5",
    "4 2 1800 0.5 0.5",
    "2 4 1800 0.5 0.5",
    "4 3 900 1.5 2.5",
)
TRIPS = "Origin \t1 \n    1 :      7.0;     2 :    300.5; \n\nOrigin 2\n 1 : 20;\n"


class TntpTest(FolderTest):
    def make(
        self,
        *words: str,
        rows: tuple[str, ...] = ROWS,
        head: str = HEAD,
        more: str = "",
        trips: str = TRIPS,
        nodes: str | None = None,
        zones: str = "<NUMBER OF ZONES> 2\n<FIRST THRU NODE> 3\n",
    ) -> tuple[int, str, str]:
        body = "".join("\t" + row.replace(" ", "\t") + "\t0.15\t4\t0\t0\t1\t;\n" for row in rows)
        texts = {
            "net": f"{zones}{more}<END OF METADATA>\n\n\n{head}\n{body}",
            "trips": f"<NUMBER OF ZONES> 2\n<TOTAL OD FLOW> 327.5\n<END OF METADATA>\n\n{trips}",
            "node": nodes,
        }
        files = []
        for name, text in texts.items():
            if text is not None:
                (self.folder / f"{name}.tntp").write_text(text)
                files.append(str(self.folder / f"{name}.tntp"))
        return commands.run("from-tntp", *files, str(self.folder / "case"), "--step", "5s", *words)

    def made(self, *words: str, **texts: object) -> Case:
        status, self.out, err = self.make(*words, **texts)  # type: ignore[arg-type]
        self.assertEqual((status, err), (0, ""))
        return Case.read(self.folder / "case")

    def refused(self, *words: str, **texts: object) -> str:
        status, _, err = self.make(*words, **texts)  # type: ignore[arg-type]
        self.assertEqual((status, err.count("\n")), (1, 1))
        self.assertFalse((self.folder / "case").exists())
        return err
