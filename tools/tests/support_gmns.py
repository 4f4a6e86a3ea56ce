"""A network of GMNS by hand, and a test that imports one."""
from support import FolderTest
import commands
from ltm_tools.case import Case


class GmnsTest(FolderTest):
    """Makes networks in `self.folder/net` and cases in `self.folder/case`."""

    def net(
        self, link: str, node: str | None = None, demand: str | None = None, encoding: str = "utf-8", **more: str
    ) -> None:
        folder = self.folder / "net"
        folder.mkdir(exist_ok=True)
        for name, text in {"link": link, "node": node, "demand": demand, **more}.items():
            if text is not None:
                (folder / f"{name}.csv").write_text(text, encoding=encoding)

    def make(self, *words: str) -> tuple[int, str, str]:
        return commands.run(
            "from-gmns",
            str(self.folder / "net"),
            str(self.folder / "case"),
            "--entries",
            "none",
            "--carry",
            "0",
            *words,
        )

    def made(self, *words: str) -> Case:
        status, self.out, err = self.make(*words)
        self.assertEqual((status, err), (0, ""))
        return Case.read(self.folder / "case")

    def links(self, *words: str) -> dict[str, tuple[int, int, int]]:
        return {link.name: (link.length_m, link.free_kmh, link.jam_per_km) for link in self.made(*words).links}

    def refused(self, *words: str) -> str:
        status, _, err = self.make(*words)
        self.assertEqual(status, 1)
        self.assertFalse((self.folder / "case").exists())
        self.assertNotIn("Traceback", err)
        return err


PLAIN = "link_id,from_node_id,to_node_id,length,lanes,free_speed,capacity\na,1,2,1000,1,60,1000\nb,2,3,1000,1,60,1000\n"
