"""Every tool that takes the name of a link takes that of its source as well, as `source_links.csv` says."""
import csv
import io
import shutil
import unittest

import commands
from support import FolderTest, needs_matplotlib, needs_program
from support_loadings import DATA
from ltm_tools.case import Case
from ltm_tools.case.source import links_named, path_named
from ltm_tools.errors import Fault

# roads p, q and r of a source from 1 to 4: p and q have become link a, r was contracted, and s has become b; the
# source has another road b, which has become a as well
LINKS = "source,from,to,link\np,1,2,a\nq,2,3,a\nr,3,4,\ns,4,5,b\nb,8,9,a\n"
NODES = "source,node\n1,n1\n3,n2\n4,n2\n5,n3\n8,n1\n9,n2\n"


class SourceTest(FolderTest):
    def setUp(self) -> None:
        super().setUp()
        self.made = self.folder / "case"
        shutil.copytree(DATA / "spillback", self.made)
        (self.made / "source_links.csv").write_text(LINKS)
        (self.made / "source_nodes.csv").write_text(NODES)
        self.links = Case.read(self.made).links

    def run_on(self, *words: str) -> str:
        status, out, err = commands.run(*words)
        self.assertEqual((status, err), (0, ""))
        return out


class Names(SourceTest):
    def test_of_links(self) -> None:
        self.assertEqual(links_named(self.made, self.links, ["q", "s", "a"]), ["a", "b", "a"])
        self.assertEqual(links_named(self.made, self.links, ["b", "q"]), ["b", "a"])  # one that is both is the case's
        for name, told in (("r", "r of the source was contracted"), ("z", "z is no link of the case, nor of its")):
            self.assertRaisesRegex(Fault, told, links_named, self.made, self.links, [name])

    def test_of_links_that_the_case_has_no_longer(self) -> None:
        (self.made / "source_links.csv").write_text(LINKS + "t,4,5,gone\n")
        (self.made / "source_nodes.csv").write_text(NODES + "6,gone\n")
        self.assertEqual(links_named(self.made, self.links, ["s"]), ["b"])
        self.assertRaisesRegex(Fault, "t is no link of the case, nor of its", links_named, self.made, self.links, ["t"])

    def test_of_paths(self) -> None:
        for words in ("p q r s", "q s", "a s", "p q b", "a b"):
            self.assertEqual(path_named(self.made, self.links, words.split()), ["a", "b"], words)
        self.assertRaisesRegex(Fault, "link p does not begin where link q", path_named, self.made, self.links, "qp")
        self.assertRaisesRegex(Fault, "nothing is left", path_named, self.made, self.links, ["r"])


class Tools(SourceTest):
    def test_times(self) -> None:
        curves = ["--format", "csv", "--curves", str(self.made / "curves.csv")]
        self.assertEqual(
            self.run_on("times", str(self.made), "p", "q", "r", "s", *curves),
            self.run_on("times", str(self.made), "a", "b", *curves),
        )

    @needs_matplotlib
    def test_pictures(self) -> None:
        curves = ["--curves", str(self.made / "curves.csv")]
        drawn = [str(self.folder / f"{number}.svg") for number in range(2)]
        for words in (
            ["draw", "full", str(self.made), "PATH", "-o", "DRAWN"],
            ["draw", "curves", str(self.made), "PATH", "-o", "DRAWN"],
            ["plot", "path", str(self.made), "PATH", "DRAWN"],
            ["plot", "link", str(self.made), "q", "DRAWN"],
        ):
            texts = []
            for path, file in zip((["p", "q", "r", "s"], ["a", "b"]), drawn):
                self.run_on(
                    *(
                        part
                        for word in words
                        for part in (path if word == "PATH" else [file] if word == "DRAWN" else [word])
                    ),
                    *curves,
                )
                with open(file, encoding="utf-8") as opened:
                    texts.append([line for line in opened if "<!-- " in line])
            self.assertGreater(len(texts[0]), 5)
            self.assertEqual(*texts, words)

    @needs_program
    def test_sweep(self) -> None:
        scenarios = self.folder / "scenarios.jsonl"
        scenarios.write_text('{"batches": []}\n')
        rows = [
            list(csv.reader(io.StringIO(self.run_on("sweep", str(self.made), str(scenarios), "--links", *names))))
            for names in (["q", "s"], ["a", "b"])
        ]
        self.assertEqual(rows[0][1], rows[1][1])
        self.assertEqual(rows[0][0][-4:], ["in:a", "out:a", "in:b", "out:b"])


if __name__ == "__main__":
    unittest.main()
