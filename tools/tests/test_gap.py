"""The gap of the program against the evaluator of `made_gap.py`, which shares no code with it."""
import io
import subprocess
import tempfile
import unittest
from pathlib import Path

import made_gap
from support import BUILT, EXAMPLES, needs_program

from ltm_tools.case import Case
from ltm_tools.loading.curves import Curves

LINKS = "link,from,to,length_m,free_kmh,wave_kmh,jam_per_km\n"
DEMAND = "origin,destination,from_slot,to_slot,vehicles\n"
SPLITS = "node,destination,from_slot,weights\n"


def written(folder: Path, case: dict[str, str]) -> Path:
    """A folder with the files of a case."""
    for name, text in case.items():
        (folder / f"{name}.csv").write_text(text)
    return folder


def lines_of(folder: Path) -> tuple[list[str], list[str]]:
    """What the program writes of a case, and what the evaluator makes of its curves."""
    gap, curves = (
        subprocess.run([BUILT, word], cwd=folder, capture_output=True, check=True).stdout for word in ("gap", "curves")
    )
    case = Case.read(folder)
    found = Curves.of_lines(io.BytesIO(curves), "curves", case.setup.step_ms, case.setup.slots + 1)
    return gap.decode().splitlines(), made_gap.lines(case, found)


@needs_program
class TestGap(unittest.TestCase):
    """The worked gaps of docs/MODEL.md, and the program and the evaluator side by side."""

    def expect(self, case: dict[str, str], line: str) -> None:
        """Both give a case this line, and agree in the others."""
        with tempfile.TemporaryDirectory() as folder:
            told, made = lines_of(written(Path(folder), case))
        self.assertEqual(told, made)
        self.assertEqual(told[0].partition(" ")[2], line)

    def test_a_slot_is_cut(self) -> None:
        """Of 30 vehicles half a one passes a second: 19 arrive within 40 s, and 11 are late."""
        self.expect(
            {
                "setup": "step_ms,slots,origin_capacity\n1000,40,1\n",
                "links": LINKS + "a,n1,n2,20,36,18,150\n",
                "demand": DEMAND + "n1,n2,0,1,30\n",
                "splits": SPLITS + "n1,n2,0,a=1\n",
            },
            "0 spent 829.500000 least 829.500000 gap 0.000000 late 11.000",
        )

    def test_mixed_within_a_slot(self) -> None:
        """Nobody arrives by the link times, though 0.020 vehicles that were mixed to the front of a slot do."""
        self.expect(
            {
                "setup": "step_ms,slots,origin_capacity\n1000,3,1\n",
                "links": LINKS + "a,n1,n2,19,36,18,150\nb,n2,n3,15,36,18,150\n",
                "demand": DEMAND + "n1,n3,0,1,0.4\n",
                "splits": SPLITS + "n1,n3,0,a=1\nn2,n3,0,b=1\n",
            },
            "0 spent 1.180000 least 1.200000 gap -0.020000 late 0.400",
        )

    def test_two_destinations(self) -> None:
        """Two destinations of one origin are cut at different units, behind a closed entry and a red exit."""
        with tempfile.TemporaryDirectory() as name:
            folder = written(
                Path(name),
                {
                    "setup": "step_ms,slots,origin_capacity,signals,limits\n1000,24,1,1,1\n",
                    "links": LINKS
                    + "a,n1,n2,23,36,18,150\nb,n2,n3,17,36,18,150\nc,n2,n4,31,36,18,60\nd,n1,n4,90,36,18,100\n",
                    "demand": DEMAND + "n1,n3,0,2,5\nn1,n4,0,2,9\nn2,n4,3,20,3\nn1,n4,12,13,4\n",
                    "splits": SPLITS + "n1,n3,0,a=1\nn2,n3,0,b=1\nn1,n4,0,a=2 d=1\nn2,n4,0,c=1\n",
                    "signals": "link,from_slot,to_slot,vehicles\nc,9,12,0\n",
                    "limits": "link,from_slot,to_slot,vehicles\nb,14,16,0\n",
                },
            )
            told, made = lines_of(folder)
        self.assertEqual(told, made)
        self.assertEqual([line.split()[0] for line in told], ["version", "to", "to"])
        self.assertNotIn("late 0.000", told[1] + told[2])

    def test_in_threads(self) -> None:
        """So many roads of 2 and of 3 s that their origins are searched in threads, with 4.5 vehicles each."""
        roads = [(f"r{i}", f"n{i}", f"d{i // 4}", 20 + i % 2 * 10) for i in range(480)]
        self.expect(
            {
                "setup": "step_ms,slots,origin_capacity,destinations\n1000,16,1,120\n",
                "links": LINKS + "".join(f"{road},{a},{b},{length},36,18,150\n" for road, a, b, length in roads),
                "demand": DEMAND + "".join(f"{a},{b},0,9,4.5\n" for _, a, b, _ in roads),
                "splits": SPLITS + "".join(f"{a},{b},0,{road}=1\n" for road, a, b, _ in roads),
            },
            "0 spent 5400.000000 least 5400.000000 gap 0.000000 late 0.000",
        )

    def test_examples(self) -> None:
        for name in ("spillback", "closures", "detour", "signal", "evening"):
            with self.subTest(name):
                told, made = lines_of(EXAMPLES / name)
                self.assertEqual(told, made)
