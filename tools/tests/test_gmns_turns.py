"""Turns and signals of a GMNS network, by hand: what is forbidden, lanes, a capacity and a penalty, phases by ring, and
a left turn that is permitted."""
import csv
import shutil
import unittest
from pathlib import Path

import commands
from support import EXAMPLES, FolderTest, digest

from ltm_tools.case import Case

LINKS = "link_id,from_node_id,to_node_id,length,lanes,free_speed,capacity,directed\n" + "".join(
    f"{arm},{arm.upper()},C,300,2,36,1800,0\n" for arm in "wens"
)
NODES = "node_id,x_coord,y_coord\nC,0,0\nW,-300,0\nE,300,0\nN,0,300\nS,0,-300\n"
# from w straight on and to the left, from e straight on, from n straight on and to the right
MOVEMENTS = (
    "mvmt_id,node_id,ib_link_id,start_ib_lane,end_ib_lane,ob_link_id,type,ctrl_type,capacity,penalty\n"
    "1,C,w,1,2,e,thru,signal,,\n2,C,e,1,2,w,thru,signal,,\n3,C,w,1,,n,left,signal,,\n"
    "4,C,n,1,2,s,thru,signal,,\n5,C,n,2,,w,right,signal_with_RTOR,600,4\n"
)
PLAN = "timing_plan_id,controller_id,cycle_length\n7,1,60\n"
PHASES = (
    "timing_phase_id,timing_plan_id,signal_phase_num,min_green,max_green,clearance,ring,barrier,position\n"
    "71,7,2,20,20,5,1,1,1\n72,7,4,30,30,5,1,2,2\n"
)
OF_PHASES = (
    "timing_phase_id,mvmt_id,protection\n71,1,protected\n71,2,protected\n71,3,permitted\n72,4,protected\n"
    "72,5,protected\n71,5,rtor\n"
)
DEMAND = "o_zone_id,d_zone_id,volume\nW,E,600\nE,W,240\nW,N,60\nN,S,100\nN,W,50\n"
FILES = {
    "link": LINKS,
    "node": NODES,
    "movement": MOVEMENTS,
    "signal_timing_plan": PLAN,
    "signal_timing_phase": PHASES,
    "signal_phase_mvmt": OF_PHASES,
    "demand": DEMAND,
}


class Turns(FolderTest):
    def make(self, *words: str, **files: str | None) -> tuple[int, str, str]:
        folder = self.folder / "net"
        folder.mkdir(exist_ok=True)
        for name, text in {**FILES, **files}.items():
            (folder / f"{name}.csv").unlink(missing_ok=True)
            if text is not None:
                (folder / f"{name}.csv").write_text(text)
        return commands.run(
            *("from-gmns", str(folder), str(self.folder / "case"), "--step", "5000", "--horizon", "90"),
            *("--entries", "none", "--saturation", "road", "--carry", "0", *words),
        )

    def made(self, *words: str, **files: str | None) -> Case:
        status, self.out, err = self.make(*words, **files)
        self.assertEqual((status, err), (0, ""))
        return Case.read(self.folder / "case")

    def rows(self) -> dict[str, dict[str, str]]:
        with open(self.folder / "case" / "turns.csv", newline="", encoding="utf-8") as file:
            return {row["link"]: row for row in csv.DictReader(file)}

    def test_turns_lanes_capacities_and_penalties(self) -> None:
        case = self.made()
        links = {link.name: link for link in case.links}
        self.assertEqual([name for name in links if "__" in name], ["w__e_r", "w__n_r", "n__w_r", "n__s_r"])
        # e has one way on, so that it leads there as it is
        self.assertEqual((links["e"].head, links["e"].length_m), (links["w_r"].tail, 300))
        self.assertEqual([links[name].jam_per_km for name in ("w__e_r", "w__n_r")], [300, 150])
        # 98 m, and 4 s at 10 m/s; 600 an hour in place of 1800, as near as a wave in whole km/h comes
        self.assertEqual([links[name].length_m for name in ("w__n_r", "n__w_r")], [98, 138])
        self.assertAlmostEqual(links["n__w_r"].capacity(3_600_000) / 1000, 600, delta=60)
        self.assertEqual(
            {(row.origin, row.destination) for row in case.demand},
            {("W", "E"), ("E", "W"), ("W", "N"), ("N", "S"), ("N", "W")},
        )

    def test_greens_and_a_left_turn_that_is_permitted(self) -> None:
        case = self.made()
        rows = self.rows()
        self.assertEqual(
            [
                (rows[name]["greens"], rows[name]["permitted"], rows[name]["opposing"])
                for name in ("w__e_r", "w__n_r", "n__s_r", "e")
            ],
            [("0-20", "", ""), ("", "0-20", "e"), ("25-55", "", ""), ("0-20", "", "")],
        )
        # against 40 in 10 minutes on two lanes of 0.5 a second: 40 s of red make a queue of 2.857 s, then 0.3620 a
        # second find a gap, and one goes at the end: 17.143 * 0.3620 + 1 = 7.206 of 20 * 0.5
        self.assertEqual(
            (rows["w__n_r"]["opposing_saturation"], set(rows["w__n_r"]["factors"].split())), ("3600", {"0.721"})
        )
        self.assertIn("1 rows of signal_phase_mvmt.csv let a turn go on red, which is not carried\n", self.out)
        self.assertEqual({limit.link for limit in case.signals}, {"w__e_r", "w__n_r", "n__s_r", "n__w_r", "e"})

    def test_a_turn_that_yields_at_a_sign(self) -> None:
        # n to the left, onto e, yields to both of w and e straight on, to the right, onto w, to e alone, and not to s,
        # which has a sign too; nobody has a signal
        movements = (
            MOVEMENTS.replace("signal_with_RTOR,600,4", "yield,,")
            .replace("4,C,n,1,2,s,thru,signal", "4,C,n,1,,e,left,stop")
            .replace("signal", "")
            + "6,C,s,1,2,n,thru,stop,,\n"
        )
        self.made(
            "--turns",
            "all",
            movement=movements,
            signal_timing_plan=None,
            demand="o_zone_id,d_zone_id,volume\nW,E,600\nE,W,240\nN,E,30\nN,W,30\n",
        )
        rows = self.rows()
        self.assertEqual(
            [
                (rows[name]["opposing"], rows[name]["permissive"], rows[name]["permitted"])
                for name in ("n__e_r", "n__w_r")
            ],
            [("w__e_r e w__n_r", "6.5 3.5 0", "0-60"), ("e", "6.5 3.5 0", "0-60")],
        )
        # of an hour's 240, 0.0667 a second, 0.2078 a second find a gap, of a lane's 0.5
        self.assertEqual(set(rows["n__w_r"]["factors"].split()), {"0.415"})

    def test_none_is_the_network_without_turns(self) -> None:
        case = self.made("--turns", "none")
        self.assertEqual((len(case.links), case.signals), (8, []))
        self.assertIn("movement.csv is not read", self.out)
        self.assertFalse((self.folder / "case" / "turns.csv").exists())

    def test_trips_that_begin_and_end_at_the_crossing(self) -> None:
        case = self.made(demand=DEMAND + "C,E,30\nW,C,20\n")
        links = {link.name: link for link in case.links}
        self.assertEqual((links["w_stop"].head, links["e_r_start"].tail), ("C", "C_start"))
        self.assertEqual([(row.origin, row.destination) for row in case.demand][-2:], [("C_start", "E"), ("W", "C")])

    def test_demand_over_a_turn_that_is_forbidden(self) -> None:
        status, _, err = self.make(link=LINKS + "x,C,X,300,1,36,1800,1\n", demand=DEMAND + "W,X,5\n")
        self.assertEqual(
            (status, err.splitlines()[0]),
            (1, "cannot be carried: demand from W to X: no route leads from node W to node X"),
        )

    def test_phases_of_two_rings_with_an_offset(self) -> None:
        # before the barrier ring 1 has 20 + 5 and 10 + 5 s, ring 2 10 + 5 and 20 + 5; behind it 15 + 5 and 10 + 5
        phases = (
            PHASES.split("\n", maxsplit=1)[0]
            + "\n"
            + "".join(
                f"{name},7,{name},{green},{green},5,{ring},{barrier},{place}\n"
                for name, green, ring, barrier, place in (
                    (1, 20, 1, 1, 1),
                    (2, 10, 1, 1, 2),
                    (5, 10, 2, 1, 1),
                    (6, 20, 2, 1, 2),
                    (3, 15, 1, 2, 3),
                    (7, 10, 2, 2, 3),
                )
            )
        )
        of = "timing_phase_id,mvmt_id,protection\n1,1,protected\n6,2,protected\n2,3,protected\n3,4,protected\n"
        self.made(
            signal_timing_phase=phases,
            signal_phase_mvmt=of,
            signal_coordination="timing_plan_id,coord_phase,coord_ref_to,offset\n7,6,begin_of_yellow,10\n",
        )
        rows = self.rows()
        self.assertEqual(
            [rows[name]["greens"] for name in ("w__e_r", "e", "w__n_r", "n__s_r")], ["0-20", "15-35", "25-35", "40-55"]
        )
        # the green of phase 6 ends with 35 s of the cycle, and at 10 s of the clock: it begins at -25 s
        self.assertEqual({rows[name]["offset"] for name in ("w__e_r", "n__s_r")}, {"35"})
        self.assertIn("1 turns have a signal by movement.csv and no green in signal_phase_mvmt.csv", self.out)

    def test_what_is_missing_or_does_not_fit_is_told(self) -> None:
        self.made(signal_timing_plan=None)
        self.assertIn("5 turns have a signal by movement.csv, and there is no signal_timing_plan.csv", self.out)
        self.made(
            movement=MOVEMENTS + "6,C,w,,,w9,left,,,\n7,C,s,,,n,thru,stop_4_way,,\n",
            signal_phase_mvmt=OF_PHASES + "71,99,protected\n",
        )
        self.assertIn("1 rows of movement.csv are between links that do not meet", self.out)
        self.assertIn("1 rows of movement.csv have a stop sign for all ways", self.out)
        self.assertIn("1 rows of signal_phase_mvmt.csv name no turn of movement.csv", self.out)
        # 50 s of green and 10 of clearance in 40: 30 of green are left, 12 and 18
        self.made(signal_timing_plan=PLAN.replace("60", "40"))
        self.assertIn("take 60 s, longer than its cycle_length of 40", self.out)
        self.assertEqual([self.rows()[name]["greens"] for name in ("w__e_r", "n__s_r")], ["0-12", "17-35"])


class Example(FolderTest):
    """The network of examples/from_gmns with its signal."""

    def made(self, *words: str) -> Path:
        net, case = self.folder / "net", self.folder / "case"
        net.mkdir()
        for folder in ("gmns", "signal"):
            for path in (EXAMPLES / "from_gmns" / folder).iterdir():
                shutil.copy(path, net)
        before = ("--entries", "none", "--saturation", "road", "--carry", "0")
        words = ("--period", "30", "--horizon", "30", *before, *words)
        status, _, err = commands.run("from-gmns", str(net), str(case), *words)
        self.assertEqual((status, err), (0, ""))
        return case

    def test_with_its_signal(self) -> None:
        case = self.made("--step", "5s")
        with open(case / "turns.csv", newline="", encoding="utf-8") as file:
            rows = {row["link"]: row for row in csv.DictReader(file)}
        # 450 vehicles in 30 minutes are 0.25 a second, and a lane of 800 an hour lets 0.222 pass: their queue fills the
        # 30 s of green. Of 103 one goes at the end, of 30 * 700 / 3600 = 5.833 that would pass in it
        self.assertEqual(
            [rows["103__104"][name] for name in ("greens", "permitted", "opposing", "factors")],
            ["35-55", "0-30", "106__104", "0.171 0.171 0.171"],
        )
        self.assertNotIn("103__107_r", rows)
        # a turn of 106 lets half of what it takes pass in 12 slots of 5 s
        links = {link.name: link for link in Case.read(case).links}
        capacity = links["106__104"].capacity(5000)
        self.assertEqual(
            [
                (limit.from_slot, limit.to_slot, limit.units)
                for limit in Case.read(case).signals
                if limit.link == "106__104"
            ][:2],
            [(6, 12, 0), (18, 24, 0)],
        )
        self.assertAlmostEqual(capacity * 720 / 1000, 800, delta=800 * 0.059)

    def test_without_turns_it_is_as_before_there_were_any(self) -> None:
        # by commit 564d1b81, which read no turns, and no names of streets
        made = self.made("--turns", "none")
        (made / "street_names.csv").unlink()
        self.assertEqual(digest(made), "d4497f2d5cd12b082b6c41409f8ab4c4c049a400704a9d30d5e3e47cb1cc6061")


if __name__ == "__main__":
    unittest.main()
