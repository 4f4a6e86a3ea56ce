"""What holds of every network that is fitted, over networks made at random; and importers go through with them."""
import random
import unittest
from fractions import Fraction

import commands
from support import FolderTest

from made_network import made_network
from ltm_tools.network.arms import ARMS
from ltm_tools.network.fit import FittedNetwork
from ltm_tools.network.network import Network, least_times, road_totals

STEPS = (500, 1000, 2000, 5000, 10_000, 20_000)
COUNT = 2000


def faults(raw: Network, fit: FittedNetwork) -> list[str]:
    """What does not hold of a network and what it was made of."""
    made, found = fit.network, []
    parts = [part for road in made.roads.values() for part in road.parts]
    found += ["too short"] * bool(fit.too_short())
    found += [f"arms of {node}" for node in made.nodes if max(len(made.ins[node]), len(made.outs[node])) > ARMS]
    found += [f"end {node}" for node in raw.ends if fit.node_of(node) != node or node not in made.nodes]
    found += [
        f"ways to {node}"
        for node in raw.ends
        if set(least_times(raw, node)) & raw.ends != set(least_times(made, node)) & raw.ends
    ]
    found += ["parts"] * (len(parts) != len(set(parts)) or set(raw.roads) - set(parts) != fit.lost)
    found += ["arms of another network"] * (arms(made) != (made.outs, made.ins))
    before, after = road_totals(raw.roads.values()), road_totals(made.roads.values())
    found += ["metres"] * (sum(change.metres for change in fit.changes) != after[0] - before[0])
    found += ["time"] * (sum(change.time for change in fit.changes) != after[1] - before[1])
    return found


def arms(network: Network) -> tuple[dict[str, list[str]], dict[str, list[str]]]:
    """The roads out of each node and into it, by the roads."""
    outs: dict[str, list[str]] = {node: [] for node in network.nodes}
    ins: dict[str, list[str]] = {node: [] for node in network.nodes}
    for road in network.roads.values():
        outs[road.tail].append(road.name)
        ins[road.head].append(road.name)
    for side, known in ((outs, network.outs), (ins, network.ins)):
        for node, names in side.items():
            names.sort(key=known[node].index)
    return outs, ins


class Fitted(unittest.TestCase):
    def test_networks_made_at_random(self) -> None:
        for seed in range(COUNT):
            raw, step = made_network(seed), random.Random(seed).choice(STEPS)
            fit = FittedNetwork(raw, step)
            fit.run()
            self.assertEqual(faults(raw, fit), [], f"seed {seed}, step {step}")

    def test_a_capacity_that_a_longer_road_could_not_have(self) -> None:
        """Where one road is contracted onto several their density falls, and with it what they can carry: it is not
        done then."""
        raw = made_network(272)
        fit = FittedNetwork(raw, 5000)
        made = fit.run()
        self.assertEqual(
            {name: road.capacity for name, road in made.roads.items() if road.capacity != raw.roads[name].capacity}, {}
        )


class Imported(FolderTest):
    def imported(self, link: str, *words: str, demand: str = "") -> tuple[int, str, str]:
        net = self.folder / "net"
        net.mkdir(exist_ok=True)
        (net / "link.csv").write_text(link)
        (net / "demand.csv").write_text("o_zone_id,d_zone_id,volume\n" + demand)
        return commands.run("from-gmns", str(net), str(self.folder / "case"), *words)

    def test_two_roads_into_a_node_that_go_on_by_the_same_one(self) -> None:
        """Neither is in series with it: once that was counted as two pairs, and the road was merged twice."""
        link = (
            "link_id,from_node_id,to_node_id,length,lanes,free_speed,capacity,directed\n"
            "k7,4,16,1010,1,50,1800,1\nk41,16,4,311,1,50,1800,0\nk42,16,12,9,1,50,1800,1\n"
        )
        for ends in ("4,12,100\n", "4,16,100\n"):
            self.assertEqual(self.imported(link, "--fit", "5000", demand=ends)[::2], (0, ""))
        # the advice where a link is too short fits the network to each step
        status, _, err = self.imported(link, "--step", "5000", demand="4,12,100\n")
        self.assertEqual(status, 1)
        self.assertIn("--fit STEP fits the network to a step:", err)

    def test_networks_made_at_random(self) -> None:
        """A case comes, or a line says why not; with `--leave-out-unreached` no network is refused for its ways."""
        for seed in range(40):
            raw, chance = made_network(seed), random.Random(seed)
            link = "link_id,from_node_id,to_node_id,length,free_speed,lanes,capacity\n" + "".join(
                f"{road.name},{road.tail[1:]},{road.head[1:]},{whole(road.length)},{whole(road.kmh)},1,"
                f"{whole(road.capacity)}\n"
                for road in raw.roads.values()
            )
            ends = sorted(raw.ends)
            demand = "".join(
                f"{one[1:]},{other[1:]},{chance.randint(1, 900)}\n" for one in ends for other in ends if one != other
            )
            words = (
                "--fit",
                str(chance.choice(STEPS)),
                "--jam",
                "300",
                "--horizon",
                "80",
                *(["--no-balance"] if chance.random() < 0.3 else []),
            )
            status, _, err = self.imported(link, *words, "--leave-out-unreached", demand=demand)
            self.assertEqual((status, err), (0, ""), f"seed {seed}")


def whole(number: Fraction) -> int:
    """A number that is whole; exact where it is one."""
    assert number.denominator == 1
    return number.numerator


if __name__ == "__main__":
    unittest.main()
