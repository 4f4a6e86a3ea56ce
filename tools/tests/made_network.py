"""Networks made at random, of the kinds that importers find: short and long roads, streets of one way and of two,
parallel roads, dead ends, signals, and nodes where trips begin and end. A seed makes the same network each time."""
import random
from fractions import Fraction

from ltm_tools.network.network import Network, Road, road_of

LENGTHS = ((1, 12), (5, 60), (40, 400), (300, 2000))
# km/h, vehicles/km, vehicles an hour
KINDS = ((36, 150, 1800), (50, 150, 1800), (50, 300, 3600), (30, 133, 900), (120, 250, 4500))


def made_network(seed: int) -> Network:
    """A network of at most 12 nodes."""
    chance = random.Random(seed)
    nodes = [f"n{number}" for number in range(chance.randint(2, 12))]
    network = Network()
    for number in range(chance.randint(1, 3 * len(nodes))):
        tail, head = chance.sample(nodes, 2)
        network.add(made_road(chance, f"k{number}", tail, head))
        if chance.random() < 0.5:
            network.add(made_road(chance, f"k{number}b", head, tail))
    used = network.used_nodes()
    network.ends = set(chance.sample(used, chance.randint(0, min(4, len(used)))))
    network.signals = {name for name in network.roads if chance.random() < 0.1}
    return network


def made_road(chance: random.Random, name: str, tail: str, head: str) -> Road:
    kmh, jam, capacity = chance.choice(KINDS)
    return road_of(
        name,
        tail,
        head,
        metres=Fraction(chance.randint(*chance.choice(LENGTHS))),
        kmh=Fraction(kmh),
        jam=Fraction(jam),
        capacity=Fraction(capacity),
    )
