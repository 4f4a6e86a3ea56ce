"""Raw networks of few roads, by hand."""
from fractions import Fraction

from ltm_tools.network.network import Network, Road, road_of


def road(name: str, tail: str, head: str, metres: int, capacity: int = 1800, jam: int = 150) -> Road:
    return road_of(
        name, tail, head, metres=Fraction(metres), kmh=Fraction(36), jam=Fraction(jam), capacity=Fraction(capacity)
    )


def network(*roads: Road, ends: str = "") -> Network:
    made = Network()
    for one in roads:
        made.add(one)
    made.ends = set(ends.split())
    return made
