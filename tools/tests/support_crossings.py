"""A crossing by hand, and its turns."""
from collections.abc import Collection
from dataclasses import replace
from fractions import Fraction

from ltm_tools.demand.cycles import Green
from ltm_tools.network.crossings.expand import Form
from ltm_tools.network.crossings.movements import Held, Movement, Movements, movements_of
from ltm_tools.network.network import Network, Node, road_of

PLACES = {"n": (0.0, 300.0), "e": (300.0, 0.0), "s": (0.0, -300.0), "w": (-300.0, 0.0), "c": (0.0, 0.0)}
HELD = Held((Green(60_000, 0, 30_000),))
BACK = {"n": "s", "e": "w", "s": "n", "w": "e"}


def crossing(arms: str = "nesw", metres: int = 300, lanes: int = 2) -> Network:
    """Arms around c, each with a road in, as `nc`, and one out, as `cn`: 36 km/h, a lane of 1800 an hour and 150/km."""
    made = Network()
    for name, place in PLACES.items():
        made.add_node(Node(name, *place))
    for arm in arms:
        for tail, head in ((arm, "c"), ("c", arm)):
            made.add(
                road_of(
                    tail + head,
                    tail,
                    head,
                    metres=Fraction(metres),
                    kmh=Fraction(36),
                    jam=Fraction(150 * lanes),
                    capacity=Fraction(1800 * lanes),
                )
            )
    return made


def turns(arms: str = "nesw", without: Collection[tuple[str, str]] = (), held: Held | None = HELD) -> Movements:
    """All turns but those back and some others: straight on from both lanes, else from one."""
    pairs = [(one + "c", "c" + other) for one in arms for other in arms if one != other]
    return movements_of(
        [
            Movement(*pair, (0, 1) if BACK.get(pair[0][0]) == pair[1][1] else (0,), held)
            for pair in pairs
            if pair not in without
        ],
        {name: 2 for name in crossing(arms).roads},
    )


def form(**words: object) -> Form:
    return replace(Form(step=5000, length_m=98), **words)  # type: ignore[arg-type]
