"""Edits and scenarios made at random."""
import json
import random
from pathlib import Path

from ltm_tools import edits
from ltm_tools.case import Case


def random_edit(pick: random.Random, case: Case) -> edits.Edit:
    """An edit of any kind, of which some are refused."""
    link, slots = pick.choice(case.links), case.setup.slots
    first = pick.randrange(slots)
    end = pick.randint(first, slots)
    kind = pick.choice(("limit", "limit", "exit", "exit", "demand", "split", "splits", "diagram", "diagram", "horizon"))
    if kind in ("limit", "exit"):
        return {
            "kind": kind,
            "link": link.name,
            "from": first,
            "to": end,
            "vehicles": pick.choice(("0", "0.5", "2", "32", "40")),
        }
    if kind == "demand":
        row = pick.choice(case.demand)
        return edits.demand(
            row.origin,
            row.destination,
            *pick.choice(((row.from_slot, row.to_slot), (first, end))),
            pick.randrange(0, 200_000),
        )
    if kind == "split":
        split = pick.choice(case.splits or [])
        return edits.split(
            split.node,
            split.destination,
            pick.choice((split.from_slot, first)),
            {name: pick.randrange(0, 4) for name in split.weights},
        )
    if kind == "splits":
        split = pick.choice(case.splits or [])
        later = sorted(pick.sample(range(1, slots), min(slots - 1, pick.randrange(0, 3))))
        return edits.splits(
            split.node,
            split.destination,
            [(slot, {name: pick.randrange(0, 4) + (slot == 0) for name in split.weights}) for slot in (0, *later)],
        )
    if kind == "diagram":
        return edits.diagram(link.name, link.length_m, link.free_kmh, link.wave_kmh, pick.randrange(20, 200))
    return edits.horizon(slots + pick.randrange(0, 3))


def random_scenarios(path: Path, count: int, case: Case, seed: int = 1) -> Path:
    """A file of scenarios made by chance."""
    pick = random.Random(seed)
    lines = [
        {
            "name": f"s, {k}",
            "batches": [
                [random_edit(pick, case) for _ in range(pick.randint(1, 4))] for _ in range(pick.randint(0, 3))
            ],
        }
        for k in range(count)
    ]
    path.write_text("".join(json.dumps(line) + "\n" for line in lines))
    return path
