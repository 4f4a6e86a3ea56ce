"""What a browser gets first: the files of the page, which tell nothing of a case, and then the case."""
from __future__ import annotations

import os
from pathlib import Path

from ..files import read_text, readable
from ..show.network import numbered, placed_networks, told_network
from ..show.page import WEB as SHARED, find_d3
from ..show.scripts import modules
from .hearing import lacking
from .measured import told_beside
from .messages import Told, choices_of
from .plans import plans_of
from .scenario import Scenario

WEB = Path(__file__).resolve().parent / "web"
FILES = {"/": "live.html", "/live.css": "live.css"}
FIRST = "main.js"
KINDS = {"html": "text/html", "css": "text/css", "js": "text/javascript"}


def files(d3: str | None) -> dict[str, tuple[str, str]]:
    """The text of each file that is served, and its kind, by its path."""
    named = {
        **{path: WEB / name for path, name in FILES.items()},
        "/shared.css": SHARED / "shared.css",
    }
    texts = {path: (read_text(file), KINDS[file.suffix[1:]]) for path, file in named.items()}
    scripts = {f"/{name}": (text, KINDS["js"]) for name, text in modules(FIRST, [WEB, SHARED]).items()}
    return {**texts, **scripts, "/d3.js": (find_d3(d3), KINDS["js"])}


def hello(scenario: Scenario) -> Told:
    """What a browser is told of the case."""
    case = scenario.case
    (places,), bent = placed_networks([scenario.folder], [case])
    return {
        "name": readable(os.path.basename(os.path.abspath(scenario.folder))),
        "step": scenario.step,
        "slots": scenario.slots,
        "start": scenario.start,
        **told_network(scenario.folder, case, places, bent),
        "kmh": [link.free_kmh for link in case.links],
        "capacity": [link.capacity(3_600_000) for link in case.links],
        "origins": [scenario.nodes[node] for node in scenario.origins],
        "choices": choices_of(case),
        "approaches": numbered(case, scenario.approaches),
        "hears": not lacking(),
        "plans": plans_of(scenario.folder, scenario.links),
        "crossings": scenario.known.crossings,
        "capacities": [float(link.passing(scenario.step, case.setup.carry)) for link in case.links],
        **told_beside(scenario.folder, case),
    }
