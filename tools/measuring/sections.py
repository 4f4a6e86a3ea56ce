"""The sections of the page, in order."""
from . import answers, cities, panning, shapes, speeds, towns
from .page import Section

SECTIONS = (
    Section(
        "speed",
        "Beside a plain engine",
        "The plain engine is a program in Rust for the same rules, written for speed and without proofs. It does "
        "not belong to the repository; `--plain PROGRAM` names it, and its answers have to be the same, byte for "
        "byte.",
        speeds.beside_plain,
    ),
    Section(
        "sizes",
        "How large",
        "Grids of roads on which vehicles go from every node to each destination, by the fastest routes.",
        speeds.sizes,
    ),
    Section(
        "sumo",
        "Beside SUMO",
        "The [town and the region](../examples/from_sumo/README.md) of SUMO's generator, with their vehicles on "
        "the routes that they come with, imported with links as a whole.",
        towns.beside_sumo,
        needs_sumo=True,
    ),
    Section(
        "imports",
        "Imports and turns",
        "`from-sumo` over the same networks, with [crossings](TURNS.md) as they are and with links as a whole.",
        towns.imports,
        needs_sumo=True,
    ),
    Section(
        "live",
        "The live map",
        "What [the live map](LIVE.md) asks of its server. The map is to be drawn within 2,000 ms of opening the "
        "page, within 100 ms of a settled change (150 with thousands of links), and within 33 ms of a step of the "
        "slider.",
        answers.live,
        needs_sumo=True,
    ),
    Section(
        "panning",
        "The live map while it moves",
        "Grids of roads in [the live map](LIVE.md), panned and played. It is meant to show 30 frames per second with "
        "16,000 links on a machine that does nothing else, and to open them with 5 s of processor time of its server.",
        panning.panning,
    ),
    Section(
        "assign",
        "Assignment and closures",
        "[`assign`](ASSIGN.md) with its default options, and [`closures`](ASSIGN.md#the-effect-of-a-closure) of the "
        "result.",
        towns.assigning,
        needs_sumo=True,
    ),
    Section(
        "city",
        "A city assigned",
        "[`assign`](ASSIGN.md) of the [city](../examples/assign/README.md) `large`, which has as many zones and links "
        "as the test network of Winnipeg. The clock counts here, so run it on a machine that does nothing else.",
        cities.city,
    ),
    Section(
        "shapes",
        "As large as public test networks",
        "Made networks with as many zones, nodes and links as networks of the Transportation Networks collection "
        "([`shapes.py`](../examples/from_tntp/shapes.py)), with trips of an hour over a horizon of two, fitted to a "
        "step of 10 s: importing each by `from-tntp --routes 1`; `load`, `delay` and `gap` by the fastest routes on "
        "empty roads; and a run of [`assign`](ASSIGN.md) with one iteration and as many processes as there are "
        "processors. The clock counts here, so run it on a machine that does nothing else. "
        "[README](../README.md#how-large) shows the first table.",
        shapes.shapes,
    ),
    Section(
        "sweep",
        "Many scenarios",
        "[`sweep`](SWEEP.md) over closures of five minutes.",
        towns.sweeping,
        needs_sumo=True,
    ),
    Section(
        "files",
        "Files and editors",
        "Curve files of a grid of 3,480 links, map pages, and eight editors of the smallest case.",
        answers.files,
        needs_sumo=True,
    ),
)
