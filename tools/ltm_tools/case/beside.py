"""The files beside those of a case that the program does not read, and that go with it where another case is made of
it: places, the clock, what has become of the links and nodes of a source, and the turns of its crossings."""
from .background import FILE as BACKGROUND_FILE
from .clock import FILE as CLOCK_FILE
from .places import FILES as PLACES_FILES
from .streets import FILE as STREETS_FILE

LINKS_FILE, NODES_FILE, TURNS_FILE = "source_links.csv", "source_nodes.csv", "turns.csv"
BESIDE = (*PLACES_FILES, CLOCK_FILE, LINKS_FILE, NODES_FILE, TURNS_FILE, STREETS_FILE, BACKGROUND_FILE)
