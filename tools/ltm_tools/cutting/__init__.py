"""A part of a network as a case of its own, with what enters it and leaves it at the edge."""
