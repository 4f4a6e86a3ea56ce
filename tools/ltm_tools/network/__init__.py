"""What importers share: a raw network, its fit to a step, its crossings and names, and the case that is made of it."""
