"""Demand at which a loading meets counts: unknowns, slopes, the search, the range, and what comes of it."""
