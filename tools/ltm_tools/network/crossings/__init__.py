"""Crossings as they are: each turn that is allowed is a link of its own, with its own lanes and green."""
