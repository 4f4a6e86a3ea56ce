"""Shares of routes at which nobody gains by another way, found from loadings of the program, and what closures cost
then."""
