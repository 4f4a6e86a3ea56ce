"""Loadings to look at: the page with its folder `web`, and pictures."""
