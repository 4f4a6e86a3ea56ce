"""Counts and travel times that were measured, beside those of a loading: reading them, and the fit."""
