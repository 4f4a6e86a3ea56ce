"""Loadings: curve files, queues and delay, times of paths, comparisons, and sessions."""
