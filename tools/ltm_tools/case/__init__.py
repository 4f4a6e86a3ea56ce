"""A case: what stands in its files, how they are read and written, and what is wrong with them, in words."""
from .case import Case as Case
from .rows import Demand as Demand, Limit as Limit, Link as Link, Setup as Setup, Split as Split
