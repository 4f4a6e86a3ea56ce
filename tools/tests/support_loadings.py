"""Loadings that an engine which was written without this one made, as curve files."""
from pathlib import Path

from ltm_tools.case import Case
from ltm_tools.loading.curves import Curves

DATA = Path(__file__).resolve().parent / "data" / "delay"


def read(name: str) -> tuple[Case, Curves]:
    return Case.read(DATA / name), Curves.of_case(DATA / name)


# the loading of the smallest case, as docs/FORMATS.md has it
LOADING = """kind,name,destination,counts
up,a,n2,0 500 1000 1000 1000
down,a,n2,0 0 0 500 1000
dep,n1,n2,0 500 1000 1000 1000
dep,n2,n2,0 0 0 0 0
arr,n2,n2,0 0 0 500 1000
"""
