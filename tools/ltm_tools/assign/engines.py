"""Which engine loads a case."""
from __future__ import annotations

from ..case import Case
from ..program import has_command
from .anew import WORDS, Anew
from .engine import Engine, Program
from .net import Net
from .settling import Settling
from .shares import Shares

LEAST_ENDS = 16  # destinations from which on the program loads a case without keeping its history


def engine_of(net: Net, shares: Shares, program: Program, case: Case | None = None) -> Engine:
    """The engine that is the faster one where most shares change each time, and takes less memory."""
    is_lean = len(net.end_names) >= LEAST_ENDS and has_command(WORDS[0], program)
    is_lean = is_lean or not (case or net.case).setup.history
    return (Anew if is_lean else Settling)(net, shares, program, case)
