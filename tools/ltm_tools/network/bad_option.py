"""The fault of an option that an import does not take."""
from __future__ import annotations

from ..errors import Fault


class BadOption(Fault):
    """An option that is not within its range."""

    def __init__(self, name: str, rule: str) -> None:
        self.name, self.rule = name, rule
        super().__init__(f"{name} {rule}")
