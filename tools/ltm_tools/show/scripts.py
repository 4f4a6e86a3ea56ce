"""The scripts of the pages: modules that import one another. A live map serves them as they are; in a page without a
server they are joined into one script."""
from __future__ import annotations

import json
import re
from collections.abc import Sequence
from pathlib import Path

from ..errors import Fault
from ..files import read_text

IMPORT = re.compile(r'^import \{ ([\w, \n]+?) \} from "\./(\w+\.js)";\n', re.MULTILINE)
EXPORT = re.compile(r"^export ((?:async )?(?:function|class|const) (\w+))", re.MULTILINE)


TURNS_TEXT = re.compile(r"\\u(?:202[a-e]|206[6-9])")  # in JSON, the signs that turn the direction of what follows


def json_of(told: object) -> str:
    """What a script is told, as JSON in ASCII; signs in a name that would turn the line round which it stands in are
    shown as what they are, no letters."""
    return TURNS_TEXT.sub(r"\\ufffd", json.dumps(told, separators=(",", ":")))


def modules(first: str, folders: Sequence[Path]) -> dict[str, str]:
    """The texts of a module and of all that it imports, by name, each behind those that it imports."""
    found: dict[str, str] = {}

    def add(name: str, above: tuple[str, ...]) -> None:
        if name in above:
            raise Fault(f"{name} imports itself by way of {', '.join(above[above.index(name) + 1:])}")
        if name in found:
            return
        text = read_text(next(path for folder in folders if (path := folder / name).exists()))
        for wanted in IMPORT.finditer(text):
            add(wanted[2], (*above, name))
            for member in names_in(wanted[1]):
                if member not in exported(found[wanted[2]]):
                    raise Fault(f"{name} imports {member}, which {wanted[2]} does not export")
        found[name] = text

    add(first, ())
    return found


def names_in(text: str) -> list[str]:
    """The names of an import."""
    return [name.strip() for name in text.split(",") if name.strip()]


def exported(text: str) -> list[str]:
    """The names that a module exports."""
    return [found[2] for found in EXPORT.finditer(text)]


def joined_scripts(texts: dict[str, str]) -> str:
    """Modules, each behind those that it imports, as one script in which each keeps its names to itself."""
    parts = ['(() => {\n"use strict";\nconst modules = {};\n']
    for name, text in texts.items():
        body = IMPORT.sub(lambda wanted: f'const {{ {wanted[1]} }} = modules["{wanted[2]}"];\n', text)
        inner = EXPORT.sub(lambda found: found[1], body)
        parts.append(f'modules["{name}"] = (() => {{\n{inner}return {{ {", ".join(exported(text))} }};\n}})();\n')
    return "".join([*parts, "})();\n"])
