"""The layers of the package: a module imports modules of lower layers and of its own package, none in a circle;
commands alone know `argparse`, and print."""
import ast
import unittest
from graphlib import CycleError, TopologicalSorter
from pathlib import Path

from support import CLONE, FolderTest, TOOLS
from ltm_tools import cli

PACKAGE = TOOLS / "ltm_tools"
# from the lowest: the modules and packages of each line, which import those of lines above alone
LAYERS = (
    ("errors", "version"),
    ("formats", "libraries", "program", "replacing"),
    ("files", "listing"),
    ("tables",),
    ("case",),
    ("demand", "loading", "proving"),
    ("network", "scenario"),
    ("gmns", "sumo", "tntp", "show", "sweep"),
    ("assign", "counting", "cutting", "timing", "worth"),
    ("calibrate",),
    ("live",),
    ("commands",),
    ("cli",),
    ("__main__",),
)
Imports = dict[str, set[str]]


def name_of(root: Path, path: Path) -> str:
    """The name of a module below its package, as `case.rows`; of a package that of its `__init__`."""
    return ".".join(path.relative_to(root).with_suffix("").parts)


def imports_of(root: Path) -> Imports:
    """Of each module of a package those that it imports, wherever in its text; the first `__init__`, which names what
    others have, is left out."""
    modules = {name_of(root, path) for path in root.rglob("*.py")} - {"__init__"}
    return {name: imported(root / f"{name.replace('.', '/')}.py", name, modules) for name in sorted(modules)}


def imported(path: Path, name: str, modules: set[str]) -> set[str]:
    """The modules of the package that the text of one imports."""
    found = set()
    for node in ast.walk(ast.parse(path.read_text(encoding="utf-8"))):
        if isinstance(node, ast.ImportFrom) and node.level:
            base = name.split(".")[: -node.level] + (node.module or "").split(".") * (node.module is not None)
            for alias in node.names:
                whole = ".".join([*base, alias.name])
                found.add(
                    next(
                        it
                        for it in (whole, f"{whole}.__init__", ".".join(base), ".".join([*base, "__init__"]))
                        if it in modules
                    )
                )
    return found


def unit(name: str) -> str:
    """The module at the top, or the package, that a module belongs to."""
    return name.split(".")[0]


def faults(imports: Imports, layers: tuple[tuple[str, ...], ...]) -> list[str]:
    """A line for each import of a module of the same or a higher layer, each module without a layer, and a circle."""
    level = {name: number for number, names in enumerate(layers) for name in names}
    found = [f"{name} has no layer" for name in imports if unit(name) not in level]
    found += [
        f"{name} imports {other}"
        for name, others in imports.items()
        for other in sorted(others)
        if unit(name) != unit(other) and level.get(unit(name), 0) <= level.get(unit(other), 0)
    ]
    try:
        TopologicalSorter(imports).prepare()
    except CycleError as circle:
        found.append("a circle: " + " ".join(circle.args[1]))
    return found


class Layers(FolderTest):
    def test_the_package(self) -> None:
        imports = imports_of(PACKAGE)
        self.assertGreater(len(imports), 90)
        self.assertIn("case.rows", imports["case.reading"])
        self.assertEqual(faults(imports, LAYERS), [])

    def made(self, **texts: str) -> list[str]:
        for name, text in {
            "low": "",
            "pack/__init__": "from .one import it",
            "pack/one": "",
            "pack/two": "from . import one",
            "high": "",
            **texts,
        }.items():
            path = self.folder / f"{name}.py"
            path.parent.mkdir(exist_ok=True)
            path.write_text(text)
        return faults(imports_of(self.folder), (("low",), ("pack",), ("high",)))

    def test_what_is_right(self) -> None:
        self.assertEqual(
            self.made(
                **{
                    "pack/one": "from ..low import it",
                    "high": "from . import low\nfrom .pack import it\nfrom .pack.two import it",
                }
            ),
            [],
        )

    def test_an_import_of_a_higher_layer(self) -> None:
        self.assertEqual(self.made(**{"pack/two": "def late():\n    from ..high import it"}), ["pack.two imports high"])
        self.assertEqual(self.made(**{"pack/two": "", "low": "from .pack import it"}), ["low imports pack.__init__"])

    def test_a_circle(self) -> None:
        self.assertEqual(self.made(**{"pack/one": "from .two import it"}), ["a circle: pack.one pack.two pack.one"])

    def test_a_module_without_a_layer(self) -> None:
        self.assertEqual(self.made(other=""), ["other has no layer"])

    def test_documents_name_each_package(self) -> None:
        told = (CLONE / "CONTRIBUTING.md").read_text(encoding="utf-8")
        for names in LAYERS[:-1]:
            for name in names:
                self.assertIn(f"`{name}{'/' * (PACKAGE / name).is_dir()}`", told)


def words_of_commands(text: str) -> set[str]:
    """What of a command the text of a module has: `argparse`, and `print`."""
    found = set()
    for node in ast.walk(ast.parse(text)):
        if isinstance(node, ast.Import):
            found |= {alias.name for alias in node.names} & {"argparse"}
        elif isinstance(node, ast.ImportFrom) and node.module == "argparse":
            found.add("argparse")
        elif isinstance(node, ast.Call) and isinstance(node.func, ast.Name) and node.func.id == "print":
            found.add("print")
    return found


class Commands(unittest.TestCase):
    def test_commands_alone_know_argparse_and_print(self) -> None:
        found = {
            name_of(PACKAGE, path): words
            for path in PACKAGE.rglob("*.py")
            if (words := words_of_commands(path.read_text(encoding="utf-8")))
        }
        self.assertEqual({name: words for name, words in found.items() if unit(name) not in ("commands", "cli")}, {})
        self.assertEqual(found["cli"], {"argparse", "print"})

    def test_what_is_looked_for(self) -> None:
        self.assertEqual(words_of_commands("from argparse import Namespace\nprint(1)"), {"argparse", "print"})
        self.assertEqual(words_of_commands("import argparse, os\nprinted(1)"), {"argparse"})

    def test_modules_are_called_as_commands_are_typed(self) -> None:
        for name, module in zip(cli.COMMANDS, cli.commands(), strict=True):
            self.assertEqual(module.NAME, name.replace("_", "-"))
        helpers = {path.stem for path in (PACKAGE / "commands").glob("*.py")} - set(cli.COMMANDS)
        self.assertEqual(helpers, {"__init__", "arguments", "imports"})

    def test_no_test_imports_another(self) -> None:
        """What several tests use stands in a module that has no tests, so that none are run twice."""
        found = [
            f"{path.name}:{node.lineno}"
            for path in sorted((TOOLS / "tests").glob("*.py"))
            for node in ast.walk(ast.parse(path.read_text(encoding="utf-8")))
            for name in ([node.module or ""] if isinstance(node, ast.ImportFrom) else [])
            + ([alias.name for alias in node.names] if isinstance(node, ast.Import) else [])
            if name.startswith("test_")
        ]
        self.assertEqual(found, [])


if __name__ == "__main__":
    unittest.main()
