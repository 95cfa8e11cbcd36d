"""The layers of the plant's command: each imports only those below it, and no part of one comes back to itself."""
import ast
from collections.abc import Iterator
from graphlib import TopologicalSorter

import pytest
from conftest import ROOT

LAYERS = ["core", "model", "care", "record", "report", "cli"]  # the lowest first
PACKAGE = ROOT / "plant" / "src" / "hilpoven"
MODULES = {".".join(path.relative_to(PACKAGE).with_suffix("").parts): path for path in PACKAGE.rglob("*.py") if path.parent != PACKAGE}
# What is imported where it is needed, other than by cli/: what reads no table starts without SQLite.
LATE = {("record.asking", late) for late in ("model.below", "model.register.lines", "model.years.earlier", "record.hints", "record.stops")}
LATE |= {("record.giving", late) for late in ("record.beside", "record.cleaning", "record.doubts")}


def imports_of(module: str, tree: ast.AST) -> Iterator[str]:
    """The modules of the package that a part of a module imports."""
    for node in ast.walk(tree):
        if isinstance(node, ast.ImportFrom):
            above = module.split(".")[: module.count(".") + 1 - node.level] if node.level else []
            name = ".".join([*above, *filter(None, [node.module])]).removeprefix("hilpoven.")
            yield from {name, *(f"{name}.{alias.name}" for alias in node.names)} & MODULES.keys()


def part_of(module: str) -> str:
    """A module that stands in a layer itself, or the folder in a layer that it stands in."""
    return ".".join(module.split(".")[:2])


IMPORTS = {module: set(imports_of(module, ast.parse(path.read_text()))) - {module} for module, path in MODULES.items()}


def test_a_layer_imports_those_below_it():
    ups = [(module, name) for module, names in IMPORTS.items() for name in names
           if LAYERS.index(name.split(".")[0]) > LAYERS.index(module.split(".")[0])]
    assert not ups


@pytest.mark.parametrize("named", [str, part_of], ids=["modules", "parts"])
def test_no_import_comes_back(named):
    graph: dict[str, set[str]] = {}
    for module, names in IMPORTS.items():
        graph.setdefault(named(module), set()).update(set(map(named, names)) - {named(module)})
    assert list(TopologicalSorter(graph).static_order())


def test_what_is_imported_late_is_known():
    late = {(module, name) for module, path in MODULES.items() if not module.startswith("cli.")
            for node in ast.walk(ast.parse(path.read_text())) if isinstance(node, ast.FunctionDef) for name in imports_of(module, node)}
    assert late == LATE


# What only cli/ does: it prints, ends, asks a terminal, and knows whose process it is.
DONE_ABOVE = {"print", "input", "exit", "isatty", "getuid", "getlogin", "get_terminal_size"}


def test_below_the_command_line_nothing_prints_or_asks():
    done = {(module, name) for module, path in MODULES.items() if not module.startswith("cli.") for node in ast.walk(ast.parse(path.read_text()))
            if isinstance(node, ast.Call) and (name := getattr(node.func, "id", getattr(node.func, "attr", ""))) in DONE_ABOVE}
    assert not done
    words = [module for module, path in MODULES.items() if not module.startswith("cli.") for node in ast.walk(ast.parse(path.read_text()))
             if isinstance(node, ast.Attribute) and node.attr == "argv"]
    assert not words
    assert {module.split(".")[0] for module, path in MODULES.items() if "import click" in path.read_text()} == {"cli"}
