"""Finds names that don't say what they name, in the Python sources that are its words."""
import ast
import pathlib
import sys
from collections.abc import Iterable, Iterator

EMPTY = {"it", "found", "told", "look_at", "thing", "made", "said", "there", "what", "whose", "more"}
# Fields of JSON that the documents name, and the ends of the paths of the sources that have them.
OF_NOTES = ("plant/src/hilpoven/model/notes.py", "plant/src/hilpoven/report/companion/contents.py")
FIELDS = {"made": (*OF_NOTES, "plant/tests/register/test_facts.py")}
PARTS = ("id", "arg", "attr", "name", "asname", "rest")  # where a node of a source has a name


def empty_names(source: str) -> Iterator[tuple[int, str]]:
    """The empty names of variables, parameters, attributes, functions and classes that a source gives, each with its
    line."""
    for node in ast.walk(ast.parse(source)):
        if not isinstance(getattr(node, "ctx", None), ast.Load):
            names = EMPTY & {getattr(node, part, None) for part in PARTS}
            yield from ((getattr(node, "lineno"), name) for name in names)


def main(paths: Iterable[pathlib.Path]) -> bool:
    wrong = [
        f"{path}:{line}: `{name}` doesn't say what it names"
        for path in paths
        for line, name in empty_names(path.read_text())
        if not str(path).endswith(FIELDS.get(name, ()))
    ]
    print("".join(f"{line}\n" for line in wrong), end="")
    return bool(wrong)


if __name__ == "__main__":
    sys.exit(main(list(map(pathlib.Path, sys.argv[1:]))))
