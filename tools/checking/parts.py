"""The parts of ./check, of parts.toml: what each runs, and what it needs."""
import dataclasses
import pathlib
import tomllib
from typing import Any, Self

from machine import GB

ROOT = pathlib.Path(__file__).resolve().parent.parent.parent
PYTHON = "/usr/bin/python3"  # Debian's, which has Debian's packages
PROGRAM, FOLDER, SHARED = "PROGRAM", "FOLDER", "SHARED"
COMMANDS = {"python3": [PYTHON], "pytest-3": [PYTHON, "-m", "pytest", "-q", "-p", "no:cacheprovider", "--tb=short"]}
TABLES = tomllib.loads(pathlib.Path(__file__).with_name("parts.toml").read_text())
SKIPPED: dict[str, str] = TABLES["skipped"]


def packages_of(names: str) -> tuple[str, ...]:
    """Debian's packages of these names, some of which are those of lists."""
    lists = TABLES["packages"]
    return tuple(package for name in names.split() for package in lists.get(name, name).split())


@dataclasses.dataclass(frozen=True)
class Part:
    """What is run, and what of the machine it takes, as parts.toml describes it."""

    name: str
    words: tuple[str, ...]
    packages: tuple[str, ...] = ()
    minutes: float = 30
    processors: float = 1  # less than one of a part that mostly waits
    memory: float = 0.5 * GB
    fault: str = ""
    is_alone: bool = False

    @classmethod
    def of(
        cls, name: str, words: str, packages: str = "", memory: float = 0.5, alone: bool = False, **others: Any
    ) -> Self:
        split = tuple(each for word in words.split() for each in COMMANDS.get(word, [word]))
        return cls(name, split, packages_of(packages), memory=memory * GB, is_alone=alone, **others)

    def beside_others(self) -> Self:
        """The same where it doesn't run alone at first: if it fails for that, it is run once more, alone."""
        return dataclasses.replace(self, is_alone=False)

    def command(self, places: dict[str, str]) -> list[str]:
        """What is run, with these places in the words that stand for them."""
        words = list(self.words)
        for name, place in places.items():
            words = [word.replace(name, place) for word in words]
        return words

    def needs_program(self) -> bool:
        """Whether it runs the program, and so behind the proofs."""
        return any(PROGRAM in word for word in self.words)


BESIDE, (PROOFS, UNPROVED), BEHIND = (
    [Part.of(name, **part) for name, part in TABLES[table].items()] for table in ("beside", "makers", "behind")
)


def parts(is_quick: bool = False) -> list[Part]:
    """All parts in the order in which they begin; if it is quick, with an unproved build in place of the proofs, and
    none alone."""
    return [*BESIDE, UNPROVED, *(part.beside_others() for part in BEHIND)] if is_quick else [*BESIDE, PROOFS, *BEHIND]
