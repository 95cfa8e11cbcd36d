"""Which commands are compared: those of commands.txt, with names of an office."""
import contextlib
import pathlib
import random
import re
import shlex
import shutil
import sqlite3
import tempfile
from typing import Any, NamedTuple

TEXT = pathlib.Path(__file__).with_suffix(".txt").read_text()
SECTIONS: dict[str, list[tuple[str, str]]] = {
    title: [(word, rest) for word, _, rest in (line.partition(" ") for line in text.strip().split("\n"))]
    for title, text in re.findall(r"^\[(\w+)\]\n(.*?)(?=^\[|\Z)", TEXT, re.M | re.S)
}
SHARES = {"asked": 0.4, "wrong": 0.25, "done": 0.4}  # of the commands of each section, for an office
FORMATS = ("", "--csv", "--json")
MISSING = ("NONE",) * 12  # the names of what an office doesn't have


class Names(tuple[Any, ...]):
    """The names of a row, which stand one behind the other where all of them are meant."""

    def __format__(self, form: str) -> str:
        return " ".join(map(str, self))


class Command(NamedTuple):
    """A command: its words, and what it reads or what is typed."""

    words: list[str]
    input: str = ""
    is_typed: bool = False


def names_of(folder: str) -> dict[str, list[Names]]:
    """The names that an office has, read from a copy."""
    with tempfile.TemporaryDirectory() as room:
        for end in ("", "-wal"):
            with contextlib.suppress(FileNotFoundError):
                shutil.copyfile(f"{folder}/office.db{end}", f"{room}/office.db{end}")
        with contextlib.closing(sqlite3.connect(f"{room}/office.db")) as base:
            return {name: [Names(row) for row in sorted(base.execute(sql))] for name, sql in SECTIONS["names"]}


def filled(line: str, names: dict[str, list[Names]], chance: random.Random) -> Command:
    """A command of a line, with names by chance."""
    picks = {name: chance.choice(rows or [Names(MISSING)]) for name, rows in names.items()}
    words, is_typed, answers = line.partition(" << ")
    words, _, text = words.partition(" < ")
    given = (answers if is_typed else text).format(**picks).replace("|", "\n")
    return Command(shlex.split(words.format(**picks)), given if is_typed else given.replace(" ", ","), bool(is_typed))


def commands_of(folder: str, seed: int) -> list[Command]:
    """The commands for an office: a part of all, first what changes nothing."""
    names, chance, options = names_of(folder), random.Random(seed), dict(SECTIONS["options"])
    lists = SECTIONS["lists"]
    lines = [f"list {name} {form}" for name, _ in lists for form in FORMATS]
    lines += [
        " ".join([f"list {name}", *(options[option] for option in of.split() if chance.random() < 0.4), form])
        for name, of in lists
        for form in FORMATS
    ]
    lines = [line for at, line in enumerate(lines) if at % 4 == seed % 4]
    for section, share in SHARES.items():
        for count, line in SECTIONS[section]:
            lines += [line] * int(count) if chance.random() < share else []
    return [filled(line, names, chance) for line in lines]
