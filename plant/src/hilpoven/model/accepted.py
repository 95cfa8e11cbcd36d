"""The rows that accepted commands of the journal added, and those of them that the office's file lacks."""
import sqlite3
from collections.abc import Iterable, Iterator
from dataclasses import dataclass
from typing import Any

from .. import HOUSE
from ..core.failure import printable
from ..core.grammar import LINES, MOVEMENTS
from ..core.journal.query import listed
from ..core.journal.log import IN_PLACE
from ..core.meanings import OUTCOME
from .years.chain import Carried, came_from

# The row that a line adds, by its values. Other lines, such as `do` and `release`, change a row.
ROWS = {
    "owner-add": "owners WHERE owner = :OWNER",
    "unit-add": "units WHERE unit = :UNIT",
    "material-add": "materials WHERE owner = :OWNER AND material = :MATERIAL",
    "test-add": "tests WHERE owner = :OWNER AND material = :MATERIAL AND test = :TEST",
    "recipe-add": "recipes WHERE owner = :OWNER AND recipe = :RECIPE",
    "order": f"orders WHERE owner = '{HOUSE}' AND ord = :ORDER",
    "void": "voids WHERE owner = :OWNER AND mkey = :KEY",
    **dict.fromkeys(MOVEMENTS, "moves WHERE owner = :OWNER AND mkey = :KEY"),
}
REPLACING = {"new", "restore", "promote", "carry-over"}  # the commands that put another file in the office's place
DONE = {"accepted", "repeated"}


@dataclass(frozen=True)
class AddedRow:
    """A row that a command added: when the command was asked, its line, and the values that identify the row."""

    time: str
    line: str
    values: dict[str, str]

    def is_in(self, base: sqlite3.Connection) -> bool:
        """Whether the tables have it."""
        return base.execute(f"SELECT 1 FROM {ROWS[self.line]}", self.values).fetchone() is not None

    def __str__(self) -> str:
        return " ".join([self.line, *self.values.values()])


def added_rows(entries: Iterable[dict[str, Any]]) -> list[AddedRow]:
    """The rows that accepted commands added since the office's file was last replaced. A command that was to replace
    it, and failed before it did, or was never answered, replaced nothing."""
    asked, rows = dict[str, dict[str, Any]](), list[AddedRow]()
    for entry in entries:
        if entry.get("event") == "asked":
            asked[str(entry.get("id"))] = entry
        elif entry.get("event") == "told" and (command := asked.pop(str(entry.get("of")), None)):
            if REPLACING.isdisjoint(map(str, listed(command, "words")[:1])):
                rows += rows_of(command, str(entry.get("answer")))
            elif has_replaced(entry):
                rows = []
    return rows


def has_replaced(answer: dict[str, Any]) -> bool:
    """Whether a command that was to put another file in the office's place did so, by its answer."""
    return answer.get("status") == 0 and not answer.get("error") or answer.get(IN_PLACE) is True


def since(rows: list[AddedRow], came: Carried | None) -> list[AddedRow]:
    """Those of the rows that were added since the office was carried over into its file, also where the journal has no
    answer of that."""
    return [row for row in rows if came is None or row.time >= came.at]


def rows_of(command: dict[str, Any], answer: str) -> Iterator[AddedRow]:
    """The rows that a command added, by its answer. A sheet of actuals has one for each accepted record."""
    name, *words = [str(word) for word in listed(command, "words")] or [""]
    time, line = str(command.get("time")), LINES.get(name)
    if name == "import":
        outcomes = [match[1] for match in map(OUTCOME.fullmatch, answer.splitlines()) if match]
        for key, outcome in zip(map(str, listed(command, "keys")), outcomes):
            owner, _, key = key.partition(" ")
            if outcome in DONE:
                yield AddedRow(time, "actual", {"OWNER": owner, "KEY": key})
    elif line and name in ROWS and answer.strip() in DONE and len(words) == len(line.values):
        values = dict(zip(line.values, words))
        yield AddedRow(
            time, name, {value_name: values[value_name] for value_name in values if f":{value_name}" in ROWS[name]}
        )


def lacking(base: sqlite3.Connection, rows: list[AddedRow]) -> list[str]:
    """What is reported of the rows that the tables lack; empty if they have all."""
    try:
        rows = since(rows, came_from(base))
        lost = [row for row in rows if not row.is_in(base)]
    except sqlite3.Error as error:
        return [f"it can't be read: {error}"]
    if not lost:
        return []
    count, first = f"{len(lost):,} of {len(rows):,}", printable(f"{lost[0]} of {lost[0].time}")
    return [f"{count} rows that the journal's accepted commands added are missing, first {first}"]
