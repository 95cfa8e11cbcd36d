"""What a workbook has an office do: the commands and the notes of its rows in their order, and what is wrong with rows
with which the office, or another row, doesn't agree."""
from collections import Counter
from collections.abc import Iterable, Iterator
from dataclasses import MISSING, dataclass, field, fields, replace
from functools import cached_property
from typing import Any, TypeVar

from ...core.forms import name_fault
from ...core.grammar import LINES, Line
from ...core.table import as_measured
from ...model.nearest import nearest
from ...model.notes import Note
from ...model.register.standing import Register
from ...model.schema import Role as Use
from ..making import Desk
from ..sheets.sheet import Record
from .reading import Fault, Part, Thing, Workbook
from .standing import Standing, standing_in
from .tables import OWNERS, REQUIREMENTS, Table

Facts = TypeVar("Facts", bound=Note)
MOST_ADVISED = 50  # faults, behind which no near names are looked for


@dataclass(frozen=True)
class Step:
    """A command that a row gives: the row, the line of `toll` with its words, the things that have to be there before,
    the one that it makes, and what is noted beside it."""

    part: Part
    record: Record
    line: Line
    words: list[str]
    needs: tuple[Thing, ...] = ()
    makes: Thing = ()
    notes: tuple[Note, ...] = ()

    def refused(self, words: str, value: str = "") -> Fault:
        """That it is refused, at the cell of a value of the line, or of its thing's own name."""
        column = value.lower() if value.lower() in self.part.sheet.places else self.part.table.names[-1]
        return self.part.fault(self.record, column, words)


@dataclass
class Plan:
    """What a workbook has an office do: commands, what is noted behind those that aren't of stock and before the
    others, how many rows each table has, which of them say something new, and the keys of the movements that the
    office has already."""

    faults: list[Fault] = field(default_factory=list)
    steps: list[Step] = field(default_factory=list)
    notes: list[Note] = field(default_factory=list)
    rows: Counter[str] = field(default_factory=Counter)  # by the titles of tables
    new: set[tuple[str, int]] = field(default_factory=set)  # the titles of tables and the numbers of their rows
    known_keys: list[str] = field(default_factory=list)

    def count_new(self, title: str) -> int:
        """How many rows of a table say something new."""
        return sum(table == title for table, _ in self.new)


@dataclass
class Planner:
    """Plans a workbook, table by table, for an office."""

    desk: Desk
    workbook: Workbook
    plants_test: str
    plan: Plan = field(default_factory=Plan)

    def __post_init__(self) -> None:
        self.standing: Standing = standing_in(self.desk.base, self.register)

    @property
    def register(self) -> Register:
        """What is noted."""
        return self.desk.register

    def rows(self, table: Table) -> Iterator[tuple[Part, Record]]:
        """The rows of a table, but for those whose thing is that of a row before them."""
        part, first = self.workbook.parts.get(table.title), dict[Thing, int]()
        for record in self.workbook.records(table):
            assert part
            self.plan.rows[table.title] += 1
            before = first.setdefault(part.subject(record.values), record.row)
            if before == record.row:
                yield part, record
            else:
                self.fault(part, record, table.names[-1], f"row {before} says it already")

    def fault(self, part: Part, record: Record, column: str, words: str) -> None:
        """Notes what is wrong with a value."""
        self.plan.faults.append(part.fault(record, column, words))

    def has(self, subject: Thing) -> bool:
        """Whether a thing is in the office or in the workbook, or may be in a table that can't be read."""
        return self.standing.has(subject) or subject in self.workbook.named or subject[0] in self.workbook.unclear

    def check_references(self) -> None:
        """Notes the values that name a thing that is neither in the office nor in the workbook, also of rows that can't
        be read otherwise. Of an owner that isn't there nothing else is looked for."""
        for part in self.workbook.parts.values():
            for row, names in part.names.items():
                for title, columns in part.table.refers:
                    subject = title, *(names[column] for column in columns)
                    is_owners = len(subject) == 2 or self.has((OWNERS.title, subject[1]))
                    if is_owners and not self.has(subject) and not any(map(name_fault, subject[1:])):
                        place = part.sheet.places[columns[-1]]
                        self.plan.faults.append(Fault(part.at, row, place, part.title, self.lacking(subject)))

    def lacking(self, subject: Thing) -> str:
        """That a thing is neither in the office nor in the workbook, and which names are near."""
        title, *above, name = subject
        kind, of_owner = title.lower(), f" of {above[0]}" if above else ""
        words = f"there is no {kind.removesuffix('s')} {name}{of_owner}, in the office or in {title}"
        if len(self.plan.faults) >= MOST_ADVISED:
            return words
        return f"{words}. {nearest(name, self.names.get(subject[:-1], []), f'{kind}{of_owner}')}"

    @cached_property
    def names(self) -> dict[Thing, list[str]]:
        """The names of things in the office and in the workbook, by all that stands before them."""
        names: dict[Thing, list[str]] = {}
        for subject in sorted({*self.workbook.named, *self.standing.recorded}):
            names.setdefault(subject[:-1], []).append(subject[-1])
        return names

    def is_clear(self, subject: Thing) -> bool:
        """Whether it is known what the workbook says of a thing: none of its rows is one that can't be read."""
        is_readable = subject not in self.workbook.named or subject in self.readable
        return is_readable and subject[0] not in self.workbook.unclear

    @cached_property
    def readable(self) -> set[Thing]:
        """The things of the rows that can be read."""
        parts = self.workbook.parts.values()
        return {part.subject(record.values) for part in parts for record in self.workbook.records(part.table)}

    @cached_property
    def produced(self) -> set[tuple[str, str, str]]:
        """The owners, the recipes and the materials of all that is produced by the office or by the workbook."""
        things = {*self.workbook.named, *self.standing.recorded}
        of_use = (subject for subject in things if subject[0] == REQUIREMENTS.title and subject[4] == Use.PRODUCED.word)
        return {(subject[1], subject[2], subject[6]) for subject in of_use}

    def recorded(self, part: Part, record: Record, name: str, column: str, needs: Iterable[Thing]) -> None:
        """Has a row give a command whose words are its values, unless the office has its thing; notes where that has
        another value in a column."""
        recorded = self.standing.recorded.get(part.subject(record.values))
        if recorded is None:
            self.step(part, record, name, record.values.values(), needs)
        elif recorded != record.values[column]:
            self.fault(
                part, record, column, f"it is there already with {recorded}, and not with {record.values[column]}"
            )

    def step(
        self,
        part: Part,
        record: Record,
        name: str,
        words: Iterable[str],
        needs: Iterable[Thing] = (),
        makes: Thing | None = None,
        notes: Iterable[Note] = (),
    ) -> None:
        """Has a row give a command."""
        subject = part.subject(record.values) if makes is None else makes
        step = Step(part, record, LINES[name], list(words), tuple(needs), subject, tuple(notes))
        self.plan.steps.append(step)
        self.plan.new.add((part.table.title, record.row))
        for value, word in zip(step.line.values, step.words):
            if fault := step.line.form(value).fault(word):
                self.plan.faults.append(step.refused(f"{word} {fault}", value))

    def note(self, part: Part, record: Record, note: Note | None) -> None:
        """Has a row note something, if it says anything new."""
        if note:
            self.plan.notes.append(note)
            self.plan.new.add((part.table.title, record.row))

    def unsaid(self, part: Part, record: Record, known: Facts | None, note: Facts, **columns: str) -> Facts | None:
        """A note of a row without what is noted of its thing already; nothing if that is all. What is noted otherwise
        is wrong: the words that describe it change it. Members whose columns have other names are given."""
        empty = {member.name: member.default for member in fields(note) if member.default is not MISSING}
        new = dict[str, Any]()
        for member in empty:
            value, noted = getattr(note, member), getattr(known, member) if known else None
            if not value or value == noted:
                continue
            if noted:
                words = f"{shown(member, noted)} is noted of it already, and not {shown(member, value)}"
                self.fault(part, record, columns.get(member, member), words)
            else:
                new[member] = value
        return replace(note, **{**empty, **new}) if new else None


def shown(member: str, value: Any) -> str:
    """A member of a note as a message shows it."""
    if isinstance(value, tuple):
        return ", ".join(value)
    return as_measured(value, 1) if member == "allowance" else str(value)
