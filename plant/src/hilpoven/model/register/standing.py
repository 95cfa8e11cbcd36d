"""The notes that stand, by what they are about, and why others don't, as the register has it."""
import contextlib
from collections.abc import Callable, Iterable, Iterator, Mapping
from dataclasses import dataclass
from functools import cached_property, partial
from typing import Any, Generic, NamedTuple, TypeVar, overload

from ...core.context import Context
from ...core.journal.log import Journal
from ..kinds import Bound
from ..notes import (
    Corrects,
    Link,
    LotFacts,
    MaterialFacts,
    MovementFacts,
    NotLinked,
    Note,
    OwnerFacts,
    Party,
    PlantLink,
    Reason,
    RecipeFacts,
    ResultFacts,
    ResultId,
    Settled,
    TestFacts,
    UnitFacts,
    joined,
)
from ..rows import Base, BatchId, LotId
from ..years import chain
from ..years.history import History
from . import tables
from .file import Notes, Opened, memory
from .keeping import Reader, called, files_of, keep, names_of, went_on
from .lines import may_have_notes
from .noted import Noted
from .tables import noted_of

FEW = 20  # things of which the notes are read one by one; of more they are read all at once
HELD_ALONE = """
SELECT j.owner, j.lot FROM judgement_note AS j WHERE j.is_held = 1 AND j.is_alone = 1
AND NOT EXISTS (SELECT 1 FROM judgement_note AS x WHERE x.owner = j.owner AND x.lot = j.lot AND x.note > j.note)
"""
Key = TypeVar("Key")
Value = TypeVar("Value")
Over = Callable[[Any, Any], Any]  # what the notes of a thing say with a later one


class Things(Mapping[Key, Value]):
    """What is noted of things, by the members that name them, in the order in which they were noted first."""

    def __init__(self, opened: Opened, owner: str | None, kind: type[Note], names: tuple[str, ...], over: Over) -> None:
        self.opened, self.owner, self.kind, self.over = opened, owner, kind, over
        self.names, self.columns = names, [tables.COLUMNS.get(name, name) for name in names]
        self.few: dict[Any, Value | None] = {}  # those that were read one by one

    def read(self, words: dict[str, Any]) -> dict[Any, Value]:
        """What is noted of the things of which columns have these values."""
        things: dict[Any, Value] = {}
        for note in self.opened.read(lambda base: [*tables.read(base, self.kind, **words)]):
            names = tuple(getattr(note, name) for name in self.names)
            key = names if len(names) > 1 else names[0]
            things[key] = self.over(things.get(key), note)
        return things

    @cached_property
    def all(self) -> dict[Any, Value]:
        """All of them, which are read at once."""
        return self.read({} if self.owner is None else {"owner": self.owner})

    def __getitem__(self, key: Key) -> Value:
        if "all" in vars(self) or key not in self.few and len(self.few) == FEW:
            return self.all[key]
        if key not in self.few:
            names = key if isinstance(key, tuple) else (key,)
            is_own = self.owner in (None, names[0])
            self.few[key] = self.read(dict(zip(self.columns, names))).get(key) if is_own else None
        if (value := self.few[key]) is None:
            raise KeyError(key)
        return value

    def __iter__(self) -> Iterator[Key]:
        return iter(self.all)

    def __len__(self) -> int:
        return len(self.all)


class By(Generic[Key, Value]):
    """What a register has noted of things, by the members of their notes that name them."""

    def __init__(self, kind: type[Note], names: str, over: Over = joined) -> None:
        self.kind, self.names, self.over = kind, tuple(names.split()), over

    def __set_name__(self, _: type, name: str) -> None:
        self.name = name

    @overload
    def __get__(self, register: None, _: type) -> "By[Key, Value]":
        ...

    @overload
    def __get__(self, register: "Register", _: type) -> Mapping[Key, Value]:
        ...

    def __get__(self, register: "Register | None", _: type) -> "By[Key, Value] | Mapping[Key, Value]":
        if register is None:
            return self
        if register.opened is None:
            return {}
        things = Things[Key, Value](register.opened, register.owner, self.kind, self.names, self.over)
        vars(register)[self.name] = things
        return things


Named = tuple[str, str]  # an owner, and what a thing of it is called


class Notice(NamedTuple):
    """What an owner is told of its lot, or of the lots that its batch makes: that it contains material of another
    owner, and on which day that was noted."""

    container: LotId | BatchId
    day: int


class Register:
    """The notes of an office's file that stand: those that were withdrawn, or whose command `toll` refused, are left
    out. Each kind is read when it is asked for."""

    def __init__(self, opened: Opened | None = None, plants_test: str = "", owner: str | None = None) -> None:
        self.opened = opened  # `None` where nothing is noted
        self.plants_test = plants_test  # by which the plant signs and holds lots; empty if it has none
        self.owner = owner  # whose notes these are alone; `None` of all

    parties = By[Named, Party](Party, "owner party", lambda before, note: note.over(before))
    facts = By[Named, MovementFacts](MovementFacts, "owner key")
    owners = By[str, OwnerFacts](OwnerFacts, "owner")
    materials = By[Named, MaterialFacts](MaterialFacts, "owner material")
    units = By[str, UnitFacts](UnitFacts, "unit")
    recipes = By[Named, RecipeFacts](RecipeFacts, "owner recipe")
    tests = By[tuple[str, str, str], TestFacts](TestFacts, "owner material test")
    lots = By[Named, LotFacts](LotFacts, "owner lot")
    bounds = By[ResultId, Bound](ResultFacts, "owner lot test value day", lambda _, note: note.bound)
    corrects = By[Named, Named](Corrects, "owner key", lambda _, note: (note.of_owner, note.of_key))

    def notes(self, kind: type[Note]) -> list[Any]:
        """The notes of a kind, in the order in which they were noted."""
        words = {} if self.owner is None else {"owner": self.owner}
        return self.opened.read(lambda base: list(tables.read(base, kind, **words))) if self.opened else []

    @cached_property
    def links(self) -> list[Link]:
        """What lots contain, each link once, in the order in which they were noted."""
        return list(dict.fromkeys(self.notes(Link)))

    @cached_property
    def plant_links(self) -> list[PlantLink]:
        """What lots contain that may be another owner's, each link once. No owner gets any of it."""
        if self.owner is not None:
            return []
        links: list[PlantLink] = self.notes(PlantLink)
        return list(dict.fromkeys(link for link in links if link.of_lot or link.of_order))

    @cached_property
    def notices(self) -> list[Notice]:
        """What owners are told of their lots that contain material of another one."""
        links: list[PlantLink] = self.notes(PlantLink)
        return sorted({Notice(link.container, link.day) for link in links if link.tells}, key=str)

    @cached_property
    def reasons(self) -> list[Reason]:
        """Why commands were given, in the order in which they were noted."""
        return self.notes(Reason)

    @cached_property
    def not_linked(self) -> set[Named]:
        """Owner and key of receipts that contain no lot that was here before."""
        notes: list[NotLinked] = self.notes(NotLinked)
        return {(note.owner, note.key) for note in notes}

    @property
    def held_alone(self) -> list[LotId]:
        """The lots of which the last that quality said is a hold that is a note alone."""
        return [LotId(*lot) for lot in self.opened.rows(HELD_ALONE)] if self.opened else []

    def of(self, owner: str) -> "Register":
        """The notes of one owner, which are all that it gets."""
        return Register(self.opened, self.plants_test, owner)


@dataclass(frozen=True)
class Status:
    """A note of the journal, what it is (`None` if it can't be read), and why it doesn't stand (empty if it does)."""

    noted: Noted
    note: Note | None
    fault: str = ""
    is_lost: bool = False  # whether it would stand if the office had the row that it means


def belonging(notes: Opened, journal: Journal) -> list[Noted]:
    """The notes about a journal's file, whether they stand or not."""
    names = notes.read(lambda base: names_of(base, journal))
    sql = f"SELECT {tables.NOTED} FROM note WHERE file IN ({', '.join('?' * len(names))}) ORDER BY id"
    return [noted_of(row) for row in notes.rows(sql, tuple(names))]


def kept(journal: Journal, newest: Base) -> Notes:
    """The notes of a journal, of which it is known whether they stand, of an office of whose file this is a copy."""
    return Notes(journal, partial(keep, journal=journal, newest=newest))


def statuses(notes: Opened, *kinds: type[Note], **words: str | int) -> list[Status]:
    """Each note about an office's file, and whether it stands, in the order in which they were noted; or those of some
    kinds, of which these columns of `note` have these values."""
    where = ["fault IS NOT NULL"]
    where += [f"kind IN ({', '.join(repr(kind.KIND) for kind in kinds)})"] if kinds else []
    where += [f"{column} = ?" for column in words]
    sql = f"SELECT {tables.NOTED}, fault, is_lost FROM note WHERE {' AND '.join(where)} ORDER BY id"
    return [status_of(row) for row in notes.rows(sql, tuple(words.values()))]


def status_of(row: tables.Row) -> Status:
    """A note, and whether it stands, as the register has it."""
    noted = noted_of(row[:-2])
    return Status(noted, noted.note, row[-2], bool(row[-1]))


def read(journal: Journal, newest: Base, whole: Base | None = None) -> Register:
    """The notes that stand, of an office of whose file this is a copy, by the names there, or by those over all
    files."""
    notes = kept(journal, newest)
    if whole is None or chain.came_from(newest) is None:
        return Register(notes)
    base = memory()
    with files_of(journal, newest) as files:
        reader = Reader(files, called(whole))
        for place, status in enumerate(statuses(notes, *tables.TABLES)):
            if status.note and not status.fault:
                rows = [tables.values_of(status.noted, note) for note in reader.read(status.noted, status.note)]
                tables.put(base, place, type(status.note), rows)
    return Register(Opened(base))


def register_of(context: Context, base: Base) -> Register:
    """What the plant noted that stands, of the office of a command, of whose file these are the tables."""
    journal = context.journal()
    return Register(kept(journal, base) if may_have_notes(journal) else None, context.settings.quality.test)


def standing_over_all(journal: Journal, history: History) -> Register:
    """The notes that stand, by the names that things have over all files of an office."""
    with chain.reading(history.copy) as newest:
        return read(journal, newest, history.base)


@contextlib.contextmanager
def reader_of(journal: Journal, newest: Base, whole: Base | None) -> Iterator[Reader]:
    """How notes are read by the names of the newest file, or by those over all files."""
    with files_of(journal, newest) as files:
        yield Reader(files, went_on(files) if whole is None else called(whole))


@dataclass(frozen=True)
class Closing:
    """A settlement that is closed, and the note of it."""

    settled: Settled
    noted: Noted


def closings_in(notes: Iterable[Status], owner: str) -> list[Closing]:
    """The closed settlements of an owner, by month. Of a month that was closed twice the first one counts, and none
    that is before an earlier one."""
    closings: list[Closing] = []
    for status in notes:
        if isinstance(status.note, Settled) and not status.fault and status.note.owner == owner:
            if not closings or closings[-1].settled.month < status.note.month:
                closings.append(Closing(status.note, status.noted))
    return closings


def next_number(notes: Iterable[Status], owner: str, month: int) -> str:
    """The number of the next settlement of a month. Those that were withdrawn keep theirs."""
    taken = [
        status
        for status in notes
        if isinstance(status.note, Settled) and (status.note.owner, status.note.month) == (owner, month)
    ]
    return f"{owner}-{month:04}-{len(taken) + 1}"
