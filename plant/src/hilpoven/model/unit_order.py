"""The order in which batches held units, over all files of an office, with the cleanings between.

A unit runs one batch at a time, so the rows of a file have its batches in their order. A cleaning stands behind the
batch that its note names, or at the begin of its file.
"""
from collections import defaultdict
from collections.abc import Collection, Iterable, Sequence
from dataclasses import dataclass, field
from typing import NamedTuple

from ..core.journal import query
from ..core.journal.log import Journal
from .notes import Cleaned, Link, NoResidue
from .register.file import Notes, Opened
from .register.keeping import OfficeFile, Reader, files_of, went_on
from .register.noted import Noted
from .register.standing import Status, kept, statuses
from .rows import Base, BatchId, LotId
from .schema import IS_ACTUAL, STANDING, Role, State

BATCHES = """
SELECT b.unit, b.owner, b.ord, b.number, o.recipe, b.state, b.closed
FROM batches AS b JOIN orders AS o USING (owner, ord) ORDER BY b.rowid
"""
HAS_CLEANINGS = f"SELECT 1 FROM note WHERE kind = '{Cleaned.KIND}' AND owner <> '' LIMIT 1"
LAST = "SELECT owner, ord, number, closed FROM batches WHERE unit = ? ORDER BY rowid DESC LIMIT 1"
TAKEN = f"""
SELECT DISTINCT m.lot_owner, m.material FROM moves AS m
WHERE m.owner = ? AND m.ord = ? AND m.number = ? AND {IS_ACTUAL} AND {STANDING}
"""
MATERIAL = "SELECT owner, material FROM lots WHERE owner = ? AND lot = ?"
REQUIRED = "SELECT DISTINCT source, material FROM requirements WHERE owner = ? AND recipe = ?"
PRODUCTS = f"{REQUIRED} AND role = {Role.PRODUCED:d}"
Material = tuple[str, str]  # whose it is, and its name


class Place(NamedTuple):
    """A batch, by the number of its file among all of the office, from 1 on, and by its name there."""

    file: int
    batch: BatchId


@dataclass(frozen=True)
class Holding:
    """A batch that held a unit, and the name of its file; empty for the newest."""

    place: Place
    recipe: str
    state: State
    is_closed: bool
    file: str = ""

    @property
    def batch(self) -> BatchId:
        """The batch."""
        return self.place.batch

    def __str__(self) -> str:
        return f"{self.batch} ({self.file})" if self.file else str(self.batch)


@dataclass(frozen=True)
class Cleaning:
    """A cleaning of a unit, and the line of the journal that notes it."""

    cleaned: Cleaned
    noted: Noted


Turn = Holding | Cleaning


@dataclass
class UnitOrder:
    """What held each unit and when it was cleaned, the oldest first; which batches a person found to contain nothing of
    what their unit held before, and why; which lots notes add to batches; and over how many files of the office."""

    files: int = 0
    opened: dict[Place, str] = field(default_factory=dict)  # when batches were opened, as far as the journal has it
    turns: dict[str, list[Turn]] = field(default_factory=lambda: defaultdict(list))
    decided: dict[Place, str] = field(default_factory=dict)
    added: dict[Place, set[LotId]] = field(default_factory=lambda: defaultdict(set))

    def holdings(self, unit: str) -> list[Holding]:
        """The batches that held a unit."""
        return [turn for turn in self.turns.get(unit, []) if isinstance(turn, Holding)]

    def since_cleaning(self, unit: str) -> list[Holding]:
        """The batches that held a unit since it was cleaned last."""
        since: list[Holding] = []
        for turn in self.turns.get(unit, []):
            since = [*since, turn] if isinstance(turn, Holding) else []
        return since

    def next_ones(self, touched: Collection[Place]) -> "list[Residue]":
        """The batches that held a unit behind one of these, before it was cleaned, and are none of these."""
        residues = []
        for unit, turns in sorted(self.turns.items()):
            behind: Holding | None = None
            for turn in turns:
                if isinstance(turn, Cleaning):
                    behind = None
                elif turn.place in touched:
                    behind = turn
                elif behind:
                    residues.append(Residue(unit, turn, behind, self.decided.get(turn.place, "")))
        return residues


@dataclass(frozen=True)
class Residue:
    """A batch that may contain some of what its unit held before: the unit, the batch, the last one before it that has
    some, and why a person found that it contains none; empty while nobody did."""

    unit: str
    batch: Holding
    behind: Holding
    decided: str = ""


def has_cleanings(notes: Opened) -> bool:
    """Whether the plant noted a cleaning: from then on recalls list what may contain residues."""
    return bool(notes.rows(HAS_CLEANINGS))


def read_if_cleaned(journal: Journal, newest: Base) -> UnitOrder | None:
    """The order on all units, if the plant noted a cleaning."""
    return read(journal, newest) if has_cleanings(Notes(journal)) else None


def read(journal: Journal, newest: Base) -> UnitOrder:
    """The order on all units of an office of whose newest file this is a copy. It is read before views are made over
    that: they hold the register's file."""
    with files_of(journal, newest) as files:
        return read_over(journal, files)


def read_over(journal: Journal, files: Sequence[OfficeFile]) -> UnitOrder:
    """The same over the files of the office, the oldest first, while they are open."""
    notes = kept(journal, files[-1].base)
    return order_of(files, statuses(notes, Cleaned, NoResidue, Link, fault=""))


def read_with_times(journal: Journal, newest: Base) -> UnitOrder:
    """The same with when each batch was opened."""
    order = read(journal, newest)
    order.opened.update(opening_times(journal, order))
    return order


def opening_times(journal: Journal, order: UnitOrder) -> dict[Place, str]:
    """When batches were opened, as people read it: of each order on a unit in its turn, if the journal has as many as
    the files have."""
    asked, times = dict[str, tuple[str, ...]](), defaultdict[tuple[str, ...], list[str]](list)
    for entry in query.entries(journal.path, journal.file, texts=['"words": ["open", ', '"event": "told"']):
        words = entry.get("words")
        if entry.get("event") == "asked" and isinstance(words, list) and words[:1] == ["open"]:
            asked[str(entry.get("id"))] = tuple(map(str, words[1:]))
        elif entry.get("answer") == "accepted\n" and (opened := asked.pop(str(entry.get("of")), None)):
            times[opened].append(str(entry.get("time"))[:19].replace("T", " "))
    places: defaultdict[tuple[str, ...], list[Place]] = defaultdict(list)
    for unit in order.turns:
        for holding in order.holdings(unit):
            places[holding.batch.owner, holding.batch.order, unit].append(holding.place)
    return {
        place: time
        for words, of_order in places.items()
        if len(times[words]) == len(of_order)
        for place, time in zip(of_order, times[words])
    }


def order_of(files: Sequence[OfficeFile], noted: Iterable[Status]) -> UnitOrder:
    """The order on all units, of the files of an office, the oldest first, and of notes that stand."""
    order, reader = UnitOrder(len(files)), Reader(files, went_on(files))
    numbers = {office_file.after: number for number, office_file in enumerate(files, 1)}
    at_begin: defaultdict[tuple[int, str], list[Cleaning]] = defaultdict(list)
    behind: defaultdict[Place, list[Cleaning]] = defaultdict(list)
    for status in noted:
        number, note = numbers.get(status.noted.after, 0), status.note
        if isinstance(note, NoResidue):
            order.decided[place_of(reader, status.noted, note.of)] = note.reason
        elif isinstance(note, Link) and isinstance(note.container, BatchId):
            order.added[place_of(reader, status.noted, note.container)].add(note.contained)
        elif isinstance(note, Cleaned):
            cleaning = Cleaning(note, status.noted)
            if note.behind:
                behind[Place(number, note.behind)].append(cleaning)
            else:
                at_begin[number, note.unit].append(cleaning)
    names = [office_file.after for office_file in files[1:]] + [""]
    for number, (office_file, name) in enumerate(zip(files, names), 1):
        for (of_file, unit), cleanings in at_begin.items():
            order.turns[unit] += cleanings if of_file == number else []
        for unit, owner, ord, batch, recipe, state, is_closed in office_file.base.execute(BATCHES):
            place = Place(number, BatchId(owner, ord, batch))
            order.turns[unit].append(Holding(place, recipe, State(state), bool(is_closed), name))
            order.turns[unit] += [turn for turn in behind[place] if turn.cleaned.unit == unit]
    return order


def place_of(reader: Reader, noted: Noted, batch: BatchId) -> Place:
    """The batch that a name means in a note: that of the note's own file, or else of the newest one before it."""
    at = reader.place(noted, "batches", *batch)
    return Place(0 if at is None else at + 1, batch)


def last_on(base: Base, unit: str) -> tuple[BatchId, bool] | None:
    """The batch that a file's rows have last on a unit, and whether it is closed; `None` if they have none."""
    row = base.execute(LAST, (unit,)).fetchone()
    return (BatchId(*row[:3]), bool(row[3])) if row else None


def materials_in(base: Base, holding: Holding, added: Iterable[LotId]) -> set[Material]:
    """The materials that a batch of a file took and made, those of lots that were added to it, and those of its
    recipe."""
    taken = {*base.execute(TAKEN, holding.batch), *materials_of(base, holding.batch.owner, holding.recipe)}
    return taken.union(*(base.execute(MATERIAL, lot).fetchall() for lot in added))


def materials_of(base: Base, owner: str, recipe: str) -> set[Material]:
    """The materials that a recipe takes and makes."""
    return set(base.execute(REQUIRED, (owner, recipe)).fetchall())


def products_of(base: Base, owner: str, recipe: str) -> set[Material]:
    """The materials that a recipe makes."""
    return set(base.execute(PRODUCTS, (owner, recipe)).fetchall())
