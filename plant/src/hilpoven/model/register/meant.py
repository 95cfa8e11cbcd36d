"""Which rows of the office a note means, by the values that tell each of them from another row of its name.

A name comes again: behind a restore `--key next` gives the key of a shipment that was lost, and the name of a lost lot
is free. So the line of a note has the rows that were meant, and the note is about no others. What the words of its
command record isn't said again. Owners, parties, materials and recipes are known by their names alone.
"""
from collections.abc import Iterator, Sequence
from dataclasses import dataclass, field
from typing import Any, NamedTuple

from ..notes import (
    CaseStart,
    Cleaned,
    Corrected,
    CorrectionAsked,
    Corrects,
    DrillStart,
    Judgement,
    Link,
    LotFacts,
    MovementFacts,
    NoResidue,
    NotLinked,
    Note,
    PlantLink,
    Reason,
    ResultFacts,
    TestFacts,
)
from ..schema import MOVE_COLUMNS
from ..rows import Base, BatchId, LotId

Names = tuple[str | int, ...]
Row = tuple[str | int, ...]  # its table, its names, and its other values
MEANT = "meant"  # the member of a line: of each of its notes, the rows that it means
MOST_ROWS = 6  # that a note means
NUMBERS = {"kind", "number", "segment", "amount", "day", "batches", "low", "high"}  # the columns that aren't texts


class Columns(NamedTuple):
    """The columns by which a note names a row of a table, and others whose values never change."""

    names: tuple[str, ...]
    values: tuple[str, ...]

    @property
    def all(self) -> str:
        """All of them, for a query."""
        return ", ".join([*self.names, *self.values])


TABLES = {
    "moves": Columns(("owner", "mkey"), tuple(MOVE_COLUMNS.split(", "))),
    "lots": Columns(("owner", "lot"), ("material", "ord", "number")),
    "orders": Columns(("owner", "ord"), ("recipe", "batches")),
    "batches": Columns(("owner", "ord", "number"), ("unit",)),
    "tests": Columns(("owner", "material", "test"), ("low", "high")),
}


def where(columns: Sequence[str]) -> str:
    """SQL: these columns have the values that are given."""
    return " AND ".join(f"{column} = ?" for column in columns)


NAMED = {table: f"SELECT 1 FROM {table} WHERE {where(columns.names)}" for table, columns in TABLES.items()}
EXACT = {
    table: f"SELECT 1 FROM {table} WHERE {where((*columns.names, *columns.values))}"
    for table, columns in TABLES.items()
}
HAS_LOT, HAS_BATCH, HAS_KEY = NAMED["lots"], NAMED["batches"], NAMED["moves"]
TYPES = {
    table: [str, *(int if column in NUMBERS else str for column in (*columns.names, *columns.values))]
    for table, columns in TABLES.items()
}


def rows_in(value: Any) -> tuple[Row, ...] | None:
    """The rows of a note in a line of the journal; `None` if they are none."""
    if not isinstance(value, list) or len(value) > MOST_ROWS:
        return None
    rows = tuple(tuple(row) for row in value if isinstance(row, list) and is_row(row))
    return rows if len(rows) == len(value) else None


def is_row(row: list[Any]) -> bool:
    """Whether these may be the table and the values of a row."""
    types = TYPES.get(row[0]) if row and isinstance(row[0], str) else None
    return types is not None and [type(value) for value in row] == types


def is_in(base: Base, row: Row) -> bool:
    """Whether a file has a row with all its values. It has none with a value that SQLite can't have."""
    try:
        return base.execute(EXACT[str(row[0])], row[1:]).fetchone() is not None
    except (OverflowError, UnicodeError):
        return False


def row_of(rows: Sequence[Row], table: str, names: Names) -> Row:
    """The row of these names that was meant; empty where nothing says which one was."""
    return next((row for row in rows if row[0] == table and row[1 : 1 + len(names)] == names), ())


FEW = 4  # lots whose first movements are looked for one by one
READ = {table: f"SELECT {columns.all} FROM {table} WHERE {where(columns.names)}" for table, columns in TABLES.items()}
FIRST_MOVE = f"SELECT {TABLES['moves'].all} FROM moves WHERE lot_owner = ? AND lot = ? ORDER BY rowid LIMIT 1"
FIRST_MOVES = f"SELECT lot_owner, lot, min(rowid), {TABLES['moves'].all} FROM moves GROUP BY lot_owner, lot"


def named_by(note: Note) -> Iterator[tuple[str, Names]]:
    """What a note names: the table of each row, and its names there."""
    match note:
        case MovementFacts() | NotLinked():
            yield "moves", (note.owner, note.key)
        case Corrects():
            yield "moves", (note.owner, note.key)
            yield "moves", (note.of_owner, note.of_key)
        case Link() | PlantLink():
            yield from named_end(note.container)
            yield from named_end(note.contained)
        case NoResidue():
            yield from named_end(note.of)
        case Cleaned():
            yield from named_end(note.behind) if note.behind else ()
        case Corrected() | CorrectionAsked():
            yield "moves", (note.owner, note.key)
        case CaseStart():
            yield from named_end(note.start)
        case Reason():
            yield from named_reason(note)
        case LotFacts() | ResultFacts() | Judgement() | DrillStart():
            yield "lots", (note.owner, note.lot)
        case TestFacts():
            yield "tests", (note.owner, note.material, note.test)


def named_end(end: LotId | BatchId) -> Iterator[tuple[str, Names]]:
    """What one end of a link names: a lot, or a batch with its order."""
    if isinstance(end, LotId):
        yield "lots", tuple(end)
    else:
        yield "orders", (end.owner, end.order)
        yield "batches", tuple(end)


def named_reason(reason: Reason) -> Iterator[tuple[str, Names]]:
    """What a reason is about."""
    if reason.lot:
        yield "lots", (reason.owner, reason.lot)
    elif reason.key:
        yield "moves", (reason.owner, reason.key)
    else:
        yield "orders", (reason.owner, reason.order)
        if reason.batch:
            yield "batches", (reason.owner, reason.order, reason.batch)


@dataclass
class RowReader:
    """Reads the rows that notes mean in the files of an office, the newest first."""

    bases: Sequence[Base]
    asked: int = 0  # how many first movements were looked for
    first: dict[int, dict[Names, Row]] = field(default_factory=dict)  # movements of lots, by the place of a file

    def rows(self, note: Note) -> list[Row]:
        """The rows that a note means, as far as they are there already; of a lot also its first movement."""
        return [row for table, names in named_by(note) for row in self.read(table, names)]

    def read(self, table: str, names: Names) -> Iterator[Row]:
        """The row of these names in the newest file that has it."""
        for at, base in enumerate(self.bases):
            if row := base.execute(READ[table], names).fetchone():
                yield (table, *row)
                if table == "lots" and (move := self.first_move(at, names)):
                    yield ("moves", *move)
                return

    def first_move(self, at: int, lot: Names) -> Row:
        """The first movement of a lot. Of many lots all movements are read once: they have no index by lots."""
        self.asked += 1
        if self.asked <= FEW:
            return tuple(self.bases[at].execute(FIRST_MOVE, lot).fetchone() or ())
        if at not in self.first:
            rows = self.bases[at].execute(FIRST_MOVES)
            self.first[at] = {(owner, name): tuple(row) for owner, name, _, *row in rows}
        return self.first[at].get(lot, ())
