"""The tables of a register: each note of the journal with its line, and those that stand as typed rows.

`note` has all. The other tables have the notes of a kind that stand, by the names that things have in the office's
newest file, so that what is noted of a thing is found by an index. Their columns are the members of the notes; what
quality says has `is_alone` where `toll` has nothing of it.
"""
import hashlib
import json
from collections.abc import Iterable, Iterator
from dataclasses import fields
from typing import Any

from ..notes import KINDS, Held, Judgement, Link, Note, PlantLink
from .meant import rows_in
from .noted import LISTS, WORDS, Noted, to_json
from ..rows import Base

MARK = 0x48504C4E  # the number by which SQLite knows whose file it is
OF_JOURNAL = (
    # How far the journal was read: where its last line begins and ends, that line's hash, and the file it is about.
    "CREATE TABLE folded (start INTEGER NOT NULL, stop INTEGER NOT NULL, hash TEXT NOT NULL, file TEXT NOT NULL) "
    "STRICT",
    # Where the office's file was, in the order in which it was moved.
    "CREATE TABLE moved (place INTEGER PRIMARY KEY, source TEXT NOT NULL, target TEXT NOT NULL) STRICT",
    # With what it was found which notes stand: the names that the file has had, the earlier file that it came from, and
    # the last rows that it had then, which no file has that was restored since.
    "CREATE TABLE checked (names TEXT NOT NULL, after TEXT NOT NULL, last_rows TEXT NOT NULL) STRICT",
    """CREATE TABLE note (
  id INTEGER PRIMARY KEY, -- in the order of the journal
  name TEXT NOT NULL UNIQUE, -- of its line, and behind a point which one of the line it is, from 2 on
  line TEXT NOT NULL, -- the name of its line
  time TEXT NOT NULL,
  who TEXT NOT NULL,
  file TEXT NOT NULL, -- that its line is about
  after TEXT NOT NULL, -- the earlier file that this one had come from; empty for the first
  words TEXT NOT NULL, -- of its command, as JSON
  is_own INTEGER NOT NULL, -- 1 if its line asks nothing of `toll`
  is_done INTEGER, -- 1 if `toll` did what its line asks, 0 if it refused; NULL while that isn't known
  kind TEXT NOT NULL,
  owner TEXT NOT NULL, -- empty of one that can't be read
  subject TEXT NOT NULL, -- a hash of what it is about, if the last note of that counts, and otherwise of what it says
  value TEXT NOT NULL, -- what it says, as JSON
  meant TEXT, -- the rows that it means, as JSON; NULL if its line has what are none
  fault TEXT, -- why it doesn't stand, empty if it does; NULL while nobody looked, and of another file's
  is_lost INTEGER NOT NULL DEFAULT 0, -- 1 if it would stand if the office had the row that it means
  is_open INTEGER NOT NULL DEFAULT 1 -- 1 if it is looked at again by the next reader
) STRICT""",
    "CREATE INDEX note_by_line ON note (line) WHERE is_own = 0",
    "CREATE INDEX note_by_kind ON note (kind, owner)",
    "CREATE INDEX note_by_subject ON note (subject)",
    "CREATE INDEX note_open ON note (id) WHERE is_open = 1",
)
# The table of each kind whose standing notes are rows; drills and settlements are read from `note`.
TABLES = {kind: kind.TABLE for kind in KINDS.values() if kind.TABLE}
INDEXES = (
    "CREATE INDEX party_by_name ON party_note (owner, party)",
    "CREATE INDEX owner_by_name ON owner_note (owner)",
    "CREATE INDEX material_by_name ON material_note (owner, material)",
    "CREATE INDEX recipe_by_name ON recipe_note (owner, recipe)",
    "CREATE INDEX test_by_name ON test_note (owner, material, test)",
    "CREATE INDEX lot_by_name ON lot_note (owner, lot)",
    "CREATE INDEX result_by_name ON result_note (owner, lot, test, value, day)",
    "CREATE INDEX movement_by_key ON movement_note (owner, mkey)",
    "CREATE INDEX unlinked_by_key ON unlinked_note (owner, mkey)",
    "CREATE INDEX corrects_by_key ON corrects_note (owner, mkey)",
    "CREATE INDEX corrected_by_key ON corrected_note (owner, mkey)",
    "CREATE INDEX link_by_note ON link_note (note)",
    "CREATE INDEX link_by_container ON link_note (owner, lot, ord, number)",
    "CREATE INDEX link_by_contained ON link_note (of_owner, of_lot)",
    "CREATE INDEX plant_link_by_owner ON plant_link_note (owner)",
    "CREATE INDEX unit_by_name ON unit_note (unit)",
    "CREATE INDEX judgement_by_lot ON judgement_note (owner, lot)",
    "CREATE INDEX withdrawal_by_note ON withdrawal_note (of_note)",
    "CREATE INDEX reason_by_owner ON reason_note (owner)",
)
TYPES: dict[Any, str] = {int: "INTEGER NOT NULL", bool: "INTEGER NOT NULL", int | None: "INTEGER"}
TEXT = "TEXT NOT NULL"  # the type of all other members
COLUMNS = {"key": "mkey", "order": "ord", "batch": "number", "of": "of_note"}  # of members that have another name
NOTED = "name, line, time, who, file, after, words, is_own, value, meant"  # what the journal says of a note
Row = tuple[Any, ...]


def make(base: Base) -> None:
    """Makes the tables, empty."""
    for sql in SCHEMA:
        base.execute(sql)
    base.execute("INSERT INTO folded VALUES (0, 0, '', '')")
    base.execute("INSERT INTO checked VALUES ('', '', '')")
    base.execute(f"PRAGMA application_id = {MARK}")


def storable(text: str) -> str:
    """A text as SQLite can have it: half a character, which JSON can say, is escaped."""
    return text if text.isascii() else text.encode("utf-8", "backslashreplace").decode()


def subject_of(note: Note) -> str:
    """A hash of what a note is about, if the last note of that counts, and otherwise of what it says."""
    members = list(note.subject) if note.SUBJECT else to_json(note)
    return hashlib.blake2b(json.dumps([note.KIND, members]).encode(), digest_size=8).hexdigest()


def add(base: Base, noted: Noted) -> None:
    """Adds a note of the journal; the first one of a name stays."""
    note = noted.note
    row = (
        *map(storable, (noted.name, noted.line, noted.time, noted.who, noted.file, noted.after)),
        json.dumps(noted.words),
        noted.is_own,
        json.dumps(noted.value),
        None if noted.meant is None else json.dumps(noted.meant),
        storable(noted.kind),
        note.owner if note else "",
        subject_of(note) if note else "",
        None if noted.is_own else noted.line,
    )
    base.execute(ADD, row)


ADD = f"""
INSERT OR IGNORE INTO note ({NOTED}, kind, owner, subject, is_done)
VALUES ({', '.join('?' * 13)}, (SELECT is_done FROM note WHERE line = ? AND is_own = 0 LIMIT 1))
"""


def noted_of(row: Row) -> Noted:
    """The note that a row has in the columns of `NOTED`."""
    name, line, time, who, file, after, words, is_own, value, meant = row
    rows = None if meant is None else rows_in(json.loads(meant))
    return Noted(name, line, time, who, file, after, tuple(json.loads(words)), bool(is_own), json.loads(value), rows)


class Columns:
    """How the members of a kind of note stand in its table: the columns for a query, and SQL that adds a row of a
    note's number, its members, and of a judgement what else its table has."""

    def __init__(self, table: str, kind: type[Note]) -> None:
        self.table, self.members = table, tuple(member.name for member in fields(kind))
        self.names = ", ".join(COLUMNS.get(member, member) for member in self.members)
        self.all = self.names + (", is_held, is_alone" if table == "judgement_note" else "")
        places = ", ".join("?" * (self.all.count(",") + 2))
        self.insert = f"INSERT INTO {table} (note, {self.all}) VALUES ({places})"
        typed = [f"{COLUMNS.get(member.name, member.name)} {TYPES.get(member.type, TEXT)}" for member in fields(kind)]
        typed += ["is_held INTEGER NOT NULL", "is_alone INTEGER NOT NULL"] if table == "judgement_note" else []
        # one note of an earlier file's batch is a row for each of its lots that came over
        key = "note INTEGER NOT NULL" if table in (Link.TABLE, PlantLink.TABLE) else "note INTEGER PRIMARY KEY"
        self.create = f"CREATE TABLE {table} ({', '.join([key, *typed])}) STRICT"


COLUMNS_OF = {kind: Columns(table, kind) for kind, table in TABLES.items()}
# The tables and indexes of a register, by what makes each.
SCHEMA = (*OF_JOURNAL, *dict.fromkeys(columns.create for columns in COLUMNS_OF.values()), *INDEXES)


def values_of(noted: Noted, note: Note) -> Row:
    """What stands of a note in its table, behind its number."""
    members = (getattr(note, member) for member in COLUMNS_OF[type(note)].members)
    judged = (isinstance(note, Held), noted.is_own) if isinstance(note, Judgement) else ()
    return *(" ".join(value) if isinstance(value, tuple) else value for value in members), *judged


def put(base: Base, id: int, kind: type[Note], rows: Iterable[Row]) -> None:
    """Adds these rows of a note to the table of its kind."""
    for row in rows:
        base.execute(COLUMNS_OF[kind].insert, (id, *row))


def remove(base: Base, id: int, kind: type[Note]) -> None:
    """Removes the rows of a note from the table of its kind."""
    if kind in TABLES:
        base.execute(f"DELETE FROM {TABLES[kind]} WHERE note = ?", (id,))


def rows_of(base: Base, id: int, kind: type[Note]) -> list[Row]:
    """The rows that the table of its kind has of a note."""
    if kind not in TABLES:
        return []
    sql = f"SELECT {COLUMNS_OF[kind].all} FROM {TABLES[kind]} WHERE note = ? ORDER BY rowid"
    return base.execute(sql, (id,)).fetchall()


def read(base: Base, kind: type[Note], **names: str | int) -> Iterator[Note]:
    """The notes of a kind that stand, of which these columns have these values, the oldest first; fails with ValueError
    if a row can't be one."""
    columns = COLUMNS_OF[kind]
    where = " AND ".join(f"{name} = ?" for name in names) or "1"
    sql = f"SELECT {columns.names} FROM {columns.table} WHERE {where} ORDER BY note, rowid"
    for row in base.execute(sql, tuple(names.values())).fetchall():
        yield kind(*map(read_member, columns.members, row))


def require_readable(base: Base) -> None:
    """Fails with ValueError unless all rows of the notes that stand can be read: their tables and indexes are whole,
    and what is a word of a list is one."""
    for columns in {columns.table: columns for columns in COLUMNS_OF.values()}.values():
        for (fault,) in base.execute(f"PRAGMA quick_check({columns.table})").fetchall():
            if fault != "ok":
                raise ValueError(fault)
        for member in columns.members:
            if member in WORDS or member in LISTS:
                for (value,) in base.execute(f"SELECT DISTINCT {member} FROM {columns.table}").fetchall():
                    read_member(member, value)


def read_member(name: str, value: Any) -> Any:
    """A member of a note, as its column has it."""
    if name in LISTS:
        return tuple(map(LISTS[name], value.split()))
    return WORDS[name](value) if name in WORDS else value
