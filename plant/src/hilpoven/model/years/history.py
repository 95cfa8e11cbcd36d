"""The tables of one office made of those of its files: what they would hold, had there been one file.

Receipts by which stock came over, and results that came with it, are left out. A lot that came over is one lot. A name
that comes again without having come over, of a lot, an order or a movement's key, is another thing: the newer one keeps
the name, and the older one is called `S-1 (office-1.db)`.
"""
import contextlib
import os
import sqlite3
from collections.abc import Callable, Iterator, Sequence
from dataclasses import dataclass

from ...core import files, snapshot
from ...core.failure import REFUSED, Failure
from ...core.office import Office
from ..notes import Place
from ..rows import Base, BatchId, LotId
from . import chain
from .chain import NOT_CARRIED, Part, address_of

Names = set[tuple[str, str, str]]  # of lots, orders and movements: the kind, the owner and the name
Reaching = Callable[[Sequence[Part]], Names | None]  # to which names what is asked may come; `None` to any
FILES = """
CREATE TABLE files (number INTEGER PRIMARY KEY, name TEXT, hash TEXT, at TEXT);
CREATE INDEX moves_by_batch ON moves (owner, ord, number, kind);
CREATE INDEX moves_by_lot ON moves (lot_owner, lot, kind);
CREATE TABLE again (kind TEXT, file INTEGER, owner TEXT, name TEXT, called TEXT, PRIMARY KEY (kind, file, owner, name));
CREATE TEMP TABLE asked (owner TEXT PRIMARY KEY) WITHOUT ROWID;
CREATE TEMP TABLE named (kind TEXT, owner TEXT, name TEXT, PRIMARY KEY (kind, owner, name)) WITHOUT ROWID;
CREATE TEMP TABLE seen (kind TEXT, owner TEXT, name TEXT, PRIMARY KEY (kind, owner, name)) WITHOUT ROWID;
CREATE TEMP TABLE over (file INTEGER, owner TEXT, lot TEXT, PRIMARY KEY (file, owner, lot)) WITHOUT ROWID;
CREATE TEMP TABLE no_moves (owner TEXT, mkey TEXT);
CREATE TEMP TABLE unbegun (file INTEGER, owner TEXT, ord TEXT, PRIMARY KEY (file, owner, ord)) WITHOUT ROWID;
"""

# The owners whose rows are read, also those that left: all, or one and HOUSE, whose lots its batches may consume.
ASKED = """
INSERT OR IGNORE INTO asked SELECT owner FROM f.owners WHERE owner = :owner OR :owner IN ('', 'HOUSE')
UNION SELECT 'HOUSE'
"""
# The rows of the file that are read: of the owners asked for, and where things are named, those of what has the names.
READ = "CREATE TEMP VIEW read_{table} AS SELECT rowid AS place, * FROM f.{table} WHERE owner IN temp.asked"
NAMED = " AND (owner, {column}) IN (SELECT owner, name FROM temp.named WHERE kind = '{kind}')"
TABLES = {
    "lot": ("lot", ("lots", "sublots", "results")),
    "order": ("ord", ("orders", "batches")),
    "key": ("mkey", ("moves", "voids")),
}
PLAIN = NOT_CARRIED.replace("carried_moves", "f.carried_moves")
# What each kind of name is, in a file, and whether it went on into the next file as what it was.
NAMES = {
    "lot": (
        "SELECT owner, lot AS name FROM read_lots",
        "EXISTS (SELECT 1 FROM over AS c WHERE c.file = :file + 1 AND c.owner = n.owner AND c.lot = n.name)",
    ),
    "order": (
        "SELECT owner, ord AS name FROM read_orders",
        "EXISTS (SELECT 1 FROM unbegun AS u WHERE u.file = :file AND u.owner = n.owner AND u.ord = n.name)",
    ),
    "key": (f"SELECT owner, mkey AS name FROM read_moves AS m WHERE {PLAIN}", "0"),
}


def called(kind: str, owner: str, name: str) -> str:
    """SQL for what a name of the file is called over all files."""
    where = f"a.kind = '{kind}' AND a.file = :file AND a.owner = {owner} AND a.name = {name}"
    return f"coalesce((SELECT a.called FROM again AS a WHERE {where}), {name})"


# Names of the file that a newer file has for another thing, or that went on as what is called otherwise there.
AGAIN = """
INSERT INTO again SELECT '{kind}', :file, n.owner, n.name,
  CASE WHEN {went_on} THEN a.called ELSE n.name || ' (' || :name || ')' END FROM ({names}) AS n
LEFT JOIN again AS a ON a.kind = '{kind}' AND a.file = :file + 1 AND a.owner = n.owner AND a.name = n.name
WHERE CASE WHEN {went_on} THEN a.called IS NOT NULL
  ELSE EXISTS (SELECT 1 FROM seen AS s WHERE s.kind = '{kind}' AND s.owner = n.owner AND s.name = n.name) END
"""
SEEN = "INSERT OR IGNORE INTO seen SELECT '{kind}', owner, name FROM ({names}) AS n"
OVER = """
INSERT OR IGNORE INTO over SELECT :file, m.owner, m.lot FROM read_moves AS m
JOIN f.carried_moves AS c USING (owner, mkey)
"""
UNBEGUN = """
INSERT INTO unbegun SELECT :file, o.owner, o.ord FROM read_orders AS o
WHERE NOT EXISTS (SELECT 1 FROM f.batches AS b WHERE b.owner = o.owner AND b.ord = o.ord)
"""

LOT, OF_LOT = called("lot", "l.owner", "l.lot"), called("lot", "m.lot_owner", "m.lot")
ORDER, KEY = called("order", "o.owner", "o.ord"), called("key", "m.owner", "m.mkey")
MADE_BY = f"CASE l.ord WHEN '' THEN '' ELSE {called('order', 'l.owner', 'l.ord')} END"
OF_BATCH = f"CASE m.ord WHEN '' THEN '' ELSE {called('order', 'm.owner', 'm.ord')} END"
COPIED = "EXISTS (SELECT 1 FROM over AS c WHERE c.file = :file AND c.owner = l.owner AND c.lot = l.lot)"
BEFORE = f"""
(SELECT coalesce(max(x.number), 0) FROM main.results AS x WHERE x.owner = l.owner AND x.lot = {LOT} AND x.test = l.test)
"""

# What each file adds, the oldest first.
ADDED = f"""
INSERT INTO orders SELECT o.owner, {ORDER}, o.recipe, o.batches, o.cancelled, :file
  FROM read_orders AS o ORDER BY o.place
  ON CONFLICT (owner, ord) DO UPDATE SET cancelled = excluded.cancelled;
INSERT INTO batches SELECT o.owner, {ORDER}, o.number, o.unit, o.state, o.closed, :file
  FROM read_batches AS o ORDER BY o.place;
INSERT INTO lots SELECT l.owner, {LOT}, l.material, {MADE_BY}, l.number, l.disposition, :file
  FROM read_lots AS l ORDER BY l.place
  ON CONFLICT (owner, lot) DO UPDATE SET disposition = excluded.disposition;
INSERT INTO sublots SELECT l.owner, {LOT}, l.sublot, l.amount
  FROM read_sublots AS l ORDER BY l.place
  ON CONFLICT (owner, lot, sublot) DO UPDATE SET amount = excluded.amount;
INSERT INTO moves SELECT m.owner, {KEY}, m.kind, m.lot_owner, {OF_LOT}, m.sublot, m.target, m.material, {OF_BATCH},
  m.number, m.segment, m.amount, m.day, :file
  FROM read_moves AS m WHERE {PLAIN} ORDER BY m.place;
INSERT INTO voids SELECT m.owner, {KEY} FROM read_voids AS m ORDER BY m.place;
CREATE TEMP TABLE added AS SELECT l.owner, {LOT} AS lot, l.test, l.number, {BEFORE} AS before, {COPIED} AS copied,
  l.value, l.day FROM read_results AS l ORDER BY l.place;
INSERT INTO results SELECT owner, lot, test, before + number - (copied AND before > 0), value, day, :file FROM added
  WHERE NOT (copied AND before > 0 AND number = 1) ORDER BY rowid;
DROP TABLE added"""
# Tables of which the newest file has all rows, and those that lack there the rows of owners that left; no key is read.
# A lot of an owner that left and came back may be of a material that it doesn't have now.
KEPT = {"meta": "*", "units": "*"}
NEW_OWNER = " WHERE owner NOT IN (SELECT owner FROM main.owners) AND (owner <> 'HOUSE' OR :is_newest)"
OF_OWNERS = {"tests": NEW_OWNER, "recipes": NEW_OWNER, "requirements": NEW_OWNER, "materials": ""}
OWNERS = "INSERT OR IGNORE INTO owners SELECT owner, '' FROM f.owners ORDER BY rowid"
NUMBERED = ("orders", "batches", "lots", "moves", "results")  # tables that say in which file a row came


def merge(base: Base, parts: Sequence[Part], owner: str = "", names: Names | None = None) -> None:
    """Makes the tables of one office of those of its files, the oldest of which is the first. What is asked about one
    owner other than HOUSE needs only its rows and HOUSE's, and a recall those of the names that it may come to."""
    with file_as_f(base, parts[-1]):
        tables = dict(base.execute("SELECT name, sql FROM f.sqlite_master WHERE type = 'table'").fetchall())
    for name in ("owners", *KEPT, *OF_OWNERS, *NUMBERED, "sublots", "voids"):
        base.execute(tables[name])
    for name in NUMBERED:
        base.execute(f"ALTER TABLE {name} ADD COLUMN file INTEGER")
    base.executescript(FILES)
    base.executemany("INSERT INTO temp.named VALUES (?, ?, ?)", names or ())
    for kind, (column, tables_of_kind) in TABLES.items():
        for name in tables_of_kind:
            base.execute(READ.format(table=name) + ("" if names is None else NAMED.format(column=column, kind=kind)))
    for part in parts:
        run_over(base, part, [ASKED], owner)
    for part in reversed(parts):
        later = [
            sql.format(kind=kind, names=rows, went_on=went_on)
            for kind, (rows, went_on) in NAMES.items()
            for sql in (AGAIN, SEEN)
        ]
        run_over(base, part, [OVER, UNBEGUN, *later])
    for part in parts:
        base.execute("INSERT INTO files VALUES (?, ?, ?, ?)", (part.number, part.name, part.hash, part.at))
        run_over(base, part, ADDED.split(";\n"))
    kept = [f"INSERT INTO {table} SELECT {columns} FROM f.{table} ORDER BY rowid" for table, columns in KEPT.items()]
    run_over(base, parts[-1], kept)
    definitions = [
        f"INSERT OR IGNORE INTO {table} SELECT * FROM f.{table}{where} ORDER BY rowid"
        for table, where in OF_OWNERS.items()
    ]
    for part in reversed(parts):
        run_over(base, part, [*definitions, OWNERS], is_newest=part == parts[-1])


@contextlib.contextmanager
def file_as_f(base: Base, part: Part) -> Iterator[None]:
    """Has a file as `f`."""
    base.execute("ATTACH ? AS f", (address_of(part.path),))
    try:
        yield
    finally:
        base.execute("DETACH f")


def run_over(base: Base, part: Part, statements: list[str], owner: str = "", is_newest: bool = False) -> None:
    """Runs statements with a file as `f`. The first file has no table of receipts that carried stock: it has none."""
    words = {"file": part.number, "name": part.name, "owner": owner, "is_newest": is_newest}
    with file_as_f(base, part):
        has_carried = base.execute("SELECT 1 FROM f.sqlite_master WHERE name = 'carried_moves'").fetchone()
        with base:
            for sql in statements:
                base.execute(sql if has_carried else sql.replace("f.carried_moves", "no_moves"), words)


PLACES_OF_ONE = "SELECT 1, ord, number, ord FROM batches WHERE owner = ?"
PLACES = """
SELECT b.file, coalesce((SELECT a.name FROM again AS a
  WHERE a.kind = 'order' AND a.file = b.file AND a.owner = b.owner AND a.called = b.ord), b.ord), b.number, b.ord
FROM batches AS b WHERE b.owner = ?
"""


@dataclass(frozen=True)
class History:
    """What all files of an office hold, and which files these are."""

    base: sqlite3.Connection
    parts: list[Part]
    copy: str  # of the newest file

    @property
    def is_one(self) -> bool:
        """Whether the office never left its first file."""
        return len(self.parts) == 1

    def sources(self) -> list[str]:
        """A line for each file that was read, with its hash."""
        return [
            f"read {part.name}, sha256 {part.hash}{f', carried over {part.at}' if part.at else ''}"
            for part in self.parts
        ]

    def lot(self, owner: str, lot: str, file: str = "") -> LotId:
        """The lot that a file has by this name; of all files the newest one. Fails if there is none."""
        if file:
            part = next((part for part in self.parts if part.name == os.path.basename(file)), None)
            if part is None:
                names = ", ".join(part.name for part in self.parts)
                raise Failure(f"{file} is none of the files", REFUSED, f"there are: {names}")
            sql = "SELECT called FROM again WHERE kind = 'lot' AND file = ? AND owner = ? AND name = ?"
            row = self.base.execute(sql, (part.number, owner, lot)).fetchone()
            lot = row[0] if row else lot
        if not self.base.execute("SELECT 1 FROM lots WHERE owner = ? AND lot = ?", (owner, lot)).fetchone():
            raise Failure(f"there is no lot {lot} of {owner} in any file", REFUSED)
        return LotId(owner, lot)

    def file_of(self, lot: LotId) -> str:
        """The name of the file in which a lot came."""
        ((number,),) = self.base.execute("SELECT file FROM lots WHERE owner = ? AND lot = ?", lot).fetchall()
        return self.parts[int(number) - 1].name

    def namesakes(self, lot: LotId) -> list[str]:
        """Other lots that had its name, which came again without having come over."""
        plain = lot.name.split(" ")[0]
        sql = "SELECT lot FROM lots WHERE owner = ? AND (lot = ? OR lot LIKE ? || ' (%') AND lot <> ? ORDER BY file"
        return [name for name, in self.base.execute(sql, (lot.owner, plain, plain, lot.name))]


def parts_of(file: str, newest: sqlite3.Connection, copy: str, hash: str) -> list[Part]:
    """The files of an office, the oldest first; the newest is given with a copy that nobody writes. Fails unless each
    earlier one is the one that was carried over, byte for byte."""
    files = chain.earlier_files(file, chain.came_from(newest))
    chain.require_unchanged(files)
    return [*files, Part(len(files) + 1, os.path.basename(file), copy, hash)]


def places_of(base: sqlite3.Connection, owner: str, is_one: bool) -> dict[BatchId, Place]:
    """The number of the file in which each batch of an owner is, and its order there, which may have another name over
    all files; `is_one` where these are the tables of the only file."""
    rows = base.execute(PLACES_OF_ONE if is_one else PLACES, (owner,))
    return {BatchId(owner, called, number): (file, order, number) for file, order, number, called in rows}


@contextlib.contextmanager
def merged(parts: list[Part], owner: str = "", names: Names | None = None) -> Iterator[sqlite3.Connection]:
    """The tables of one office made of those of its files, for what is asked about one owner, or about all, or of what
    has these names. They are in no file that has a name."""
    with contextlib.closing(sqlite3.connect("", uri=True)) as base:
        try:
            merge(base, parts, owner, names)
        except sqlite3.Error as error:
            raise Failure(f"the files of {parts[-1].name} can't be read together: {error}") from error
        yield base


@contextlib.contextmanager
def opened(office: Office, owner: str = "", reaching: Reaching | None = None) -> Iterator[History]:
    """Reads all files of an office, for what is asked about one owner, about all, or about what may be reached."""
    with snapshot.copied(office) as copy:
        snapshot.settle(copy)
        with chain.reading(copy) as newest:
            snapshot.require_office(newest, office.file)
            parts = parts_of(office.file, newest, copy, files.hash_of(copy))
        with merged(parts, owner, reaching(parts) if reaching else None) as base:
            yield History(base, parts, copy)
