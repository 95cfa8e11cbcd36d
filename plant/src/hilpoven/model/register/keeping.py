"""Which notes of a register stand, and why others don't; and what the things that they are about are called.

New notes are looked at as they come, and those that may stand later by each reader: whose row isn't there, or whose
command has no answer. All are looked at where another office has the file's place, as behind a restore or a carry-over.

A name in a note means what the office's file had by it when the note was made, or else its newest earlier file that has
it. What went on into later files keeps its notes; another thing that has the name there has none of them.
"""
import contextlib
import heapq
import json
import os
from collections.abc import Callable, Iterator, Sequence
from dataclasses import dataclass, replace
from typing import Any, NamedTuple

from ... import HOUSE
from ...core.grammar import LINES, faults
from ...core.journal.log import Journal
from ..measures import value_of
from ..notes import (
    Corrected,
    Corrects,
    Held,
    Judgement,
    Link,
    LotFacts,
    MaterialFacts,
    MovementFacts,
    NotLinked,
    Note,
    OwnerFacts,
    Party,
    PlantLink,
    Reason,
    RecipeFacts,
    ResultFacts,
    RowsLost,
    Settled,
    TestFacts,
    UnitFacts,
    Withdrawal,
)
from ..rows import HAS_RESULT, Base, BatchId, LotId
from ..schema import IS_ACTUAL, STANDING, Disposition
from ..years import chain
from ..years.earlier import CAME_OVER, MOVE, VOIDED, move_of
from . import tables
from .file import transaction
from .meant import EXACT, NAMED, is_in, row_of
from .noted import Noted
from .tables import noted_of

HAS_TEST = "SELECT 1 FROM tests WHERE owner = ? AND material = ? AND test = ? AND low = ? AND high = ?"
IS_REJECTED = f"SELECT 1 FROM lots WHERE owner = '{HOUSE}' AND lot = ? AND disposition = {Disposition.REJECTED:d}"
IS_CANCELLED = f"SELECT 1 FROM orders WHERE owner = '{HOUSE}' AND ord = ? AND cancelled = 1"
NUMBERS = {"VALUE", "DAY", "LOW", "HIGH"}
# Which name nothing that a file has, or what all files of an office have in common.
OF_ALL_FILES = (Party, Withdrawal, RowsLost, OwnerFacts, MaterialFacts, RecipeFacts, TestFacts, UnitFacts, Settled)
NOT_IN_USE = "about a file that isn't in use"
BY_RESTORE = "its row was lost by a restore"


@dataclass(frozen=True)
class OfficeFile:
    """A file of an office: which earlier one it came from, empty for the first, and its tables."""

    after: str
    base: Base


class Fault(NamedTuple):
    """Why a note doesn't stand, empty if it does; and whether that is only because the office hasn't the row that it
    means."""

    why: str = ""
    is_lost: bool = False


@contextlib.contextmanager
def files_of(journal: Journal, newest: Base) -> Iterator[list[OfficeFile]]:
    """The files of an office, the oldest first; the newest is given."""
    came = chain.came_from(newest)
    after = ""
    with contextlib.ExitStack() as stack:
        files = []
        for part in chain.earlier_files(journal.file, came):
            files.append(OfficeFile(after, stack.enter_context(chain.reading(part.path))))
            after = part.name
        yield [*files, OfficeFile(after, newest)]


def fault_of(
    noted: Noted, note: Note, is_done: bool | None, files: Sequence[OfficeFile], lost: frozenset[str]
) -> Fault:
    """Why a note doesn't stand that nobody withdrew; `is_done` says whether `toll` did what its line asks."""
    at = next((at for at, office_file in enumerate(files) if office_file.after == noted.after), None)
    if at is None and not isinstance(note, OF_ALL_FILES):
        return Fault(NOT_IN_USE, True)
    base = files[at].base if at is not None else None
    if not noted.is_own and (fault := fault_of_command(noted, is_done, base)).why:
        return fault
    if noted.meant is None:
        return Fault("what it means can't be read")
    known = files if at is None else files[: at + 1]
    if not all(any(is_in(office_file.base, row) for office_file in reversed(known)) for row in noted.meant):
        return Fault("the row that it means isn't there", True)
    return Fault(BY_RESTORE, True) if noted.name in lost and not counts_again(note) else Fault()


def counts_again(note: Note) -> bool:
    """Whether a note that lost its row in a restore counts once the office has a row with all these values again:
    without a hold a lot would go, and without the link of a lot a recall would miss it."""
    return isinstance(note, Held) or isinstance(note, Link | PlantLink) and bool(note.lot)


def fault_of_command(noted: Noted, is_done: bool | None, base: Base | None) -> Fault:
    """Why a note doesn't stand that belongs to a command: `toll` refused that, or the office lacks what it recorded."""
    if base is None:
        return Fault(NOT_IN_USE, True)
    if is_done is False:
        return Fault("its command was refused")
    is_there = is_recorded(base, noted.words)
    if is_there is None:
        return Fault() if is_done else Fault("its command has no answer")
    return Fault() if is_there else Fault(f"its {kind_of(noted.words)} isn't there", is_done is True)


@dataclass(frozen=True)
class Recorded:
    """What a command other than a movement records: what that is called, the query that finds it, and of which of the
    command's values."""

    kind: str
    sql: str
    values: tuple[str, ...]

    def is_in(self, base: Base, values: dict[str, str]) -> bool:
        """Whether a file has it."""
        return base.execute(self.sql, [column_of(name, values[name]) for name in self.values]).fetchone() is not None


RECORDED = {
    "result": Recorded("result", HAS_RESULT, ("OWNER", "LOT", "TEST", "VALUE", "DAY")),
    "test-add": Recorded("test", HAS_TEST, ("OWNER", "MATERIAL", "TEST", "LOW", "HIGH")),
    "reject": Recorded("rejection", IS_REJECTED, ("LOT",)),
    "void": Recorded("void", VOIDED, ("OWNER", "KEY")),
    "cancel": Recorded("cancellation", IS_CANCELLED, ("ORDER",)),
}


def kind_of(words: Sequence[str]) -> str:
    """What a command records that is looked for."""
    return RECORDED[words[0]].kind if words[0] in RECORDED else "movement"


def is_recorded(base: Base, words: Sequence[str]) -> bool | None:
    """Whether a file has what a command records; `None` if it records nothing that is looked for."""
    line = LINES.get(words[0]) if words else None
    if line is None or len(words) != len(line.values) + 1:
        return None
    values = dict(zip(line.values, words[1:]))
    if line.name in RECORDED:
        return not faults(line, list(words[1:])) and RECORDED[line.name].is_in(base, values)
    row = move_of(line, values)
    return None if row is None else base.execute(MOVE, (values["OWNER"], values["KEY"])).fetchone() == row


def column_of(name: str, word: str) -> str | int:
    """A value of a line as a file has it."""
    return value_of(word) if name in NUMBERS else word


MADE = "SELECT owner, lot FROM lots WHERE owner = ? AND ord = ? AND number = ?"
# The lots that a batch took or made.
IN_BATCH = f"""
SELECT DISTINCT m.lot_owner, m.lot FROM moves AS m
WHERE m.owner = ? AND m.ord = ? AND m.number = ? AND {IS_ACTUAL} AND {STANDING}
"""
AGAIN = "SELECT called FROM again WHERE kind = ? AND file = ? AND owner = ? AND name = ?"

# What a thing of one of the files is called where the notes are read; empty if it isn't there.
Naming = Callable[[str, int, str, str], str]


def went_on(files: Sequence[OfficeFile]) -> Naming:
    """The names of an office's newest file, in which lots are that came over, and orders and keys of its own."""

    def name_there(kind: str, at: int, owner: str, name: str) -> str:
        later = files[at + 1 :]
        if kind == "lot":
            return name if all(part.base.execute(CAME_OVER, (owner, name)).fetchone() for part in later) else ""
        return "" if later else name

    return name_there


def called(whole: Base) -> Naming:
    """The names of things over all files of an office."""

    def name_there(kind: str, at: int, owner: str, name: str) -> str:
        row = whole.execute(AGAIN, (kind, at + 1, owner, name)).fetchone()
        return str(row[0]) if row else name

    return name_there


@dataclass
class Reader:
    """How notes are read: over which files, and by which names."""

    files: Sequence[OfficeFile]
    naming: Naming
    is_sure: bool = True  # whether each name since `begin` means what the note's own file has, which doesn't change

    def place(self, noted: Noted, table: str, *names: str | int) -> int | None:
        """The file that a name means in a note: the newest one up to the note's own that has the row that was meant,
        or, where the note doesn't say which, one of that name."""
        own = next(at for at, office_file in enumerate(self.files) if office_file.after == noted.after)
        row = row_of(noted.meant, table, names) if noted.meant else ()
        if row and not own:
            return own  # otherwise the note wouldn't stand
        sql, words = (EXACT[table], row[1:]) if row else (NAMED[table], names)
        at = next((at for at in range(own, -1, -1) if self.files[at].base.execute(sql, words).fetchone()), None)
        self.is_sure = self.is_sure and at == own
        return at

    def lot(self, noted: Noted, owner: str, lot: str) -> str:
        """What a lot is called."""
        at = self.place(noted, "lots", owner, lot)
        return "" if at is None else self.naming("lot", at, owner, lot)

    def key(self, noted: Noted, owner: str, key: str) -> str:
        """What the key of a movement is called."""
        at = self.place(noted, "moves", owner, key)
        return "" if at is None else self.naming("key", at, owner, key)

    def ends(self, noted: Noted, end: LotId | BatchId, lots_of: str) -> list[LotId | BatchId]:
        """What one end of a link is called: nothing if it isn't there, and of a batch of another file each lot of it
        that a query gives."""
        if isinstance(end, LotId):
            name = self.lot(noted, *end)
            return [LotId(end.owner, name)] if name else []
        at = self.place(noted, "batches", *end)
        if at is None:
            return []
        if order := self.naming("order", at, end.owner, end.order):
            return [end._replace(order=order)]
        lots = self.files[at].base.execute(lots_of, end).fetchall()
        return [LotId(owner, name) for owner, lot in lots if (name := self.naming("lot", at, owner, lot))]

    def links(self, noted: Noted, link: Link) -> Iterator[Link]:
        """A link as it is read: that of a batch of another file is one of each lot that it made there."""
        if of_lot := self.lot(noted, link.of_owner, link.of_lot):
            for container in self.ends(noted, link.container, MADE):
                yield replace(link, of_lot=of_lot, **named_as(container))

    def plant_links(self, noted: Noted, link: PlantLink) -> Iterator[PlantLink]:
        """The same of a link of the plant's. If what is contained isn't there, its owner is still told."""
        contents = self.ends(noted, link.contained, IN_BATCH)
        for container in self.ends(noted, link.container, MADE):
            of_container = replace(link, **named_as(container))
            for content in contents:
                of_content = {f"of_{name}": value for name, value in named_as(content).items()}
                yield replace(of_container, of_owner=content.owner, **of_content)
            if link.tells and not contents:
                yield replace(of_container, of_lot="", of_order="", of_batch=0)

    def read(self, noted: Noted, note: Note) -> Iterator[Note]:
        """A note that stands, as it is read: nothing if what it is about isn't there, and several links of one."""
        match note:
            case Link():
                yield from self.links(noted, note)
            case PlantLink():
                yield from self.plant_links(noted, note)
            case MovementFacts() | NotLinked():
                if key := self.key(noted, note.owner, note.key):
                    yield note if key == note.key else replace(note, key=key)
            case Corrects():
                key, of_key = self.key(noted, note.owner, note.key), self.key(noted, note.of_owner, note.of_key)
                if key and of_key:
                    yield replace(note, key=key, of_key=of_key)
            case Corrected():
                if key := self.key(noted, note.owner, note.key):
                    lots = (self.lot(noted, note.lot_owner, lot) or lot for lot in (note.lot_before, note.lot))
                    yield replace(note, key=key, **dict(zip(("lot_before", "lot"), lots)))
            case LotFacts() | ResultFacts() | Judgement():
                if lot := self.lot(noted, note.owner, note.lot):
                    yield note if lot == note.lot else replace(note, lot=lot)
            case Reason():
                if reason := self.reason(noted, note):
                    yield reason
            case _:
                yield note

    def reason(self, noted: Noted, note: Reason) -> Reason | None:
        """A reason as it is read; `None` if what it is about isn't there."""
        if note.lot:
            return replace(note, lot=lot) if (lot := self.lot(noted, note.owner, note.lot)) else None
        if note.key:
            return replace(note, key=key) if (key := self.key(noted, note.owner, note.key)) else None
        at = self.place(noted, "orders", note.owner, note.order)
        order = "" if at is None else self.naming("order", at, note.owner, note.order)
        return replace(note, order=order) if order else None


def named_as(end: LotId | BatchId) -> dict[str, Any]:
    """The members of a link that name one end of it."""
    if isinstance(end, LotId):
        return {"lot": end.name, "order": "", "batch": 0}
    return {"lot": "", "order": end.order, "batch": end.number}


# The last row of each table whose rows notes mean, by its values: no file has it that another office's was put in.
LAST_ROWS = {
    "moves": "owner, mkey, kind, lot_owner, lot, sublot, amount, day",
    "results": "owner, lot, test, number, value, day",
    "lots": "owner, lot, material, ord, number",
    "batches": "owner, ord, number, unit",
}


def last_rows(base: Base) -> list[str]:
    """The last row of each of these tables with its place, as JSON; empty where there is none."""
    queries = [
        f"SELECT json_array(rowid, {columns}) FROM {table} ORDER BY rowid DESC LIMIT 1"
        for table, columns in LAST_ROWS.items()
    ]
    return [str(row[0]) if (row := base.execute(sql).fetchone()) else "" for sql in queries]


def has_rows(base: Base, rows: Sequence[str]) -> bool:
    """Whether a file still has the rows that were its last ones."""
    return all(
        not row
        or base.execute(
            f"SELECT 1 FROM {table} WHERE rowid = ? AND json_array(rowid, {columns}) = ?", (json.loads(row)[0], row)
        ).fetchone()
        for (table, columns), row in zip(LAST_ROWS.items(), rows)
    )


def names_of(register: Base, journal: Journal) -> list[str]:
    """The names that a journal's file has had. A journal beside a file that has no note about it was copied with it, as
    that of a backup, and has those of the file that was copied."""
    ((last,),) = register.execute("SELECT file FROM folded").fetchall()
    moves = register.execute("SELECT source, target FROM moved ORDER BY place DESC").fetchall()

    def names_since(file: str) -> list[str]:
        names = {file, *([last] if last and not os.path.lexists(last) else [])}
        for source, target in moves:
            if target in names:
                names.add(source)
        return sorted(names)

    names = names_since(tables.storable(journal.file))
    is_beside = journal.path == f"{journal.file}.journal"
    about = f"SELECT 1 FROM note WHERE file IN ({', '.join('?' * len(names))}) LIMIT 1"
    return names_since(last) if is_beside and not register.execute(about, names).fetchone() else names


class Keeper:
    """Has a register keep which of its notes stand, as the files of an office are now."""

    def __init__(
        self, register: Base, files: Sequence[OfficeFile], names: Sequence[str], lost: frozenset[str] | None
    ) -> None:
        self.register, self.files, self.names = register, files, set(names)
        self.reader = Reader(files, went_on(files))
        self.lost = self.lost_last() if lost is None else lost  # the notes that lost their rows
        self.has_withdrawals = register.execute("SELECT 1 FROM withdrawal_note LIMIT 1").fetchone() is not None

    def lost_last(self) -> frozenset[str]:
        """The notes that lost their rows in the last restore, as it noted."""
        sql = f"SELECT {tables.NOTED} FROM note WHERE kind = '{RowsLost.KIND}' ORDER BY id DESC"
        for noted in map(noted_of, self.register.execute(sql).fetchall()):
            if isinstance(noted.note, RowsLost) and noted.file in self.names:
                return frozenset(noted.note.lost)
        return frozenset()

    def check(self, ids: Sequence[int]) -> None:
        """Looks whether notes stand, the newest first: one that withdraws another decides whether that one stands."""
        heap, last = [-id for id in ids], 0
        heapq.heapify(heap)
        while heap:
            id = -heapq.heappop(heap)
            if id != last:
                for withdrawn in self.check_one(id):
                    heapq.heappush(heap, -withdrawn)
            last = id

    def check_one(self, id: int) -> list[int]:
        """Looks whether a note stands; which notes are to be looked at because of that."""
        row = self.register.execute(f"SELECT {tables.NOTED}, is_done, {FOUND} FROM note WHERE id = ?", (id,)).fetchone()
        noted, is_done, before = noted_of(row[:-4]), row[-4], row[-3:]
        fault, notes = Fault(), list[Note]()
        self.reader.is_sure = True
        if noted.file in self.names:
            fault = self.fault_of(id, noted, None if is_done is None else bool(is_done))
            notes = [] if fault.why or noted.note is None else [*self.reader.read(noted, noted.note)]
        is_unanswered = not noted.is_own and is_done is None
        is_open = fault.is_lost and fault.why != NOT_IN_USE or is_unanswered or not self.reader.is_sure
        after = (fault.why, fault.is_lost, is_open) if noted.file in self.names else (None, False, False)
        if before != after:
            self.register.execute(f"UPDATE note SET ({FOUND}) = (?, ?, ?) WHERE id = ?", (*after, id))
        return self.changed(id, noted, noted.note, notes, before[0] is None) if noted.note else []

    def fault_of(self, id: int, noted: Noted, is_done: bool | None) -> Fault:
        """Why a note doesn't stand."""
        if noted.note is None:
            return Fault("can't be read")
        withdrawal = self.register.execute(WITHDRAWN, (noted.name, id)).fetchone() if self.has_withdrawals else None
        if withdrawal and withdrawal[0] == noted.note.owner and not isinstance(noted.note, Judgement):
            return Fault(f"withdrawn: {withdrawal[1]}")
        return fault_of(noted, noted.note, is_done, self.files, self.lost)

    def changed(self, id: int, noted: Noted, note: Note, notes: Sequence[Note], is_new: bool) -> list[int]:
        """Has the table of a note's kind have what is read of it, of which it has nothing yet if the note is new; the
        notes that are to be looked at because of that."""
        kind = type(note)
        rows = [tables.values_of(noted, each) for each in notes] if kind in tables.TABLES else []
        if rows == ([] if is_new else tables.rows_of(self.register, id, kind)):
            return []
        if not is_new:
            tables.remove(self.register, id, kind)
        tables.put(self.register, id, kind, rows)
        if not isinstance(note, Withdrawal):
            return []
        self.has_withdrawals = True
        sql = "SELECT id FROM note WHERE name = ? AND id < ?"
        return [withdrawn for withdrawn, in self.register.execute(sql, (note.of, id))]


FOUND = "fault, is_lost, is_open"
WITHDRAWN = "SELECT owner, reason FROM withdrawal_note WHERE of_note = ? AND note > ? ORDER BY note LIMIT 1"
NEW_LOSS = f"SELECT 1 FROM note WHERE is_open = 1 AND kind = '{RowsLost.KIND}'"


def keep(register: Base, journal: Journal, newest: Base, lost: frozenset[str] | None = None) -> None:
    """Has a register keep which notes stand of an office of whose file this is a copy. All are looked at where the file
    may be another office's, or where it is given which notes lost their rows."""
    names, came = names_of(register, journal), chain.came_from(newest)
    state = json.dumps(names), came.file if came else ""
    *known, rows = register.execute("SELECT names, after, last_rows FROM checked").fetchone()
    is_same = lost is None and tuple(known) == state and rows and has_rows(newest, json.loads(rows))
    is_same = is_same and not register.execute(NEW_LOSS).fetchone()
    ids = [id for id, in register.execute(f"SELECT id FROM note {'WHERE is_open = 1' if is_same else ''}")]
    if is_same and not ids:
        return
    with files_of(journal, newest) as files, transaction(register):
        before = register.total_changes
        if not is_same:
            forget(register)
        Keeper(register, files, names, lost).check(ids)
        if register.total_changes != before or not is_same:
            register.execute(
                "UPDATE checked SET (names, after, last_rows) = (?, ?, ?)", (*state, json.dumps(last_rows(newest)))
            )


def forget(register: Base) -> None:
    """Has a register know of no note whether it stands."""
    register.execute("UPDATE note SET fault = NULL, is_lost = 0, is_open = 1")
    for table in dict.fromkeys(tables.TABLES.values()):
        register.execute(f"DELETE FROM {table}")
