"""Sends an office's rows to the group, exactly once, from where the group says that it has them up to.

The group alone knows how far it is: `heads` counts a company's rows of each table with the head of their chain of
hashes, and moves in the transaction that adds the rows. So a commit whose answer was lost, a lost primary and a killed
publisher need nothing but the same beginning: the heads are read, computed of the office's rows, and it goes on. If the
office's rows don't give these heads, the office was set back, and nothing is sent until a person accepts that.
"""
import contextlib
import io
import json
import os
import time
from collections import defaultdict
from collections.abc import Callable, Iterator
from dataclasses import asdict, dataclass, field
from typing import Any

from psycopg2.errors import UniqueViolation

from hilpoven.core import files as disk
from hilpoven.core.context import Context
from hilpoven.core.failure import FAULT, REFUSED, Failure

from . import current, database, members, office as offices
from .current import Notes, Said
from .database import LOST, Connection
from .numbers import Head, first_head, line_of, text_of
from .office import Office, OfficeFile, Row
from .replica import Replica, following
from .settings import Group
from .tables import NOTES, OF_ROWS, TABLES, VERSIONS, Table, Versions

Key = tuple[int, str, str]  # the number of a file, the mark of a table, an owner
LONGEST_PAUSE = 30.0  # seconds behind a fault that lasts
LEVEL_EVERY = 10.0  # seconds between two words that there is nothing new
STATE = ".published"  # the end of the name of how far the publisher is, beside FILE
MOVE = """
WITH moved AS (
  UPDATE hg.heads AS h SET n = s.n, head = s.head, at = now() FROM stage_heads AS s
  WHERE h.office = %(office)s AND h.file = %(file)s AND h.gid = s.gid AND h.tbl = s.tbl AND h.n = s.was
    AND h.head = s.was_head RETURNING 1
), begun AS (
  INSERT INTO hg.heads (office, file, gid, tbl, owner, n, head)
  SELECT %(office)s, %(file)s, s.gid, s.tbl, s.owner, s.n, s.head FROM stage_heads AS s
  WHERE s.was = 0 AND NOT EXISTS (SELECT 1 FROM hg.heads AS h WHERE h.office = %(office)s AND h.file = %(file)s
    AND h.gid = s.gid AND h.tbl = s.tbl) RETURNING 1
)
SELECT (SELECT count(*) FROM moved) + (SELECT count(*) FROM begun), (SELECT count(*) FROM stage_heads)
"""
BEGUN = """
INSERT INTO hg.files (office, file, name) VALUES (%(office)s, %(file)s, %(name)s) ON CONFLICT DO NOTHING
"""
CONFIRMED = "SET LOCAL synchronous_commit = on"  # the commit counts once the synchronous standby has it
HEADS = "SELECT file, gid, tbl, n, head FROM hg.heads WHERE office = %s"
LEVEL = """
INSERT INTO hg.looked (office, at) VALUES (%s, clock_timestamp())
ON CONFLICT (office) DO UPDATE SET at = clock_timestamp()
"""
STAGED_HEADS = 'gid integer, tbl "char", owner text, was integer, was_head bytea, n integer, head bytea'


class Overtaken(Exception):
    """Another publisher of the office moved its heads, or a row is there already: nothing was added."""


def staged_columns(versions: Versions) -> str:
    """The columns of the table in which versions wait."""
    names = f"{versions.keys} {versions.values}".split()
    return ", ".join(f"{name} {kind}" for name, kind in zip(["gid", *names], ["integer", *versions.types.split()]))


def adding(versions: Versions) -> str:
    """SQL that adds the versions that say something else than the last ones."""
    keys, values = versions.keys.split(), versions.values.split()
    same = " AND ".join(f"x.{name} = s.{name}" for name in ["gid", *keys])
    last, new = (", ".join(f"{table}.{name}" for name in values) for table in "bs")
    return f"""
INSERT INTO hg.{versions.name} (gid, office, {', '.join(keys)}, v, {', '.join(values)})
SELECT s.gid, %(office)s, {', '.join(f's.{name}' for name in keys)}, coalesce(b.v, 0) + 1, {new}
FROM stage_{versions.name} AS s LEFT JOIN LATERAL (SELECT x.v, {', '.join(f'x.{name}' for name in values)}
  FROM hg.{versions.name} AS x WHERE x.office = %(office)s AND {same} ORDER BY x.v DESC LIMIT 1) AS b ON true
WHERE b.v IS NULL OR ({last}) IS DISTINCT FROM ({new})
"""


def latest(versions: Versions) -> str:
    """SQL: the last versions that the group has of an office."""
    keys = ", ".join(f"x.{name}" for name in ["gid", *versions.keys.split()])
    values = ", ".join(f"x.{name}" for name in versions.values.split())
    where = f"hg.{versions.name} AS x WHERE x.office = %s ORDER BY {keys}, x.v DESC"
    return f"SELECT DISTINCT ON ({keys}) {keys}, {values} FROM {where}"


ADDING = {name: adding(versions) for name, versions in VERSIONS.items()}
STAGES = {
    **{f"stage_{table.name}": f"(LIKE hg.{table.name})" for table in TABLES.values()},
    **{f"stage_{versions.name}": f"({staged_columns(versions)})" for versions in VERSIONS.values()},
    "stage_heads": f"({STAGED_HEADS})",
}


def cell_of(value: object) -> str:
    """A value in COPY's form."""
    if isinstance(value, bytes):
        return f"\\\\x{value.hex()}"
    text = text_of(value)
    return text.replace("\\", "\\\\") if "\\" in text else text


@dataclass
class State:
    """How far a publisher is, beside FILE. Times are seconds since 1970, and 0 if there is none."""

    looked: float = 0.0  # when it looked at the office last
    level: float = 0.0  # when the group had all that the office had
    rows: int = 0  # that the group has
    fault: str = ""  # what keeps it from sending


@dataclass
class Batch:
    """What is sent in one transaction: lines of COPY by the tables in which they wait, and the heads behind it."""

    file: OfficeFile
    lines: dict[str, list[str]] = field(default_factory=lambda: defaultdict(list))
    heads: dict[Key, Head] = field(default_factory=dict)
    places: dict[tuple[int, str], int] = field(default_factory=dict)
    skipped: dict[Key, int] = field(default_factory=dict)  # how many rows of an owner the group has behind a place
    count: int = 0
    is_all: bool = False


@dataclass
class SetBack:
    """Rows that the group has and the office doesn't: of an owner's table in a file, behind the last that both have."""

    key: Key
    gid: int
    kept: Head
    gone: int  # rows


@dataclass
class Progress:
    """How far the group is: its heads, up to which place of each file's tables it has all rows, how many rows of an
    owner it has behind such a place, what it had last of what the office says, and what it has otherwise since."""

    heads: dict[Key, Head] = field(default_factory=dict)
    places: dict[tuple[int, str], int] = field(default_factory=dict)
    skip: dict[Key, int] = field(default_factory=dict)
    claims: dict[str, Said] = field(default_factory=dict)
    later: dict[str, Said] = field(default_factory=dict)

    def settle(self) -> None:
        """Has what it has since be what it had last."""
        for name, versions in self.later.items():
            self.claims[name] |= versions
        self.later = {}


class Publisher:
    """Sends one office's rows."""

    def __init__(self, context: Context, group: Group, replica: Replica, tell: Callable[[str], None]) -> None:
        self.context, self.group, self.replica, self.tell = context, group, replica, tell
        self.journal = current.journal_of(context)
        self.base: Connection | None = None
        self.office: Office | None = None
        self.members: list[offices.Member] = []
        self.notes = Notes()
        self.at: Progress | None = None  # `None` if it has to be computed of the office's rows
        self.doubt: Progress | None = None  # where the group is if a commit was done whose answer was lost
        self.timeline, self.scans, self.sent, self.level_at = 0, 0, 0, 0.0
        self.state = State()
        self.is_new = True  # whether the office may have what isn't sent

    # The database

    def connect(self) -> Connection:
        """A connection, whose temporary tables go without waiting for a standby: a primary that was cut off couldn't
        end otherwise. Fails on an earlier timeline than one that was written to: the old primary, started again."""
        base = database.connect(self.group.database, f"{members.PUBLISHER}{self.group.plant}")
        try:
            timeline = int(database.value(base, "SELECT pg_walfile_name(pg_current_wal_lsn())")[:8], 16)
            if timeline < self.timeline:
                raise Overtaken(f"this server is of timeline {timeline}, and timeline {self.timeline} was written to")
            self.timeline = timeline
            database.run(base, "SET synchronous_commit = local")
            database.run(base, "SET jit = off")
            for name, columns in STAGES.items():
                database.run(base, f"CREATE TEMP TABLE {name} {columns} ON COMMIT DELETE ROWS")
            base.commit()
        except BaseException:
            base.close()
            raise
        return base

    def disconnect(self) -> None:
        """Gives the connection up."""
        if self.base is not None:
            self.base.close()
        self.base = None

    # What the office has

    def read_office(self, base: Connection) -> Office:
        """The office as its files are now, with the numbers that the group gave it and its owners."""
        rows = database.rows(base, "SELECT office, name FROM hg.offices")
        if not rows:
            why = f"the group has no office whose publisher is {members.PUBLISHER}{self.group.plant}"
            raise Failure(why, REFUSED, "`group office add` adds one")
        ((number, name),) = rows
        self.members, self.scans = self.read_members(base), self.replica.scans
        self.close_office()
        return offices.opened(number, name, self.context.file, self.replica.opened(), self.members)

    def close_office(self) -> None:
        """Closes the office's files."""
        for file in self.office.files if self.office else []:
            file.base.close()
        self.office = None

    def read_members(self, base: Connection) -> list[offices.Member]:
        """Which company each owner is."""
        return [
            (row[0], row[1], row[2])
            for row in database.rows(base, "SELECT owner, since, gid FROM hg.members ORDER BY 1, 2")
        ]

    def look(self) -> None:
        """Brings the copy of FILE, and what is known of its rows and notes, to what is there now. Behind a look at all
        of FILE, which may be another one since, everything is computed anew."""
        is_changed = self.replica.advance()
        if self.replica.scans != self.scans:
            self.at = self.doubt = None
            return
        assert self.office is not None
        if is_changed:
            before = self.office.newest.base
            self.office.newest.learn(self.replica.opened())
            before.close()
        self.is_new |= is_changed
        if self.journal and (is_changed or disk.size_of(self.journal.path) != self.notes.size):
            self.read_notes(self.office)

    def read_notes(self, office: Office) -> None:
        """Reads what the plant noted."""
        if self.journal:
            size = disk.size_of(self.journal.path)
            self.notes, self.is_new = current.read_notes(self.journal, office), True
            self.notes.size = size

    def rows(self, file: OfficeFile, mark: str, place: int = 0, most: int = -1) -> Iterator[Row]:
        """The rows of a table of the office behind a place."""
        if mark == NOTES:
            return current.rows_behind(self.notes.rows[file.number], place, most)
        return file.rows(mark, place, most)

    # Where the group is

    def resume(self) -> list[SetBack]:
        """Reads how far the group is, and computes the same of the office's rows; what the office doesn't have. A
        publisher that knows where the group is or may be computes nothing."""
        if self.base is None:
            self.base = self.connect()
        if self.at and self.office:
            theirs = self.read_heads(self.base, self.office)
            for known in filter(None, (self.at, self.doubt)):
                if theirs == known.heads:
                    known.settle()
                    self.at, self.doubt = known, None
                    self.base.commit()
                    return []
        self.at = self.doubt = None
        self.replica.advance()
        self.office = self.read_office(self.base)
        self.read_notes(self.office)
        at, theirs = Progress(), self.read_heads(self.base, self.office)
        back = [part for file in self.office.files for part in self.compute(at, file, theirs)]
        if not back:
            at.claims = {name: self.read_versions(self.base, versions) for name, versions in VERSIONS.items()}
            self.at, self.is_new = at, True
        self.base.commit()
        return back

    def read_heads(self, base: Connection, office: Office) -> dict[Key, Head]:
        """The heads that the group has of the office, but for those of no row."""
        owners = {(file.number, gid): owner for file in office.files for owner, gid in file.gids.items()}
        heads: dict[Key, Head] = {}
        for file, gid, mark, n, hash in database.rows(base, HEADS, (office.number,)):
            if (file, gid) not in owners:
                why = f"the group has rows of company {gid} in file {file}, which is none of the office's there"
                raise Failure(why, REFUSED, "is FILE the office's, with its earlier files beside it?")
            if n:
                heads[file, mark, owners[file, gid]] = Head(n, bytes(hash))
        return heads

    def read_versions(self, base: Connection, versions: Versions) -> Said:
        """What the group has last of the things that an office says something of."""
        assert self.office is not None
        width = 1 + len(versions.keys.split())
        return {row[:width]: row[width:] for row in database.rows(base, latest(versions), (self.office.number,))}

    def first(self, file: int, mark: str, owner: str) -> Head:
        """The head before the first row."""
        assert self.office is not None
        return first_head(self.office.name, file, owner, mark)

    def compute(self, at: Progress, file: OfficeFile, theirs: dict[Key, Head]) -> list[SetBack]:
        """Computes heads of a file's rows as far as the group has them, and where to go on; what the file hasn't."""
        back: list[SetBack] = []
        for mark in TABLES:
            heads = {owner: self.first(file.number, mark, owner) for owner in file.gids}
            most = {owner: theirs[key].n if (key := (file.number, mark, owner)) in theirs else 0 for owner in heads}
            is_whole, place = True, 0
            for number, owner, values in self.rows(file, mark):
                if owner not in heads:
                    place = number if is_whole else place
                elif heads[owner].n < most[owner]:
                    heads[owner] = heads[owner].with_line(line_of(values))
                    place = number if is_whole else place
                    if not is_whole:
                        at.skip[file.number, mark, owner] = at.skip.get((file.number, mark, owner), 0) + 1
                else:
                    is_whole = False
            at.places[file.number, mark] = place
            for owner, head in heads.items():
                key = file.number, mark, owner
                if head.n:
                    at.heads[key] = head
                if key in theirs and theirs[key] != head:
                    back.append(self.parted(file, mark, owner, theirs[key]))
        return back

    def parted(self, file: OfficeFile, mark: str, owner: str, theirs: Head) -> SetBack:
        """Where the group's rows of an owner part from the office's."""
        assert self.base is not None and self.office is not None
        table, gid, kept = TABLES[mark], file.gids[owner], self.first(file.number, mark, owner)
        columns = ", ".join(table.names)
        sql = f"SELECT {columns} FROM hg.{table.name} WHERE office = %s AND file = %s AND gid = %s ORDER BY n"
        own = (values for _, of_owner, values in self.rows(file, mark) if of_owner == owner)
        for group_row, own_row in zip(database.rows(self.base, sql, (self.office.number, file.number, gid)), own):
            if line_of(group_row) != line_of(own_row):
                break
            kept = kept.with_line(line_of(own_row))
        return SetBack((file.number, mark, owner), gid, kept, theirs.n - kept.n)

    def retract(self, back: list[SetBack], reason: str) -> None:
        """Has the group put aside what the office doesn't have, in one transaction; then it is computed anew where the
        group is."""
        assert self.base is not None
        database.run(self.base, CONFIRMED)
        for file in sorted({part.key[0] for part in back}):
            database.run(self.base, "SELECT hg.new_epoch(%s::smallint)", (file,))
        for part in back:
            words = part.key[0], part.gid, part.key[1], part.kept.n, part.kept.hash, reason
            database.run(self.base, 'SELECT hg.retract(%s::smallint, %s, %s::"char", %s, %s, %s)', words)
        self.base.commit()
        self.at = None

    # Sending

    def staged(self, at: Progress, file: OfficeFile) -> Batch:
        """The next rows of a file, and whether that is all."""
        batch, left = Batch(file, skipped=dict(at.skip)), self.group.chunk
        for mark, table in TABLES.items():
            place = at.places.get((file.number, mark), 0)
            for place, owner, values in self.rows(file, mark, place, left):
                left -= 1
                if owner in file.gids:
                    self.stage(at, batch, table, owner, values)
            batch.places[file.number, mark] = place
        batch.is_all = left > 0
        for key, head in batch.heads.items():
            was, owner = at.heads.get(key) or self.first(*key), key[2]
            words = file.gids[owner], key[1], owner, was.n, was.hash, head.n, head.hash
            batch.lines["stage_heads"].append("\t".join(map(cell_of, words)))
        return batch

    def stage(self, at: Progress, batch: Batch, table: Table, owner: str, values: tuple[Any, ...]) -> None:
        """Adds a row to what is sent, unless the group has it already."""
        key = batch.file.number, table.mark, owner
        if batch.skipped.get(key, 0):
            batch.skipped[key] -= 1
            return
        line = line_of(values)
        batch.heads[key] = head = (batch.heads.get(key) or at.heads.get(key) or self.first(*key)).with_line(line)
        front = f"{batch.file.gids[owner]}\t{batch.file.office}\t{batch.file.number}\t{head.n}"
        text = line.replace("\\", "\\\\") if "\\" in line else line
        batch.lines[f"stage_{table.name}"].append(f"{front}\t{text}")
        batch.count += 1

    def stage_versions(self, at: Progress, batch: Batch) -> dict[str, Said]:
        """Adds what the office says otherwise now than the group has it, which is what is given."""
        assert self.office is not None
        later: dict[str, Said] = {}
        for name, claims in current.said_by(self.office, self.notes).items():
            before, gone = at.claims[name], VERSIONS[name].gone
            new = {key: value for key, value in claims.items() if before.get(key) != value}
            new |= {key: gone for key, value in before.items() if value != gone and key not in claims}
            batch.lines[f"stage_{name}"] += ["\t".join(map(cell_of, (*key, *value))) for key, value in new.items()]
            batch.count += len(new)
            later[name] = new
        return later

    def send(self, at: Progress, batch: Batch, later: dict[str, Said]) -> Progress:
        """One transaction: the heads, which move from where they were alone, and the rows; where the group is then."""
        assert self.base is not None
        then = Progress({**at.heads, **batch.heads}, {**at.places, **batch.places}, batch.skipped, at.claims, later)
        self.doubt = then
        if batch.count:
            with self.base, self.base.cursor() as cursor:
                self.add(cursor, batch)
        then.settle()
        self.at, self.doubt = then, None
        self.sent += batch.count
        return then

    def add(self, cursor: Any, batch: Batch) -> None:
        """Adds what is sent, within a transaction."""
        cursor.execute(CONFIRMED)
        words = {"office": batch.file.office, "file": batch.file.number, "name": batch.file.name}
        cursor.execute(BEGUN, words)
        for stage, lines in batch.lines.items():
            cursor.copy_expert(
                f"COPY {stage} FROM STDIN", io.StringIO("\n".join([*lines, ""])) if lines else io.StringIO()
            )
        cursor.execute(MOVE, words)
        moved, expected = cursor.fetchone()
        if moved != expected:
            raise Overtaken(f"another publisher moved {expected - moved} of {expected} heads")
        for table in TABLES.values():
            if batch.lines.get(f"stage_{table.name}"):
                columns = f"{OF_ROWS}, {', '.join(table.names)}"
                cursor.execute(f"INSERT INTO hg.{table.name} ({columns}) SELECT {columns} FROM stage_{table.name}")
        for name, sql in ADDING.items():
            if batch.lines.get(f"stage_{name}"):
                cursor.execute(sql, words)

    def turn(self) -> int:
        """Sends all that is new; how many rows and versions that were."""
        assert self.base is not None and self.office is not None
        start, at = self.sent, self.at
        for file in self.office.files if self.is_new and at else []:
            is_all = False
            while not is_all:
                assert at is not None
                batch = self.staged(at, file)
                is_all = batch.is_all
                is_last = is_all and file is self.office.newest
                at = self.send(at, batch, self.stage_versions(at, batch) if is_last else {})
        self.is_new = False
        if self.sent != start or time.monotonic() - self.level_at >= LEVEL_EVERY:
            self.say_level(self.base, self.office)
        self.state.level = time.time()
        return self.sent - start

    def say_level(self, base: Connection, office: Office) -> None:
        """Has the group know that the office has nothing more, and looks whether owners became companies since."""
        with base:
            database.run(base, CONFIRMED)
            database.run(base, LEVEL, (office.number,))
            if self.read_members(base) != self.members:
                self.at = None
        self.level_at = time.monotonic()

    # The loop

    def step(self) -> int | None:
        """One look, with what is sent behind it; how much that was, `None` if the group or another publisher kept it
        from that. Fails if the office was set back."""
        try:
            if self.office is not None:
                self.look()
            if self.base is None or self.at is None or self.doubt is not None:
                require_level(self.resume())
            count = self.turn()
            self.note_fault("")
            return count
        except (*LOST, UniqueViolation, Overtaken) as error:
            self.disconnect()
            self.note_fault(database.first_line(error))
            return None
        finally:
            self.save()

    def note_fault(self, fault: str) -> None:
        """Tells of a fault that begins or ends."""
        if fault != self.state.fault:
            self.tell(fault or f"{self.context.file} is published again")
        self.state.fault = fault

    def save(self) -> None:
        """Notes how far it is, for `publish status`."""
        self.state.looked = time.time()
        self.state.rows = sum(head.n for head in self.at.heads.values()) if self.at else self.state.rows
        content = json.dumps(asdict(self.state)).encode()
        disk.replace(f"{self.context.file}{STATE}", content, is_lasting=False)

    def run(self) -> None:
        """Sends until a signal ends it."""
        pause = self.group.every
        while True:
            count = self.step()
            pause = self.group.every if count is not None else min(LONGEST_PAUSE, max(1.0, 2 * pause))
            time.sleep(pause)


def require_level(back: list[SetBack]) -> None:
    """Fails if the group has rows that the office doesn't, and says which."""
    if back:
        gone = sum(part.gone for part in back)
        named = [f"{part.gone:,} {TABLES[part.key[1]].name} of {part.key[2]} in file {part.key[0]}" for part in back]
        raise Failure(
            f"the office was set back: the group has {gone:,} rows that it hasn't, so nothing is sent",
            REFUSED,
            "\n".join(
                [
                    *named[:10],
                    *([f"and {len(named) - 10} more"] if len(named) > 10 else []),
                    f"if that is meant, `publish --once --accept-set-back {gone}` puts them aside in the group",
                ]
            ),
        )


def load_state(file: str) -> State | None:
    """How far a publisher says that it is; `None` if there is none."""
    try:
        with open(os.open(f"{file}{STATE}", disk.READ)) as lines:
            values = json.load(lines)
        return State(**{name: values[name] for name in asdict(State())})
    except FileNotFoundError:
        return None
    except (OSError, ValueError, KeyError, TypeError) as error:
        raise Failure(f"{file}{STATE} isn't a publisher's state: {error}", FAULT) from error


@contextlib.contextmanager
def publishing(context: Context, group: Group, tell: Callable[[str], None]) -> Iterator[Publisher]:
    """A publisher of an office, over a copy that follows its file. Each fault of the database that it can't wait out is
    a failure."""
    context.office()
    with database.failing(group.database), following(context.file, context.settings.wait) as replica:
        publisher = Publisher(context, group, replica, tell)
        try:
            yield publisher
        finally:
            publisher.disconnect()
            publisher.close_office()
