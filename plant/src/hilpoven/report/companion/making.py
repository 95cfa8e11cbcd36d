"""What an owner's companion is made of, in a few letters: it is made anew where they changed."""
import contextlib
import gc
import hashlib
import json
import os
import time
from collections.abc import Callable, Iterator
from dataclasses import asdict, dataclass
from typing import Any

from ... import VERSION
from ...care.health import Age
from ...core import settings as site
from ...core import snapshot
from ...core.context import Context
from ...core.office import Office
from ...model.register.keeping import has_rows, last_rows
from ...model.register.standing import Register, register_of
from ...model.register.tables import TABLES
from ...model.rows import Base, owners_of
from ...model.years.chain import came_from
from ..papers import copies
from . import days
from .contents import contents_of, subjects
from .folder import MARK, READABLE, Folder, name_of, opened

# Tables in which no row changes and none goes, so that an owner's last row tells whether it has others since.
APPENDED = ("materials", "tests", "recipes", "requirements", "moves", "results", "voids")
# Of each owner what changes in the rows of others, none of which goes. A sublot holds what movements come to.
CHANGING = tuple(
    f"SELECT owner, group_concat({changed}) FROM {table} GROUP BY owner"
    for table, changed in {
        "orders": "cancelled, ''",
        "batches": "state * 2 + closed",
        "lots": "disposition, ''",
    }.items()
)
# Which notes of each owner stand. What one says never changes.
NOTES = tuple(
    f"SELECT owner, group_concat(note) FROM (SELECT owner, note FROM {table} ORDER BY note) GROUP BY owner"
    for table in dict.fromkeys(TABLES.values())
)


@dataclass(frozen=True)
class Rows:
    """How far an office's tables were read: their last rows by their values, and each owner's last row in each table of
    `APPENDED` by its number."""

    last: list[str]
    of_owners: dict[str, dict[str, int]]


def read_on(base: Base, before: Rows) -> Rows:
    """The same of a copy of the file, of which only the rows are read that are behind those of before, if it still has
    these: behind a restore all are."""
    known = before.of_owners if has_rows(base, before.last) else {}
    return Rows(last_rows(base), {table: last_of_owners(base, table, known.get(table, {})) for table in APPENDED})


def last_of_owners(base: Base, table: str, known: dict[str, int]) -> dict[str, int]:
    """Each owner's last row in a table, of which some are known."""
    sql = f"SELECT owner, max(rowid) FROM {table} NOT INDEXED WHERE rowid > ? GROUP BY owner"
    return known | dict(base.execute(sql, (max(known.values(), default=0),)).fetchall())


def stamps_of(
    base: Base, register: Register, rows: Rows, days_of: dict[str, days.OwnDays], made_of: Any
) -> dict[str, str]:
    """The stamp of each owner: of its rows, its notes and its days, and of what all companions are made of. A file that
    replaces the office's has another number, which is to be in that."""
    begun = repr((made_of, register.plants_test)).encode()
    digests = {owner: hashlib.sha256(begun + repr(own).encode()) for owner, own in days_of.items()}
    notes = register.opened.rows if register.opened else None
    changing = *((sql, base.execute(sql)) for sql in CHANGING), *((sql, notes(sql)) for sql in NOTES if notes)
    for subject, values in (*changing, *((table, last.items()) for table, last in rows.of_owners.items())):
        for owner, value in values:
            if owner in digests:
                digests[owner].update(repr((subject, value)).encode())
    return {owner: digest.hexdigest() for owner, digest in digests.items()}


UNSETTLED = -1, -1, -1  # of a file that changes just now: another change may not show in its stamp
FRONT = '{{"made":"{}",'  # of each companion: since when it says what it says
FRONT_BYTES = len(FRONT.format("2026-11-28T18:04:00Z"))


@dataclass(frozen=True)
class Counts:
    """How many companions a run wrote, left as they were, and removed."""

    written: int = 0
    unchanged: int = 0
    removed: int = 0


def sources(context: Context) -> dict[str, Any]:
    """What companions are made of: the stamps of the file, of its log and of the journal, which has the plant's notes,
    and what the settings and this version of the command add."""
    file, settings = context.file, context.settings
    stamps = [snapshot.stamp_of(path) for path in (file, f"{file}-wal", context.journal().path)]
    plant = settings.plant
    by = [VERSION, plant.name, plant.address, plant.contact, settings.quality.test, settings.time_zone]
    return {"stamps": [list(stamp if snapshot.is_settled(stamp) else UNSETTLED) for stamp in stamps], "by": by}


def settled_sources(context: Context) -> dict[str, Any]:
    """The same once more, where a file was changed just now."""
    if list(UNSETTLED) in (of := sources(context))["stamps"]:
        time.sleep(snapshot.SETTLED / 1e9)
        return sources(context)
    return of


def age_of(context: Context, path: str) -> Age | None:
    """How old the companions in a folder are; `None` where there are none, or none that can be seen."""
    if not os.path.isfile(os.path.join(path, MARK)):
        return None
    with opened(path) as folder:
        return Age(max(0.0, time.time() - folder.looked_after()), not is_current(folder, sources(context)))


def is_current(folder: Folder, made_of: dict[str, Any]) -> bool:
    """Whether the companions of a folder are those of now: all are there, and what they are made of is unchanged."""
    mark = folder.mark()
    is_same = {name: mark.get(name) for name in made_of} == made_of and list(UNSETTLED) not in made_of["stamps"]
    return is_same and mark.get("owners") == sorted(folder.owners())


def refresh(context: Context, folder: Folder, office: Callable[[], Office]) -> Counts:
    """Makes the companions of a folder anew where something changed since; `office` is asked for then alone."""
    if is_current(folder, sources(context)):
        folder.touch()
        return Counts(unchanged=len(folder.owners()))
    of = office()
    made_of = settled_sources(context)  # before the copy, so that a later change shows
    with uncollected():
        counts, read = write(context, folder, of, made_of)
    folder.put_mark({**made_of, "owners": sorted(folder.owners()), **read})
    return counts


@contextlib.contextmanager
def uncollected() -> Iterator[None]:
    """Has Python not look for cycles meanwhile, of which companions have none: that takes a sixth of the time."""
    was_enabled = gc.isenabled()
    gc.disable()
    try:
        yield
    finally:
        if was_enabled:
            gc.enable()


def write(context: Context, folder: Folder, office: Office, made_of: dict[str, Any]) -> tuple[Counts, dict[str, Any]]:
    """Writes the companions of the owners of whom something changed, and removes those of owners that aren't there. One
    that says the same is left as it is: otherwise its owner would see when others work. Gives how far tables were read
    too, of each owner of what its companion is made, and which file it is, and what is known of days."""
    written, mark = 0, folder.mark()
    before = mark.get("own", {})
    made_at = time.strftime("%Y-%m-%dT%H:%M:%SZ", time.gmtime())
    with copies.tables(office) as base:
        register = register_of(context, base)
        rows = read_on(base, Rows(mark.get("last", []), mark.get("rows", {})))
        known = days_read_on(context, base, mark.get("days", {}))
        days_of = {
            owner: days.OwnDays(known.of(owner, context.file), context.settings.time_zone, begun_at(base))
            for owner in owners_of(base)
        }
        stamps = stamps_of(base, register, rows, days_of, [made_of["by"], os.stat(office.file).st_ino])
        changed = {
            owner: days_of[owner]
            for owner, stamp in stamps.items()
            if before.get(owner) != [stamp, *folder.state_of(owner)]
        }
        for subject in subjects(base, register, changed):
            content = encoded(contents_of(subject, context.settings.plant), made_at)
            if folder.read(name_of(subject.owner))[FRONT_BYTES:] != content[FRONT_BYTES:]:
                folder.give(name_of(subject.owner), content, READABLE)
                written += 1
    gone = folder.owners() - stamps.keys()
    for owner in gone:
        folder.remove(owner)
    own = {owner: [stamp, *folder.state_of(owner)] for owner, stamp in stamps.items()}
    read = {"last": rows.last, "rows": rows.of_owners, "own": own, "days": asdict(known)}
    return Counts(written, len(stamps) - written, len(gone)), read


def days_read_on(context: Context, base: Base, before: Any) -> days.Days:
    """What is known of the days of orders and batches, of an office of whose file this is a copy, with what the journal
    and the site's log have since an earlier run."""
    known = days.days_in(before)
    known.read_journal(context.journal().path)
    orders = base.execute("SELECT owner, ord FROM orders")
    known.read_site(site.site_logs_of(context.settings, context.file), orders, begun_at(base))
    return known


def begun_at(base: Base) -> str:
    """When a file came from an earlier one; empty if it is the first."""
    came = came_from(base)
    return came.at if came else ""


def encoded(contents: dict[str, Any], made_at: str) -> bytes:
    """A companion's bytes."""
    text = json.dumps(contents, ensure_ascii=False, separators=(",", ":"))
    return (FRONT.format(made_at) + text[1:]).encode()
