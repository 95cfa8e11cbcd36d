"""Backups of an office's file: how they are named, made, looked at and put in place."""
import contextlib
import os
import re
import sqlite3
import tempfile
import time
from typing import NamedTuple

from ..core.journal import log as journals, query
from ..core.journal.log import IN_PLACE, Journal
from ..model.schema import IS_INCOMING, STANDING, Kind
from ..core import files, lock, paths, scratch, server, snapshot
from . import keys, persons
from ..core.failure import FAULT, REFUSED, WRONG_USE, Failure
from ..core.office import Answer, Office
from ..core.server import Place
from ..core.files import hash_of

STAMP = r"[0-9]{8}-[0-9]{6}"
MARK = r"[0-9a-f]{8}"  # of an office, before the stamp; earlier versions wrote none
ANY_MARK = f"(?:{MARK}-)?"
JOURNAL = ".journal"  # the end of the name of the journal's lines that lie beside a backup
BESIDE = (JOURNAL, persons.END)  # what lies beside a backup
TOLERANCE = 300  # seconds by which clocks may differ
REGISTER = (".register", ".register-journal")  # of which no backup is made: the journal's lines give it
BELONGING = ("", "-wal", "-shm")  # what a file consists of; its lock and its socket hold nothing


def name_of(file: str) -> str:
    """The front of the names of a file's backups."""
    return os.path.basename(file).removesuffix(".db")


def recorded(journal: Journal) -> dict[str, str]:
    """The backups that a journal notes, in the order in which they were made: the SHA-256 of each by its name."""
    hashes: dict[str, str] = {}
    for entry in query.entries(journal.path, journal.file, "backup"):
        hashes.pop(str(entry["backup"]), None)
        hashes[str(entry["backup"])] = str(entry.get("sha256"))
    return hashes


def mark_of(journal: Journal) -> str:
    """What tells an office's backups from those of others in the same folder, whose files may have the same name: the
    front of the hash of its journal's first line, as the journal goes where the office goes. Empty without a line."""
    line = next(query.lines_of(journal.path), b"")
    return journals.hash_of(line[:-1])[:8] if line.endswith(b"\n") else ""


def all_of(file: str, folder: str, journal: Journal) -> list[str]:
    """The backups of an office in a folder, the one that was made last first: those with its mark, and those without
    one, as earlier versions made them, that its journal notes. The journal knows the order, whatever the clock said;
    those that it doesn't note are older ones."""
    try:
        names = os.listdir(folder)
    except OSError as error:
        raise Failure(f"{folder} can't be looked at: {error.strerror}") from error
    places = {name: place for place, name in enumerate(recorded(journal), 1)}
    own, unmarked = own_form(file, journal), re.compile(form_of(file, ""))
    backups = [name for name in names if own.fullmatch(name) or name in places and unmarked.fullmatch(name)]
    newest_first = sorted(backups, key=lambda name: (places.get(name, 0), stamp_in(name)), reverse=True)
    return [os.path.join(folder, name) for name in newest_first]


def form_of(file: str, mark: str = ANY_MARK) -> str:
    """The form of the names of a file's backups, of any office or with a mark."""
    return rf"{re.escape(name_of(file))}-{mark}{STAMP}\.db"


def own_form(file: str, journal: Journal, end: str = "") -> re.Pattern[str]:
    """The form of the names that have an office's mark. Of an office without a journal there are none."""
    mark = mark_of(journal)
    return re.compile(form_of(file, f"{mark}-") + re.escape(end) if mark else r"(?!)")


def stamp_in(backup: str) -> str:
    """When a backup was made, as its name says it."""
    return backup[-len("YYYYMMDD-HHMMSS.db") : -len(".db")]


def newest(file: str, folder: str, journal: Journal) -> tuple[str, list[str]]:
    """The backup of a file that was made last, empty where there is none; and those that are dated later than now: the
    clock was wrong when they were made, or is wrong now."""
    try:
        backups = all_of(file, folder, journal)
    except Failure:
        return "", []
    latest = time.strftime("%Y%m%d-%H%M%S", time.gmtime(time.time() + TOLERANCE))
    return next(iter(backups), ""), [backup for backup in backups if stamp_in(backup) > latest]


def changed(file: str, folder: str, journal: Journal) -> tuple[int, list[str]]:
    """How many of the backups that a journal notes are in a folder, and those whose bytes aren't what it notes."""
    hashes = recorded(journal)
    backups = [backup for backup in all_of(file, folder, journal) if os.path.basename(backup) in hashes]
    return len(backups), [backup for backup in backups if hash_of(backup) != hashes[os.path.basename(backup)]]


def make(office: Office, folder: str, keep: int, days: int, journal: Journal) -> str:
    """Makes a backup with the journal's lines so far, looks at it, and removes all but itself, the newest, and the last
    ones of the newest days; the path of the new one. The journal notes its hash before it has its name."""
    folder = paths.private(folder)
    with snapshot.copied(office, folder) as copy:
        snapshot.settle(copy)
        require_sound(office, copy)
        digest = hash_of(copy)
        if not mark_of(journal):
            journal.exported(office.file, ["backup"])  # its first line, from which on the office has a mark
        with scratch.held(folder, None):
            target = free_name(office.file, folder, mark_of(journal))
            name = os.path.basename(target)
            with journal.noted(office.file, ["backup", name], backup=name, sha256=digest) as note:
                with journal.locked():
                    files.copy(journal.path, f"{copy}.journal")
                files.put_in_place(f"{copy}.journal", f"{target}.journal")
                persons.take_along(office.file, target + persons.END)
                files.put_in_place(copy, target)
                note.answer = Answer(0, f"{name}, sha256 {digest}\n", "")
            prune(office, folder, keep, days, journal, target)
    return target


def free_name(file: str, folder: str, mark: str) -> str:
    """The path of a new backup, by the time in UTC; by a later second where a backup of this one is there."""
    moment = time.time()
    while True:
        stamp = time.strftime("%Y%m%d-%H%M%S", time.gmtime(moment))
        target = os.path.join(folder, f"{name_of(file)}-{mark}-{stamp}.db")
        if not any(os.path.lexists(target + end) for end in ("", *BESIDE)):
            return target
        moment += 1


def prune(office: Office, folder: str, keep: int, days: int, journal: Journal, new: str) -> None:
    """Removes all backups of an office but the new one, the newest, and the last ones of the newest days, with what
    belongs to them."""
    for end in BESIDE:
        for name in filter(own_form(office.file, journal, end).fullmatch, os.listdir(folder)):
            if not os.path.lexists(os.path.join(folder, name.removesuffix(end))):
                os.unlink(os.path.join(folder, name))  # of a backup that was killed before it had its name
    backups = all_of(office.file, folder, journal)
    own, hashes = own_form(office.file, journal), recorded(journal)
    old = [
        path
        for path in sorted(set(backups) - {new, *backups[:keep], *last_of_days(backups)[:days]})
        if own.fullmatch(os.path.basename(path)) or is_as_noted(path, hashes)
    ]
    if not old:
        return
    with journal.noted(office.file, ["prune", *(os.path.basename(path) for path in old)]) as note:
        for path in old:
            files.remove(path, *BELONGING, ".lock", *BESIDE, *REGISTER)
        note.answer = Answer(0, "removed\n", "")


def is_as_noted(path: str, hashes: dict[str, str]) -> bool:
    """Whether a backup whose name has no mark has the bytes that the journal notes: another office may have made one of
    the same name."""
    return os.path.isfile(path) and not os.path.islink(path) and hash_of(path) == hashes[os.path.basename(path)]


def last_of_days(backups: list[str]) -> list[str]:
    """Of backups, of which the newest is the first, the last one of each day."""
    last: dict[str, str] = {}
    for path in backups:
        last.setdefault(stamp_in(path)[: len("YYYYMMDD")], path)
    return list(last.values())


def require_sound(office: Office, copy: str) -> None:
    """Fails where SQLite or `toll` finds a copy damaged. `toll` is given another one, since it may bring a file to a
    newer version when it opens it."""
    try:
        with contextlib.closing(sqlite3.connect(copy)) as base:
            report = base.execute("PRAGMA integrity_check").fetchall()
    except sqlite3.Error as error:
        raise Failure(f"{copy} can't be read: {error}") from error
    if report != [("ok",)]:
        raise Failure(f"{copy} is damaged: {report[0][0]}")
    tried = f"{copy}.tried"
    files.copy(copy, tried)
    answer = office.ask(["stock", "HOUSE"], tried)
    if answer.status:
        raise Failure(f"{copy} is no office: {(answer.error or answer.output).strip()}")


class Replaced(NamedTuple):
    """A file that another one has the place of: the folder where it is now, empty if there was none, and what is told
    of its owners' keys and persons."""

    aside: str
    notes: list[str]


def restore(office: Office, backup: str, place: Place, journal: Journal, is_foreign: bool) -> Replaced:
    """Puts a backup in the place of the file, which is moved aside with its log.

    All is looked at over the copy that is put in place: SQLite, `toll`, the sums, and whether the journal notes its
    hash, unless it is to be foreign. The journal that lies beside the backup comes back where none is there.

    The file goes before its log: where this is stopped between the two, the log stands alone, which `toll` tells as a
    file that was moved away. The log is away before the backup has the file's name, so that no log stands beside
    another file.
    """
    stop_on_server(office.file, place)
    with scratch.folder(os.path.dirname(office.file)) as room:
        copy = os.path.join(room, "copy.db")
        copy_backup(backup, copy, office.wait)
        snapshot.settle(copy)
        require_sound(office, copy)
        require_sums(copy)
        digest = hash_of(copy)
        bring_journal(backup, os.path.join(room, "copy.journal"), journal)
        if not is_foreign:
            require_own(office.file, backup, journal)
        if not is_foreign and digest not in recorded(journal).values():
            raise Failure(
                f"{backup} is no backup that {journal.path} notes: its SHA-256 is {digest}",
                REFUSED,
                "root and the office's user restore it with --foreign, and answer for what is in it",
            )
        words = ["restore", *(["--foreign"] if is_foreign else []), backup]
        return replace(office, copy, place, journal, words, digest, backup + JOURNAL, backup + persons.END)


def require_own(file: str, backup: str, journal: Journal) -> None:
    """Fails where the name of a backup has the mark of another office."""
    match = re.fullmatch(form_of(file, f"(?:({MARK})-)?"), os.path.basename(backup))
    if match and match[1] and match[1] != mark_of(journal):
        raise Failure(
            f"{backup} is a backup of another office: its mark is {match[1]}, and that of {file} is {mark_of(journal)}",
            REFUSED,
            "root and the office's user restore it with --foreign, and answer for what is in it",
        )


def replace(
    office: Office,
    copy: str,
    place: Place,
    journal: Journal,
    words: list[str],
    digest: str,
    lines_then: str,
    persons_then: str,
) -> Replaced:
    """Puts a copy that was looked at in the place of the file, which the journal notes. Keys that were changed since
    stay: those behind the lines that the journal had then, by a file of them. So do persons, by theirs, if none are
    there."""
    with journal.noted(office.file, words, sha256=digest) as note:
        with lock.held(office.file, office.wait):
            stop_on_server(office.file, place)
            kept = keys.keep(copy, office.file, journal.path, query.common(journal.path, lines_then))
            aside = move_aside(office.file)
            files.put_in_place(copy, office.file)
            note.members[IN_PLACE] = True
        require_opening(office, aside)
        notes = [*kept.lines, *persons.put_back(office.file, journal, persons_then)]
        moved = [f"what was there is in {aside}"] if aside else []
        note.answer = Answer(0, "; ".join(["restored", *moved, *notes]) + "\n", "")
    return Replaced(aside, notes)


def require_opening(office: Office, aside: str) -> None:
    """Fails if `toll` doesn't open what was put in place; `aside` is the folder of what was there, if anything was."""
    answer = office.ask_patiently(["stock", "HOUSE"])
    if answer.status:
        advice = f"what was there is in {aside}" if aside else ""
        raise Failure(f"toll doesn't open what was put in place: {answer.error.strip()}", FAULT, advice)


def require_sums(copy: str) -> None:
    """Fails where a copy's sublots don't hold what its movements come to."""
    with contextlib.closing(sqlite3.connect(copy)) as base:
        if wrong := checked_tables(base):
            raise Failure(f"{copy} isn't sound: {wrong[0]}{f', and {len(wrong) - 1} more' if len(wrong) > 1 else ''}")


def bring_journal(backup: str, copy: str, journal: Journal) -> None:
    """Puts the journal that lies beside a backup in the office's place, where no journal is there."""
    if os.path.lexists(journal.path) or not os.path.isfile(backup + JOURNAL):
        return
    files.copy(backup + JOURNAL, copy)
    if wrong := query.check(copy, file=journal.file).wrong:
        advice = f"put the right journal to {journal.path} first"
        raise Failure(f"{backup + JOURNAL} isn't whole: {wrong[0]}", REFUSED, advice)
    files.put_in_place(copy, journal.path)


def copy_backup(backup: str, copy: str, wait: float) -> None:
    """Copies a backup, with the log that it has where somebody looked at it by `toll`, under its lock where it has
    one."""
    try:
        if not os.path.isfile(backup):
            raise Failure(f"{backup} is no file", WRONG_USE)
        with lock.held(backup, wait) if os.path.exists(lock.name_of(backup)) else contextlib.nullcontext():
            snapshot.copy_both(backup, copy)
    except OSError as error:
        raise Failure(f"{backup} can't be copied: {error.strerror}") from error


def stop_on_server(file: str, place: Place) -> None:
    """Fails where a server, which this unit may be, or anybody else has the file open."""
    advice = f"stop it first: systemctl stop {place.unit}"
    if server.greeting(file):
        raise Failure(f"a server serves {file}", FAULT, advice)
    if place.port and server.listens(place.port):
        raise Failure(f"a server listens at the office's port {place.port}", FAULT, advice)
    if users := server.users_of(file):
        processes = ", ".join(f"{pid} ({lock.command(pid)})" for pid in users)
        raise Failure(f"{file} is open in process {processes}", FAULT, advice)


def move_aside(file: str, *others: str) -> str:
    """Moves a file, then its log, then its register, which is made anew, and other files into a new folder beside it;
    its path, empty where nothing was there."""
    moved = [path for path in [*(file + end for end in (*BELONGING, *REGISTER)), *others] if os.path.lexists(path)]
    if not moved:
        return ""
    stamp = time.strftime("%Y%m%d-%H%M%S", time.gmtime())
    aside = tempfile.mkdtemp(prefix=f"{name_of(file)}-before-restore-{stamp}-", dir=os.path.dirname(file))
    for path in moved:
        with contextlib.suppress(FileNotFoundError):
            os.rename(path, os.path.join(aside, os.path.basename(path)))
            files.sync(aside)
            files.sync(os.path.dirname(path))
    return aside


# Sublots that don't hold what standing movements come to, as docs/tables.md has it.
SUMS = f"""
WITH standing AS (
  SELECT * FROM moves AS m WHERE {STANDING}
), flows AS (
  SELECT lot_owner AS owner, lot, sublot, CASE WHEN {IS_INCOMING} THEN amount ELSE -amount END AS amount
  FROM standing AS m
  UNION ALL SELECT lot_owner, lot, target, amount FROM standing WHERE kind = {Kind.SPLIT:d}
), sums AS (
  SELECT owner, lot, sublot, sum(amount) AS amount FROM flows GROUP BY owner, lot, sublot
)
SELECT s.owner, s.lot, s.sublot, s.amount, coalesce(m.amount, 0)
FROM sublots AS s LEFT JOIN sums AS m USING (owner, lot, sublot) WHERE s.amount <> coalesce(m.amount, 0)
UNION ALL SELECT m.owner, m.lot, m.sublot, 0, m.amount FROM sums AS m LEFT JOIN sublots AS s USING (owner, lot, sublot)
WHERE s.owner IS NULL
"""


def checked_tables(base: sqlite3.Connection) -> list[str]:
    """What is wrong with the tables of a copy."""
    try:
        damage = [line for line, in base.execute("PRAGMA integrity_check") if line != "ok"]
        if damage:
            return [f"SQLite finds it damaged: {damage[0]}"]
        snapshot.require_office(base, "it")
        return [
            f"sublot {owner} {lot} {sublot} holds {held}, and its movements come to {sums}"
            for owner, lot, sublot, held, sums in base.execute(SUMS)
        ]
    except sqlite3.Error as error:
        return [f"it can't be read: {error}"]
    except Failure as failure:
        return [failure.message]
