"""What is done with an office's files as a whole: a new one, a backup, a restore, and a look at all of them. Each says
what it did in lines, one after another."""
import contextlib
import os
import re
import sqlite3
from collections import Counter
from collections.abc import Iterator
from datetime import datetime, timezone
from functools import partial
from typing import Any, NamedTuple

from ..core import paths, rights, server, settings as site, snapshot
from ..core.context import Context
from ..core.failure import FAULT, REFUSED, WRONG_USE, Failure, printable
from ..core.journal import query
from ..core.journal.log import Journal
from ..core.office import has_bytes
from ..core.table import counted
from ..model import accepted
from ..model.notes import KINDS
from ..model.register import file as register, lines
from ..model.register.file import Opened
from ..model.register.folding import fold_on
from ..model.register.keeping import keep
from ..model.register.standing import belonging
from ..model.rows import Base
from ..model.years import chain
from . import backups, lost, owners
from .standby import kept, promoting, state as standby

WHOLE = "sound; sublots hold what movements come to; toll opens it"


class Promoted(NamedTuple):
    """What is told of an office that pieces gave: which of them couldn't be used, what was made, and what is to be
    known and done next."""

    unused: tuple[str, ...]
    lines: list[str]
    next: list[str]


class Verified(NamedTuple):
    """What a look at all of an office says, and the exit status."""

    lines: list[str]
    status: int


def new(context: Context, file: str | None) -> Iterator[str]:
    """Makes a new office, that of the settings where no file is given."""
    new_context = Context(
        context.settings, file or context.db, context.unnoted, person=context.person, tell=context.tell
    )
    file = new_context.file
    if has_bytes(file):
        raise Failure(f"{file} is there already", WRONG_USE)
    if has_bytes(f"{file}-wal"):
        advice = "a file of this name was moved away; its log belongs to it"
        raise Failure(f"a log of this name is there: {file}-wal", WRONG_USE, advice)
    folder = os.path.dirname(file)
    if not os.path.isdir(folder):
        raise Failure(f"{folder} is no folder", WRONG_USE)
    rights.become_owner(file)
    office, journal = new_context.unseen_office(), new_context.journal()
    require_no_notes(journal)
    with journal.noted(office.file, ["new"]) as note:
        note.answer = office.ask_patiently(["stock", "HOUSE"])
    if note.answer.status:
        raise Failure(f"no office was made: {note.answer.error.strip()}")
    yield printable(f"{file} is a new office; its journal is {journal.path}")
    if os.stat(folder).st_mode & 0o022:
        context.tell(f"Others may put files into {folder}: chmod 700 keeps them out.")


def require_no_notes(journal: Journal) -> None:
    """Fails where there are notes of the office that was here: those of a new one would be mixed with them."""
    path = lines.path_of(journal.file)
    if lines.may_have_notes(journal):
        raise Failure(
            f"there are notes of the office that was here, in {journal.path}",
            WRONG_USE,
            f"`hilpoven restore` puts a backup of it in place; for another office, move it and {path} elsewhere",
        )


def backup(context: Context, folder: str | None, keep_newest: int | None, days: int | None) -> Iterator[str]:
    """Makes a backup in a folder, that of the settings where none is given."""
    settings = context.settings
    office, journal = context.office(), context.journal()
    days = settings.days if days is None else days
    yield backups.make(office, folder or backups_of(context), keep_newest or settings.keep, days, journal)
    checked = query.check(journal.path)
    yield f"journal {checked.lines} {checked.head}"


def backups_of(context: Context) -> str:
    """The folder of the backups."""
    if not context.settings.backups:
        raise Failure("no folder is named", WRONG_USE, f'give one, or backups = ".." in {site.PATH}')
    return context.settings.backups


def chosen(context: Context, backup: str) -> str:
    """The path of a backup: one of the settings' folder by its name, or for root and the office's user any file."""
    if not context.person.is_member and (os.sep in backup or os.path.exists(backup) or not context.settings.backups):
        return os.path.realpath(backup)
    folder = paths.private(backups_of(context))
    if not re.fullmatch(backups.form_of(context.file), backup):
        mark = backups.mark_of(context.journal()) or "1a2b3c4d"
        example = f"{backups.name_of(context.file)}-{mark}-20261127-010203.db"
        raise Failure(f"{backup} is no name of a backup", WRONG_USE, f"such as {example}, which is in {folder}")
    return os.path.join(folder, backup)


def restore(context: Context, backup: str | None, is_foreign: bool, moment: float | None) -> Iterator[str]:
    """Puts a backup in place, or the office of a moment, and notes which notes lost their rows by that."""
    if (backup is None) == (moment is None) or moment is not None and is_foreign:
        raise Failure("either BACKUP or --at TIME is given", WRONG_USE)
    if is_foreign:
        context.person.require_operator("--foreign")
    rights.become_owner(context.file)
    if moment is None:
        subject = str(backup)
        path, office = chosen(context, subject), context.unseen_office()
        replaced = backups.restore(office, path, server.place_of(context), context.journal(), is_foreign)
        notes, aside = replaced.notes, replaced.aside
    else:
        office, folder = context.unseen_office(), standby.folder_of(context.file, context.settings.follow.to)
        restored = promoting.restore_at(office, folder, server.place_of(context), context.journal(), moment)
        subject, notes, aside = f"the office of {restored.last.at}", restored.notes, restored.aside
    context.tell("\n".join(notes))
    yield printable(f"{subject} is in place" + (f"; what was there is in {aside}" if aside else ""))
    yield from lost.lines_of(lost.note_lost(context))


def promote(context: Context, folder: str | None, until: int | None, is_check: bool) -> Promoted:
    """Makes the office of the pieces in a folder, that of the settings where none is given, or only tries it."""
    rights.become_owner(context.file)
    folder, office = folder or standby.folder_of(context.file, context.settings.follow.to), context.unseen_office()
    if is_check:
        last, choice = promoting.tried(office, folder, until)
        line = f"the office of piece {choice.end} is sound; it was made at {last.at}, {age_of(last.at)} ago"
        return Promoted(choice.notes, [line], [])
    place = server.place_of(context)
    promoted, choice = promoting.promote(office, folder, place, context.journal(), until)
    last, lost_rows = promoted.last, lost.lines_of(lost.note_lost(context))
    outcome = f"{context.file} is the office of piece {choice.end}, made at {last.at}, {age_of(last.at)} ago"
    aside = f"; what was there is in {promoted.aside}" if promoted.aside else ""
    serve = f"Serve it: systemctl enable --now {place.unit}"
    return Promoted(
        choice.notes,
        [outcome, f"timeline {promoted.timeline} begins{aside}", *lost_rows],
        [*promoted.notes, serve, "Then lead owners and the plant here."],
    )


def age_of(at: str) -> str:
    """How long ago a time was."""
    seconds = (datetime.now(timezone.utc) - datetime.fromisoformat(at)).total_seconds()
    return f"{seconds:,.0f} seconds"


def verify(context: Context) -> Verified:
    """Looks at all of the office: its file, what owners' requests did and what a standby has, its journal, its register
    and its backups."""
    office, journal, wrong, lost_rows = context.office_to_read(), context.journal(), list[str](), list[str]()
    checked = query.check(journal.path, file=context.file)  # before the copy, which has all that it says
    entries = [] if checked.wrong else query.entries(journal.path, context.file)
    rows, done = accepted.added_rows(entries), Done(context, entries) if not checked.wrong else None
    with snapshot.copied(office) as copy:
        with contextlib.closing(sqlite3.connect(copy)) as base:
            wrong += backups.checked_tables(base) or accepted.lacking(base, rows)
            lost_rows = [] if wrong else lost.report(journal, base)
            register_lines, is_another = verified_register(journal, None if wrong else base)
        wrong += done.lacking(copy) if done and not wrong else []
        answer = office.ask(["stock", "HOUSE"], copy)
    if answer.status:
        wrong.append(f"toll doesn't open it: {answer.error.strip()}")
    of_journal = f"{checked.lines} lines, {len(checked.unanswered)} without an answer"
    text = [
        f"file: {'; '.join(wrong) or WHOLE}",
        *(printable(f"owners: {line}") for line in (done.lines if done else [])),
        *(f"journal: {finding}" for finding in [*checked.wrong, *checked.notes]),
        f"journal: {of_journal}{'' if checked.wrong else '; it is whole'}",
        *(f"register: {printable(line)}" for line in [*register_lines, *lost_rows]),
    ]
    changed: list[str] = []
    if os.path.isdir(folder := context.settings.backups):
        count, changed = backups.changed(context.file, folder, journal)
        unlike = [f"{changed_backup} isn't the file that was made" for changed_backup in changed]
        text.append(f"backups: {'; '.join([*unlike, f'{count - len(changed)} as the journal notes them'])}")
    return Verified(text, FAULT if wrong else REFUSED if checked.wrong or changed or is_another else 0)


class Done:
    """What owners' requests did by the logs of the office's site, which are read before the file is copied, and what
    the pieces of a standby on this machine have; and what is told of both."""

    def __init__(self, context: Context, entries: list[dict[str, Any]]) -> None:
        self.context, self.since, self.now = context, owners.last_replaced(entries), datetime.now(timezone.utc)
        self.done, self.lines = list[owners.Done](), list[str]()
        logs = site.site_logs_of(context.settings, context.file)
        try:
            self.done = owners.done_since(logs, self.since)
            self.lines += [f"{len(self.done):,} requests that the site's log has as done are compared"] if logs else []
        except Failure as failure:
            self.lines.append(f"what they did isn't compared: {failure.message}")

    def lacking(self, copy: str) -> list[str]:
        """What is told of what a copy of the file and its earlier files lack."""

        file, follow = self.context.file, self.context.settings.follow
        snapshot.settle(copy)
        with chain.reading(copy) as base:
            earlier = [part.path for part in chain.earlier_files(file, chain.came_from(base))]
        with contextlib.ExitStack() as stack:
            bases = [stack.enter_context(chain.reading(path)) for path in (copy, *earlier)]
            wrong = owners.lacking(bases, self.done)
        try:
            rows = kept.Kept(standby.folder_of(file, follow.to), file, self.since, self.now).lacking([copy, *earlier])
        except Failure as failure:
            self.lines.append(f"the standby's pieces aren't compared: {failure.message}")
            return wrong
        others = f"; and {len(rows) - owners.FIRST:,} more" if len(rows) > owners.FIRST else ""
        first = "; ".join(rows[: owners.FIRST])
        return [*wrong, *([printable(f"the standby's pieces have what is missing: {first}{others}")] if rows else [])]


def verified_register(journal: Journal, base: Base | None) -> tuple[list[str], bool]:
    """What is told of the register, and whether it is another than the journal gives, also by which notes stand of an
    office of whose file this is a copy; nothing is told where neither has a note."""
    if not lines.may_have_notes(journal):
        return [], False
    difference = register.difference(journal, partial(keep, journal=journal, newest=base) if base else None)
    fresh = register.memory()
    fold_on(journal.path, fresh)
    notes = belonging(Opened(fresh), journal)
    unread = Counter(noted.kind for noted in notes if noted.note is None)
    of = {
        kind: "that cannot be read" if not kind or kind in KINDS else f"of the unknown kind {kind}" for kind in unread
    }
    remarks = [f"{counted(count, 'notes')} {of[kind]}" for kind, count in sorted(unread.items())]
    return [difference or f"{counted(len(notes), 'notes')}; it is what the journal gives", *remarks], bool(difference)
