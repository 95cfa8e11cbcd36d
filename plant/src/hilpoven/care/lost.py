"""Notes whose rows the office hasn't: what a restore or a promotion notes of them, and what is told of them."""
from collections.abc import Sequence
from dataclasses import dataclass, field
from typing import Any

from .. import HOUSE
from ..core import snapshot
from ..core.context import Context
from ..core.failure import Failure, printable
from ..core.journal import query
from ..core.journal.query import listed
from ..core.journal.log import MADE_AT, Journal
from ..model.accepted import rows_of
from ..model.register.file import Notes, Opened, memory
from ..model.register.meant import NAMED, named_by
from ..model.notes import Note, RowsLost
from ..model.register.noted import Noted, to_json
from ..model.register.keeping import OfficeFile, files_of, keep
from ..model.register.standing import Status, belonging, kept, statuses
from ..model.rows import Base
from ..model.register.tables import subject_of

FIRST = 10  # notes that are told where many lost their rows
LIST = "`hilpoven note list` has all"


@dataclass
class Behind:
    """What the journal has behind what a restore put in place: the lines up to there, and the movements that were
    accepted since, which that hasn't, whatever is there by their names."""

    lines: set[str] = field(default_factory=set)  # by their names; empty where nobody knows up to where
    commands: set[str] = field(default_factory=set)  # the lines of commands that were accepted since
    moves: set[tuple[str, ...]] = field(default_factory=set)  # owner and key of movements that were accepted since

    def has_lost(self, noted: Noted) -> bool:
        """Whether what a note means was recorded since."""
        if not noted.is_own:
            return noted.line in self.commands
        names = {tuple(map(str, row[1:3])) for row in noted.meant or () if row[0] == "moves"}
        return bool(self.lines) and noted.line not in self.lines and not self.moves.isdisjoint(names)


def behind(entries: Sequence[dict[str, Any]], at: int) -> Behind:
    """What the journal has behind what the restore at a place of it put in place: a backup that it notes, or the office
    of a moment. It is nothing where it notes neither."""
    end = end_of(entries, at)
    since = Behind({str(entry.get("id")) for entry in entries[:end]})
    asked: dict[str, dict[str, Any]] = {}
    for entry in entries[end:at] if end else []:
        if entry.get("event") == "asked":
            asked[str(entry.get("id"))] = entry
        elif entry.get("answer") == "accepted\n" and (command := asked.get(str(entry.get("of")))):
            since.commands.add(str(command["id"]))
            rows = rows_of(command, "accepted\n")
            since.moves |= {(row.values["OWNER"], row.values["KEY"]) for row in rows if "KEY" in row.values}
    return since


def is_restoring(entry: dict[str, Any]) -> bool:
    """Whether a line of the journal asks for an earlier office in the place of the file."""
    return listed(entry, "words")[:1] in (["restore"], ["promote"]) and "sha256" in entry


def end_of(entries: Sequence[dict[str, Any]], at: int) -> int:
    """How many lines the journal had when what a restore put in place was made; 0 if nobody knows."""
    restore = entries[at]
    words = [str(word) for word in listed(restore, "words")]
    if moment := words[2] if words[1:2] == ["--at"] else str(restore.get(MADE_AT, "")):
        return next((place for place in range(at, 0, -1) if str(entries[place - 1].get("time")) <= moment), 0)
    digest = restore.get("sha256")
    places = [place for place in range(at) if "backup" in entries[place] and entries[place].get("sha256") == digest]
    return places[-1] + 1 if places else 0


def lost_before(notes: Sequence[Noted], lines: set[str]) -> frozenset[str]:
    """The notes that had lost their rows when these were the journal's lines."""
    for noted in reversed(notes):
        if isinstance(noted.note, RowsLost) and noted.line in lines:
            return frozenset(noted.note.lost)
    return frozenset()


def note_lost(context: Context) -> list[Status]:
    """Notes behind a restore which notes lost their rows, so that they stand for no later rows of the same names; gives
    those that stood before."""
    journal = context.journal()
    known = Notes(journal)  # made anew where it was moved aside
    notes = belonging(known, journal)
    entries = query.entries(journal.path, journal.file) if notes else []
    places = [at for at, entry in enumerate(entries) if is_restoring(entry)]
    if not places:
        return []
    since = behind(entries, places[-1])
    with snapshot.opened(context.unseen_office()) as base, files_of(journal, base) as files:
        before = lost_before(notes, since.lines) | {noted.name for noted in notes if since.has_lost(noted)}
        lost = [status for status in statuses_with(known, journal, base, before) if is_lost_or_absent(status, files)]
    last = lost_before(notes, {noted.line for noted in notes})
    if lost or last:
        note = RowsLost(HOUSE, tuple(status.noted.name for status in lost))
        journal.note(journal.file, listed(entries[places[-1]], "words"), notes=[to_json(note)])
    return [status for status in lost if status.noted.name not in last]


def statuses_with(known: Notes, journal: Journal, base: Base, lost: frozenset[str]) -> list[Status]:
    """Whether each note stands if these ones lost their rows, which no register keeps."""
    looked_at = Opened(memory())
    known.read(lambda tables: tables.backup(looked_at.base))
    keep(looked_at.base, journal, base, lost)
    return statuses(looked_at)


def is_lost_or_absent(status: Status, files: Sequence[OfficeFile]) -> bool:
    """Whether a note doesn't stand for want of its row alone, or no file has what it names, and its line doesn't say
    which row it means."""
    if status.fault or status.note is None or status.noted.meant:
        return status.is_lost
    return any(
        not any(office_file.base.execute(NAMED[table], names).fetchone() for office_file in files)
        for table, names in named_by(status.note)
    )


def unsettled(journal: Journal, base: Base) -> list[Status]:
    """The notes whose rows the office hasn't, without those that were noted again."""
    notes = kept(journal, base)

    def stands_again(note: Note) -> bool:
        return any(other.note == note for other in statuses(notes, subject=subject_of(note), fault=""))

    return [status for status in statuses(notes, is_lost=1) if status.note and not stands_again(status.note)]


def report(journal: Journal, base: Base) -> list[str]:
    """What is told of such notes when all of an office is verified; why they can't be told, if they can't."""
    try:
        return lines_of(unsettled(journal, base), FIRST)
    except Failure as failure:
        return [failure.message]


def lines_of(lost: Sequence[Status], most: int | None = None) -> list[str]:
    """What is told of notes that lost their rows: how many, and each, or the first of them."""
    if not lost:
        return []
    sentences = [f"  {status.noted.name} {sentence_of(status.note)}" for status in lost[:most]]
    rest = [f"  {LIST}"] if most and len(lost) > most else []
    return [printable(line) for line in (f"notes that lost what they are about: {len(lost):,}", *sentences, *rest)]


def sentence_of(note: Note | None) -> str:
    """What a note says."""
    return note.sentence if note else ""
