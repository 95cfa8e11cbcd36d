"""Finds a text in what an office has: names of lots, orders and keys over all its files, and what the plant noted that
stands: suppliers' lots, documents, parties, reasons and others, as whole words (`forms.whole_words`)."""
import json
import os
import re
from collections.abc import Iterator, Sequence
from typing import NamedTuple

from ..core import snapshot
from ..core.context import Context
from ..core.failure import WRONG_USE, Failure
from ..core.forms import TEXT, whole_words
from ..core.table import Row
from ..model.notes import Note
from ..model.register.file import Opened
from ..model.register.keeping import OfficeFile, files_of
from ..model.register.lines import may_have_notes
from ..model.register.noted import from_json
from ..model.register.standing import kept
from ..model.schema import Kind

COLUMNS = ["kind", "owner", "name", "text", "file"]
NAMES = {
    "lot": "SELECT owner, lot, material FROM lots WHERE lot LIKE ? ORDER BY owner, lot",
    "order": "SELECT owner, ord, recipe FROM orders WHERE ord LIKE ? ORDER BY owner, ord",
    "key": f"""
SELECT owner, mkey, {Kind.sql('kind')} || ' ' || lot_owner || ' ' || lot FROM moves WHERE mkey LIKE ?
ORDER BY owner, mkey
""",
}
SAYING = "SELECT value, after FROM note WHERE fault = '' AND value LIKE ? ORDER BY id"
# The members of notes that people type as they like, and parties.
TEXTS = {
    "party": "party",
    "supplier_lot": "supplier's lot",
    "document": "document",
    "name": "name",
    "address": "address",
    "contact": "contact",
    "phone": "phone",
    "reason": "reason",
    "how": "cleaning",
    "checked": "cleaning",
    "method": "method",
}
SUBJECTS = ("key", "lot", "party", "test", "unit", "order", "material", "recipe")  # by which a note's thing is named


class Found(NamedTuple):
    """What has a text: of which kind it is, whose, its name or that of the thing that a note is about, what is said
    there, and in which file it is."""

    kind: str
    owner: str
    name: str
    text: str
    file: str


def find(context: Context, text: str) -> list[Row]:
    """All that has a text, over all files of the office; each name once, in its newest file."""
    if (fault := TEXT.fault(text)) or not text.strip():
        raise Failure(f"TEXT: it {fault or 'is empty'}", WRONG_USE)
    pattern, journal = whole_words(text), context.journal()
    office = context.office_to_read()
    with snapshot.opened(office) as base:
        notes = kept(journal, base) if may_have_notes(journal) else None
        with files_of(journal, base) as files:
            called = [*(later.after for later in files[1:]), os.path.basename(office.file)]
            names = [*names_with(text, pattern, files, called)]
            by_earlier = {office_file.after: name for office_file, name in zip(files, called)}
            noted = notes_with(text, pattern, notes, by_earlier) if notes else ()
            return list(dict.fromkeys([*names, *noted]))


def part_of(text: str) -> str:
    """What SQLite looks for first: the longest part of a text that JSON and LIKE have as it is, within others."""
    parts: list[str] = re.findall(r"[A-Za-z0-9-]+", text)
    return f"%{max(['', *parts], key=len)}%"


def names_with(text: str, pattern: re.Pattern[str], files: Sequence[OfficeFile], called: list[str]) -> Iterator[Found]:
    """The names of lots, orders and keys that have a text, each in the newest file that has it."""
    known = set[tuple[str, str, str]]()
    for kind, sql in NAMES.items():
        for office_file, file in reversed(list(zip(files, called))):
            for owner, name, about in office_file.base.execute(sql, (part_of(text),)):
                if pattern.search(name) and (kind, owner, name) not in known:
                    known.add((kind, owner, name))
                    yield Found(kind, owner, name, about, file)


def notes_with(text: str, pattern: re.Pattern[str], notes: Opened, files: dict[str, str]) -> Iterator[Found]:
    """What standing notes say that has a text; `files` are by the earlier file that each came from."""
    for value, after in notes.rows(SAYING, (part_of(text),)):
        note = from_json(json.loads(value))
        for member, kind in TEXTS.items() if note else ():
            words = getattr(note, member, "")
            if isinstance(words, str) and pattern.search(words):
                assert note
                yield Found(kind, note.owner, name_of(note), words, files.get(after, after))


def name_of(note: Note) -> str:
    """What the thing is called that a note is about."""
    return next((str(getattr(note, member)) for member in SUBJECTS if getattr(note, member, "")), note.owner)
