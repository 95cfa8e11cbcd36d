"""How the lines of a journal come into a register: its notes, what was answered to the commands that they belong to,
and where the file was."""
import os
import re
from typing import Any

from ...core.journal.log import IN_PLACE, entry_of, hash_of
from . import tables
from .lines import MARK, has_notes, opened, pieces
from .noted import notes_in
from ..rows import Base

MOVED, TOLD, FILE, REPLACED = b'"moved"', b'"event": "told"', b'"file": ', f'"{IN_PLACE}"'.encode()
OF = re.compile(rb'"of": "([0-9a-f]{16})"')  # of which line an answer is
ANSWERED = "UPDATE note SET is_done = ?, is_open = 1 WHERE line = ? AND is_own = 0 AND is_done IS NULL"
DONE = ("accepted\n", "repeated\n")


def fold_on(path: str, register: Base, end: int | None = None) -> None:
    """Adds to a register the lines that a journal has behind the last one that it has, or those of them before a place.
    A last line without its end is left for later."""
    start, stop, digest, last_file = register.execute("SELECT start, stop, hash, file FROM folded").fetchone()
    with opened(path) as descriptor:
        if descriptor is None or os.fstat(descriptor).st_size == stop or end == stop:
            return
        if not register.execute("SELECT 1 FROM note LIMIT 1").fetchone() and not has_notes(descriptor, stop):
            return
        reader, last = LineReader(register, last_file), b""
        for piece in pieces(descriptor, stop, end):
            at = piece.rfind(b"\n", 0, len(piece) - 1) + 1
            start, stop, last = stop + at, stop + len(piece), piece[at:]
            reader.read(piece)
    if last:
        row = start, stop, hash_of(last[:-1]), tables.storable(reader.file)
        register.execute("UPDATE folded SET (start, stop, hash, file) = (?, ?, ?, ?)", row)


class LineReader:
    """Adds what lines of a journal say to a register."""

    def __init__(self, register: Base, file: str) -> None:
        self.register = register
        self.file = file  # that the last line was about which is about one
        rows = register.execute("SELECT DISTINCT line FROM note WHERE is_own = 0 AND is_done IS NULL")
        self.asked = {str(line) for line, in rows}  # whose answers are looked for

    def read(self, piece: bytes) -> None:
        """Adds what whole lines say."""
        if not self.is_wanted(piece):
            if (at := piece.rfind(FILE)) >= 0:
                self.note_file(piece[piece.rfind(b"\n", 0, at) + 1 : piece.index(b"\n", at)])
            return
        of_file = b""
        for line in piece.split(b"\n"):
            if self.is_wanted(line):
                entry = entry_of(line) or {}
                self.add(entry)
                self.file, of_file = (str(entry["file"]), b"") if "file" in entry else (self.file, of_file)
            elif FILE in line:
                of_file = line
        self.note_file(of_file)

    def note_file(self, line: bytes) -> None:
        """Notes the file that a line is about."""
        self.file = str((entry_of(line) or {}).get("file", self.file))

    def is_wanted(self, lines: bytes) -> bool:
        """Whether lines may say something that a register has."""
        if MARK in lines or MOVED in lines or REPLACED in lines:
            return True
        return bool(self.asked) and TOLD in lines and any(name.decode() in self.asked for name in OF.findall(lines))

    def add(self, entry: dict[str, Any]) -> None:
        """Adds what a line says: where the file was, what was answered, notes, and that the office may be another one,
        so that all notes are looked at again."""
        if entry.get("event") == "moved":
            names = tables.storable(str(entry.get("from"))), tables.storable(str(entry.get("file")))
            self.register.execute("INSERT INTO moved (source, target) VALUES (?, ?)", names)
        if IN_PLACE in entry:
            self.register.execute("UPDATE checked SET last_rows = ''")
        if entry.get("event") == "told" and (line := str(entry.get("of"))) in self.asked:
            is_done = entry.get("status") == 0 and entry.get("answer") in DONE
            self.register.execute(ANSWERED, (is_done, line))
            self.asked.remove(line)
        for noted in notes_in(entry):
            tables.add(self.register, noted)
            if not noted.is_own:
                self.asked.add(noted.line)


def has_a_note(path: str) -> bool:
    """Whether a journal has a note."""
    with opened(path) as descriptor:
        if descriptor is None:
            return False
        with_marks = (piece for piece in pieces(descriptor, 0) if MARK in piece)
        lines = (line for piece in with_marks for line in piece.split(b"\n") if MARK in line)
        return any(any(notes_in(entry_of(line) or {})) for line in lines)
