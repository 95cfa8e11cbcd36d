"""What a journal says: its entries about a file, and whether each of its lines follows the one before it."""
import os
import re
from collections import Counter
from collections.abc import Iterator, Sequence
from dataclasses import dataclass, field
from itertools import chain, pairwise
from typing import Any

from ..failure import printable
from ..files import READ
from ..rights import unusable
from .log import BEGINNING, KNOWN_KEYS, entry_of, hash_of


@dataclass
class Checked:
    """What was found of a journal: its lines, its head, what was never answered, what is wrong, and what is worth to
    know."""

    lines: int = 0
    head: str = BEGINNING
    unanswered: list[dict[str, Any]] = field(default_factory=list)
    wrong: list[str] = field(default_factory=list)
    notes: list[str] = field(default_factory=list)


def lines_of(path: str) -> Iterator[bytes]:
    """The lines of a journal with their ends, one after another; none where there is no journal."""
    try:
        with open(os.open(path, READ), "rb") as file:
            yield from file
    except FileNotFoundError:
        return
    except OSError as error:
        raise unusable(f"the journal {path} can't be read", path, error) from error


def common(path: str, other: str) -> int:
    """How many bytes of whole lines two journals have in common at their front."""
    at = 0
    for line, other_line in zip(lines_of(path), lines_of(other)):
        if line != other_line or not line.endswith(b"\n"):
            break
        at += len(line)
    return at


def lines_behind(path: str, start: int) -> Iterator[bytes]:
    """The lines of a journal behind so many bytes of it."""
    at = 0
    for line in lines_of(path):
        if at >= start:
            yield line
        at += len(line)


@dataclass
class Files:
    """The files that a journal's entries are about: how many are about each, where files were moved, and the last
    one."""

    counts: Counter[str] = field(default_factory=Counter)
    moves: list[tuple[str, str]] = field(default_factory=list)
    last: str = ""

    def note(self, entry: dict[str, Any]) -> None:
        """Notes the file of an entry."""
        if "file" not in entry:
            return
        self.last = str(entry["file"])
        self.counts[self.last] += 1
        if entry.get("event") == "moved":
            self.moves.append((str(entry.get("from")), self.last))

    def of(self, file: str) -> set[str]:
        """The names that a file has had: its own, and those from which it was moved."""
        names = {file}
        if self.last and not os.path.lexists(self.last):
            names.add(self.last)  # nothing was noted since it was moved
        for source, target in reversed(self.moves):
            if target in names:
                names.add(source)
        return names


def entries(path: str, file: str, having: str = "", texts: Sequence[str] = ()) -> list[dict[str, Any]]:
    """The entries of a journal that are whole and about a file, and all answers; or only those that have a member, or
    whose lines have one of these texts, for which no other line of a long journal is read but the last one that names
    a file."""
    chosen, files, last = [], Files(), b""
    wanted = [*texts, *([f'"{having}": '] if having else [])]
    is_wanted = re.compile("|".join(map(re.escape, [*wanted, '"moved"'])).encode()).search if wanted else None
    for line in lines_of(path):
        if is_wanted and not is_wanted(line):
            last = line if b'"file": ' in line else last
        elif entry := entry_of(line):
            files.note(entry)
            last = b""
            if not having or having in entry:
                chosen.append(entry)
    files.note(entry_of(last) or {})
    names = files.of(file)
    return [candidate for candidate in chosen if str(candidate.get("file", file)) in names]


def check(path: str, heads: dict[int, str] | None = None, file: str = "") -> Checked:
    """Looks whether each line is whole and follows the one before it, is about this file, and isn't dated before it,
    and whether the lines of these numbers have these hashes, which were sent elsewhere."""
    checked, files, last, time = Checked(), Files(), b"", ""
    open_of: dict[str, dict[str, Any]] = {}
    for number, (line, behind) in enumerate(pairwise(chain(lines_of(path), [b""])), 1):
        last, line = line, line.removesuffix(b"\n")
        entry = entry_of(line)
        follower = entry_of(behind) if behind and entry is None else None
        if entry is None and not (follower and follower.get("behind_cut") and follower["before"] == hash_of(line)):
            checked.wrong.append(f"line {number} is cut or is none of the journal")
        elif entry is None:
            checked.notes.append(f"line {number} was cut by a stop of the machine")
        elif entry["before"] != checked.head:
            checked.wrong.append(
                f"line {number} doesn't follow line {number - 1}: "
                "one of them was changed, or lines between them are missing"
            )
        if entry:
            note_answer(entry, open_of)
            files.note(entry)
            if str(entry.get("time")) < time:
                checked.notes.append(
                    f"line {number} has an earlier time than line {number - 1}: the clock was set back"
                )
            time = str(entry.get("time"))
        checked.lines, checked.head = number, hash_of(line)
        if heads and heads.get(number, checked.head) != checked.head:
            checked.wrong.append(f"line {number} is another one than that whose hash was kept")
    if last and not last.endswith(b"\n") and entry_of(last):
        checked.wrong.append(f"line {checked.lines} has no end")
    checked.wrong += [
        f"line {kept} is missing: its hash was kept" for kept in sorted(heads or {}) if kept > checked.lines
    ]
    others = sorted(files.counts.keys() - files.of(file)) if file else []
    checked.wrong += [f"{files.counts[other]:,} lines are about another file, {printable(other)}" for other in others]
    checked.unanswered = list(open_of.values())
    return checked


def note_answer(entry: dict[str, Any], open_of: dict[str, dict[str, Any]]) -> None:
    """Notes what was asked until it is answered."""
    if entry.get("event") == "asked":
        open_of[str(entry.get("id"))] = entry
    elif entry.get("event") == "told":
        open_of.pop(str(entry.get("of")), None)


def who(entry: dict[str, Any]) -> str:
    """The login, and whose rights it had where these are another's."""
    login, user = str(entry.get("login")), str(entry.get("user"))
    return login if login == user else f"{login} as {user}"


def listed(entry: dict[str, Any], member: str) -> list[Any]:
    """A list of an entry; an empty one where the entry has something else."""
    value = entry.get(member)
    return value if isinstance(value, list) else []


def sheet_keys(entry: dict[str, Any]) -> list[str]:
    """Owner and key of each row of a sheet that was imported, whether `toll` was asked about it or had it already."""
    return [str(key) for member in ("keys", KNOWN_KEYS) for key in listed(entry, member)]
