"""Owners' keys, which stand on no command line and in no log."""
import contextlib
import os
import sqlite3
import string
from collections.abc import Iterable
from dataclasses import dataclass, field

from .. import HOUSE
from ..core import lock, scratch, snapshot
from ..core.context import Context
from ..core.failure import WRONG_USE, Failure
from ..core.forms import name_fault
from ..core.journal import query
from ..core.journal.log import BLOTTED, entry_of
from ..core.office import Answer, Office
from ..model.nearest import nearest

LETTERS = string.ascii_letters + string.digits
KEY_LETTERS = 32
CHANGE = "owner key"  # the words by which the journal notes that a key is changed
SHORT = 20  # letters; a key with fewer may be one that a person chose, and can be guessed


@dataclass(frozen=True)
class Key:
    """An owner's key, and whether it was made here, so that it has to be shown."""

    letters: str = field(repr=False)
    is_made: bool = False


def random_key() -> Key:
    """A key that nobody guesses."""
    import secrets

    return Key("".join(secrets.choice(LETTERS) for _ in range(KEY_LETTERS)), is_made=True)


def short_keys(base: sqlite3.Connection) -> list[str]:
    """Whose keys can be guessed, in the line that `status` prints; no line where there are none."""
    owners = [
        owner for owner, in base.execute("SELECT owner FROM owners WHERE length(okey) < ? ORDER BY owner", (SHORT,))
    ]
    return (
        [
            f"keys: those of {', '.join(owners)} have fewer than {SHORT} letters; "
            "`hilpoven owner key NAME` makes longer ones"
        ]
        if owners
        else []
    )


def require_name(name: str, is_known: bool = False) -> None:
    """Fails where a name is none, or that of the plant, which has no key that is known."""
    if fault := name_fault(name):
        raise Failure(f"NAME: `{name}` {fault}", WRONG_USE)
    if is_known and name == HOUSE:
        raise Failure("HOUSE is the plant, and has no key", WRONG_USE)


def add_owner(context: Context, name: str, key: Key) -> Answer:
    """What `toll` answers to a new owner. Its command line has a throwaway key, in whose place this one comes."""
    office, journal = context.office(), context.journal()
    with journal.noted(office.file, ["owner-add", name, BLOTTED]) as note:
        note.answer = answer = office.ask_patiently(["owner-add", name, random_key().letters])
        try:
            if answer.output == "accepted\n":
                change_key(office, name, key.letters)
        except Failure as failure:
            why = f"{name} is added, with a key that nobody knows: {failure.message}"
            raise Failure(why, failure.exit_code, f"hilpoven owner key {name}") from failure
    return answer


def give_key(context: Context, name: str, key: Key) -> None:
    """Changes an owner's key, which the journal notes."""
    office, journal = context.office(), context.journal()
    with journal.noted(office.file, [CHANGE, name, BLOTTED]) as note:
        change_key(office, name, key.letters)
        note.answer = Answer(0, "changed\n", "")


def change_key(office: Office, owner: str, key: str) -> None:
    """Puts a key in the place of an owner's, under the lock, and looks whether it stands.

    It is the one write to the tables that isn't `toll`'s: the rows after it are those of the history whose
    `owner-add` had this key, and nothing else of a history depends on a key.
    """
    address = snapshot.address_of(office.file, "rw")
    try:
        with lock.held(office.file, office.wait), contextlib.closing(
            sqlite3.connect(address, uri=True, timeout=10)
        ) as base:
            snapshot.require_office(base, office.file)
            with base:
                changed = base.execute("UPDATE owners SET okey = ? WHERE owner = ?", (key, owner)).rowcount
            if changed != 1:
                names = [name for name, in base.execute("SELECT owner FROM owners ORDER BY owner")]
                raise Failure(f"there is no owner {owner}", WRONG_USE, nearest(owner, names, "owners"))
            if base.execute("SELECT okey FROM owners WHERE owner = ?", (owner,)).fetchone() != (key,):
                raise Failure("the new key doesn't stand in the file")
    except sqlite3.Error as error:
        raise Failure(f"{office.file}: {error}") from error


@dataclass(frozen=True)
class Kept:
    """Owners whose keys in an older copy were replaced: by those that they have now, or by keys that nobody knows."""

    present: tuple[str, ...] = ()
    unknown: tuple[str, ...] = ()

    @property
    def lines(self) -> list[str]:
        """What is told of them."""
        stay = f"the keys of {', '.join(self.present)} were changed since, and stay as they are now"
        gone = (
            f"the keys of {', '.join(self.unknown)} were changed since, and the new ones are lost: nobody knows a key"
        )
        advice = "; `hilpoven owner key NAME` makes others"
        return [*([stay] if self.present else []), *([gone + advice] if self.unknown else [])]


def keep(copy: str, present: str, journal: str, point: int, others: Iterable[str] = ()) -> Kept:
    """Takes from an older copy the keys that were changed since, so that none of them is right again. The owners keep
    the keys that they have in the file that is in place, under its lock. If that isn't there or can't be read, those
    whose keys were changed behind a place of the journal, and `others`, get keys that nobody knows."""
    ever = {*changed(journal, 0), *others}
    of_now = keys_of(present, os.path.dirname(copy)) if present and ever else {}
    owners = ever if of_now else {*changed(journal, point), *others}
    if not owners:
        return Kept()
    with contextlib.closing(sqlite3.connect(copy)) as base, base:
        of_then = dict(base.execute("SELECT owner, okey FROM owners"))
        new = {owner: of_now.get(owner) or random_key().letters for owner in sorted(owners & of_then.keys())}
        replaced = [owner for owner, key in new.items() if key != of_then[owner]]
        base.executemany("UPDATE owners SET okey = ? WHERE owner = ?", [(new[owner], owner) for owner in replaced])
    return Kept(
        tuple(owner for owner in replaced if owner in of_now), tuple(owner for owner in replaced if owner not in of_now)
    )


def changed(journal: str, start: int) -> set[str]:
    """The owners whose keys were changed, or may have been, by what a journal notes behind a place."""
    entries = (entry_of(line) or {} for line in query.lines_behind(journal, start) if CHANGE.encode() in line)
    words = [entry.get("words") for entry in entries if entry.get("event") == "asked"]
    return {str(each[1]) for each in words if isinstance(each, list) and each[:1] == [CHANGE] and len(each) > 1}


def keys_of(file: str, folder: str) -> dict[str, str]:
    """The keys of an office's file with its log, which are read from a copy in a folder; none if it can't be read."""
    with contextlib.suppress(Failure, OSError, sqlite3.Error), scratch.folder(folder) as room:
        snapshot.copy_both(file, copy := os.path.join(room, "present.db"))
        with contextlib.closing(sqlite3.connect(copy)) as base:
            snapshot.require_office(base, file)
            return dict(base.execute("SELECT owner, okey FROM owners"))
    return {}
