"""FILE.persons, the people of owners who may log in at the site: what a restore puts back of a copy.

The journal has each change, and the SHA-256 of what a new password is checked by. So only a person comes back who
stands by the journal with the password of the copy: nobody who was removed, whose password was changed since, or whom
somebody wrote into the copy.
"""
import hashlib
import json
import os
import re
from collections.abc import Collection, Iterator
from dataclasses import dataclass, replace
from typing import Any

from ..core import files
from ..core.failure import Failure
from ..core.journal import query
from ..core.journal.log import Journal, entry_of
from ..core.table import counted

FORM = 1  # of FILE.persons
MEMBERS = ("name", "owner", "role", "secret", "mail", "language", "often")
END = ".persons"  # of the names of an office's persons, and of those beside a backup
COPY = "persons.json"  # the name of those among the pieces of a standby
WORD = "person"  # the first word of a change in the journal
DIGEST = "secret_sha256"  # the member of a change with a new password
CHANGE, TOLD = f'"words": ["{WORD}", '.encode(), b'"event": "told"'
OF = re.compile(rb'"of": "([0-9a-f]{16})"')


@dataclass(frozen=True)
class Standing:
    """What the journal has of a person: the owner, the role, and the SHA-256 of what the password is checked by."""

    owner: str
    role: str
    digest: str

    def is_of(self, person: dict[str, Any]) -> bool:
        """Whether a person of a copy is this one, with this password."""
        return (person["owner"], digest_of(str(person["secret"]))) == (self.owner, self.digest)


def path_of(file: str) -> str:
    """The file of the persons of an office."""
    return f"{file}{END}"


def take_along(file: str, target: str) -> None:
    """Copies the persons of an office's file, if it has any."""
    path = path_of(file)
    if os.path.lexists(path):
        try:
            files.copy_in_place(path, target)
        except OSError as error:
            raise Failure(f"{error.filename or target}: {error.strerror}") from error


def digest_of(secret: str) -> str:
    """The SHA-256 of what a password is checked by."""
    return hashlib.sha256(secret.encode()).hexdigest()


def standing(journal: str) -> dict[str, Standing]:
    """The persons that stand by a journal. A change that may not have been done, as it was stopped, counts."""
    changes: dict[str, dict[str, Any]] = {}
    for line in query.lines_of(journal):
        if CHANGE in line and (entry := entry_of(line)):
            changes[str(entry.get("id"))] = entry
        elif TOLD in line and (match := OF.search(line)) and (name := match[1].decode()) in changes:
            if (entry_of(line) or {}).get("status"):
                del changes[name]
    persons: dict[str, Standing] = {}
    for entry in changes.values():
        change(persons, [str(word) for word in query.listed(entry, "words")], str(entry.get(DIGEST)))
    return persons


def change(persons: dict[str, Standing], words: list[str], digest: str) -> None:
    """Does to persons what the words of a line of the journal say."""
    match words:
        case [_, "add", owner, name, role]:
            persons[name] = Standing(owner, role, digest)
        case [_, "role", name, role] if name in persons:
            persons[name] = replace(persons[name], role=role)
        case [_, "password", name] if name in persons:
            persons[name] = replace(persons[name], digest=digest)
        case [_, "remove", name]:
            persons.pop(name, None)


def changed(journal: str, start: int) -> frozenset[str]:
    """The persons of whom a journal says something behind a place."""
    lines = (line for line in query.lines_behind(journal, start) if CHANGE in line)
    words = [query.listed(entry_of(line) or {}, "words") for line in lines]
    return frozenset(str(each[3]) if each[1] == "add" else str(each[2]) for each in words if len(each) in (3, 4, 5))


def put_back(file: str, journal: Journal, *copies: str, without: Collection[str] = ()) -> list[str]:
    """Puts the persons of copies beside an office's file where it has none, as far as they stand by the journal, but
    for some; what is told of them."""
    if os.path.lexists(path_of(file)) or not (known := standing(journal.path)):
        return []
    back: dict[str, dict[str, Any]] = {}
    for person in (person for copy in copies for person in persons_in(copy)):
        name = person["name"]
        if name in known and name not in without and known[name].is_of(person):
            back.setdefault(name, person | {"role": known[name].role})
    lost = ", ".join(sorted(known.keys() - back.keys()))
    notes = [f"persons of owners whom `hilpoven person add` has to add, since no copy has their password: {lost}"]
    if not back:
        return notes
    write(file, [back[name] for name in sorted(back)])
    back_again = f"{counted(len(back), 'persons')} of owners can log in as before: {', '.join(sorted(back))}"
    return [back_again, *(notes if lost else [])]


def persons_in(copy: str) -> Iterator[dict[str, Any]]:
    """The persons of a copy, as far as it has any that this version can read."""
    try:
        with open(os.open(copy, files.READ), "rb") as text:
            value = json.load(text)
        if value["form"] == FORM:
            yield from [person for person in value["persons"] if all(isinstance(person[name], str) for name in MEMBERS)]
    except FileNotFoundError:
        pass
    except OSError as error:
        raise Failure(f"{copy} can't be read: {error.strerror}") from error
    except (ValueError, LookupError, TypeError, AttributeError):
        pass


def write(file: str, persons: list[dict[str, Any]]) -> None:
    """Gives an office persons, unless it has some meanwhile."""
    content = (json.dumps({"form": FORM, "persons": persons}, indent=1) + "\n").encode()
    try:
        files.replace(path_of(file), content, is_new=True, prepare=lambda new: os.fchmod(new, 0o600))
    except OSError as error:
        raise Failure(f"{path_of(file)} can't be written: {error.strerror}") from error
