"""The persons of owners, in a file beside the office that its user alone may read: FILE.persons.

It is read anew whenever it changed, so that what a command does to a person counts from the next request on.
"""
import contextlib
import dataclasses
import enum
import json
import os
import re
import threading
from collections.abc import Callable, Iterator
from dataclasses import dataclass, field
from typing import Any

from hilpoven.care import persons as kept
from hilpoven.core import files, lock, rights, snapshot
from hilpoven.core.context import Context
from hilpoven.core.failure import REFUSED, WRONG_USE, Failure
from hilpoven.core.forms import name_fault
from hilpoven.core.snapshot import Stamp

FORM = 1  # of the file
MOST = 5_000  # persons of an office
NAME = re.compile(r"[a-z0-9][a-z0-9._@-]{0,63}")
LABEL = r"[A-Za-z0-9](?:[A-Za-z0-9-]{0,61}[A-Za-z0-9])?"
ADDRESS = re.compile(rf"(?=.{{3,254}}\Z)[A-Za-z0-9_][A-Za-z0-9.!#$%&'*+/=?^_`{{|}}~-]{{0,63}}@{LABEL}(?:\.{LABEL})*")


class Role(enum.IntEnum):
    """What a person may ask of the office; each may what those before it may."""

    READS = 1
    ORDERS = 2
    RELEASES = 3

    @property
    def word(self) -> str:
        """The role as it is typed."""
        return self.name.lower()


class Language(enum.StrEnum):
    """In which language a person gets mail."""

    ENGLISH = "en"
    GERMAN = "de"


class Often(enum.StrEnum):
    """How often a person gets mail of what waits."""

    DAILY = "daily"
    ONCE = "at-once"


@dataclass(frozen=True)
class OwnersPerson:
    """A person of an owner: its name, which no other person of the office has; its role; what its password is checked
    by; and where, in which language and how often it gets mail, if it does."""

    name: str
    owner: str
    role: Role
    secret: str = field(repr=False)
    mail: str = ""
    language: Language = Language.ENGLISH
    often: Often = Often.DAILY

    def value(self) -> dict[str, Any]:
        """As the file has it."""
        return {**dataclasses.asdict(self), "role": self.role.word}


def person_of(value: Any) -> OwnersPerson:
    """The person of a value of the file; fails with a ValueError, KeyError or TypeError where it is none."""
    texts = {name: value[name] for name in ("name", "owner", "secret", "mail")}
    if not all(isinstance(text, str) for text in texts.values()) or not NAME.fullmatch(texts["name"]):
        raise ValueError("no person")
    if name_fault(texts["owner"]) or texts["mail"] and not ADDRESS.fullmatch(texts["mail"]):
        raise ValueError("no person")
    role, language, often = Role[value["role"].upper()], Language(value["language"]), Often(value["often"])
    return OwnersPerson(role=role, language=language, often=often, **texts)


Persons = dict[str, OwnersPerson]  # by their names


def path_of(context: Context) -> str:
    """The file of the persons of an office."""
    return kept.path_of(context.file)


def read(path: str) -> Persons:
    """The persons of a file; none where there is no file. Fails where it isn't one of persons."""
    try:
        with open(os.open(path, files.READ), "rb") as file:
            value = json.load(file)
        if value["form"] != FORM:
            raise ValueError("another form")
        return {person.name: person for person in map(person_of, value["persons"])}
    except FileNotFoundError:
        return {}
    except OSError as error:
        raise rights.unusable(f"{path} can't be read", path, error) from error
    except (ValueError, LookupError, TypeError, AttributeError) as error:
        raise Failure(f"{path} is no file of persons that this version knows") from error


def write(path: str, persons: Persons) -> None:
    """Puts persons in a file's place, whole or not at all, for this user alone."""
    value = {"form": FORM, "persons": [persons[name].value() for name in sorted(persons)]}
    try:
        files.replace(path, (json.dumps(value, indent=1) + "\n").encode(), prepare=lambda file: os.fchmod(file, 0o600))
    except OSError as error:
        raise rights.unusable(f"{path} can't be written", path, error) from error


@contextlib.contextmanager
def changed(context: Context) -> Iterator[Persons]:
    """The persons of an office, which are written as they are at the end, while nobody else changes them."""
    path = path_of(context)
    with lock.held(path, context.settings.wait):
        persons = read(path)
        yield persons
        write(path, persons)


def known(persons: Persons, name: str) -> OwnersPerson:
    """The person of a name; fails where there is none."""
    if name not in persons:
        raise Failure(f"there is no person {name}", REFUSED, "`hilpoven person list` has them")
    return persons[name]


def require_name(name: str) -> None:
    """Fails where a name can't be a person's."""
    if not NAME.fullmatch(name):
        why = "is no name of a person: 1 to 64 of a-z, 0-9 and . _ @ -, and a letter or digit first"
        raise Failure(f"NAME: `{name[:64]}` {why}", WRONG_USE)


def require_address(address: str) -> None:
    """Fails where a text can't be an address of mail; an empty one is none."""
    if address and not ADDRESS.fullmatch(address):
        raise Failure("--mail: this is no address such as jane@acme.example", WRONG_USE)


class KeptPersons:
    """The persons of a file, read anew when it changed."""

    def __init__(self, path: Callable[[], str]) -> None:
        self.path, self.lock = path, threading.Lock()
        self.stamp: Stamp | None = None
        self.persons: Persons = {}

    def now(self) -> Persons:
        """The persons as they are now. One that can't be read has none: nobody comes in."""
        path = self.path()
        with self.lock:
            stamp = snapshot.stamp_of(path)
            if stamp != self.stamp or not snapshot.is_settled(stamp):
                self.stamp, self.persons = None, {}
                self.persons = read(path)
                self.stamp = stamp
            return self.persons
