"""`hilpoven person`: who of an owner's people may log in at the site."""
import contextlib
import dataclasses
from collections.abc import Iterator

import click
from hilpoven import HOUSE
from hilpoven.care import persons as kept
from hilpoven.care.keys import require_name as require_owner
from hilpoven.cli.output import give_table
from hilpoven.cli.owners import line_given
from hilpoven.core import snapshot
from hilpoven.core.context import Context
from hilpoven.core.failure import REFUSED, WRONG_USE, Failure
from hilpoven.model.nearest import nearest

from . import passwords, people
from .people import Language, Often, OwnersPerson, Persons, Role

COLUMNS = ["owner", "name", "role", "mail", "language", "often"]


def password_given(is_random: bool) -> tuple[str, bool]:
    """The password, and whether it was made here, so that it has to be shown."""
    line = line_given("password", f"one of {passwords.MADE} letters", is_random)
    if line is None:
        return passwords.new_password(), True
    if fault := passwords.fault(line):
        raise Failure(f"the password {fault}", WRONG_USE, "nothing on standard input, or --random, makes one")
    return line, False


@contextlib.contextmanager
def noted_change(context: Context, *words: str, secret: str = "") -> Iterator[Persons]:
    """The persons of the office, which are changed, as the journal notes in these words; of a new secret it has a hash,
    by which a copy of the persons is known to be right."""
    office = context.office()
    members = {kept.DIGEST: kept.digest_of(secret)} if secret else {}
    with context.journal().noted(office.file, [kept.WORD, *words], **members), people.changed(context) as persons:
        yield persons


def require_known_owner(context: Context, owner: str) -> None:
    """Fails where the office has no such owner, which people could be of."""
    require_owner(owner)
    if owner == HOUSE:
        raise Failure("HOUSE is the plant, whose people use `hilpoven` and the screens", WRONG_USE)
    with snapshot.opened(context.office()) as base:
        owners = [name for name, in base.execute("SELECT owner FROM owners ORDER BY owner")]
    if owner not in owners:
        raise Failure(f"there is no owner {owner}", REFUSED, nearest(owner, owners, "owners"))


def add(
    context: Context, owner: str, name: str, role: str, mail: str, language: str, often: str, is_random: bool
) -> None:
    """`hilpoven person add`."""
    people.require_name(name)
    people.require_address(mail)
    require_known_owner(context, owner)
    password, is_made = password_given(is_random)
    secret = passwords.secret_of(password)
    with noted_change(context, "add", owner, name, role, secret=secret) as persons:
        if name in persons:
            raise Failure(f"there is a person {name}, of {persons[name].owner}", REFUSED, "each name is one person's")
        if len(persons) >= people.MOST:
            raise Failure(f"an office has at most {people.MOST:,} persons", REFUSED)
        chosen = Role[role.upper()], secret, mail, Language(language), Often(often)
        persons[name] = OwnersPerson(name, owner, *chosen)
    click.echo(f"{name} of {owner} {role}")
    show(password, is_made)


def show(password: str, is_made: bool) -> None:
    """Prints a password that was made here, which is kept nowhere."""
    if is_made:
        click.echo(f"password {password}")


def list_command(context: Context, owner: str | None, form: str | None) -> None:
    """`hilpoven person list`."""
    context.office()
    persons = people.read(people.path_of(context)).values()
    rows = [
        (person.owner, person.name, person.role.word, person.mail, person.language.value, person.often.value)
        for person in sorted(persons, key=lambda person: (person.owner, person.name))
        if owner in (None, person.owner)
    ]
    give_table(COLUMNS, rows, form, "no person")


def role_command(context: Context, name: str, role: str) -> None:
    """`hilpoven person role`."""
    with noted_change(context, "role", name, role) as persons:
        persons[name] = dataclasses.replace(people.known(persons, name), role=Role[role.upper()])
    click.echo(f"{name} {role} from the next request on")


def mail_command(context: Context, name: str, address: str | None, language: str | None, often: str | None) -> None:
    """`hilpoven person mail`."""
    people.require_address(address or "")
    with noted_change(context, "mail", name) as persons:
        person = people.known(persons, name)
        chosen = Language(language or person.language), Often(often or person.often)
        is_kept = address is None and bool(language or often)
        mail = person.mail if is_kept else address or ""
        persons[name] = dataclasses.replace(person, mail=mail, language=chosen[0], often=chosen[1])
    click.echo(f"{name} gets mail at {mail}, {chosen[1]}" if mail else f"{name} gets no mail")


def password_command(context: Context, name: str, is_random: bool) -> None:
    """`hilpoven person password`."""
    context.office()
    people.known(people.read(people.path_of(context)), name)
    password, is_made = password_given(is_random)
    secret = passwords.secret_of(password)
    with noted_change(context, "password", name, secret=secret) as persons:
        persons[name] = dataclasses.replace(people.known(persons, name), secret=secret)
    click.echo(f"the password of {name} is changed")
    show(password, is_made)


def remove(context: Context, name: str) -> None:
    """`hilpoven person remove`."""
    with noted_change(context, "remove", name) as persons:
        del persons[people.known(persons, name).name]
    click.echo(f"{name} is removed")
