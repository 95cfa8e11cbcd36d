"""`hilpoven notify`: mails an owner's people what waits for them, by the machine's `sendmail`.

What was mailed is noted beside the office before `sendmail` is called, and taken back if that didn't take it: so a stop
in between costs a mail, and no mail comes twice.
"""
import datetime
import email.policy
import email.utils
import hashlib
import json
import os
import subprocess
from collections.abc import Sequence
from dataclasses import dataclass, field
from email.headerregistry import Address
from email.message import EmailMessage
from typing import Any

import click
import jinja2
from hilpoven.cli.output import tell
from hilpoven.core import days, files, lock, rights
from hilpoven.core.context import Context
from hilpoven.core.failure import FAULT, WRONG_USE, Failure, printable
from hilpoven.core.table import counted

from . import people
from .people import Language, Often, OwnersPerson
from .waiting import Item, Kind, waiting_for

FORM = 1  # of the file of what was mailed
MORNING = 6  # o'clock, from which on a day's mail goes out
MOST_NAMED = 50  # lots of a kind that a mail names
PATIENCE = 60  # seconds for `sendmail`
DAYS = {Language.ENGLISH: "%Y-%m-%d", Language.GERMAN: "%d.%m.%Y"}
POLICY = email.policy.default.clone(cte_type="7bit", max_line_length=120)


@dataclass
class Told:
    """What a person was mailed: on which day the last time, and of what waits now what was told."""

    day: str = ""
    marks: list[str] = field(default_factory=list)


def path_of(context: Context) -> str:
    """The file of what was mailed."""
    return f"{context.file}.notified"


def read(path: str) -> dict[str, Told]:
    """What persons were mailed, by their names."""
    try:
        with open(os.open(path, files.READ), "rb") as file:
            value = json.load(file)
        if value["form"] != FORM:
            raise ValueError("another form")
        return {
            str(name): Told(str(each["day"]), list(map(str, each["marks"]))) for name, each in value["told"].items()
        }
    except FileNotFoundError:
        return {}
    except OSError as error:
        raise rights.unusable(f"{path} can't be read", path, error) from error
    except (ValueError, LookupError, TypeError, AttributeError) as error:
        advice = "without it, what waits is mailed once more: move it away"
        raise Failure(f"{path} doesn't say what was mailed", advice=advice) from error


def write(path: str, mailed: dict[str, Told]) -> None:
    """Notes what persons were mailed; it is on the disk when this returns."""
    value = {"form": FORM, "told": {name: vars(each) for name, each in sorted(mailed.items())}}
    try:
        files.replace(path, (json.dumps(value, indent=1) + "\n").encode())
    except OSError as error:
        raise rights.unusable(f"{path} can't be written", path, error) from error


def notify(context: Context) -> int:
    """`hilpoven notify`."""
    context.person.require_operator("notify")
    office, settings, path = context.office(), context.settings.mail, path_of(context)
    people.require_address(settings.sender)
    if not settings.sender:
        raise Failure("no sender is named", WRONG_USE, 'sender = "office@plant.example" below [mail] of the settings')
    sent, faults = 0, 0
    with lock.held(path, context.settings.wait):
        persons = [person for person in people.read(people.path_of(context)).values() if person.mail]
        waiting = waiting_for(context, {person.owner for person in persons}) if persons else {}
        mailed = {person.name: each for person in persons if (each := read(path).get(person.name))}
        for person in sorted(persons, key=lambda person: person.name):
            before = mailed.get(person.name, Told())
            items = waiting.get(person.owner, [])
            now = [item.mark for item in items]
            new = due(person, items, before, days.now(context.settings.time_zone))
            marks = [mark for mark in now if mark in before.marks or new]
            after = Told(str(context.today) if new else before.day, marks)
            if after == before:
                continue
            mailed[person.name] = after
            write(path, mailed)
            if not new:
                continue
            context.journal().exported(office.file, ["notify", person.name])
            if why := send(settings.sendmail, settings.sender, person.mail, message(context, person, new, len(items))):
                mailed[person.name] = before
                write(path, mailed)
                tell(printable(f"mail to {person.name} isn't sent: {why}"))
            sent, faults = sent + (not why), faults + bool(why)
    click.echo(f"{counted(sent, 'mails')} sent")
    return FAULT if faults else 0


def due(person: OwnersPerson, items: Sequence[Item], before: Told, now: datetime.datetime) -> list[Item]:
    """What is mailed to a person now: at once what wasn't told, and once a day all that waits."""
    if person.often is Often.ONCE:
        return [item for item in items if item.mark not in before.marks]
    return list(items) if now.hour >= MORNING and before.day != str(now.date()) else []


def message(context: Context, person: OwnersPerson, items: Sequence[Item], count: int) -> bytes:
    """The mail of a person: what is told, and how much waits in all."""
    settings, plant = context.settings.mail, context.settings.plant
    template = templates().get_template(f"mail.{person.language}.txt")
    by_kind = {kind: [item for item in items if item.kind is kind] for kind in Kind}
    values: dict[str, Any] = {"owner": person.owner, "items": by_kind, "count": len({item.lot for item in items})}
    values |= {
        "waiting": count,
        "most": MOST_NAMED,
        "page": settings.page,
        "plant": plant,
        "is_daily": person.often is Often.DAILY,
    }
    subject, _, text = template.render(**values, day=lambda day: shown_day(day, person.language)).partition("\n")
    mail = EmailMessage(policy=POLICY)
    name, _, host = settings.sender.partition("@")
    mail["From"] = Address(plant.name, name, host)
    mail["To"] = Address("", *person.mail.split("@"))
    mail["Subject"] = subject
    mail["Date"] = email.utils.localtime()
    digest = hashlib.sha256(repr((person.name, str(context.today), [item.mark for item in items])).encode()).hexdigest()
    mail["Message-ID"] = f"<{digest[:32]}@{host}>"
    mail["Auto-Submitted"] = "auto-generated"
    mail.set_content(text.strip() + "\n")
    mail["Content-Language"] = person.language.value  # behind the content, which has fields of its own
    return bytes(mail)


def shown_day(day: int, language: Language) -> str:
    """A day as a language writes it; a number that is no date stays one."""
    when = days.date_of(day)
    return str(day) if when is None else when.strftime(DAYS[language])


def templates() -> jinja2.Environment:
    """The texts of mails, a file for each language."""
    loader = jinja2.PackageLoader("hilpoven_persons", "templates")
    return jinja2.Environment(loader=loader, trim_blocks=True, lstrip_blocks=True, undefined=jinja2.StrictUndefined)


def send(program: str, sender: str, address: str, content: bytes) -> str:
    """Gives a mail to `sendmail`; why it didn't take it, empty if it did. One that isn't answered in time may be sent,
    and counts as such."""
    try:
        words = [program, "-i", "-f", sender, "--", address]
        done = subprocess.run(words, input=content, stdout=subprocess.PIPE, stderr=subprocess.STDOUT, timeout=PATIENCE)
    except subprocess.TimeoutExpired:
        return ""
    except OSError as error:
        return f"{program} can't be run: {error.strerror}"
    text = done.stdout.decode(errors="replace").strip().splitlines()
    return "" if not done.returncode else f"{program} ended with {done.returncode}: {text[-1] if text else ''}"
