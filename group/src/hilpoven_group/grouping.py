"""`hilpoven group` and its subcommands."""
import contextlib
import socket
import sys
from collections.abc import Iterator
from shlex import quote

import click

from hilpoven.cli.output import give_table, tell
from hilpoven.core import settings as site
from hilpoven.core.context import Context
from hilpoven.core.failure import REFUSED, WRONG_USE, Failure, printable
from hilpoven.model.genealogy import BACK, FORWARD

from . import database, exports, members, recalls, settings, verifying
from .database import Connection
from .tables import TABLES

# The secret says to each side who the other is, and whose connection it is.
ENCRYPTED = "sslmode=require channel_binding=require"
# What comes next, as commands to be copied.
LET_IN = """next, as root: let offices in by their passwords, and listen for them
  echo {rule} >> {hba} && \\
  sudo -u postgres psql -qc "ALTER SYSTEM SET listen_addresses = '*'" && systemctl restart postgresql
then each office: sudo -u postgres hilpoven group office add NAME"""
ON_PLANT = """next, on its machine as root, if the office is called {plant} there too
  echo {reached} | install -o toll -g toll -m 600 /dev/stdin {file}
  hilpoven --office {plant} publish --once
and here, each company with the owners that it is
  sudo -u postgres hilpoven group company add COMPANY --member {plant} OWNER"""


@contextlib.contextmanager
def asked(context: Context, is_read_only: bool = True) -> Iterator[Connection]:
    """The group's database, as the role of whoever gives the command; a member of the group hilpoven has none."""
    context.person.require_operator("group")
    with database.opened(settings.load().database, is_read_only=is_read_only) as base:
        yield base


def init(context: Context) -> None:
    """`hilpoven group init`."""
    context.person.require_operator("group")
    name = members.make_database(settings.load().database)
    with asked(context, is_read_only=False) as base:
        members.init(base)
        hba = database.value(base, "SELECT current_setting('hba_file')")
    click.echo(f"the group's tables are made in the database {name}")
    tell(LET_IN.format(rule=quote(f"hostssl {name} +hg_publisher all scram-sha-256"), hba=quote(hba)))


def office_add(context: Context, plant: str, gln: str | None, host: str | None) -> None:
    """`hilpoven group office add`."""
    with asked(context, is_read_only=False) as base:
        secret = members.add_office(base, plant, gln)
        name = database.value(base, "SELECT current_database()")
    role, file = f"{members.PUBLISHER}{plant}", f"{site.DATA}/{plant}/office.db{settings.LOG_IN}"
    reached = f"host={host or socket.getfqdn()} dbname={name} user={role} password={secret} {ENCRYPTED}"
    click.echo(f"{plant} publishes as {role}")
    tell(ON_PLANT.format(plant=plant, reached=quote(reached), file=file))


def company_add(
    context: Context, company: str, owners: tuple[tuple[str, str], ...], parties: tuple[tuple[str, str, str], ...]
) -> None:
    """`hilpoven group company add`."""
    with asked(context, is_read_only=False) as base:
        role = members.add_company(base, company)
        for plant, owner in owners:
            members.add_member(base, plant, owner, company, since=1)
        for plant, party, other in parties:
            if not (named := [owner for at, owner in owners if at == plant]):
                raise Failure(f"--party {plant}: the company has no --member there", WRONG_USE)
            members.add_party(base, plant, named[0], party, other)
    click.echo(printable(f"the question service asks for {company} as {role}"))


def member_add(context: Context, plant: str, owner: str, company: str, since: str | int) -> None:
    """`hilpoven group member add`."""
    with asked(context, is_read_only=False) as base:
        members.add_member(base, plant, owner, company, int(since))


def party(context: Context, plant: str, owner: str, party: str, office: str) -> None:
    """`hilpoven group party`."""
    with asked(context, is_read_only=False) as base:
        members.add_party(base, plant, owner, party, office)


def login_add(context: Context, login: str, company: str | None) -> None:
    """`hilpoven group login add`."""
    with asked(context, is_read_only=False) as base:
        secret, role = members.add_login(base, login, company)
        commands = members.lines_missing(base, role)
    click.echo(secret)
    tell("next, as root: " + " && ".join([*commands, "systemctl enable --now hilpoven-group"]) if commands else "")


def login_remove(context: Context, login: str) -> None:
    """`hilpoven group login remove`."""
    with asked(context, is_read_only=False) as base:
        members.remove_login(base, login)


def serve(context: Context) -> None:
    """`hilpoven group serve`."""
    context.person.require_operator("group")
    from . import service

    service.serve(settings.load())


def recall(context: Context, office: str, owner: str, lot: str, way: str | None, file: str, form: str | None) -> None:
    """`hilpoven group recall`."""
    with asked(context) as base:
        for start in recalls.lots_named(base, office, owner, lot, file):
            traced = recalls.trace(base, start, way or FORWARD)
            rows = recalls.lines(base, traced)
            give_table(recalls.COLUMNS, rows, form, "no lots")
            if shipments := [] if way == BACK else recalls.shipments(base, traced):
                if not form:
                    click.echo()
                give_table(recalls.SHIPMENT_COLUMNS, shipments, form, "no shipments")
            tell(recalls.summary(traced, rows))
        tell(recalls.age_line(base))


def export(context: Context, form: str, office: str, owner: str, lot: str, way: str | None) -> None:
    """`hilpoven group export`."""
    uri = settings.load().uri
    with asked(context) as base:
        exported = exports.read(base, recalls.lots_named(base, office, owner, lot), way or FORWARD, uri)
        tell(recalls.age_line(base))
    click.echo(exported.epcis() if form == "epcis" else exported.fsma(), nl=False)


def ends(context: Context, form: str | None) -> None:
    """`hilpoven group ends`."""
    with asked(context) as base:
        give_table(recalls.END_COLUMNS, recalls.ends(base), form, "no ends")
        tell(recalls.age_line(base))


def join(
    context: Context, office: str, owner: str, lot: str, other: str, other_owner: str, other_lot: str, reason: str
) -> None:
    """`hilpoven group join`."""
    with asked(context, is_read_only=False) as base:
        src = recalls.lot_named(base, office, owner, lot)
        recalls.join(base, src, recalls.lot_named(base, other, other_owner, other_lot), reason)


def status(context: Context, form: str | None) -> None:
    """`hilpoven group status`."""
    with asked(context) as base:
        give_table(["office", "as_of", "seconds"], recalls.ages(base), form, "no offices")


def verify(context: Context, office: str | None) -> None:
    """`hilpoven group verify`."""
    with asked(context) as base:
        if office:
            members.office_number(base, office)
        heads = verifying.computed(base, office)
    faults = [head for head in heads if not head.is_as_published]
    for head in faults:
        file, mark, owner = head.key
        subject = f"{TABLES[mark].name} of {owner or 'nobody'} in file {file} of office {head.office}"
        click.echo(printable(f"{subject}: {head.own.n:,} rows don't give the head of {head.published.n:,}"))
    state = "the same" if not faults else f"{len(faults):,} differ"
    click.echo(f"{len(heads):,} heads of {sum(head.own.n for head in heads):,} rows: {state}")
    sys.exit(REFUSED if faults else 0)
