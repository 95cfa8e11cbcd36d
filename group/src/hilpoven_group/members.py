"""Who belongs to a group: offices, companies, which owner of an office is which company, and which party of a company
is another office. The group's administrator says so."""
import contextlib
import os
import re
import shlex
from importlib.resources import files
from typing import Any, cast

from psycopg2 import extensions

from hilpoven import HOUSE
from hilpoven.core.failure import REFUSED, WRONG_USE, Failure
from hilpoven.core.forms import name_fault

from . import database, questions
from .database import Connection
from .numbers import FIRST_HOUSE, MOST_FILES, MOST_OFFICES

PLANT = re.compile("[A-Za-z0-9][A-Za-z0-9_.-]{0,31}")
PUBLISHER = "hg_publisher_"  # the beginning of the roles as which offices publish
# Bytes of a secret; the role of logins of no company; and that as which the service looks logins up.
SECRET, QUALITY, SERVICE = 20, "hg_quality", "hg_service"
SERVICE_USER = "hilpoven-group"  # as whom the service runs
MOST_LETTERS = 60  # of a company's name
PARTY = """
INSERT INTO hg.parties (gid, office, party, other) VALUES (%s, %s, %s, %s)
ON CONFLICT (gid, office, party) DO UPDATE SET other = excluded.other
"""


def make_database(dsn: str) -> str:
    """Makes the database that the settings name, unless it is there; its name."""
    if not (named := database.parsed(dsn).get("dbname", "")):
        raise Failure("the settings name no database", WRONG_USE, "such as dbname=hilpoven")
    beside = extensions.make_dsn(dsn, dbname="postgres")
    with database.failing(dsn), contextlib.closing(database.connect(beside)) as base:
        base.autocommit = True  # PostgreSQL makes no database within a transaction
        if not database.value(base, "SELECT 1 FROM pg_database WHERE datname = %s", (named,)):
            database.run(base, f"CREATE DATABASE {quoted(base, named)} TEMPLATE template0 ENCODING 'UTF8' LOCALE 'C'")
    return named


def init(base: Connection) -> None:
    """Makes the group's tables in a database that has none. It takes PostgreSQL's superuser, since it makes roles."""
    if database.value(base, "SELECT 1 FROM pg_namespace WHERE nspname = 'hg'"):
        raise Failure("the database has a group already", REFUSED)
    if not database.value(base, "SELECT rolsuper FROM pg_roles WHERE rolname = current_user"):
        raise Failure(
            "the group's tables are made by PostgreSQL's superuser", REFUSED, "sudo -u postgres hilpoven group init"
        )
    with base.cursor() as cursor:
        cursor.execute((files(__package__) / "schema.sql").read_text())
        cursor.execute(questions.definitions())
    grant_database(base)


def grant_database(base: Connection) -> None:
    """Lets in the roles of a group alone."""
    name = quoted(base, str(database.value(base, "SELECT current_database()")))
    with base.cursor() as cursor:
        cursor.execute(f"REVOKE ALL ON DATABASE {name} FROM PUBLIC")
        cursor.execute(f"GRANT CONNECT ON DATABASE {name} TO hg_publisher, hg_company, hg_reader, hg_service")
        cursor.execute(f"GRANT TEMPORARY ON DATABASE {name} TO hg_publisher")


def quoted(base: Connection, name: str) -> str:
    """A name as SQL has it."""
    return str(database.value(base, "SELECT quote_ident(%s)", (name,)))


def require_plant(name: str) -> None:
    """Fails unless this can be the name of an office in a group."""
    if not PLANT.fullmatch(name):
        raise Failure(
            f"{name!r} can't be the name of an office in a group", WRONG_USE, "up to 32 letters, digits, _ . -"
        )


def add_office(base: Connection, name: str, gln: str | None = None) -> str:
    """Adds an office, whose own stock is a company of its own; the secret with which it publishes, as a role of its
    name, which is told once."""
    require_plant(name)
    number = database.value(base, "SELECT coalesce(max(office), 0) + 1 FROM hg.offices")
    if number > MOST_OFFICES:
        raise Failure(f"a group has at most {MOST_OFFICES:,} offices", REFUSED)
    role = f"{PUBLISHER}{name}"
    sql = "INSERT INTO hg.offices (office, name, publisher, gln) VALUES (%s, %s, %s, %s)"
    database.run(base, sql, (number, name, role, gln or ""))
    sql = "INSERT INTO hg.companies (gid, name, house) VALUES (%s, %s, %s)"
    database.run(base, sql, (FIRST_HOUSE + number, f"{HOUSE} of {name}", number))
    sql = "INSERT INTO hg.members (office, owner, since, gid) VALUES (%s, %s, 1, %s)"
    database.run(base, sql, (number, HOUSE, FIRST_HOUSE + number))
    make_role(base, role, "hg_publisher")
    secret = os.urandom(SECRET).hex()
    hashed = cast(Any, extensions).encrypt_password(secret, role, scope=base, algorithm="scram-sha-256")
    database.run(base, f"ALTER ROLE {quoted(base, role)} PASSWORD %s", (hashed,))
    return secret


def make_role(base: Connection, role: str, of: str) -> None:
    """Makes a role that may log in, of a role."""
    if not database.value(base, "SELECT 1 FROM pg_roles WHERE rolname = %s", (role,)):
        database.run(base, f"CREATE ROLE {quoted(base, role)} LOGIN")
    database.run(base, f"GRANT {of} TO {quoted(base, role)}")


def add_company(base: Connection, name: str) -> str:
    """Adds a company; the role as which the question service asks for it."""
    if not name.isprintable() or not 0 < len(name) <= MOST_LETTERS:
        raise Failure(f"{name!r} can't be the name of a company", WRONG_USE, f"up to {MOST_LETTERS} letters")
    gid = database.value(base, "SELECT coalesce(max(gid), 0) + 1 FROM hg.companies WHERE gid < %s", (FIRST_HOUSE,))
    if gid >= FIRST_HOUSE:
        raise Failure("the group has no number for another company", REFUSED)
    role = f"hg_company_{gid}"
    database.run(base, "INSERT INTO hg.companies (gid, name, role) VALUES (%s, %s, %s)", (gid, name, role))
    make_role(base, role, "hg_company")
    return role


def add_login(base: Connection, login: str, company: str | None) -> tuple[str, str]:
    """Adds a login of the question service, of a company or, without one, of the group's quality people; the secret,
    which is told once, and the role as which it asks."""
    require_plant(login)
    sql = "SELECT role FROM hg.companies WHERE name = %s AND role IS NOT NULL"
    role = database.value(base, sql, (company,)) if company else QUALITY
    if role is None:
        raise Failure(f"the group has no company {company}", REFUSED, "`group company add` adds one")
    secret = os.urandom(SECRET).hex()
    sql = "INSERT INTO hg.logins (login, secret, role) VALUES (%s, sha256(%s), %s)"
    database.run(base, sql, (login, secret.encode(), role))
    return secret, role


def lines_missing(base: Connection, role: str) -> list[str]:
    """Shell commands that let the question service log in as a role, as far as PostgreSQL's files don't yet."""
    hba, ident, name = (
        database.value(base, f"SELECT {of}")
        for of in ("current_setting('hba_file')", "current_setting('ident_file')", "current_database()")
    )
    commands = []
    sql = "SELECT 1 FROM pg_hba_file_rules WHERE type = 'local' AND 'map=group' = ANY (options)"
    if not database.value(base, sql):
        rule = f"local {name} {SERVICE},{QUALITY},+hg_company peer map=group"
        commands.append(f"sed -i {shlex.quote(f'1i {rule}')} {shlex.quote(hba)}")
    sql = "SELECT 1 FROM pg_ident_file_mappings WHERE map_name = 'group' AND sys_name = %s AND pg_username = %s"
    for mapped in (SERVICE, role):
        if not database.value(base, sql, (SERVICE_USER, mapped)):
            commands.append(f"echo group {SERVICE_USER} {mapped} >> {shlex.quote(ident)}")
    return [*commands, "systemctl reload postgresql"] if commands else []


def remove_login(base: Connection, login: str) -> None:
    """Removes a login of the question service."""
    if not database.run(base, "DELETE FROM hg.logins WHERE login = %s", (login,)):
        raise Failure(f"there is no login {login}", REFUSED)


def office_number(base: Connection, name: str) -> int:
    """The number of an office; fails if there is none."""
    number = database.value(base, "SELECT office FROM hg.offices WHERE name = %s", (name,))
    if number is None:
        known = [row[0] for row in database.rows(base, "SELECT name FROM hg.offices ORDER BY 1")]
        raise Failure(f"the group has no office {name}", REFUSED, f"there are: {', '.join(known)}" if known else "")
    return int(number)


def company_of(base: Connection, office: int, owner: str) -> int:
    """Which company an owner of an office is now."""
    sql = "SELECT gid FROM hg.members WHERE office = %s AND owner = %s ORDER BY since DESC LIMIT 1"
    if (gid := database.value(base, sql, (office, owner))) is None:
        raise Failure(f"{owner} is no company of the group in that office", REFUSED, "`group member add` says which")
    return int(gid)


def add_member(base: Connection, plant: str, owner: str, company: str, since: int) -> None:
    """Notes which company an owner of an office is, from one of its files on. What is published isn't another's
    afterwards."""
    if fault := name_fault(owner):
        raise Failure(f"OWNER {fault}", WRONG_USE)
    if not 0 < since <= MOST_FILES or owner == HOUSE:
        raise Failure(f"{owner} of file {since} can't be a company", WRONG_USE)
    office, gid = office_number(base, plant), database.value(
        base, "SELECT gid FROM hg.companies WHERE name = %s", (company,)
    )
    if gid is None:
        raise Failure(f"the group has no company {company}", REFUSED, "`group company add` adds one")
    sql = "SELECT 1 FROM hg.heads WHERE office = %s AND owner = %s AND file >= %s AND n > 0 LIMIT 1"
    if database.value(base, sql, (office, owner, since)):
        raise Failure(f"rows of {owner} in file {since} of {plant} are published already", REFUSED)
    words = (office, owner, since, gid)
    database.run(base, "INSERT INTO hg.members (office, owner, since, gid) VALUES (%s, %s, %s, %s)", words)


def add_party(base: Connection, plant: str, owner: str, party: str, other: str) -> None:
    """Notes that a party of an owner is another office of the group."""
    if fault := name_fault(party):
        raise Failure(f"PARTY {fault}", WRONG_USE)
    office, at = office_number(base, plant), office_number(base, other)
    if office == at:
        raise Failure(f"{plant} is no party of itself", WRONG_USE)
    words = (company_of(base, office, owner), office, party, at)
    database.run(base, PARTY, words)
