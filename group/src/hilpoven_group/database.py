"""The group's database: how it is reached, and what is told of one that isn't."""
import contextlib
from collections.abc import Iterator, Sequence
from typing import Any

import psycopg2
import psycopg2.extensions

from hilpoven.core.failure import FAULT, REFUSED, WRONG_USE, Failure

from . import settings

Connection = psycopg2.extensions.connection
Row = tuple[Any, ...]
PATIENCE = 10  # seconds for a connection
# What a lost server or a lost connection raises: what was under way is done again, once it is known how far it came.
LOST = (psycopg2.OperationalError, psycopg2.InterfaceError)


def connect(database: str, user: str = "") -> Connection:
    """A connection to the group's database, as a role unless the settings name one."""
    options: dict[str, Any] = {"connect_timeout": PATIENCE, "application_name": "hilpoven"}
    known = parsed(database)
    if user and "user" not in known:
        options["user"] = user
    base: Connection = psycopg2.connect(database, **options)
    return base


def parsed(database: str) -> dict[str, str]:
    """What the settings say of the group's database, by libpq's names."""
    try:
        known: dict[str, str] = psycopg2.extensions.parse_dsn(database)
    except psycopg2.ProgrammingError as error:
        raise Failure(f"{settings.PATH}: database is wrong: {first_line(error)}", WRONG_USE) from error
    return known


@contextlib.contextmanager
def opened(database: str, user: str = "", is_read_only: bool = False) -> Iterator[Connection]:
    """The group's database for one command: what it does is kept if nothing fails. Each fault is a failure."""
    with failing(database), contextlib.closing(connect(database, user)) as base:
        if is_read_only:
            base.set_session("REPEATABLE READ", readonly=True)
        with base:
            yield base


@contextlib.contextmanager
def failing(database: str) -> Iterator[None]:
    """Has each fault of the group's database be a failure."""
    try:
        yield
    except psycopg2.errors.InsufficientPrivilege as error:
        raise Failure(f"the group's database refuses that: {first_line(error)}", REFUSED) from error
    except psycopg2.errors.UniqueViolation as error:
        raise Failure(f"that is there already: {detail_of(error)}", REFUSED) from error
    except psycopg2.Error as error:
        advice = f'database = ".." in {settings.PATH} says where it is' if database == settings.LOCAL else ""
        raise Failure(f"the group's database: {first_line(error)}", FAULT, advice) from error


def first_line(error: Exception) -> str:
    """What an error of the database says first."""
    return (str(error).strip().splitlines() or [type(error).__name__])[0]


def detail_of(error: psycopg2.Error) -> str:
    """What an error of the database says of the row."""
    return error.diag.message_detail or first_line(error)


def rows(base: Connection, sql: str, words: Sequence[Any] | dict[str, Any] = ()) -> list[Row]:
    """The rows of a query."""
    with base.cursor() as cursor:
        cursor.execute(sql, words or None)
        return cursor.fetchall()


def value(base: Connection, sql: str, words: Sequence[Any] = ()) -> Any:
    """The only value of a query; `None` if it has no row."""
    records = rows(base, sql, words)
    return records[0][0] if records else None


def run(base: Connection, sql: str, words: Sequence[Any] = ()) -> int:
    """Does what changes rows; how many it did."""
    with base.cursor() as cursor:
        cursor.execute(sql, words or None)
        return int(cursor.rowcount)
