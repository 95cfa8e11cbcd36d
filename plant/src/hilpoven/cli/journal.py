"""`hilpoven journal`: who did what when, of the plant and of the owners."""
import re
import sys
from dataclasses import astuple

import click

from ..core.context import Context
from ..core.failure import REFUSED, WRONG_USE, Failure, printable
from .output import give_table
from ..report import history
from ..core.journal import query
from ..report.history import COLUMNS
from ..core.days import format_moment


def journal_group(
    context: Context,
    since: str | None,
    until: str | None,
    whom: str | None,
    word: str | None,
    site_logs: tuple[str, ...],
    no_site: bool,
    questions: bool,
    form: str | None,
) -> None:
    """`hilpoven journal`."""
    entries = history.of_all(context, list(site_logs), not no_site, questions)
    zone = context.settings.time_zone
    rows = [astuple(entry)[: len(COLUMNS)] for entry in history.Asked(since, until, whom, word).of(entries, zone)]
    shown = [(format_moment(time, zone), *others) for time, *others in rows]
    give_table(COLUMNS, rows, form, "nothing", shown)


def head_of(text: str) -> tuple[int, str]:
    """A line's number and its hash, as `journal head` prints them."""
    match = re.fullmatch(r"\s*(?:journal )?([0-9]{1,18})[ :]([0-9a-f]{64})\s*", text)
    if not match:
        raise Failure(
            f"{text!r} is no head of a journal",
            WRONG_USE,
            "it is what `hilpoven journal head` printed: a number and 64 letters and digits",
        )
    return int(match[1]), match[2]


def verify(context: Context, heads: tuple[str, ...]) -> None:
    """`hilpoven journal verify`."""
    checked = query.check(context.journal().path, dict(map(head_of, heads)), context.file)
    for finding in [*checked.wrong, *checked.notes]:
        click.echo(finding)
    for entry in checked.unanswered:
        click.echo(printable(f"{entry.get('time')} {query.who(entry)}: {history.asked(entry)}: {history.UNKNOWN}"))
    click.echo(
        f"{checked.lines} lines{'' if checked.wrong else ', whole'}, {len(checked.unanswered)} without an answer; "
        f"head {checked.lines} {checked.head}"
    )
    sys.exit(REFUSED if checked.wrong else 0)


def head(context: Context) -> None:
    """`hilpoven journal head`."""
    checked = query.check(context.journal().path)
    click.echo(f"{checked.lines} {checked.head}")
