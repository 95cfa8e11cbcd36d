"""`hilpoven publish` and its subcommands."""
import sys
import time
from datetime import datetime

import click

from hilpoven.cli.output import give_table, tell, tell_line
from hilpoven.core.context import Context
from hilpoven.core.days import zone_of
from hilpoven.core.failure import FAULT, REFUSED, WRONG_USE, Failure, printable

from . import publisher, settings, verifying
from .publisher import Publisher
from .tables import TABLES

SILENT = 30.0  # seconds after which a publisher that noted nothing doesn't look any more


def say(line: str) -> None:
    """Writes a line for the operator."""
    tell_line(printable(line))


def publish_group(context: Context, once: bool, is_check: bool, accepted: int | None) -> None:
    """`hilpoven publish`."""
    context.person.require_operator("publish")
    group, is_first = settings.of_office(context), publisher.load_state(context.file) is None
    with publisher.publishing(context, group, say) as publish:
        if is_check or accepted is not None:
            back = publish.resume()
            gone = sum(part.gone for part in back)
            if accepted is not None and accepted != gone:
                raise Failure(f"the office lacks {gone:,} rows that the group has, not {accepted:,}", REFUSED)
            if accepted is None:
                publisher.require_level(back)
                click.echo(counted(publish))
                return
            publish.retract(back, f"accepted by {context.person.login}")
            click.echo(f"{gone:,} rows were put aside in the group")
        if not once:
            publish.run()
        if publish.step() is None:
            raise Failure(publish.state.fault, FAULT)
        click.echo(f"sent {publish.sent:,}; {counted(publish)}")
        tell(f"next: systemctl enable --now toll-publish@{context.settings.office}" if is_first else "")


def counted(publish: Publisher) -> str:
    """How many rows the group has of the office."""
    rows = sum(head.n for head in publish.at.heads.values()) if publish.at else 0
    return f"the group has {rows:,} rows of {publish.group.plant}"


def publish_status(context: Context) -> None:
    """`hilpoven publish status`."""
    context.person.require_operator("publish")
    group = settings.of_office(context)
    state = publisher.load_state(context.file)
    if state is None:
        raise Failure(f"nobody publishes {context.file}", WRONG_USE, "`hilpoven publish` does")
    behind, silent = time.time() - state.level, time.time() - state.looked
    zone = zone_of(context.settings.time_zone)
    at = f"{datetime.fromtimestamp(state.level, zone):%Y-%m-%d %H:%M:%S}" if state.level else "never"
    faults = [state.fault] if state.fault else []
    faults += (
        [f"its publisher hasn't looked for {silent:,.0f} seconds"] if silent > max(SILENT, 3 * group.every) else []
    )
    for line in [
        *(f"ATTENTION: {fault}" for fault in faults),
        f"the group had all of {group.plant} at {at}: {state.rows:,} rows",
    ]:
        click.echo(printable(line))
    sys.exit(REFUSED if faults or behind > group.behind else 0)


def publish_verify(context: Context, is_full: bool) -> None:
    """`hilpoven publish verify`."""
    context.person.require_operator("publish")
    with publisher.publishing(context, settings.of_office(context), say) as publish:
        publisher.require_level(publish.resume())
        report = verifying.compared(publish)
        verifying.compare_recalls(publish, is_full, report)
    for fault in report.faults:
        click.echo(printable(fault))
    click.echo(report.line)
    sys.exit(REFUSED if report.faults else 0)


def publish_digest(context: Context, owner: str, form: str | None) -> None:
    """`hilpoven publish digest`."""
    context.person.require_operator("publish")
    with publisher.publishing(context, settings.of_office(context), say) as publish:
        publish.resume()
        rows = verifying.digest(publish, owner)
    if not rows:
        raise Failure(f"{owner} is no company of the group", REFUSED)
    give_table(
        ["file", "table", "rows", "head"],
        [(file, TABLES[mark].name, n, head) for file, mark, n, head in rows],
        form,
        "",
    )
    if not form:
        tell("The group shows the owner the same heads, computed of the rows that the owner sees there.")
