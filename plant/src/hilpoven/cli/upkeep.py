"""`hilpoven new`, `backup`, `restore`, `verify`, `status` and `carry-over`: the office's files as a whole. What does
each is imported where it is needed."""
import sys
from collections import Counter
from collections.abc import Iterable
from typing import TYPE_CHECKING

import click

from ..core import rights, server
from ..core.context import Context
from ..core.failure import REFUSED, Failure, printable
from ..core.table import Row, counted
from .output import bar, print_table, tell

if TYPE_CHECKING:
    from ..care.health import Fullness
    from ..care.years.carrying import Work

MOST_ORDERS, MOST_GAUGES = 40, 12  # that are shown
GAUGES = ["owner", "of", "there are", "it begins with", "most", "full"]
MOST = 12  # gauges that are shown of an office, where none is above FULL
FEW = 5  # receipts that are shown
SUSPECTS = ["owner", "key", "lot", "material", "day"]


def print_lines(lines: Iterable[str]) -> None:
    """Prints lines as they come."""
    for line in lines:
        click.echo(line)


def new(context: Context, file: str | None) -> None:
    """`hilpoven new`."""
    from ..care import upkeep

    print_lines(upkeep.new(context, file))


def backup(context: Context, folder: str | None, keep: int | None, days: int | None) -> None:
    """`hilpoven backup`."""
    from ..care import upkeep

    print_lines(upkeep.backup(context, folder, keep, days))


def restore(context: Context, backup: str | None, is_foreign: bool, moment: float | None) -> None:
    """`hilpoven restore`."""
    from ..care import upkeep

    print_lines(upkeep.restore(context, backup, is_foreign, moment))


def verify(context: Context) -> None:
    """`hilpoven verify`."""
    from ..care import upkeep

    verified = upkeep.verify(context)
    print_lines(verified.lines)
    sys.exit(verified.status)


# Health


def status(context: Context, prometheus: bool, is_whole: bool) -> None:
    """`hilpoven status`."""
    from ..care.health import health_of, metrics
    from ..report.companion import making

    rights.become_owner(context.file)
    health = health_of(context, making.age_of)
    if prometheus:
        click.echo(metrics(health), nl=False)
        sys.exit(health.code)
    faults = [f"NOT WELL: {fault}" for fault in health.bad]
    warnings = [f"ATTENTION: {warning}" for warning in health.attention]
    print_lines(map(printable, [*faults, *warnings, *health.lines]))
    print_gauges(health.fullness, is_whole)
    print_suspects(health.fullness, is_whole)
    sys.exit(health.code)


def print_gauges(fullness: "Fullness", is_whole: bool) -> None:
    """Prints the gauges: the fullest, or all of them."""
    first = fullness.pressing()
    others = [gauge for gauge in fullness.full if gauge not in first]
    rows: list[Row] = [
        (
            gauge.owner or "(plant)",
            gauge.kind,
            gauge.count,
            gauge.most,
            f"{gauge.percent} %",
            str(fullness.full_by.get(gauge, "")),
        )
        for gauge in (fullness.full if is_whole else [*first, *others][: max(MOST, len(first))])
    ]
    columns = ["owner", "of", "there are", "most", "full", "full by"]
    if rows:
        click.echo()
        print_table(*((columns, rows) if fullness.full_by else (columns[:-1], [row[:-1] for row in rows])))


def print_suspects(fullness: "Fullness", is_whole: bool) -> None:
    """Prints the receipts that look as if a trace ended there: the newest few, or all of them; and what answers all of
    an owner."""
    if not fullness.suspects:
        return
    chosen = fullness.suspects if is_whole else fullness.suspects[:FEW]
    count = counted(len(fullness.suspects), "receipts")
    click.echo(f"\n{count} of what batches make, into new lots without a link: a trace may end there.")
    click.echo(
        "`hilpoven link` says what each contains, `hilpoven note not-linked OWNER KEY ..` that they contain nothing."
    )
    counts = Counter(suspect.owner for suspect in fullness.suspects)
    for owner, number in sorted(counts.items()):
        last = max(suspect.day for suspect in fullness.suspects if suspect.owner == owner)
        if number > FEW:
            click.echo(
                f"{number:,} are of {owner}. If all of them are opening stock, or came anew: "
                f"`hilpoven note not-linked {owner} --until {last}`."
            )
    if not is_whole and len(fullness.suspects) > FEW:
        click.echo(f"The newest {FEW}; `hilpoven status --all` shows all:")
    print_table(
        SUSPECTS, [(suspect.owner, suspect.key, suspect.lot, suspect.material, suspect.day) for suspect in chosen]
    )


# A new file


def print_plan(work: "Work") -> None:
    """Prints how full the new file begins, and which orders stay behind."""
    from ..care.years import steps

    with work.reading() as base:
        gauges = [
            (owner, kind, before, after, most, f"{after * 100 // most} %")
            for owner, kind, before, after, most in steps.fullness(base)
        ]
        count = steps.count(base)
    click.echo(
        f"{count:,} words and requests make the new file; stock comes over as receipts of day {work.receipts.day}, "
        f"keys {work.receipts.series}-1 and so on"
    )
    print_table(GAUGES, gauges[:MOST_GAUGES])
    print_staying(work)


def print_staying(work: "Work") -> None:
    """Prints the orders that stay behind: what is left of them is placed under a new name."""
    from ..care.years import steps

    with work.reading() as base:
        orders = base.execute(steps.STAYING).fetchall()
    if left := [order for order in orders if order[5]]:
        click.echo("\nOrders that were begun stay behind. What is left of them is placed under a new name:")
        print_table(["owner", "order", "recipe", "batches", "opened", "left"], left)
    if done := [order for order in orders if not order[5]]:
        first = ", ".join(f"{owner} {name}" for owner, name, *_ in done[:MOST_ORDERS])
        click.echo(f"\n{len(done):,} finished orders stay behind: {first}{', ..' if len(done) > MOST_ORDERS else ''}")


def note(text: str) -> None:
    """Tells those who wait at a terminal what is done now."""
    if sys.stderr.isatty():
        click.echo(text, err=True)


def carry_over(context: Context, new: str | None, day: int | None, is_plan: bool, without: tuple[str, ...]) -> None:
    """`hilpoven carry-over`."""
    from ..care.years import carrying

    target = carrying.target_of(context.file, new)
    office = context.office_to_read() if is_plan else context.office()
    place, leaving = server.place_of(context), tuple(dict.fromkeys(without))
    with carrying.prepared(office, place, context.journal(), target, str(context.day(day)), is_plan, leaving) as work:
        note("the file is looked at")
        reasons = carrying.hindrances(work)
        for reason in reasons:
            click.echo(reason, err=True)
        if is_plan:
            print_plan(work)
            sys.exit(REFUSED if reasons else 0)
        if reasons:
            raise Failure("the office isn't carried over; nothing was changed", REFUSED)
        done = carrying.carry_over(work, carrying.Telling(note, tell, bar))
        click.echo(carrying.outcome(work, done))
        if done:
            print_staying(work)
