"""`hilpoven years`: what is asked over all files of an office, from the first to the newest."""
import click

from ..core.context import Context
from ..core.failure import REFUSED, Failure, printable
from ..core.table import Row
from ..report import over_years
from ..report.over_years import Shown
from .output import give_table, print_table, tell, tell_all
from .showing import print_overview


def show(shown: Shown, is_csv: bool) -> None:
    """Prints a table, or CSV, and tells which files it is of."""
    tell(shown.marks)
    give_rows(shown.columns, shown.rows, is_csv)
    for line in shown.below:
        click.echo(printable(line), err=is_csv)
    tell_all(shown.sources)


def give_rows(columns: list[str], rows: list[Row], is_csv: bool) -> None:
    """Prints a table, or CSV; also one without rows."""
    give_table(columns, rows, "csv") if is_csv else print_table(columns, rows)


def files(context: Context, is_csv: bool) -> None:
    """`hilpoven years files`."""
    show(over_years.files(context), is_csv)


def recall(context: Context, owner: str, lot: str, file: str, is_csv: bool) -> None:
    """`hilpoven years recall`."""
    show(over_years.recall(context, owner, lot, file), is_csv)


def trace(context: Context, owner: str, lot: str, way: str, file: str, is_csv: bool) -> None:
    """`hilpoven years trace`."""
    show(over_years.trace(context, owner, lot, way, file), is_csv)


def lot_card(context: Context, owner: str, lot: str, file: str, is_json: bool) -> None:
    """`hilpoven years lot`."""
    overview, sources = over_years.lot_card(context, owner, lot, file)
    click.echo(overview.as_json()) if is_json else print_overview(overview)
    tell_all(sources)


def statement(context: Context, owner: str, first: int, last: int, is_csv: bool) -> None:
    """`hilpoven years statement`: as CSV its lots alone."""
    shown = over_years.statement(context, owner, first, last)
    give_rows(shown.lots.columns, shown.lots.rows if is_csv else [*shown.lots.rows, *shown.sums], is_csv)
    if not is_csv:
        print_below(shown.used)
    for line in shown.overdrafts:
        click.echo(line, err=is_csv)
    if not is_csv:
        print_below(shown.links)
    tell_all(shown.lots.sources)
    if shown.unexplained:
        raise Failure(f"{shown.unexplained:,} of {owner} is on hand that no movement explains", REFUSED)


def print_below(table: Shown) -> None:
    """Prints a table with its title below others, if it has rows."""
    if table.rows:
        click.echo()
        print_table(table.columns, table.rows, table.title)
