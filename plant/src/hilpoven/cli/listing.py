"""`hilpoven list`: what is there, read from a copy of the file."""
from functools import partial
from typing import Any, NamedTuple

import click

from ..core import scanned, snapshot
from ..core.context import Context
from ..core.failure import WRONG_USE, Failure
from .output import give_table, tell
from ..core.forms import listed
from ..core.table import Row
from ..model.schema import Kind
from ..report.lists import FILTERS, LISTINGS, Listing
from .building import Maker
from .words import DAY, WORD, OneOf, pass_context

TYPES = {"kind": OneOf([kind.word for kind in Kind]), "since": DAY}  # of options whose values are no names


class Listed(NamedTuple):
    """What a list shows: its columns and rows, and why there are none."""

    columns: list[str]
    rows: list[Row]
    reasons: list[str]


class ListCommand(click.Command):
    """The subcommand of a table, which says of an option of another table where that is."""

    def parse_args(self, ctx: click.Context, args: list[str]) -> list[str]:
        """Reads the options."""
        try:
            return super().parse_args(ctx, args)
        except click.NoSuchOption as error:
            name = error.option_name.removeprefix("--")
            lists = [list_name for list_name, listing in LISTINGS.items() if name in listing.filters]
            if not lists:
                raise
            why = f"list {self.name} has no option --{name}"
            others = [f"--{filter_name}" for filter_name in FILTERS if filter_name in LISTINGS[str(self.name)].filters]
            has = f"it has {listed(others)}; " if others else ""
            raise Failure(why, WRONG_USE, f"{has}--{name} is of list {listed(lists)}") from None


MOST_DAYS = 3_650
HAVE_NOTES = ("owners", "materials", "tests", "lots", "moves", "results")  # the lists of whose rows something is noted


def options_of(name: str, listing: Listing) -> list[click.Parameter]:
    """The options of a table: which rows are listed, and how."""
    options: list[click.Parameter] = [
        click.Option([f"--{option}"], metavar=option.upper(), type=TYPES.get(option, WORD), help=FILTERS[option].about)
        for option in FILTERS
        if option in listing.filters
    ]
    if listing.is_open:
        options.append(click.Option(["--open", "only_open"], is_flag=True, help=f"Only {listing.open_about}."))
    if name == "lots":
        about = "Only lots on hand that expire, or are to be tested again, within so many days from today."
        options.append(click.Option(["--expiring"], metavar="DAYS", type=click.IntRange(0, MOST_DAYS), help=about))
    return [
        *options,
        click.Option(["--csv", "form"], flag_value="csv", help="As CSV, for a spreadsheet."),
        click.Option(["--json", "form"], flag_value="json", help="As JSON, for a program."),
    ]


def list_command(name: str, listing: Listing) -> click.Command:
    """The subcommand of a table."""
    example = f"hilpoven list {name}{' --owner ACME' if 'owner' in listing.columns else ''}"
    text = f"Lists {listing.about}.\n\nExample: {example}"

    @pass_context
    def show(
        context: Context,
        form: str | None = None,
        only_open: bool = False,
        expiring: int | None = None,
        **given: str | int | None,
    ) -> None:
        asked = {filter_name: value for filter_name, value in given.items() if value is not None}
        columns, rows, reasons = read(context, name, asked, only_open)
        if expiring is not None:
            from ..core.days import last_day_within
            from ..report.listing import expiring_lots

            rows = expiring_lots(columns, rows, last_day_within(expiring, context.settings.time_zone))
        give_table(columns, rows, form, f"no {name}")
        if not rows and not form:
            tell("\n".join(reasons))

    return ListCommand(name, params=options_of(name, listing), callback=show, help=text, short_help=listing.about)


def read(context: Context, name: str, asked: dict[str, Any], only_open: bool) -> Listed:
    """The columns and rows of a table, with what is noted of them. A scanned text says whose the lot is, too."""
    listing = LISTINGS[name]
    if scanned.scanned_sublot(asked.get("lot")):
        owner = asked.get("owner") if listing.whose_lot == "owner" else None
        asked["lot_owner"], asked["lot"] = scanned.named_lot("list", owner, asked["lot"])
    with snapshot.opened(context.office_to_read()) as base:
        if context.may_have_notes and name in HAVE_NOTES:
            from ..report import listing as listed_rows

            columns, rows = listed_rows.read_of(context, base, name, asked, only_open)
        else:
            columns = list(listing.columns)
            rows = [tuple(row) for row in base.execute(listing.sql(asked, only_open), asked)]
        if rows or not asked and not only_open:
            return Listed(columns, rows, [])
        from ..report import listing as listed_rows

        return Listed(columns, rows, listed_rows.reasons(base, name, asked, only_open))


def makers() -> dict[str, Maker]:
    """How the subcommand of each table is made."""
    return {name: Maker(partial(list_command, name, listing), "", listing.about) for name, listing in LISTINGS.items()}
