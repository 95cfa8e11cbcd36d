"""`hilpoven show`: one thing with all about it, read from a copy of the file."""
from collections.abc import Callable
from functools import partial

import click

from ..core import snapshot
from ..core.context import Context
from ..core.failure import printable
from ..core.table import formatted
from ..report import overviews
from .output import print_table
from ..model import unit_order
from ..model.register.standing import register_of


def print_overview(overview: overviews.Overview) -> None:
    """Prints what is shown of a thing, for people."""
    click.echo(printable(overview.title))
    for name, value in overview.facts.items():
        click.echo(printable(f"  {name}: {overview.words.get(name) or formatted(value, name)}"))
    for name, (columns, rows) in overview.tables.items():
        click.echo()
        if rows:
            print_table(columns, rows, name)
        else:
            click.echo(f"{name}: none")
    if overview.remarks:
        click.echo("\n" + "\n".join(map(printable, overview.remarks)))


def show(
    make: Callable[..., overviews.Overview], has_notes: bool, context: Context, as_json: bool, **names: str
) -> None:
    """Shows a thing by its names; the register may have notes of some."""
    with snapshot.opened(context.office_to_read()) as base:
        register = {"register": register_of(context, base)} if has_notes else {}
        overview = make(base, *names.values(), **register)
    click.echo(overview.as_json()) if as_json else print_overview(overview)


def unit(context: Context, as_json: bool, unit: str) -> None:
    """Shows a unit, with the order of batches and cleanings on it over all files."""
    with snapshot.opened(context.office_to_read()) as base:
        order = unit_order.read_with_times(context.journal(), base)
        overview = overviews.unit(base, unit, register_of(context, base), order)
    click.echo(overview.as_json()) if as_json else print_overview(overview)


lot, batch, key = (partial(show, make, True) for make in (overviews.lot, overviews.batch, overviews.movement))
order = partial(show, overviews.order, False)
owner = partial(show, overviews.owner, True)
recipe, material = (partial(show, make, False) for make in (overviews.recipe, overviews.material))
