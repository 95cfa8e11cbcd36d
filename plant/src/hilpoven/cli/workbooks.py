"""`hilpoven import --what workbook` and `hilpoven export workbook`: what an office begins with, in one workbook."""
import contextlib
import os
import sys
from typing import Any

import click

from ..core import paths, roles, snapshot
from ..core.context import Context
from ..core.failure import REFUSED, WRONG_USE, Failure, printable
from ..core.table import counted
from ..model.register.standing import register_of
from ..record import making, noting
from ..record.workbook.giving import Giving
from ..record.workbook.plan import Plan
from ..record.workbook.planning import plan_of
from ..record.workbook.reading import workbook_of
from ..record.workbook.tables import TABLES
from ..report import workbook as books
from .output import bar, tell, tell_line

MOST_NAMED = 8  # owners whose names are told


def import_workbook(context: Context, path: str, check: bool, are_meant: bool, given: dict[str, Any]) -> None:
    """`hilpoven import --what workbook`."""
    context.office()
    workbook = workbook_of(path, given)
    with making.desk(context) as desk:
        plan = plan_of(context, desk, workbook, are_meant)
        for finding in sorted([*plan.faults, *workbook.let]):
            click.echo(str(finding), err=True)
        if plan.faults:
            why = f"{path}: {counted(len(plan.faults), 'faults')}, and nothing of it was given"
            raise Failure(why, REFUSED, "each is named above with its cell")
        require_roles(context, plan)
        if check:
            print_counts(plan, "can be given")
            return
        source = {"sheet": os.path.basename(path), "sheet_sha256": workbook.sha256}
        with bar("workbook", len(plan.steps)) as advance:
            giving = Giving(context, desk, plan, source, advance)
            giving.run()
    report(giving)
    sys.exit(giving.status)


def require_roles(context: Context, plan: Plan) -> None:
    """Fails for a member who hasn't the roles of all commands that the workbook stands for."""
    notes = [*plan.notes, *(note for step in plan.steps for note in step.notes)]
    commands = [*(step.line.name for step in plan.steps), *map(noting.maker_of, notes)]
    for command in dict.fromkeys(filter(None, commands)):
        roles.require(context, command)


def print_counts(plan: Plan, new: str) -> None:
    """Prints of each table how many rows say something new, and how many the office has."""
    for title in TABLES:
        if count := plan.rows[title]:
            click.echo(f"{title}: {plan.count_new(title):,} {new}, {count - plan.count_new(title):,} there already")
    if not plan.rows:
        click.echo("no row is in any table")


def report(giving: Giving) -> None:
    """Prints what came of a workbook."""
    if giving.end:
        tell_line(printable(f"{giving.end}; it ended there, behind {counted(giving.done, 'commands')}"))
        tell("Import the workbook again: what was given isn't given twice.")
    else:
        print_counts(giving.plan, "accepted")
    if giving.owners:
        named = ", ".join(giving.owners[:MOST_NAMED]) + (", .." if giving.owners[MOST_NAMED:] else "")
        tell_line(f"Nobody knows a key of {named}: hilpoven owner key NAME --random makes one and shows it.")


def export_workbook(context: Context, target: str | None, is_ods: bool, force: bool) -> None:
    """`hilpoven export workbook`."""
    form = form_of(target, is_ods)
    if not target and sys.stdout.isatty():
        raise Failure(
            "a workbook is for a file, and standard output is a terminal", WRONG_USE, "`> book.xlsx` takes it"
        )
    with paths.target(target, force) if target else contextlib.nullcontext() as file:
        office = context.office_to_export("export", "workbook")
        with snapshot.opened(office) as base:
            tables = books.tables_of(base, register_of(context, base))
            remarks = books.left_out(base)
        content = books.FORMS[form](tables)
        if file:
            file.give(content)
        else:
            click.echo(content, nl=False)
    tell("\n".join(remarks))


def form_of(target: str | None, is_ods: bool) -> str:
    """The form of a workbook, by the end of its name or by the option."""
    end = os.path.splitext(target)[1].lower().removeprefix(".") if target else "ods" if is_ods else "xlsx"
    if end not in books.FORMS:
        raise Failure("a workbook's name ends with .xlsx or .ods", WRONG_USE, "such as book.xlsx")
    if is_ods and end != "ods":
        raise Failure(f"--ods is given, and the name ends with .{end}", WRONG_USE)
    return end
