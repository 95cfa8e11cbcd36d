"""`hilpoven import`, `to-csv` and `count`: sheets that are recorded, converted, and made for a count of stock."""
import contextlib
import os
import sys
from typing import Any

import click

from ..core import meanings, paths, snapshot
from ..core.context import Context
from ..core.failure import FAULT, REFUSED, WRONG_USE, Failure, printable
from ..core.table import counted
from ..model.rows import require_owner
from ..record.sheets import counting, importing
from ..record.sheets.counting import Count, Outcome
from ..record.sheets.reading import read_source
from ..record.sheets.sheet import text_of
from ..record.workbook.tables import WORKBOOK
from .output import bar, tell, tell_line

MOST_LEFT = 5  # sublots that are named of those that a sheet leaves out


def import_command(context: Context, path: str, check: bool, are_meant: bool, **given: Any) -> None:
    """`hilpoven import`."""
    if given["what"] == WORKBOOK:
        from .workbooks import import_workbook

        import_workbook(context, path, check, are_meant, given)
        return
    if sys.stderr.isatty():
        tell_line(printable(f"reading {path}"))
    given_sheet = importing.read(context, path, are_meant, **given)
    sheet = given_sheet.sheet
    for line in [*sheet.remarks, *map(str, sorted([*sheet.wrong, *sheet.refused, *sheet.let]))]:
        tell_line(line)
    if sheet.wrong:
        status = REFUSED if sheet.records else WRONG_USE
        raise Failure(f"{path}: nothing of it was given", status, "the sheet as a whole is told above")
    if not sheet.records:
        tell_line(printable(f"hilpoven: {path}: nothing of it was given: no row can be read"))
    if check:
        unread = len({refusal.row for refusal in sheet.refused})
        click.echo(f"{counted(len(sheet.records), 'rows')} can be given, {unread:,} can't be read")
        sys.exit(REFUSED if sheet.refused else 0)
    with bar(given["what"], len(sheet.records)) as advance:
        given_sheet.run(advance)
    for line in given_sheet.lines(given["what"]):
        click.echo(line)
    if end := given_sheet.end():
        tell_line(end)
        tell(meanings.explained("faults", meanings.fault_in(given_sheet.fault), {}))
    sys.exit(given_sheet.status)


def to_csv(_: Context, source: str, target: str | None, force: bool, **given: Any) -> None:
    """`hilpoven to-csv`."""
    if target and os.path.exists(target) and os.path.exists(source) and os.path.samefile(source, target):
        raise Failure(f"{target} is the sheet itself", WRONG_USE)
    with paths.target(target, force) if target else contextlib.nullcontext() as output:
        sheet = read_source(source, given).sheet
        if refused := sorted([*sheet.wrong, *sheet.refused]):
            tell_line("\n".join([*map(str, refused), f"{len(refused)} refused, nothing is written"]))
            sys.exit(REFUSED)
        text = text_of(sheet.kind, sheet.records)
        if len(text) > importing.MOST_BYTES:
            why = f"it would have {len(text):,} bytes, and {importing.MOST_BYTES:,} are imported"
            raise Failure(why, REFUSED, "`hilpoven import` gives it in parts")
        for finding in sorted(sheet.let):
            tell_line(str(finding))
        if output:
            output.give(text)
        else:
            click.echo(text, nl=False)


def sheet(context: Context, owner: str | None, material: str | None, day: int | None, xlsx: bool) -> None:
    """`hilpoven count sheet`."""
    if xlsx and sys.stdout.isatty():
        raise Failure("--xlsx is for a file, and standard output is a terminal", WRONG_USE, "`> count.xlsx` takes it")
    with snapshot.opened(context.office_to_read()) as base:
        if owner:
            require_owner(base, owner)
        rows = counting.rows_to_count(base, owner, material, context.day(day))
    if not rows:
        raise Failure("nothing is on hand", REFUSED)
    click.echo(counting.as_workbook(rows) if xlsx else counting.as_csv(rows), nl=False)


def count_import(context: Context, counted_sheet: str, check: bool, are_meant: bool, **given: Any) -> None:
    """`hilpoven count import`."""
    count = counting.read(context, counted_sheet, are_meant, **given)
    for finding in count.remarks:
        tell_line(str(finding))
    if count.is_wrong:
        raise Failure(f"{counted_sheet}: nothing of it was recorded", WRONG_USE, "the sheet as a whole is told above")
    for finding in sorted(count.refused):
        click.echo(str(finding))
    if check:
        for difference in count.differences:
            click.echo(printable(str(difference)))
    else:
        for difference, answer in counting.record(context, count):
            text = (answer.output or answer.error).strip()
            refusal = meanings.refusal_in(text)
            means = f": {meanings.meaning('refusals', refusal)}" if refusal else ""
            click.echo(printable(f"{difference}: {text}{means}"))
    sys.exit(report(count, check))


def report(count: Count, check: bool) -> int:
    """Prints the sums, and what ended the import, if a fault did; the exit status."""
    count.outcomes[Outcome.REFUSED] += len({finding.row for finding in count.refused})
    total = sum(count.outcomes.values()) + (len(count.differences) if check else 0)
    sums = [
        f"{count.outcomes[outcome]:,} {outcome.value}" for outcome in Outcome if not check or outcome != Outcome.DONE
    ]
    differences = f"{len(count.differences):,} differ, " if check else ""
    click.echo(f"{counted(total, 'sublots')}: {differences}{', '.join(sums)}")
    if left := count.left_out:
        names = ", ".join(f"{lot} {sublot}" for lot, sublot in left[:MOST_LEFT])
        ellipsis = ", .." if left[MOST_LEFT:] else ""
        tell_line(printable(f"not in the sheet, and not empty: {counted(len(left), 'sublots')}: {names}{ellipsis}"))
    if count.fault:
        tell_line(printable(f"{count.fault}: import the sheet again; what is recorded isn't recorded twice"))
    return FAULT if count.fault else REFUSED if count.outcomes[Outcome.REFUSED] else 0
