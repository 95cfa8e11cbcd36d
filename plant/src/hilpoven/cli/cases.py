"""`hilpoven case`: a recall from what begins it to its last answer."""
from collections.abc import Iterator, Sequence
from contextlib import contextmanager
from functools import partial

import click

from ..core import scanned
from ..core.context import Context
from ..core.failure import REFUSED, WRONG_USE, Failure, printable
from ..model import reach, residues
from ..model.notes import CaseReply
from ..model.register import cases as register_cases
from ..model.register.cases import Case
from ..model.register.drills import as_moment
from ..model.register.file import Notes
from ..model.rows import BatchId
from ..model.unit_order import has_cleanings
from ..record import cases, making
from ..record.cases import Concerned, Origin
from ..report.papers import case as papers, copies
from ..report.papers.case import CaseReport
from .output import give_table, print_table, tell, tell_all
from .papers import give, require_paper

MOST_TOLD = 60  # lots and batches that are told one by one; of more the number is told


def read(context: Context, number: str | None, is_open: bool) -> Case:
    """A case of the office."""
    with making.desk(context, hands_out=True) as desk:
        return register_cases.case_of(register_cases.cases_of(desk.notes), number, is_open)


@contextmanager
def reported(context: Context, case: Case, is_whole: bool = False) -> Iterator[CaseReport]:
    """A case with all that it comes to now, which the journal notes; whether also with what may contain residues of it,
    which may take a while."""
    office, journal = context.office_to_export("case", case.number), context.journal()
    starts = reach.unless_cleaned(journal, case.names) if is_whole else case.names
    with copies.opened(office, journal, starts) as source:
        yield papers.read_case(source, case, journal)


def open_command(
    context: Context,
    names: tuple[str, ...],
    lots: tuple[tuple[str, str], ...],
    supplier_lots: tuple[str, ...],
    documents: tuple[str, ...],
    parties: tuple[tuple[str, str], ...],
    unit: str | None,
    since: str | None,
    until: str | None,
    is_drill: bool,
    reason: str,
) -> None:
    """`hilpoven case open`."""
    typed = scanned.unfolded("case open", ["OWNER", "LOT"], names) if names else []
    if len(typed) > 2:
        raise Failure("case open: OWNER and LOT are all; others have --lot", WRONG_USE)
    first = [(typed[0] if typed[1:] else None, typed[-1])] if typed else []
    origin = Origin([*first, *lots], supplier_lots, documents, parties, unit, since, until)
    case, starts = cases.open_case(context, origin, reason, is_drill)
    kind = "drill" if case.is_drill else "case"
    holds = "shows what it would hold" if case.is_drill else "holds what is on hand, and stops open batches"
    click.echo(f"{kind} {case.number} began on {as_moment(case.opened)}")
    for name, _, why in starts:
        click.echo(printable(f"  {'batch' if isinstance(name, BatchId) else 'lot'} {name}: {why}"))
    how = "--tar | tar -x" if context.person.is_member else "FOLDER"
    tell(
        f"`hilpoven case hold` {holds}.\n"
        f"`hilpoven case paper {how}` makes the paper, a letter for each customer, and the contacts as CSV.\n"
        "`hilpoven case reply OWNER PARTY LOT ..` notes what a customer answers; `hilpoven case status` shows how far "
        "it is."
    )


def hold(context: Context, number: str | None) -> None:
    """`hilpoven case hold`."""
    case = read(context, number, is_open=True)
    with reported(context, case) as report:
        concerned = Concerned(report.lots_on_hand, report.open_batches)
    if case.is_drill:
        counts = f"batches: {len(concerned.batches):,}, lots: {len(concerned.lots):,}"
        click.echo(f"{case.number} is a drill: nothing is held; it would be ({counts}):")
        give_lines([*(f"batch {batch}" for batch in concerned.batches), *(f"lot {lot}" for lot in concerned.lots)])
        return
    stopped = cases.hold(context, case, concerned)
    for title, lines in (("held", stopped.held), ("held or stopped before", stopped.before)):
        click.echo(f"{title}: {len(lines):,}")
        give_lines(lines)
    click.echo(f"could not be held: {len(stopped.missed):,}")
    for line in stopped.missed:
        click.echo(printable(f"  {line}"))
    tell_all(stopped.remarks)
    if has_cleanings(Notes(context.journal())):
        tell("`hilpoven case status` has the batches, too, that may contain some: they held a unit next.")
    if stopped.missed:
        raise Failure("not all of it could be held", REFUSED, "what is named above stays to be done by hand")


def give_lines(lines: Sequence[str]) -> None:
    """Prints lines; of many the first ones, and how many more there are."""
    for line in lines[:MOST_TOLD]:
        click.echo(printable(f"  {line}"))
    if len(lines) > MOST_TOLD:
        click.echo(f"  and {len(lines) - MOST_TOLD:,} more")


def reply(
    context: Context,
    owner: str,
    party: str,
    lot: str | None,
    back: int | None,
    destroyed: int | None,
    gone: int | None,
    reason: str | None,
    number: str | None,
) -> None:
    """`hilpoven case reply`."""
    if lot is not None:
        _, lot = scanned.named_lot("case reply", owner, lot)
    case = read(context, number, is_open=True)
    with reported(context, case) as report:
        customer = next((each for each in report.customers if (each.owner, each.party) == (owner, party)), None)
    if customer is None or not party:
        raise Failure(
            f"{party} of {owner} got nothing of case {case.number}", REFUSED, "`hilpoven case status` has who did"
        )
    amounts = [amount or 0 for amount in (back, destroyed, gone)]
    if lot is None and any(amounts):
        if len(customer.items) > 1:
            names = ", ".join(item.lot.name for item in customer.items)
            raise Failure(f"of which lot? {party} got {names}", WRONG_USE, "LOT stands behind PARTY")
        lot = customer.items[0].lot.name
    if lot is not None:
        item = next((each for each in customer.items if each.lot.name == lot), None)
        if item is None:
            raise Failure(f"{party} of {owner} got no lot {lot} of case {case.number}", REFUSED)
        if sum(amounts) > item.had:
            why = f"{party} had {item.had:,} {item.measure} of {lot}, and {sum(amounts):,} are more"
            raise Failure(why, REFUSED, "`hilpoven correct` says if another amount was shipped")
    came_back, destroyed, gone = amounts
    note = CaseReply(owner, case.number, party, lot or "", came_back, destroyed, gone, reason or "")
    click.echo(f"noted {cases.reply(context, case.number, note)}")


def status(context: Context, number: str | None, form: str | None) -> None:
    """`hilpoven case status`."""
    case = read(context, number, is_open=False)
    with reported(context, case, is_whole=True) as report:
        facts, sheet, unclean = report.facts, papers.status(report), residues.lines_of(report.may_contain)
        has_unknown = report.has_unknown
    names = [column.title for column in sheet.columns]
    if form:
        give_table([column.name for column in sheet.columns], sheet.rows, form)
        return
    for name, text in facts.items():
        click.echo(printable(f"{name}: {text}"))
    if sheet.rows:
        click.echo()
        print_table(names, sheet.rows)
    for line in ["", *unclean] if unclean else ():
        click.echo(printable(line))
    if has_unknown:
        tell("`hilpoven case paper` names the shipments whose customer nobody noted, with the command that notes it.")


def paper(context: Context, number: str | None, folder: str | None, tar: bool, no_pdf: bool) -> None:
    """`hilpoven case paper`."""
    require_paper(folder, tar, no_pdf)
    case, plant = read(context, number, is_open=False), context.settings.plant
    name = f"case-{case.number}"
    make = partial(papers.documents, case=case, journal=context.journal(), plant=plant)
    starts = reach.unless_cleaned(context.journal(), case.names)
    give(context, name, make, folder, tar, no_pdf, starts)


def close(context: Context, number: str | None, reason: str | None) -> None:
    """`hilpoven case close`."""
    case = read(context, number, is_open=True)
    with reported(context, case) as report:
        is_done, facts = report.is_done, {"lots": report.facts["lots"], **report.progress}
    if not is_done and not (reason or "").strip():
        left = "; ".join(f"{name}: {text}" for name, text in facts.items())
        raise Failure(f"not all of it is accounted for: {left}", REFUSED, "--reason TEXT says why it ends all the same")
    click.echo(f"noted {cases.close(context, case.number, reason or '')}")
    tell("`hilpoven case paper` makes its paper, as it is now.")


def list_command(context: Context, form: str | None) -> None:
    """`hilpoven case list`."""
    with making.desk(context, hands_out=True) as desk:
        all_cases = register_cases.cases_of(desk.notes).values()
    rows = [
        (
            case.number,
            "drill" if case.is_drill else "recall",
            as_moment(case.opened),
            case.opened.who,
            case.note.origin,
            case.note.reason,
            as_moment(case.closed) if case.closed else "open",
        )
        for case in all_cases
    ]
    give_table(["case", "kind", "opened", "who", "from", "reason", "closed"], rows, form, "There is no case.")
