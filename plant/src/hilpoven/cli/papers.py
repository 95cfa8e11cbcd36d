"""`hilpoven papers`, `drill`, `settle`, `labels`, `board` and `companion`: what is handed out about material. What
makes each is imported where it is needed."""
import contextlib
import os
import re
import sys
from collections.abc import Callable, Iterator, Sequence
from functools import partial
from typing import TYPE_CHECKING, Any, TypeAlias

import click

from ..core import forms, paths, scanned
from ..core.context import Context
from ..core.days import date_of, days_of_month, format_month, now
from ..core.failure import REFUSED, WRONG_USE, Failure, printable
from ..core.office import SUPERSEDED
from ..core.table import counted
from ..model.rows import BatchId, LotId
from .output import say_done, steps, tell

if TYPE_CHECKING:
    from ..model.register.drills import Drill
    from ..report.papers.copies import Source
    from ..report.papers.printing import Document

RELOADS, TURNS, STALE = 30, 8, 180  # seconds until it is read anew, until a list turns its page, and until it is old
Make: TypeAlias = "Callable[[Source], list[Document]]"


def check(**words: str) -> None:
    """Fails if a word can't be a name."""
    for name, word in words.items():
        plain = re.sub(r" \([^()/]+\)$", "", word)  # a name that came again has its file behind it
        if fault := forms.name_fault(plain):
            raise Failure(f"{name.upper()}: `{word}` {fault}", WRONG_USE)


def require_place(folder: str | None, tar: bool) -> None:
    """Fails if it isn't said where papers go, or if they can't go there."""
    if tar == bool(folder):
        raise Failure("either FOLDER or --tar says where the papers go", WRONG_USE)
    if tar and sys.stdout.isatty():
        raise Failure("--tar is for a pipe or a file, and standard output is a terminal", WRONG_USE)


def give(
    context: Context,
    name: str,
    make: Make,
    folder: str | None,
    tar: bool,
    no_pdf: bool,
    starts: Sequence[LotId | BatchId] | None = None,
) -> None:
    """Makes papers, and gives them, which the journal notes; those of a recall alone with what it begins."""
    from ..report.papers import delivery

    require_place(folder, tar)
    office = context.office_to_export("papers", name)
    target = folder or sys.stdout.buffer
    day = context.today
    task = delivery.Delivery(name, make, context.settings.plant, day, not no_pdf, target, starts)
    with steps() as begin:
        written = delivery.deliver(office, context.journal(), task, begin, tell)
    say_done(written)


def recall(context: Context, owner: str, lot: str, **where: Any) -> None:
    """`hilpoven papers recall`."""
    from ..model import reach
    from ..report.papers import recall_paper

    check(owner=owner, lot=lot)
    make = partial(recall_paper.documents, start=LotId(owner, lot))
    starts = reach.starts_of(context.journal(), owner, lot)
    give(context, f"recall-{owner}-{lot}", make, starts=starts, **where)


def batch(context: Context, owner: str, order: str, number: str, **where: Any) -> None:
    """`hilpoven papers batch`."""
    from ..report.papers import batch_record

    check(owner=owner, order=order)
    if fault := forms.BATCH.fault(number):
        raise Failure(f"BATCH: `{number}` {fault}", WRONG_USE)
    asked = BatchId(owner, order, int(number))
    make = partial(batch_record.documents, asked=asked, journal=context.journal())
    give(context, f"batch-{owner}-{order}-{asked.number}", make, **where)


def certificate(context: Context, owner: str, lot: str, key: str, **where: Any) -> None:
    """`hilpoven papers certificate`."""
    from ..report.papers import certificate as lot_certificate

    check(owner=owner, lot=lot, **({"key": key} if key else {}))
    plant, day = context.settings.plant, context.today
    name = f"certificate-{owner}-{lot}{f'-{key}' if key else ''}"
    give(context, name, lambda source: lot_certificate.documents(source, LotId(owner, lot), plant, day, key), **where)


def delivery_note(context: Context, owner: str, key: str, others: tuple[str, ...], **where: Any) -> None:
    """`hilpoven papers delivery-note`."""
    from ..report.papers import certificate as lot_certificate

    for word in (key, *others):
        check(owner=owner, key=word)
    keys, plant = [key, *others], context.settings.plant
    name = f"delivery-{owner}-{key}"
    give(context, name, lambda source: lot_certificate.delivery_note(source, owner, keys, plant), **where)


def lot_command(context: Context, owner: str, lot: str, **where: Any) -> None:
    """`hilpoven papers lot`."""
    from ..report.papers import lot_card

    check(owner=owner, lot=lot)
    give(context, f"lot-{owner}-{lot}", lambda source: lot_card.documents(source, LotId(owner, lot)), **where)


def require_order(first: int, last: int) -> None:
    """Fails where the first of two days is behind the last."""
    if first > last:
        raise Failure(f"--from: {first} is behind --to, {last}", WRONG_USE)


def settlement(
    context: Context, owner: str, first: int | None, last: int | None, month: int | None, **where: Any
) -> None:
    """`hilpoven papers settlement`."""
    from ..report.papers import settlement as owners_settlement

    check(owner=owner)
    if month is not None and first is None and last is None:
        make = partial(owners_settlement.of_month, journal=context.journal(), owner=owner, month=month)
        give(context, f"settlement-{owner}-{month:04}", make, **where)
        return
    if month is not None or first is None or last is None:
        raise Failure("settlement: either --from and --to, or --month", WRONG_USE)
    require_order(first, last)
    make = partial(owners_settlement.documents, owner=owner, first=first, last=last)
    give(context, f"settlement-{owner}-{first}-{last}", make, **where)


def statement(context: Context, owner: str, first: int, last: int, **where: Any) -> None:
    """`hilpoven papers statement`."""
    from ..report.papers import statement as owners_statement

    check(owner=owner)
    require_order(first, last)
    name = f"statement-{owner}-{first}-{last}"
    give(context, name, lambda source: owners_statement.documents(source, owner, first, last), **where)


def takeout(context: Context, owner: str, **where: Any) -> None:
    """`hilpoven papers takeout`."""
    from ..report.papers import takeout as owners_takeout

    check(owner=owner)
    day = context.today
    give(context, f"takeout-{owner}", lambda source: owners_takeout.documents(source, owner, day), **where)


def settle(context: Context, owner: str, month: int, **where: Any) -> None:
    """`hilpoven settle`."""
    from ..report.papers import settlement as owners_settlement

    check(owner=owner)
    last = date_of(days_of_month(month)[1])
    if last is None or context.today < last:
        why = f"{format_month(month)} isn't over: a month is closed on its last day, or later"
        raise Failure(why, REFUSED, "`hilpoven papers settlement OWNER --month MONTH` shows what it has so far")
    if os.path.lexists(context.file + SUPERSEDED):
        from ..core import timeline

        timeline.require_latest(context.file)
    journal, words = context.journal(), ["settle", owner, f"{month:04}"]
    name = f"settlement-{owner}-{month:04}"
    give(context, name, lambda source: owners_settlement.close(source, journal, owner, month, words), **where)


# Drills


def start(context: Context, names: tuple[str, ...]) -> None:
    """`hilpoven drill start`."""
    from ..model.register.drills import as_moment
    from ..record import drilling

    names = tuple(scanned.unfolded("drill start", ["OWNER", "LOT"], names))
    if len(names) > 2:
        raise Failure("drill start: OWNER and LOT are all", WRONG_USE, "such as: hilpoven drill start ACME B-1")
    drill = drilling.start(context, names[0] if names[1:] else None, names[-1])
    lot, how = drill.lot, "--tar | tar -x" if context.person.is_member else "FOLDER"
    click.echo(f"the drill over lot {lot} began on {as_moment(drill.begun)}")
    tell(
        f"`hilpoven recall {lot}` lists the lots that it went into, with what is on hand and was shipped; "
        f"`hilpoven trace {lot} back` those that it was made of.\n"
        "`hilpoven list sublots --lot LOT --open` says where one lies, `hilpoven list moves --lot LOT` who has it, "
        f"`hilpoven party list {lot.owner}` how they are reached.\n"
        f"`hilpoven papers recall {lot} {how}` tells what to hold first, where it lies, and what left to whom.\n"
        f"`hilpoven drill end {how}` stops the clock and makes the paper."
    )


def end(context: Context, cancel: bool, reason: str, folder: str | None, tar: bool, no_pdf: bool) -> None:
    """`hilpoven drill end`."""
    from ..model.register.drills import as_clock
    from ..record import drilling

    if cancel and (folder or tar) or reason and not cancel:
        raise Failure("drill end: --cancel makes no paper, and --reason goes with --cancel", WRONG_USE)
    if cancel:
        click.echo(f"the drill over lot {drilling.end(context, reason).lot} is cancelled")
        return
    require_paper(folder, tar, no_pdf)
    drill = drilling.end(context, hands_out=True)
    click.echo(f"the drill over lot {drill.lot} took {as_clock(drill.took)}", err=tar)
    with with_advice("`hilpoven drill paper` makes the paper of a drill that ended"):
        give_paper(context, drill, folder, tar, no_pdf)


def paper_command(context: Context, name: str, folder: str | None, tar: bool, no_pdf: bool) -> None:
    """`hilpoven drill paper`."""
    from ..record import drilling

    require_paper(folder, tar, no_pdf)
    give_paper(context, drilling.ended_drill(context, name), folder, tar, no_pdf)


def require_paper(folder: str | None, tar: bool, no_pdf: bool) -> None:
    """Fails if a paper can't be made there."""
    from ..report.papers import printing

    require_place(folder, tar)
    if not no_pdf:
        printing.require_printer()
    if folder:
        with paths.target(folder):
            pass


def give_paper(context: Context, drill: "Drill", folder: str | None, tar: bool, no_pdf: bool) -> None:
    """Makes and gives the paper of a drill."""
    from ..report.papers import drill as drill_paper

    name = f"drill-{drill.lot.owner}-{drill.lot.name}-{drill.begun.name}"
    give(context, name, lambda source: drill_paper.documents(source, drill, context.journal()), folder, tar, no_pdf)


@contextlib.contextmanager
def with_advice(advice: str) -> Iterator[None]:
    """Adds advice to a failure."""
    try:
        yield
    except Failure as failure:
        failure.advice = "\n".join(filter(None, [failure.advice, advice]))
        raise


# Labels, the board, and files for owners


@contextlib.contextmanager
def written_to(target: str | None, force: bool) -> Iterator[Callable[[str | bytes], None]]:
    """Takes what is made to a file, which is looked at before, or to standard output."""
    with paths.target(target, force) if target else contextlib.nullcontext() as file:
        yield file.give if file else lambda content: click.echo(content, nl=False)


def labels(
    context: Context, owner: str, lot: str, sublot: tuple[str, ...], size: str, target: str | None, force: bool
) -> None:
    """`hilpoven labels`."""
    from ..report.papers import copies, labels as sublot_labels, printing

    if not target and sys.stdout.isatty():
        raise Failure("labels are a PDF, and standard output is a terminal", WRONG_USE, "`| lp` behind it prints them")
    printing.require_printer(instead="")
    printing.require_module("segno", "segno isn't here, which makes the QR codes")
    with written_to(target, force) as write:
        office = context.office_to_export("labels", owner, lot, *sublot)
        with copies.opened(office, context.journal()) as source:
            stock, printed_on = sublot_labels.SIZES[size], context.today
            text = sublot_labels.page(source, LotId(owner, lot), sublot, stock, printed_on)
        write(printing.pdf_of(text))


def board(context: Context, target: str | None, force: bool) -> None:
    """`hilpoven board`."""
    from ..report.board import panels
    from ..report.papers import copies, printing

    with written_to(target, force) as write:
        now_in_plant = now(context.settings.time_zone)
        with copies.opened(context.office_to_export("board", is_seldom=False), context.journal()) as source:
            all_panels = panels(source)
        page = {
            "panels": all_panels,
            "is_noted": any(row.is_noted for panel in all_panels for row in panel.rows),
            "made_at": f"{now_in_plant:%Y-%m-%d %H:%M}",
            "seconds": int(now_in_plant.timestamp()),
            "reloads": RELOADS,
            "turns": TURNS,
            "stale": STALE,
        }
        write(printing.render("board", page))


def companion(context: Context, out: str | None) -> None:
    """`hilpoven companion`."""
    from ..core import rights, settings as site
    from ..report.companion import folder as folders, making

    if not out:
        rights.become_owner(context.file)
    if not (path := out or site.companions_of(context.settings)):
        raise Failure("no folder is named", WRONG_USE, "give it by --out FOLDER, or the office's name by --office NAME")
    with folders.held(path, context.settings.wait) as folder:
        counts = making.refresh(context, folder, lambda: context.office_to_export("companion", is_seldom=False))
    changed = f"{counts.written:,} written, {counts.unchanged:,} as before, {counts.removed:,} removed"
    click.echo(printable(f"{counted(counts.written + counts.unchanged, 'owners')}: {changed}, in {folder.path}"))
