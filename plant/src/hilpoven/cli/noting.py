"""`hilpoven link`, `use`, `note`, `party`, `describe` and `register`: what the plant notes beside what `toll`
records."""
import sys
from functools import partial
from typing import Any

import click

from ..core import scanned
from ..core.context import Context
from ..core.failure import WRONG_USE, Failure
from ..core.forms import BATCH
from ..core.grammar import LINES
from ..core.table import counted
from ..model.kinds import Emptied, Role, Spread, Why
from ..model.notes import Corrects, Link, Party, PlantLink, facts_of
from ..model.register import file, lines
from ..model.rows import BatchId, LotId
from ..record import cleaning, noting
from ..record.noting import Described
from ..record.using import use as use_of_batch
from ..report.overviews import Overview
from .lines import report
from .output import give_table, tell
from .showing import print_overview

MOST_TYPED = 1 << 20  # letters of keys on standard input


def batch_number(word: str) -> int:
    """The number of a batch; fails if a word is none."""
    if fault := BATCH.fault(word):
        raise Failure(f"BATCH: `{word}` {fault}", WRONG_USE)
    return int(word)


def link(
    context: Context,
    owner: str,
    typed: tuple[str, ...],
    batch: tuple[str, str] | None,
    of_batch: tuple[str, str] | None,
    of_owner: str | None,
    why: str,
    tells: bool | None,
    amount: int | None,
    reason: str,
) -> None:
    """`hilpoven link`. The plant alone sees a link by a reason of `Spread`."""
    owner, *lots = scanned.unfolded("link", ["OWNER"] if batch else ["OWNER", "LOT"], [owner, *typed])
    options = [option for option, given in (("--batch", batch), ("--of-batch", of_batch)) if given]
    if len(lots) != 2 - len(options):
        alone = f"{'LOT' if of_batch else 'OF-LOT'} alone stands" if len(options) == 1 else "no lot stands"
        wanted = (
            f"{alone} behind OWNER with {' and '.join(options)}" if options else "LOT and OF-LOT stand behind OWNER"
        )
        raise Failure(f"link: {wanted}", WRONG_USE, "such as: hilpoven link ACME B-2 B-1 --why rework")
    order, number = (batch[0], batch_number(batch[1])) if batch else ("", 0)
    of_order, of_number = (of_batch[0], batch_number(of_batch[1])) if of_batch else ("", 0)
    lot_owner, of_lot = of_owner, ""
    if not of_batch:
        lot_owner, of_lot = scanned.named_lot("link", of_owner, lots[-1], ("OF-OWNER", "OF-LOT"))
    lot = "" if batch else lots[0]
    if why in list(Spread):
        ends: dict[str, Any] = {"lot": lot, "order": order, "batch": number}
        ends |= {"of_lot": of_lot, "of_order": of_order, "of_batch": of_number}
        facts: dict[str, Any] = {"amount": amount, "reason": reason, "tells": bool(tells)}
        of_plant = PlantLink(owner, lot_owner or owner, Spread(why), context.day(), **ends, **facts)
        click.echo(noting.plant_link(context, of_plant))
        return
    if of_batch or tells:
        option = "--of-batch" if of_batch else "--tell"
        raise Failure(f"link: {option} goes with --why {'|'.join(Spread)} alone", WRONG_USE)
    note = Link(owner, lot, order, number, lot_owner or owner, of_lot, Why(why), amount, reason)
    click.echo(noting.link(context, note))


def use(
    context: Context,
    owner: str,
    order: str,
    batch: str,
    of_owner: str,
    of_lot: str,
    sublot: str,
    amount: str,
    day: int,
    key: str | None,
    reason: str,
    is_meant: bool,
) -> None:
    """`hilpoven use`."""
    number, lot = BatchId(owner, order, batch_number(batch)), LotId(of_owner, of_lot)
    given = use_of_batch(context, number, lot, sublot, amount, day, key, reason, is_meant)
    sys.exit(report(context, LINES["scrap"], given))


def withdraw(context: Context, name: str, reason: str) -> None:
    """`hilpoven note withdraw`."""
    click.echo(noting.withdraw(context, name, reason))


def not_linked(context: Context, owner: str, keys: tuple[str, ...], until: int | None) -> None:
    """`hilpoven note not-linked`."""
    if bool(keys) == (until is not None):
        raise Failure("note not-linked: either KEY .. or --until DAY", WRONG_USE)
    if keys == ("-",):
        keys = tuple(line.strip() for line in sys.stdin.read(MOST_TYPED).splitlines() if line.strip())
    click.echo(noting.not_linked(context, owner, keys, until))


def corrects(context: Context, owner: str, key: str, of_key: str, of_owner: str | None) -> None:
    """`hilpoven note corrects`."""
    click.echo(noting.corrects(context, Corrects(owner, key, of_owner or owner, of_key)))


def movement(context: Context, owner: str, key: str, **given: str | None) -> None:
    """`hilpoven note movement`."""
    facts = facts_of(owner, key, {**given, "party": given["recipient"] or given["sender"]})
    if facts is None:
        options = "one of --to, --from, --supplier-lot, --document"
        raise Failure("note movement: nothing is given to note", WRONG_USE, options)
    is_to, is_from = (given[name] is not None for name in ("recipient", "sender"))
    click.echo(noting.movement(context, facts, is_to, is_from))


def no_residue(context: Context, owner: str, order: str, batch: str, reason: str) -> None:
    """`hilpoven note no-residue`."""
    click.echo(cleaning.no_residue(context, BatchId(owner, order, batch_number(batch)), reason))


def clean(context: Context, unit: str, how: str, checked: str) -> None:
    """`hilpoven clean`."""
    click.echo(cleaning.clean(context, unit, how, checked))


def list_command(context: Context, owner: str | None, form: str | None) -> None:
    """`hilpoven note list`."""
    rows = noting.notes_of(context, owner)
    shown = [(name, str(time)[:19].replace("T", " "), *others) for name, time, *others in rows]
    give_table(noting.COLUMNS, rows, form, "no notes", shown)


def rebuild(context: Context) -> None:
    """`hilpoven register rebuild`."""
    office, journal = context.office(), context.journal()
    with journal.noted(office.file, ["register", "rebuild"]):
        ((count,),) = file.rebuild(journal).rows("SELECT count(*) FROM note")
    has_notes = f"{lines.path_of(office.file)} has {counted(count, 'notes')}"
    click.echo(has_notes if count else "the journal has no note, and there is no register")


def party_add(
    context: Context, owner: str, party: str, roles: tuple[str, ...], emptied: tuple[str, ...], **texts: str | None
) -> None:
    """`hilpoven party add`."""
    given = {name: text for name, text in texts.items() if text}
    if both := [name for name in emptied if name in given]:
        raise Failure(f"party add: --{both[0]} is given, and --empty {both[0]} too", WRONG_USE)
    empty = tuple(name for name in Emptied if name in emptied)
    note = Party(owner, party, roles=tuple(role for role in Role if role in roles), emptied=empty, **given)
    click.echo(noting.add_party(context, note))


def party_list(context: Context, owner: str | None, form: str | None) -> None:
    """`hilpoven party list`."""
    give_table(noting.PARTY_COLUMNS, noting.parties_of(context, owner), form, "no parties")


def describe(kind: str, context: Context, **given: Any) -> None:
    """`hilpoven describe`: notes what is given; shows what is noted if nothing is."""
    described: Described = getattr(noting, f"describe_{kind}")(context, **given)
    if described.recorded:
        click.echo(described.recorded)
    else:
        print_overview(Overview(described.title, described.facts, remarks=described.none))
    tell(described.remark)


owner, material, recipe, test, lot, unit = (
    partial(describe, kind) for kind in ("owner", "material", "recipe", "test", "lot", "unit")
)
