"""What is asked over all files of an office, from the first to the newest, each with what is told beside it."""
from collections import Counter
from collections.abc import Iterator
from contextlib import contextmanager
from functools import partial
from typing import NamedTuple

from ..core.context import Context
from ..core.days import format_day
from ..core.failure import Failure, printable
from ..core.office import Office
from ..core.table import Row, Value
from ..model.answers import RecallLine, recall_lines, recall_of
from ..model.below import MARK, has_plant_links
from ..model.genealogy import FORWARD, Genealogy, Trace
from ..model import reach, residues, views
from ..model.register.file import Notes
from ..model.register.standing import Register, standing_over_all
from ..model.rows import LotId, require_owner
from ..model.unit_order import has_cleanings, read_if_cleaned
from ..model.years import chain, history
from ..model.years.history import History
from . import noted, overviews
from .papers.statement import AMOUNTS, Statement, links_in, read_statement

FILES = """
SELECT name, at, (SELECT count(*) FROM moves WHERE moves.file = files.number), hash FROM files ORDER BY number
"""
OF_HOUSE = "HOUSE's material that its batches used"


class Shown(NamedTuple):
    """A table, its title, what its marks mean, which files and namesakes it is of, and what stands below it."""

    columns: list[str]
    rows: list[Row]
    title: str = ""
    marks: str = ""
    sources: tuple[str, ...] = ()
    below: tuple[str, ...] = ()  # what is told apart, below the table


@contextmanager
def read(context: Context, owner: str, *words: str) -> Iterator[History]:
    """All files as one, which the journal notes."""
    with history.opened(context.office_to_export("years", *words), owner) as whole:
        yield whole


def concerned(context: Context, owner: str) -> str:
    """Whose rows a trace of an owner's lot needs: empty for all, if it may come to other owners' lots or batches."""
    notes = Notes(context.journal())
    return "" if has_plant_links(notes) or has_cleanings(notes) else owner


def sources_of(whole: History, lot: LotId | None = None) -> tuple[str, ...]:
    """Which files were read, and other lots of the same name."""
    namesakes = [f"another lot of this name: {name}" for name in (whole.namesakes(lot) if lot else [])]
    return *namesakes, *whole.sources()


def register_of(context: Context, whole: History) -> Register:
    """What the plant noted, with the names of lots and orders over all files."""
    register = standing_over_all(context.journal(), whole)
    register.plants_test = context.settings.quality.test
    return register


def files(context: Context) -> Shown:
    """The files of an office."""
    with history.opened(context.office_to_export("years", "files")) as whole:
        return Shown(["file", "carried over", "movements", "sha256"], whole.base.execute(FILES).fetchall())


def recall(context: Context, owner: str, lot: str, file: str) -> Shown:
    """The lots that a lot went into, with the amounts on hand and shipped."""
    office, journal = context.office_to_export("years", "recall", owner, lot), context.journal()
    reaching = partial(reach.names_of, journal, starts=reach.starts_of(journal, owner, lot))
    with history.opened(office, reaching=reaching) as whole:
        start = whole.lot(owner, lot, file)
        with chain.reading(whole.copy) as newest:
            order = read_if_cleaned(journal, newest)
        genealogy = Genealogy(whole.base, register_of(context, whole), is_plants=True)
        traced = genealogy.trace(start, FORWARD)
        lines = recall_lines(whole.base, traced.steps)
        check_newest(office, whole, lines, start)
        rows: list[Row] = [
            (
                line.steps,
                line.owner,
                line.lot,
                line.disposition,
                line.on_hand,
                line.shipped,
                whole.file_of(LotId(line.owner, line.lot)),
            )
            for line in lines
        ]
        columns = ["steps", "owner", "lot", "disposition", "on hand", "shipped", "came in"]
        unclean = residues.may_contain(genealogy, traced, order, is_whole=True) if order else []
        below = tuple(residues.lines_of(unclean))
        return marked(columns, rows, traced)._replace(sources=sources_of(whole, start), below=below)


def trace(context: Context, owner: str, lot: str, way: str, file: str) -> Shown:
    """The lots that a lot was made of, or went into."""
    with read(context, concerned(context, owner), "trace", owner, lot, way) as whole:
        start = whole.lot(owner, lot, file)
        traced = Genealogy(whole.base, register_of(context, whole), is_plants=True).trace(start, way)
        rows: list[Row] = [(steps, *name) for name, steps in traced.steps.items()]
        return marked(["steps", "owner", "lot"], rows, traced)._replace(sources=sources_of(whole, start))


def marked(columns: list[str], rows: list[Row], traced: Trace) -> Shown:
    """The table of a trace's lots, where links add some with one column more, which marks these."""
    if not traced.noted:
        return Shown(columns, rows)
    marks = [MARK if traced.is_noted(lot) else "" for lot in traced.steps]
    about = f"{MARK} noted by the plant: links add these lots, or shorten the way to them"
    return Shown([*columns, "noted"], [(*row, mark) for row, mark in zip(rows, marks)], marks=about)


def check_newest(office: Office, whole: History, lines: list[RecallLine], start: LotId) -> None:
    """Fails if `toll` tells of the newest file what isn't in a recall over all files."""
    answer = office.ask(["recall", *start], whole.copy)
    if answer.status:
        return  # it isn't in the newest file
    by_lot = {(line.owner, line.lot): line for line in lines}
    for newest, text in zip(recall_of(answer.output), answer.output.splitlines()[1:]):
        line = by_lot.get((newest.owner, newest.lot))
        is_less = line is None or line.steps > newest.steps or line.shipped < newest.shipped
        if line is None or is_less or (line.disposition, line.on_hand) != (newest.disposition, newest.on_hand):
            why = f"toll tells of {newest.owner} {newest.lot} what isn't found over all files, so nothing is shown"
            raise Failure(why, advice=text.strip())


def lot_card(context: Context, owner: str, lot: str, file: str) -> tuple[overviews.Overview, tuple[str, ...]]:
    """A lot with its tests, sublots and movements, and the files that it is of."""
    with read(context, owner, "lot", owner, lot) as whole:
        start = whole.lot(owner, lot, file)
        return overviews.lot(whole.base, *start, register_of(context, whole)), sources_of(whole, start)


class StatementShown(NamedTuple):
    """A statement of an owner: its lots and their sums, what its batches used of HOUSE's, its links, the movements by
    whose days lots are below zero, and how much is on hand that no movement explains."""

    lots: Shown
    sums: list[Row]
    used: Shown
    links: Shown
    overdrafts: list[str]
    unexplained: int


def statement(context: Context, owner: str, first: int, last: int) -> StatementShown:
    """The receipts, uses, shipments and stock of each of an owner's lots between two days."""
    with read(context, owner, "statement", owner, str(first), str(last)) as whole:
        require_owner(whole.base, owner)
        base = views.over(whole.base, register_of(context, whole))
        account = read_statement(base, owner, first, last)
        links = links_in(base, owner, account, noted.SHOWN)
        amounts_of = [name for name in AMOUNTS[:-1] if name in account.lots.names]
        lots: list[Row] = [
            (material, lot, measure, *amounts[:-1]) for material, measure, lot, _, *amounts in account.lots.rows
        ]
        used: Counter[tuple[Value, ...]] = Counter()
        for material, lot, _, amount, measure in account.of_house.rows:
            used[material, lot, measure] += int(amount or 0)
        return StatementShown(
            Shown(["material", "lot", "measure", *amounts_of], lots, sources=sources_of(whole)),
            [(material, "(all)", measure, *amounts[:-1]) for material, measure, *amounts in account.sums.rows],
            Shown(["material", "lot", "measure", "used"], [(*lot, amount) for lot, amount in used.items()], OF_HOUSE),
            Shown([name.replace("_", " ") for name in links.names], [*links.rows], overviews.NOTED),
            list(overdrafts_of(account, owner)),
            account.unexplained,
        )


def overdrafts_of(account: Statement, owner: str) -> Iterator[str]:
    """The movements by whose days lots are below zero, in words."""
    for lot, day, key, kind, _, left, measure, next_day, next_key in account.overdrafts.rows:
        effect = f"{kind} {key} of {format_day(int(day or 0))} leaves {left:,} {measure}"
        comes = "" if next_day is None else f"; {next_key} of {format_day(int(next_day))} brings something next"
        yield printable(f"By the days, {effect} of {LotId(owner, str(lot))}{comes}.")
