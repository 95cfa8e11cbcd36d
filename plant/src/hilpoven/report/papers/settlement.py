"""The settlement of an owner: what its batches consumed and produced against their recipes, between two days, or of a
month, which is closed once and has a number then."""
from collections.abc import Mapping, Sequence
from dataclasses import replace
from fractions import Fraction
from operator import neg

from ... import HOUSE
from ...core import lock
from ...core.days import days_of_month, format_day, format_month
from ...core.failure import REFUSED, Failure
from ...core.forms import listed
from ...core.journal.log import Journal
from ...core.office import Office
from ...core.table import Row
from ...model.notes import Cell, Settled
from ...model.register.drills import as_moment
from ...model.register.noted import to_json
from ...model.register.standing import Closing, Status, closings_in, kept, next_number, statuses
from ...model.rows import Base, require_owner
from ...model.years.history import places_of
from ...record.settling.closing import AMOUNT, BY_PRODUCT, LINE, MAIN, Change, Month, Months
from ...record.settling.corrections import Correction, Means
from ...record.settling.settlement import WHYS, Made, Product, Reader, Receipts, Settlement, Sums, rounded
from ..columns import Column, Sql, columns
from ..noted import LINKS, links_among
from ..sheets import Sheet, table_of
from .agreement import check_owner
from .copies import Source
from .printing import Document
from .recall import check_batches


def share(part: int | None, whole: int | None) -> str | None:
    """An amount in percent of another one, rounded to a tenth; nothing if there is none."""
    if part is None or not whole:
        return None
    tenths = rounded(Fraction(1000 * part, whole))
    return f"{'-' if tenths < 0 else ''}{abs(tenths) // 10:,}.{abs(tenths) % 10}"


OF_LINE: dict[str, Sql] = {
    "use": "item.use.word",
    "source": "item.source",
    "material": "item.material",
    "reworked": ("reworked", neg),
    "share": ("actual", "standard", share),
    "loss_share": ("loss", "expected", share),
}
SOURCES = "recorded:number used=used_besides:number corrected:number reworked:number actual:number"  # of an amount
RECIPES = columns(
    f"recipe batches:number use:text source=of material standard:number {SOURCES} measure=unit:text@beside "
    "share=%:number expected=for_what_was_made:number loss:number loss_share=loss_%:number allowed:number "
    "above=above_it:number",
    **OF_LINE,
)
BY_PRODUCTS = columns(
    f"recipe batches:number material standard:number {SOURCES} measure=unit:text@beside share=%:number", **OF_LINE
)
PRODUCTS = columns("material product=is:text produced:number reworked:number made:number measure=unit:text@beside")
RECEIVED = columns(
    "material received:number returned:number reworked:number used:number corrected:number delivered:number "
    "measure=unit:text@beside"
)
GOING_ON = columns("batch recipe state:text use:text source=of material amount=so_far:number measure=unit:text@beside")
BATCHES = columns("batch recipe day=settled_on:day use:text source=of material amount:number measure=unit:text@beside")
CORRECTIONS = columns(
    "key day:day source=of lot material change:number measure=unit:text@beside batch counts=counts_as:text"
)
NOTED = ("used", "corrected", "reworked")  # by which an amount may be another one than that of actuals
ALLOWED = ("allowed", "above")


def documents(source: Source, owner: str, first: int, last: int) -> list[Document]:
    """The settlement of an owner from a day to a day."""
    reader = reader_of(source, owner)
    read = reader.between(first, last)
    check_batches(source, [run.batch for run in (*read.going_on, *read.settled)])
    batches = Sheet("batches", BATCHES, batch_rows(read), ["amount"])
    title = f"Settlement of {owner}, {format_day(first)} to {format_day(last)}"
    sheets = [*tables_of(read, last), received_of(read.receipts), batches]
    return [document(owner, title, [*sheets, *noted_sheets(source, owner, read)], doubtful_of_house(reader, read))]


def reader_of(source: Source, owner: str) -> Reader:
    """Reads an owner's settlements; fails if there is no such owner, or if its lots don't agree with `toll`."""
    require_owner(source.base, owner)
    check_owner(source, owner)
    return Reader(source.base, source.register, owner)


def doubtful_of_house(reader: Reader, read: Settlement) -> int:
    """How many doubtful corrections of the plant's material may be of these batches. An owner's own are listed."""
    doubtful = reader.doubtful({run.batch.id for run in read.settled})
    return sum(correction.move.owner != reader.owner for correction in doubtful)


def document(owner: str, title: str, sheets: list[Sheet], doubtful: int = 0, state: str = "") -> Document:
    """The paper of a settlement. Its state says whether it is closed, if it is of a month."""
    values = {"owner": owner, "doubtful": doubtful, "state": state}
    return Document("settlement", owner == HOUSE, title, sheets, values)


def tables_of(read: Settlement, last: int) -> list[Sheet]:
    """The tables of what was consumed, made, and goes on."""
    mains = [line for line in read.lines if not line.is_product or line.is_main]
    others = [line for line in read.lines if line.is_product and not line.is_main]
    recipes = with_sources(table_of("recipes", RECIPES, mains))
    is_allowed = any(line.allowance for line in read.lines)
    sheets = [recipes if is_allowed else recipes.without(*ALLOWED)]
    if others:
        sheets.append(with_sources(table_of("by_products", BY_PRODUCTS, others)))
    going = Sheet("going_on", GOING_ON, going_on_rows(read, last))
    return [*sheets, Sheet("products", PRODUCTS, product_rows(read.products)), going]


def noted_sheets(source: Source, owner: str, read: Settlement) -> list[Sheet]:
    """The tables of links and corrections; none of what there is none of."""
    corrections = Sheet("corrections", CORRECTIONS, correction_rows(owner, read.corrections))
    links = links_among(source.base, source.register.of(owner), set(read.links))
    return [sheet for sheet in (corrections, links) if sheet.rows]


def with_sources(sheet: Sheet) -> Sheet:
    """A table with what its amounts are made of, as far as that is another thing than actuals."""
    empty = [name for name in NOTED if not sheet.has(name)]
    return sheet.without(*(["recorded", *empty] if len(empty) == len(NOTED) else empty))


def product_rows(products: dict[Product, Made]) -> list[Row]:
    """What was made of each material."""
    return [
        (
            name,
            MAIN if is_main else BY_PRODUCT,
            output.produced,
            output.reworked,
            output.produced - output.reworked,
            measure,
        )
        for (name, measure, is_main), output in products.items()
    ]


def received_of(receipts: Receipts) -> Sheet:
    """What was received of each material, and what of it was delivered."""
    rows: list[Row] = [
        (name, sum(sums.values()), *(sums[why] for why in WHYS), sums[None], measure)
        for (name, measure), sums in receipts.items()
    ]
    return Sheet("received", RECEIVED, rows)


def correction_rows(owner: str, corrections: Sequence[Correction]) -> list[Row]:
    """What was corrected, and as what it counts. Of a correction of the plant's material an owner gets the lot that its
    batch consumed, and no key."""
    rows: list[Row] = []
    for each in corrections:
        is_own, batches = each.move.owner == owner, each.batches if each.means != Means.DOUBTFUL else ()
        batch = next((of.name for of in batches if of.owner == owner), None)
        move = each.move.key if is_own else None, each.move.day
        lot = each.lot.id.owner, each.lot.id.name, each.lot.material, each.change, each.lot.measure
        rows.append((*move, *lot, batch, each.words))
    return rows


def item_rows(sums: Sums, measures: Mapping[tuple[str, str], str]) -> list[Row]:
    """What a batch consumed and produced of each material."""
    return [
        (item.use.word, item.source, item.material, amount, measures[item.source, item.material])
        for item, amount in sorted(sums.items())
    ]


def going_on_rows(read: Settlement, last: int) -> list[Row]:
    """What batches that go on consumed and produced until a day."""
    rows: list[Row] = []
    for run in read.going_on:
        front = run.batch.id.name, run.batch.recipe, "closed later" if run.batch.is_closed else run.batch.state.word
        rows += [(*front, *row) for row in item_rows(run.recorded(last), read.measures)]
    return rows


def batch_rows(read: Settlement) -> list[Row]:
    """What batches that are settled consumed and produced."""
    return [
        (run.batch.id.name, run.batch.recipe, run.last_day, *row)
        for run in read.settled
        for row in item_rows(run.sums, read.measures)
    ]


LATE = "late"
PRODUCTS_OF_MONTH = [*PRODUCTS, *columns("changes=of_it_changes:number?")]
RECEIVED_OF_MONTH = [*RECEIVED, *columns("late=of_it_late:number?")]
BATCHES_OF_MONTH = [*BATCHES, *columns("late:text?")]
CHANGED = columns(
    "settlement recipe use:text source=of material actual:number measure=unit:text@beside "
    "expected=for_what_was_made:number loss:number allowed:number? above=above_it:number?"
)
CHANGED_BATCHES = columns(
    "settlement batch recipe use:text source=of material amount=change:number measure=unit:text@beside"
)
TABLES: dict[str, Sequence[Column]] = {
    "recipes": RECIPES,
    "by_products": BY_PRODUCTS,
    "products": PRODUCTS_OF_MONTH,
    "received": RECEIVED_OF_MONTH,
    "changed": CHANGED,
    "changed_batches": CHANGED_BATCHES,
    "corrections": CORRECTIONS,
    "going_on": GOING_ON,
    "batches": BATCHES_OF_MONTH,
    "links": LINKS,
}
SUMS = {"batches": ["amount"]}  # columns whose numbers are summed where rows are joined


def statuses_of(journal: Journal, base: Base) -> list[Status]:
    """Each settlement that was closed, and whether its note stands."""
    return statuses(kept(journal, base), Settled)


def of_month(source: Source, journal: Journal, owner: str, month: int) -> list[Document]:
    """The settlement of a month: as it was closed, or what would be closed now."""
    require_owner(source.base, owner)
    closed = closings_in(statuses_of(journal, source.newest.base), owner)
    if same := next((closing for closing in closed if closing.settled.month == month), None):
        return [closed_document(same)]
    require_later(closed, owner, month)
    read = read_month(source, closed, owner, month)
    sheets = sheets_of(source, owner, read, days_of_month(month)[1])
    title = f"Settlement of {owner}, {format_month(month)}, not closed"
    doubtful = sum(correction.move.owner != owner for correction in read.doubtful)
    return [document(owner, title, sheets, doubtful, "This month isn't closed: it may still change.")]


def require_later(closed: Sequence[Closing], owner: str, month: int) -> None:
    """Fails unless a month is behind the last one that is closed."""
    if closed and month < closed[-1].settled.month:
        last = closed[-1].settled
        raise Failure(
            f"{format_month(month)} of {owner} isn't closed, and {format_month(last.month)} is: by {last.number}",
            REFUSED,
            "what belongs to an earlier month is on the next settlement, marked as late",
        )


def read_month(source: Source, closed: list[Closing], owner: str, month: int) -> Month:
    """What the settlement of a month has, compared with `toll`."""
    reader = reader_of(source, owner)
    months = Months(reader, places_of(source.base, owner, source.is_one), closed)
    read = months.month(month)
    check_batches(source, [run.batch for run in (*read.settlement.going_on, *read.settlement.settled)])
    return read


def close(source: Source, journal: Journal, owner: str, month: int, words: list[str]) -> list[Document]:
    """Closes the settlement of a month, by a note in the journal, and makes its paper. The office's lock has only one
    do it at a time."""
    office: Office = source.newest.office
    closed = closings_in(statuses_of(journal, source.newest.base), owner)
    require_open(closed, owner, month)
    require_later(closed, owner, month)
    read = read_month(source, closed, owner, month)
    require_clear(read.doubtful)
    sheets = sheets_of(source, owner, read, days_of_month(month)[1])
    tables = tuple((sheet.name, tuple(sheet.names), tuple(tuple(row) for row in sheet.rows)) for sheet in sheets)
    with lock.held(office.file, office.wait):
        notes = statuses_of(journal, source.newest.base)
        require_open(closings_in(notes, owner), owner, month)
        if closings_in(notes, owner) != closed:
            raise Failure(f"settlements of {owner} were closed or withdrawn meanwhile", REFUSED, "close it again")
        number = next_number(notes, owner, month)
        settled = Settled(owner, month, number, tables, tuple(read.terms), tuple(read.places))
        after = {"after": source.files[-2].name} if len(source.files) > 1 else {}
        journal.note(office.file, words, notes=[to_json(settled)], **after)
    return of_month(source, journal, owner, month)


def require_open(closed: Sequence[Closing], owner: str, month: int) -> None:
    """Fails if a month is closed."""
    if same := next((closing for closing in closed if closing.settled.month == month), None):
        raise Failure(
            f"{format_month(month)} of {owner} is closed: {same.settled.number}, by {same.noted.who} on "
            f"{as_moment(same.noted)}",
            REFUSED,
            f"`hilpoven papers settlement {owner} --month {month:04}` makes its paper again",
        )


def require_clear(doubtful: Sequence[Correction]) -> None:
    """Fails if it isn't known what some corrections are of, which may be of batches of the settlement."""
    if not doubtful:
        return
    keys = [f"{each.move.owner} {each.move.key} (of lot {each.lot.id})" for each in doubtful]
    raise Failure(
        f"it isn't known what is corrected by {listed(keys)}",
        REFUSED,
        "`hilpoven note corrects OWNER KEY OF-KEY` says which movement was recorded wrongly",
    )


def sheets_of(source: Source, owner: str, read: Month, last: int) -> list[Sheet]:
    """The tables of a month."""
    new = read.settlement
    late = [LATE if run.batch.id in read.late else None for run in new.settled for _ in run.sums]
    rows: list[Row] = [(*row, is_late) for row, is_late in zip(batch_rows(new), late)]
    batches = Sheet("batches", BATCHES_OF_MONTH, rows, SUMS["batches"]).without_empty()
    changed = (
        changed_sheet("changed", CHANGED, LINE, read.changed),
        changed_sheet("changed_batches", CHANGED_BATCHES, AMOUNT, read.changed_batches),
    )
    sheets = [sheet for sheet in tables_of(new, last) if sheet.name != "products"]
    sheets += [products_sheet(read), received_sheet(read), *(sheet for sheet in changed if sheet.rows), batches]
    noted = [unreported(sheet, read) for sheet in noted_sheets(source, owner, new)]
    return [*sheets, *(sheet for sheet in noted if sheet.rows)]


def unreported(sheet: Sheet, read: Month) -> Sheet:
    """A table without the rows that an earlier settlement has: corrections are told once."""
    reported = {tuple(row.get(head) for head in sheet.names) for row in read.reported(sheet.name)}
    return replace(sheet, rows=[row for row in sheet.rows if tuple(row) not in reported])


def products_sheet(read: Month) -> Sheet:
    """What was made, and what of it was made by batches of closed settlements."""
    rows: list[Row] = []
    for row, (product, output) in zip(product_rows(read.products), read.products.items()):
        new = read.settlement.products.get(product)
        rows.append((*row, output.produced - output.reworked - (new.produced - new.reworked if new else 0)))
    return Sheet("products", PRODUCTS_OF_MONTH, rows).without_empty()


def received_sheet(read: Month) -> Sheet:
    """What came, and what of it came in earlier months."""
    rows: list[Row] = [
        (*row, sum(read.late_receipts.get(material, {}).values()))
        for row, material in zip(received_of(read.receipts).rows, read.receipts)
    ]
    return Sheet("received", RECEIVED_OF_MONTH, rows).without_empty()


def changed_sheet(name: str, heads: list[Column], names: Sequence[str], changes: Sequence[Change]) -> Sheet:
    """A table of what became otherwise of closed settlements, whose rows these names tell apart."""
    cells: list[dict[str, Cell]] = [
        {"settlement": each.number, **dict(zip(names, each.names)), **each.figures} for each in changes
    ]
    return Sheet(name, heads, [tuple(row[head.name] for head in heads) for row in cells]).without_empty()


def closed_document(closing: Closing) -> Document:
    """The paper of a settlement as it was closed."""
    settled = closing.settled
    title = f"Settlement {settled.number} of {settled.owner}, {format_month(settled.month)}"
    sheets = [sheet_of(*table) for table in settled.tables if table[0] in TABLES]
    state = f"Closed on {as_moment(closing.noted)}. Each batch is on one settlement alone."
    paper = document(settled.owner, title, sheets, 0, state)
    paper.footer = f"Settlement {settled.number}, closed on {as_moment(closing.noted)}."
    paper.issued_on = as_moment(closing.noted)[: len("2026-11-30")]
    return paper


def sheet_of(name: str, heads: Sequence[str], rows: Sequence[Row]) -> Sheet:
    """A table of a note, with the columns that are known."""
    known = {column.name: column for column in TABLES[name]}
    places = [at for at, head in enumerate(heads) if head in known]
    cells = [tuple(row[at] for at in places) for row in rows]
    return Sheet(name, [known[heads[at]] for at in places], cells, SUMS.get(name, ()))
