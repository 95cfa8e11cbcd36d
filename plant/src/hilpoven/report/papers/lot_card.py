"""The card of a lot: all that is known of it, with a picture of one step back and forward."""
from ... import HOUSE
from ...model import quality
from ...model.answers import recall_of, trace_of
from .agreement import COUNTED, SUMS, agree, agree_on_all, check_lots, require_closed
from ...model.below import MARK
from ...model.quality import describe_lot
from ...model.genealogy import BACK, FORWARD, Genealogy
from ...model.register.standing import Register
from ...model.rows import Base, Lot, LotId, lots_of, require_lot
from ...model.schema import OUTGOING, STANDING, Kind
from .. import corrections, noted, overviews
from ..columns import Column, columns
from ..sheets import Sheet, select
from . import pictures
from .certificate import OF_LOT, TESTS
from .copies import Source
from .pictures import Arrow, Box
from .printing import Document

MOST_BOXES = 60
LEDGER = [column for column in overviews.LEDGER if not column.group]
BESIDE = columns("way:text owner lot noted:text@beside?")
# The receipts and shipments of a lot of which something is noted.
NOTED = columns(
    "key kind:text m.day:day m.amount:number m.measure=unit:text@beside noted_party noted_name:text@beneath "
    "noted_supplier_lot:text noted_document:text",
    key="m.mkey",
    kind=Kind.sql("m.kind"),
    noted_party="m.party",
    noted_name="p.name",
    noted_supplier_lot="m.supplier_lot",
    noted_document="m.document",
)
NOTED_OF_LOT = """
FROM movement AS m LEFT JOIN party AS p ON p.owner = m.owner AND p.party = m.party
WHERE m.lot_owner = ? AND m.lot = ? AND m.owner = m.lot_owner AND m.party || m.supplier_lot || m.document <> ''
ORDER BY m.rowid
"""
OF_MOVES = "m.lot_owner = ? AND m.lot = ?"
SUBLOTS = "FROM sublots WHERE owner = ? AND lot = ? ORDER BY sublot"
WAYS = {BACK: "made of", FORWARD: "went into"}
Beside = dict[LotId, bool]  # lots one step away, and whether they are so by links alone


def documents(source: Source, asked: LotId) -> list[Document]:
    """The card of a lot. That of a lot of HOUSE is the plant's own: the batches of all owners may have consumed it."""
    lot = require_lot(source.base, asked)
    require_closed(source.base, [asked])
    recorded, sums = (
        source.base.execute(f"SELECT {SUMS} FROM {moves} AS m WHERE {OF_MOVES} AND {STANDING}", asked).fetchone()
        for moves in ("moves", "temp.meant")
    )
    totals = [kind.total for kind in COUNTED]
    balance, shifted = dict(zip(totals, sums)), corrections.shifted(source.base, asked)
    check_lots(source, [asked])
    if source.is_one:
        first = recall_of(source.newest.answer("recall", *asked))[0]
        shipped = lot.on_hand, dict(zip(totals, recorded))[Kind.SHIP.total]
        agree(f"what of {asked} is on hand and was shipped", (first.on_hand, first.shipped), shipped)
    beside = neighbours(source, asked)
    base, register = source.base, source.register.of(asked.owner)
    held = [*columns("sublot"), Column("amount", f"on hand, {lot.measure}", "number", sql=("amount",))]
    tests = overviews.tests_of(base, asked)
    sheets = [
        select(base, "tests", TESTS, OF_LOT, asked),
        overviews.results_of(base, asked),
        select(base, "sublots", held, SUBLOTS, asked),
        select(base, "ledger", LEDGER, overviews.LEDGER_OF_LOT, asked),
        beside_sheet(beside),
    ]
    others = [
        noted.links(base, noted.ABOUT_LOT, {"owner": asked.owner, "lot": asked.name}),
        noted.reasons_of_lot(base, *asked),
        select(base, "noted", NOTED, NOTED_OF_LOT, asked),
        corrections.of_lot(base, asked, asked.owner != HOUSE),
    ]
    about = {"owner": asked.owner, "material": lot.material, "unit": lot.measure, "comes from": lot.origin}
    disposition = f"{pictures.SIGNS[lot.disposition.word]} {lot.disposition.word}"
    left = shifted + sum(-amount if kind in OUTGOING else amount for kind, amount in zip(COUNTED, sums))
    moved = {corrections.SHIFTED: shifted} if shifted else {}
    quality_text = quality.text_of(source.base, source.register, asked)
    values = {
        "facts": {
            **about,
            "disposition": disposition,
            **({quality.COLUMN: quality_text} if quality_text else {}),
            "on hand": lot.on_hand,
        },
        "remarks": [*overviews.release_of(*asked, lot.disposition.word, tests), *notices_of(base, register, asked)],
        "balance": {**balance, **moved, "on hand": lot.on_hand, "difference": left - lot.on_hand},
        "described": describe_lot(source.base, register, lot).texts,
        "measure": lot.measure,
        "picture": picture(source, lot, beside),
    }
    sheets += [sheet for sheet in others if sheet.rows]
    return [Document("lot", asked.owner == HOUSE, f"Lot {asked.name}", sheets, values)]


def notices_of(base: Base, register: Register, asked: LotId) -> list[str]:
    """What the owner is told of a lot that contains material of another one."""
    genealogy = Genealogy(base)
    days = {note.day for note in register.notices if asked in genealogy.lots_of(note.container)}
    return noted.notice_lines((asked.name, day) for day in sorted(days))


def beside_sheet(beside: dict[str, Beside]) -> Sheet:
    """The lots one step back and forward; without marks if links add none."""
    rows = [
        (WAYS[way], *neighbour, MARK if is_noted else None)
        for way, lots in beside.items()
        for neighbour, is_noted in lots.items()
    ]
    return Sheet("beside", BESIDE, rows).without_empty()


def neighbours(source: Source, asked: LotId) -> dict[str, Beside]:
    """The lots one step back and one step forward: those that are recorded, which `toll` tells too, and those by links
    alone."""
    genealogy = Genealogy(source.base, source.register)
    recorded = {
        way: {lot for lot in lots if lot != asked}
        for way, lots in ((BACK, genealogy.recorded_backward(asked)), (FORWARD, genealogy.recorded_onward(asked)))
    }
    for way, lots in recorded.items() if source.newest_has(asked) else ():
        lines = trace_of(source.newest.answer("trace", *asked, way))
        answered = {LotId(line.owner, line.lot): 1 for line in lines if line.steps == 1}
        agree_on_all(answered, {lot: 1 for lot in lots if source.is_one or lot in answered})
    return {
        way: {lot: lot not in recorded[way] for lot in lots if lot != asked}
        for way, lots in ((BACK, genealogy.backward(asked)), (FORWARD, genealogy.onward(asked)))
    }


def picture(source: Source, lot: Lot, beside: dict[str, Beside]) -> list[str]:
    """The lot between those that it was made of and those that it went into; nothing if there are too many."""
    around = lots_of(source.base, {neighbour for lots in beside.values() for neighbour in lots})
    if len(around) > MOST_BOXES:
        return []
    boxes, arrows = [box(lot, lot, 1, "asked")], []
    for name, is_noted in beside[BACK].items():
        boxes.append(box(around[name], lot, 0, f"back {name}"))
        arrows.append(Arrow(boxes[-1].key, "asked", is_noted))
    for name, is_noted in beside[FORWARD].items():
        boxes.append(box(around[name], lot, 2, f"forth {name}"))
        arrows.append(Arrow("asked", boxes[-1].key, is_noted))
    return pictures.draw(boxes, arrows)


def box(lot: Lot, asked: Lot, column: int, key: str) -> Box:
    """The box of a lot. Of the plant's own lot an owner's card has its name and its material alone."""
    if lot.id.owner != asked.id.owner and asked.id.owner != HOUSE:
        return Box(key, column, lot.id.name, [lot.id.owner, lot.material], "plant")
    lines = [lot.id.owner, lot.material, lot.disposition.word, f"{lot.on_hand:,} {lot.measure} on hand"]
    return Box(key, column, lot.id.name, lines, lot.disposition.word, key == "asked")
