"""The papers of a recall: what to do first, where it lies, what left, who has it, where it went, and what of each lot
came and left."""
from collections import Counter, defaultdict
from collections.abc import Iterable
from dataclasses import replace
from typing import Any

from .agreement import COUNTED
from ...model import residues
from ...model.below import MARK
from ...model.notes import Link, PlantLink
from ...model.residues import MayContain
from ...model.rows import BatchId, LotId
from ...model.schema import FOLLOWING, Disposition
from ..columns import columns
from ..noted import notice_lines
from ..sheets import Sheet
from . import pictures
from .copies import Source
from .pictures import Arrow, Box
from .printing import Document
from .recall import (
    HELD,
    LOTS,
    MOST_NAMES,
    READ,
    SHIPMENTS,
    STATE,
    STATUS,
    WORDS,
    Found,
    Report,
    Step,
    View,
    contents_in,
    read_report,
)
from .recipients import sheets_of

MOST_BOXES = 60
RANK = f"CASE {STATE} {' '.join(f'WHEN {word!r} THEN {at}' for at, word in enumerate(WORDS))} END"


def documents(source: Source, start: LotId) -> list[Document]:
    """The papers of a recall: the plant's with all of it, and one for each owner concerned. An owner's has what its own
    links and the recorded edges give, whatever links between owners say."""
    report = read_report(source, start)
    own = [document(View(report, owner)) for owner in report.owners]
    if not source.register.plant_links:
        return [of_plant(source, report), *own]
    whole = read_report(source, start, is_plants=True)
    return [of_plant(source, whole), *own, *noticed_documents(source, report, whole)]


def of_plant(source: Source, report: Report) -> Document:
    """The plant's paper, which alone has the batches that may contain residues."""
    paper = document(View(report))
    rows = may_contain_in(source, report)
    if rows:
        paper.sheets.append(may_contain(rows))
        paper.texts["recall.txt"] += "".join(f"{line}\n" for line in residues.lines_of(rows))
    return paper


def may_contain_in(source: Source, report: Report, starts: Iterable[BatchId] = ()) -> list[MayContain]:
    """The batches that may contain residues of what a recall found, or of the batches with which it starts; none if
    their rows weren't read."""
    if not source.order or not source.is_whole:
        return []
    return residues.may_contain(report.genealogy, report.trace, source.order, not source.is_one, starts)


def may_contain(rows: Iterable[MayContain]) -> Sheet:
    """The table of them."""
    cells = [(row.unit, row.batch.owner, row.batch.name, row.lots_named, str(row.behind), row.decision) for row in rows]
    return Sheet("may_contain", MAY_CONTAIN, cells)


def noticed_documents(source: Source, own: Report, whole: Report) -> list[Document]:
    """The papers of owners for lots that contain some of a recalled lot by a link between owners that they are told of:
    each is the recall of such a lot itself, and has nothing of the other one."""
    lots = {
        lot
        for link in whole.genealogy.plant_links
        if link.tells and contents_in(whole.genealogy, whole.lots, link)
        for lot in whole.genealogy.lots_of(link.container)
        if lot not in own.lots
    }
    papers = []
    for lot in sorted(lots):
        paper = document(View(read_report(source, lot), lot.owner))
        papers.append(replace(paper, folder=f"{paper.folder}/{lot.name}"))
    return papers


HOLD_LOT = "hilpoven hold {lot} --reason 'recall of {start}'"  # at once; a rejection is the owner's, and for good
HOLD_BATCH = "hilpoven do {owner} {order} {number} hold"


def to_do_about(is_held: int, reason: str, lot: str, reader: str, start: str) -> str:
    """What a reader does at once about a lot that is released and on hand: the plant holds it, and its owner may reject
    it for good."""
    if is_held:
        return f"{HELD}: {reason}" if reason else HELD
    return "reject it on your page" if reader else HOLD_LOT.format(lot=lot, start=start)


RELEASED = columns(
    "owner lot noted:text@beside material on_hand:number measure=unit:text@beside to_do=what_to_do:text",
    noted="mark",
    to_do=("is_held", "reason", "owner || ' ' || lot", ":reader", ":start", to_do_about),
)
TOTALS = columns(
    "owner material measure=unit:text@beside lots:number "
    f"{' '.join(f'{word}:number' for word in WORDS)} shipped:number",
    lots="count(*)",
    shipped="sum(shipped)",
    **{word: f"sum(iif({STATE} = '{word}', on_hand, 0))" for word in WORDS},
)
SUBLOTS = columns(
    "disposition:word r.owner r.lot noted:text@beside s.sublot r.material amount=on_hand:number "
    "measure=unit:text@beside",
    disposition=STATUS,
    noted="r.mark",
    amount="s.amount",
)
SHIPPED = columns(
    "m.day:day m.owner key m.lot noted:text@beside m.sublot r.material amount=shipped:number "
    "r.measure=unit:text@beside noted_party noted_document:text",
    key="m.mkey",
    noted="r.mark",
    amount="m.amount",
    noted_party="m.party",
    noted_document="m.document",
)
BALANCES = columns(
    "steps:number owner lot noted:text@beside origin=from disposition:word@beneath material measure=unit:text@beneath "
    f"{' '.join(f'{kind.total}:number' for kind in COUNTED)} corrected:number? on_hand:number difference:number",
    noted="mark",
    disposition=STATUS,
    difference="received + produced - consumed - shipped - scrapped + corrected - on_hand",
)
RUNNING = columns("owner batch noted:text@beside unit state:text took:text to_do=do:text")
BATCHES = columns("step:number owner batch noted:text@beside unit state:text took:text made:text")
MAY_CONTAIN = columns("unit owner batch lots:text behind:text decided:text")
FLOWS = columns("step:number batch_owner batch unit use:text lot_owner lot amount:number")


def document(view: View) -> Document:
    """The paper of one reader. An owner's tables have no column for the owner, and none a column for marks if there are
    none."""
    start, owner, is_own = view.report.start, view.owner, view.report.start.owner == view.owner
    released = f"{LOTS} AND disposition = {Disposition.RELEASED:d} AND on_hand ORDER BY is_held, place"
    amounts = [kind.total for kind in COUNTED]
    sheets = [
        view.select("released", RELEASED, released),
        running(view),
        totals(view),
        sublots(view),
        view.select("shipments", SHIPPED, f"{SHIPMENTS} ORDER BY m.place", ["amount"]),
        batches(view),
        view.select("lots", BALANCES, f"{LOTS} ORDER BY place", [*amounts, "on_hand", "difference"]),
    ]
    if not view.has_notes:
        sheets[4] = sheets[4].without("noted_party", "noted_document")
    if not view.is_noted:
        sheets = [sheet.without("noted") for sheet in sheets]
    sheets += [sheet for sheet in (view.links, view.plant_links, view.corrections) if sheet.rows]
    sheets += sheets_of(view) if view.has_notes else []
    if owner:
        sheets = [sheet.without("owner") for sheet in sheets]
    title = f"Recall: lots of {owner}" if owner and not is_own else f"Recall of {start.name if owner else start}"
    values: dict[str, Any] = {"owner": owner, "asked": start if view.names_start else None, "is_own": is_own}
    values |= {"counts": view.counts, "picture": picture(view), "files": view.report.files}
    values |= {"is_noted": view.is_noted, "has_notes": view.has_notes, "notices": notice_lines(view.notices)}
    folder, texts = (f"owners/{owner}", {}) if owner else ("plant", {"recall.txt": view.report.text})
    return Document("recall", not owner, title, [*sheets, flows(view)], values, folder, texts)


def sublots(view: View) -> Sheet:
    """Where it lies, what is released first."""
    behind = f"FROM sublots AS s JOIN temp.recalled AS r USING (owner, lot) WHERE s.amount AND {READ}"
    return view.select("sublots", SUBLOTS, f"{behind} ORDER BY {RANK}, r.owner, r.lot, s.sublot", ["amount"])


def totals(view: View) -> Sheet:
    """What is on hand by disposition and what was shipped, of each material. What is held is in no disposition's
    column, and has one if there is any."""
    by_material = f"{LOTS} GROUP BY owner, material, measure ORDER BY owner, material, measure"
    sheet = view.select("sums", TOTALS, by_material)
    return sheet if any(lot.word == HELD for lot in view.lots) else sheet.without(HELD)


def running(view: View) -> Sheet:
    """The batches that consumed some and aren't closed, with what the plant does at once about each."""
    rows = []
    for step in view.steps:
        batch = step.batch
        if not batch.is_closed:
            owner, order, number = batch.id
            can_hold = "hold" in FOLLOWING[batch.state]
            to_do = HOLD_BATCH.format(owner=owner, order=order, number=number) if can_hold else None
            rows.append((owner, batch.id.name, step.mark, *batch.status[:2], taken_in(view, step), to_do))
    sheet = Sheet("running", RUNNING, rows)
    return sheet.without("to_do") if view.owner else sheet


def batches(view: View) -> Sheet:
    """The batches between, on their units, with what they consumed and produced."""
    rows = []
    for step in view.steps:
        batch, produced = step.batch, amounts_in(view, step.produced) or "nothing yet"
        state = "closed" if batch.is_closed else batch.state.word
        about = batch.id.owner, batch.id.name, step.mark, batch.unit, state
        rows.append((step.number, *about, taken_in(view, step), produced))
    return Sheet("batches", BATCHES, rows)


def flows(view: View) -> Sheet:
    """What each batch consumed and produced of each lot: on no page, for a spreadsheet."""
    rows = [
        (step.number, step.batch.id.owner, step.batch.id.name, step.batch.unit, use, *lot, amount)
        for step in view.steps
        for use, amounts in (("consumed", step.consumed), ("produced", step.produced))
        for lot, amount in amounts.items()
    ]
    return Sheet("flows", FLOWS, rows)


def name_in(view: View, lot: LotId) -> str:
    """How a reader's paper names a lot."""
    return lot.name if lot.owner == view.owner else str(lot)


def amounts_in(view: View, amounts: dict[LotId, int]) -> str:
    """Lots with what was consumed or produced of each; of many their number."""
    if len(amounts) > MOST_NAMES:
        return f"{len(amounts):,} lots"
    lots = view.report.lots
    return ", ".join(f"{name_in(view, lot)}: {amount:,} {lots[lot].measure}" for lot, amount in amounts.items())


def taken_in(view: View, step: Step) -> str:
    """What a batch consumed of the recalled lots, and what else of them it contains by links; of many their number."""
    links = [taken_by_link(view, link) for link in step.links]
    if len(links) > MOST_NAMES:
        links = [f"{len(links):,} links"]
    return ", ".join([*filter(None, [amounts_in(view, step.consumed)]), *(f"{text} {MARK}" for text in links)])


def taken_by_link(view: View, link: Link | PlantLink) -> str:
    """What a batch contains by a link, with its amount if that is known."""
    if isinstance(link.contained, BatchId):
        return f"{link.contained}" if link.amount is None else f"{link.contained}: {link.amount:,}"
    return name_in(view, link.contained) if link.amount is None else amounts_in(view, {link.contained: link.amount})


def picture(view: View) -> list[str]:
    """The picture: a box for each lot, or if there are many for each batch's; nothing if even those are too many."""
    for of_batches in (False, True):
        groups: dict[str, list[Found]] = defaultdict(list)
        for lot in view.lots:
            groups[key_of(view, lot.id, of_batches)].append(lot)
        if len(groups) <= MOST_BOXES:
            break
    else:
        return []
    place = {lot.id: key for key, group in groups.items() for lot in group}
    genealogy = view.report.genealogy
    recorded, linked = (
        {
            (key, place[product])
            for lot, key in place.items()
            for product in beside(lot)
            if place.get(product, key) != key
        }
        for beside in (genealogy.recorded_onward, genealogy.linked_onward)
    )
    boxes = [box(view, key, group) for key, group in groups.items()]
    return pictures.draw(boxes, [Arrow(*ends, ends not in recorded) for ends in sorted(recorded | linked)])


def key_of(view: View, lot: LotId, of_batches: bool) -> str:
    """The key of the box of a lot: its own, or that of all lots of its batch; the recalled lot has its own."""
    makers = view.report.genealogy.producers(lot) if of_batches and lot != view.report.start else None
    return f"batch {min(makers)}" if makers else str(lot)


def box(view: View, key: str, lots: list[Found]) -> Box:
    """The box of these lots."""
    states = sorted(Counter(lot.word for lot in lots).items())
    materials, measures = {lot.material for lot in lots}, {lot.measure for lot in lots}
    lines = [] if view.owner else [lots[0].id.owner]
    lines.append(lots[0].material if len(materials) == 1 else f"{len(materials)} materials")
    lines.append(", ".join(f"{count} {word}" if len(lots) > 1 else word for word, count in states))
    if len(measures) == 1:
        on_hand, shipped = sum(lot.on_hand for lot in lots), sum(lot.shipped for lot in lots)
        lines += [f"{on_hand:,} {lots[0].measure} on hand", f"{shipped:,} {lots[0].measure} shipped"]
    title = lots[0].id.name if len(lots) == 1 else f"{len(lots)} lots of {key.rpartition(' ')[2]}"
    if any(lot.mark for lot in lots):
        title += f" {MARK}"
    column, is_asked = min(lot.steps for lot in lots), any(lot.id == view.report.start for lot in lots)
    return Box(key, column, title, lines, states[0][0] if len(states) == 1 else "mixed", is_asked)
