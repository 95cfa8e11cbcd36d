"""The paper of a drill: its time, what was found, the mass balance of each lot, who has it, and who did what."""
from collections import Counter
from collections.abc import Sequence
from typing import Any

from ...core.failure import printable
from ...core.journal.log import Journal
from ...model.below import MARK
from ...model.notes import Link
from ...model.register.drills import Drill, as_clock, as_moment, lot_over_all
from ...model.register.noted import Noted
from ..columns import columns
from ..history import JournalEntry, between
from ..sheets import Sheet, percent
from .copies import Source
from .printing import LONG, Document
from .recall import LOTS, MOST_NAMES, STATUS, View, read_report
from .recall_paper import totals
from .recipients import sheets_of

MOST_LINES = 200  # of the journal on the page; of more it is told who did how much
# Where what came into a lot is, and the SQL of that.
PARTS = {"on_hand": "on_hand", "in_products": "consumed", "shipped": "shipped", "scrapped": "scrapped"}
CAME_IN = "received + produced"


def share(amount: int, came_in: int) -> str:
    """An amount in percent of what came in; a dash if nothing did that stands."""
    return percent(amount, came_in) if came_in else "-"


ACCOUNTED = (" + ".join(PARTS.values()), f"{CAME_IN} + corrected", share)
FOUND = columns(
    "steps:number disposition:word owner lot noted:text@beside material on_hand:number shipped:number "
    "measure=unit:text@beside",
    disposition=STATUS,
    noted="mark",
)
MASSES = columns(
    "owner lot noted:text@beside material measure=unit:text@beneath came_in:number "
    f"{' '.join(f'{name}:number {name}_share=%:number@beneath' for name in PARTS)} "
    "accounted=accounted_for_%:number",
    noted="mark",
    came_in=CAME_IN,
    **PARTS,
    **{f"{name}_share": (sql, CAME_IN, share) for name, sql in PARTS.items()},
    accounted=ACCOUNTED,
)
OF_ASKED = columns(f"measure came_in accounted {' '.join(PARTS)}", came_in=CAME_IN, accounted=ACCOUNTED, **PARTS)
ONWARD = columns("noted_onward=goes_on_in:text")
DONE = columns("time=UTC:text noted_who=who:text machine:text@beneath noted_what=what:text answer:text")


def documents(source: Source, drill: Drill, journal: Journal) -> list[Document]:
    """The paper of a drill that has ended, which is the plant's alone."""
    ended = drill.ended or drill.begun
    entries = between(journal.path, journal.file, drill.begun.line, ended.line)
    start = lot_over_all(drill, journal, source.newest.base, None if source.is_one else source.base)
    view = View(read_report(source, start, is_plants=True))
    lots = view.select("found", FOUND, f"{LOTS} ORDER BY place", ["on_hand", "shipped"])
    sheets = [lots, masses(view), totals(view), *sheets_of(view), done(entries)]
    if not view.is_noted:
        sheets = [sheet.without("noted") for sheet in sheets]
    sheets += [sheet for sheet in (view.links, view.plant_links) if sheet.rows]
    values: dict[str, Any] = {"facts": facts(drill, ended, view), "counts": view.counts, "is_noted": view.is_noted}
    values |= {"people": people(entries), "asked": mass_of_asked(view)}
    return [Document("drill", True, f"Recall drill: lot {start}", sheets, values)]


def facts(drill: Drill, ended: Noted, view: View) -> dict[str, str | int]:
    """What the paper begins with: the clock, and how much was found."""
    return {
        "took": as_clock(drill.took),
        "began": as_moment(drill.begun),
        "begun by": printable(drill.begun.who),
        "ended": as_moment(ended),
        "ended by": printable(ended.who),
        "lots": len(view.lots),
        "batches": len(view.steps),
        "shipments": view.counts["shipments"],
        "owners": view.counts["owners"],
    }


def mass_of_asked(view: View) -> dict[str, str]:
    """The mass balance of the lot that was asked about, in words."""
    ((measure, came_in, accounted, *amounts),) = view.select("", OF_ASKED, f"{LOTS} AND place = 1").rows
    parts = {
        name.replace("_", " "): f"{amount:,} {measure}, {share(int(amount or 0), int(came_in or 0))} %"
        for name, amount in zip(PARTS, amounts)
    }
    return {"came in": f"{came_in:,} {measure}", **parts, "accounted for": f"{accounted} %"}


def masses(view: View) -> Sheet:
    """The mass balance of each lot, and what links say of where some of it went on; of many lots the table of links
    says it alone."""
    sheet = view.select("masses", MASSES, f"{LOTS} ORDER BY place", ["came_in", *PARTS])
    if not view.links.rows or len(sheet.rows) > LONG:
        return sheet
    onward = view.report.genealogy.links_of
    return sheet.joined_with(ONWARD, [(told_onward(onward(lot.id)),) for lot in view.lots])


def told_onward(links: Sequence[Link]) -> str | None:
    """What links say that contains some of a lot, and why; of much, how much for each reason."""
    containers = dict.fromkeys(f"{link.container} ({link.why}) {MARK}" for link in links)
    if len(containers) > MOST_NAMES:
        counts = Counter(link.why.value for link in links)
        return ", ".join(f"{count:,} by {why} {MARK}" for why, count in counts.items())
    return ", ".join(containers) or None


def people(entries: Sequence[JournalEntry]) -> str:
    """Who did how much, where there are too many lines for a page; empty if there aren't."""
    if len(entries) <= MOST_LINES:
        return ""
    counts = Counter(printable(entry.who) for entry in entries)
    others = counts.total() - sum(count for _, count in counts.most_common(MOST_NAMES))
    shown = [f"{who} {count:,}" for who, count in counts.most_common(MOST_NAMES)]
    return ", ".join([*shown, *([f"others {others:,}"] if others else [])])


def done(entries: Sequence[JournalEntry]) -> Sheet:
    """Who did what from the drill's begin to its end."""
    rows = [
        tuple(map(printable, (entry.time[:19].replace("T", " "), entry.who, entry.where, entry.asked, entry.answer)))
        for entry in entries
    ]
    return Sheet("done", DONE, rows)
