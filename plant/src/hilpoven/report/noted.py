"""Tables of what the plant noted: which lots contain others, and why commands were given."""
from collections.abc import Collection, Iterable
from typing import Any

from ..core.days import format_day
from ..model.genealogy import Genealogy
from ..model.notes import Link, PlantLink
from ..model.register.standing import Register
from ..model.rows import Base, BatchId, LotId
from ..model.schema import IS_ACTUAL, STANDING, Kind
from .columns import Column, columns
from .sheets import Sheet, select

BATCH = "iif(k.lot = '', k.ord || '/' || k.number, NULL)"
LINKS = columns(
    "k.owner lot batch amount=contains:number measure=unit:text@beside k.of_owner=of k.of_lot=lot k.why:text "
    "noted_reason=reason:text",
    lot="nullif(k.lot, '')",
    batch=BATCH,
    amount="k.amount",
    measure="iif(k.amount IS NULL, NULL, k.measure)",
    noted_reason="nullif(k.reason, '')",
)
SHOWN = columns(  # as `hilpoven show` has them
    "k.owner lot batch contains:number k.of_owner k.of_lot k.why k.reason",
    lot="nullif(k.lot, '')",
    batch=BATCH,
    contains="k.amount",
)
PLANT_LINKS = columns(
    "owner lot batch contains:number of_owner=of of_lot=lot of_batch=batch why:text noted_reason=reason:text "
    "told=owner_told:text"
)
# Which links say what a lot or a batch contains, and which of them are about a lot.
MADE = f"SELECT {{}} FROM moves AS m WHERE m.owner = k.owner AND m.kind = {Kind.PRODUCED:d} AND {STANDING} AND"
IN_LOT = f"""
k.owner = :owner AND (k.lot = :lot OR k.lot = '' AND (k.ord, k.number) IN (
  {MADE.format('m.ord, m.number')} m.lot_owner = :owner AND m.lot = :lot))
"""
ABOUT_LOT = f"({IN_LOT} OR k.of_owner = :owner AND k.of_lot = :lot)"
IN_BATCH = f"""
k.owner = :owner AND (k.lot = '' AND k.ord = :order AND k.number = :batch
  OR k.lot IN ({MADE.format('m.lot')} m.ord = :order AND m.number = :batch))
"""


def links(base: Base, where: str, words: Any = (), name: str = "links", shown: list[Column] = LINKS) -> Sheet:
    """The links for which a condition on `k` holds, of tables that have the views."""
    return select(base, name, shown, f"FROM link AS k WHERE {where} ORDER BY k.note, k.place", words)


def plant_links(links: Iterable[PlantLink]) -> Sheet:
    """Links that the plant alone sees."""

    def names(end: LotId | BatchId) -> tuple[str | None, str | None]:
        return (end.name, None) if isinstance(end, LotId) else (None, end.name)

    rows = [
        (
            link.owner,
            *names(link.container),
            link.amount,
            link.of_owner,
            *names(link.contained),
            link.spread.value,
            link.reason or None,
            "yes" if link.tells else None,
        )
        for link in links
    ]
    return Sheet("plant_links", PLANT_LINKS, rows)


def notice_lines(notices: Iterable[tuple[str, int]]) -> list[str]:
    """What an owner reads of its lots that contain material of another one."""
    return [f"{lot} contains material of another owner, noted on {format_day(day)}." for lot, day in notices]


def links_among(base: Base, register: Register, chosen: Collection[Link]) -> Sheet:
    """Those of an owner's links that are chosen."""
    rows = links(base, "k.owner = ?", (register.owner,)).rows
    kept = [row for row, link in zip(rows, Genealogy(base, register).links) if link in chosen]
    return Sheet("links", LINKS, kept)


ABOUT = """
r.command || ' ' || CASE WHEN r.mkey <> '' THEN r.mkey WHEN r.lot <> '' THEN r.lot
  WHEN r.number THEN r.ord || '/' || r.number ELSE r.ord END
"""
REASONS = columns("what:text noted_reason=reason:text", noted_reason="r.reason", **{"what": ABOUT})
OF_LOT = """
r.owner = :owner AND r.lot = :lot
OR (r.owner, r.mkey) IN (SELECT m.owner, m.mkey FROM moves AS m WHERE m.lot_owner = :owner AND m.lot = :lot)
"""
OF_BATCH = f"""
r.owner = :owner AND (r.ord = :order AND r.number IN (0, :batch) OR r.mkey IN (
  SELECT m.mkey FROM moves AS m WHERE m.owner = :owner AND m.ord = :order AND m.number = :batch AND {IS_ACTUAL}))
"""


def word_of(is_held: int) -> str:
    """What the plant's quality did to a lot."""
    return "hold" if is_held else "signature"


def judgement(is_held: int, day: int) -> str:
    """The same, with its day."""
    return f"{word_of(is_held)} on {format_day(day)}"


JUDGED = columns(
    "what:text noted_reason=reason", noted_reason="j.reason", **{"what": ("j.is_held", "j.day", judgement)}
)


def reasons(base: Base, where: str, words: Any) -> Sheet:
    """The reasons for which a condition on `r` holds, of tables that have the views."""
    return select(base, "reasons", REASONS, f"FROM reason AS r WHERE {where} ORDER BY r.note", words)


def reasons_of_lot(base: Base, owner: str, lot: str) -> Sheet:
    """The reasons of a lot's rejection, of its movements, and of its holds and signatures."""
    words = {"owner": owner, "lot": lot}
    behind = "FROM register.judgement_note AS j WHERE owner = :owner AND lot = :lot AND reason <> '' ORDER BY j.note"
    judged = select(base, "reasons", JUDGED, behind, words)
    return Sheet("reasons", REASONS, [*reasons(base, OF_LOT, words).rows, *judged.rows])


MOST_DOCUMENTS = 8  # of a recipient that are named; of more the number is told


def documents_named(documents: Iterable[str]) -> str:
    """The documents of a recipient's shipments, each once, as far as they are named."""
    names = list(dict.fromkeys(filter(None, documents)))
    unnamed = len(names) - MOST_DOCUMENTS
    return "; ".join([*names[:MOST_DOCUMENTS], *([f"{unnamed:,} more"] if unnamed > 0 else [])])
