"""Tables of what was typed wrongly and corrected: what was recorded by mistake, what was meant, and who says so."""
from typing import Any

from ..model import corrected
from ..model.notes import mistake_text
from ..model.rows import Base, LotId
from ..model.schema import Kind
from .columns import columns
from .sheets import Sheet, select

SHIFTED = "corrected"  # the column of what a correction moved between two lots of one pile


def mistake(day: int, corrector: str, signer: str, is_owners: int) -> str:
    """What is said of a line that was recorded by mistake. An owner learns no login."""
    return mistake_text(day) if is_owners else mistake_text(day, corrector, signer)


CORRECTED = columns(
    "c.owner=of key kind:text of_day=day:day lot_before=recorded_lot amount_before=recorded:number "
    "measure=unit:text@beside party_before=recorded_to? lot=meant_lot amount_meant=meant:number party=meant_to? "
    "remark=what:text noted_reason=reason:text",
    key="c.mkey",
    kind=Kind.sql("c.kind"),
    of_day="c.of_day",
    lot_before="c.lot_before",
    amount_before="c.amount_before",
    measure="c.measure",
    party_before="c.party_before",
    lot="c.lot",
    amount_meant="c.amount_meant",
    party="c.party",
    remark=("c.day", "c.corrector", "c.signer", ":is_owners", mistake),
    noted_reason="c.reason",
)
OF_LOT = "c.lot_owner = :owner AND :lot IN (c.lot, c.lot_before)"
OF_OWNER = "(c.lot_owner = :owner OR c.owner = :owner)"


def table(base: Base, where: str, words: dict[str, Any], is_owners: bool) -> Sheet:
    """The corrections for which a condition on `c` holds, the oldest first."""
    behind = f"FROM temp.corrected AS c WHERE {where} ORDER BY c.note"
    return select(base, "corrections", CORRECTED, behind, {**words, "is_owners": is_owners})


def of_lot(base: Base, lot: LotId, is_owners: bool) -> Sheet:
    """The corrections of movements of a lot, or that were meant of it; for its owner its own ones."""
    where = f"{OF_LOT} AND c.owner = :owner" if is_owners else OF_LOT
    return table(base, where, {"owner": lot.owner, "lot": lot.name}, is_owners)


def of_owner(base: Base, owner: str, is_owners: bool) -> Sheet:
    """The corrections of an owner's movements, and for the plant of those of its lots."""
    return table(base, "c.owner = :owner" if is_owners else OF_OWNER, {"owner": owner}, is_owners)


def of_recall(base: Base, reader: str) -> Sheet:
    """The corrections of movements of recalled lots, and of those that were meant; of one owner its own ones."""
    where = """
(c.lot_owner, c.lot) IN (SELECT owner, lot FROM temp.reached) OR (c.lot_owner, c.lot_before) IN
  (SELECT owner, lot FROM temp.reached)
"""
    return table(base, f"({where}) AND :reader IN ('', c.owner)", {"reader": reader}, bool(reader))


def shifted(base: Base, lot: LotId) -> int:
    """By how much more is on hand of a lot than its movements as they were meant leave."""
    ((amount,),) = base.execute(corrected.SHIFTED, lot).fetchall()
    return int(amount)
