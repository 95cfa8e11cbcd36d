"""What a batch uses besides its recipe: `toll` records it as a scrap, whatever the lot and the batch are like, and a
link says of which batch."""
import hashlib

from ..core.context import Context
from ..core.grammar import LINES
from ..model.quality import tests_of
from ..model.measures import as_number
from ..model.rows import OF_USE, Base, BatchId, Lot, LotId, batches_of, lots_of
from ..model.notes import Link
from ..model.kinds import Why
from ..model.register.meant import HAS_KEY
from ..model.register.standing import Register
from ..model.schema import Disposition
from . import asking, expiry, giving, making
from .asking import Beside, Given
from .making import Desk

SCRAP = LINES["scrap"]


def use(
    context: Context,
    batch: BatchId,
    lot: LotId,
    sublot: str,
    amount: str,
    day: int,
    key: str | None,
    reason: str,
    is_meant: bool,
) -> Given:
    """Scraps what a batch uses of a sublot, with a link; `is_meant` says that it is, whatever the day, the lot and the
    batch are."""
    values = [batch.owner, batch.order, str(batch.number), *lot, sublot, as_number(amount), str(day)]
    key = key or f"{OF_USE}{hashlib.sha256(' '.join(values).encode()).hexdigest()[:10].upper()}"

    def beside(scrap: dict[str, str]) -> Beside:
        note = Link(batch.owner, "", batch.order, batch.number, *lot, Why.USE, int(amount), reason)
        with making.desk(context) as desk:
            desk.require_link(note)
            if not is_meant and (doubts := doubts_of(desk, batch, lot, scrap["KEY"])):
                context.require_meant("use", "; ".join(doubts), giving.ADVICE)
            warning = expiry.warning(desk, context.settings.expiry.actual, lot, scrap)
            return Beside(desk.members([note]), warning, is_use=True)

    words = [lot.owner, key, lot.name, sublot, amount, str(day)]
    if not is_meant:
        giving.require_day(context, SCRAP, words)
    return asking.give(context, SCRAP, words, beside)


def doubts_of(desk: Desk, batch: BatchId, lot: LotId, key: str) -> list[str]:
    """Why a use isn't meant, perhaps; nothing of one that is recorded already, with this key."""
    if desk.has(HAS_KEY, lot.owner, key):
        return []
    known = next((row for base in desk.bases if (row := batches_of(base, [batch]).get(batch))), None)
    used = lots_of(desk.base, [lot]).get(lot)
    is_closed = [f"batch {batch} is closed"] if known and known.is_closed else []
    return [*is_closed, *(doubts_of_lot(desk.base, desk.register, used) if used else [])]


def doubts_of_lot(base: Base, register: Register, lot: Lot) -> list[str]:
    """What speaks against using a lot: that it is rejected, or which of its tests it failed, or that it isn't
    released."""
    if lot.disposition == Disposition.REJECTED:
        return [f"lot {lot.id} is rejected"]
    failed = [test.name for test in tests_of(base, register, lot.id) if test.passes == 0]
    if failed:
        return [f"the latest result of lot {lot.id} is out of the limits of {', '.join(failed)}"]
    return [] if lot.disposition == Disposition.RELEASED else [f"lot {lot.id} is not released"]
