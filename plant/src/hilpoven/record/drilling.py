"""A recall for practice: its beginning and its end are notes, so its clock is the journal's."""
from ..core.context import Context
from ..core.failure import REFUSED, Failure
from ..core.forms import listed
from ..model.notes import DrillEnd, DrillStart, Withdrawal
from ..model.register import drills
from ..model.register.drills import Drill
from ..model.rows import LotId
from . import making
from .making import Desk


def start(context: Context, owner: str | None, name: str) -> Drill:
    """Starts the clock over a lot, whose owner may be left out where one owner alone has a lot of this name."""
    with making.desk(context) as desk:
        lot = LotId(owner, name) if owner else only_lot(desk, name)
        require_lot(desk, lot)
        require_none(under_way(desk))
        note = desk.record(["drill", "start", *lot], DrillStart(*lot))
        begun = under_way(desk)
        if begun is None or begun.begun.name != note:  # another one began at the same time
            desk.record(["drill", "end", "--cancel"], Withdrawal(lot.owner, note, "another drill was under way"))
            require_none(begun)
            raise Failure("another drill began and ended meanwhile", REFUSED)
        return begun


def end(context: Context, reason: str | None = None, hands_out: bool = False) -> Drill:
    """Stops the clock of the drill that is under way; with a reason it was none. `hands_out` says that its paper is
    handed out behind it."""
    with making.desk(context, hands_out) as desk:
        drill = under_way(desk)
        if drill is None:
            raise Failure("no drill is under way", REFUSED, "`hilpoven drill start OWNER LOT` starts one")
        owner, of = drill.lot.owner, drill.begun.name
        if reason is None:
            desk.record(["drill", "end"], DrillEnd(owner, of))
            return ended(desk, of)
        words = ["drill", "end", "--cancel", *(["--reason", reason] if reason else [])]
        desk.record(words, Withdrawal(owner, of, reason or "cancelled"))
        return drill


def ended_drill(context: Context, name: str) -> Drill:
    """The drill that began with a note, or the last one, for whoever hands out its paper."""
    with making.desk(context, hands_out=True) as desk:
        return ended(desk, name)


def ended(desk: Desk, name: str) -> Drill:
    """The drill that began with a note, or the last one; fails unless it has ended."""
    all_drills = drills.drills_of(desk.journal, desk.base)
    known = [drill for drill in all_drills if drill.ended and name in ("", drill.begun.name)]
    if not known:
        of_name = f" that began with note {name}" if name else ""
        raise Failure(f"no drill{of_name} has ended", REFUSED, "`hilpoven note list` has all drills, by their notes")
    return known[-1]


def under_way(desk: Desk) -> Drill | None:
    """The drill that is under way; `None` if none is."""
    return drills.under_way(drills.drills_of(desk.journal, desk.base))


def require_lot(desk: Desk, lot: LotId) -> None:
    """Fails if there is no such lot, with the owners that have one of this name."""
    try:
        desk.require_lot(lot)
    except Failure as failure:
        if owners := desk.owners_of(lot.name):
            failure.advice = f"{listed(owners)} {'have' if owners[1:] else 'has'} a lot {lot.name}"
        raise


def only_lot(desk: Desk, name: str) -> LotId:
    """The lot of this name; fails unless one owner alone has one."""
    owners = desk.owners_of(name)
    if len(owners) != 1:
        which = f"{listed(owners)} have a lot {name}: say whose" if owners else f"there is no lot {name} of any owner"
        raise Failure(which, REFUSED, "`hilpoven list lots` has all lots")
    return LotId(owners[0], name)


def require_none(drill: Drill | None) -> None:
    """Fails if a drill is under way."""
    if drill:
        raise Failure(
            f"a drill over lot {drill.lot} is under way, begun by {drill.begun.who} on {drills.as_moment(drill.begun)}",
            REFUSED,
            "`hilpoven drill end` ends it, and `hilpoven drill end --cancel` makes it none",
        )
