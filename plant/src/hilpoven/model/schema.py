"""The office's tables: what the numbers in them stand for, and the SQL that queries share.

In these fragments `m` is a movement, `l` a lot, `b` a batch, `r` a result and `t` a test of a material.
"""
from collections.abc import Iterable
from enum import Enum, IntEnum
from typing import NoReturn

from ..core.days import format_day
from ..core.failure import Failure


class Code(IntEnum):
    """A number in a column, and the word that it stands for; any other number is damage, as `toll` says of it."""

    @classmethod
    def _missing_(cls, value: object) -> NoReturn:
        raise Failure("fault Damaged")

    @property
    def word(self) -> str:
        """The word that it stands for."""
        return self.name.lower()

    @classmethod
    def sql(cls, column: str) -> str:
        """SQL for the word that a column's number stands for."""
        return f"CASE {column} {' '.join(f'WHEN {code:d} THEN {code.word!r}' for code in cls)} END"


class Kind(Code):
    """The kind of a movement."""

    RECEIVE = 0
    SPLIT = 1
    SHIP = 2
    SCRAP = 3
    CONSUMED = 4
    PRODUCED = 5

    @property
    def total(self) -> str:
        """What the amounts of this kind are called in sums."""
        return {"receive": "received", "ship": "shipped", "scrap": "scrapped"}.get(self.word, self.word)


class Role(Code):
    """The use of a requirement."""

    CONSUMED = 0
    PRODUCED = 1


class State(Code):
    """The state of a batch."""

    IDLE = 0
    RUNNING = 1
    PAUSING = 2
    PAUSED = 3
    HOLDING = 4
    HELD = 5
    RESTARTING = 6
    STOPPING = 7
    STOPPED = 8
    ABORTING = 9
    ABORTED = 10
    COMPLETE = 11


class Disposition(Code):
    """The disposition of a lot."""

    QUARANTINED = 0
    RELEASED = 1
    REJECTED = 2


class QualityState(Enum):
    """What the plant's quality says of a lot."""

    UNSIGNED = "not signed by the plant"
    SIGNED = "signed by the plant"
    HELD = "held"


def quality_text(state: str | None, day: int, reason: str | None) -> str | None:
    """The same in words, as lists and papers show it, since which day or why; `None` where it says nothing."""
    if not state:
        return None
    word = QualityState[state.upper()].value
    if state == QualityState.SIGNED.name.lower():
        return f"{word} on {format_day(day)}"
    return f"{word}: {reason}" if reason else word


# The commands that lead from each state to another one.
FOLLOWING: dict[State, tuple[str, ...]] = {
    State.IDLE: ("start",),
    State.RUNNING: ("hold", "pause", "stop", "abort", "done"),
    State.PAUSING: ("hold", "stop", "abort", "done"),
    State.PAUSED: ("hold", "resume", "stop", "abort"),
    State.HOLDING: ("stop", "abort", "done"),
    State.HELD: ("restart", "stop", "abort"),
    State.RESTARTING: ("hold", "stop", "abort", "done"),
    State.STOPPING: ("abort", "done"),
    State.STOPPED: ("reset", "abort"),
    State.ABORTING: ("done",),
    State.ABORTED: ("reset",),
    State.COMPLETE: ("reset",),
}
CLOSABLE = (State.IDLE, State.COMPLETE, State.STOPPED, State.ABORTED)  # the states in which a batch may be closed
INCOMING, OUTGOING = (Kind.RECEIVE, Kind.PRODUCED), (Kind.SHIP, Kind.SCRAP, Kind.CONSUMED)
ACTUAL_OF = {Role.CONSUMED: Kind.CONSUMED, Role.PRODUCED: Kind.PRODUCED}


def of_kinds(kinds: Iterable[Kind]) -> str:
    """SQL: a movement is of one of these kinds."""
    return f"m.kind IN ({', '.join(f'{kind:d}' for kind in kinds)})"


# What a movement records, without its owner and its key.
MOVE_COLUMNS = "kind, lot_owner, lot, sublot, target, material, ord, number, segment, amount, day"
IS_INCOMING, IS_OUTGOING = of_kinds(INCOMING), of_kinds(OUTGOING)
IS_ACTUAL = of_kinds(ACTUAL_OF.values())
STANDING = "NOT EXISTS (SELECT 1 FROM voids AS v WHERE v.owner = m.owner AND v.mkey = m.mkey)"
# By how much a movement changes what is on hand of its lot.
CHANGE = (
    f"CASE WHEN NOT ({STANDING}) THEN 0 WHEN {IS_INCOMING} THEN m.amount WHEN {IS_OUTGOING} THEN -m.amount ELSE 0 END"
)
# Whether the latest result of a test of a lot is within its limits, in a word.
LIMITS = "CASE WHEN passes IS NULL THEN 'missing' WHEN passes THEN 'within' ELSE 'out' END"
VOID = f"CASE WHEN {STANDING} THEN '' ELSE 'void' END"
ON_HAND = "(SELECT coalesce(sum(s.amount), 0) FROM sublots AS s WHERE s.owner = l.owner AND s.lot = l.lot)"
ORIGIN = "CASE l.ord WHEN '' THEN 'receipts' ELSE l.ord || '/' || l.number END"
CLOSED = "CASE b.closed WHEN 1 THEN 'closed' ELSE 'open' END"
# The batch of a movement; empty if it has none.
BATCH_NAME = "CASE m.ord WHEN '' THEN '' ELSE m.owner || ' ' || m.ord || '/' || m.number END"

LATEST = """
r.number = (SELECT max(x.number) FROM results AS x WHERE x.owner = r.owner AND x.lot = r.lot AND x.test = r.test)
"""
# What a recipe requires of a batch, with what was recorded.
REQUIREMENTS = f"""
SELECT q.segment, {Role.sql('q.role')} AS use, q.source AS owner, q.material, q.amount AS required,
  coalesce((SELECT sum(m.amount) FROM moves AS m WHERE m.owner = q.owner AND m.ord = :order AND m.number = :batch
    AND m.kind = CASE q.role WHEN {Role.CONSUMED:d} THEN {Kind.CONSUMED:d} ELSE {Kind.PRODUCED:d} END
    AND m.segment = q.segment AND m.lot_owner = q.source AND m.material = q.material AND {STANDING}), 0) AS actual
FROM requirements AS q WHERE q.owner = :owner AND q.recipe = :recipe ORDER BY q.segment, q.role, q.source, q.material
"""
