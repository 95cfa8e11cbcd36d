"""What may not be meant, by the office's tables: the day of a line, and a movement that is recorded already."""
import sqlite3
from collections.abc import Iterator
from contextlib import contextmanager, suppress

from ..core import snapshot
from ..core.context import Context
from ..core.failure import Failure
from ..core.grammar import NEXT, Line
from ..core.office import Office
from ..model.doubtful_days import read_days
from ..model.measures import value_of
from ..model.rows import HAS_RESULT, Base, LotId, keys_of_same, next_key
from ..model.years import earlier


@contextmanager
def tables_of(office: Office) -> Iterator[list[Base]]:
    """The tables of an office's file, for few rows, and those of its earlier files."""
    with snapshot.read_briefly(office) as base:
        yield [base, *(file.base for file in earlier.files_of(office))]


def of_day(context: Context, values: dict[str, str]) -> str:
    """Why the day of a line can't be meant; empty if it can be, if the line is recorded already, or if the tables can't
    be read, which `toll` tells."""
    with suppress(Failure, sqlite3.Error), tables_of(context.office()) as bases:
        if not any(is_recorded(base, values) for base in bases):
            days = read_days(bases, context.settings.time_zone, is_for_one=True)
            return days.doubt(int(values["DAY"]), LotId(*earlier.lot_of(values)))
    return ""


def is_recorded(base: Base, values: dict[str, str]) -> bool:
    """Whether tables have the key of a movement, or a result."""
    if "KEY" in values:
        return base.execute(earlier.MOVE, (values["OWNER"], values["KEY"])).fetchone() is not None
    names = values["OWNER"], values["LOT"], values["TEST"]
    return base.execute(HAS_RESULT, (*names, value_of(values["VALUE"]), int(values["DAY"]))).fetchone() is not None


def free_key(context: Context, line: Line, values: dict[str, str]) -> str:
    """The next free key, which is told. If the same movement is recorded, it is asked whether this is another one."""
    owner, row = values["OWNER"], earlier.move_of(line, values)
    with tables_of(context.office()) as bases:
        key = next_key(bases, owner, context.settings.key_prefix)
        same = keys_of_same(bases, owner, row) if row else []
    if same:
        others = f" and {len(same) - 1} more" if same[1:] else ""
        known = f"the same movement of {owner} is recorded with key {same[0]}{others}"
        context.require_meant(
            "key", known, f"if this is another one, give its key: --key {key}", "Is this another one?"
        )
    context.tell(f"KEY: {NEXT} is {key}")
    return key
