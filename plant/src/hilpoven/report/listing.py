"""The lists with what is noted of their rows, and why one has no rows."""
from collections import Counter
from collections.abc import Mapping, Sequence
from typing import Any

from ..core.context import Context
from ..core.days import format_day
from ..core.table import Row
from ..model import views
from ..model.nearest import nearest
from ..model.register.standing import register_of
from ..model.rows import Base
from .lists import LISTINGS
from .sheets import Sheet, select

MOST_COMPARED = 20_000  # names, which take a second; an owner has no more of anything
OF_OWNER = "FROM {0} WHERE :owner IS NULL OR owner = :owner"
# The names that a filter may ask for, by the filter's name: what they are called, and where they are.
NAMES = {
    "owner": ("owners", "SELECT owner FROM owners UNION SELECT 'HOUSE'"),
    "lot": ("lots", f"SELECT DISTINCT lot {OF_OWNER.format('lots')}"),
    "key": ("keys", f"SELECT DISTINCT mkey {OF_OWNER.format('moves')}"),
    "material": ("materials", f"SELECT DISTINCT material {OF_OWNER.format('materials')}"),
    "order": ("orders", f"SELECT DISTINCT ord {OF_OWNER.format('orders')}"),
    "unit": ("units", "SELECT unit FROM units"),
}


def read(base: Base, name: str, asked: Mapping[str, Any], only_open: bool = False, also: Sequence[str] = ()) -> Sheet:
    """A list with what is noted of its rows, of tables that have the views. `also` is SQL of which rows alone."""
    listing = LISTINGS[name]
    behind = listing.behind(listing.noted_source or listing.source, asked, only_open, also)
    return select(base, name, listing.with_notes, behind, asked)


def read_of(
    context: Context, base: Base, name: str, asked: Mapping[str, Any], only_open: bool
) -> tuple[list[str], list[Row]]:
    """The columns and the rows of a list of the office of a command, of whose file these are the tables."""
    sheet = read(views.over(base, register_of(context, base)), name, asked, only_open)
    return sheet.names, list(sheet.rows)


def expiring_lots(columns: Sequence[str], rows: Sequence[Row], last: int) -> list[Row]:
    """The lots on hand that expire, or are to be tested again, up to a day, the first ones first."""
    if "noted_expires" not in columns:
        return []
    on_hand, expires, retest = (columns.index(name) for name in ("on_hand", "noted_expires", "noted_retest"))
    first_days = [
        min((day for day in (row[expires], row[retest]) if isinstance(day, int)), default=None) for row in rows
    ]
    soon = [(day, row) for day, row in zip(first_days, rows) if day is not None and day <= last and row[on_hand]]
    return [row for _, row in sorted(soon, key=lambda entry: entry[0])]


def reasons(base: Base, name: str, asked: dict[str, Any], only_open: bool) -> list[str]:
    """Why a list has no rows: the names that aren't there, or else what there is without its options."""
    unknown = [line for option in asked if option in NAMES for line in unknown_name(base, option, asked)]
    return unknown or left_out(base, name, asked, only_open)


def unknown_name(base: Base, option: str, asked: dict[str, Any]) -> list[str]:
    """That a name isn't there, with the nearest names; nothing if it is there."""
    called, sql = NAMES[option]
    owner = asked.get("owner") if ":owner" in sql else None
    names = sorted(name for name, in base.execute(sql, {"owner": owner}))
    if asked[option] in names:
        return []
    of_owner = f" of {owner}" if owner else ""
    near = [nearest(asked[option], names, f"{called}{of_owner}")] if len(names) <= MOST_COMPARED else []
    return [f"There is no {option} {asked[option]}{of_owner}.", *near]


def left_out(base: Base, name: str, asked: dict[str, Any], only_open: bool) -> list[str]:
    """What a list has without `--open`, or without `--since`, or without any option."""
    listing = LISTINGS[name]
    if only_open and (rows := base.execute(listing.sql(asked), asked).fetchall()):
        at = list(listing.columns).index(listing.status) if listing.status else None
        counts = Counter(row[at] for row in rows if at is not None)
        kinds = ", ".join(f"{count:,} {status}" for status, count in counts.items())
        return [f"--open shows {listing.open_about}; without it there are {len(rows):,}{kinds and f': {kinds}'}."]
    if "since" in asked:
        others = {option: value for option, value in asked.items() if option != "since"}
        if days := [day for *_, day in base.execute(f"SELECT max(day) FROM ({listing.sql(others)})", others) if day]:
            return [f"The latest day is {format_day(days[0])}."]
    ((count,),) = base.execute(f"SELECT count(*) FROM ({listing.sql()})")
    return [f"Without these options there are {count:,}."] if count else []
