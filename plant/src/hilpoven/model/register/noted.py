"""The notes in the lines of a journal: how one is written and read."""
import functools
import re
from collections.abc import Callable, Iterator
from dataclasses import MISSING, asdict, dataclass, fields
from typing import Any

from ... import HOUSE
from ...core import gs1
from ...core.days import date_of, is_month
from ...core.forms import AMOUNT, BATCH, COMMAND, DAY, MOST_VALUE, NAME, TEXT
from ...core.grammar import LINES
from ...core.journal.query import who
from ..measures import MOST_DECIMALS
from ..notes import KINDS, MOST_ALLOWANCE, CaseStart, Cleaned, Link, Note, PlantLink, Reason, Table, UnitFacts
from ..kinds import Bound, Emptied, Role, Spread, Why
from .meant import MEANT, Row, rows_in

LINE = re.compile("[0-9a-f]{16}")  # the name of a line
AFTER = "after"  # the member of a line: which earlier file the office's file had come from when the note was made


@dataclass(frozen=True)
class Noted:
    """A note as the journal has it. `value` is what stands there, which may be a note of a kind that isn't known."""

    name: str
    line: str  # the name of its line
    time: str
    who: str
    file: str
    after: str  # the earlier file that the office's file had come from; empty while there was none
    words: tuple[str, ...]  # of the command
    is_own: bool  # whether its line is about nothing else; otherwise it belongs to what the line asks
    value: Any
    meant: tuple[Row, ...] | None = ()  # the rows that it means, as far as its line has them; `None` if they are none

    @functools.cached_property
    def note(self) -> Note | None:
        """The note that it is; `None` if it can't be read. It is read once."""
        return from_json(self.value)

    @property
    def kind(self) -> str:
        """The kind that it says it is of; empty if it says none."""
        return str(self.value.get("kind", "")) if isinstance(self.value, dict) else ""


def notes_in(entry: dict[str, Any]) -> Iterator[Noted]:
    """The notes of a line."""
    line, values, words = str(entry.get("id")), entry.get("notes"), entry.get("words")
    if entry.get("event") not in ("note", "asked") or not LINE.fullmatch(line) or not isinstance(values, list):
        return
    meant = entry.get(MEANT, [[]] * len(values))
    is_each = isinstance(meant, list) and len(meant) == len(values)
    for number, value in enumerate(values, 1):
        yield Noted(
            line if number == 1 else f"{line}.{number}",
            line,
            str(entry.get("time")),
            who(entry),
            str(entry.get("file")),
            str(entry.get(AFTER, "")),
            tuple(map(str, words)) if isinstance(words, list) else (),
            entry["event"] == "note",
            value,
            rows_in(meant[number - 1]) if is_each else None,
        )


# The members that a note of each kind may have, and whether it has to have them.
KNOWN = {kind: {member.name: member.default is MISSING for member in fields(kind)} for kind in KINDS.values()}
NAME_OF_NOTE = re.compile(r"[0-9a-f]{16}(\.([2-9]|[1-9][0-9]{1,3}))?")
MEANT_AMOUNTS = ("amount_before", "amount_meant")
MOST_MEANT = 10**12  # of what a movement comes to with its corrections
MAY_BE_ZERO = {"value", "day", *MEANT_AMOUNTS}  # members of which 0 says something


def to_json(note: Note) -> dict[str, Any]:
    """A note as a member of a line of the journal; what is empty is left out."""
    members = {name: value for name, value in asdict(note).items() if value or name in MAY_BE_ZERO}
    return {"kind": note.KIND, **members}


def is_name(value: Any) -> bool:
    """Whether a value is a name of `toll`'s form."""
    return isinstance(value, str) and not NAME.fault(value)


def is_text(value: Any) -> bool:
    """Whether a value may be a text of a note."""
    return isinstance(value, str) and not TEXT.fault(value)


def is_of(fault_of: Callable[[str], str]) -> Callable[[Any], bool]:
    """Whether a value is a text for which a form has no fault."""
    return lambda value: isinstance(value, str) and not fault_of(value)


def is_number(form: Callable[[str], str]) -> Callable[[Any], bool]:
    """Whether a value is a whole number for which a form has no fault."""
    return lambda value: type(value) is int and not form(str(value))


def is_between(least: int, most: int) -> Callable[[Any], bool]:
    """Whether a value is a whole number within these bounds."""
    return lambda value: type(value) is int and least <= value <= most


def is_date(value: Any) -> bool:
    """Whether a value is a day that is a date."""
    return type(value) is int and date_of(value) is not None


# What each member may be, by its name; any other is a text.
MEMBERS: dict[str, Callable[[Any], bool]] = {
    **{name: is_name for name in ("owner", "lot", "order", "of_owner", "of_lot", "party", "key", "of_key")},
    **{name: is_name for name in ("material", "test", "recipe", "product", "of_order")},
    **{name: is_name for name in ("lot_owner", "lot_before", "party_before", "sublot", "case")},
    **{name: is_date for name in ("made", "expires", "retest")},
    **{name: is_between(0, MOST_MEANT) for name in (*MEANT_AMOUNTS, "back", "destroyed", "gone")},
    "drill": is_between(0, 1),
    "gln": is_of(gs1.GLN.fault),
    "gtin": is_of(gs1.GTIN.fault),
    "unit_code": is_of(gs1.UNIT_CODE.fault),
    **{name: is_number(BATCH.fault) for name in ("batch", "of_batch")},
    "tells": lambda value: value is True,
    "amount": is_number(AMOUNT.fault),
    "day": is_number(DAY.fault),
    "command": lambda value: isinstance(value, str) and (value in LINES or value in COMMAND.choices),
    "value": is_between(-MOST_VALUE, MOST_VALUE),
    "decimals": is_between(0, MOST_DECIMALS),
    "month": lambda value: type(value) is int and is_month(value),
    "allowance": is_between(0, MOST_ALLOWANCE),
    "of": lambda value: isinstance(value, str) and NAME_OF_NOTE.fullmatch(value) is not None,
}


def name_of(value: Any) -> str:
    """A value that is a name of `toll`'s form; fails with ValueError if it is none."""
    if not is_name(value):
        raise ValueError("it is no name")
    return str(value)


# Members that are a word of a list, and those that are several such words, or names.
WORDS: dict[str, Callable[[Any], Any]] = {"why": Why, "spread": Spread, "bound": Bound}
LISTS: dict[str, Callable[[Any], Any]] = {"roles": Role, "emptied": Emptied, "allergens": name_of}
# What a member of a link is where it says nothing of it: a batch may stand for its lots.
OF_LINKS: dict[str, Any] = {"lot": "", "order": "", "batch": 0}


def from_json(value: Any) -> Note | None:
    """The note that a member of a line of the journal is; `None` if it is none, or of a kind that isn't known."""
    kind = KINDS.get(str(value.get("kind"))) if isinstance(value, dict) else None
    if kind is None:
        return None
    members = {name: member for name, member in value.items() if name != "kind"}
    known = KNOWN[kind]
    if members.keys() - known.keys():
        return None
    try:
        for name, member in members.items():
            members[name] = read_member(name, member)
    except ValueError:
        return None
    members = {**(OF_LINKS if kind is Link else {}), **members}
    if any(is_needed and name not in members for name, is_needed in known.items()):
        return None
    note = kind(**members)
    return note if is_whole(note) else None


def read_member(name: str, value: Any) -> Any:
    """A member of a note in its type; fails with ValueError if it can't be one."""
    if reader := WORDS.get(name) or READERS.get(name):
        return reader(value)
    if name in LISTS:
        if not isinstance(value, list):
            raise ValueError(f"{name} are a list")
        return tuple(map(LISTS[name], value))
    if name == "lost":
        if not isinstance(value, list) or not all(map(MEMBERS["of"], value)):
            raise ValueError("the names of notes are a list")
        return tuple(value)
    if not MEMBERS.get(name, is_text)(value):
        raise ValueError(f"{name} is none")
    return value


def is_whole(note: Note) -> bool:
    """Whether a note says all that its kind has to: a link is of a lot or of a batch, and only a link of the plant's is
    of a third owner's lot."""
    match note:
        case Reason():
            return bool(note.lot or note.key or note.order)
        case UnitFacts() | Cleaned():
            return is_name(note.unit)
        case CaseStart():
            return is_end(note.lot, note.order, note.batch)
        case Link():
            is_known = note.of_owner in (note.owner, HOUSE)
            return is_known and is_end(note.lot, note.order, note.batch) and note.container != note.contained
        case PlantLink():
            ends = (note.lot, note.order, note.batch), (note.of_lot, note.of_order, note.of_batch)
            return all(is_end(*end) for end in ends) and note.container != note.contained
    return True


def is_end(lot: str, order: str, batch: int) -> bool:
    """Whether these name one end of a link: a lot, or a batch."""
    return bool(lot) != bool(order and batch) and not (lot and (order or batch))


def rows_of(value: Any, is_row: Callable[[list[Any]], bool]) -> tuple[tuple[Any, ...], ...]:
    """The rows of a member of a line of the journal; fails with ValueError if one of them isn't what it has to be."""
    if not isinstance(value, list) or not all(isinstance(row, list) and is_row(row) for row in value):
        raise ValueError("rows are lists")
    return tuple(map(tuple, value))


def has_types(row: list[Any], *types: type) -> bool:
    """Whether a row has cells of these types; truths are no numbers."""
    return list(map(type, row)) == list(types)


def is_terms(row: list[Any]) -> bool:
    """Whether a row is a recipe with its main product, which it may lack, and its allowance."""
    return (
        has_types(row, str, str, int)
        and not NAME.fault(row[0])
        and not (row[1] and NAME.fault(row[1]))
        and 0 <= row[2] <= MOST_ALLOWANCE
    )


def is_place(row: list[Any]) -> bool:
    """Whether a row is a batch with its file."""
    return has_types(row, int, str, int) and row[0] > 0 and not NAME.fault(row[1]) and not BATCH.fault(str(row[2]))


def table_of(value: Any) -> Table:
    """A table of a line of the journal; fails with ValueError if it is none."""
    if not isinstance(value, list) or len(value) != 3 or not isinstance(value[0], str):
        raise ValueError("a table has a name, columns and rows")
    ((*columns,),) = rows_of([value[1]], lambda row: all(isinstance(cell, str) for cell in row))
    rows = rows_of(value[2], lambda row: len(row) == len(columns) and all(map(is_cell, row)))
    return value[0], tuple(columns), rows


def is_cell(value: Any) -> bool:
    """Whether a value is one of a table."""
    return value is None or isinstance(value, str) or type(value) is int


def tables_of(value: Any) -> tuple[Table, ...]:
    """The tables of a line of the journal; fails with ValueError if they are none."""
    if not isinstance(value, list):
        raise ValueError("tables are a list")
    return tuple(map(table_of, value))


READERS: dict[str, Callable[[Any], Any]] = {
    "recipes": lambda value: rows_of(value, is_terms),
    "batches": lambda value: rows_of(value, is_place),
    "tables": tables_of,
}
