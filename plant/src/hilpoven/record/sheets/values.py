"""The values of a sheet, and what a sheet may have made of those that were typed into it."""
import re
import string
from collections.abc import Callable
from dataclasses import dataclass, field
from functools import cached_property
from datetime import date
from decimal import Decimal
from typing import NamedTuple

from ...core import forms
from ...core.failure import Failure
from ...core.table import Value, as_cell
from ...core.days import DATED_YEARS, date_in, date_of, day_of
from ...model.measures import whole_of
from ...model.kinds import split_sign
from .cells import Cell

NAME = re.compile(r"[A-Z0-9][A-Z0-9-]{0,15}")
NUMBER = re.compile(r"[0-9]{1,10}")
FORMULA = re.compile(r'="((?:[^"]|"")*)"')  # a text, as `hilpoven` writes it into CSV files
DIGITS = re.compile(r"0|[1-9][0-9]*")
DATE = re.compile(r"[0-9]{1,4}-[0-9]{1,2}-[0-9]{1,4}")
EXPONENT = re.compile(r"[+-]?[0-9]+([.,][0-9]+)?E[+-]?[0-9]+", re.I)
SIGNS = re.compile(r"[.,' \u00a0\u202f]")  # what stands between thousands
THOUSANDS = re.compile(rf"[0-9]{{1,3}}({SIGNS.pattern}[0-9]{{3}})+")
DECIMALS = re.compile(r"([0-9]+)[.,]0+")
PLAIN_FORM = re.compile(r"(?:0{1,20}|#,##0)(?:\.(0{1,20}))?")
DOTTED = re.compile(r"([0-9]{1,2})\.([0-9]{1,2})\.([0-9]{4})")  # a date, the day before the month
UNCLEAR = re.compile(r"[0-9]{1,4}([./-])[0-9]{1,2}\1[0-9]{1,4}")  # a date in which the parts may be others
MINUS = re.compile(r"[-\u2212](?=[0-9])")  # as a keyboard and as a spreadsheet write it


class Taken(NamedTuple):
    """A value as it is written, and the trap that it may be in, with the words on it; and whether it is written in
    another way than the sheet has it."""

    text: str
    trap: str | None = None
    words: str = ""
    is_other: bool = False

    def how(self) -> str:
        """How it is taken."""
        return f" as {self.text}" if self.is_other else " as it stands"


class Refused(Exception):
    """Why a value can't be taken, whatever is asked for."""


def can_be_read(reading: "Reading", cell: Cell) -> bool:
    """Whether a reading takes a cell, perhaps if that is asked for."""
    try:
        reading(cell)
    except Refused:
        return False
    return True


def letters(column: int) -> str:
    """The letters that sheets have above the column of this number, from 1."""
    before, last = divmod(column - 1, 26)
    return (letters(before) if before else "") + string.ascii_uppercase[last]


def of_uses(cell: Cell) -> Taken:
    """What is done with a material."""
    if cell.text not in ("consumed", "produced"):
        raise Refused(f"{cell.text!r} is neither consumed nor produced")
    return Taken(cell.text)


def of_names(cell: Cell) -> Taken:
    """A name. A number was perhaps typed otherwise, and so were digits alone in a text file, which has no text
    cells."""
    text = cell.text
    if cell.shown not in (None, text):
        raise Refused(f"it is the number {text}, shown as {cell.shown}")
    if not NAME.fullmatch(text):
        if NAME.fullmatch(text.upper()) and text.isascii() and not EXPONENT.fullmatch(text):
            return Taken(text.upper(), "capitals", f"{text!r} has lower-case letters", is_other=True)
        raise Refused(f"{text!r} is {no_name(text)}")
    return as_typed(cell, text)


def of_quoted_names(cell: Cell) -> Taken:
    """A name, which may be written as a formula of a text: so a sheet that `hilpoven` made has it."""
    formula = FORMULA.fullmatch(cell.text)
    return of_names(cell._replace(text=formula[1], is_text=True) if formula else cell)


def as_typed(cell: Cell, text: str) -> Taken:
    """A text, which was perhaps typed otherwise."""
    if cell.shown is not None:
        return Taken(text, "digits", f"{text} is held as a number, as a sheet makes it of 1E5 or 007")
    if not cell.is_text and DIGITS.fullmatch(text):
        return Taken(text, "digits", f"{text} is digits alone, as a sheet makes them of 1E5 or 007")
    if not cell.is_text and DATE.fullmatch(text):
        return Taken(text, "dates", f"{text} has the form of a date, as a sheet makes it of 1-2")
    return Taken(text)


def of_texts(cell: Cell) -> Taken:
    """A text that is noted with a movement; one that was written as a formula of a text is that text."""
    if cell.shown not in (None, cell.text):
        raise Refused(f"it is the number {cell.text}, shown as {cell.shown}")
    formula = FORMULA.fullmatch(cell.text)
    text = formula[1].replace('""', '"') if formula else cell.text
    if fault := forms.text_fault(text):
        raise Refused(f"it {fault}")
    return Taken(text) if formula else as_typed(cell, text)


def no_name(text: str) -> str:
    """Why a text is no name."""
    if EXPONENT.fullmatch(text):
        return "a number with an exponent, as a sheet shows it of 1E5, and no name"
    if re.fullmatch(r"[+-]?[0-9]+[.,][0-9]+", text):
        return "a number with decimals, and no name"
    return "no name: 1 to 16 of A-Z, 0-9 and -, the first not -"


def of_numbers(cell: Cell) -> Taken:
    """A whole number."""
    text = cell.text
    if cell.shown is not None:
        return of_held_number(text, cell.shown)
    if NUMBER.fullmatch(text):
        return Taken(text)
    if THOUSANDS.fullmatch(text):
        raise Refused(f"{text!r} has thousands or decimals, which can't be told apart")
    if match := DECIMALS.fullmatch(text):
        return with_decimals(match[1], text)
    raise Refused(f"{text!r} is no whole number of at most 10 digits")


def of_held_number(text: str, shown: str) -> Taken:
    """A number that the sheet holds as one: what it is is known, and how it is shown may be another thing."""
    if not NUMBER.fullmatch(text):
        raise Refused(f"{text} is no whole number of at most 10 digits")
    if SIGNS.sub("", shown).zfill(10) == text.zfill(10):
        return Taken(text)
    if (match := re.fullmatch(r"(.+)[.,]0+", shown)) and SIGNS.sub("", match[1]) == text:
        return with_decimals(text, shown)
    raise Refused(f"it is the number {text}, shown as {shown}")


def with_decimals(whole: str, shown: str) -> Taken:
    """A whole number that is shown with decimals."""
    return Taken(whole, "decimals", f"{shown} has decimals, and the column has whole numbers", is_other=True)


def of_days(cell: Cell) -> Taken:
    """A day: a whole number, or a date, which is written as YYMMDD."""
    if not (when := cell.day or date_written(cell.text)):
        if cell.shown is None and UNCLEAR.fullmatch(cell.text):
            raise Refused(f"{cell.text!r} is no date of a form that is read: write 2026-11-27, or 261127")
        return of_numbers(cell)
    if when.year not in DATED_YEARS:
        raise Refused(f"{when} has no day YYMMDD: its year is none from {DATED_YEARS[0]} to {DATED_YEARS[-1]}")
    return Taken(str(day_of(when)), "dates", f"{when} is a date, and a day is a number", is_other=True)


def of_dates(cell: Cell) -> Taken:
    """A day that is a date, which is written as YYMMDD."""
    when = cell.day or date_written(cell.text)
    if not when and re.fullmatch(r"[0-9]{6}", cell.text) and cell.shown in (None, cell.text):
        when = date_of(int(cell.text))
    if not when or when.year not in DATED_YEARS:
        raise Refused(f"{cell.text!r} is no date, such as 2026-11-27 or 261127")
    return Taken(str(day_of(when)))


def date_written(text: str) -> date | None:
    """The date that a text is, as 2026-11-27 or 27.11.2026; `None` if it is none."""
    match = DOTTED.fullmatch(text)
    return date_in(f"{match[3]}-{match[2]:0>2}-{match[1]:0>2}" if match else text)


def of_values(cell: Cell) -> Taken:
    """A value of a test: a whole number, and one below zero with `M` for its sign, as `toll` reads it."""
    text, shown = MINUS.sub("", cell.text, 1), cell.shown and MINUS.sub("", cell.shown, 1)
    is_negative = text != cell.text
    if re.fullmatch(r"M[0-9]{1,10}", cell.text):
        return Taken(cell.text)
    taken = of_numbers(cell._replace(text=text, shown=shown) if is_negative else cell)
    return taken._replace(text=f"M{taken.text}") if is_negative else taken


def of_measured(cell: Cell, decimals: int) -> Taken:
    """A value of a test with so many decimals, as it was measured: 7.02, or <5 where it is a bound."""
    bound, number = split_sign(cell.text)
    sign, bare = bound.sign if bound else "", cell._replace(text=number)
    if not decimals:
        taken = of_values(bare)
        return taken._replace(text=sign + taken.text)
    text = MINUS.sub("-", bare.text, 1)
    if cell.shown is not None and not (shows_all(text, cell.form) or is_shown(text, MINUS.sub("-", cell.shown, 1))):
        raise Refused(f"it is the number {cell.text}, shown as {cell.shown}")
    try:
        whole_of(text, decimals)
    except Failure as failure:
        raise Refused(failure.message) from None
    return Taken(sign + text)


def shows_all(text: str, form: str) -> bool:
    """Whether a plain format shows all decimals of a number."""
    match = PLAIN_FORM.fullmatch(form)
    return match is not None and len(text.partition(".")[2]) <= len(match[1] or "")


def is_shown(text: str, shown: str) -> bool:
    """Whether a number is shown as it is, with a point or a comma before its decimals, and anything between thousands
    of a whole one."""
    whole, _, part = SIGNS.sub(".", shown).rpartition(".")
    with_point = f"{whole.replace('.', '')}.{part}" if whole else shown
    as_numbers = [
        number for number in (with_point, SIGNS.sub("", shown)) if re.fullmatch(r"-?[0-9]+(\.[0-9]+)?", number)
    ]
    return any(Decimal(number) == Decimal(text) for number in as_numbers)


Reading = Callable[[Cell], Taken]


@dataclass(frozen=True)
class Kind:
    """What a sheet holds: its columns in the order in which `toll` has them, each with how its values are read, and
    those that it may have besides, whose values are noted with the movement."""

    name: str
    columns: dict[str, Reading]
    noted: dict[str, Reading] = field(default_factory=dict)

    @cached_property
    def readings(self) -> dict[str, Reading]:
        """How the values of each column are read."""
        return {**self.columns, **self.noted}

    def of(self, *reads: Reading) -> list[str]:
        """The columns whose values are read so."""
        return [column for column, reading in self.readings.items() if reading in reads]

    def written(self, column: str, text: str) -> Value:
        """How a noted value is written into a CSV file."""
        return as_cell(text) if self.noted[column] is of_texts else text

    def trapped(self, trap: str) -> list[str]:
        """The columns in which a trap is laid."""
        return self.of(*TRAPS[trap])


# The traps that are asked for by column, each with how the values are read among which it is laid.
TRAPS: dict[str, tuple[Reading, ...]] = {
    "digits": (of_names, of_quoted_names, of_texts),
    "dates": (of_names, of_quoted_names, of_texts, of_days),
    "decimals": (of_numbers, of_values, of_days),
}
CAPITALS = "capitals"  # asked for as a whole

ACTUALS = Kind(
    "actuals",
    {
        "key": of_names,
        "owner": of_names,
        "order": of_names,
        "batch": of_numbers,
        "segment": of_numbers,
        "use": of_uses,
        "material": of_names,
        "lot_owner": of_names,
        "lot": of_names,
        "sublot": of_names,
        "amount": of_numbers,
        "day": of_days,
    },
)
RECEIPTS = Kind(
    "receipts",
    {
        "owner": of_names,
        "key": of_names,
        "material": of_names,
        "lot": of_names,
        "sublot": of_names,
        "amount": of_numbers,
        "day": of_days,
    },
    {"from": of_names, "supplier_lot": of_texts, "document": of_texts},
)
SHIPMENTS = Kind(
    "shipments",
    {"owner": of_names, "key": of_names, "lot": of_names, "sublot": of_names, "amount": of_numbers, "day": of_days},
    {"to": of_names, "document": of_texts},
)
RESULTS = Kind("results", {"owner": of_names, "lot": of_names, "test": of_names, "value": of_values, "day": of_days})
COUNTS = Kind(
    "counts",
    {
        "owner": of_quoted_names,
        "lot": of_quoted_names,
        "sublot": of_quoted_names,
        "on_hand": of_numbers,
        "day": of_days,
    },
    {"counted": of_numbers, "reason": of_texts},
)
KINDS = {kind.name: kind for kind in (ACTUALS, RECEIPTS, SHIPMENTS, RESULTS)}
