"""Words of commands: which office, what is looked for in its tables, and paths.

A member of the group, who has the rights of the office's user by sudo, names no path: offices and backups are known by
their names, and output goes to standard output.
"""
import re
import sys
from collections.abc import Callable
from functools import partial
from typing import TYPE_CHECKING, Any

import click

from ..core import gs1, scanned
from ..core.context import Context
from ..core.failure import printable
from ..core.forms import DAY as DAY_FORM, MOST_TOLD, TEXT as TEXT_FORM, name_fault
from . import caller
from .caller import person
from .table import RAW

if TYPE_CHECKING:
    from click.shell_completion import CompletionItem

INSTEAD = {
    "db": "--office NAME names the office",
    "folder": "papers go to standard output by --tar; backups and pieces are in the folders of the settings",
    "to": "the settings say where pieces go",
    "site_logs": "the logs are those of the settings",
    "keep": "the settings say how many backups stay",
    "days": "the settings say how many backups stay",
    "target": "it is written to standard output",
    "out": "companions go to the folder of the settings",
    "file": "the office is that of --office NAME",
    "new": "the new file is named by itself",
}


def at_terminal() -> bool:
    """Whether somebody types at a terminal, and reads there what is told and asked."""
    return sys.stdin.isatty() and sys.stderr.isatty()


class Operators(click.ParamType):
    """A value that is root's and the office's user's to give: a member of the group gives none."""

    name = "operators"

    def __init__(self, of: click.ParamType, is_sheet: bool = False) -> None:
        self.of, self.is_sheet = of, is_sheet

    def convert(self, value: Any, param: click.Parameter | None, ctx: click.Context | None) -> Any:
        """Fails for a member who gives it; the name of a sheet may be `-`, which is standard input."""
        if param and not (self.is_sheet and value == "-"):
            word = param.opts[0] if isinstance(param, click.Option) else param.make_metavar().strip("[]")
            person().require_operator(word, self.instead(param.name or "", str(value)))
        if self.is_sheet and value != "-":
            caller.note_sheet(str(value))
        return self.of.convert(value, param, ctx)

    def instead(self, name: str, value: str) -> str:
        """What a member gives in place of the value of a parameter."""
        if self.is_sheet:
            return f"a sheet comes through standard input: {caller.command_as(caller.user(), value)}"
        return INSTEAD.get(name, "")

    def get_metavar(self, param: click.Parameter) -> str | None:
        """What stands for it in the help."""
        return self.of.get_metavar(param)

    def shell_complete(self, ctx: click.Context, param: click.Parameter, incomplete: str) -> "list[CompletionItem]":
        """How a shell completes it."""
        return self.of.shell_complete(ctx, param, incomplete)


class Word(click.ParamType):
    """A word that is looked for in the tables, whose texts are UTF-8."""

    name = "word"

    def convert(self, value: Any, param: click.Parameter | None, ctx: click.Context | None) -> str:
        """The word; fails if a byte of it is no UTF-8."""
        try:
            str(value).encode()
        except UnicodeEncodeError:
            self.fail(f"`{printable(str(value))}` is no UTF-8", param, ctx)
        return str(value)

    def shell_complete(self, ctx: click.Context, param: click.Parameter, incomplete: str) -> "list[CompletionItem]":
        """The names of the office that it may be, by what stands for it in the help."""
        from . import completion

        return completion.of_word(ctx, param, incomplete)


class Reading(click.ParamType):
    """A value that a function reads of a word; it fails with ValueError, which says what the word is, if it can't."""

    def __init__(self, name: str, read: Callable[[str], Any]) -> None:
        self.name, self.read = name, read

    def convert(self, value: Any, param: click.Parameter | None, ctx: click.Context | None) -> Any:
        """The value; fails if the word is none."""
        if not isinstance(value, str):
            return value
        try:
            return self.read(value)
        except ValueError as fault:
            self.fail(f"`{printable(value[:MOST_TOLD])}` {fault}", param, ctx)


def read_text(word: str, fault_of: Callable[[str], str] = TEXT_FORM.fault, may_be_empty: bool = True) -> str:
    """A text of a note: one line that can be printed, and that may say nothing only where that is allowed; or a name
    that the plant gives, of the form of `toll`'s names."""
    if fault := fault_of(word) if may_be_empty or word.strip() else "is empty":
        raise ValueError(fault)
    return word


def read_date(word: str) -> int:
    """A day that is a date."""
    from ..core.days import date_of, day_in

    if (day := day_in(word)) is not None:
        return day
    if word.isascii() and word.isdecimal() and len(word) == 6 and date_of(int(word)):
        return int(word)
    raise ValueError("is no date; a date is written 2027-11-27 or 271127")


def read_day(word: str) -> int:
    """A day of movements, which may also be written as a date."""
    from ..core.days import day_in

    if (day := day_in(word)) is not None:
        return day
    if DAY_FORM.fault(word):
        raise ValueError("is no day, which is a number such as 261127 or a date such as 2026-11-27")
    return int(word)


def read_month(word: str) -> int:
    """A month, written as YYMM or as 2026-11; its days are dates."""
    from ..core.days import is_month

    match = re.fullmatch(r"([0-9]{4})|20([0-9]{2})-([0-9]{2})", word)
    month = int(match[1] or match[2] + match[3]) if match else 0
    if not is_month(month):
        raise ValueError("is no month, which is written as YYMM, such as 2611, or as 2026-11")
    return month


def read_percent(word: str) -> int:
    """How many tenths of a percent a part of a whole is, 1 to 1,000."""
    from ..model.notes import tenths_in

    if tenths := tenths_in(word):
        return tenths
    raise ValueError("is no percentage from 0.1 to 100, such as 1.5")


def read_moment(word: str) -> float:
    """A moment in seconds since 1970, of the plant's time zone where it names none, as the journal is printed in."""
    from ..core.days import moment_in

    context = click.get_current_context().find_object(Context)
    try:
        return moment_in(word, context.settings.time_zone if context else "").timestamp()
    except (ValueError, OverflowError, OSError):
        raise ValueError("is no time such as 2026-11-27T01:02:03") from None


class OneOf(click.Choice):
    """A word of a list, which is told in one line where it is missing."""

    def get_missing_message(self, param: click.Parameter) -> str:
        """The words that there are."""
        return f"one of {', '.join(self.choices)}"


class LotCommand(click.Command):
    """A command that has a lot, whose values a scanned text in the place of LOT may fill."""

    def parse_args(self, ctx: click.Context, args: list[str]) -> list[str]:
        """Has a scanned text fill the other values before they are read."""
        places = self.places_of_words(ctx, args)
        names = [
            str(param.name).upper().replace("_", "-") for param in self.params if isinstance(param, click.Argument)
        ]
        typed = [args[at] for at in places]
        words = typed if ctx.resilient_parsing else scanned.unfolded(str(ctx.info_name), names, typed)
        if words != typed:
            args = [*(word for at, word in enumerate(args) if at not in places and word != "--"), "--", *words]
        return super().parse_args(ctx, args)

    def places_of_words(self, ctx: click.Context, args: list[str]) -> list[int]:
        """Where the words are that are neither options nor their values."""
        options = [option for option in self.get_params(ctx) if isinstance(option, click.Option) and not option.is_flag]
        counts = {name: option.nargs for option in options for name in option.opts}
        places, at = [], 0
        while at < len(args) and args[at] != "--":
            if args[at].startswith("-") and args[at] != "-":
                at += counts.get(args[at], 0)
            else:
                places.append(at)
            at += 1
        return [*places, *range(at + 1, len(args))]


PATH = Operators(click.Path(readable=False))
SHEET = Operators(click.Path(readable=False), is_sheet=True)
WORD = Word()
TEXT, FILLED_TEXT = Reading("text", read_text), Reading("text", partial(read_text, may_be_empty=False))
NAME = Reading("name", partial(read_text, fault_of=name_fault))
DATE, DAY, MONTH = Reading("date", read_date), Reading("day", read_day), Reading("month", read_month)
GLN, GTIN, UNIT_CODE = (
    Reading(name, partial(read_text, fault_of=form.fault))
    for name, form in (("GLN", gs1.GLN), ("GTIN", gs1.GTIN), ("unit code", gs1.UNIT_CODE))
)
PERCENT, MOMENT = Reading("percent", read_percent), Reading("moment", read_moment)

TYPES: dict[str, click.ParamType] = {
    "date": DATE,
    "day": DAY,
    "filled": FILLED_TEXT,
    "gln": GLN,
    "gtin": GTIN,
    "moment": MOMENT,
    "month": MONTH,
    "name": NAME,
    "path": PATH,
    "percent": PERCENT,
    "plain": click.STRING,
    RAW: click.UNPROCESSED,
    "sheet": SHEET,
    "text": TEXT,
    "unit-code": UNIT_CODE,
    "word": WORD,
}

pass_context = click.make_pass_decorator(Context)


def quoted(word: str) -> str:
    """A word as it is told back: in quotes unless its letters need none."""
    return word if re.fullmatch(r"[\w.:/-]+", word) else repr(word)
