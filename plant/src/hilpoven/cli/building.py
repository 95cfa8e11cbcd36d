"""Makes click's commands of the entries of the table, each when it is called. What does one is imported then, and a
group tells the nearest names of a subcommand that isn't there."""
import re
from collections import UserDict
from collections.abc import Callable, Sequence
from dataclasses import dataclass
from functools import partial
from importlib import import_module
from typing import Any, cast

import click

from .. import __name__ as package
from ..core import roles
from ..core.failure import WRONG_USE, Failure
from ..core.grammar import LINES
from .table import ENTRIES, HIDDEN, RAW, Entry, Value
from .words import TYPES, LotCommand, OneOf, Operators

OPERATORS = "operators-"  # in front of the type of what no member of the group gives
LOTS = {"LOT", "OF-LOT"}  # values in the place of which a scanned text fills others
UNREAD = {"ignore_unknown_options": True, "allow_interspersed_args": False}


def type_of(kind: str) -> click.ParamType:
    """The type of a value by its word: one of TYPES, several of them, numbers between two, words of a list, or the
    names of a list that a module has."""
    if kind in TYPES:
        return TYPES[kind]
    if kind.startswith(OPERATORS):
        return Operators(type_of(kind.removeprefix(OPERATORS)))
    if "," in kind:
        return click.Tuple([type_of(part) for part in kind.split(",")])
    if bounds := re.fullmatch(r"([0-9]+)\.\.([0-9]*)", kind):
        return click.IntRange(int(bounds[1]), int(bounds[2]) if bounds[2] else None)
    if "|" in kind:
        return OneOf(kind.split("|"))
    module, _, name = kind.rpartition(".")
    return OneOf([getattr(word, "value", word) for word in getattr(import_module(f"{package}.{module}"), name)])


def parameter_of(value: Value) -> click.Parameter:
    """The parameter of a value or an option."""
    if value.option:
        return option_of(value)
    is_many, is_optional = ".." in value.metavar or value.is_required, "[" in value.metavar or ".." in value.metavar
    return click.Argument(
        [value.name],
        metavar=value.metavar,
        type=type_of(value.kind),
        required=value.is_required or not is_optional,
        nargs=-1 if is_many else 1,
    )


def option_of(value: Value) -> click.Option:
    """An option of a subcommand."""
    names = [value.option, value.name]
    if not value.kind:
        return click.Option(names, is_flag=True, flag_value=value.default, help=value.about)
    kind = type_of(value.kind)
    return click.Option(
        names,
        metavar=value.metavar or None,
        type=kind,
        required=value.is_required,
        multiple=value.is_multiple,
        default=value.default,
        show_default=isinstance(kind, click.Choice) and value.default is not None,
        help=value.about,
    )


def parts_of(entry: Entry) -> dict[str, Any]:
    """The parameters of a subcommand, and what does it: a function of the context and of the values by their names,
    which may give the exit status. A group does it itself where no subcommand is called."""

    def call(**given: Any) -> Any:
        ctx = click.get_current_context()
        if ctx.invoked_subcommand is None:
            return function_of(entry)(ctx.obj, **given)
        return None

    return {"params": [parameter_of(value) for value in entry.values], "callback": call}


def function_of(entry: Entry) -> Callable[..., Any]:
    """What does the subcommand of an entry, or what makes its subcommands."""
    function: Callable[..., Any] = getattr(import_module(f"{entry.package}.{entry.module}"), entry.function)
    return function


def single_command_of(entry: Entry) -> click.Command:
    """The subcommand of an entry that is no group."""
    kind = LotCommand if any(value.metavar in LOTS for value in entry.values) else click.Command
    settings = UNREAD if any(value.kind == RAW for value in entry.values) else {}
    return kind(
        entry.name,
        context_settings=settings,
        help=entry.help,
        short_help=entry.about,
        hidden=entry.about == HIDDEN,
        **parts_of(entry),
    )


@dataclass(frozen=True)
class Maker:
    """How a subcommand is made, the section in which lists have it, and what they say of it: that of its entry of the
    table, if it has one."""

    make: Callable[[], click.Command]
    section: str = ""
    text: str = ""
    entry: Entry | None = None

    @property
    def about(self) -> str:
        """What lists say of it."""
        return self.entry.about if self.entry else self.text


class Subcommands(UserDict[str, click.Command]):
    """Subcommands by their names, of which each is made when it is asked for."""

    def __init__(self, makers: dict[str, Maker]) -> None:
        super().__init__({name: click.Command(name) for name in makers})
        self.left = dict(makers)

    def __getitem__(self, name: str) -> click.Command:
        if maker := self.left.pop(name, None):
            self.data[name] = maker.make()
        return self.data[name]


class Group(click.Group):
    """Subcommands, in sections where it has them."""

    def __init__(self, name: str, makers: dict[str, Maker], **options: Any) -> None:
        self.makers = makers
        super().__init__(name, commands=cast(dict[str, click.Command], Subcommands(makers)), **options)

    def resolve_command(
        self, ctx: click.Context, args: list[str]
    ) -> tuple[str | None, click.Command | None, list[str]]:
        """Finds the subcommand of the first word. That of a group within all commands is one of its roles alone."""
        if args and args[0] not in self.commands and not args[0].startswith("-"):
            import difflib

            near = difflib.get_close_matches(args[0], self.commands, 3)
            called = "" if ctx.parent is None else f"{ctx.info_name} "
            raise Failure(
                f"there is no command {called}{args[0]}",
                WRONG_USE,
                f"did you mean {called}{f' or {called}'.join(near)}?"
                if near
                else f"there are: {', '.join(self.commands)}",
            )
        name, command, rest = super().resolve_command(ctx, args)
        if ctx.parent is not None and not ctx.resilient_parsing:
            roles.require(ctx.obj, f"{ctx.info_name} {name}")
        return name, command, rest

    def format_commands(self, ctx: click.Context, formatter: click.HelpFormatter) -> None:
        """Writes the subcommands in their sections, with what each is for."""
        for title in dict.fromkeys(maker.section for maker in self.makers.values()):
            with formatter.section(title or "Commands"):
                rows = [(name, maker.about) for name, maker in self.makers.items() if maker.section == title]
                formatter.write_dl([(name, about) for name, about in rows if about != HIDDEN])


def makers_of(*group: str, table: Sequence[Entry] = ENTRIES) -> dict[str, Maker]:
    """How a table's subcommands of a group are made, or those that are in none."""
    entries = [entry for entry in table if entry.group == list(group) and (group or entry.name not in LINES)]
    return {
        entry.name: Maker(partial(command_of, entry, table), "" if group else entry.section, entry=entry)
        for entry in entries
    }


def command_of(entry: Entry, table: Sequence[Entry] = ENTRIES) -> click.Command:
    """The subcommand of an entry of a table, which may be a group, of which a module may have the subcommands."""
    about = {"help": entry.help, "short_help": entry.about}
    if entry.is_made:
        return Group(entry.name, function_of(entry)(), **about)
    makers = makers_of(*entry.group, entry.name, table=table)
    if makers and not entry.module:
        return Group(entry.name, makers, **about)
    if not makers:
        return single_command_of(entry)
    return Group(entry.name, makers, invoke_without_command=True, **about, **parts_of(entry))
