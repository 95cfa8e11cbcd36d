"""The 25 lines of `toll` as subcommands, whose values are typed in order or behind their names."""
import sys
from typing import Any

import click

from ..core import scanned
from ..core.context import Context
from ..core.failure import REFUSED, WRONG_USE, Failure
from ..core.grammar import LINES, MOVEMENTS, NEXT, OWNER_ADD, TO, Line, in_capitals, in_days
from ..core.office import earlier_files
from ..record import asking, giving
from .output import pass_on, tell, tell_all
from .table import ENTRIES, Entry
from .words import at_terminal, quoted

OVER_ALL = "over all files of the office:"
TODAY, YES = "today", "yes"  # the flags that stand for DAY, and that say that it is meant
YES_ABOUT = "Takes a day that looks wrong: no date, in the future, or before the lot's first."
ENTRIES_OF_LINES = {entry.name: entry for entry in ENTRIES if not entry.group and entry.name in LINES}


def options_of(entry: Entry) -> list[click.Option]:
    """The options of what may be noted beside a line."""
    from .building import option_of

    return [option_of(value) for value in entry.values]


class LineCommand(click.Command):
    """A line of `toll`, whose values stand in order, or behind their names: `--lot S-1`."""

    def __init__(self, line: Line) -> None:
        self.line, entry = line, ENTRIES_OF_LINES.get(line.name)
        beside = options_of(entry) if entry else []
        self.names_beside = [str(option.name) for option in beside]
        options = [*(self.option(value_name) for value_name in line.values), *self.day_options(), *beside]
        words = click.Argument(
            ["words"], nargs=-1, type=click.UNPROCESSED, metavar=" ".join(line.values), shell_complete=self.completions
        )
        examples = [line.example, *(entry.examples if entry else [])]
        asks = "" if line.name == OWNER_ADD else " At a terminal it asks for each value that is missing."
        about = [
            f"{line.about[0].upper()}{line.about[1:]}.{asks}",
            *(entry.paragraphs if entry else []),
            scanned.about(line.values),
        ]
        text = "\n\n".join([*filter(None, about), *(f"Example: hilpoven {example}" for example in examples)])
        super().__init__(
            line.name,
            params=[*options, words],
            help=text,
            short_help=line.about,
            context_settings={"ignore_unknown_options": True},
        )

    def option(self, value: str) -> click.Option:
        """The option by which a value is named."""
        about = self.line.form(value).about
        if value == "KEY" and self.line.name in MOVEMENTS:
            about = f"{about}; `{NEXT}` is the next free one"
        return click.Option(
            [f"--{value.lower()}", parameter(value)],
            metavar=value,
            help=about,
            shell_complete=lambda ctx, _, begun: self.names(ctx, value, begun),
        )

    def day_options(self) -> list[click.Option]:
        """The options that stand for today's DAY and for one that looks wrong, if the line has one."""
        if "DAY" not in self.line.values:
            return []
        return [
            click.Option([f"--{TODAY}"], is_flag=True, help="The day is today, as YYMMDD."),
            click.Option([f"--{YES}"], is_flag=True, help=YES_ABOUT),
        ]

    def completions(self, ctx: click.Context, _: click.Parameter, begun: str) -> list[str]:
        """The words of the value that is being typed."""
        missing = scanned.missing_of(named_in(self.line, ctx.params))[len(ctx.params.get("words") or ()) :]
        return self.names(ctx, missing[0], begun) if missing else []

    def names(self, ctx: click.Context, value: str, begun: str) -> list[str]:
        """The words of a value: those of its list, or names that fit in the office."""
        from . import completion

        given = filled(named_in(self.line, ctx.params), list(ctx.params.get("words") or ()))
        before = {name: word for name, word in given.items() if word}
        return completion.of_line(ctx, self.line, value, before, begun)

    def invoke(self, ctx: click.Context) -> Any:
        """Gives the line to `toll`, and ends with its status."""
        named = dict(ctx.params)
        words = named.pop("words")
        noted = {name: named.pop(name) for name in self.names_beside}
        is_meant = named.pop(YES, True)
        typed = self.typed(ctx.obj, list(words), named, noted)
        sys.exit(report(ctx.obj, self.line, giving.give(ctx.obj, self.line, typed, noted, is_meant)))

    def typed(self, context: Context, words: list[str], named: dict[str, Any], noted: dict[str, Any]) -> list[str]:
        """The values in the line's order. A label's text fills three of them. At a terminal those that are missing are
        asked for, with the customer of a shipment, and names that were typed in lower case are read in capitals."""
        named = with_today(context, self.line, named)
        values, words = scanned.filled(self.line.name, named_in(self.line, named), words)
        is_asked = len(words) < len(scanned.missing_of(values)) and self.line.name != OWNER_ADD and at_terminal()
        if is_asked:
            require_options(self.line, words)
            from . import terminal

            beside = {TO: noted["party"]} if self.line.name == "ship" else {}
            given = filled(values, words)
            meant, customer = terminal.completed(context, self.line, given, noted.get("decimals"), beside)
            noted.update({"party": customer} if beside else {})
            return meant
        meant, notes = in_days(self.line, arranged(self.line, words, values))
        if at_terminal():
            meant, in_lower_case = in_capitals(self.line, meant)
            notes = [*in_lower_case, *notes]
        tell("\n".join(notes))
        return meant


def report(context: Context, line: Line, given: asking.Given) -> int:
    """Prints what `toll` answered, and explains it; the exit status."""
    pass_on(given.answer)
    for text in asking.below(context, line, given):
        click.echo(text)
    is_found = line.name == "recall" and is_found_over_all(context, given)
    if is_found:
        return 0
    tell_all(asking.remarks(context, line, given))
    return given.answer.status


def is_found_over_all(context: Context, given: asking.Given) -> bool:
    """Prints what a recall comes to over all files of the office, if it has several; whether it found the lot there,
    which `toll` may not have in the newest file."""
    if given.wrong or given.answer.status not in (0, REFUSED) or not earlier_files(context.file):
        return False
    from ..report import over_years
    from .years import show

    try:
        over_all = over_years.recall(context, given.words[0], given.words[1], "")
    except Failure as failure:
        if given.answer.status:
            return False
        raise failure
    click.echo(OVER_ALL)
    show(over_all, is_csv=False)
    return True


def parameter(value: str) -> str:
    """The name of the parameter in which a value that is named comes."""
    return value.lower().replace("-", "_")


def named_in(line: Line, parameters: dict[str, Any]) -> dict[str, str | None]:
    """The values that were named, in the line's order; `None` for the others."""
    return {value: parameters.get(parameter(value)) for value in line.values}


def with_today(context: Context, line: Line, named: dict[str, Any]) -> dict[str, Any]:
    """The values that were named, with the day that --today stands for."""
    if not named.get(TODAY):
        return named
    if named.get("day") is not None:
        raise Failure(f"{line.name}: --{TODAY} and --day both say the day", WRONG_USE, "leave one of them out")
    day = str(context.day())
    tell(f"DAY: --{TODAY} is {day}")
    return {**named, "day": day}


def filled(values: dict[str, str | None], words: list[str]) -> dict[str, str | None]:
    """The values with the words in the places of those that were not named; `None` where the words end."""
    rest = iter(words)
    return {value: next(rest, None) if word is None else word for value, word in values.items()}


def require_options(line: Line, words: list[str]) -> None:
    """Fails where a word looks like an option that the line doesn't have."""
    if strange := [word for word in words if word.startswith("--") and "a" <= word[2:3] <= "z"]:
        raise Failure(f"{line.name} has no option {strange[0]}", WRONG_USE, meant_by(line, strange[0]))


def arranged(line: Line, words: list[str], values: dict[str, str | None]) -> list[str]:
    """The values in the line's order: those that were named, and the others as they were typed."""
    require_options(line, words)
    missing = scanned.missing_of(values)
    if len(words) != len(missing):
        raise Failure(
            miscounted(line, words, missing),
            WRONG_USE,
            f"usage: hilpoven {line.usage()}\nsuch as: hilpoven {line.example}",
        )
    return [word for word in filled(values, words).values() if word is not None]


def meant_by(line: Line, option: str) -> str:
    """What may have been meant by an option that a line doesn't have."""
    import difflib

    near = difflib.get_close_matches(option, [f"--{value_name.lower()}" for value_name in line.values], 1)
    return (
        f"did you mean {near[0]}?"
        if near
        else "--db and --wait stand before the command"
        if option in ("--db", "--wait")
        else ""
    )


def miscounted(line: Line, words: list[str], missing: list[str]) -> str:
    """What is told where there are more or fewer words than values."""
    if len(words) < len(missing):
        left = missing[len(words) :]
        return f"{line.name}: {', '.join(left)} {'is' if len(left) == 1 else 'are'} missing"
    surplus = words[len(missing) :]
    return f"{line.name}: {len(surplus)} more than its {len(line.values)} values: {' '.join(map(quoted, surplus))}"
