"""What the shell completes: commands, options, words of a list, and names of the office, which are only read.

Behind sudo the environment doesn't come along, so the shell's function gives the words to `complete` there.
"""
import sqlite3
from dataclasses import replace
from typing import Any

import click
from click.shell_completion import BashComplete, CompletionItem, add_completion_class

from ..core import settings as site, snapshot
from ..core.context import Context
from ..core.failure import Failure
from ..core.grammar import MOVEMENTS, NEXT, Line, in_capitals
from ..record.choices import ALL_NAMES, Place
from .caller import person

PROGRAM = "hilpoven"
MOST_WAIT = 0.3  # seconds for a lock that somebody has
COMPLETED = ALL_NAMES.keys() - {"KEY"}  # values of which all names are completed in other commands
# Names come with the rights that the command would have: behind sudo by its rule without a password, or not at all.
SOURCE = """\
%(complete_func)s() {
    local IFS=$'\\n' response='' completion type value
    if [[ ${root_command-} == *hilpoven ]]; then
        response=$(sudo -n -u toll hilpoven complete "$COMP_CWORD" "${COMP_WORDS[@]}" 2> /dev/null < /dev/null)
    fi
    [[ $response ]] || response=$(env COMP_WORDS="${COMP_WORDS[*]}" COMP_CWORD="$COMP_CWORD" \\
        %(complete_var)s=bash_complete "$1" 2> /dev/null < /dev/null)
    for completion in $response; do
        IFS=',' read -r type value <<< "$completion"
        case $type in
            dir) COMPREPLY=(); compopt -o dirnames ;;
            file) COMPREPLY=(); compopt -o default ;;
            plain) COMPREPLY+=("$value") ;;
        esac
    done
}
complete -o nosort -F %(complete_func)s %(prog_name)s
"""


class Completion(BashComplete):
    """The completion of bash, of words that the environment has."""

    source_template = SOURCE


class CompletionOfWords(BashComplete):
    """The completion of bash, of words that are given."""

    def __init__(self, command: click.BaseCommand, words: list[str], number: int) -> None:
        super().__init__(command, {}, PROGRAM, "")
        self.words, self.number = words, number

    def get_completion_args(self) -> tuple[list[str], str]:
        """The words before the one that is completed, and that one."""
        return self.words[1 : self.number], "".join(self.words[self.number : self.number + 1])


def register() -> None:
    """Has the shell's function be this one."""
    add_completion_class(Completion)


def complete(_: Context, number: int, words: tuple[str, ...]) -> None:
    """`hilpoven complete`."""
    try:
        click.echo(CompletionOfWords(click.get_current_context().find_root().command, list(words), number).complete())
    except (Failure, click.ClickException):
        return


def of_line(ctx: click.Context, line: Line, value: str, before: dict[str, str], begun: str) -> list[str]:
    """The words of a value of a line that begin so."""
    if choices := line.form(value).choices:
        return [choice for choice in choices if choice.startswith(begun)]
    nexts = [NEXT] if value == "KEY" and line.name in MOVEMENTS else []
    meant, _ = in_capitals(line._replace(values=tuple(before)), list(before.values()))
    return [word for word in nexts if word.startswith(begun)] + names(
        ctx, Place(line, value, dict(zip(before, meant))), begun
    )


def of_word(ctx: click.Context, param: click.Parameter, begun: str) -> list[CompletionItem]:
    """The names that a word of another command may be, by what stands for it in its help."""
    value = (param.metavar or "").strip("[]")
    if value not in COMPLETED:
        return []
    given = {name.upper().replace("_", "-"): word for name, word in ctx.params.items() if isinstance(word, str)}
    place = Place(Line("", ("OWNER", value), "", ""), value, given)
    return [CompletionItem(name) for name in names(ctx, place, begun)]


def names(ctx: click.Context, place: Place, begun: str) -> list[str]:
    """The names of the office that begin so, in whatever letters; none where they can't be read at once."""
    try:
        context = context_of(ctx.find_root().params)
        offered = replace(place, plants_test=context.settings.quality.test)
        with snapshot.opened(context.office_to_read()) as base:
            return [name for name in offered.suggested(base) if name.startswith(begun.upper())]
    except (Failure, OSError, ValueError, sqlite3.Error):
        return []


def context_of(given: dict[str, Any]) -> Context:
    """What a command with these words before it would stand on."""
    db = given.get("db") or ""
    return Context(site.load(office=given.get("office") or "", db=db), db, person=person()).waiting(MOST_WAIT)
