"""The command `hilpoven` and its subcommands, each of which is made and imported when it is called."""
import os
import sys
from functools import partial
from io import TextIOWrapper
from typing import Any, NoReturn, TextIO

import click

from .. import VERSION
from ..core import settings as site
from ..core.context import Context, Question
from ..core.failure import FAULT, REFUSED, WRONG_USE, Failure, printable
from ..core.grammar import LINES
from ..core import roles
from .building import Group, Maker, makers_of
from .output import show, tell
from .caller import end_by_signals, person
from .table import PACKAGED
from .words import PATH, at_terminal

ABOUT = """The plant's command of the order and lot genealogy office.

It passes each command to `toll`, prints the answer unchanged and explains it below. The journal records each
command that changes something, with the user.

In the place of a lot, each command takes the text of a label, OWNER/LOT/SUBLOT.

Example: hilpoven stock ACME
"""

RECORD, ASK = "Record", "Ask"  # the sections of the lines in the help
AFTER = "Look after the office"  # that of packages' subcommands
OF_ANOTHER_OFFICE = {"demo", "setup"}  # which that of the settings doesn't concern
COMPLETION = "_HILPOVEN_COMPLETE"  # the variable by which a shell asks for completions
MOST_LETTERS = 4_096  # of a word of a command
STREAMS = (("stdin", "r", os.O_WRONLY), ("stdout", "w", os.O_RDONLY), ("stderr", "w", os.O_RDONLY))


def line_command(name: str) -> click.Command:
    """The subcommand of a line of `toll`."""
    from .lines import LineCommand

    return LineCommand(LINES[name])


def packaged_command(word: str) -> click.Command:
    """The subcommand of a package of its own; whether that is there is looked at when it is called."""
    from .packages import packaged

    return packaged(word, PACKAGED[word][0])


def makers() -> dict[str, Maker]:
    """How each subcommand is made, the lines of `toll` first."""
    lines = {}
    for name, line in LINES.items():
        lines[name] = Maker(partial(line_command, name), ASK if line.is_question else RECORD, line.about)
    packaged = {word: Maker(partial(packaged_command, word), AFTER, about) for word, (_, about) in PACKAGED.items()}
    return {**lines, **makers_of(), **packaged}


class Commands(Group):
    """All subcommands."""

    def parse_args(self, ctx: click.Context, args: list[str]) -> list[str]:
        """Fails where a word is longer than any value and any path: the journal would keep all of it."""
        if any(len(word) > MOST_LETTERS for word in args):
            raise Failure(f"a word has more than {MOST_LETTERS:,} letters", WRONG_USE)
        return super().parse_args(ctx, args)

    def resolve_command(
        self, ctx: click.Context, args: list[str]
    ) -> tuple[str | None, click.Command | None, list[str]]:
        """Finds the subcommand of the first word; `help` before it asks for its help."""
        if args == ["help"]:
            click.echo(ctx.get_help())
            ctx.exit()
        return super().resolve_command(ctx, [*args[1:], "--help"] if args[0] == "help" else args)

    def main(self, *words: Any, **options: Any) -> Any:
        """Runs a command. Words that are told back are shown escaped, those of a wrong use too."""
        if COMPLETION in os.environ and person().is_member:
            del os.environ[COMPLETION]  # behind sudo the words come as words, and the environment decides nothing
        elif COMPLETION in os.environ:
            from . import completion

            completion.register()
        try:
            status = super().main(*words, **{**options, "standalone_mode": False})  # type: ignore[call-overload]
        except click.Abort:
            click.echo("Aborted!", err=True)
            sys.exit(REFUSED)
        except (click.ClickException, Failure) as error:
            error.message = printable(error.message)
            show(error) if isinstance(error, Failure) else error.show()
            sys.exit(error.exit_code)
        sys.exit(status if isinstance(status, int) else 0)


@click.group(
    cls=Commands,
    makers=makers(),
    help=ABOUT,
    context_settings={"help_option_names": ["-h", "--help"], "max_content_width": 100},
)
@click.version_option(VERSION, prog_name="hilpoven")
@click.option("--db", metavar="FILE", type=PATH, help=f"The office's file, instead of that in {site.PATH}.")
@click.option(
    "--office",
    metavar="NAME",
    default="",
    help=f"The office with the settings {site.OFFICES}/NAME.env; the only one by default.",
)
@click.option("--wait", metavar="SECONDS", type=click.FloatRange(0), help="How long to wait for the lock.")
@click.pass_context
def hilpoven(context: click.Context, db: str | None, office: str, wait: float | None) -> None:
    """Reads the settings, by which a command may be for a role alone."""
    is_of_another = context.invoked_subcommand in OF_ANOTHER_OFFICE
    if is_of_another and (db or office):
        raise Failure(
            f"{context.invoked_subcommand} makes an office of its own: leave --db and --office out", WRONG_USE
        )
    settings = site.Settings() if is_of_another else site.load(office=office, db=db or "")
    ask = answer if at_terminal() else None
    context.obj = Context(settings, db or "", person=person(), tell=tell, ask=ask).waiting(wait)
    context.call_on_close(context.obj.end)
    roles.require(context.obj, context.invoked_subcommand or "")


def answer(question: Question) -> str:
    """What somebody at the terminal answers to a question."""
    from . import terminal

    return terminal.answer(question)


def main() -> None:
    """Runs the command. What it makes is for its user alone."""
    os.umask(0o077)
    hold_streams()
    end_by_signals()
    try:
        hilpoven(prog_name="hilpoven")
    except OSError as error:
        silence(sys.stdout)
        end(f"{error.filename or 'standard output'}: {error.strerror}")
    except Exception as error:
        if type(error).__module__ != "sqlite3":  # which only a command that reads tables imports
            raise
        end(f"the tables can't be read: {error}", "`hilpoven verify` looks at all of the file")


def hold_streams() -> None:
    """Gives a closed standard stream its descriptor, at which nothing can be read or written, before a file of the
    office gets it; and has letters escaped that the character set of the terminal lacks."""
    for number, (name, mode, unusable) in enumerate(STREAMS):
        if getattr(sys, name) is None:
            os.dup2(os.open(os.devnull, unusable), number)
            setattr(sys, name, open(number, mode, closefd=False))
    for stream in (sys.stdout, sys.stderr):
        if isinstance(stream, TextIOWrapper):
            stream.reconfigure(errors="backslashreplace")


def silence(stream: TextIO) -> None:
    """Drops what is still to be written to a stream, also when the interpreter ends."""
    os.dup2(os.open(os.devnull, os.O_WRONLY), stream.fileno())


def end(why: str, advice: str = "") -> NoReturn:
    """Ends with a fault that no command has foreseen."""
    failure = Failure(why, FAULT, advice)
    try:
        show(failure)
    except OSError:
        silence(sys.stderr)
    sys.exit(failure.exit_code)
