"""`hilpoven owner`: owners and their keys, which stand on no command line and in no log."""
import sys

import click

from ..care import keys
from ..care.keys import KEY_LETTERS, Key, random_key
from ..core import meanings
from ..core.context import Context
from ..core.failure import WRONG_USE, Failure
from ..core.forms import secret_fault
from .output import pass_on, tell

MOST_READ = 4_096  # letters of standard input, of which a key is at most the first 32


def typed_line(subject: str, default: str) -> list[str]:
    """What is typed at a terminal without being shown, twice; nothing where Enter alone is pressed, which makes one."""
    first = click.prompt(
        f"{subject} (Enter makes {default})", default="", show_default=False, hide_input=True, err=True
    )
    if first and click.prompt("the same again", hide_input=True, err=True) != first:
        raise Failure(f"the two {subject}s differ", WRONG_USE)
    return [first] if first else []


def line_given(subject: str, default: str, is_random: bool) -> str | None:
    """A key or a password, which stands on no command line: the line of standard input, or what is typed at a terminal;
    `None` where that is empty, or one is to be made."""
    if is_random:
        return None
    lines = typed_line(subject, default) if sys.stdin.isatty() else sys.stdin.read(MOST_READ).splitlines()
    if len(lines) > 1:
        raise Failure(
            f"the {subject} is one line on standard input", WRONG_USE, "nothing there, or --random, makes one"
        )
    return lines[0] if lines else None


def key_given(is_random: bool) -> Key:
    """The owner's key; a random one where none is given."""
    line = line_given("key", f"one of {KEY_LETTERS} letters", is_random)
    if line is None:
        return random_key()
    if fault := secret_fault(line):
        raise Failure(
            f"the key {fault}", WRONG_USE, "it is 8 to 32 letters or digits; nothing there, or --random, makes one"
        )
    return Key(line)


def show(key: Key) -> None:
    """Prints a key that was made here, which is kept nowhere else but in the file."""
    if key.is_made:
        click.echo(f"key {key.letters}")


def add(context: Context, name: str, is_random: bool) -> None:
    """`hilpoven owner add`."""
    keys.require_name(name)
    key = key_given(is_random)
    answer = keys.add_owner(context, name, key)
    pass_on(answer)
    if refusal := meanings.refusal_in(answer.output):
        tell(meanings.explained("refusals", refusal, {"OWNER": name}))
    elif not answer.status:
        show(key)
    sys.exit(answer.status)


def key_command(context: Context, name: str, is_random: bool) -> None:
    """`hilpoven owner key`."""
    keys.require_name(name, is_known=True)
    key = key_given(is_random)
    keys.give_key(context, name, key)
    click.echo(f"the key of {name} is changed")
    show(key)
