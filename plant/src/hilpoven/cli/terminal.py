"""Questions to whoever types at a terminal, and lines that are asked there value by value."""
import os
import sys
from collections.abc import Iterator, Sequence
from contextlib import contextmanager
from typing import TYPE_CHECKING

import click

from ..core.context import NO, YES, Context, Question
from ..core.failure import REFUSED, Failure
from ..core.grammar import TO, Line
from .output import tell, tell_line
from .words import OneOf, quoted

if TYPE_CHECKING:
    from ..record.dialogue import Asked, Dialogue

MOST_SHOWN = 9  # choices, each of which is one digit
CONFIRM = "Enter gives it, n drops it, the name of a value asks it again: "
UNREADABLE = "\ufffd"  # in place of an answer that is no UTF-8


class Declined(Failure):
    """Somebody at the terminal doesn't want it, so nothing is done."""

    def __init__(self) -> None:
        super().__init__("nothing is done", REFUSED)


def ask(prompt: str, names: Sequence[str] = ()) -> str:
    """What is typed behind a prompt; Tab completes these names. Fails with EOFError at the end of the input."""
    try:
        if sys.stdout.isatty():
            return edited(prompt, names)
        print(prompt, end="", file=sys.stderr, flush=True)
        line = sys.stdin.readline()
    except UnicodeDecodeError:
        return UNREADABLE
    if not line:
        raise EOFError
    return line.strip()


def edited(prompt: str, names: Sequence[str]) -> str:
    """What is typed with the terminal's library, by which Tab completes names; behind it there are none, so that it
    completes no files either."""
    complete_from(names)
    try:
        return input(prompt).strip()
    finally:
        complete_from(())


def complete_from(names: Sequence[str]) -> None:
    """Has Tab complete these names, in whatever letters they are typed. The terminal's library reads no file of
    settings: behind sudo it would read the caller's with the office's rights."""
    os.environ["INPUTRC"] = os.devnull
    import readline

    def complete(begun: str, number: int) -> str | None:
        return next(iter([name for name in names if name.upper().startswith(begun.upper())][number:]), None)

    readline.set_completer(complete)
    readline.set_completer_delims("")
    readline.parse_and_bind("tab: complete")


def agrees(question: str) -> bool:
    """Whether somebody says yes to a question; Enter alone is no."""
    while True:
        answer = ask(f"{question} [y/N] ").lower()
        if answer in ("", "y", "yes", "n", "no"):
            return answer.startswith("y")


def answer(question: Question) -> str:
    """What somebody answers to a question."""
    if question.choices == (YES, NO):
        with asking():
            return YES if agrees(question.text) else NO
    kind = OneOf(question.choices) if question.choices else None
    return str(click.prompt(question.text, type=kind, default=question.default, err=True))


@contextmanager
def asking() -> Iterator[None]:
    """Around questions: says that nothing is done if the input ends or a signal comes instead of an answer."""
    try:
        yield
    except EOFError:
        print(file=sys.stderr)
        raise Declined from None
    except (KeyboardInterrupt, SystemExit):
        print(file=sys.stderr)
        tell_line("hilpoven: nothing is done")
        raise


# A line value by value


def completed(
    context: Context, line: Line, given: dict[str, str | None], decimals: int | None, beside: dict[str, str | None]
) -> tuple[list[str], str | None]:
    """The values of a line in its order, of which those that are missing or wrong are asked for, and the customer that
    is asked for beside them."""
    from ..record import dialogue

    with asking(), dialogue.opened(context, line, given, decimals, beside) as talk:
        complete(talk)
        while not is_confirmed(talk):
            pass
    return talk.words, talk.values.get(TO) or None


def complete(talk: "Dialogue") -> None:
    """Takes the values that are given, and asks for those that are missing or wrong."""
    while following := talk.next_value():
        value, word = following
        if word is None or not is_taken(talk, value, word):
            ask_for(talk, value)


def ask_for(talk: "Dialogue", value: str) -> None:
    """Asks for a value until it is one."""
    asked = talk.asked(value)
    show(asked)
    numbered = {str(number): name for number, name in enumerate(asked.names, 1) if has_numbers(asked)}
    names = talk.completed(asked)
    while True:
        typed = ask(prompt_of(asked), names)
        word = asked.meant(numbered.get(typed, typed))
        doubt = talk.doubt(value, word)
        if (not doubt or agrees(f"{doubt}. Is it meant?")) and is_taken(talk, value, word):
            return


def is_taken(talk: "Dialogue", value: str, word: str) -> bool:
    """Whether a word is taken for a value; what there is to say of it is told."""
    checked = talk.check(value, word)
    tell("\n".join(checked.lines))
    return checked.is_taken


def is_confirmed(talk: "Dialogue") -> bool:
    """Shows the line, and asks whether it is to be given; Enter alone gives it, and the name of a value has that asked
    again. A question is shown alone."""
    customer = ["--to", talk.values[TO]] if talk.values.get(TO) else []
    tell_line(f"hilpoven {talk.line.name} {' '.join(map(quoted, [*talk.words, *customer]))}")
    if talk.line.is_question:
        return True
    typed = ask(CONFIRM, talk.line.values).upper()
    if typed in ("N", "NO"):
        raise Declined
    if typed in talk.line.values:
        behind = talk.forget(typed)
        ask_for(talk, typed)
        talk.given = behind
        complete(talk)
    return typed in ("", "Y", "YES")


def has_numbers(asked: "Asked") -> bool:
    """Whether a choice is taken by its number: not if another name may be meant, or a number is a name."""
    is_closed = not asked.place.may_be_new and not any(map(str.isdecimal, asked.names))
    return is_closed and 1 < len(asked.names) <= MOST_SHOWN


def prompt_of(asked: "Asked") -> str:
    """The value with what is allowed, and what Enter alone stands for."""
    count = len(asked.choices)
    about = f"{count} there; Tab completes" if count > MOST_SHOWN and not asked.limit else asked.about
    allowed, default = f" ({about})" if about else "", f" [{asked.default}]" if asked.default else ""
    return f"{asked.place.value}{allowed}{default}: "


def show(asked: "Asked") -> None:
    """Prints the choices, if they are few."""
    if not asked.names or len(asked.names) > MOST_SHOWN or asked.names == [asked.default]:
        return
    width = max(map(len, asked.names))
    for number, choice in enumerate(asked.choices, 1):
        front = f"{number:3}" if has_numbers(asked) else "   "
        tell_line(f"{front}  {choice.name.ljust(width)}  {choice.about}".rstrip())
