"""`hilpoven correct`: what was typed wrongly is corrected."""
import sys

import click

from ..core.context import Context
from ..core.failure import WRONG_USE, Failure
from ..record import asking, correcting
from ..record.correcting import Meant
from .output import pass_on, tell, tell_all


def correct(
    context: Context,
    owner: str,
    key: str,
    amount: int | None,
    lot: str | None,
    party: str | None,
    sublot: str | None,
    reason: str | None,
    day: int | None,
    name: str | None,
) -> None:
    """`hilpoven correct`."""
    if name:
        if any(given is not None for given in (amount, lot, party, sublot, reason, day)):
            raise Failure("correct: --sign takes what was asked for, and nothing else", WRONG_USE)
        done = correcting.sign(context, owner, key, name)
    else:
        done = correcting.correct(context, Meant(owner, key, amount, lot, party, sublot, reason or "", day))
    for step, answer in done.steps:
        click.echo(f"{step.text}: ", nl=not answer.output)
        pass_on(answer)
        tell_all(asking.explained(context.office(), step.line, step.words, answer))
        if answer.status:
            tell("What came before it is done: give the same command again, and it goes on.")
            sys.exit(answer.status)
    click.echo(f"noted {done.name}")
    if done.is_asked:
        tell(f"Another person signs it: `hilpoven correct {owner} {key} --sign {done.name}`")
