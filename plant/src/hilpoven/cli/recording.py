"""`hilpoven sign`, `hold`, `for` and `material new`: what is recorded by more than a line of `toll`."""
import sys
from collections.abc import Sequence

import click

from .. import HOUSE
from ..core import roles, scanned
from ..core.context import Context
from ..core.failure import WRONG_USE, Failure
from ..core.grammar import LINES
from ..model.rows import LotId
from ..record import asking, judging, materials, on_behalf
from ..record.materials import Test
from .lines import miscounted, report
from .output import pass_on, tell, tell_all


def sign(context: Context, owner: str, lot: str, reason: str | None, day: int | None) -> None:
    """`hilpoven sign`."""
    show(context, judging.sign(context, LotId(owner, lot), reason or "", day))


def hold(context: Context, owner: str, lot: str, reason: str, day: int | None) -> None:
    """`hilpoven hold`."""
    show(context, judging.hold(context, LotId(owner, lot), reason, day))


def show(context: Context, judged: judging.Judged) -> None:
    """Prints what came of it, and ends with its status."""
    if judged.given:
        sys.exit(report(context, LINES["result"], judged.given))
    click.echo(judged.text)
    tell(judged.remark)


def for_command(context: Context, owner: str, name: str, values: Sequence[str], said_by: str) -> None:
    """`hilpoven for`."""
    roles.require(context, name)
    line = LINES[name]
    owner, *values = scanned.unfolded(f"for OWNER {name}", ["OWNER", *line.values], [owner, *values])
    if owner == HOUSE:
        raise Failure(f"HOUSE is the plant itself: `hilpoven {line.usage()}`", WRONG_USE)
    if len(values) != len(line.values):
        usage = f"usage: hilpoven for OWNER {line.usage()} --by TEXT"
        raise Failure(miscounted(line, list(values), list(line.values)), WRONG_USE, usage)
    done = on_behalf.ask(context, owner, name, values, said_by)
    pass_on(done.answer)
    tell_all(asking.explained(context.office(), on_behalf.line_of_owner(name), [owner, *values], done.answer))
    tell(done.remark if name == "order" else "")
    sys.exit(done.answer.status)


def new(
    context: Context,
    owner: str,
    material: str,
    measure: str,
    tests: tuple[Test, ...],
    decimals: tuple[tuple[str, int], ...],
) -> None:
    """`hilpoven material new`."""
    for step in materials.steps_of(context, owner, material, measure, tests, dict(decimals)):
        if step.is_done:
            click.echo(f"{step}: there already")
            continue
        answer = materials.give(context, step)
        click.echo(f"{step}: ", nl=not answer.output)
        pass_on(answer)
        tell_all(asking.explained(context.office(), step.line, step.words, answer))
        if answer.status:
            sys.exit(answer.status)
    if not context.settings.quality.test:
        tell("The settings name no test of the plant's own below [quality], so a hold of its lots is a note alone.")
