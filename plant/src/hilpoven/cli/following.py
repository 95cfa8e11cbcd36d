"""`hilpoven follow`, its subcommands and `promote`: a standby that is seconds behind."""
import os
import sys
from dataclasses import replace

import click

from ..core import settings as site
from ..core.context import Context
from ..core.failure import REFUSED, WRONG_USE, Failure, printable
from .output import tell, tell_line


def folder_of(context: Context) -> str:
    """The folder of this machine that has the office's pieces."""
    from ..care.standby import state

    return state.folder_of(context.file, context.settings.follow.to)


def follow_group(context: Context, to: str | None, is_check: bool) -> None:
    """`hilpoven follow`."""
    context.person.require_operator("follow")
    if to:
        target = site.target_of(os.getcwd(), to)
        context.settings = replace(context.settings, follow=replace(context.settings.follow, to=target))
    if not context.settings.follow.to:
        raise Failure("no target is named", WRONG_USE, f"give one by --to, or `to` below [follow] in {site.PATH}")
    context.office()
    from ..care.standby import follower

    if not is_check:
        follower.follow(context, say)
    elif latest := follower.require_latest(context, say):
        click.echo(printable(latest))


def say(line: str) -> None:
    """Writes a line for the operator."""
    tell_line(printable(line))


def follow_status(context: Context, folder: str | None) -> None:
    """`hilpoven follow status`."""
    from ..core.days import zone_of
    from ..core import timeline
    from ..care.standby.state import lag_of

    timeline.require_latest(context.file)
    lag = lag_of(context.file, folder := folder or folder_of(context), zone_of(context.settings.time_zone))
    if lag is None:
        raise Failure(f"nobody follows into {folder}", WRONG_USE, "`hilpoven follow` does")
    for line in [*(f"ATTENTION: {fault}" for fault in lag.faults), *lag.lines]:
        click.echo(printable(line))
    sys.exit(REFUSED if lag.faults or lag.seconds > context.settings.follow.behind else 0)


def follow_verify(context: Context, folder: str | None) -> None:
    """`hilpoven follow verify`."""
    from ..care.standby import chain

    wrong = False
    chains = chain.chains_in(folder := folder or folder_of(context))
    if not chains:
        chain.newest_in(folder)
    for of in chains:
        report = chain.Report(of, folder).look()
        for line in report.wrong:
            click.echo(printable(line))
        wrong |= bool(report.wrong)
        state = "whole" if not report.wrong else f"{report.whole:,} are whole"
        counts = f"{len(of.snapshots):,} snapshots and {len(of.pieces):,} pieces"
        click.echo(f"chain {of.name} of timeline {of.timeline}: {counts}, {state}; up to {report.last_at or 'none'}")
    sys.exit(REFUSED if wrong else 0)


def promote(context: Context, folder: str | None, until: int | None, is_check: bool) -> None:
    """`hilpoven promote`."""
    from ..care import upkeep

    done = upkeep.promote(context, folder, until, is_check)
    for note in done.unused:
        say(f"not used: {note}")
    click.echo("\n".join(map(printable, done.lines)))
    tell("\n".join(done.next))
