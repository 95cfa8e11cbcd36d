"""`hilpoven demo`: a sample week of three owners on the owner's page."""
import contextlib
import io
import json
import os
import shlex
import shutil
import sys
import tempfile
from collections.abc import Iterator
from functools import partial
from typing import NamedTuple

import click

from ..core import client, roles, settings as site
from ..core.context import Context
from ..core.failure import WRONG_USE, Failure
from .output import tell, tell_line
from ..core.scratch import held_back
from ..care.demo import companions
from ..care.demo.site import Listener, Site
from ..care.demo.week import HERE, Week, working_days
from ..report.papers import guard
from ..core.days import today
from . import hilpoven
from .caller import person
from .packages import samples

SETTINGS = "hilpoven.toml"
EXAMPLES = ("recall HOUSE W-1102", "list lots --open", "board > board.html")
SIGNALLED = 128  # above it, a status says which signal ends this process
QUICK = "/out/quick/toll"  # how the path of a program ends of which nothing is proved


def demo(context: Context, port: int) -> None:
    """`hilpoven demo`."""
    person().require_operator("demo", "it needs nobody's rights: hilpoven demo")
    program = program_of(context.settings)
    try:
        with temporary() as folder, week_in(folder, program) as week, listening(week, port) as listener:
            with samples(os.path.join(folder, SETTINGS), listener.site) as lines:
                show(week, listener.port, program, lines)
                listener.serve_forever()
    except SystemExit:  # by a signal
        tell_line("hilpoven: the demo is ended: nothing is served, and all of the sample week is removed")
        raise


def program_of(settings: site.Settings) -> str:
    """The program. Of a clone it is the one that was built there: ./toll would begin to prove one, for half an hour."""
    program, built = site.program(settings), f"{site.CHECKOUT}/crates/toll/out/toll"
    if program != f"{site.CHECKOUT}/toll":
        return program
    if not os.path.isfile(built):
        raise Failure(
            "no program is built here", WRONG_USE, "demo/page compiles one in minutes, unproved; ./toll proves one"
        )
    return built


@contextlib.contextmanager
def temporary() -> Iterator[str]:
    """A folder of this user's alone, which is removed at the end, also where this process is killed."""
    with contextlib.ExitStack() as stack:
        with held_back():
            folder = tempfile.mkdtemp(prefix="hilpoven-demo.")
            stack.enter_context(guard.over(folder))
        try:
            yield folder
        finally:
            shutil.rmtree(folder, ignore_errors=True)


@contextlib.contextmanager
def week_in(folder: str, program: str) -> Iterator[Week]:
    """An office in a folder that has lived through the sample week, and its server, until the end of the block."""
    with open(os.path.join(HERE, SETTINGS)) as lines, open(os.path.join(folder, SETTINGS), "x") as settings:
        settings.write(f"toll = {json.dumps(program)}\n{lines.read()}")
    os.environ.pop("HILPOVEN_SETTINGS", None)  # those of another office, if it is set
    context = Context(site.load(settings.name), person=person(), tell=tell)
    tell_line("hilpoven: a sample week begins, which takes some seconds")
    reply = give(context, ["new"])
    if reply.status:
        raise Failure(f"no sample is made: {reply.text.strip()}")
    with contextlib.closing(client.PlantSocket(context.file)) as plant:
        server, port = client.begin_server(program, plant, client.BEGINS)
        try:
            week = Week(partial(give, context), port, folder, working_days(today()))
            week.live()
            yield week
        finally:
            client.end_server(server)


def listening(week: Week, port: int) -> Listener:
    """The site of the sample week at a port, with the owners' companions where this version makes them."""
    served = Site(week.port)
    if companions.COMMAND not in hilpoven.commands:
        return Listener(served, port, lambda: None)
    week_companions = companions.Companions(os.path.join(week.folder, "companions"), week.give)
    week_companions.make()
    served.owner_replies[companions.PATH] = week_companions.reply
    return Listener(served, port, week_companions.refresh)


def show(week: Week, port: int, program: str, of_packages: list[str]) -> None:
    """Prints what can be tried on the plant's side, what packages of their own show, and last the page's address and
    the owners' keys."""
    typed = "hilpoven" if shutil.which("hilpoven") == sys.argv[0] else shlex.quote(sys.argv[0])
    settings = shlex.quote(os.path.join(week.folder, SETTINGS))
    tell_line("hilpoven: the plant's side, in another terminal, for example:")
    tell_line(f"  export HILPOVEN_SETTINGS={settings}")
    for words in EXAMPLES:
        tell_line(f"  {typed} {words}")
    for line in of_packages:
        tell_line(line)
    unproved = "   (the quick build: NOTHING of it is proved)" if program.endswith(QUICK) else ""
    tell_line("hilpoven: the page is served; log in with a name and its key. Ctrl-C ends this and removes all of it")
    click.echo(f"http://127.0.0.1:{port}/owner/{unproved}")
    for owner, key in week.keys.items():
        click.echo(f"{owner} {key}")
    sys.stdout.flush()


# Commands of `hilpoven` that the demo gives itself


class Given(NamedTuple):
    """How a command ended, and what it wrote."""

    status: int
    text: str


def give(context: Context, words: list[str]) -> Given:
    """Gives a command over an office, which reads nothing and writes nowhere else."""
    status: object = None
    with apart() as written:
        try:
            status = invoked(context, words)
        except (click.ClickException, Failure) as error:
            return Given(error.exit_code, f"{written.getvalue()}{error.message}")
        except SystemExit as end:
            if isinstance(end.code, int) and end.code > SIGNALLED:
                raise
            status = end.code
    return Given(status if isinstance(status, int) else 0, written.getvalue())


def invoked(context: Context, words: list[str]) -> object:
    """What a subcommand gives back over an office, whose settings aren't read again."""
    root = click.Context(hilpoven, info_name="hilpoven", obj=context)
    root.call_on_close(context.end)
    roles.require(context, words[0])
    with root:
        name, command, rest = hilpoven.resolve_command(root, words)
        assert command  # a name that isn't there is a failure
        with command.make_context(name, rest, parent=root) as ctx:
            return command.invoke(ctx)


@contextlib.contextmanager
def apart() -> Iterator[io.StringIO]:
    """Has commands read nothing and write here, so that none asks at the terminal."""
    before, written = sys.stdin, io.StringIO()
    sys.stdin = io.StringIO()
    try:
        with contextlib.redirect_stdout(written), contextlib.redirect_stderr(written):
            yield written
    finally:
        sys.stdin = before
