"""The subcommands of packages of their own, which are there where their package is installed.

A package of Python, such as `hilpoven_desk`, has a module `table` whose TABLE has its subcommands, in the form of
the one here; the modules that it names are the package's. Debian's package has the same name, with hyphens. NEEDS of
the package names what it imports of others. A module `sample`, if it has one, shows the sample week, too.
"""
import contextlib
from collections.abc import Iterator
from importlib import import_module
from importlib.util import find_spec
from typing import TYPE_CHECKING, NoReturn

import click

from ..core.failure import WRONG_USE, Failure
from .building import UNREAD, command_of
from .table import PACKAGED, read

if TYPE_CHECKING:
    from ..care.demo.site import Site  # with HTTP, which no other command needs


def packaged(word: str, package: str) -> click.Command:
    """A subcommand of a package, or what tells which package has it."""
    if not is_installed(package):
        return absent(word, package.replace("_", "-"))
    table = list(read(import_module(f"{package}.table").TABLE, package))
    return command_of(next(entry for entry in table if not entry.group and entry.name == word), table)


def absent(word: str, package: str) -> click.Command:
    """A subcommand whose package isn't there."""

    def fail(words: tuple[str, ...]) -> NoReturn:
        raise Failure(f"{word} is a command of the package {package}, which isn't installed", WRONG_USE)

    words = click.Argument(["words"], nargs=-1, type=click.UNPROCESSED)
    about = f"The package {package} has this command.\n\nExample: hilpoven {word} --help"
    return click.Command(word, context_settings=UNREAD, params=[words], help=about, callback=fail)


def is_installed(package: str) -> bool:
    """Whether a package is there, with what it imports of others."""
    return find_spec(package) is not None and all(map(find_spec, getattr(import_module(package), "NEEDS", ())))


@contextlib.contextmanager
def samples(settings: str, site: "Site") -> Iterator[list[str]]:
    """Has packages show the sample week of these settings, too, by themselves or at its site, until the end of the
    block; what is told of that."""
    with contextlib.ExitStack() as stack:
        lines: list[str] = []
        for package in dict.fromkeys(package for package, _ in PACKAGED.values()):
            if is_installed(package) and find_spec(f"{package}.sample"):
                lines += stack.enter_context(import_module(f"{package}.sample").shown(settings, site))
        yield lines
