"""How the tests of the register make notes, and look at those that stand."""
import contextlib
import re
import sys
from collections.abc import Iterator

from conftest import Plant
from hilpoven.core import snapshot
from hilpoven.cli.caller import person
from hilpoven.core.context import Context
from hilpoven.core.settings import load
from hilpoven.model.register import standing
from hilpoven.model.register.standing import Register

NOTED = re.compile(r"noted ([0-9a-f]{16})\n")


@contextlib.contextmanager
def reading(plant: Plant) -> Iterator[Register]:
    """The notes that stand, while they are read."""
    context = Context(load(), str(plant.db), person=person(), tell=lambda line: print(line, file=sys.stderr))
    with snapshot.opened(context.office()) as base:
        yield standing.read(context.journal(), base)


def register_of(plant: Plant) -> Register:
    """The notes that stand."""
    with reading(plant) as register:
        return register


def links(plant: Plant) -> list[tuple[str, str]]:
    """The containers and the lots of the links that stand."""
    with reading(plant) as register:
        return [(str(link.container), str(link.contained)) for link in register.links]


def noted(plant: Plant, *words: object) -> str:
    """Makes a note, and gives its name."""
    done = plant.run(*words)
    assert done.status == 0 and NOTED.fullmatch(done.out), done
    return NOTED.fullmatch(done.out)[1]


def cut_off(plant: Plant) -> None:
    """Removes the last answer from the journal, as a kill behind what `toll` did leaves it."""
    lines = plant.journal.read_bytes().splitlines(keepends=True)
    assert b'"told"' in lines[-1]
    plant.journal.write_bytes(b"".join(lines[:-1]))
