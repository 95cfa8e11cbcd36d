"""What `toll` answers in a word and a reader wants to know more of: the state of a batch, the owner who alone can do
something, and the batch that was opened."""
import sqlite3
from collections.abc import Iterator
from contextlib import contextmanager
from typing import NamedTuple

from .. import HOUSE
from ..model.schema import CLOSABLE, FOLLOWING, State
from ..core import snapshot
from ..core.failure import Failure
from ..core.grammar import Line
from ..model.nearest import MOST, names_near
from ..core.office import Office

PATIENCE = 1.0  # seconds for the lock, for what is only told beside an answer
STATE = "SELECT state FROM batches WHERE owner = ? AND ord = ? AND number = CAST(? AS INTEGER) AND closed = 0"
OPENED = "SELECT number FROM batches WHERE owner = ? AND ord = ? AND unit = ? AND closed = 0"


class OfOwners(NamedTuple):
    """What a line of HOUSE's names, which may be an owner's: the value, what it is called, where its names are, and
    what only that owner can do."""

    value: str
    called: str
    names: tuple[str, str]
    task: str

    @property
    def refusal(self) -> str:
        """What is answered where HOUSE has none of this name."""
        return f"Unknown{self.value.capitalize()}"


OF_HOUSE = {
    "order": OfOwners("RECIPE", "a recipe", ("recipes", "recipe"), "order by it"),
    "cancel": OfOwners("ORDER", "an order", ("orders", "ord"), "cancel it"),
    "release": OfOwners("LOT", "a lot", ("lots", "lot"), "release it"),
    "reject": OfOwners("LOT", "a lot", ("lots", "lot"), "reject it"),
}


@contextmanager
def tables(office: Office) -> Iterator[sqlite3.Connection]:
    """The tables of a copy, for which nobody is waited for long."""
    with snapshot.opened(office._replace(wait=min(office.wait, PATIENCE))) as base:
        yield base


def of_refusal(office: Office, line: Line, refusal: str, values: dict[str, str]) -> str:
    """What more there is to say of a refusal; empty where the tables can't be read."""
    try:
        if refusal == "BadState":
            return state_now(office, values)
        if "OWNER" not in values and (owners := only_owners(office, line, refusal, values)):
            return owners
    except (Failure, sqlite3.Error):
        return ""
    return names_near(office, refusal, values)


def state_now(office: Office, values: dict[str, str]) -> str:
    """The state of a batch, and what can be done in it."""
    owner, order, number = (values[name] for name in ("OWNER", "ORDER", "BATCH"))
    with tables(office) as base:
        row = base.execute(STATE, (owner, order, number)).fetchone()
    if row is None:
        return ""
    state = State(row[0])
    commands = [*FOLLOWING[state], *(["close"] if state in CLOSABLE else [])]
    return f"{order}/{number} of {owner} is {state.word}; what can be done now: {', '.join(commands)}."


def only_owners(office: Office, line: Line, refusal: str, values: dict[str, str]) -> str:
    """The owners who have what a line of HOUSE's names, each of whom alone can do this to it; empty if none has it."""
    asked = OF_HOUSE.get(line.name)
    if asked is None or refusal != asked.refusal:
        return ""
    table, column = asked.names
    with tables(office) as base:
        sql = f"SELECT owner FROM {table} WHERE {column} = ? AND owner <> ? ORDER BY owner LIMIT {MOST}"
        owners = [owner for owner, in base.execute(sql, (values[asked.value], HOUSE))]
    words = " ".join([line.name, *(values[name] for name in line.values)])
    return "\n".join(
        f"{owner} has {asked.called} {values[asked.value]}. Only {owner} can {asked.task}: "
        f"`hilpoven for {owner} {words} --by TEXT`, if it asked for that."
        for owner in owners
    )


def opened(office: Office, owner: str, order: str, unit: str) -> str:
    """Which batch of an order was opened on a unit; empty where that can't be read."""
    try:
        with tables(office) as base:
            row = base.execute(OPENED, (owner, order, unit)).fetchone()
    except (Failure, sqlite3.Error):
        return ""
    return f"{order}/{row[0]} is open on {unit}." if row else ""
