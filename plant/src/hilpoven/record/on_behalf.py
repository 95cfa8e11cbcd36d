"""What the plant asks over HTTP on behalf of an owner, with its key, which only this process and the server see."""
import contextlib
import os
import socket
import sqlite3
from collections.abc import Iterator, Sequence
from dataclasses import dataclass
from typing import Any, NamedTuple

from ..core import client, meanings, rights, server, snapshot
from ..core.context import Context
from ..core.failure import FAULT, REFUSED, WRONG_USE, Failure
from ..core.forms import secret_fault
from ..core.grammar import LINES, Line, faults
from ..care.keys import Key
from ..model.nearest import nearest
from ..core.office import Answer, Office

SECONDS = 600.0  # for a reply: others may be before it
ORDER = "SELECT 1 FROM orders WHERE owner = ? AND ord = ? AND recipe = ? AND batches = CAST(? AS INTEGER)"
# The lines of HOUSE that owners have too, each with the path of the owner's request.
PATHS = {
    "order": "/orders",
    "cancel": "/orders/{ORDER}/cancel",
    "release": "/lots/{LOT}/release",
    "reject": "/lots/{LOT}/reject",
}
TAKEN = {200: Answer(0, "accepted\n", ""), 503: Answer(FAULT, "", "fault Unavailable\n")}


@dataclass(frozen=True)
class Request:
    """What an owner asks: a line of HOUSE's that owners have too, and its values."""

    owner: str
    line: Line
    values: tuple[str, ...]

    @property
    def path(self) -> str:
        """The path of the request."""
        return PATHS[self.line.name].format(**dict(zip(self.line.values, self.values)))

    @property
    def body(self) -> Any:
        """The body of the request; only an order has one."""
        if self.line.name != "order":
            return ()
        order, recipe, batches = self.values
        return {"order": order, "recipe": recipe, "batches": int(batches)}


def line_of_owner(name: str) -> Line:
    """A line with its owner as the first value."""
    line = LINES[name]
    return line._replace(values=("OWNER", *line.values))


class Done(NamedTuple):
    """What came of a request: the answer, in the words in which `toll` answers the plant, and what the reply shows."""

    answer: Answer
    body: dict[str, Any] = {}

    @property
    def remark(self) -> str:
        """What a reader of an accepted request has to know: that an order is cancelled."""
        is_cancelled = "recipe" in self.body and self.body.get("status") == "cancelled"
        return "The order is cancelled, so nobody makes it." if is_cancelled else ""


def ask(context: Context, owner: str, name: str, values: Sequence[str], said_by: str) -> Done:
    """What the office answers to an owner's request, by the line of HOUSE's that owners have too and its values, which
    stands in the journal with who asked the plant for it."""
    if wrong := faults(line_of_owner(name), [owner, *values]):
        raise Failure(f"{name} can't be asked so", WRONG_USE, "\n".join(wrong))
    office, request = context.office(), Request(owner, LINES[name], tuple(values))
    with snapshot.opened(office) as base:
        key = key_of(base, request.owner)
        is_there = request.line.name == "order" and base.execute(ORDER, (request.owner, *request.values)).fetchone()
    words = ["for", request.owner, request.line.name, *request.values, "--by", said_by]
    with context.journal().noted(office.file, words) as note:
        with connection(context, office) as peer:
            done = answer_to(peer, request, key)
        if is_there and not done.answer.status:
            done = done._replace(answer=Answer(0, "repeated\n", ""))
        note.answer = done.answer
    return done


def key_of(base: sqlite3.Connection, owner: str) -> Key:
    """The key of an owner, as the file has it."""
    row = base.execute("SELECT okey FROM owners WHERE owner = ?", (owner,)).fetchone()
    if row is None:
        names = [name for name, in base.execute("SELECT owner FROM owners ORDER BY owner")]
        raise Failure(f"there is no owner {owner}", REFUSED, nearest(owner, names, "owners"))
    if secret_fault(row[0]):
        raise Failure("fault Damaged", advice=f"the key of {owner} is none")
    return Key(row[0])


@contextlib.contextmanager
def connection(context: Context, office: Office) -> Iterator[socket.socket]:
    """A connection at which owners ask the office: to the server at the port of the settings, if it is the office's
    user's, otherwise to one that is begun for this and ends behind it."""
    with contextlib.ExitStack() as stack:
        port = server.place_of(context).port
        peer = server.connected(port, rights.owner_number(office.file)) if port else None
        if peer is None:
            plant = stack.enter_context(contextlib.closing(client.PlantSocket(office.file)))
            port = stack.enter_context(client.server(office, plant))
            peer = server.connected(port, os.geteuid())
        if peer is None:
            raise Failure(f"the server at port {port} doesn't take a connection")
        yield stack.enter_context(peer)


def answer_to(peer: socket.socket, request: Request, key: Key) -> Done:
    """What came of a request."""
    try:
        peer.settimeout(SECONDS)
        status, body = client.requested(peer, request.owner, key.letters, request.path, request.body)
    except (OSError, ValueError):
        return Done(client.LOST)
    if status in TAKEN:
        return Done(TAKEN[status], body)
    word, code = str(body.get("error")), body.get("code")
    if word in meanings.table("refusals") and type(code) is int:
        return Done(Answer(REFUSED, f"refused {code} {word}\n", ""))
    raise Failure(f"the server replies {status} {word}", advice="does it serve another file, or was the key changed?")
