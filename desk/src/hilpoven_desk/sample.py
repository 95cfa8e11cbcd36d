"""The screens of the sample week of `hilpoven demo`, to this machine alone, with persons who log in there."""
import contextlib
import secrets
import socket
import threading
from collections.abc import Iterator
from typing import Any

from hilpoven.care.demo.site import Site
from hilpoven.core.failure import Failure

from .accounts import GROUP, SampleAccounts
from .making import Contexts
from .serving import server_of
from .web import Desk

# Persons by their logins, each with a full name and groups: those of the roles of the sample's settings.
PERSONS = {
    "clara": ("Clara, clerk", {"clerks"}),
    "frank": ("Frank, foreman", {"clerks", "quality"}),
    "quinn": ("Quinn, quality", {"quality"}),
}


@contextlib.contextmanager
def shown(settings: str, _: Site) -> Iterator[list[str]]:
    """Serves the screens at a port of their own until the end of the block; what is told of them. Each person has a
    password of this sample alone."""
    passwords = {login: secrets.token_hex(4) for login in PERSONS}
    accounts = {
        login: (passwords[login], full_name, frozenset({GROUP, *groups}))
        for login, (full_name, groups) in PERSONS.items()
    }
    try:
        listener = socket.create_server(("127.0.0.1", 0))
    except OSError as error:
        raise Failure(f"nothing can listen for the screens: {error.strerror}") from error
    origin = f"http://localhost:{listener.getsockname()[1]}"
    desk = Desk(Contexts(settings=settings), SampleAccounts(accounts), origin)
    channels: dict[int, Any] = {}  # what the server's loop looks after: without any it ends
    server = server_of(desk, sockets=[listener], map=channels)
    thread = threading.Thread(target=server.run, daemon=True)
    thread.start()
    try:
        yield [
            "hilpoven: the plant's screens, which persons log in to with a password of this sample:",
            f"  {origin}/",
            *(f"  {login} {passwords[login]}   ({PERSONS[login][0]})" for login in PERSONS),
        ]
    finally:
        channels.clear()
        server.pull_trigger()
        thread.join()
        server.task_dispatcher.shutdown()
        server.close()
        desk.tables.close()
