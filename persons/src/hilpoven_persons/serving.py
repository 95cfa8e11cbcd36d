"""`hilpoven person serve`: answers nginx at a socket."""
import logging
import os
import sys
from functools import partial
from typing import Any

from hilpoven.core import rights
from hilpoven.core.context import Context
from hilpoven.core.failure import WRONG_USE, Failure

from . import people
from .door import MOST_BODY, Door, application
from .owner_keys import KeptKeys
from .people import KeptPersons
from .taking import Make, made_for

THREADS = 12
MOST_CONNECTIONS = 200
SILENCE = 30  # seconds until a connection ends at which nothing comes
SOCKET_MODE = "660"  # nginx asks as the group of the socket's folder
OFFICE_PATIENCE = 5.0  # seconds for the office's lock


def person_serve(context: Context, socket: str) -> None:
    """`hilpoven person serve`."""
    context.person.require_operator("person serve")
    rights.become_owner(context.file)
    if os.geteuid() == 0:
        raise Failure(f"person serve serves as the office's user, and {context.file} is root's", WRONG_USE)
    logging.basicConfig(level=logging.WARNING, stream=sys.stderr, format="%(message)s")
    server_of(door_of(context), partial(made_for, context), unix_socket=socket).run()


def door_of(context: Context) -> Door:
    """The door of an office's owners; fails where the office or its file of persons can't be read."""
    patient = context.waiting(OFFICE_PATIENCE)
    people.read(people.path_of(patient))  # a file that isn't one is told at once
    patient.office_to_read()
    return Door(KeptPersons(lambda: people.path_of(patient)), KeptKeys(patient.office_to_read))


def server_of(door: Door, make: Make, **where: Any) -> Any:
    """What serves a door and papers, at a socket."""
    import waitress

    return waitress.create_server(
        application(door, make),
        threads=THREADS,
        ident=None,
        connection_limit=MOST_CONNECTIONS,
        channel_timeout=SILENCE,
        max_request_body_size=MOST_BODY,
        clear_untrusted_proxy_headers=True,
        unix_socket_perms=SOCKET_MODE,
        **where,
    )
