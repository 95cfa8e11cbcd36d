"""`hilpoven desk`: serves the screens at a socket."""
import logging
import os
import sys
from typing import Any

from hilpoven.core import rights
from hilpoven.core.context import Context
from hilpoven.core.failure import WRONG_USE, Failure

from .accounts import MachineAccounts
from .app import MOST_BODY, application
from .making import Contexts
from .web import Desk

THREADS = 16
MOST_CONNECTIONS = 200
SILENCE = 30  # seconds until a connection ends at which nothing comes
# Who asks at a socket has this name for waitress.
BEHIND_PROXY = {"trusted_proxy": "localhost", "trusted_proxy_headers": {"x-forwarded-for"}}
SOCKET_MODE = "660"  # nginx asks as the group of the socket's folder


def desk(context: Context, host: str, socket: str) -> None:
    """`hilpoven desk`."""
    context.person.require_operator("desk")
    rights.become_owner(context.file)
    if os.geteuid() == 0:
        raise Failure(f"desk serves as the office's user, and {context.file} is root's", WRONG_USE)
    context.office_to_read()
    working = Contexts(context.settings.office, context.db)
    serve(Desk(working, MachineAccounts(), f"https://{host.lower()}"), unix_socket=socket, **BEHIND_PROXY)


def serve(served: Desk, **where: Any) -> None:
    """Serves screens until a signal ends it."""
    logging.basicConfig(level=logging.WARNING, stream=sys.stderr, format="%(message)s")
    try:
        server_of(served, **where).run()
    finally:
        served.tables.close()


def server_of(served: Desk, **where: Any) -> Any:
    """What serves screens, at a socket or a port. Of whoever asks there it takes the address that a proxy tells."""
    import waitress

    return waitress.create_server(
        application(served),
        threads=THREADS,
        ident=None,
        connection_limit=MOST_CONNECTIONS,
        channel_timeout=SILENCE,
        max_request_body_size=MOST_BODY,
        clear_untrusted_proxy_headers=True,
        unix_socket_perms=SOCKET_MODE,
        **where,
    )
