"""A server of `toll` over a file that nobody else has, which answers the plant and owners many times a second.

The plant's words go to its FILE.sock, so that an owner's key is on no command line. The server ends with this process,
however that ends.
"""
import contextlib
import socket
from collections.abc import Iterator
from typing import Any

from . import client
from .failure import Failure
from .office import Answer

SPARE = 10_000  # of the connections that one server answers to owners, which are left when a new one is begun


class PrivateServer:
    """A server of a file. An answer may be taken later: `say` and `send` give the socket for `answer` and `reply`."""

    def __init__(self, program: str, file: str) -> None:
        self.program, self.file, self.plant = program, file, client.PlantSocket(file)
        self.begin()

    def begin(self) -> None:
        """Begins the server, and waits until it listens: that of a full office reads for minutes."""
        self.server, self.port = client.begin_server(self.program, self.plant, keeps_errors=True)
        self.requests = 0

    def end(self) -> None:
        """Ends the server."""
        client.end_server(self.server)

    def renew(self) -> None:
        """Begins a new server, if this one is near its last connection; nothing is under way."""
        if self.requests > int(client.MOST_CONNECTIONS) - SPARE:
            self.end()
            self.begin()

    def ask(self, *words: str) -> Answer:
        """What is answered to the plant's words."""
        return self.answer(self.say(*words))

    def request(self, owner: str, key: str, path: str, body: Any = None) -> tuple[int, dict[str, Any]]:
        """The status and the body of the reply to an owner's request: a `GET`, or with a body or `()` a `POST`."""
        return self.reply(self.send(owner, key, path, body))

    def say(self, *words: str) -> socket.socket:
        """Says the plant's words."""
        return self.sent(socket.socket(socket.AF_UNIX), self.plant.path, client.words_of(words))

    def send(self, owner: str, key: str, path: str, body: Any = None) -> socket.socket:
        """Sends an owner's request."""
        self.requests += 1
        content = client.request_of(owner, key, path, body)
        return self.sent(socket.socket(), ("127.0.0.1", self.port), content)

    def sent(self, peer: socket.socket, address: Any, content: bytes) -> socket.socket:
        """A socket that is connected, and to which a content was sent."""
        try:
            peer.connect(address)
            peer.sendall(content)
        except OSError as error:
            peer.close()
            raise self.failure(str(error)) from error
        return peer

    def answer(self, peer: socket.socket) -> Answer:
        """The answer to words that were said: the status, what is printed, and what is told of a fault."""
        with self.asked(peer):
            client.read_frame(peer, client.MOST_GREETING)
            content = client.read_frame(peer, client.MOST_ANSWER)
        if not content:
            raise self.failure("it ended before it had answered")
        return client.answer_of(content)

    def reply(self, peer: socket.socket) -> tuple[int, dict[str, Any]]:
        """The status and the body of the reply to a request that was sent."""
        with self.asked(peer):
            return client.reply_at(peer)

    @contextlib.contextmanager
    def asked(self, peer: socket.socket) -> Iterator[None]:
        """Takes an answer of a socket, which is closed behind it; fails where none comes whole."""
        try:
            with peer:
                yield
        except (OSError, ValueError) as error:
            raise self.failure(str(error)) from error

    def failure(self, reason: str) -> Failure:
        """Why the server doesn't answer."""
        if self.server.poll() is not None:
            reason = client.end_server(self.server)
        return Failure(f"the server of {self.file} doesn't answer: {reason}")


@contextlib.contextmanager
def opened(program: str, file: str) -> Iterator[PrivateServer]:
    """A server of a file, until the end of the block."""
    server = PrivateServer(program, file)
    try:
        yield server
    finally:
        server.end()
        server.plant.close()
