"""Clients of a site with TLS, and what stands in the office's place behind it."""
import concurrent.futures
import contextlib
import functools
import http.client
import json
import socket
import ssl
import time
from collections.abc import Callable, Mapping
from typing import Any, Protocol, TypeVar

from tests.harness import read_all

Value = TypeVar("Value")
FORBIDDEN, UNAVAILABLE, NOWHERE = {"error": "Forbidden"}, {"error": "Unavailable"}, {"error": "NoRoute"}


class HasPort(Protocol):
    port: int


@functools.cache
def trusting() -> ssl.SSLContext:
    context = ssl.create_default_context()
    context.check_hostname, context.verify_mode = False, ssl.CERT_NONE
    return context


def connect(
    site: HasPort, to: str = "127.0.0.1", source: str | None = None, name: str | None = "localhost", patience: int = 20
) -> ssl.SSLSocket:
    line = socket.create_connection((to, site.port), timeout=patience, source_address=(source, 0) if source else None)
    try:
        return trusting().wrap_socket(line, server_hostname=name)
    except ssl.SSLError:
        line.close()
        raise


class Reply:
    """A reply with its status, fields and body, and the body's value if that is JSON."""

    def __init__(self, reply: http.client.HTTPResponse) -> None:
        self.status, self.body = reply.status, reply.read()
        self.fields = {name.lower(): field for name, field in reply.getheaders()}

    def value(self) -> Any:
        return json.loads(self.body)

    def is_error(self, status: int, error: str) -> bool:
        return (self.status, self.value()) == (status, {"error": error})


def ask(
    site: HasPort,
    path: str,
    method: str = "GET",
    body: bytes | None = None,
    to: str = "127.0.0.1",
    source: str | None = None,
    fields: Mapping[str, str] | None = None,
    **others: str,
) -> Reply:
    """Asks the site, from a source address if one is given; fields and others stand in the head, with - for _."""
    named = {**(fields or {}), **others}
    peer = http.client.HTTPConnection("localhost")
    peer.sock = connect(site, to, source)
    with contextlib.closing(peer):
        peer.request(method, path, body, {name.replace("_", "-"): field for name, field in named.items()})
        return Reply(peer.getresponse())


def sent(site: HasPort, *lines: str | bytes, patience: int = 20) -> tuple[bytes, float]:
    """What the site answers to these lines and an empty one until it closes, and after how many seconds."""
    data = b"\r\n".join(line if isinstance(line, bytes) else line.encode() for line in (*lines, "", ""))
    return sent_bytes(site, data, patience)


def sent_bytes(site: HasPort, data: bytes, patience: int = 20) -> tuple[bytes, float]:
    with connect(site, patience=patience) as line:
        begun = time.monotonic()
        line.sendall(data)
        return read_all(line), time.monotonic() - begun


def at_once(doing: Callable[[int], Value], count: int, results: list[Value] | None = None) -> list[Value]:
    """What so many calls give that are made at once; a list that is given has each as soon as it is there."""
    results = [] if results is None else results
    with concurrent.futures.ThreadPoolExecutor(count) as pool:
        for call in concurrent.futures.as_completed([pool.submit(doing, number) for number in range(count)]):
            results.append(call.result())
    return results


def seconds_of(doing: Callable[[], object]) -> float:
    begun = time.monotonic()
    doing()
    return time.monotonic() - begun
