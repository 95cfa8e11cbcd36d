"""What one client can't do to the others: each limit of a server, with bounds that hold on a busy machine."""
import contextlib
import os
import selectors
import socket
import subprocess
import time
from collections.abc import Callable, Iterator

import pytest

from bench import offices
from bench.offices import KEY, Dense, owner_name
from tests.harness import Office, Server, eventually

HELD, RESERVE = 40, 24  # connections of a server with few descriptors, and the descriptors that it keeps for itself
DROPPED_AFTER = 10  # seconds
SOON = 30  # seconds: more than any answer takes on a busy machine, less than a client waits that is never answered
ASKER, OTHER = owner_name(0), owner_name(1)


def request(target: str, owner: str = OTHER, fields: str = "") -> bytes:
    return f"GET {target} HTTP/1.1\r\nhost: x\r\ntoll-owner: {owner}\r\ntoll-key: {KEY}\r\n{fields}\r\n".encode()


def read(peer: socket.socket) -> bytes:
    """All that a peer gets until its end, also one by a reset."""
    reply = b""
    with contextlib.suppress(ConnectionResetError):
        while chunk := peer.recv(65536):
            reply += chunk
    return reply


def is_open(peer: socket.socket) -> bool:
    """Whether nothing came from the server, not even an end."""
    peer.settimeout(0)
    try:
        return bool(peer.recv(1, socket.MSG_PEEK))
    except BlockingIOError:
        return True
    except ConnectionError:
        return False
    finally:
        peer.settimeout(SOON)


def refuses(server: Server) -> bool:
    """Whether nothing listens at the server's port any more."""
    try:
        server.connect().close()
    except ConnectionRefusedError:
        return True
    return False


@pytest.fixture(scope="module")
def office(new: Callable[[], Office]) -> Office:
    """An owner with 5,000 lots and a dense genealogy, and one with few orders."""
    office = new()
    offices.with_genealogies(office, Dense(20), Dense(10, 400), orders=3)
    return office


@pytest.fixture
def serve(office: Office) -> Iterator[Callable[..., Server]]:
    with contextlib.ExitStack() as stack:
        yield lambda **how: stack.enter_context(office.serve(**how))


def connect(server: Server, sent: bytes = b"") -> socket.socket:
    peer = server.connect()
    peer.settimeout(SOON)
    peer.sendall(sent)
    return peer


def is_answered(server: Server) -> bool:
    return server.send(request("/orders")).startswith("HTTP/1.1 200")


def test_no_other_address_of_the_machine_leads_to_the_owners_port(serve: Callable[..., Server]) -> None:
    """A server that is started by hand has no TLS before it, and keys would go through the network in the clear."""
    server = serve()
    server.connect().close()
    with pytest.raises(ConnectionRefusedError):
        socket.create_connection(("127.0.0.2", server.port or 0), SOON)


def test_silent_clients_block_neither_an_owner_nor_the_plant(office: Office, serve: Callable[..., Server]) -> None:
    server = serve()
    with contextlib.ExitStack() as stack:
        for _ in range(800):
            stack.enter_context(server.connect())
        for _ in range(200):
            with socket.socket(socket.AF_UNIX) as peer:
                peer.connect(f"{office.db}.sock")
        began = time.monotonic()
        assert is_answered(server) and office.plant("stock", OTHER).out
        assert time.monotonic() - began < DROPPED_AFTER - 2  # so none of them was dropped meanwhile


def test_a_full_server_drops_the_client_that_has_been_sending_longest(
    office: Office, serve: Callable[..., Server]
) -> None:
    server = serve(descriptors=HELD + RESERVE)
    with contextlib.ExitStack() as stack:
        peers = [stack.enter_context(connect(server, b"GET /")) for _ in range(HELD)]
        for answered in range(5):
            assert is_answered(server)
            stack.enter_context(connect(server, b"GET /"))
        assert office.plant("stock", OTHER).out
        dropped = [not is_open(peer) for peer in peers]
        assert 5 <= sum(dropped) <= 7 and dropped == sorted(dropped, reverse=True)


def test_a_server_without_descriptors_drops_who_has_been_sending_longest(serve: Callable[..., Server]) -> None:
    server = serve()
    with connect(server, b"GET /"), connect(server, b"GET /"):
        assert is_answered(server)
        taken = len(os.listdir(f"/proc/{server.process.pid}/fd"))
        subprocess.run(["prlimit", f"--pid={server.process.pid}", f"--nofile={taken}"], check=True)
        began = time.monotonic()
        assert server.send(request("/orders")).startswith("HTTP/1.1 ")
        assert time.monotonic() - began < DROPPED_AFTER - 2  # so nobody was dropped for being slow


def test_who_reads_or_sends_slowly_is_dropped_after_ten_seconds(serve: Callable[..., Server]) -> None:
    server = serve()
    stock = request("/stock", ASKER)
    whole = server.send(stock)
    with socket.socket() as reader, connect(server, request("/orders")[:-2]) as sender:
        reader.setsockopt(socket.IPPROTO_TCP, socket.TCP_MAXSEG, 536)  # by which the system reckons the server's buffer
        reader.setsockopt(socket.SOL_SOCKET, socket.SO_RCVBUF, 4_096)
        reader.connect(("127.0.0.1", server.port or 0))
        reader.sendall(stock)
        began = time.monotonic()
        while is_open(sender) and time.monotonic() < began + SOON:
            with contextlib.suppress(ConnectionError):
                sender.sendall(b"x")
            assert is_answered(server)
            time.sleep(0.5)
        assert DROPPED_AFTER - 2 < time.monotonic() - began < SOON
        time.sleep(5)  # the reader's seconds began a little later
        reader.settimeout(SOON)
        assert len(read(reader)) < len(whole)


@pytest.mark.parametrize(
    "fields, status",
    [("x: " + "y" * 8_192 + "\r\n", 400), ("x: y\r\n" * 32, 400), ("content-length: 4097\r\n", 413)],
    ids=["bytes", "fields", "body"],
)
def test_a_head_that_is_too_long_is_refused(serve: Callable[..., Server], fields: str, status: int) -> None:
    server = serve()
    for _ in range(3):
        assert server.send(request("/orders", fields=fields)).startswith(f"HTTP/1.1 {status} ")
    assert is_answered(server)


def replies_before(server: Server, requests: list[bytes], last: bytes) -> int:
    """How many of these requests, which are sent at once, are answered before one that is sent behind them."""
    with contextlib.ExitStack() as stack, selectors.DefaultSelector() as selector:
        for message in (*requests, last):
            selector.register(stack.enter_context(connect(server, message)), selectors.EVENT_READ, message)
        for answered in range(len(requests) + 1):
            key, _ = selector.select(SOON)[0]
            if key.data == last:
                return answered
            assert isinstance(key.fileobj, socket.socket) and read(key.fileobj).startswith(b"HTTP/1.1 200")
            selector.unregister(key.fileobj)
    raise AssertionError("the last one is never answered")


def test_an_owner_that_asks_without_pause_delays_others_by_no_queue_of_its_own(serve: Callable[..., Server]) -> None:
    server, traces = serve(), [request(f"/trace/forward/{offices.product(1, 0)}", ASKER)] * 150
    # in order all traces would come first; a busy machine may show this client several replies at once
    assert min(replies_before(server, traces, request("/orders")) for _ in range(3)) < 75


def test_a_client_that_never_ends_its_request_does_not_keep_a_server_from_its_end(
    office: Office, serve: Callable[..., Server]
) -> None:
    server = serve(count=3)
    with connect(server, b"G"):
        assert is_answered(server) and is_answered(server)
        # the port closes as soon as the last has connected, and FILE.sock with it
        assert eventually(lambda: refuses(server), DROPPED_AFTER - 2)
        assert eventually(lambda: not os.path.exists(f"{office.db}.sock"), DROPPED_AFTER - 2)
        assert server.process.wait(DROPPED_AFTER + SOON) == 0
