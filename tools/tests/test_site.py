"""The site of packaging/nginx.conf, by nginx itself, with two owners, one of them hostile.

A stub stands in the office's place: it gives each owner its own name, so that what comes to another is seen.
"""
import gzip
import http.client
import http.server
import itertools
import json
import os
import re
import socket
import ssl
import subprocess
import sys
import threading
import time
from collections.abc import Iterator
from pathlib import Path
from typing import Any

import pytest
from conftest import PATIENCE, ROOT, eventually, quick_guesses
from site_client import FORBIDDEN, Reply, ask, at_once, connect, seconds_of, sent, sent_bytes
from tests.contract import operations, resolved
from tests.harness import serving
from try_page.site import Proxy, free_port, has_ipv6

CACHE_PORT = free_port()
# What an administrator may have beside the site: a cache for all, one in front of the site, compression of JSON,
# a log of everything, and addresses of clients that a proxy in front gives.
AROUND = f"""
    proxy_cache_path {{folder}}/kept keys_zone=kept:1m;
    proxy_cache kept;
    proxy_cache_valid any 10m;
    gzip on;
    gzip_types application/json;
    gzip_min_length 1;
    set_real_ip_from 127.0.0.1;
    set_real_ip_from ::1;
    real_ip_header x-address;
    server {{{{
        listen 127.0.0.1:{CACHE_PORT};
        location / {{{{
            proxy_pass https://127.0.0.1:{{port}};
            proxy_ssl_server_name on;
            proxy_ssl_name localhost;
            proxy_set_header Host localhost;
            proxy_cache_key $uri;
        }}}}
    }}}}
"""
# What takes long in earnest is short here.
SHORT = [
    (r"proxy_read_timeout 60s", "proxy_read_timeout 2s"),
    (r"client_(header|body)_timeout 10s", r"client_\1_timeout 3s"),
]
STATUSES = {
    "/nowhere": 404,
    "/stock/method": 405,
    "/orders/refused": 409,
    "/orders/malformed": 400,
    "/orders/locked": 503,
}
WRONG_KEY = "WRONGKEY1"
HOST, GET_STOCK = "Host: localhost", "GET /stock HTTP/1.1"


class Stub(http.server.ThreadingHTTPServer):
    """In the office's place. /lots/SLOW is answered when `go` is set, and counted; /lots/NEVER is answered too late."""

    daemon_threads = True
    request_queue_size = 128

    def __init__(self) -> None:
        super().__init__(("127.0.0.1", 0), StubAnswer)
        self.go, self.counting, self.now, self.most = threading.Event(), threading.Lock(), 0, 0
        self.heads: list[Any] = []  # of all requests

    def handle_error(self, *_: object) -> None:
        """Whoever asked went away: the site does, if an answer takes long."""

    def count(self, step: int) -> None:
        with self.counting:
            self.now += step
            self.most = max(self.most, self.now)


class StubAnswer(http.server.BaseHTTPRequestHandler):
    server: Stub

    def do_GET(self) -> None:
        self.server.heads.append(self.headers)
        if self.path == "/lots/SLOW":
            self.server.count(1)
            self.server.go.wait(20)
            self.server.count(-1)
        if self.path == "/lots/NEVER":
            time.sleep(4)
        lots = [{"lot": f"{self.headers['toll-owner']}-{number}"} for number in range(40)]
        status, body = STATUSES.get(self.path, 200), json.dumps({"lots": lots}).encode()
        if self.headers["toll-key"] == WRONG_KEY:
            status = 403
        if foreign := re.fullmatch("/foreign/([0-9]+)", self.path):
            status, body = int(foreign[1]), b"<h1>Welcome to our wireless network</h1>"
        self.send_response_only(status)
        self.send_header("content-type", "text/html" if foreign else "application/json")
        self.send_header("content-length", str(len(body)))
        self.end_headers()
        self.wfile.write(body)

    do_POST = do_GET

    def log_message(self, *_: object) -> None:
        pass


@pytest.fixture(scope="module")
def stub() -> Iterator[Stub]:
    server = Stub()
    with serving(server):
        yield server
        server.go.set()


@pytest.fixture(scope="module")
def site(stub: Stub, tmp_path_factory: pytest.TempPathFactory) -> Iterator[Proxy]:
    folder, port = tmp_path_factory.mktemp("site"), free_port()
    with Proxy(folder, stub.server_port, AROUND.format(folder=folder, port=port), SHORT, port) as proxy:
        yield proxy


def first_lot(reply: Reply) -> str:
    return str(reply.value()["lots"][0]["lot"])


def test_nginx_takes_the_site_without_a_warning(site: Proxy) -> None:
    words = ["nginx", "-t", "-e", "stderr", "-p", str(site.folder), "-c", str(site.folder / "nginx.conf")]
    done = subprocess.run(words, capture_output=True, text=True)
    assert done.returncode == 0 and "[warn]" not in done.stderr, done.stderr


@pytest.mark.parametrize("status", [200, 400, 403, 404, 413, 429, 500, 502, 503, 504])
def test_what_is_not_the_offices_does_not_look_like_it(site: Proxy, status: int) -> None:
    """Something else at the office's port: its 403 sends no owner away, and its 500 is no office that is away."""
    reply = ask(site, f"/foreign/{status}")
    assert reply.status == status and reply.fields["content-type"].startswith("text/")
    assert reply.fields["cache-control"] == "no-store"


# Nobody keeps what an owner is answered, and browsers are careful

ANSWERED: list[tuple[int, str, str, dict[str, Any]]] = [
    (200, "GET", "/stock", {"toll_owner": "ACME"}),
    (404, "GET", "/nowhere", {}),
    (413, "POST", "/orders", {"body": b"x" * 5000}),
    (405, "TRACE", "/stock", {}),
    (302, "GET", "/", {}),
    (301, "GET", "/owner", {}),
    (504, "GET", "/lots/NEVER", {}),
    (404, "GET", "/owner/nothing.js", {}),
    (403, "GET", "/stock", {"toll_owner": "ACME", "toll_key": WRONG_KEY}),
    (200, "GET", "/owner/", {}),
]


CAREFUL = dict.fromkeys(["cross-origin-opener-policy", "cross-origin-resource-policy"], "same-origin")
CAREFUL |= {"x-content-type-options": "nosniff", "referrer-policy": "no-referrer"}


@pytest.mark.parametrize("status, method, path, fields", ANSWERED)
def test_every_reply_is_kept_by_nobody_and_has_the_fields_for_browsers(
    site: Proxy, status: int, method: str, path: str, fields: dict[str, Any]
) -> None:
    reply = ask(site, path, method, **fields)
    assert reply.status == status
    assert reply.fields["cache-control"] == ("no-cache" if path == "/owner/" else "no-store")
    if status in (200, 403, 404, 504):
        assert {name: reply.fields[name] for name in CAREFUL} == CAREFUL
        assert re.fullmatch(r"max-age=\d{8,}", reply.fields["strict-transport-security"])
        policy = reply.fields["content-security-policy"]
        assert "default-src 'none'" in policy and "unsafe" not in policy


def test_a_cache_in_front_gives_no_owner_anothers_stock(site: Proxy) -> None:
    def ask_cache(owner: str) -> str:
        peer = http.client.HTTPConnection("127.0.0.1", CACHE_PORT, timeout=20)
        peer.request("GET", "/stock", headers={"toll-owner": owner})
        return first_lot(Reply(peer.getresponse()))

    assert [ask_cache(owner) for owner in ("ACME", "BOLT", "ACME")] == ["ACME-0", "BOLT-0", "ACME-0"]


def test_a_cache_for_all_sites_of_the_machine_is_off_here(site: Proxy) -> None:
    assert [first_lot(ask(site, "/stock", toll_owner=owner)) for owner in ("ACME", "BOLT")] == ["ACME-0", "BOLT-0"]


def test_files_of_the_page_are_looked_after_each_time(site: Proxy) -> None:
    first = ask(site, "/owner/main.js")
    assert (first.status, first.fields["cache-control"]) == (200, "no-cache")
    assert ask(site, "/owner/main.js", if_none_match=first.fields["etag"]).status == 304


@pytest.mark.parametrize("path", ["", "main.js", "style.css", "openapi.yaml"])
def test_the_page_is_compressed_and_what_owners_are_answered_is_not(site: Proxy, path: str) -> None:
    reply = ask(site, f"/owner/{path}", accept_encoding="gzip")
    assert (reply.fields["content-encoding"], reply.fields["vary"]) == ("gzip", "Accept-Encoding")
    assert gzip.decompress(reply.body) == ask(site, f"/owner/{path}").body
    assert "content-encoding" not in ask(site, "/stock", toll_owner="ACME", accept_encoding="gzip").fields


# Where the site leads, and for which names


@pytest.mark.parametrize(
    "path, status, to", [("/", 302, "/owner/"), ("/owner", 301, "/owner/"), ("/owner/views", 301, "/owner/views/")]
)
def test_a_redirection_leads_to_the_site_itself(site: Proxy, path: str, status: int, to: str) -> None:
    for name, host in (("host", f"localhost:{site.port}"), ("x_forwarded_host", "evil.example"), ("x", "")):
        reply = ask(site, path, fields={name: host})
        assert (reply.status, reply.fields["location"]) == (status, to)


@pytest.mark.parametrize("path", ["/", "/owner", "/stock"])
def test_a_host_that_was_sent_never_comes_back(site: Proxy, path: str) -> None:
    reply = ask(site, path, host="evil.example")
    assert reply.is_error(421, "UnknownHost") and "evil" not in str(reply.fields)
    got, _ = sent(site, f"GET https://evil.example{path} HTTP/1.1", HOST, "Connection: close")
    assert got.startswith(b"HTTP/1.1 421 ") and b"evil" not in got


@pytest.mark.parametrize("name", ["evil.example", None])
def test_another_name_gets_no_certificate(site: Proxy, name: str | None) -> None:
    with pytest.raises(ssl.SSLError):
        connect(site, name=name)


def test_what_is_not_encrypted_gets_nothing(site: Proxy) -> None:
    with socket.create_connection(("127.0.0.1", site.port), timeout=20) as line:
        line.sendall(f"{GET_STOCK}\r\n{HOST}\r\n\r\n".encode())
        got = line.recv(65536)
    assert b"400 Bad Request" in got and b'{"error":"BadRequest"}' in got


@pytest.mark.skipif(not has_ipv6(), reason="this machine has no IPv6")
def test_the_site_is_there_by_both_kinds_of_addresses(site: Proxy) -> None:
    assert [ask(site, "/stock", to=address).status for address in ("127.0.0.1", "::1")] == [200, 200]


# One owner doesn't keep the others waiting


def test_an_address_asks_four_things_at_once_and_others_go_on(site: Proxy, stub: Stub) -> None:
    stub.go.clear()
    stub.most, hostile = 0, list[Reply]()
    ask_slowly = lambda _: ask(site, "/lots/SLOW", x_address="192.0.2.1")
    asking = threading.Thread(target=at_once, args=(ask_slowly, 12, hostile))
    asking.start()
    eventually(lambda: stub.now >= 4)
    assert seconds_of(lambda: ask(site, "/stock", toll_owner="BOLT", x_address="192.0.2.2").value()["lots"]) < 1
    eventually(lambda: len(hostile) >= 8)
    most = stub.most
    stub.go.set()
    asking.join()
    assert most == 4 and sorted(reply.status for reply in hostile) == [200] * 4 + [429] * 8
    turned_away = {(reply.fields["retry-after"], reply.body) for reply in hostile if reply.status == 429}
    assert turned_away == {("1", b'{"error":"TooManyRequests"}')}


def slow_statuses(site: Proxy, stub: Stub, most: int, addresses: list[str], to: str = "") -> list[int]:
    """The statuses of requests from these addresses at once. The office answers when so many have come, and all others
    are refused. With `to`, the addresses are the system's."""
    statuses: list[int] = []

    def answer() -> None:
        eventually(lambda: stub.now >= most and len(statuses) >= len(addresses) - most)
        stub.go.set()

    def status(number: int) -> int:
        if to:
            return ask(site, "/lots/SLOW", to=to, source=addresses[number]).status
        return ask(site, "/lots/SLOW", x_address=addresses[number]).status

    stub.go.clear()
    answering = threading.Thread(target=answer)
    answering.start()
    at_once(status, len(addresses), statuses)
    answering.join()
    return sorted(statuses)


ONE_NETWORK = [
    *(
        " ".join(form.format(f"{number + 1:x}") for number in range(8))
        for form in ("2001:db8:1:2::{}", "2001:db8:1:9:3:4:5:{}", "2001:db8:7::{}")
    ),
    "2001:db8::1 2001:db8::1:0:0:1 2001:db8:0:0:1::1 2001:db8:0:0:5:6:7:8 2001:0DB8:0000:0000:0:0:0:2 "
    "2001:db8::5:6:7:9",
    "2001:0:0:1::1 2001::1:5:6:7:8 2001:0:0:1:5:6:7:9 2001::1:5:0:0:8 2001:0:0:1:0:0:7:8 2001:0000:0000:0001::2",
    "2a00::1 2a00:0:0:0:1:: 2a00::1:2:3:4 2a00:0:0:0:5::6 2a00::ffff:192.0.2.7 2a00:0:0::9",
    "192.0.2.77 ::ffff:192.0.2.77 ::ffff:c000:24d 0:0:0:0:0:ffff:192.0.2.77 ::FFFF:192.0.2.77 0::ffff:c000:024d",
]
OTHER_NETWORKS = [
    "2001::1:5:6:7:8 2001::2:5:6:7:8 2001::5:6:7:8 2001:0:1::8 2001:1::8",
    "::ffff:192.0.2.78 ::ffff:192.0.2.79 192.0.2.80 ::1 ::fffe:192.0.2.78",
    " ".join(f"2001:db8:1:{number + 1:x}::1" for number in range(8)),
]


@pytest.mark.parametrize("spellings", ONE_NETWORK)
def test_a_network_counts_once_whatever_its_spelling(site: Proxy, stub: Stub, spellings: str) -> None:
    addresses = spellings.split()
    assert slow_statuses(site, stub, 4, addresses) == [200] * 4 + [429] * (len(addresses) - 4)


@pytest.mark.parametrize("addresses", OTHER_NETWORKS)
def test_other_networks_are_other_addresses(site: Proxy, stub: Stub, addresses: str) -> None:
    count = len(addresses.split())
    assert slow_statuses(site, stub, count, addresses.split()) == [200] * count


IN_A_NETWORK = "TOLL_IN_A_NETWORK"  # set if this file's tests run in a network that a test made
ADDRESSES = """fd00:0:0:1::1 fd00::1:5:6:7:8 fd00:0:0:1:0:6:0:8 fd00:0:0:1:9:9:9:9 fd00::1:0:0:0:2 fd00:0:0:2::1
    fd00:0:0:2::2""".split()


@pytest.fixture
def network() -> Iterator[list[str]]:
    """A network of this test's own, whose loopback interface has addresses of two networks of the sixth version."""
    name = f"toll-{os.getpid()}"
    if os.geteuid() or not has_ipv6() or subprocess.run(["ip", "netns", "add", name], capture_output=True).returncode:
        pytest.skip("only root can make a network, and this machine may have none of IPv6")
    within = ["ip", "netns", "exec", name]
    try:
        subprocess.run([*within, "ip", "link", "set", "lo", "up"], check=True)
        for address in ADDRESSES:
            subprocess.run([*within, *f"ip -6 addr add {address}/128 dev lo nodad".split()], check=True)
        yield within
    finally:
        subprocess.run(["ip", "netns", "del", name], check=True)


def test_addresses_of_the_system_count_by_their_network(network: list[str]) -> None:
    words = [*network, sys.executable, "-B", "-m", "pytest", "-q", "-p", "no:cacheprovider"]
    words.append(f"{__file__}::test_addresses_in_a_network")
    done = subprocess.run(words, capture_output=True, text=True, timeout=200, env={**os.environ, IN_A_NETWORK: "1"})
    assert done.returncode == 0 and "1 passed" in done.stdout, done.stdout + done.stderr


@pytest.mark.skipif(IN_A_NETWORK not in os.environ, reason="it runs in the network that the test above makes")
def test_addresses_in_a_network(site: Proxy, stub: Stub) -> None:
    """Five addresses of one network have four connections, two of another theirs."""
    assert slow_statuses(site, stub, 6, ADDRESSES, to="::1") == [200] * 6 + [429]


def test_an_address_that_asks_without_end_has_to_wait(site: Proxy) -> None:
    replies = [reply for _ in range(40) for reply in at_once(lambda _: ask(site, "/stock", x_address="192.0.2.9"), 4)]
    assert {reply.status for reply in replies} <= {200, 429}
    assert seconds_of(lambda: ask(site, "/stock", x_address="192.0.2.10").value()["lots"]) < 1


@pytest.mark.parametrize("head", ["GET /stock HTTP/1.1\r\n", "POST /orders HTTP/1.1\r\nContent-Length: 9\r\n\r\n{"])
def test_who_sends_nothing_is_dropped(site: Proxy, head: str) -> None:
    """The time for a head is that of the server which runs first, before a name is known."""
    got, after = sent_bytes(site, head.replace("\r\n", f"\r\n{HOST}\r\n", 1).encode())
    assert got == b"" and after < 8


# What stands where


BESIDE = ("openapi.yaml", "http.md", "commands.md")
LINK = re.compile(r"\[([^\]]+)\]\(([^):#]+)?(#[^)]*)?\)")


@pytest.mark.parametrize("name", BESIDE)
def test_the_contract_stands_beside_the_page(site: Proxy, name: str) -> None:
    """Its pages link what stands beside them alone; other links are their words."""
    reply = ask(site, f"/owner/{name}")
    assert (reply.status, reply.fields["content-type"]) == (200, "text/plain; charset=utf-8")
    text, source = reply.body.decode(), (ROOT / "docs" / name).read_text()
    assert LINK.sub(r"\1", text) == LINK.sub(r"\1", source)
    assert {page for _, page, _ in LINK.findall(text)} <= {"", *BESIDE}
    page = ask(site, "/owner/").body
    assert b'href="openapi.yaml"' in page and b'href="http.md"' in page


def test_the_site_sets_after_how_many_minutes_an_owner_is_logged_off(site: Proxy) -> None:
    reply = ask(site, "/owner/settings.json")
    assert reply.fields["content-type"] == "application/json" and 1 <= reply.value()["idle_minutes"] <= 60


def test_no_log_has_a_key(site: Proxy) -> None:
    for field in ("toll_key", "toll key"):
        sent(site, GET_STOCK, HOST, "toll-owner: ACME", f"{field}: SECRETKEY1", "Connection: close")
    ask(site, "/stock", toll_owner="ACME", toll_key="SECRETKEY1")
    ask(site, "/stock?behind-them")
    assert any(logged(site, "behind-them"))  # so the lines of those before it are there too
    logs = {log.name: log.read_text() for log in site.folder.glob("*.log")}
    assert not [name for name, text in logs.items() if "SECRETKEY1" in text] and '"ACME"' in logs["toll.log"]


def logged(site: Proxy, mark: str, is_there: bool = True) -> tuple[list[str], list[str]]:
    """The lines with this mark in the log of requests with a right key, and in that of others; a request's line comes
    behind its reply."""

    def lines_now() -> tuple[list[str], list[str]]:
        logs = ((site.folder / name).read_text().splitlines() for name in ("toll.log", "unauthenticated-toll.log"))
        kept, others = ([line for line in lines if mark in line] for lines in logs)
        return kept, others

    if is_there:
        assert eventually(lambda: any(lines_now()))
    else:
        time.sleep(0.3)
    return lines_now()


@pytest.mark.parametrize(
    "path, status", [("/stock", 200), *(known for known in STATUSES.items() if known[1] in (404, 405, 409))]
)
def test_requests_with_a_key_are_in_the_log_that_is_kept(site: Proxy, path: str, status: int) -> None:
    address = f"198.51.100.{status % 100}"
    assert ask(site, path, toll_owner="ACME", toll_key="ACMEKEY1", x_address=address).status == status
    kept, others = logged(site, address)
    assert [line.split(" [")[0] for line in kept] == [f'{address} "ACME"'] and others == []
    assert f'"GET {path} HTTP/1.1" {status} ' in kept[0]


BODIES = {
    '{"order":"O-1","recipe":"BRINE-10","batches":2}': "O-1",
    ' { "recipe" : "R" ,\n "batches" : 2, "order" : "O-2" } ': "O-2",
    '{"order":"A","order":"B","recipe":"R","batches":1}': "-",
    '{"x":{"order":"A"},"order":"B","recipe":"R","batches":1}': "-",
    '{"order":"a b","recipe":"R","batches":1}': "-",
    '{"note":"\\"order\\":\\"A\\"","order":"B","recipe":"R","batches":1}': "-",
    '{"order":"%s"}' % ("A" * 17): "-",
    '"order":"A"': "-",
    "": "-",
}


@pytest.mark.parametrize("body, order", BODIES.items())
def test_the_log_names_the_order_that_is_placed(site: Proxy, body: str, order: str) -> None:
    """The body alone names it. Another member could name another order, so none is named then."""
    address = f"198.51.101.{len(body)}"
    ask(site, "/orders", "POST", body.encode(), toll_owner="ACME", toll_key="ACMEKEY1", x_address=address)
    (line,) = itertools.chain(*logged(site, address))
    assert line.split()[-1] == order and len(line) < 500


UNKNOWN: dict[str, dict[str, Any]] = {
    "/stock?a-key": {"toll_key": WRONG_KEY},
    "/orders/malformed": {},
    "/orders/locked": {},
    "/orders?a-body": {"method": "POST", "body": b"x" * 5000},
    "/a-trace": {"method": "TRACE"},
    "/?a-page": {},
}


@pytest.mark.parametrize("path, asked", UNKNOWN.items())
def test_requests_without_a_key_are_in_a_log_of_their_own(site: Proxy, path: str, asked: dict[str, Any]) -> None:
    """Also those that the site answers by itself, whatever their status."""
    assert ask(site, path, **asked).status in (302, 400, 403, 405, 413, 503)
    assert [*map(len, logged(site, path))] == [0, 1]


def test_what_nobody_need_know_is_in_no_log(site: Proxy) -> None:
    """The page's files, and requests for other names, which come without a limit."""
    ask(site, "/owner/?unlogged")
    ask(site, "/owner/unlogged")
    ask(site, "/stock?unlogged", host="evil.example")
    assert logged(site, "unlogged", False) == ([], [])
    assert ask(site, "/owner/../a-detour", toll_key=WRONG_KEY).status == 403
    assert len(logged(site, "a-detour")[1]) == 1


def test_a_line_of_a_log_is_short_whatever_is_sent(site: Proxy) -> None:
    for owner in ("X" * 1900, '=cmd|"/c"!A1', "A\x1b[2J"):
        assert ask(site, "/stock?a-flood" + '"' * 1900, toll_key=WRONG_KEY, toll_owner=owner).status == 403
    assert eventually(lambda: len(logged(site, "a-flood")[1]) == 3)
    lines = logged(site, "a-flood")[1]
    assert max(map(len, lines)) < 500 and {line.split()[1] for line in lines} == {'"-"'}
    assert "a-flood" not in (site.folder / "error.log").read_text()


@pytest.mark.parametrize(
    "begins, padding", [("", " "), ("https://localhost:{}443", "0"), ("HTTPS://LOCALHOST:{}1", "0")]
)
def test_no_padding_hides_what_an_owner_changed(site: Proxy, begins: str, padding: str) -> None:
    """The path of a request is in the log, whatever precedes it."""
    address, before = f"203.0.113.{len(begins)}", begins.format(padding * 150) if begins else padding * 150
    request = f"POST {before}/lots/S-1/release?{'x' * 150} HTTP/1.1"
    key = ("toll-owner: ACME", "toll-key: ACMEKEY1", "Content-Length: 0", "Connection: close")
    reply, _ = sent(site, request, HOST, f"x-address: {address}", *key)
    (line,) = logged(site, address)[0]
    assert b" 200 OK" in reply and '"POST /lots/S-1/release?x' in line and len(line) < 500


def test_a_client_that_goes_away_is_logged_with_what_was_done(site: Proxy, stub: Stub) -> None:
    """An owner, or a thief of its key, hides no release by closing the connection early."""
    stub.go.clear()
    before, head = stub.now, ("POST /lots/SLOW HTTP/1.1", HOST, "toll-owner: GONE", "toll-key: GONEKEY1")
    with connect(site) as peer:
        peer.sendall("\r\n".join([*head, "Content-Length: 0", "", ""]).encode())
        assert eventually(lambda: stub.now > before)
    time.sleep(0.5)
    stub.go.set()
    (line,) = logged(site, '"GONE"')[0]
    assert '"POST /lots/SLOW HTTP/1.1" 200 ' in line


# How long a head is

LONGEST = {"toll_owner": "A" * 16, "toll_key": "k" * 32}


LONG_PATHS = {f"/trace/forward/{'L' * 16}": "GET", f"/lots/{'L' * 16}/release": "POST"}
LONG_PATHS |= {f"/orders/{'O' * 16}/cancel": "POST", f"/batches/{'O' * 16}/99": "GET"}


@pytest.mark.parametrize("path, method", LONG_PATHS.items())
def test_the_longest_requests_come_to_the_office_unchanged(site: Proxy, stub: Stub, method: str, path: str) -> None:
    """With all that a browser may add."""
    browser = {f"sec_ch_ua_{number}": "v" * 200 for number in range(26)}
    body = b"{" + b" " * 4094 + b"}" if method == "POST" else None
    reply = ask(site, f"{path}?{'q' * 1800}", method, body, fields={**LONGEST, "user_agent": "u" * 1900, **browser})
    assert reply.status == 200, reply.body
    head = stub.heads[-1]
    assert (head["toll-owner"], head["toll-key"], len(head["user-agent"])) == (*LONGEST.values(), 1900)
    assert [head[f"sec-ch-ua-{number}"] for number in range(26)] == ["v" * 200] * 26


LONGER: dict[str, tuple[str, dict[str, str], int]] = {
    "line": ("/stock?" + "q" * 2100, {}, 414),
    "field": ("/stock", {"user_agent": "u" * 2100}, 400),
    "fields": ("/stock", {f"field_{number}": "v" * 1900 for number in range(6)}, 400),
}


@pytest.mark.parametrize("path, fields, status", LONGER.values(), ids=LONGER)
def test_a_longer_head_is_refused(site: Proxy, stub: Stub, path: str, fields: dict[str, str], status: int) -> None:
    before = len(stub.heads)
    assert ask(site, path, fields=LONGEST | fields).is_error(status, "BadRequest") and len(stub.heads) == before


@pytest.fixture
def slow_site(stub: Stub, tmp_path: Path) -> Iterator[Proxy]:
    """A site that lets an address ask once a minute, after the first five requests."""
    burst = (r"limit_req zone=toll burst=20;", "limit_req zone=toll burst=4 nodelay;")
    with Proxy(tmp_path, stub.server_port, changes=[(r"rate=50r/s", "rate=1r/m"), burst]) as proxy:
        yield proxy


# Requests that are refused before a limit of their path holds: by their line, by a field, by their form, by their
# length.
REFUSED = {
    414: ("GET /stock?" + "q" * 3000 + " HTTP/1.1", HOST),
    400: (GET_STOCK, HOST, "long: " + "x" * 9000),
    505: ("GET /stock HTTP/2.0", HOST),
    413: ("POST /orders HTTP/1.1", HOST, "Content-Length: 9999"),
}


@pytest.mark.parametrize("status", REFUSED)
def test_what_is_refused_at_once_is_limited_too(slow_site: Proxy, status: int) -> None:
    """Otherwise anybody fills the disk of the logs: each refusal is a line there."""
    replies = at_once(lambda _: sent(slow_site, *REFUSED[status], patience=PATIENCE)[0], 15)
    statuses = sorted(int(reply.split()[1]) for reply in replies)
    assert len(statuses) == 15 and set(statuses) == {status, 429} and statuses.count(status) in (5, 6), statuses
    for reply in (reply for reply in replies if b" 429 " in reply[:20]):
        assert reply.endswith(b'\r\n\r\n{"error":"TooManyRequests"}') and b"\r\nRetry-After: 1\r\n" in reply
    assert max(map(len, (slow_site.folder / "unauthenticated-toll.log").read_text().splitlines())) < 300


# Wrong keys


def guess(site: Proxy, address: str, owner: str, key: str = WRONG_KEY) -> tuple[int, float]:
    """The status of a request with a key, and after how many seconds it came."""
    begun = time.monotonic()
    reply = ask(site, "/stock", toll_owner=owner, toll_key=key, x_address=address)
    assert reply.status == 200 or (reply.value(), reply.fields["content-type"]) == (FORBIDDEN, "application/json")
    return reply.status, time.monotonic() - begun


def least_wait(site: Proxy, *words: str) -> float:
    """The least of three times that a guess takes: who has to wait does so each time, and on a busy machine one may
    take long by itself."""
    return min(guess(site, *words)[1] for _ in range(3))


def test_the_twentieth_wrong_key_within_a_minute_is_answered_slowly(site: Proxy) -> None:
    address, numbers = "2001:db8:9::{:x}", itertools.count()  # of one network
    quick, most = quick_guesses(lambda: guess(site, address.format(next(numbers)), "ACME")[1])
    assert 19 <= quick <= most
    status, after = guess(site, address.format(20), "ACME")
    assert status == 403 and 1 < after < 5
    # nobody else waits: another owner, a right key of this one, and this one's people elsewhere
    assert least_wait(site, address.format(21), "BOLT") < 1
    assert least_wait(site, address.format(22), "ACME", "ACMEKEY1") < 1
    assert least_wait(site, "2001:db8:a::1", "ACME") < 1
    assert least_wait(site, "192.0.2.40", "ACME", "ACMEKEY1") < 1
    # who writes the name otherwise guesses for the same owner
    status, after = guess(site, address.format(23), "ACME\t")
    assert status == 403 and after > 1


def test_who_closes_after_a_wrong_key_waits_all_the_same(site: Proxy, stub: Stub) -> None:
    """Otherwise a late answer would be as good as one, and whoever guesses would go on at once."""
    head = (GET_STOCK, HOST, "x-address: 192.0.2.50", "toll-owner: CARL", f"toll-key: {WRONG_KEY}", "", "")

    def guessed() -> int:
        return sum(1 for head in stub.heads if head["toll-owner"] == "CARL")

    begun = time.monotonic()
    for _ in range(40):
        with connect(site) as peer:
            peer.sendall("\r\n".join(head).encode())
            time.sleep(0.1)
    # 19 at once, the four that may wait at once, and one each three seconds
    assert guessed() <= 25 + max(0, time.monotonic() - begun - 5) / 3
    assert eventually(lambda: guessed() >= 19)


# What the site answers by itself is in the contract

BY_ITSELF = {
    (414, "BadRequest", None),
    (421, "UnknownHost", None),
    (504, "Unavailable", "1"),
    (413, "TooLarge", None),
    (400, "BadRequest", None),
    (501, "Unavailable", None),
    (505, "Unavailable", None),
}


def test_what_the_site_answers_by_itself(site: Proxy) -> None:
    replies = [
        ask(site, "/stock?" + "a" * 9000),
        ask(site, "/stock", host="evil.example"),
        ask(site, "/lots/NEVER"),
        ask(site, "/orders", "POST", b"x" * 5000),
        ask(site, "/stock", long="x" * 40000),
        ask(site, "/stock", "POST", transfer_encoding="x"),
    ]
    answers = {(reply.status, reply.value()["error"], reply.fields.get("retry-after")) for reply in replies}
    head, _, body = sent(site, "GET /stock HTTP/2.0", HOST)[0].partition(b"\r\n\r\n")
    assert answers | {(int(head.split()[1]), json.loads(body)["error"], None)} == BY_ITSELF


@pytest.mark.parametrize("path, way, operation", operations())
def test_the_contract_has_what_the_site_answers_by_itself(path: str, way: str, operation: Any) -> None:
    responses = operation["responses"]
    for number, _, retry_after in [*BY_ITSELF, (429, "TooManyRequests", "1"), (502, "Unavailable", "1")]:
        response = resolved(responses.get(str(number), responses["default"]))
        if str(number) in responses and number in (429, 502, 504):
            assert "retry-after" in response["headers"]
        assert "application/json" in response.get("content", {}) or number == 501, f"{way} {path} {number}"
        assert retry_after is None or str(number) in responses


def test_an_office_that_is_away_is_502(tmp_path: Path) -> None:
    with Proxy(tmp_path, free_port()) as proxy:
        reply = ask(proxy, "/stock")
    assert reply.is_error(502, "Unavailable") and reply.fields["retry-after"] == "1"
