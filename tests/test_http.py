"""Each route of docs/openapi.yaml answers each status that the office gives there, and what was answered survives a
kill.

Each reply is held against the schema that the page gives for its status, and each refusal that the page has for a
route is given there. What the site answers by itself is asked of nginx by tools/tests/test_site.py; what the page
says without a server is checked by tools/tests/test_openapi.py.
"""
import contextlib
import fcntl
import functools
import json
import random
import re
import sqlite3
import threading
import time
from collections.abc import Callable
from typing import Any, NamedTuple

import pytest

from tests.contract import PAGE, examples_of, faults_of, operations, resolved
from tests.harness import ACCEPTED, REPLY, ROOT, Office, Server, content, http_request, meanwhile, put
from tests.lines import SERVED

LIMIT_REACHED = {"code": 39, "error": "LimitReached"}
KILLS = 20

# Lots A (all consumed), B, C and D of M, P1 of P, which has an open test, and HOUSE's H-1; a batch of O, and O-2
# without.
OFFICE = SERVED.replace("recipe-add", "test-add ACME P PH 1 2\nrecipe-add", 1)


class Ask(NamedTuple):
    """A request; `fields` has the values of each field that isn't as usual."""

    method: str
    path: str
    body: str = ""
    fields: dict[str, list[str]] = {}


class Reply(NamedTuple):
    status: int
    fields: dict[str, str]
    body: str


def ask(server: Server, asked: Ask) -> Reply | None:
    """The reply, which is well formed and as long as it says; none where there is none."""
    usual = {"host": ["127.0.0.1"], "toll-owner": ["ACME"], "toll-key": ["ACMEKEY1"]}
    usual |= {"content-length": [str(len(asked.body))]} | asked.fields
    lines = [(name, value) for name, values in usual.items() for value in values]
    text = server.send(http_request(asked.method.upper(), asked.path, asked.body, lines))
    if not text:
        return None
    reply = REPLY.fullmatch(text)
    assert reply, text
    got = dict(line.split(": ", 1) for line in reply[2].splitlines())
    assert int(got["content-length"]) == len(reply[3].encode()), text
    return Reply(int(reply[1]), got, reply[3])


def new_order(name: str, recipe: str = "R", batches: int = 1) -> str:
    return json.dumps({"order": name, "recipe": recipe, "batches": batches})


# What is asked for each status that belongs to one route alone: the bodies of an order, or what fills the parameters of
# the path, or follows one without. All other statuses are asked for on each route in the same way.
ASKED = {
    "get /orders": {200: [""]},
    "post /orders": {
        200: [new_order("O-3"), new_order("O-3")],
        400: ['{"order":"O-4"}', new_order("o"), new_order("O-4", "R", 100)],
        409: [new_order("O", batches=3), new_order("O-4", "NONE")],
    },
    "get /orders/{order}": {200: ["O"], 404: ["O-9", "o"]},
    "post /orders/{order}/cancel": {200: ["O-2"], 404: ["O-9", "-"], 409: ["O-2", "O"]},
    "get /batches/{order}/{n}": {200: ["O/1"], 404: ["O-9/1", "O/2", "O/0", "O/100", "O/01"]},
    "get /stock": {200: ["", "?all"]},
    "get /lots/{lot}": {200: ["A", "P1"], 404: ["A-9", "H-1", "a"]},
    "post /lots/{lot}/release": {200: ["C"], 404: ["H-1", "a"], 409: ["C", "P1"]},
    "post /lots/{lot}/reject": {200: ["A", "D"], 404: ["H-1", "a"], 409: ["D"]},
    "get /trace/back/{lot}": {200: ["P1"], 404: ["H-1", "a"]},
    "get /trace/forward/{lot}": {200: ["A"], 404: ["H-1", "a"]},
    "get /trace/house/{lot}": {200: ["H-1"], 404: ["P1", "a"]},
}


def asks_of(method: str, path: str, status: int) -> list[Ask]:
    """What is asked for the status."""
    sample = path.replace("{order}", "O").replace("{lot}", "P1").replace("{n}", "1")
    anywhere = {
        400: [Ask(method, sample, fields={"host": []}), Ask(method, sample, fields={"content-length": ["x"]})],
        403: [Ask(method, sample, fields={"toll-key": keys.split()}) for keys in ("ACMEKEY2", "ACMEKEY1 ACMEKEY1", "")],
        405: [Ask({"get": "post", "post": "get"}[method], sample)],
        413: [Ask(method, sample, fields={"content-length": ["4097"]})],
        501: [Ask("put", sample), Ask(method, sample, fields={"transfer-encoding": ["chunked"], "content-length": []})],
        503: [Ask(method, sample)],
    }
    return anywhere.get(status, []) + [
        Ask(method, path, own) if own.startswith("{") else Ask(method, re.sub(r"\{.*\}|$", own, path, count=1))
        for own in ASKED[f"{method} {path}"].get(status, [])
    ]


# What the page says


def check(reply: Reply | None, asked: Ask, status: int, response: dict[str, Any]) -> Any:
    """Holds a reply against what the page says of this status, and gives its value."""
    assert reply and reply.status == status, (asked, reply)
    fields = response.get("headers", {})
    assert ("allow" in reply.fields) == ("allow" in fields), (asked, reply)
    assert "allow" not in fields or reply.fields["allow"] in fields["allow"]["schema"]["enum"], (asked, reply)
    if "content" not in response:
        assert reply.body == "", asked
        return None
    value, body = json.loads(reply.body), response["content"]["application/json"]
    assert faults_of(body["schema"], value) == [], (asked, reply)
    assert reply.body == json.dumps(value, separators=(",", ":"), sort_keys=True), asked
    assert status < 400 or value in examples_of(body), (asked, reply)
    return value


# The office's own, without those that the site answers by itself.
OPERATIONS = [f"{method} {path}" for path, method, way in operations() if way.get("x-told-by") != "site"]


@pytest.fixture(scope="module")
def laid(new: Callable[[], Office]) -> str:
    return new().lay(OFFICE)


@pytest.fixture
def office(new: Callable[[], Office], laid: str) -> Office:
    copy = new()
    put(laid, copy.db)
    return copy


@pytest.mark.parametrize("operation", OPERATIONS)
def test_a_route_answers_each_status_and_each_refusal_of_the_page(office: Office, operation: str) -> None:
    method, path = operation.split(" ")
    responses = {status: resolved(response) for status, response in PAGE["paths"][path][method]["responses"].items()}
    with office.serve() as server:
        for status in sorted(int(code) for code, response in responses.items() if response.get("x-told-by") != "site"):
            response, asks = responses[str(status)], asks_of(method, path, status)
            assert asks, f"nothing is asked for {status}"
            with open(f"{office.db}.lock", "a") as lock:
                if status == 503:
                    fcntl.flock(lock, fcntl.LOCK_EX)
                values = [check(ask(server, ask_of_status), ask_of_status, status, response) for ask_of_status in asks]
            if status in (404, 409):
                examples = examples_of(response["content"]["application/json"])
                assert [example for example in examples if example not in [*values, LIMIT_REACHED]] == []


def test_a_full_office_refuses_an_order(office: Office) -> None:
    with contextlib.closing(sqlite3.connect(office.db)) as base, base:
        ((count,),) = base.execute("SELECT count(*) FROM orders WHERE owner = 'ACME'")
        names = [(f"N-{at}",) for at in range(2000 - count)]
        base.executemany("INSERT INTO orders VALUES ('ACME', ?, 'R', 1, 0)", names)
    asked, response = Ask("post", "/orders", new_order("O-4")), PAGE["paths"]["/orders"]["post"]["responses"]["409"]
    with office.serve() as server:
        assert check(ask(server, asked), asked, 409, resolved(response)) == LIMIT_REACHED


# Kills


class Day:
    """An owner that orders and a plant that receives until the server is killed, and what was answered so far."""

    def __init__(self, office: Office) -> None:
        self.office = office
        self.orders, self.receipts = {"O", "O-2"}, dict[str, str]()

    def order(self, server: Server, turn: int, over: threading.Event) -> None:
        for name in (f"T-{turn}-{number}" for number in range(10**9)):
            if over.is_set():
                return
            reply = ask(server, Ask("post", "/orders", new_order(name)))
            if reply and reply.status == 200:
                self.orders.add(name)

    def receive(self, turn: int, over: threading.Event) -> None:
        for key in (f"R-{turn}-{number}" for number in range(10**9)):
            if over.is_set():
                return
            if self.office.plant("receive", "ACME", key, "M", f"L-{turn}", "S", "1", "103") == ACCEPTED:
                self.receipts[key] = f"L-{turn}"
            time.sleep(0.02)

    def work_until_killed(self, turn: int, seconds: float) -> None:
        with self.office.serve() as server:
            with meanwhile(functools.partial(self.order, server, turn), functools.partial(self.receive, turn)):
                time.sleep(seconds)
                server.kill()

    def check_rows(self) -> None:
        """What was answered is in the file, as sqlite3 reads it, and then as the office does."""
        rows = content(self.office.db)
        assert isinstance(rows, dict), rows
        assert self.orders <= {row[1] for row in rows["orders"][1] if row[0] == "ACME"}
        assert set(self.receipts) <= {row[1] for row in rows["moves"][1] if row[0] == "ACME" and row[2] == 0}
        with self.office.serve() as server:
            orders, stock = (ask(server, Ask("get", path)) for path in ("/orders", "/stock"))
        assert orders and stock and self.orders <= {order["order"] for order in json.loads(orders.body)["orders"]}
        self.orders |= {order["order"] for order in json.loads(orders.body)["orders"]}
        amounts = {row["lot"]: row["amount"] for row in json.loads(stock.body)["lots"]}
        for lot in set(self.receipts.values()):
            assert amounts.get(lot, 0) >= list(self.receipts.values()).count(lot), lot


def test_what_was_answered_before_a_kill_is_there(office: Office) -> None:
    day, chance = Day(office), random.Random(1)
    for turn in range(KILLS):
        day.work_until_killed(turn, chance.uniform(0.1, 1.5))
        day.check_rows()
    assert len(day.orders) > KILLS and len(day.receipts) > KILLS


def lines_of_day(end: str) -> list[str]:
    """The lines of docs/day.toll that ask for something, or all of docs/day.out."""
    lines = (ROOT / "docs" / f"day.{end}").read_text().splitlines()
    return [line for line in lines if line and not line.startswith("#")]


def test_the_day_of_the_docs_is_printed(new: Callable[[], Office]) -> None:
    office = new()
    script = (ROOT / "docs" / "day.toll").read_bytes()
    assert office.run(["script"], stdin=script).out.splitlines() == lines_of_day("out")
    with office.serve() as server:
        printed = [
            server.ask(line).rstrip() if line.startswith("> ") else office.plant(*line.split()).out.removesuffix("\n")
            for line in lines_of_day("toll")
        ]
    assert "\n".join(printed).splitlines() == lines_of_day("out")
