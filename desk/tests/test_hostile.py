"""Hostile requests through the real nginx, by the shipped site: none records anything, and none makes a fault."""
import contextlib
import random
import re
import socket
import ssl
import time
import urllib.parse
from collections.abc import Callable, Iterator
from dataclasses import dataclass, field

import proxied
import pytest
from conftest import PERSONS, text_of
from hilpoven_desk.app import application
from proxied import HOST, Client
from test_attacks import FORMS

place = proxied.place  # the fixture

PATIENCE = 60  # seconds
SLOW = 1.0  # seconds that a wrong password takes
FORM = "application/x-www-form-urlencoded"
# Words that no name, amount or day is, and that no text may have.
NO_NAMES = ["<script>alert(1)</script>", "\"><img src=x onerror=alert(1)>", "{{ 7 * 7 }}", "${7*7}", "%s%n%x", "'; DROP TABLE lots; --", "' OR 1=1 --", "../../etc/passwd",
            "|id", "$(id)", "`id`", "--help", "-1", "1e9", "٣", "½", "ﬀ", "S\u20101", "\ud7ff", "a b", "A/B", "=1+1", "@SUM(A1)", "\\", "'", '"', "&", ";", "#", "%"]
NO_TEXTS = ["\u202egnp", "a\r\nSet-Cookie: x=1", "a\nb", "\x1b[31m", "a\0b", "\u2066x", "\x7f", "\u200fx", "x" * 201, "\t", "\x85", "\u2028x"]
TEXTS = ("document", "supplier_lot", "reason")
RAW = ["%FF%FE", "%C0%AF", "%ED%A0%80", "%", "%zz", "%00", "%F5%80%80%80", "%E2%80"]  # that are no UTF-8, or no letters of an address


@dataclass
class Sent:
    """A request as it is sent: its line, its fields and its body."""

    path: str
    fields: list[tuple[str, str]]
    headers: list[tuple[str, str]]
    method: str = "POST"
    body: bytes | None = None

    def content(self) -> bytes:
        """Its bytes."""
        body = urllib.parse.urlencode(self.fields, errors="surrogatepass").encode() if self.body is None else self.body
        named = {name.lower() for name, _ in self.headers}
        own = [("Connection", "close")] * ("connection" not in named) + [("Content-Length", str(len(body)))] * ("content-length" not in named)
        head = "".join(f"{name}: {word}\r\n" for name, word in [*self.headers, *own])
        return f"{self.method} {self.path} HTTP/1.1\r\n{head}\r\n".encode("latin-1", "replace") + body


@dataclass
class Stranger:
    """Sends what no browser sends, with sessions of persons, and notes what comes back."""

    place: proxied.Place
    rng: random.Random
    people: dict[str, Client] = field(default_factory=dict)
    tokens: dict[str, str] = field(default_factory=dict)
    stolen: str = ""  # the cookie of a session that has ended

    def __post_init__(self) -> None:
        for login in ("anna", "quinn", "frida", "nora"):
            self.people[login] = Client(self.place, login)
            page = self.people[login].ask("GET", "/recall")
            self.tokens[login] = re.search(r'name="token" value="([^"]+)"', page)[1]
        ended = Client(self.place, "frida")
        token = re.search(r'name="token" value="([^"]+)"', ended.ask("GET", "/recall"))[1]
        self.stolen = ended.cookie
        ended.ask("POST", "/logout", {"token": token})

    def asks(self, content: bytes) -> tuple[int, str]:
        """The status and the whole answer of a request; 0 where the connection ends without one. Who asks too often waits."""
        context = ssl._create_unverified_context()
        for _ in range(600):
            answer = b""
            with contextlib.suppress(OSError), socket.create_connection(("127.0.0.1", self.place.port), PATIENCE) as plain:
                with context.wrap_socket(plain, server_hostname=HOST) as peer:
                    with contextlib.suppress(OSError):
                        peer.sendall(content)
                    while piece := peer.recv(65_536):
                        answer += piece
            status = int(answer[9:12]) if answer.startswith(b"HTTP/1.") else 0
            if status != 503 or b"Retry-After: 5" not in answer:
                return status, answer.decode(errors="replace")
            time.sleep(0.1)
        raise AssertionError("nginx lets nothing through")

    def form(self, login: str, path: str, fields: dict[str, str]) -> Sent:
        """A form of a person that nothing speaks against but its person's roles."""
        headers = [("Host", f"{HOST}:{self.place.port}"), ("Origin", self.place.origin), ("Content-Type", FORM), ("Cookie", self.people[login].cookie)]
        return Sent(path, [("token", self.tokens[login]), ("slip", str(self.rng.random())), *fields.items()], headers)


def put(headers: list[tuple[str, str]], name: str, *words: str) -> list[tuple[str, str]]:
    """Header fields with these in place of one."""
    return [(each, word) for each, word in headers if each != name] + [(name, word) for word in words]


# Each attack makes a request of a form that would be recorded otherwise.


def forged_token(who: Stranger, sent: Sent) -> None:
    token = who.rng.choice(["", "x", "x" * 32, who.tokens["nora"], who.tokens["frida"][:-1], who.tokens["frida"] + " ", who.tokens["frida"].swapcase(), "\u202e", "\0"])
    sent.fields = [(name, word) for name, word in sent.fields if name != "token"] + [("token", token)] * who.rng.randrange(3)


def other_origin(who: Stranger, sent: Sent) -> None:
    own = who.place.origin
    words = ["https://evil.example", "null", "", own.replace("https", "http"), f"{own}.evil.example", f"https://{HOST}", f"{own}/", f"{own}, {own}", own.upper(), f"evil.example {own}"]
    sent.headers = put(sent.headers, "Origin", *who.rng.choice([[], [who.rng.choice(words)], ["https://evil.example", own], [own, own]]))


def other_host(who: Stranger, sent: Sent) -> None:
    own = f"{HOST}:{who.place.port}"
    words = ["evil.example", "localhost", "", HOST, f"{own}.", f"{own}@evil.example", f"evil.example:{who.place.port}", "127.0.0.1", f"{own}/x", f"{own}\t.evil"]
    kind = who.rng.randrange(3)
    if kind == 0:
        sent.headers = put(sent.headers, "Host", who.rng.choice(words))
    elif kind == 1:
        sent.headers = put(sent.headers, "Host", own, who.rng.choice(words))
    else:
        sent.path = f"https://evil.example{sent.path}"
        sent.headers = put(sent.headers, "Host", "evil.example")


def other_cookie(who: Stranger, sent: Sent) -> None:
    mine = who.people["frida"].cookie
    words = ["", who.stolen, "__Host-desk=fixed", f"__Host-desk={'x' * 3_000}", mine[:-1], mine.replace("__Host-", ""), mine.swapcase(), mine.replace("=", "=%20"), f'{mine}"', "__Host-desk=", "__Host-desk=\xff",
             f"__Host-desk=fixed; {mine.replace('__Host-desk', '__Host-Desk')}", f"x={mine.partition('=')[2]}", who.people["nora"].cookie]
    sent.headers = put(sent.headers, "Cookie", who.rng.choice(words))


def header_tricks(who: Stranger, sent: Sent) -> None:
    """Header fields that say who asks, or take some away, beside a forged token or a session that has ended."""
    tricks = [("X-Forwarded-For", "10.0.0.1"), ("X-Forwarded-Host", "evil.example"), ("X-Real-IP", "::1"), ("Forwarded", "for=127.0.0.1;host=evil.example"), ("X-Forwarded-User", "frida"), ("Remote-User", "frida"),
              ("Authorization", "Basic ZnJpZGE6eA=="), ("X-Original-URL", "/"), ("X-Rewrite-URL", "/logout"), ("X-HTTP-Method-Override", "GET"), ("Via", "1.1 x"), ("X_Forwarded_For", "x"), ("Transfer-Encoding", "identity")]
    sent.headers = [*put(sent.headers, "Connection", who.rng.choice(["close, Cookie", "close, Origin", "close, Host", "close, X-Forwarded-For", "close"])), *who.rng.sample(tricks, 4)]
    who.rng.choice([forged_token, other_cookie, other_origin])(who, sent)


def smuggled(who: Stranger, sent: Sent) -> None:
    """A second request behind the first one, whose lengths contradict each other."""
    inner = who.form("frida", sent.path, dict(sent.fields)).content()
    sent.headers += who.rng.choice([[("Transfer-Encoding", "chunked"), ("Content-Length", "5")], [("Content-Length", "0"), ("Content-Length", str(len(inner)))], [("Transfer-Encoding", "xchunked"), ("Content-Length", "0")],
                                    [("Transfer-Encoding", "chunked"), ("Transfer-Encoding", "x"), ("Content-Length", "5")], [("Content-Length", "-1")], [("Content-Length", "0x5")]])
    sent.fields, sent.body = [], b"0\r\n\r\n" + inner.replace(who.tokens["frida"].encode(), b"forged")


def no_form(who: Stranger, sent: Sent) -> None:
    """A body that is no form of a browser."""
    kind = who.rng.choice(["application/json", "text/plain", "multipart/form-data", "multipart/form-data; boundary=", "multipart/form-data; boundary=x", f"{FORM}; charset=utf-7", "", "application/xml", f"{FORM}; charset=none"])
    sent.headers = put(sent.headers, "Content-Type", kind)
    if kind.startswith(FORM):
        forged_token(who, sent)
    elif who.rng.random() < 0.5:
        sent.body = b"--x\r\nContent-Disposition: form-data; name=\"token\"\r\n\r\nx\r\n--x--" + bytes(who.rng.randrange(256) for _ in range(200))


def large(who: Stranger, sent: Sent) -> None:
    """More than a form has."""
    name = who.rng.choice([name for name, _ in sent.fields if name not in ("token", "slip")])
    sent.fields += who.rng.choice([[(name, "x" * 1_000_000)], [("x" * 300_000, "1")], [(f"f{number}", "1") for number in range(40_000)]])


def hostile_words(who: Stranger, sent: Sent) -> None:
    """A word that can't be recorded in a field."""
    names = [name for name, _ in sent.fields if name in ("lot", "sublot", "amount", "day", "key", "owner", "target", "unit", "value", "test", "scan", "segment", "command")]
    texts = [name for name, _ in sent.fields if name in TEXTS]
    name = who.rng.choice(names + texts)
    word = who.rng.choice([word for word in NO_TEXTS if word.strip()] if name in texts else NO_NAMES + NO_TEXTS)
    sent.fields = [(each, word if each == name else before) for each, before in sent.fields]


def odd_letters(who: Stranger, sent: Sent) -> None:
    """Bytes that are no UTF-8, and names of lists in place of names."""
    names = [name for name, _ in sent.fields if name in ("lot", "sublot", "amount", "key", "scan", "unit", "value", "command", "target")] or ["what"]
    name, word = who.rng.choice(names), who.rng.choice(RAW)
    others = urllib.parse.urlencode([(each, before) for each, before in sent.fields if each != name])
    odd = who.rng.choice([f"{name}={word}", f"{name}[]=x", f"{name}[0]=x", f"{name}.x=1", f"{name}%00=x", f"{name}={word}&{name}=x", f"__proto__[{name}]=x", name])
    sent.body = f"{others}&{odd}".encode()


def odd_method(who: Stranger, sent: Sent) -> None:
    """Another method, or an address that leads elsewhere."""
    if who.rng.random() < 0.5:
        sent.method = who.rng.choice(["PUT", "DELETE", "PATCH", "TRACE", "CONNECT", "OPTIONS", "post", "PROPFIND", "HEAD", "GET", "X" * 50])
    else:
        sent.path = who.rng.choice(["//evil.example", "/%2e%2e/etc/passwd", "/static/../../app.py", "/static/%2e%2e/app.py", "/static/..%2fapp.py", "/.away", "/lot/%00/x", "/lot/ACME/%FF", "/lot/ACME/%2e%2e", "/batch/ACME/O-1/-1",
                                    "/batch/ACME/O-1/99999999999", "/lot/ACME/" + "x" * 3_000, "/order/ACME/" + "%F0%9F%92%A9", "/papers/lot/ACME/x%0d%0aSet-Cookie:%20x=1", "*", "/lot/ACME/S-1;x", "/receive\\..\\x"])


def wrong_role(who: Stranger, sent: Sent) -> None:
    """The form of somebody who has no role for it."""
    sent.headers = put(sent.headers, "Cookie", who.people["nora"].cookie)
    sent.fields = [(name, who.tokens["nora"] if name == "token" else word) for name, word in sent.fields]


def no_password(who: Stranger, sent: Sent) -> None:
    """A signature with another's password, or none."""
    sent.path = "/lot/BOLT/P-1"
    fields = {"what": "sign", "password": who.rng.choice(["", "wrong", "\0", "x" * 600, PERSONS["anna"][0], "' OR 1=1 --", "\u202e"]), "seen": "x" * 20}
    sent.fields = [("token", who.tokens["frida"]), ("slip", str(who.rng.random())), *fields.items()]


def guesses(who: Stranger, sent: Sent) -> None:
    """A log-in with a wrong password, from an address that is forged."""
    login = who.rng.choice(["frida", "root", "nobody", "frida\0", "x" * 70, "", "../frida", "frida ", "FRIDA", "\u202efrida"])
    sent.path, sent.fields = "/login", [("login", login), ("password", who.rng.choice(["wrong", "", "x" * 600, "\0"])), ("to", "//evil.example")]
    sent.headers = [*put(sent.headers, "Cookie"), ("X-Forwarded-For", f"10.0.{who.rng.randrange(250)}.1"), ("X-Real-IP", "10.1.1.1")]


ATTACKS: list[Callable[[Stranger, Sent], None]] = [forged_token, other_origin, other_host, other_cookie, header_tricks, smuggled, no_form, large, hostile_words, odd_letters, odd_method, wrong_role, no_password, guesses]
# What a form may be answered: that it is wrong, that somebody has to log in, or that it isn't allowed. 0 is a connection that ends.
REFUSED = {0, 400, 401, 403, 404, 405, 408, 409, 411, 413, 414, 415, 421, 422, 501}


def hostile_forms(who: Stranger, count: int) -> Iterator[tuple[str, bytes]]:
    """So many hostile requests, each with what it tries."""
    for number in range(count):
        path, fields, _ = who.rng.choice(FORMS)
        sent, attack = who.form("frida", path, fields), ATTACKS[number % len(ATTACKS)]
        attack(who, sent)
        yield attack.__name__, sent.content()


@pytest.mark.parametrize("count", [42, pytest.param(1_000, marks=pytest.mark.long)])
def test_hostile_forms_record_nothing(place, office, count):
    who, statuses = Stranger(place, random.Random(86)), dict[str, set[int]]()
    before, lines = office.content(), len(office.lines())
    for attack, content in hostile_forms(who, count):
        status, answer = who.asks(content)
        is_page_alone = status == 200 and 'role="status"' not in answer  # no notice that something was recorded
        assert status in REFUSED or is_page_alone, (attack, content[:400], answer[:2_000])
        assert "Traceback" not in answer and "<script>alert" not in answer and "<img src=x" not in answer, (attack, content[:400])
        head, _, page = answer.partition("\r\n\r\n")
        assert "set-cookie" not in head.lower() and "evil.example" not in head + text_of(page), (attack, answer[:2_000])
        statuses.setdefault(attack, set()).add(status)
    print({attack: sorted(codes) for attack, codes in statuses.items()})
    assert office.content() == before
    accepted = [line for line in office.lines()[lines:] if line.get("answer") in ("accepted\n", "repeated\n")]
    assert not accepted
    anna = Client(place)  # the screens serve on, and the sessions are whose they were
    for login, client in who.people.items():
        assert PERSONS[login][1] in text_of(client.ask("GET", "/recall")) or PERSONS[login][1] in client.page, login
    assert anna.ask("GET", "/login") and anna.status == 200


# Each address with a path of it, and its form by the role that it is of; a form of no role changes nothing of the office.
ADDRESSES = {
    "/static/<path:filename>": "/static/desk.css", "/login": "/login", "/logout": "/logout", "/language": "/language", "/": "/", "/find": "/find?q=S-1", "/recall": "/recall?q=S-1", "/receive": "/receive?owner=ACME&material=SALT",
    "/ship": "/ship?scan=ACME/S-1/BAY1", "/count": "/count?owner=ACME", "/order/<owner>/<order>": "/order/ACME/O-1", "/batch/<owner>/<order>/<int(max=99):number>": "/batch/ACME/O-1/1",
    "/lot/<owner>/<name>": "/lot/ACME/S-1", "/cases": "/cases", "/case": "/case", "/case/<number>": "/case/C-1", "/papers/lot/<owner>/<name>": "/papers/lot/ACME/S-1", "/papers/batch/<owner>/<order>/<int(max=99):number>": "/papers/batch/ACME/O-1/1",
}
OF_ROLES = {"record": {"anna", "frida"}, "quality": {"quinn", "frida"}, "quality or record": {"anna", "quinn", "frida"}}
OTHERS = [("/lot/ACME/S-1", {"what": "sign", "password": "x"}, "quality"), ("/lot/HOUSE/W-101", {"what": "release"}, "quality"), ("/batch/ACME/O-1/1", {"what": "close"}, "record"),
          ("/batch/ACME/O-1/1", {"what": "produce", "material": "BRINE", "segment": "2", "key": "K90", "lot": "B-1", "sublot": "TOTE1", "amount": "5", "day": "103"}, "record"),
          ("/case", {"owner": "ACME", "lot": "S-1", "reason": "x"}, "quality or record"), ("/case/C-1", {"what": "hold"}, "quality or record"), ("/case/C-1", {"what": "close", "reason": "x"}, "quality or record"),
          ("/count", {"owner": "ACME", "lot": "S-1", "sublot": "BAY1", "on_hand": "4700", "counted": "4690", "reason": "x", "meant": "yes"}, "record")]
ENTRANCE = {"/login", "/static/desk.css"}


def test_each_address_is_for_those_of_its_role(place, office, desk):
    rules = {rule.rule: rule.methods & {"GET", "POST"} for rule in application(desk).url_map.iter_rules()}
    assert set(rules) == set(ADDRESSES)
    assert office.run("case", "open", "ACME", "S-1", "--reason", "metal in bag 3").status == 0
    who, stranger, before = Stranger(place, random.Random(1)), Client(place), office.content()
    for rule, methods in rules.items():
        path = ADDRESSES[rule]
        if "GET" in methods and path not in ENTRANCE:
            page = stranger.ask("GET", path)
            assert "Log in" in text_of(page) and "SALT" not in text_of(page).replace("material=SALT", "") and "KETTLE" not in page, path
            for login, client in who.people.items():
                client.ask("GET", path)
                assert client.status in (200, 303), (login, path)
        if "POST" in methods and path not in ("/login", "/language"):
            stranger.ask("POST", path.partition("?")[0], {"token": who.tokens["frida"]})
            assert stranger.status == 401, path
    for path, fields, role in [*FORMS, *OTHERS]:
        for login in set(who.people) - OF_ROLES[role]:
            page = who.people[login].ask("POST", path, {"token": who.tokens[login], "slip": "x", **fields})
            assert who.people[login].status in (400, 409) and "Recorded." not in text_of(page), (login, path, fields, text_of(page))
            if who.people[login].status == 409 and fields.get("what") != "sign":
                assert any(why in text_of(page) for why in ("by the role", "changed since")), (login, path, fields, text_of(page))
    assert office.content() == before


def test_a_guess_is_slow_and_a_forged_address_evades_no_delay(place):
    Client(place).until(200, "GET", "/login")
    begun, pages = time.monotonic(), list[str]()
    for guess in range(5):
        client = Client(place)
        pages.append(text_of(client.ask("POST", "/login", {"login": "frida", "password": f"guess {guess}"}, **{"X-Forwarded-For": f"10.0.0.{guess}", "X-Real-IP": f"10.0.1.{guess}", "Forwarded": f"for=10.0.2.{guess}"})))
        assert client.status == 401 and not client.cookie
    slow = [text for text in pages if "The name or the password is wrong." in text]
    assert time.monotonic() - begun >= SLOW * len(slow) and "Try again in" in pages[-1] and len(slow) < 5, pages


def test_nobody_becomes_another_one(place):
    """A second person at the same browser, and one whose browser has the cookie or the token of another one's."""
    anna, quinn = Client(place, "anna"), Client(place, "quinn")
    token = {login: re.search(r'name="token" value="([^"]+)"', client.ask("GET", "/recall"))[1] for login, client in (("anna", anna), ("quinn", quinn))}
    reject = {"what": "reject", "reason": "metal"}
    anna.ask("POST", "/lot/HOUSE/W-101", {**reject, "token": token["quinn"]})
    assert anna.status == 403
    shared = Client(place)
    shared.cookie = anna.cookie
    shared.ask("POST", "/login", {"login": "quinn", "password": PERSONS["quinn"][0], "token": token["anna"]})
    assert shared.status == 303 and shared.cookie != anna.cookie
    assert "Quinn" in shared.ask("GET", "/recall") and "Anna" not in shared.page
    assert "Log in" in text_of(anna.ask("GET", "/recall"))  # the browser's earlier session has ended
    form = {"token": token["anna"], "slip": "x", "owner": "ACME", "key": "K90", "material": "SALT", "lot": "S-9", "sublot": "BAY1", "amount": "5000", "day": "103"}
    shared.ask("POST", "/receive", form)
    assert shared.status == 403  # the form of the one before isn't sent in the name of the next one
