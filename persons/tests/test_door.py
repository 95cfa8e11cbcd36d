"""Persons at the site, through the real nginx: what they may, and what an attacker tries: guessing, other names, removed
persons, the key, fixed sessions, smuggled fields, forged requests."""
import json
import re
import time
import types

import pytest
from conftest import OWNERS, PASSWORD, PEOPLE, ROOT, Browser, Site, hilpoven
from click.testing import CliRunner
from hilpoven.cli import caller, hilpoven as commands
from hilpoven.core import delays, roles, sessions, settings as site_settings
from hilpoven_persons import door, owner_keys, passwords, serving
from site_client import ask, at_once, sent

READING = ["/orders", "/stock", "/lots/LOT-OF-ACME", "/trace/back/LOT-OF-ACME", "/trace/forward/LOT-OF-ACME"]
NOT_ALLOWED, LOG_IN = {"error": "NotAllowed"}, {"error": "LogIn"}
KEYS = [f"{owner}KEY1".encode() for owner in OWNERS]


@pytest.fixture(autouse=True)
def no_key_leaves(site: Site):
    """Whatever a test asks for, no reply has an owner's key, nor the name of its field."""
    site.replies.clear()
    yield
    for reply in site.replies:
        text = reply.body + json.dumps(reply.fields).encode()
        assert not [key for key in KEYS if key in text] and b"toll-key" not in text.lower(), text


def own_alone(owner: str, body: bytes) -> bool:
    """Whether a body has an owner's words, and no other owner's."""
    return f"OF-{owner}".encode() in body and not [other for other in OWNERS if other != owner and f"OF-{other}".encode() in body]


# What persons may


@pytest.mark.parametrize("name", PEOPLE)
def test_a_person_reads_what_is_its_owner_s(site: Site, name: str) -> None:
    browser, owner = site.known(name), PEOPLE[name][0]
    assert browser.ask("/person/stock").status == 200 and own_alone(owner, browser.ask("/person/stock").body)
    companion = browser.ask("/person/companion")
    assert companion.status == 200 and own_alone(owner, companion.body) and companion.value()["owner"] == owner
    assert browser.status("/person/companion", if_none_match=companion.fields["etag"]) == 304


def test_the_cookie_is_the_host_s_and_no_script_s(site: Site) -> None:
    browser = site.browser()
    reply = browser.log_in("rita")
    assert reply.value() == {"owner": "ACME", "name": "rita", "role": "reads", "token": browser.token}
    attributes = set(re.split("; *", browser.set_cookie)[1:])
    assert browser.set_cookie.startswith("__Host-person=") and attributes == {"Secure", "HttpOnly", "Path=/", "SameSite=Strict"}
    assert reply.fields["cache-control"] == "no-store"


def test_a_role_has_what_those_before_it_have(site: Site) -> None:
    for name, may_order, may_release in (("rita", False, False), ("oscar", True, False), ("rosa", True, True)):
        browser = site.browser(name)
        order = {"order": f"O-{name.upper()}", "recipe": "MIX-OF-ACME", "batches": 1}
        asked = [browser.ask("/person/orders", "POST", order), browser.ask(f"/person/orders/O-{name.upper()}/cancel", "POST")]
        assert [reply.status for reply in asked] == ([200, 200] if may_order else [403, 403])
        lot = f"R-{name.upper()}"
        site.office.do(f"receive ACME K-{name.upper()} SALT-OF-ACME {lot} BAY 5 261101")
        judged = [browser.ask(f"/person/lots/{lot}/release", "POST"), browser.ask(f"/person/lots/{lot}/reject", "POST")]
        assert [reply.status for reply in judged] == ([200, 200] if may_release else [403, 403])
        refused = [reply for reply in (*asked, *judged) if reply.status == 403]
        assert [reply.value() for reply in refused] == [NOT_ALLOWED] * len(refused)


def test_the_office_s_own_refusals_come_as_they_are(site: Site) -> None:
    browser = site.known("rosa")
    for path, method in (("/orders/NONE", "GET"), ("/lots/NONE", "GET"), ("/lots/LOT-OF-BOLT", "GET"), ("/lots/LOT-OF-BOLT/release", "POST"), ("/none", "GET")):
        plain = ask(site, path, method, toll_owner="ACME", toll_key="ACMEKEY1")
        mine = browser.ask(f"/person{path}", method)
        assert (mine.status, mine.body) == (plain.status, plain.body), path


def test_the_journal_names_who_released(site: Site) -> None:
    site.office.do("receive ACME K-J1 SALT-OF-ACME J-1 BAY 5 261101\nreceive ACME K-J2 SALT-OF-ACME J-2 BAY 5 261101")
    assert site.browser("rosa").status("/person/lots/J-1/release", "POST") == 200
    assert ask(site, "/lots/J-2/release", "POST", toll_owner="ACME", toll_key="ACMEKEY1").status == 200
    assert site.browser("rita").status("/person/lots/J-1/reject", "POST") == 403
    words = ("journal", "--site-log", str(site.folder / "toll.log"), "--csv")
    lines = [line.split(",") for line in site.run(*words, "--word", "J-1").splitlines()[1:]]
    assert [(line[1], line[3], line[4]) for line in lines if "POST" in line[3]] == [("rosa of ACME", "POST /lots/J-1/release", "200")]
    lines = [line.split(",") for line in site.run(*words, "--word", "J-2").splitlines()[1:]]
    assert [(line[1], line[3], line[4]) for line in lines if "POST" in line[3]] == [("ACME", "POST /lots/J-2/release", "200")]
    assert "J-1/release" in site.run(*words, "--who", "rosa") and "J-2" not in site.run(*words, "--who", "rosa")
    assert not [line for line in site.log() if "J-1/reject" in line]
    assert "KEY1" not in "".join(site.log() + site.log("unauthenticated-toll.log"))
    assert PASSWORD.format("rosa") not in "".join(site.log() + site.log("unauthenticated-toll.log"))


def test_programs_with_keys_go_on(site: Site) -> None:
    for owner in OWNERS:
        reply = ask(site, "/stock", toll_owner=owner, toll_key=f"{owner}KEY1")
        assert reply.status == 200 and own_alone(owner, reply.body)
        assert own_alone(owner, ask(site, "/companion", toll_owner=owner, toll_key=f"{owner}KEY1").body)
    assert ask(site, "/stock", toll_owner="ACME", toll_key="BOLTKEY1", x_address="198.51.100.1").is_error(403, "Forbidden")


def test_a_key_that_is_changed_is_followed(site: Site) -> None:
    browser = site.browser("carla@carl.example")
    assert browser.status("/person/stock") == 200
    try:
        site.run("owner", "key", "CARL", stdin="CARLKEY2")
        ends = time.monotonic() + 60
        while (status := browser.status("/person/stock")) != 200 and time.monotonic() < ends:
            assert status == 503
        assert status == 200
    finally:
        site.run("owner", "key", "CARL", stdin="CARLKEY1")


def test_a_lock_that_is_taken_for_long_holds_no_person_up(site: Site) -> None:
    """As by an import, between whose groups the office answers owners."""
    other = serving.door_of(site.context)
    assert other.keys.of("ACME") == "ACMEKEY1"
    site.office.do("unit-add HELD-UP")  # so the keys are read anew
    with site.office.locked():
        time.sleep(owner_keys.PAUSE)
        begun = time.monotonic()
        assert other.keys.of("ACME") == "ACMEKEY1"
        assert time.monotonic() - begun < serving.OFFICE_PATIENCE


# Without a session


@pytest.mark.parametrize("path", [*READING, "/companion", "/orders/O-1", "/batches/O-1/1", "/none"])
def test_nobody_comes_in_without_a_session(site: Site, path: str) -> None:
    stranger, other = site.browser(), site.known("rita")
    assert stranger.ask(f"/person{path}").is_error(401, "LogIn")
    stranger.cookie = other.cookie
    assert stranger.ask(f"/person{path}").is_error(401, "LogIn")  # the cookie alone
    stranger.cookie, stranger.token = "", other.token
    assert stranger.ask(f"/person{path}").is_error(401, "LogIn")  # the token alone
    stranger.cookie, stranger.token = other.cookie, site.known("rosa").token
    assert stranger.ask(f"/person{path}").is_error(401, "LogIn")  # that of another session


@pytest.mark.parametrize("cookie", ["", "x", "A" * 43, "../../office.db", "%00", '"', "person", "=;=", "\xff"])
def test_a_session_that_was_never_begun_is_none(site: Site, cookie: str) -> None:
    """A session can't be chosen before a log-in, either: that gives a new one."""
    browser = site.browser()
    browser.cookie, browser.token = f"__Host-person={cookie}", "A" * 32
    assert browser.ask("/person/stock").is_error(401, "LogIn")
    fixed = browser.cookie
    assert browser.log_in("rita").status == 200 and browser.cookie != fixed
    browser.cookie = fixed
    assert browser.ask("/person/stock").is_error(401, "LogIn")


def test_a_log_in_ends_the_session_before_it(site: Site) -> None:
    browser = site.browser("rita")
    cookie, token = browser.cookie, browser.token
    assert browser.log_in("rosa").status == 200
    browser.cookie, browser.token = cookie, token
    assert browser.ask("/person/stock").is_error(401, "LogIn")


def test_who_logs_in_often_ends_its_own_sessions_alone(site: Site, monkeypatch: pytest.MonkeyPatch) -> None:
    """However many there may be in all: otherwise one owner's person could log all others off."""
    monkeypatch.setattr(sessions, "MOST", 30)
    persons, fresh_door = site.door.persons.now(), door.Door(site.door.persons, site.door.keys)
    other, _ = fresh_door.begin(persons["bo"])
    begun = [fresh_door.begin(persons["rita"])[0] for _ in range(40)]
    assert fresh_door.sessions.find(other)
    assert [name for name in begun if fresh_door.sessions.find(name)] == begun[-sessions.MOST_OF_LOGIN :]


def test_logging_out_ends_the_session(site: Site) -> None:
    browser = site.browser("rita")
    assert browser.ask("/person/log-out", "POST", origin="https://evil.example").status == 403
    assert browser.status("/person/stock") == 200
    assert browser.ask("/person/log-out", "POST").status == 200
    assert browser.ask("/person/stock").is_error(401, "LogIn")


def test_a_session_is_over_when_nobody_does_anything_or_after_a_shift(site: Site) -> None:
    browser = site.browser("rita")
    session = site.door.sessions.by_digest[sessions.digest_of(browser.cookie.partition("=")[2])]
    session.seen -= sessions.IDLE - 60
    assert browser.status("/person/companion") == 200  # which the page asks by itself
    session.seen -= 120
    assert browser.ask("/person/stock").is_error(401, "LogIn")
    browser = site.browser("rita")
    session = site.door.sessions.by_digest[sessions.digest_of(browser.cookie.partition("=")[2])]
    session.seen -= sessions.IDLE - 60
    assert browser.status("/person/stock") == 200  # a use
    session.seen -= 120
    session.begun -= sessions.LONGEST - 60
    assert browser.status("/person/stock") == 200
    session.begun -= 120
    assert browser.ask("/person/stock").is_error(401, "LogIn")


def test_a_stop_of_the_service_lets_nobody_in_and_is_a_fault(site: Site) -> None:
    browser = site.browser("rita")
    site.stop()
    try:
        assert browser.ask("/person/stock").is_error(503, "Unavailable")
        assert browser.log_in("rita").is_error(502, "Unavailable")
        assert ask(site, "/stock", toll_owner="ACME", toll_key="ACMEKEY1").status == 200
    finally:
        site.serve()
    assert browser.ask("/person/stock").is_error(401, "LogIn")


# Guessing


@pytest.fixture
def fresh(site: Site, monkeypatch: pytest.MonkeyPatch):
    """Nothing was guessed before, and a slow machine waits out no delay: its clock stands."""
    monkeypatch.setattr(delays, "time", types.SimpleNamespace(monotonic=lambda now=time.monotonic(): now))
    site.door.delays.tries.clear()
    yield
    site.door.delays.tries.clear()


WRONG = ["", " ", "word-of-rita-2", "WORD-OF-RITA-1", "word-of-rita-1 ", "word-of-rosa-1", "ACMEKEY1", "\0", "x" * 3000, "' OR 1=1 --", "*", "ä"]


@pytest.mark.parametrize("password", WRONG)
def test_a_wrong_password_lets_nobody_in(site: Site, fresh: None, password: str) -> None:
    browser = site.browser()
    assert browser.log_in("rita", password).is_error(401, "Wrong") and not browser.cookie


@pytest.mark.parametrize("name", ["nobody", "ACME", "Rita", "rita ", " rita", "rita\0", "HOUSE", "", "ACMEKEY1", "*", "../rita", "root", "carla", "ŕita", "\ud800"])
def test_a_name_that_is_nobody_s_is_told_as_a_wrong_password(site: Site, fresh: None, name: str) -> None:
    assert site.browser().log_in(name, PASSWORD.format("rita")).is_error(401, "Wrong")


@pytest.mark.parametrize("body", [b"", b"{", b"[]", b'"rita"', b'{"name":"rita"}', b'{"name":["rita"],"password":"word-of-rita-1"}', b'{"name":{"$ne":1},"password":{"$ne":1}}', b"name=rita&password=word-of-rita-1", b"\xff\xfe", pytest.param(b"[" * 4000, id="deep")])
def test_what_is_no_log_in_is_none(site: Site, body: bytes) -> None:
    reply = site.browser().ask("/person/log-in", "POST", body)
    assert reply.is_error(400, "BadRequest") and "set-cookie" not in reply.fields


def test_wrong_passwords_cost_time_before_anybody_looks(site: Site, fresh: None, monkeypatch: pytest.MonkeyPatch) -> None:
    browser, looked = site.browser(), []
    monkeypatch.setattr(passwords, "is_right", lambda password, secret: looked.append(password) or False)
    for _ in range(4):
        assert browser.log_in("rita", "wrong-password").status == 401
    reply = browser.log_in("rita")
    assert reply.status == 429 and reply.value()["error"] == "Wait" and 1 <= reply.value()["seconds"] <= 300
    assert len(looked) == 4
    other = site.browser()  # a name from everywhere
    for _ in range(20):
        other.address = next_address()
        status = other.log_in("rita", "wrong-password").status
    assert status == 429 and len(looked) < 12


def test_guesses_that_come_at_once_are_counted_before_the_check(site: Site, fresh: None) -> None:
    browser = site.browser()
    statuses = [reply.status for reply in at_once(lambda _: browser.log_in("rosa", "wrong-password"), 12)]
    assert statuses.count(401) <= delays.FREE["login and address"] + 1 and set(statuses) <= {401, 429, 503}


def test_an_unknown_name_takes_as_long(site: Site, fresh: None) -> None:
    """By processor time, since others work on the machine: of each the least of some."""

    def least(name: str) -> float:
        times = []
        for _ in range(4):
            begun = time.process_time()
            assert site.door.has_password(name, "wrong-password") is None
            times.append(time.process_time() - begun)
        return min(times)

    known, unknown = least("rita"), least("nobody")
    assert 0.5 < known / unknown < 2 and min(known, unknown) > 0.01


def next_address() -> str:
    """An address that no browser had."""
    number = next(Browser.addresses)
    return f"203.0.{number // 250}.{number % 250 + 1}"


# Persons that are no longer what they were


def test_a_removed_person_is_out_at_the_next_request(site: Site) -> None:
    site.run("person", "add", "ACME", "temp", "--role", "releases", stdin=PASSWORD.format("temp"))
    browser = site.browser("temp")
    assert browser.status("/person/stock") == 200
    site.run("person", "remove", "temp")
    assert browser.ask("/person/stock").is_error(401, "LogIn")
    assert browser.log_in("temp").is_error(401, "Wrong")
    site.run("person", "add", "BOLT", "temp", "--role", "reads", stdin="another-word")  # the same name, of another owner
    assert browser.ask("/person/stock").is_error(401, "LogIn")
    site.run("person", "remove", "temp")


def test_another_password_or_role_counts_at_the_next_request(site: Site) -> None:
    site.run("person", "add", "ACME", "tom", "--role", "releases", stdin=PASSWORD.format("tom"))
    browser = site.browser("tom")
    site.run("person", "role", "tom", "reads")
    assert browser.ask("/person/lots/LOT-OF-ACME/release", "POST").is_error(403, "NotAllowed")
    assert browser.status("/person/stock") == 200
    site.run("person", "password", "tom", stdin="another-word")
    assert browser.ask("/person/stock").is_error(401, "LogIn")
    assert browser.log_in("tom").status == 401 and browser.log_in("tom", "another-word").status == 200
    site.run("person", "remove", "tom")


def test_a_file_of_persons_that_can_t_be_read_lets_nobody_in(site: Site) -> None:
    browser, path = site.browser("rita"), site.beside("persons")
    content = path.read_bytes()
    for bad in (b"", b"{", b"[]", content.replace(b'"form": 1', b'"form": 9'), content.replace(b'"reads"', b'"rules"'), content.replace(b'"ACME"', b'"acme"')):
        path.write_bytes(bad)
        assert browser.ask("/person/stock").is_error(503, "Unavailable"), bad
        assert browser.log_in("rita").is_error(503, "Unavailable")
    path.write_bytes(content)
    assert browser.status("/person/stock") == 200


# The key, and fields that a browser sends

ASKED = """/person/key /person/who /who /.person /person/.person /.no-person /person/log-in/who /person/owners /key /office.db.persons
    /person/ /person /person// /person/stock/ /person/%73tock%00 /person/stock%0d%0atoll-key /person/../.person
    /person/%2e%2e/.person /person/..%2f.person /person/lots/..%2f..%2fkey""".split()


@pytest.mark.parametrize("path", ASKED)
def test_no_path_gives_a_key(site: Site, path: str) -> None:
    reply = site.known("rosa").ask(path)
    assert reply.status in (302, 400, 403, 404), (path, reply.status, reply.body)


SMUGGLED = [
    {"toll-owner": "BOLT"}, {"toll-owner": "BOLT", "toll-key": "BOLTKEY1"}, {"toll-key": "BOLTKEY1"}, {"TOLL-OWNER": "BOLT"},
    {"toll_owner": "BOLT", "toll_key": "BOLTKEY1"}, {"connection": "toll-owner, toll-key", "toll-owner": "BOLT"},
    {"toll-person": "bo"}, {"toll-method": "GET", "toll-path": "/stock"}, {"toll-host": "evil.example"}, {"toll-address": "192.0.2.1"},
    {"x-original-uri": "/stock"}, {"x-original-method": "GET"}, {"x-http-method-override": "GET"}, {"x-rewrite-url": "/lots/LOT-OF-BOLT"},
    {"x-forwarded-host": "evil.example"}, {"forwarded": "host=evil.example"}, {"authorization": "Basic Ym86d29yZA=="},
]


@pytest.mark.parametrize("fields", SMUGGLED, ids=lambda fields: next(iter(fields)))
def test_fields_of_the_browser_s_reach_nobody(site: Site, fields: dict[str, str]) -> None:
    browser = site.known("rita")
    reply = browser.ask("/person/stock", **fields)
    assert reply.status == 200 and own_alone("ACME", reply.body)
    assert browser.ask("/person/lots/LOT-OF-ACME/release", "POST", **fields).is_error(403, "NotAllowed")
    assert browser.ask("/person/lots/LOT-OF-BOLT", **fields).status == 404
    assert own_alone("ACME", browser.ask("/person/companion", **fields).body)
    assert site.browser().ask("/person/stock", **{**fields, "cookie": None}).is_error(401, "LogIn")


TWICE = """toll-owner: BOLT|toll-key: BOLTKEY1
toll-owner: BOLT|toll-owner: ACME|toll-key: BOLTKEY1
Toll-Owner:BOLT|Toll-Key:BOLTKEY1
toll-owner : BOLT
x: y| toll-owner: BOLT
Content-Length: 0|Transfer-Encoding: chunked
Transfer-Encoding: chunked|Transfer-Encoding: identity
Content-Length: 5|Content-Length: 50
Upgrade: websocket|Connection: upgrade
Expect: 100-continue
Cookie: __Host-person=x""".splitlines()


@pytest.mark.parametrize("lines", TWICE)
@pytest.mark.parametrize("line", ["GET /person/stock HTTP/1.1", "POST /person/lots/LOT-OF-ACME/release HTTP/1.1", "GET https://localhost/person/stock HTTP/1.1", "GET /person/stock HTTP/1.0"])
def test_bytes_that_two_readers_take_differently_reach_no_other_s_rows(site: Site, line: str, lines: str) -> None:
    browser = site.known("rita")
    own = [f"Host: {site.host}", f"Cookie: {browser.cookie}", f"toll-token: {browser.token}", f"Origin: {site.origin}", f"x-address: {browser.address}", "Connection: close"]
    reply, _ = sent(site, line, *own, *lines.split("|"))
    assert b"OF-BOLT" not in reply and b"KEY1" not in reply and b"toll-key" not in reply.lower()
    assert not line.startswith("POST") or not reply.startswith(b"HTTP/1.1 200")


METHODS = ["HEAD", "PUT", "DELETE", "PATCH", "OPTIONS", "TRACE", "PROPFIND", "get", "Post", "CONNECT"]


@pytest.mark.parametrize("method", METHODS)
def test_other_methods_are_nobody_s(site: Site, method: str) -> None:
    for name in ("rita", "rosa"):
        reply = site.known(name).ask("/person/lots/LOT-OF-ACME/release" if method != "HEAD" else "/person/stock", method)
        assert reply.status in (400, 403, 404, 405), (method, reply.status)


UNROLED = """/lots/LOT-OF-ACME/release/x /lots/LOT-OF-ACME/Release /lots//LOT-OF-ACME/release /LOTS/LOT-OF-ACME/release /stock
    /companion /trace/back/LOT-OF-ACME /orders/O-1 /orders/O-1/cancel/x /lots/LOT-OF-ACME /lots/LOT-OF-ACME/release?x=/orders
    /lots/./LOT-OF-ACME/release /orders/../lots/LOT-OF-ACME/release /lots/LOT-OF-ACME/%72elease /owner-add""".split()


@pytest.mark.parametrize("path", UNROLED)
def test_a_path_that_is_written_otherwise_gives_no_right(site: Site, path: str) -> None:
    """Who may order releases nothing, however the path is written: what is judged is what the office is asked."""
    reply = site.known("oscar").ask(f"/person{path}", "POST")
    assert reply.status in (400, 403, 404, 405) and (reply.status != 403 or reply.value() == NOT_ALLOWED)
    stock = ask(site, "/lots/LOT-OF-ACME", toll_owner="ACME", toll_key="ACMEKEY1")
    assert stock.value()["disposition"] == "quarantined"


# Forged requests

FOREIGN: list[dict[str, str | None]] = [
    {"origin": "https://evil.example"}, {"origin": "null"}, {"origin": None}, {"origin": "http://{host}"}, {"origin": "https://{host}.evil.example"},
    {"origin": "https://localhost"}, {"origin": "https://evil.{host}"}, {"sec-fetch-site": "cross-site"}, {"sec-fetch-site": "same-site"},
    {"toll-token": None}, {"origin": "https://evil.example", "host": "evil.example"},
]


@pytest.mark.parametrize("fields", FOREIGN, ids=str)
def test_another_site_can_t_ask_in_a_person_s_name(site: Site, fields: dict[str, str | None]) -> None:
    browser = site.known("rosa")
    filled = {name: value and value.replace("{host}", site.host) for name, value in fields.items()}
    order = {"order": "O-FORGED", "recipe": "MIX-OF-ACME", "batches": 1}
    for path, body in (("/person/orders", order), ("/person/lots/LOT-OF-ACME/release", None)):
        assert browser.status(path, "POST", body, **filled) in (401, 403, 421)
    assert browser.status("/person/log-out", "POST", **filled) in (403, 421) or "toll-token" in fields
    assert ask(site, "/orders/O-FORGED", toll_owner="ACME", toll_key="ACMEKEY1").status == 404
    stranger = site.browser()
    assert stranger.log_in("rosa", **filled).status in (403, 421) or "toll-token" in fields


# The command and its file


def test_the_file_is_the_office_s_user_s_alone_and_has_no_password(site: Site) -> None:
    path = site.beside("persons")
    assert path.stat().st_mode & 0o777 == 0o600
    text = path.read_text()
    assert not [name for name in PEOPLE if PASSWORD.format(name) in text] and not [key for key in KEYS if key.decode() in text]
    assert len({secret for secret in re.findall(r'"secret": "([^"]+)"', text)}) == len(PEOPLE)


WRONG_WORDS = [
    ("add", "NONE", "x", "--role", "reads"), ("add", "HOUSE", "x", "--role", "reads"), ("add", "acme", "x", "--role", "reads"), ("add", "ACME", "rita", "--role", "reads"),
    ("add", "BOLT", "rita", "--role", "releases"), ("add", "ACME", "X", "--role", "reads"), ("add", "ACME", "a b", "--role", "reads"),
    ("add", "ACME", "a\nb", "--role", "reads"), ("add", "ACME", "../x", "--role", "reads"), ("add", "ACME", "x", "--role", "rules"),
    ("add", "ACME", "x"), ("add", "ACME", "x", "--role", "reads", "--mail", "-oQ/tmp@x"), ("add", "ACME", "x", "--role", "reads", "--mail", "a@b\nBcc: c@d"),
    ("add", "ACME", "x", "--role", "reads", "--mail", "a@b,c@d"), ("add", "ACME", "x" * 65, "--role", "reads"), ("remove", "nobody"), ("role", "nobody", "reads"),
    ("role", "rita", "all"), ("password", "nobody"), ("remove", "../rita"),
]


@pytest.mark.parametrize("words", WRONG_WORDS, ids=lambda words: " ".join(words)[:40])
def test_what_can_t_be_meant_changes_nothing(site: Site, words: tuple[str, ...]) -> None:
    before = site.beside("persons").read_bytes()
    result = hilpoven(site.office.db, "person", *words)
    assert result.status in (1, 2) and result.err.startswith(("hilpoven: ", "Usage: ")) and not result.out
    assert site.beside("persons").read_bytes() == before


def test_a_member_without_the_role_of_keys_changes_no_person(site: Site, tmp_path, monkeypatch: pytest.MonkeyPatch) -> None:
    settings = tmp_path / "hilpoven.toml"
    settings.write_text(f'file = "{site.office.db}"\ntoll = "{site.office.program}"\n[roles]\nkeys = ["man"]\n')
    monkeypatch.setattr(site_settings.load, "__defaults__", (settings, "", ""))
    monkeypatch.setattr(caller, "STARTED_AS", 4242)
    before = site.beside("persons").read_bytes()

    def by_daemon(*words: str) -> tuple[int, str]:
        done = CliRunner(mix_stderr=False, env={"SUDO_UID": "1", "SUDO_USER": "anna"}).invoke(commands, ["person", *words], input="")
        return done.exit_code, done.stderr

    names = {name.partition(" ")[2] for name in roles.ROLES if name.startswith("person ")}
    assert names == {"add", "role", "password", "mail", "remove"} and set(commands.commands["person"].commands) == names | {"list", "serve"}
    for words in (("add", "ACME", "x", "--role", "reads"), ("role", "rita", "releases"), ("password", "rita"), ("mail", "rita", "x@y.example"), ("remove", "rita")):
        status, error = by_daemon(*words)
        assert status == 2 and "is for the members of man alone, by the role keys of the settings" in error, words
    status, error = by_daemon("serve", "--socket", str(tmp_path / "socket"))
    assert status == 2 and not (tmp_path / "socket").exists()
    assert site.beside("persons").read_bytes() == before


@pytest.mark.parametrize("password", ["short", "x" * 129, "two\nlines-of-it", "bell\x07-in-it-is"])
def test_a_password_that_is_none_is_refused_and_never_told(site: Site, password: str) -> None:
    result = hilpoven(site.office.db, "person", "add", "ACME", "new", "--role", "reads", stdin=password)
    assert result.status == 2 and password not in result.err and password not in result.out


def test_a_password_is_printed_once_and_in_no_journal(site: Site) -> None:
    out = site.run("person", "add", "ACME", "once", "--role", "reads")
    (password,) = re.findall("^password ([A-Za-z0-9]{20})$", out, re.M)
    assert site.browser().log_in("once", password).status == 200
    journal = site.beside("journal").read_text()
    assert password not in journal and '"person", "add", "ACME", "once", "reads"' in journal
    site.run("person", "remove", "once")


def test_a_link_in_the_file_s_place_is_not_followed(site: Site, tmp_path) -> None:
    path = site.beside("persons")
    kept = path.read_bytes()
    path.unlink()
    path.symlink_to(tmp_path / "elsewhere")
    (tmp_path / "elsewhere").write_bytes(kept)
    try:
        assert hilpoven(site.office.db, "person", "list").status != 0
        assert site.browser().log_in("rita").is_error(503, "Unavailable")
    finally:
        path.unlink()
        path.write_bytes(kept)
        path.chmod(0o600)


def test_many_changes_at_once_lose_none(site: Site) -> None:
    names = [f"many-{number}" for number in range(6)]
    at_once(lambda number: site.run("person", "add", "ACME", names[number], "--role", "reads"), len(names))
    assert set(names) <= set(re.findall(r"many-\d", site.run("person", "list", "ACME")))
    for name in names:
        site.run("person", "remove", name)


def test_the_unit_may_do_what_the_service_needs() -> None:
    unit = (ROOT / "packaging" / "persons" / "toll-persons@.service").read_text()
    assert "User=toll\n" in unit and "Group=www-data\n" in unit and "RuntimeDirectoryMode=2710" in unit
    served = (ROOT / "packaging" / "persons" / "nginx.conf").read_text()
    assert "unix:/run/toll-persons/NAME/socket:" in served and "--socket /run/toll-persons/%i/socket" in unit
    assert door.COOKIE.startswith("__Host-")
