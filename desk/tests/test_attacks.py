"""What an attacker tries: forged forms, other hosts, stolen and fixed sessions, guessing, addresses without a role, hostile texts."""
import html
import re
import time

import pytest
from conftest import HIDDEN, ORIGIN, PERSONS
from hilpoven.core import delays, sessions
from hilpoven_desk import web
from hilpoven_desk.accounts import DeskPerson, SampleAccounts, Unavailable

# The addresses of forms, each with the role that it is of, or either of two.
FORMS = [
    ("/receive", {"owner": "ACME", "key": "K90", "material": "SALT", "lot": "S-9", "sublot": "BAY1", "amount": "5", "day": "103"}, "record"),
    ("/ship", {"scan": "ACME/S-1/BAY1", "key": "K90", "amount": "5", "day": "103"}, "record"),
    ("/order/ACME/O-1", {"unit": "MIXER"}, "record"),
    ("/batch/ACME/O-1/1", {"what": "do", "command": "pause"}, "record"),
    ("/batch/ACME/O-1/1", {"what": "consume", "scan": "ACME/S-1/BAY1", "material": "SALT", "segment": "1", "key": "K90", "amount": "5", "day": "103"}, "record"),
    ("/batch/ACME/O-1/1", {"what": "void", "key": "K2"}, "record"),
    ("/lot/ACME/B-1", {"what": "result", "test": "PH", "value": "7", "day": "103"}, "record"),
    ("/lot/ACME/S-1", {"what": "split", "key": "K90", "sublot": "BAY1", "target": "BAY9", "amount": "5", "day": "103"}, "record"),
    ("/lot/ACME/S-1", {"what": "scrap", "key": "K90", "sublot": "BAY1", "amount": "5", "day": "103", "reason": "torn"}, "record"),
    ("/lot/ACME/S-1", {"what": "hold", "reason": "metal"}, "quality or record"),
    ("/lot/HOUSE/W-101", {"what": "reject", "reason": "metal"}, "quality"),
]


def seen_of(browser, path: str, kind: str) -> dict[str, str]:
    """The digest that a page of somebody with all roles has in a form of a kind."""
    browser.get(path)
    try:
        return {"seen": browser.form(kind).get("seen", "")}
    except AssertionError:
        return {}


@pytest.mark.parametrize("path, fields, role", FORMS, ids=[f"{path} {fields.get('what', '')}" for path, fields, _ in FORMS])
def test_each_form_is_of_a_role(browse, office, path, fields, role):
    frida = browse("frida")
    seen, before = seen_of(frida, path, fields.get("what", "")), office.content()
    others = {"record": ["quinn"], "quality": ["anna"]}  # what both roles may do is refused to nobody else
    for login in ("nora", *others.get(role, [])):
        browser = browse(login)
        browser.get("/")
        browser.send(path, **{**browser.form_of_page(), **fields, **seen})
        assert browser.status == 409 and "by the role" in browser.text, (login, browser.text)
        assert office.content() == before
    frida.get("/")
    frida.send(path, **{**frida.form_of_page(), **fields, **seen})
    assert "by the role" not in frida.text


@pytest.mark.parametrize("path, fields, role", FORMS, ids=[f"{path} {fields.get('what', '')}" for path, fields, _ in FORMS])
def test_no_form_is_taken_without_its_token_or_from_elsewhere(browse, office, path, fields, role):
    frida = browse("frida")
    seen, before = seen_of(frida, path, fields.get("what", "")), (office.content(), len(office.lines()))
    frida.get("/")
    form = {**frida.form_of_page(), **fields, **seen}
    for changed, origin in (({"token": ""}, ORIGIN), ({"token": "x" * 32}, ORIGIN), ({"token": browse("frida").token()}, ORIGIN), ({}, "https://evil.example"), ({}, ""),
                            ({}, "null"), ({}, ORIGIN.replace("https", "http")), ({}, f"{ORIGIN}.evil.example"), ({}, f"{ORIGIN}:8443")):
        frida.send(path, origin=origin, **{**form, **changed})
        assert frida.status == 403, (changed, origin)
    assert (office.content(), len(office.lines())) == before


def test_pages_need_a_session(browse):
    stranger = browse()
    for path in ("/", "/receive", "/ship", "/recall?q=S-1", "/find?q=S-1", "/lot/ACME/S-1", "/batch/ACME/O-1/1", "/order/ACME/O-1"):
        stranger.get(path)
        assert "Log in" in stranger.text and "ACME" not in stranger.text.replace("ACME/", ""), path
    assert stranger.get("/static/desk.css").startswith("/*")


def test_no_page_shows_a_form_of_another_role(browse):
    for login in ("nora", "quinn"):
        browser = browse(login)
        for path in ("/receive?owner=ACME&material=SALT", "/ship?scan=ACME/S-1/BAY1", "/count?owner=ACME", "/order/ACME/O-1", "/batch/ACME/O-1/1?scan=ACME/S-1/BAY1", "/lot/ACME/S-1"):
            browser.get(path)
            assert browser.status == 200 and "Record" not in browser.text.replace("Recorded", ""), path
            assert "data-draft" not in browser.page.replace('data-draft="hold', ""), path
            assert ("Put on hold" in browser.text) == (login == "quinn" and "/lot/" in path), path


def test_another_host_gets_nothing(browse):
    anna = browse("anna")
    for host in ("evil.example", "desk.example.com.evil.example", "desk.example.com:8443", "localhost"):
        reply = anna.client.get("/", base_url=f"https://{host}")
        assert reply.status_code == 421 and "KETTLE" not in reply.text
    for field in ("X-Forwarded-Host", "X-Host", "Forwarded", "X-Original-URL", "X-Rewrite-URL"):
        reply = anna.client.get("/nothing", base_url=ORIGIN, headers={field: "evil.example"})
        assert reply.status_code == 404 and "evil" not in reply.text


def test_each_answer_has_the_sites_fields(browse):
    anna = browse("anna")
    for path in ("/", "/nothing", "/login", "/static/desk.js"):
        headers = anna.client.get(path, base_url=ORIGIN).headers
        assert "default-src 'none'" in headers["Content-Security-Policy"] and headers["X-Content-Type-Options"] == "nosniff"
        assert headers["Referrer-Policy"] == headers["Cross-Origin-Opener-Policy"] == "same-origin"
        assert headers["Cache-Control"] == ("no-cache" if "static" in path else "no-store")


def test_a_log_in_takes_a_new_session(browse, desk):
    anna = browse()
    anna.client.set_cookie("desk.example.com", "__Host-desk", "fixed-by-somebody", secure=True)
    anna.log_in("anna")
    cookie = anna.cookie()
    assert cookie.value != "fixed-by-somebody" and cookie.secure and cookie.path == "/" and {"HttpOnly", "SameSite"} <= set(vars(cookie)["_rest"])
    assert desk.sessions.find("fixed-by-somebody") is None
    before = cookie.value
    anna.log_in("anna")
    assert anna.cookie().value != before and desk.sessions.find(before) is None  # the earlier one has ended


def test_a_session_that_ended_is_gone(browse, desk):
    anna = browse("anna")
    stolen = anna.cookie().value
    anna.get("/")
    anna.send("/logout", token=anna.token())
    assert desk.sessions.find(stolen) is None
    thief = browse()
    thief.client.set_cookie("desk.example.com", "__Host-desk", stolen, secure=True)
    thief.get("/")
    assert "Log in" in thief.text


def test_a_session_ends_after_idle_minutes_and_a_shift(browse, desk, monkeypatch):
    anna, clock = browse("anna"), time.monotonic()
    monkeypatch.setattr(sessions.time, "monotonic", lambda: clock + 14 * 60)
    anna.get("/")
    assert "KETTLE" in anna.text
    monkeypatch.setattr(sessions.time, "monotonic", lambda: clock + 30 * 60)
    anna.get("/")
    assert "Log in" in anna.text
    anna.log_in("anna")
    for minute in range(0, 13 * 60, 10):
        monkeypatch.setattr(sessions.time, "monotonic", lambda at=minute: clock + (30 + at) * 60)
        anna.get("/")
    assert "Log in" in anna.text


def test_who_leaves_the_group_is_out_at_once(browse, desk):
    anna = browse("anna")
    desk.accounts = SampleAccounts({**PERSONS, "anna": (PERSONS["anna"][0], "Anna", frozenset({"clerks"}))})
    anna.get("/")
    assert "Log in" in anna.text
    anna.log_in("anna")
    assert anna.status == 401


def test_roles_are_those_of_the_groups_now(browse, desk, office):
    anna = browse("anna")
    anna.get("/lot/ACME/S-1")
    assert "Sign this lot" not in anna.text
    desk.accounts = SampleAccounts({**PERSONS, "anna": (PERSONS["anna"][0], "Anna", frozenset({"hilpoven", "quality"}))})
    anna.get("/lot/ACME/S-1")
    assert "Sign this lot" in anna.text


def test_only_members_log_in_and_wrong_ones_look_alike(browse):
    texts = set()
    for login, password in (("zoe", "zoe's word"), ("anna", "wrong"), ("nobody", "x"), ("root", "x"), ("anna", ""), ("", "x"), ("anna\0", "x"), ("x" * 100, "x"), ("anna", "x" * 5_000)):
        browser = browse()
        browser.send("/login", login=login, password=password, to="/")
        assert browser.status == 401
        texts.add(browser.text)
    assert texts == {"Log in The name or the password is wrong. Name Password Log in The name and the password of your account on this machine."}


def test_guessing_is_held_up_before_anybody_is_asked(browse, desk, monkeypatch):
    calls, clock = [], time.monotonic()
    monkeypatch.setattr(delays.time, "monotonic", lambda: clock)  # a slow machine waits out no delay
    desk.accounts = CountedAccounts(calls)
    browser = browse()
    for guess in range(20):
        browser.send("/login", login="anna", password=f"guess {guess}", to="/")
    assert len(calls) == delays.FREE["login and address"] + 1 and "Try again in" in browser.text
    browser.send("/login", login="anna", password=PERSONS["anna"][0], to="/")
    assert browser.status == 401 and len(calls) == delays.FREE["login and address"] + 1  # the right one waits, too
    for guess in range(60):
        browser.send("/login", login=f"somebody {guess}", password="x", to="/")
    assert len(calls) == delays.FREE["address"] + 1


def test_the_time_does_not_tell_whether_an_account_is_there(browse, desk, monkeypatch):
    monkeypatch.setattr(web, "WRONG_TAKES", 0.3)
    for login, password in (("anna", "wrong"), ("nobody", "wrong"), ("zoe", PERSONS["zoe"][0])):
        begun = time.monotonic()
        browse().send("/login", login=login, password=password, to="/")
        assert time.monotonic() - begun >= 0.3


def test_passwords_that_are_looked_at_hold_few_threads(browse, desk):
    for _ in range(web.MOST_CHECKS):
        assert desk.checks.acquire(blocking=False)
    anna = browse()
    anna.log_in("anna")
    assert anna.status == 401 and "Too many log in at once" in anna.text
    for _ in range(web.MOST_CHECKS):
        desk.checks.release()
    anna.log_in("anna")
    assert "KETTLE" in anna.text


def test_delays_forget_and_are_of_networks():
    held = delays.Delays()
    for number in range(delays.MOST + 10):
        held.begin({str(number): 0})
    assert len(held.tries) <= delays.MOST
    assert delays.network_of("2001:db8::1") == delays.network_of("2001:db8::ffff:1") != delays.network_of("2001:db8:0:1::1")
    assert delays.network_of("::ffff:192.0.2.1") == "192.0.2.1"
    keys = delays.keys_of("anna", "192.0.2.1")
    assert held.begin(keys) == 0.0
    held.take_back(keys)
    assert not set(keys) & set(held.tries)


def test_nobody_is_logged_in_while_passwords_cannot_be_checked(browse, desk):
    desk.accounts = UnavailableAccounts(PERSONS)
    anna = browse()
    for _ in range(10):
        anna.log_in("anna")
        assert anna.status == 401 and "can't be checked now" in anna.text
    desk.accounts = SampleAccounts(PERSONS)
    anna.log_in("anna")
    assert "KETTLE" in anna.text  # nobody waits for what was no guess


def test_a_log_in_leads_to_these_screens_alone(browse):
    for to in ("//evil.example", "https://evil.example", "/\\evil.example", "javascript:x", "/\n/x", "", "x" * 900):
        reply = browse().client.post("/login", base_url=ORIGIN, headers={"Origin": ORIGIN}, data={"login": "anna", "password": PERSONS["anna"][0], "to": to})
        assert (reply.status_code, reply.headers["Location"]) == (303, "/"), to


def test_a_form_behind_the_end_of_a_session_is_kept_and_not_sent(browse, desk, office):
    anna = browse("anna")
    anna.get("/receive?owner=ACME&material=SALT")
    form = {**anna.form(), "material": "SALT", "lot": "S-9", "sublot": "BAY1", "amount": "5000", "day": "103"}
    before = office.content()
    desk.sessions.end(anna.cookie().value)
    anna.send("/receive", **form)
    assert anna.status == 401 and "What you typed is kept" in anna.text and form["token"] not in anna.page
    kept = anna.hidden()
    anna.send("/login", **{**kept, "login": "anna", "password": PERSONS["anna"][0]})
    assert anna.status == 200 and office.content() == before
    assert anna.form()["key"] == form["key"] and 'value="S-9"' in anna.page and 'value="5000"' in anna.page
    anna.fill("/receive", material="SALT", lot="S-9", sublot="BAY1", amount="5000", day="103")
    assert "received into lot S-9" in anna.text
    assert [row[0] for row in office.rows("SELECT mkey FROM moves WHERE lot = 'S-9'")] == [form["key"]]


# Forms by the page where they stand: to where they are sent, what is typed, and what the page shows of it behind a log-in.
TYPED = [
    ("/count?owner=ACME", "/count", {"owner": "ACME", "lot": ["B-1", "B-1", "S-1"], "sublot": ["TOTE1", "TOTE2", "BAY1"], "on_hand": ["900", "80", "4700"], "counted": ["", "79", "4690"], "reason": ["", "leaked", "spilled"]},
     ['value="79"', 'value="leaked"', 'value="4690"', 'value="spilled"']),
    ("/lot/ACME/B-1", "/lot/ACME/B-1", {"what": "result", "test": "PH", "value": "7", "day": "103"}, ['maxlength="20" value="7"']),
    ("/lot/ACME/B-1", "/lot/ACME/B-1", {"what": "hold", "reason": "metal found"}, ['value="metal found"']),
    ("/lot/ACME/S-1", "/lot/ACME/S-1", {"what": "split", "key": "K90", "sublot": "BAY1", "target": "BAY9", "amount": "5", "day": "103"}, ['<details class="card" open>', 'value="K90"', 'value="BAY9"', 'value="5"']),
    ("/lot/ACME/S-1", "/lot/ACME/S-1", {"what": "scrap", "key": "K90", "sublot": "BAY1", "amount": "5", "day": "103", "reason": "torn"}, ['<details class="card" open>', 'value="K90"', 'value="torn"']),
    ("/recall?q=ACME%20S-1", "/case", {"owner": "ACME", "lot": "S-1", "reason": "metal found", "drill": "yes"}, ['value="metal found"', 'value="yes" checked']),
    ("/case/C-1", "/case/C-1", {"what": "reply", "owner": "ACME", "party": "NORD", "lot": "B-1", "back": "200", "destroyed": "61", "gone": ""}, ['value="200"', 'value="61"']),
    ("/case/C-1", "/case/C-1", {"what": "close", "reason": "used up"}, ['value="used up"']),
]


@pytest.mark.parametrize("at, path, fields, shown", TYPED, ids=[f"{path} {fields.get('what', '')}" for _, path, fields, _ in TYPED])
def test_each_form_behind_the_end_of_a_session_is_shown_again(browse, desk, office, at, path, fields, shown):
    if "/case/" in path:
        with_a_case(office)
    frida = browse("frida")
    frida.get(at)
    form, before = {**frida.form_of_page(), **fields}, (office.content(), noted_lines(office))
    desk.sessions.end(frida.cookie().value)
    frida.send(path, **form)
    assert frida.status == 401 and "What you typed is kept" in frida.text
    kept: dict[str, list[str]] = {}
    for name, word in re.findall(HIDDEN, frida.page.partition("<footer")[0]):
        kept.setdefault(name, []).append(html.unescape(word))
    frida.send("/login", **{**kept, "login": "frida", "password": PERSONS["frida"][0]})
    assert frida.status == 200 and [word for word in shown if word not in frida.page] == [], frida.page
    assert (office.content(), noted_lines(office)) == before


def with_a_case(office) -> None:
    """Opens a case of a lot that a customer got."""
    assert office.run("result", "ACME", "B-1", "PH", "7", "102").status == 0
    with office.serve() as server:
        assert server.ask("ACME", "POST", "/lots/B-1/release")[0] == 200
    assert office.run("ship", "ACME", "K80", "B-1", "TOTE1", "300", "103", "--to", "NORD").status == 0
    assert office.run("case", "open", "ACME", "S-1", "--reason", "metal").status == 0


def noted_lines(office) -> list[dict]:
    """The journal's lines but for what was shown."""
    return [line for line in office.lines() if line.get("event") != "exported"]


@pytest.mark.parametrize("word", ["<script>alert(1)</script>", "\"><img src=x onerror=alert(1)>", "{{ 7 * 7 }}", "%s%n", "'; DROP TABLE lots; --", "\u202egnp", "a\r\nSet-Cookie: x=1"])
def test_hostile_words_are_shown_as_words(browse, office, word):
    anna, before = browse("anna"), office.content()
    anna.get("/receive?owner=ACME&material=SALT")
    anna.fill("/receive", material=word, lot=word, sublot=word, amount=word, day=word, document=word)
    assert anna.status == 422 and "<script>alert" not in anna.page and "<img src=x" not in anna.page and "49" not in anna.text
    for path in ("/find", "/recall", "/ship"):
        anna.client.get(path, base_url=ORIGIN, query_string={"q": word, "scan": word})
        anna.get(path, query_string={"q": word, "scan": word})
        assert anna.status == 200 and "<script>alert" not in anna.page and "<img src=x" not in anna.page
    anna.get("/lot/ACME/S-1")
    frida = browse("frida")
    frida.get("/lot/ACME/S-1")
    frida.fill("/lot/ACME/S-1", "hold", reason=word)
    assert "<script>alert" not in frida.page and office.content() == before


def test_large_and_odd_forms_are_refused(browse, office):
    anna, before = browse("anna"), office.content()
    anna.get("/receive?owner=ACME&material=SALT")
    anna.fill("/receive", document="x" * 400_000)
    assert anna.status == 413
    anna.get("/lot/ACME/S-1")
    token = anna.token()
    for fields in ({"what": "nothing"}, {}, {"what": "../x"}):
        anna.send("/lot/ACME/S-1", token=token, **fields)
        assert anna.status == 400
    for kind in ("multipart/form-data", "multipart/form-data; boundary=\xff", "application/json", "text/plain"):
        assert anna.client.post("/receive", base_url=ORIGIN, data="token=x", headers={"Origin": ORIGIN, "Content-Type": kind}).status_code == 415
    for method in ("put", "delete", "patch"):
        assert getattr(anna.client, method)("/receive", base_url=ORIGIN).status_code in (200, 401, 405)
    assert office.content() == before


def test_a_person_is_a_member_whatever_the_process_may():
    person = DeskPerson(0, account="anna", groups=frozenset({"hilpoven"}))
    assert person.is_member and person.login == "anna" and not person.is_in("quality") and not person.is_in("")


class CountedAccounts(SampleAccounts):
    """Accounts that note each password that is looked at."""

    def __init__(self, calls: list[str]) -> None:
        super().__init__(PERSONS)
        object.__setattr__(self, "calls", calls)

    def has_password(self, login: str, password: str) -> bool:
        self.calls.append(login)
        return super().has_password(login, password)


class UnavailableAccounts(SampleAccounts):
    """Accounts whose passwords nobody can check."""

    def has_password(self, login: str, password: str) -> bool:
        raise Unavailable("nobody is there")
