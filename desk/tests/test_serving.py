"""The subcommand, the socket, the sample, many clerks at once, and an office that can't be asked."""
import pathlib
import re
import socket
import threading
import urllib.request

import pytest
from conftest import ROOT, Browser
from hilpoven.care.demo.site import Site
from hilpoven.cli import hilpoven
from hilpoven_desk import accounts, making, sample, tables
from hilpoven_desk.accounts import MachineAccounts, Unavailable
from hilpoven_desk.app import application
from plants import command


def test_the_subcommand_is_for_the_offices_user_alone(office):
    assert "Serves the plant's screens" in command("desk", "--help").stdout
    result = office.as_member("desk", "--host", "desk.example.com", "--socket", "x")
    assert result.status == 2
    assert "desk" in hilpoven.makers


def test_no_module_of_hilpoven_imports_the_screens():
    for path in (ROOT / "plant" / "src").rglob("*.py"):
        assert not re.search(r"(?m)^\s*(from|import) hilpoven_desk", path.read_text()), path


def test_the_sample_has_three_persons_at_a_port_of_this_machine(office):
    with sample.shown(str(office.folder / "hilpoven.toml"), Site(0)) as lines:
        origin = lines[1].strip().rstrip("/")
        assert re.fullmatch(r"http://localhost:\d+", origin) and len(lines) == 5
        page = urllib.request.urlopen(f"{origin}/login").read().decode()
        assert "Log in" in page
        login, password = lines[2].split()[:2]
        assert (login, len(password)) == ("clara", 8)
    with pytest.raises(OSError):
        socket.create_connection(("localhost", int(origin.rsplit(":", 1)[1])), 2)


def test_ten_clerks_at_once_lose_nothing(desk, office):
    app, faults = application(desk), []

    def work(number: int) -> None:
        browser = Browser(app.test_client(), desk)
        browser.log_in("anna")
        for place in range(5):
            browser.get("/receive?owner=ACME&material=SALT")
            browser.fill("/receive", material="SALT", lot=f"S-{number}{place}", sublot="BAY1", amount="7000", day="103")
            if browser.status != 200 or "received into lot" not in browser.text:
                faults.append((number, place, browser.text))

    with office.serve():
        threads = [threading.Thread(target=work, args=(number,)) for number in range(10)]
        for thread in threads:
            thread.start()
        for thread in threads:
            thread.join()
    assert not faults
    assert office.rows("SELECT count(*), sum(amount) FROM moves WHERE mkey LIKE '______-______'") == [(50, 350_000)]


def test_an_office_that_cannot_be_asked_records_nothing_and_says_so(browse, office, desk):
    anna = browse("anna")
    anna.get("/receive?owner=ACME&material=SALT")
    form = {**anna.form(), "material": "SALT", "lot": "S-9", "sublot": "BAY1", "amount": "5000", "day": "103"}
    before = office.content()
    moved = office.db.rename(office.db.with_suffix(".away"))
    anna.send("/receive", **form)
    assert anna.status in (409, 503) and "This can't be done" in anna.text
    moved.rename(office.db)
    assert office.content() == before
    anna.send("/receive", **form)
    assert "received into lot S-9" in anna.text


def test_a_copy_serves_all_requests_until_the_file_changes(browse, office, desk, monkeypatch):
    copies, copy = [], tables.snapshot.copy
    monkeypatch.setattr(tables.snapshot, "copy", lambda *words: copies.append(words) or copy(*words))
    anna = browse("anna")
    while tables.snapshot.stamp_of(str(office.db)) and not tables.snapshot.is_settled(tables.snapshot.stamp_of(f"{office.db}-wal")):
        pass
    anna.get("/")
    count = len(copies)
    for _ in range(3):
        anna.get("/lot/ACME/S-1")
    assert len(copies) == count
    assert office.run("split", "ACME", "K77", "S-1", "BAY1", "BAY8", "5", "103").status == 0
    anna.get("/lot/ACME/S-1")
    assert "BAY8 5 kg" in anna.text
    desk.tables.close()
    assert not list(pathlib.Path(office.folder).glob(".hilpoven.*"))


def test_saslauthd_is_asked_as_it_reads(tmp_path):
    path, asked = str(tmp_path / "mux"), []

    def answer(reply: bytes) -> None:
        peer, _ = listener.accept()
        with peer:
            asked.append(peer.recv(1_024))
            peer.sendall(reply[:1])
            peer.sendall(reply[1:])

    with socket.socket(socket.AF_UNIX) as listener:
        listener.bind(path)
        listener.listen()
        for reply, is_right in ((b"\0\2OK", True), (b"\0\2NO", False), (b"\0\7NO OK??", False)):
            thread = threading.Thread(target=answer, args=(reply,))
            thread.start()
            assert MachineAccounts(path).has_password("anna", "wörd") == is_right
            thread.join()
        thread = threading.Thread(target=answer, args=(b"\0\7OK",))
        thread.start()
        with pytest.raises(Unavailable):
            MachineAccounts(path).has_password("anna", "word")
        thread.join()
    assert asked[0] == b"\0\4anna\0\5w\xc3\xb6rd\0\15hilpoven-desk\0\0"
    with pytest.raises(Unavailable):
        MachineAccounts(str(tmp_path / "none")).has_password("anna", "word")


def test_accounts_of_the_system_are_no_persons():
    machine = MachineAccounts()
    assert all(machine.person(login) is None for login in ("root", "nobody", "daemon", "", "../x", "no such", "a\0b"))


def test_a_person_needs_the_group(monkeypatch):
    import pwd

    account = pwd.struct_passwd(("anna", "x", 1_234, 1_234, "Anna Arendt,,,", "/", "/bin/sh"))
    monkeypatch.setattr(accounts.pwd, "getpwnam", lambda login: account)
    monkeypatch.setattr(accounts.os, "getgrouplist", lambda login, gid: [1, 2])
    names = {1: "hilpoven", 2: "clerks"}
    monkeypatch.setattr(accounts, "group_name", names.get)
    person = MachineAccounts().person("anna")
    assert (person.login, person.full_name, person.groups) == ("anna", "Anna Arendt", frozenset({"hilpoven", "clerks"}))
    names[1] = "others"
    assert MachineAccounts().person("anna") is None


def test_a_paper_that_fails_says_why(office, desk):
    person = desk.accounts.person("anna")
    with pytest.raises(making.Failure, match="there is no lot ACME NONE"):
        desk.making(person, "certificate", {"owner": "ACME", "lot": "NONE"})


def test_the_words_that_make_papers_are_no_words_of_forms(browse, office):
    anna = browse("anna")
    anna.get("/papers/lot/ACME/S-1")
    token = anna.token()
    for fields in ({"what": "delivery-note", "key": "../x"}, {"what": "shipment", "key": "a b"}, {"what": "x"}, {}):
        anna.send("/papers/lot/ACME/S-1", token=token, **fields)
        assert anna.status == 400, fields
    anna.send("/papers/lot/ACME/S-1", **{"token": "", "what": "lot"})
    assert anna.status == 403


def test_the_unit_lets_nginx_alone_ask():
    unit = (ROOT / "packaging" / "desk" / "toll-desk@.service").read_text()
    assert "User=toll" in unit and "RuntimeDirectoryMode=2710" in unit and "desk --host ${DESK_HOST}" in unit
