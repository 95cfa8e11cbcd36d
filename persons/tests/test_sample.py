"""Persons at the page of the sample week: what the site's nginx does is done without it, and for the page alone."""
import http.client
import json
import pathlib
import re
import threading
from collections.abc import Iterator
from typing import Any

import pytest
from conftest import Site
from hilpoven.care.demo.site import JSON, Listener, Reply
from hilpoven.care.demo.site import Site as Sample
from hilpoven_persons import people, sample


class Page:
    """The sample's page, with the words that persons log in by, and a session."""

    def __init__(self, listener: Listener, words: dict[str, str]) -> None:
        self.port, self.words, self.session = listener.port, words, dict[str, str]()

    def ask(self, path: str, method: str = "GET", body: Any = None, **fields: str) -> tuple[int, Any, dict[str, str]]:
        """The status of a reply, its value and its fields."""
        host = f"127.0.0.1:{self.port}"
        usual = {"Host": host, "Origin": f"http://{host}", **self.session}
        peer = http.client.HTTPConnection("127.0.0.1", self.port, timeout=60)
        peer.request(method, path, body and json.dumps(body), usual | {name.replace("_", "-"): value for name, value in fields.items()})
        reply = peer.getresponse()
        value = json.loads(reply.read() or b"null")
        peer.close()
        return reply.status, value, {name.lower(): value for name, value in reply.getheaders()}

    def log_in(self, name: str, word: str = "") -> int:
        """Logs a person in."""
        status, value, fields = self.ask("/person/log-in", "POST", {"name": name, "password": word or self.words[name]})
        if status == 200:
            self.session = {"Cookie": fields["set-cookie"].partition(";")[0], "toll-token": value["token"]}
        return status


@pytest.fixture
def page(site: Site, tmp_path: pathlib.Path) -> Iterator[Page]:
    """The page over the office that the tests share, whose persons it leaves as they were."""
    (settings := tmp_path / "hilpoven.toml").write_text(f'file = "{site.office.db}"\n')
    before, served = site.beside("persons").read_bytes(), Sample(site.office.port)
    served.owner_replies["/companion"] = lambda owner, tag: Reply(200, JSON, json.dumps({"owner": owner}).encode())
    with sample.shown(str(settings), served) as lines, Listener(served, 0, lambda: None) as listener:
        (thread := threading.Thread(target=listener.serve_forever)).start()
        words = dict(match.groups() for line in lines if (match := re.fullmatch(r"  (\w+) (\w+)   \(\w+\)", line)))
        try:
            yield Page(listener, words)
        finally:
            listener.shutdown()
            thread.join()
            site.beside("persons").write_bytes(before)


def test_each_person_may_what_its_role_says(site: Site, page: Page) -> None:
    assert set(page.words) == set(sample.PERSONS) and page.ask("/owner/settings.json")[1] == {"idle_minutes": 0, "persons": True}
    site.office.do("receive ACME K-SAMPLE SALT-OF-ACME SAMPLE-1 BAY 5 261101")
    order = {"order": "SAMPLE-1", "recipe": "MIX-OF-ACME", "batches": 1}
    for name, may_order, may_release in (("rita", 403, 403), ("oscar", 200, 403), ("rosa", 200, 200)):
        assert page.log_in(name) == 200
        statuses = [page.ask("/person/orders", "POST", order)[0], page.ask("/person/lots/SAMPLE-1/release", "POST")[0]]
        assert statuses == [may_order, may_release] and page.ask("/person/stock")[0] == 200
    assert page.ask("/person/companion")[1] == {"owner": "ACME"}
    assert page.ask("/person/log-out", "POST")[0] == 200 and page.ask("/person/stock")[0] == 401


def test_nothing_comes_in_past_the_door(page: Page) -> None:
    assert page.log_in("rosa", "wrong-password") == 401 and page.ask("/person/stock")[0] == 401
    assert page.log_in("rosa") == 200
    assert page.ask("/person/stock", toll_owner="BOLT", toll_key="BOLTKEY1")[1] == page.ask("/person/stock")[1]
    assert page.ask("/person/stock", toll_token="x")[0] == 401 and page.ask("/person/stock", Cookie="__Host-person=x")[0] == 401
    assert page.ask("/person/orders", "POST", {"order": "X"}, Origin="http://evil.example")[0] == 403 and page.ask("/person/stock?x=1")[0] == 400
    assert page.ask("/person/who")[0] in (403, 404) and page.ask("/person/stock", Host="evil.example")[0] == 421
    assert "KEY" not in json.dumps([page.ask(path)[1:] for path in ("/person/stock", "/person/who", "/person/companion")])


def test_persons_of_the_sample_are_people_of_its_first_owner(site: Site, page: Page) -> None:
    persons = people.read(str(site.beside("persons")))
    assert {name: (persons[name].owner, persons[name].role) for name in sample.PERSONS} == {name: ("ACME", role) for name, role in sample.PERSONS.items()}
