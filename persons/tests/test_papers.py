"""Papers that an owner takes through the real nginx: its own alone, whoever asks and however the address is written."""
import time

import pytest
from conftest import OWNERS, ROOT, Site
from hilpoven_persons import taking
from hilpoven_persons.taking import Paper
from site_client import Reply, ask, at_once
from try_page.site import eventually

CERTIFICATE = "/papers/certificate/LOT-OF-ACME"


def keyed(site: Site, path: str, owner: str = "ACME", key: str = "", method: str = "GET", **fields: str) -> Reply:
    """What the site replies to who sends an owner's key."""
    return ask(site, path, method, toll_owner=owner, toll_key=key or f"{owner}KEY1", **fields)


@pytest.fixture
def fake(site: Site, monkeypatch: pytest.MonkeyPatch) -> list[tuple[str, Paper]]:
    """Nothing is made: what is asked for is noted, and a lot that isn't its owner's is nothing."""
    asked: list[tuple[str, Paper]] = []

    def make(_: object, owner: str, paper: Paper) -> bytes | None:
        asked.append((owner, paper))
        return b"%PDF-" if f"OF-{owner}" in "".join(paper.names) or paper.kind != "certificate" else None

    monkeypatch.setattr(taking, "made_for", make)
    return asked


def test_an_owner_s_people_and_programs_take_its_papers(site: Site) -> None:
    site.office.do("receive ACME K-C1 SALT-OF-ACME C-1 BAY 7 261101")
    assert keyed(site, "/lots/C-1/release", method="POST").status == 200
    replies = [keyed(site, "/papers/certificate/C-1"), site.known("rita").ask("/person/papers/statement/261101/261130")]
    for reply, name in zip(replies, ("certificate-ACME-C-1", "statement-ACME-261101-261130")):
        assert (reply.status, reply.fields["content-type"]) == (200, "application/pdf") and reply.body.startswith(b"%PDF-")
        assert reply.fields["content-disposition"] == f'attachment; filename="{name}.pdf"' and reply.fields["cache-control"] == "no-store"
    assert any('"ACME"' in line and "GET /papers/certificate/C-1" in line and " 200 " in line for line in site.log())
    assert any('"ACME"' in line and "GET /papers/statement/261101/261130" in line and line.endswith(" rita") for line in site.log())
    journal = site.beside("journal").read_text()
    assert '"papers", "certificate-ACME-C-1"' in journal


@pytest.mark.parametrize("path", [CERTIFICATE, "/papers/batch/O-1/1", "/papers/statement/261101/261130"])
def test_what_is_made_is_for_the_owner_of_the_key_or_the_session(site: Site, fake: list[tuple[str, Paper]], path: str) -> None:
    kind, *names = path.split("/")[2:]
    fields = {"toll-owner": "BOLT", "toll-key": "BOLTKEY1", "toll-path": "/papers/certificate/LOT-OF-BOLT"}
    assert site.known("rosa").ask(f"/person{path}", **fields).status == 200
    assert keyed(site, path).status == 200
    assert fake == [("ACME", Paper(kind, tuple(names)))] * 2


@pytest.mark.parametrize("owner", OWNERS[1:])
def test_another_owner_s_lot_is_none(site: Site, fake: list[tuple[str, Paper]], owner: str) -> None:
    assert keyed(site, CERTIFICATE, owner).is_error(404, "NoPaper")
    assert site.known("bo").ask(f"/person{CERTIFICATE}").is_error(404, "NoPaper")


def test_really_another_s_lot_and_a_lot_of_house_give_no_byte(site: Site) -> None:
    for lot in ("LOT-OF-BOLT", "NONE"):
        reply = keyed(site, f"/papers/certificate/{lot}")
        assert reply.is_error(404, "NoPaper") and len(reply.body) < 40


NOBODY = [("ACME", "BOLTKEY1"), ("BOLT", "ACMEKEY1"), ("NOBODY", "ACMEKEY1"), ("HOUSE", "ACMEKEY1"), ("acme", "ACMEKEY1"), ("ACME/../BOLT", "ACMEKEY1"),
          ("-", "ACMEKEY1"), ("ACME BOLT", "ACMEKEY1"), ("--tar", "ACMEKEY1"), ("", "ACMEKEY1"), ("ACME", "")]


@pytest.mark.parametrize("owner, key", NOBODY)
def test_a_wrong_key_takes_nothing(site: Site, fake: list[tuple[str, Paper]], owner: str, key: str) -> None:
    fields = {"toll-owner": owner, "toll-key": key, "x-address": f"198.51.100.{NOBODY.index((owner, key)) + 1}"}
    reply = ask(site, CERTIFICATE, fields={name: value for name, value in fields.items() if value})
    assert reply.is_error(403, "Forbidden") and not fake
    assert not [line for line in site.log() if fields["x-address"] in line]


PATHS = """/papers/certificate/--tar /papers/certificate/-x /papers/certificate/lot-of-acme /papers/certificate/LOT-OF-ACME/x /papers/takeout/ACME
    /papers/recall/LOT-OF-ACME /papers/certificate/HOUSE/LOT-OF-ACME /papers/batch/O-1/0 /papers/batch/O-1/100 /papers/batch/O-1
    /papers/statement/x/y /papers/statement/99999999/1 /papers/settlement/2611 /papers/certificate/AAAAAAAAAAAAAAAAA
    /papers/certificate/..%2fBOLT /papers/certificate/LOT%00 /papers/../office.db /papers/certificate/../../etc/passwd /papers//certificate
    /papers/certificate/LOT-OF-ACME.pdf /papers /papers/ /Papers/certificate/LOT-OF-ACME""".split()


@pytest.mark.parametrize("path", PATHS)
def test_a_path_that_is_no_paper_s_makes_nothing(site: Site, fake: list[tuple[str, Paper]], path: str) -> None:
    browser = site.known("rosa")
    for reply in (keyed(site, path), browser.ask(f"/person{path}")):
        assert reply.status in (400, 403, 404) and b"%PDF" not in reply.body and len(reply.body) < 60, (path, reply.status, reply.body)
    assert not fake


@pytest.mark.parametrize("method", ["POST", "HEAD", "PUT", "DELETE"])
def test_papers_are_only_read(site: Site, fake: list[tuple[str, Paper]], method: str) -> None:
    assert keyed(site, CERTIFICATE, method=method).status == 405
    assert site.known("rosa").ask(f"/person{CERTIFICATE}", method).status in (403, 405)
    assert not fake


def test_nobody_takes_papers_without_a_session(site: Site, fake: list[tuple[str, Paper]]) -> None:
    assert site.browser().ask(f"/person{CERTIFICATE}").is_error(401, "LogIn")
    site.run("person", "add", "ACME", "gone", "--role", "reads", stdin="word-of-gone-1")
    browser = site.browser("gone")
    assert browser.status(f"/person{CERTIFICATE}") == 200
    site.run("person", "remove", "gone")
    assert browser.ask(f"/person{CERTIFICATE}").is_error(401, "LogIn")
    assert len(fake) == 1


def test_papers_are_made_one_at_a_time_for_an_owner_and_so_many_in_an_hour(site: Site, monkeypatch: pytest.MonkeyPatch) -> None:
    busy = []

    def slow(_: object, owner: str, paper: Paper) -> bytes:
        busy.append(owner)
        assert eventually(lambda: len(results) >= 3, 60)
        return b"%PDF-"

    results: list[int] = []
    monkeypatch.setattr(taking, "made_for", slow)
    at_once(lambda number: keyed(site, CERTIFICATE, x_address=f"203.0.113.{number + 1}").status, 4, results)
    assert sorted(results) == [200, 429, 429, 429] and busy == ["ACME"]
    limits = taking.Limits()
    for _ in range(taking.MOST_OF_OWNER):
        with limits.held("ACME"):
            pass
    with pytest.raises(taking.Busy), limits.held("ACME"):
        pass
    with limits.held("BOLT"), limits.held("CARL"):
        with pytest.raises(taking.Busy), limits.held("DORA"):
            pass
    limits.times["ACME"][0] = time.monotonic() - taking.HOUR - 1
    with limits.held("ACME"):
        pass


def test_a_part_of_the_site_says_that_there_are_papers(site: Site) -> None:
    assert ask(site, "/owner/settings.json").value() == {"idle_minutes": 15, "persons": True, "papers": True}
    assert "papers" not in (ROOT / "packaging" / "nginx.conf").read_text()
