"""The companion through the site, by nginx, `toll` and `hilpoven companion` themselves: each owner gets its own, and
nobody another's."""
import contextlib
import itertools
import os
import re
import shutil
import subprocess
import sys
import tempfile
from collections.abc import Iterator
from pathlib import Path
from typing import Any

import pytest
from conftest import ROOT, eventually, quick_guesses
from site_client import NOWHERE, UNAVAILABLE, Reply, ask, at_once, seconds_of, sent
from tests.contract import SCHEMAS, faults_of, resolved
from try_page.site import Office, Proxy, free_port
from try_page.troubles import another, answer

TOLL = os.environ.get("TOLL", "")
WHY = "TOLL names no program: a part of the gate of its own runs this with it"
pytestmark = pytest.mark.skipif("TOLL" not in os.environ, reason=WHY)
ADDRESSES = "set_real_ip_from 127.0.0.1; real_ip_header x-address;"
SHORT = [(r"proxy_read_timeout 60s", "proxy_read_timeout 2s")]
OWNERS = ("ACME", "BOLT", "CARL")
OWNER = """owner-add {0} {0}KEY1
material-add {0} SALT-OF-{0} kg
receive {0} K1 SALT-OF-{0} LOT-OF-{0} BAY 500 261101"""


class Site(contextlib.ExitStack):
    """An office of three owners with its server, its companions and the site in front of it."""

    def __init__(self, folder: Path, user: str = "root") -> None:
        super().__init__()
        self.office = Office(TOLL, folder, free_port())
        for owner in OWNERS:
            self.office.do(OWNER.format(owner))
        self.office.start()
        self.callback(self.office.end)
        self.proxy = self.enter_context(Proxy(folder, self.office.port, ADDRESSES, SHORT, user=user))
        self.port, self.folder, self.settings = self.proxy.port, folder / "companion", folder / "hilpoven.toml"
        self.folder.mkdir(mode=0o700)

    def hilpoven(self, *words: str) -> str:
        """What the plant's command prints."""
        command = [str(ROOT / "plant" / "bin" / "hilpoven"), "--db", self.office.db, *words]
        settings = {"HILPOVEN_SETTINGS": str(self.settings)} if self.settings.exists() else {}
        how: dict[str, Any] = {"capture_output": True, "text": True, "stdin": subprocess.DEVNULL}
        return str(subprocess.run(command, check=True, env={**os.environ, **settings}, **how).stdout)

    def refresh(self) -> str:
        """What a run of the command prints."""
        return self.hilpoven("companion", "--out", str(self.folder))

    def get(
        self, owner: str, key: str | None = None, method: str = "GET", path: str = "/companion", **fields: Any
    ) -> Reply:
        return ask(self, path, method, toll_owner=owner, toll_key=f"{owner}KEY1" if key is None else key, **fields)


@pytest.fixture(scope="module")
def site(tmp_path_factory: pytest.TempPathFactory) -> Iterator[Site]:
    with Site(tmp_path_factory.mktemp("site")) as new_site:
        assert "3 written" in new_site.refresh()
        yield new_site


def own_alone(owner: str, body: bytes) -> bool:
    """Whether a body has an owner's words, and no other owner's."""
    others = [other for other in OWNERS if other != owner and other.encode() in body]
    return f"LOT-OF-{owner}".encode() in body and not others


@pytest.mark.parametrize("owner", OWNERS)
def test_an_owner_gets_its_own(site: Site, owner: str) -> None:
    reply = site.get(owner)
    assert (reply.status, reply.fields["content-type"]) == (200, "application/json") and own_alone(owner, reply.body)
    assert reply.value()["owner"] == owner and reply.body == (site.folder / f"{owner}.json").read_bytes()
    assert (reply.fields["cache-control"], reply.fields["x-content-type-options"]) == ("no-store", "nosniff")
    assert "content-encoding" not in site.get(owner, accept_encoding="gzip").fields


@pytest.mark.parametrize("name", ["ACME ", " ACME", "ACME\t"])
def test_blanks_around_a_name_are_none_of_it(site: Site, name: str) -> None:
    assert own_alone("ACME", site.get(name, "ACMEKEY1").body)


HOSTILE = """- acme BOLT/../ACME ../BOLT ../../../etc/passwd ACME.json ACME%00 ACME%2e %41CME ACME;BOLT ACME,BOLT HOUSE
    NOBODY AAAAAAAAAAAAAAAAA * . .. .companions ACME\\ $toll_owner \u00c4CME ACME\x7f""".split() + [
    "",
    "ACME BOLT",
]


@pytest.mark.parametrize("name", HOSTILE)
@pytest.mark.parametrize("key", ["ACMEKEY1", "BOLTKEY1"])
def test_a_hostile_name_gets_what_toll_says_and_never_a_byte(site: Site, name: str, key: str) -> None:
    sent_name, address = name.encode("utf-8").decode("latin-1"), f"198.51.100.{HOSTILE.index(name)}"
    reply = site.get(sent_name, key, x_address=address)
    assert reply.is_error(400, "BadRequest") if "\x7f" in name else reply.is_error(403, "Forbidden")
    stock = site.get(sent_name, key, path="/stock", x_address=address)
    assert (reply.status, reply.body) == (stock.status, stock.body)


KEYS = ["BOLTKEY1", "acmekey1", "", "ACMEKEY12", "ACMEKEY1 ACMEKEY1"]


@pytest.mark.parametrize("owner, key", [*(("ACME", key) for key in KEYS), ("BOLT", "ACMEKEY1")])
def test_another_key_gets_nothing(site: Site, owner: str, key: str) -> None:
    reply = site.get(owner, key, x_address="198.51.100.100")
    assert reply.is_error(403, "Forbidden") and reply.fields["cache-control"] == "no-store"
    assert "etag" not in reply.fields


TWO = """toll-owner: ACME|toll-owner: BOLT
toll-owner: BOLT|toll-owner: ACME
toll-owner: ACME|Toll-Owner: ACME
TOLL-OWNER: BOLT|toll-owner:ACME
toll-owner: ACME|toll-owner:
toll-owner: ACME, BOLT
toll-owner: ACME|toll-key: BOLTKEY1
toll-owner: BOLT|toll-key: ACMEKEY1
toll_owner: ACME
toll-owner: ACME|Connection: toll-owner|toll-owner: BOLT
toll-owner : ACME
toll-owner: BOLT| ACME
x: y""".splitlines()


@pytest.mark.parametrize("lines", TWO)
@pytest.mark.parametrize("key", ["ACMEKEY1", "BOLTKEY1"])
def test_two_fields_get_nothing(site: Site, lines: str, key: str) -> None:
    last = (f"toll-key: {key}", f"x-address: 198.51.101.{TWO.index(lines)}", "Connection: close")
    reply, _ = sent(site, "GET /companion HTTP/1.1", "Host: localhost", *lines.split("|"), *last)
    assert reply.startswith((b"HTTP/1.1 403", b"HTTP/1.1 400")) and b"LOT-OF" not in reply and b"SALT" not in reply


@pytest.mark.parametrize(
    "path",
    """/companion/ /companion/BOLT /companion/../BOLT.json /companion.json /companion/BOLT.json /.companion-key
    /.no-companion /BOLT.json /%63ompanion/BOLT.json /companion/.companions //companion/BOLT.json /Companion""".split(),
)
def test_another_path_leads_to_no_file(site: Site, path: str) -> None:
    reply = site.get("ACME", path=path)
    assert (reply.status, reply.value()) == (404, NOWHERE)


@pytest.mark.parametrize("path", ["/companion?owner=BOLT", "/%63ompanion", "/./companion", "//companion"])
def test_a_path_that_is_written_otherwise_is_the_same(site: Site, path: str) -> None:
    assert own_alone("ACME", site.get("ACME", path=path).body)


def test_what_is_unchanged_is_a_line(site: Site) -> None:
    tag = site.get("ACME").fields["etag"]
    cases = [("ACME", tag, 304), ("ACME", '"another"', 200), ("BOLT", tag + "x", 200), ("BOLT", "*", 304)]
    for owner, known, status in cases:
        reply = site.get(owner, if_none_match=known)
        assert reply.status == status and (reply.body == b"") == (status == 304), (owner, known)
        assert reply.fields["cache-control"] == "no-store" and "etag" in reply.fields
    assert site.get("ACME", "BOLTKEY1", if_none_match=tag, x_address="198.51.100.101").status == 403
    assert site.get("ACME", if_match='"another"').is_error(412, "BadRequest")


def test_a_change_of_one_owner_shows_in_its_own_alone(site: Site) -> None:
    before = {owner: site.get(owner).fields["etag"] for owner in OWNERS}
    assert "0 written, 3 as before" in site.refresh()
    site.office.do("receive BOLT K2 SALT-OF-BOLT SECOND-LOT BAY 70 261102")
    assert "1 written, 2 as before" in site.refresh()
    after = {owner: site.get(owner, if_none_match=tag) for owner, tag in before.items()}
    assert [after[owner].status for owner in OWNERS] == [304, 200, 304]
    assert [lot["lot"] for lot in after["BOLT"].value()["lots"]] == ["LOT-OF-BOLT", "SECOND-LOT"]
    assert after["BOLT"].fields["etag"] != before["BOLT"]


def test_only_the_head_comes_if_that_is_asked(site: Site) -> None:
    head, whole = site.get("ACME", method="HEAD"), site.get("ACME")
    assert (head.status, head.body, head.fields["content-length"]) == (200, b"", str(len(whole.body)))
    assert head.fields["etag"] == whole.fields["etag"]
    assert site.get("ACME", "WRONGKEY1", "HEAD", x_address="198.51.100.102").status == 403


@pytest.mark.parametrize("method", ["POST", "PUT", "DELETE", "OPTIONS", "TRACE"])
def test_only_reading_is_allowed(site: Site, method: str) -> None:
    assert site.get("ACME", method=method).is_error(405, "MethodNotAllowed")


def test_no_part_of_it_comes(site: Site) -> None:
    reply = site.get("ACME", range="bytes=0-9")
    assert reply.status == 200 and own_alone("ACME", reply.body) and "accept-ranges" not in reply.fields


def test_a_body_of_a_request_is_dropped(site: Site) -> None:
    mine = {"toll_owner": "ACME", "toll_key": "ACMEKEY1"}
    for body in (b"x", b"toll-owner: BOLT\r\n\r\n" * 100):
        assert own_alone("ACME", ask(site, "/companion", "GET", body, fields=mine).body)
    first = ["GET /companion HTTP/1.1", "Host: localhost"]
    head = [*first, "toll-owner: ACME", "toll-key: ACMEKEY1", "Transfer-Encoding: chunked", "", "0", ""]
    smuggled = [*first, "toll-owner: BOLT", "toll-key: ACMEKEY1", "x-address: 198.51.100.103", "Connection: close"]
    reply, _ = sent(site, *head, *smuggled)
    assert reply.count(b"HTTP/1.1 200") == 1 and reply.count(b"HTTP/1.1 403") == 1 and b"LOT-OF-BOLT" not in reply
    assert ask(site, "/companion", "GET", b"x" * 5000, fields=mine).status == 413


def test_too_many_fields_for_toll_are_its_400(site: Site) -> None:
    fields = {f"field_{number}": "v" for number in range(40)}
    for path in ("/companion", "/stock"):
        assert site.get("ACME", path=path, **fields).is_error(400, "BadRequest")


def test_if_there_is_none_it_is_no_route(site: Site) -> None:
    """The page works as without companions."""
    path = site.folder / "CARL.json"
    away = path.rename(site.folder / "away")
    try:
        reply = site.get("CARL")
        assert (reply.status, reply.value(), reply.fields["cache-control"]) == (404, NOWHERE, "no-store")
    finally:
        away.rename(path)


@pytest.mark.skipif(os.geteuid() != 0, reason="only root gives nginx's workers a user of their own")
def test_nginx_reads_companions_as_a_group_and_no_other_account_does() -> None:
    """One that it can't read sends no owner away: nginx's 403 for it doesn't come, which would mean a wrong key."""

    def as_user(user: str, group: str, *words: object) -> str:
        identity = ["setpriv", "--reuid", user, "--regid", group, "--clear-groups"]
        done = subprocess.run([*identity, *map(str, words)], capture_output=True, text=True)
        assert done.returncode
        return done.stderr

    with tempfile.TemporaryDirectory() as name:
        folder = Path(name)
        folder.chmod(0o755)
        with Site(folder, "www-data") as site:
            shutil.chown(site.folder, group="www-data")
            site.folder.chmod(0o2710)
            site.refresh()
            companion = site.folder / "ACME.json"
            assert (companion.group(), companion.stat().st_mode & 0o777) == ("www-data", 0o640)
            assert own_alone("ACME", site.get("ACME").body)
            assert "Permission denied" in as_user("nobody", "nogroup", "cat", companion)
            assert "Permission denied" in as_user("www-data", "www-data", "cat", site.folder / ".companions")
            as_user("www-data", "www-data", "ls", site.folder)
            companion.chmod(0o600)
            assert site.get("ACME").is_error(500, "Unavailable")


def test_an_owner_that_is_gone_gets_nothing_and_its_companion_goes(tmp_path: Path) -> None:
    """A backup without the owner is restored."""
    with Site(tmp_path) as site:
        site.refresh()
        assert site.get("CARL").status == 200
        site.office.end()
        for end in ("", "-wal"):
            Path(f"{site.office.db}{end}").unlink(missing_ok=True)
        site.office.do(OWNER.format("ACME"))
        site.office.start()
        assert (site.folder / "CARL.json").exists() and site.get("CARL").status == 403
        assert "2 removed" in site.refresh()
        assert site.get("CARL").status == 403 and sorted(os.listdir(site.folder)) == [".companions", "ACME.json"]


# What the office says


def test_an_office_that_is_away_or_locked_is_called_so(tmp_path: Path) -> None:
    with Site(tmp_path) as site:
        site.refresh()
        with site.office.locked():
            assert site.get("ACME").is_error(503, "Unavailable")
        for status, how in ((504, site.office.stopped()), (502, contextlib.nullcontext(site.office.end))):
            with how as end:
                if end:
                    end()
                reply = site.get("ACME")
            assert (reply.status, reply.value(), reply.fields["retry-after"]) == (status, UNAVAILABLE, "1")


ANSWERS = dict.fromkeys((200, 204, 301, 403, 500), "text/html") | dict.fromkeys((401, 404), "application/json")


@pytest.mark.parametrize("status, kind", ANSWERS.items())
def test_what_isnt_the_office_opens_no_companion(tmp_path: Path, status: int, kind: str) -> None:
    (tmp_path / "companion").mkdir()
    (tmp_path / "companion" / "ACME.json").write_text("SECRET")
    with another(0, answer(status, kind, "hello")) as port, Proxy(tmp_path, port) as proxy:
        reply = ask(proxy, "/companion", toll_owner="ACME", toll_key="ACMEKEY1")
    assert reply.status in (401, 404, 500) and b"SECRET" not in reply.body


# Limits and logs


def test_wrong_keys_wait_as_for_other_requests(site: Site) -> None:
    paths = itertools.cycle(("/companion", "/stock"))

    def guess() -> None:
        assert site.get("BOLT", "WRONGKEY1", path=next(paths), x_address="198.51.102.1").status == 403

    quick, most = quick_guesses(lambda: seconds_of(guess))
    assert 19 <= quick <= most
    assert seconds_of(lambda: site.get("BOLT", x_address="198.51.102.1").value()["lots"]) < 1


def test_each_request_is_in_the_log_of_its_key(site: Site) -> None:
    def logged(mark: str) -> list[list[str]]:
        logs = ((site.proxy.folder / name).read_text() for name in ("toll.log", "unauthenticated-toll.log"))
        return [[line.split('" ')[-1].split()[0] for line in log.splitlines() if mark in line] for log in logs]

    cases: list[tuple[dict[str, Any], list[list[str]]]] = [
        ({}, [["200"], []]),
        ({"if_none_match": site.get("ACME").fields["etag"]}, [["304"], []]),
        ({"key": "WRONGKEY1"}, [[], ["403"]]),
        ({"method": "POST"}, [["405"], []]),
    ]
    for number, (fields, statuses) in enumerate(cases):
        address = f"198.51.103.{number}"
        site.get("ACME", x_address=address, **fields)
        assert eventually(lambda: any(logged(f"{address} "))), fields
        assert logged(f"{address} ") == statuses, fields


def test_an_address_that_asks_without_end_has_to_wait(site: Site) -> None:
    assert [site.get("ACME", x_address="198.51.104.1").status for _ in range(3)] == [200] * 3
    asking = lambda _: site.get("ACME", x_address="198.51.104.2").status
    assert {status for _ in range(40) for status in at_once(asking, 4)} <= {200, 429}


# What its readers are given by it

MAKING = """unit-add KETTLE
material-add HOUSE WATER liter
receive HOUSE K1 WATER W-1 TANK 1000 261101
release W-1
material-add ACME BRINE kg
test-add ACME BRINE DENSITY 1100 1250
recipe-add ACME R 1
require ACME R 1 consumed HOUSE WATER 700
require ACME R 1 produced ACME BRINE 1000"""
MADE = """do ACME O-1 1 start
actual K2 ACME O-1 1 1 consumed WATER HOUSE W-1 TANK 700 261127
actual K3 ACME O-1 1 1 produced BRINE ACME B-1 TOTE 980 261127
actual K6 ACME O-1 1 1 produced BRINE ACME B-1 TOTE 5 261127"""
NOTES = """party add ACME NORD --name Nord --role customer --role supplier --address A --contact C --phone 1
describe material ACME BRINE --name Brine
describe test ACME BRINE DENSITY --name Density --unit g/l --method ISO --decimals 1
result ACME B-1 DENSITY <900.0 261127
describe lot ACME B-1 --made 261127 --expires 271127 --retest 270601
hold ACME B-1 --reason wet
sign ACME LOT-OF-ACME
receive ACME K7 BRINE B-2 TOTE 5 261128 --from NORD --supplier-lot S/1 --document D/1
split ACME K8 B-2 TOTE TOTE2 2 261128
link ACME B-2 B-1 --why return --amount 5 --reason again
link ACME W-1 --of-owner HOUSE --batch O-1 1 --why use
void ACME K6 --reason wrong
do ACME O-1 1 hold --reason pump
link ACME B-1 LOT-OF-BOLT --of-owner BOLT --why residue --tell
do ACME O-1 1 abort
do ACME O-1 1 done
close ACME O-1 1
open ACME O-1 KETTLE"""
KINDS = "Gauge Party Material Recipe Order CompanionOrder CompanionBatch CompanionLot Movement Link Reason".split()


@pytest.fixture
def worked(tmp_path: Path) -> Iterator[Site]:
    """An office that makes batches."""
    with Site(tmp_path) as site:
        site.office.do(MAKING)
        yield site


def unknown_members(schema: Any, value: Any, place: str = "") -> list[str]:
    """The members of a value that the contract doesn't have."""
    schema = resolved(schema)
    schema = resolved(schema["allOf"][0]) if "allOf" in schema else schema
    if isinstance(value, list):
        return [member for each in value for member in unknown_members(schema["items"], each, place)]
    if not isinstance(value, dict):
        return []
    known, unknown = schema.get("properties", {}), []
    for name, member in value.items():
        path = f"{place}.{name}"
        unknown += unknown_members(known[name], member, path) if name in known else [path]
    return unknown


def test_the_contract_has_each_member(worked: Site) -> None:
    assert worked.hilpoven("for", "ACME", "order", "O-1", "R", "2", "--by", "mail")
    assert worked.hilpoven("open", "ACME", "O-1", "KETTLE")
    worked.office.do(MADE)
    for words in NOTES.splitlines():
        worked.hilpoven(*words.split())
    worked.settings.write_text('[plant]\nname = "Works"\naddress = "A"\ncontact = "C"\n')
    worked.refresh()
    value = worked.get("ACME").value()
    assert faults_of(SCHEMAS["Companion"], value) == [] and unknown_members(SCHEMAS["Companion"], value) == []
    members = {name for rows in value.values() if isinstance(rows, list) for row in rows for name in row}
    assert {name for kind in KINDS for name in SCHEMAS[kind]["properties"]} - members == set()
    assert set(SCHEMAS["Companion"]["properties"]) == set(value)


REFRESHED = 4  # times that the companion is made anew in the next test


def test_the_program_of_the_page_learns_of_its_order(worked: Site) -> None:
    """Of batches, lots, limits and shipments, by conditional requests for the companion alone."""
    (code,) = re.findall(r"```python\n(.*?)```", (ROOT / "docs" / "http.md").read_text(), re.S)
    assert len(code.strip().splitlines()) <= 40 and 'ask("/orders"' in code
    trusting = "import ssl; ssl._create_default_https_context = ssl._create_unverified_context\n"
    words = [sys.executable, "-c", trusting + code.replace("sleep(60)", "sleep(0.2)")]
    words += [f"https://localhost:{worked.port}", "O-1", "R", "1"]
    environment, pipe = {**os.environ, "TOLL_OWNER": "ACME", "TOLL_KEY": "ACMEKEY1"}, subprocess.PIPE
    client = subprocess.Popen(words, stdout=pipe, stderr=pipe, text=True, env=environment)
    try:
        assert client.stdout
        line = client.stdout.readline
        assert line() == "{'batches': 1, 'order': 'O-1', 'recipe': 'R', 'status': 'open'}\n"
        worked.refresh()
        worked.office.do("open ACME O-1 KETTLE\ndo ACME O-1 1 start")
        worked.refresh()
        assert eventually(lambda: "running on KETTLE, lots []" in line())
        worked.office.do("actual K3 ACME O-1 1 1 produced BRINE ACME B-1 TOTE 980 261127")
        worked.refresh()
        assert line() == "batch 1: running on KETTLE, lots ['B-1']\n"
        limits = "limits ['DENSITY 1100 to 1250'], [{'test': 'DENSITY', 'reason': 'missing'}]"
        assert line() == f"lot B-1: quarantined, {limits}\n"
        worked.office.do("result ACME B-1 DENSITY 1180 261128\n> ACME ACMEKEY1 POST /lots/B-1/release")
        worked.office.do("do ACME O-1 1 done\nclose ACME O-1 1")
        worked.hilpoven(*"party add ACME NORD --name Nord --role customer".split())
        worked.hilpoven(*"ship ACME K9 B-1 TOTE 480 261129 --to NORD".split())
        worked.refresh()
        rest, error = client.communicate(timeout=30)
        assert not error and rest.splitlines() == [
            "batch 1: complete on KETTLE, lots ['B-1']",
            "lot B-1: released, limits ['DENSITY 1100 to 1250'], []",
            "shipped K9: 480 of B-1 to NORD",
        ]
        asked = (worked.proxy.folder / "toll.log").read_text()
        given, unchanged = (asked.count(f'"GET /companion HTTP/1.1" {status}') for status in (200, 304))
        assert 0 < given <= REFRESHED and unchanged and "GET /lots" not in asked
    finally:
        client.kill()
        client.wait()
