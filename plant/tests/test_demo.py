"""The demo: a sample week that an owner asks through the page's port, and of which nothing is left however it ends."""
import contextlib
import datetime
import glob
import http.client
import os
import re
import signal
import socket
import subprocess
import tempfile
from typing import NamedTuple

import pytest
from conftest import HILPOVEN, PATIENCE, ROOT, called, environment, eventually, forked, script
from hilpoven.cli import demo as cli_demo
from hilpoven.core import settings as site
from hilpoven.core.failure import Failure
from hilpoven.care.demo import week
from hilpoven.care.demo.week import Week, dated, working_days

NOTHING_LEFT = 20  # seconds
ENDED = "hilpoven: the demo is ended: nothing is served, and all of the sample week is removed"
KEYS_ALONE = "owner add ACME --random\nowner add BOLT --random\nowner add CERES --random\n"  # a week that is short


class Demo(NamedTuple):
    """A demo that runs: its process, the folder of its temporary files, the page's port, and the owners' keys."""

    process: subprocess.Popen
    folder: str
    port: int
    keys: dict[str, str]

    def ask(self, path, owner="", method="GET", body=None, **fields):
        """The status, the fields and the body of a reply at the page's port."""
        if owner:
            fields |= {"toll-owner": owner, "toll-key": self.keys[owner]}
        with contextlib.closing(http.client.HTTPConnection("127.0.0.1", self.port, timeout=PATIENCE)) as peer:
            peer.request(method, path, body, fields)
            reply = peer.getresponse()
            return reply.status, dict(reply.getheaders()), reply.read().decode()

    def office(self):
        """The folder of its office."""
        return glob.glob(f"{self.folder}/hilpoven-demo.*")[0]


@contextlib.contextmanager
def begun(program, folder, child=None):
    """The demo of a clone, or of a child of this process, once it has printed its address and the keys."""
    folder.mkdir(exist_ok=True)
    process = subprocess.Popen([ROOT / "demo" / "page"], stdout=subprocess.PIPE, stderr=subprocess.PIPE, text=True, env=environment(TOLL=program, TMPDIR=folder), preexec_fn=child)
    try:
        address, *owners = [process.stdout.readline() for _ in range(4)]
        yield Demo(process, str(folder), int(re.match(r"http://127\.0\.0\.1:(\d+)/owner/", address)[1]), dict(line.split() for line in owners))
    finally:
        process.kill()
        process.communicate()


@pytest.fixture(scope="module")
def demo(program, tmp_path_factory):
    with begun(program, tmp_path_factory.mktemp("demo")) as running:  # by demo/page
        yield running


def users_of(folder):
    """The processes that work in a folder, or have it among their words."""
    pids = []
    for pid in filter(str.isdigit, os.listdir("/proc")):
        with contextlib.suppress(OSError):
            if os.readlink(f"/proc/{pid}/cwd").startswith(folder) or folder.encode() in open(f"/proc/{pid}/cmdline", "rb").read():
                pids.append(pid)
    return pids


def test_each_owner_has_the_page_and_its_own_rows(demo):
    assert sorted(demo.keys) == ["ACME", "BOLT", "CERES"] and all(re.fullmatch("[A-Za-z0-9]{32}", key) for key in demo.keys.values())
    status, fields, page = demo.ask("/owner/")
    assert (status, fields["Content-Type"]) == (200, "text/html; charset=utf-8") and page == (ROOT / "page" / "index.html").read_text()
    assert demo.ask("/owner/views/stock.js")[2] == (ROOT / "page" / "views" / "stock.js").read_text()
    assert demo.ask("/owner/http.md")[2] == (ROOT / "docs" / "http.md").read_text()
    assert demo.ask("/")[1]["Location"] == "/owner/"
    for owner, lot in {"ACME": "DS-1101", "BOLT": "D-1103", "CERES": "LM-1101"}.items():
        assert f'"lot":"{lot}"' in demo.ask("/trace/house/W-1102", owner)[2]
        others = {"DS-1101", "D-1103", "LM-1101"} - {lot}
        assert all(demo.ask(f"/lots/{other}", owner)[0] == 404 for other in others)
    assert demo.ask("/orders", "BOLT", "POST", '{"order":"R-9","recipe":"RED-5","batches":2}')[2] == '{"batches":2,"order":"R-9","recipe":"RED-5","status":"open"}'
    for owner, lot in {"ACME": "S-1102", "BOLT": "P-1102", "CERES": "SU-1102"}.items():  # which wait for that
        assert '"disposition":"released"' in demo.ask(f"/lots/{lot}/release", owner, "POST")[2]
    assert demo.ask("/orders")[0] == 403
    assert demo.ask("/orders", **{"toll-owner": "ACME", "toll-key": demo.keys["BOLT"]})[0] == 403


def test_the_week_has_a_batch_in_each_state_and_a_recall(demo, program):
    file = f"{demo.office()}/office.db"

    def toll(*words):
        return subprocess.run([program, "--db", file, *words], capture_output=True, text=True).stdout

    states = {("ACME", "O-1", "4"): "running", ("CERES", "C-1", "3"): "held", ("BOLT", "R-2", "1"): "paused", ("BOLT", "R-3", "1"): "aborted", ("ACME", "O-2", "2"): "complete",
              ("CERES", "C-2", "2"): "idle"}
    for batch, state in states.items():
        assert toll("batch", *batch).split()[1] == state
    assert [line.split() for line in toll("recall", "HOUSE", "W-1102").splitlines()[1:]] == [
        ["0", "HOUSE", "W-1102", "quarantined", "9003", "0"], ["1", "ACME", "B-1103", "released", "470", "500"], ["1", "ACME", "DS-1101", "released", "380", "600"],
        ["1", "ACME", "DS-1102", "quarantined", "985", "0"], ["1", "BOLT", "D-1103", "released", "118", "120"], ["1", "CERES", "LM-1101", "released", "588", "400"]]
    assert toll("orders", "ACME").splitlines()[-1].split() == ["O-4", "DESCALE-2", "1", "cancelled"]


def test_the_plant_s_side_is_there_too(demo, program):
    def plant(*words):
        variables = environment(TOLL="/nowhere", HILPOVEN_SETTINGS=f"{demo.office()}/hilpoven.toml")
        return subprocess.run([HILPOVEN, *words], capture_output=True, text=True, env=variables)

    assert "held: too sweet" in plant("list", "lots", "--lot", "SY-1102").stdout
    assert "City Stadium Catering" in plant("show", "lot", "CERES", "LM-1101").stdout
    assert plant("verify").returncode == 0


def test_the_page_has_the_site_s_fields_and_nothing_else_of_this_machine(demo):
    nginx = (ROOT / "packaging" / "nginx.conf").read_text()
    wanted = dict(re.findall(r'add_header ([\w-]+) "?([^"$]+?)"? always;', nginx))
    del wanted["Strict-Transport-Security"]
    for path in ("/owner/", "/orders", "/owner/nothing.js"):
        assert wanted.items() <= demo.ask(path)[1].items()
    assert demo.ask("/owner/")[1]["Cache-Control"] == "no-cache" and demo.ask("/orders")[1]["Cache-Control"] == "no-store"
    for path in ("/owner/../README.md", "/owner/%2e%2e/README.md", "/owner//etc/passwd", "/owner/tests/csv.test.js", "/owner/package.json", "/owner/views"):
        assert demo.ask(path)[0] == 404
    for host in ("evil.example", f"evil.example:{demo.port}", "127.0.0.1"):
        assert demo.ask("/orders", "ACME", Host=host)[::2] == (421, '{"error":"UnknownHost"}')
    assert demo.ask("/orders", "ACME", "POST", "x" * 5000)[0] == 413
    assert demo.ask("/orders", "ACME", "POST", **{"Transfer-Encoding": "chunked"})[0] == 400
    assert demo.ask("/orders", "ACME", "POST", **{"Content-Length": "-1"})[0] == 400
    assert demo.ask("/stock", "ACME", "POST")[1]["Allow"] == "GET"
    assert (demo.ask("/stock", "ACME", "POST")[0], demo.ask("/orders", "ACME", "DELETE")[0]) == (405, 501)  # the office's own


@pytest.mark.parametrize("ending", [signal.SIGINT, signal.SIGTERM, signal.SIGKILL])
def test_nothing_is_left_behind(program, tmp_path, monkeypatch, ending):
    of_week = week.text_of
    monkeypatch.setattr(week, "text_of", lambda name: KEYS_ALONE if name == week.SCRIPT else of_week(name))
    monkeypatch.setattr(tempfile, "tempdir", None)
    with begun(program, tmp_path / "room", forked("demo", TOLL=program, TMPDIR=str(tmp_path / "room"))) as running:
        assert os.listdir(running.folder) and users_of(running.folder)
        running.process.send_signal(ending)
        assert running.process.wait(PATIENCE) == (-ending if ending == signal.SIGKILL else 128 + ending)
        assert eventually(lambda: not os.listdir(running.folder) and not users_of(running.folder), NOTHING_LEFT)
        with pytest.raises(ConnectionRefusedError):
            socket.create_connection(("127.0.0.1", running.port))


def test_nothing_is_left_where_it_ends_while_the_week_is_made(program, tmp_path):
    process = subprocess.Popen([HILPOVEN, "demo"], stderr=subprocess.PIPE, text=True, env=environment(TOLL=program, TMPDIR=tmp_path))
    assert eventually(lambda: glob.glob(f"{tmp_path}/*/office.db"))
    process.terminate()
    printed = process.communicate(timeout=PATIENCE)[1]
    assert process.returncode == 128 + signal.SIGTERM and "Traceback" not in printed
    assert printed.splitlines()[-1] == ENDED
    assert eventually(lambda: not os.listdir(tmp_path) and not users_of(str(tmp_path)), NOTHING_LEFT)


OF_SCREENS = 5  # lines of the plant's screens: what they are, where, and three persons
OF_PERSONS = 4  # lines of an owner's persons: what they are, and three


def test_the_address_and_the_keys_stand_last_and_the_end_is_told(program, tmp_path):
    how = {"stdout": subprocess.PIPE, "stderr": subprocess.STDOUT, "text": True, "env": environment(TOLL=program, TMPDIR=tmp_path)}
    with subprocess.Popen([ROOT / "demo" / "page"], **how) as process:
        lines = [process.stdout.readline() for _ in range(11)]
        if any("screens" in line for line in lines):  # where their package is installed
            lines += [process.stdout.readline() for _ in range(OF_SCREENS)]
        if any("persons of ACME" in line for line in lines):  # where theirs is
            lines += [process.stdout.readline() for _ in range(OF_PERSONS)]
        process.send_signal(signal.SIGINT)
        left = process.communicate(timeout=PATIENCE)[0]
    assert [line.split("/")[0].split()[0] for line in lines[-4:]] == ["http:", "ACME", "BOLT", "CERES"], lines
    assert (process.returncode, left) == (130, f"{ENDED}\n") and not os.listdir(tmp_path)


def test_a_port_that_is_taken_is_told(program, tmp_path, monkeypatch):
    monkeypatch.setattr(tempfile, "tempdir", str(tmp_path))
    monkeypatch.delenv("HILPOVEN_SETTINGS", raising=False)
    monkeypatch.setattr(Week, "live", lambda _: None)  # it listens behind the week
    with socket.socket() as taken:
        taken.bind(("127.0.0.1", 0))
        taken.listen()
        port = taken.getsockname()[1]
        done = called("demo", "--port", port, TOLL=program)
    assert (done.status, done.out) == (2, "") and f"nothing can listen at port {port}: Address already in use" in done.err
    assert eventually(lambda: not os.listdir(tmp_path), NOTHING_LEFT)


def test_no_member_of_the_group_gives_it_and_it_takes_no_office(at_work):
    before = at_work.content()
    done = at_work.as_member("demo")
    assert (done.status, done.out) == (2, "") and "demo is for root and the office's user alone" in done.err
    assert at_work.run("demo").status == 2 and at_work.content() == before


def test_a_clone_begins_no_proof(monkeypatch, tmp_path):
    monkeypatch.setattr(site, "CHECKOUT", str(tmp_path))
    monkeypatch.delenv("TOLL", raising=False)
    (tmp_path / "crates.txt").touch()
    script(tmp_path / "toll", "exit 1")
    with pytest.raises(Failure, match="no program is built here"):
        cli_demo.program_of(site.Settings())
    (tmp_path / "crates" / "toll" / "out").mkdir(parents=True)
    built = script(tmp_path / "crates" / "toll" / "out" / "toll", "exit 1")
    assert cli_demo.program_of(site.Settings()) == str(built)
    monkeypatch.setenv("TOLL", "/bin/true")
    assert cli_demo.program_of(site.Settings()) == "/bin/true"


@pytest.mark.parametrize("today, days", [
    ("2026-11-29", [23, 24, 25, 26, 27]), ("2026-11-28", [23, 24, 25, 26, 27]), ("2026-11-27", [23, 24, 25, 26, 27]), ("2026-11-25", [19, 20, 23, 24, 25]),
    ("2026-11-23", [17, 18, 19, 20, 23])])
def test_the_days_are_the_last_five_that_somebody_works(today, days):
    assert [working_day.day for working_day in working_days(datetime.date.fromisoformat(today))] == days


def test_days_stand_in_the_script_as_dates():
    days = working_days(datetime.date(2026, 12, 30))
    assert dated("scrap ACME K1 S-1 BAY1 5 @1 --made @5+3,@2", days) == "scrap ACME K1 S-1 BAY1 5 261224 --made 270102,261225"
