"""Three machines in network namespaces, each with etcd and Patroni as the page has them: primaries are killed and cut off while an office publishes,
and nothing that was confirmed is lost or comes twice.

    pytest-3 -m long group/tests/test_lost_primaries.py

It needs root, and Debian's etcd-server, iproute2 and patroni.
"""
import contextlib
import os
import pathlib
import random
import re
import shutil
import signal
import subprocess
import tempfile
import time
from collections.abc import Callable, Iterator

import psycopg2
import pytest
from conftest import BIN, NOBODY, SUPERUSER
from group_of_plants import ROOT, new_group
from test_kills import begun
from test_publishing import busy

NEEDS = ("ip", "etcd", "patroni", "setpriv")
pytestmark = [pytest.mark.long, pytest.mark.skipif(os.geteuid() != 0 or not all(map(shutil.which, NEEDS)), reason="needs root, etcd, ip and patroni")]
KILLS = int(os.environ.get("KILLS", "3"))
PLACES = (1, 2, 3)
PATIENCE = int(os.environ.get("PATIENCE", "240"))  # seconds for what has to come
SOONER = {"ttl": 20, "loop_wait": 2, "retry_timeout": 5}  # than by Patroni's defaults


def eventually(is_so: Callable[[], object], why: str) -> None:
    """Waits until something is so."""
    until = time.monotonic() + PATIENCE
    while not is_so():
        assert time.monotonic() < until, why
        time.sleep(0.5)


class Machine:
    """A network namespace with a member of etcd and one of Patroni's cluster."""

    def __init__(self, place: int, folder: pathlib.Path) -> None:
        self.place, self.folder, self.address = place, folder, f"10.231.8.{place}"
        self.name, self.running = f"hg{os.getpid()}-{place}", list[subprocess.Popen]()
        folder.mkdir()
        shutil.chown(folder, NOBODY)

    def start(self, *words: object) -> None:
        """Begins a program in it, for nobody."""
        log = open(self.folder / "log", "ab")
        switch = ["ip", "netns", "exec", self.name, "setpriv", "--reuid", NOBODY, "--regid", "nogroup", "--clear-groups"]
        variables = {"PATH": os.environ["PATH"], "HOME": str(self.folder), "LC_ALL": "C.UTF-8"}
        self.running.append(subprocess.Popen([*switch, *map(str, words)], cwd=self.folder, stdout=log, stderr=log, env=variables))

    def start_etcd(self) -> None:
        """Begins its member of etcd, which a busy machine doesn't take for lost, and which ends no leader when it comes back."""
        members = ",".join(f"m{place}=http://10.231.8.{place}:2380" for place in PLACES)
        here = {"client-urls": f"http://{self.address}:2379", "peer-urls": f"http://{self.address}:2380"}
        words = ["--name", f"m{self.place}", "--data-dir", self.folder / "etcd", "--initial-cluster", members, "--unsafe-no-fsync"]
        words += ["--listen-client-urls", here["client-urls"], "--advertise-client-urls", here["client-urls"]]
        words += ["--listen-peer-urls", here["peer-urls"], "--initial-advertise-peer-urls", here["peer-urls"]]
        self.start("etcd", *words, "--pre-vote", "--heartbeat-interval", 500, "--election-timeout", 5_000)

    def start_patroni(self) -> None:
        """Begins its PostgreSQL, by Patroni."""
        import yaml

        text = re.search(r"\n    bootstrap:\n(?:     .*\n|\n)+", (ROOT / "docs" / "group.md").read_text())
        assert text is not None
        settings = yaml.safe_load(text[0])
        settings["bootstrap"]["dcs"] |= SOONER
        settings["bootstrap"]["initdb"] = [{"encoding": "UTF8"}, {"locale": "C"}, "data-checksums"]
        settings |= {"scope": "group", "name": f"m{self.place}", "etcd3": {"hosts": [f"10.231.8.{place}:2379" for place in PLACES]}}
        settings["restapi"] = {"listen": f"{self.address}:8008", "connect_address": f"{self.address}:8008"}
        settings["postgresql"] = {
            "listen": f"{self.address}:5432", "connect_address": f"{self.address}:5432", "data_dir": str(self.folder / "data"), "bin_dir": str(BIN),
            "authentication": {"superuser": {"username": SUPERUSER}, "replication": {"username": SUPERUSER}, "rewind": {"username": SUPERUSER}},
            "parameters": {"unix_socket_directories": str(self.folder), "shared_buffers": "64MB", "max_connections": 40},
            "pg_hba": ["local all all trust", "host all all 10.231.8.0/24 trust", "host replication all 10.231.8.0/24 trust"], "use_unix_socket": True,
        }
        (self.folder / "patroni.yml").write_text(yaml.safe_dump(settings))
        self.start("patroni", self.folder / "patroni.yml")

    def kill(self) -> None:
        """Ends all that runs in it, as if its power were lost."""
        pids = subprocess.run(["ip", "netns", "pids", self.name], capture_output=True, text=True).stdout.split()
        for pid in pids:
            with contextlib.suppress(ProcessLookupError):
                os.kill(int(pid), signal.SIGKILL)
        for process in self.running:
            process.wait()
        self.running = []

    def value(self, sql: str) -> object:
        """The value of a query of its PostgreSQL; `None` if that isn't there."""
        try:
            with contextlib.closing(psycopg2.connect(f"host={self.folder} dbname=postgres user={SUPERUSER} connect_timeout=5")) as base, base.cursor() as cursor:
                cursor.execute(sql)
                return cursor.fetchone()[0]
        except psycopg2.Error:
            return None


class Machines:
    """Three machines at one bridge, of which one is the primary; for a group they are a cluster."""

    def __init__(self, folder: pathlib.Path) -> None:
        self.all = [Machine(place, folder / f"m{place}") for place in PLACES]
        self.bridge = f"hg{os.getpid()}"

    def connect_all(self) -> None:
        """Makes the namespaces, each at the bridge, which is in one of its own."""
        run("netns", "add", self.bridge)
        run("-n", self.bridge, "link", "add", "br0", "type", "bridge")
        run("-n", self.bridge, "link", "set", "br0", "up")
        for machine in self.all:
            run("netns", "add", machine.name)
            run("link", "add", f"p{machine.place}", "netns", self.bridge, "type", "veth", "peer", "name", "v0", "netns", machine.name)
            run("-n", self.bridge, "link", "set", f"p{machine.place}", "master", "br0", "up")
            run("-n", machine.name, "addr", "add", f"{machine.address}/24", "dev", "v0")
            for name in ("lo", "v0"):
                run("-n", machine.name, "link", "set", name, "up")

    def primary(self) -> Machine | None:
        """The machine that takes changes, if one does alone."""
        taking = [machine for machine in self.all if machine.value("SELECT pg_is_in_recovery()") is False]
        return taking[0] if len(taking) == 1 else None

    def is_whole(self) -> bool:
        """Whether the primary has both standbys, of which it waits for one."""
        primary = self.primary()
        sql = "SELECT string_agg(sync_state, ' ' ORDER BY sync_state) FROM pg_stat_replication WHERE state = 'streaming'"
        return primary is not None and primary.value(sql) in ("async sync", "potential sync", "quorum quorum")

    def database(self, name: str) -> str:
        """How the database of the primary is reached."""
        hosts = ",".join(str(machine.folder) for machine in self.all)
        return f"host={hosts} dbname={name} target_session_attrs=read-write"

    def connect(self, name: str = "postgres", user: str = SUPERUSER) -> psycopg2.extensions.connection:
        """A connection to the primary, each of whose commands counts at once. A standby may not have a new database yet, so it isn't asked."""
        primary = self.primary()
        if primary is None:
            raise psycopg2.OperationalError("there is no primary")
        base = psycopg2.connect(f"host={primary.folder} dbname={name}", user=user, connect_timeout=5)
        base.autocommit = True
        return base


def run(*words: object) -> None:
    """A command of iproute2."""
    subprocess.run(["ip", *map(str, words)], check=True, capture_output=True)


@pytest.fixture
def machines() -> Iterator[Machines]:
    """Three machines whose PostgreSQL is up."""
    with tempfile.TemporaryDirectory(prefix="hg.", ignore_cleanup_errors=True) as folder, contextlib.ExitStack() as stack:
        os.chmod(folder, 0o755)
        machines = Machines(pathlib.Path(folder))
        for name in (machines.bridge, *(machine.name for machine in machines.all)):
            stack.callback(subprocess.run, ["ip", "netns", "del", name], capture_output=True)
        machines.connect_all()
        for machine in machines.all:
            stack.callback(machine.kill)
            machine.start_etcd()
        for machine in machines.all:
            machine.start_patroni()
        eventually(machines.is_whole, "the cluster isn't whole")
        yield machines


def test_primaries_that_are_lost_lose_and_double_nothing(machines, tmp_path, monkeypatch):
    with new_group(machines, tmp_path, monkeypatch) as group:
        plant, dice = group.plant("NORTH"), random.Random(1)
        group.chunk = 20
        process = begun(plant)
        try:
            for at in range(1, KILLS + 2):
                known, before = confirmed(machines, group), machines.primary()
                for part in range(5):
                    busy(plant, 10 * at + part)
                eventually(lambda: (confirmed(machines, group) or 0) > (known or 0), "nothing is published")
                time.sleep(dice.random())
                known = confirmed(machines, group)
                lose(before, is_cut := at == KILLS + 1)
                begun_at = time.monotonic()
                eventually(lambda: machines.primary() not in (None, before) or is_cut and taken_over(machines, before), "nobody is promoted")
                print(f"\n{'cut off' if is_cut else 'killed'}: promoted after {time.monotonic() - begun_at:.0f} s")
                eventually(lambda: (now := confirmed(machines, group)) is not None and now >= (known or 0), "what was confirmed is lost")
                bring_back(before, is_cut)
                eventually(machines.is_whole, "the lost machine isn't taken back")
        finally:
            os.kill(process, signal.SIGKILL)
            os.waitpid(process, 0)
        with plant.publisher() as publish:
            eventually(lambda: publish.step() == 0, "not all is published")
        assert plant.differences() == []
        assert group.run("group", "verify").exit_code == 0


def confirmed(machines: Machines, group: object) -> int | None:
    """How many rows the group confirms; `None` if nobody answers."""
    try:
        return group.rows("SELECT coalesce(sum(n), 0) FROM hg.heads")[0][0]
    except psycopg2.Error:
        return None


def lose(machine: Machine, is_cut: bool) -> None:
    """Ends a machine, or cuts it off."""
    if is_cut:
        run("-n", machine.name, "link", "set", "v0", "down")
    else:
        machine.kill()


def bring_back(machine: Machine, is_cut: bool) -> None:
    """Has a machine come back."""
    if is_cut:
        run("-n", machine.name, "link", "set", "v0", "up")
    else:
        machine.start_etcd()
        machine.start_patroni()


def taken_over(machines: Machines, before: Machine) -> bool:
    """Whether another machine than one that was cut off takes changes."""
    return any(machine.value("SELECT pg_is_in_recovery()") is False for machine in machines.all if machine is not before)
