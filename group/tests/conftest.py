"""What the tests share: a cluster of PostgreSQL of their own, groups in databases of it, and offices that publish."""
import contextlib
import os
import pathlib
import pwd
import shutil
import subprocess
import sys
import tempfile
from collections.abc import Iterator

import psycopg2
import pytest

ROOT = pathlib.Path(__file__).resolve().parent.parent.parent
sys.path[:0] = [str(ROOT / "plant" / "src"), str(ROOT / "group" / "src"), str(ROOT / "plant" / "tests"), str(ROOT / "group" / "tests")]
BIN = pathlib.Path("/usr/lib/postgresql/15/bin")
NOBODY = "nobody"  # as whom the cluster runs where this is root, as which it doesn't
SUPERUSER = "admin"


def as_nobody(words: list, **options: object) -> subprocess.CompletedProcess:
    """Runs a program of PostgreSQL's."""
    switch = {"user": NOBODY, "group": pwd.getpwnam(NOBODY).pw_gid, "extra_groups": []} if os.geteuid() == 0 else {}
    return subprocess.run(list(map(str, words)), check=True, capture_output=True, cwd="/", **switch, **options)


class Cluster:
    """A cluster in a folder of its own, that answers at a socket there and at no port."""

    def __init__(self, folder: pathlib.Path, is_running: bool = False) -> None:
        self.folder, self.data = folder, folder / "data"
        if is_running:
            return
        if os.geteuid() == 0:
            shutil.chown(folder, NOBODY)
        as_nobody([BIN / "initdb", "-D", self.data, "-E", "UTF8", "--locale", "C", "-U", SUPERUSER, "-A", "trust", "-N"])
        settings = f"listen_addresses = ''\nunix_socket_directories = '{folder}'\nfsync = off\nshared_buffers = 128MB\njit = off\nmax_connections = 40\n"
        with open(self.data / "postgresql.auto.conf", "a") as file:
            file.write(settings)
        self.start()

    def control(self, *words: str) -> None:
        """Starts or stops it."""
        as_nobody([BIN / "pg_ctl", "-D", self.data, "-w", "-l", self.folder / "log", *words])

    def start(self) -> None:
        """Starts it."""
        self.control("start")

    def stop(self, how: str = "fast") -> None:
        """Stops it; `immediate` as if its machine had lost its power."""
        self.control("-m", how, "stop")

    def database(self, name: str) -> str:
        """How a database is reached."""
        return f"host={self.folder} dbname={name}"

    def connect(self, name: str = "postgres", user: str = SUPERUSER) -> psycopg2.extensions.connection:
        """A connection, each of whose commands counts at once."""
        base = psycopg2.connect(self.database(name), user=user)
        base.autocommit = True
        return base


@pytest.fixture(scope="session")
def cluster() -> Iterator[Cluster]:
    """The cluster of all tests: that of HILPOVEN_GROUP_CLUSTER, which somebody keeps running, or one of their own."""
    if running := os.environ.get("HILPOVEN_GROUP_CLUSTER"):
        yield Cluster(pathlib.Path(running), is_running=True)
        return
    with tempfile.TemporaryDirectory(prefix="hg.", ignore_cleanup_errors=True) as folder:
        own = Cluster(pathlib.Path(folder))
        try:
            yield own
        finally:
            with contextlib.suppress(subprocess.CalledProcessError):
                own.stop("immediate")


import group_of_plants  # noqa: E402


@pytest.fixture
def group(cluster, request, tmp_path, monkeypatch) -> Iterator["group_of_plants.Group"]:
    """A group without offices, in a database of its own."""
    with group_of_plants.new_group(cluster, tmp_path, monkeypatch) as new:
        yield new
