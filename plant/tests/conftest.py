"""What the tests share: the built program, offices in folders of their own, and the plant's command over them."""
import compileall
import contextlib
import http.client
import json
import os
import pathlib
import re
import shutil
import sqlite3
import subprocess
import sys
import tempfile
import time
import traceback
from collections.abc import Callable, Iterator
from typing import NamedTuple

import hypothesis
import pytest
from click.testing import CliRunner

ROOT = pathlib.Path(__file__).resolve().parent.parent.parent
TOLL = os.environ.get("TOLL", "")
HILPOVEN = ROOT / "plant" / "bin" / "hilpoven"
PATIENCE = 60  # seconds
# The machine's time zone, whatever it is otherwise: hours ahead of UTC, no whole number of them, and with summer time.
ZONE = "Pacific/Chatham"
os.environ["TZ"] = ZONE
time.tzset()

compileall.compile_dir(ROOT / "plant" / "src", quiet=1)  # on a full disk, Python would leave a part of what it compiles
sys.path.insert(0, str(ROOT / "plant" / "src"))
from hilpoven.core import client, settings as site  # noqa: E402
from hilpoven.core.office import Office  # noqa: E402
from hilpoven.cli import caller, hilpoven, main  # noqa: E402

# Generated examples are the same ones in each run, and none fails since the machine has much to do.
SUPPRESSED = [hypothesis.HealthCheck.too_slow, hypothesis.HealthCheck.function_scoped_fixture]
hypothesis.settings.register_profile("gate", deadline=None, database=None, derandomize=True, suppress_health_check=SUPPRESSED)
hypothesis.settings.load_profile("gate")


class Told(NamedTuple):
    """What a program told."""

    status: int
    out: str
    err: str = ""


# An office at work: each line is accepted, or answered 200.
AT_WORK = """
owner-add ACME ACMEKEY1
owner-add BOLT BOLTKEY1
unit-add KETTLE
unit-add MIXER
material-add HOUSE WATER liter
material-add ACME SALT kg
material-add ACME BRINE kg
test-add ACME BRINE DENSITY 1100 1250
test-add ACME BRINE PH M5 9
recipe-add ACME BRINE-10 2
require ACME BRINE-10 1 consumed ACME SALT 300
require ACME BRINE-10 1 consumed HOUSE WATER 700
require ACME BRINE-10 2 produced ACME BRINE 1000
receive HOUSE K1 WATER W-101 TANK 10000 101
release W-101
receive ACME K1 SALT S-1 BAY1 5000 101
> ACME POST /lots/S-1/release
> ACME POST /orders {"order":"O-1","recipe":"BRINE-10","batches":3}
open ACME O-1 KETTLE
do ACME O-1 1 start
actual K2 ACME O-1 1 1 consumed SALT ACME S-1 BAY1 300 101
actual K3 ACME O-1 1 1 consumed WATER HOUSE W-101 TANK 700 101
actual K4 ACME O-1 1 2 produced BRINE ACME B-1 TOTE1 980 101
result ACME B-1 DENSITY 1180 102
split ACME K6 B-1 TOTE1 TOTE2 80 102
material-add BOLT PIGMENT kg
receive BOLT K1 PIGMENT P-1 BAY2 80 101
"""


@pytest.fixture(scope="session")
def program() -> str:
    """The built program: that of TOLL, or of this checkout, where `./toll` builds it first if it isn't built."""
    if not TOLL and subprocess.run([ROOT / "toll", "script"], stdin=subprocess.DEVNULL).returncode:
        pytest.exit("./toll can't be run", 3)
    path = shutil.which(TOLL or ROOT / "crates" / "toll" / "out" / "toll")
    if not path:
        pytest.exit(f"{TOLL} is no program", 3)
    return os.path.abspath(path)


class Server:
    """A server of an office, at a port that it takes itself."""

    def __init__(self, program: str, db: pathlib.Path) -> None:
        self.office = Office(str(db), program, PATIENCE)
        self.process = subprocess.Popen([program, "--db", db, "serve", "0", "1000000"], stdout=subprocess.PIPE, stderr=subprocess.PIPE, text=True)
        self.port = int(self.process.stdout.readline().split()[1])

    def ask(self, owner: str, method: str, path: str, body: str = "") -> tuple[int, dict]:
        """The status and the body of the reply to an owner's request."""
        peer = http.client.HTTPConnection("127.0.0.1", self.port, timeout=PATIENCE)
        with contextlib.closing(peer):
            peer.request(method, path, body or None, {"toll-owner": owner, "toll-key": f"{owner}KEY1"})
            reply = peer.getresponse()
            return reply.status, json.loads(reply.read() or b"{}")

    def tell(self, *words: object) -> Told:
        """What the plant's words are told at the socket beside the file, or by a process if its path is too long for one."""
        typed = [str(word) for word in words]
        with contextlib.closing(client.PlantSocket(self.office.file)) as plant:
            return Told(*(plant.ask(typed) or self.office.ask(typed)))

    def end(self) -> str:
        """Ends it, and gives what it wrote on standard error."""
        self.process.terminate()
        return self.process.communicate()[1]


class Plant:
    """An office's file in a folder of its own, with the program and the plant's command over it."""

    def __init__(self, program: str, folder: pathlib.Path) -> None:
        self.program, self.folder, self.db = program, folder, folder / "office.db"
        self.journal = folder / "office.db.journal"

    def toll(self, *words: object, db: pathlib.Path | None = None) -> Told:
        """What `toll` tells of these words."""
        done = subprocess.run([self.program, "--db", db or self.db, *map(str, words)], capture_output=True, text=True, timeout=PATIENCE)
        return Told(done.returncode, done.stdout, done.stderr)

    def run(self, *words: object, stdin: str | None = None, db: pathlib.Path | None = None, options: tuple[str, ...] = ()) -> Told:
        """What the plant's command tells of these words, called within this process."""
        return called("--db", db or self.db, *options, *words, stdin=stdin, TOLL=self.program)

    def settle(self, **settings: object) -> None:
        """Has the settings name this office, with a folder of backups, and say what is given besides."""
        (self.folder / "backups").mkdir(mode=0o700, exist_ok=True)
        lines = {"file": str(self.db), "backups": str(self.folder / "backups"), "toll": self.program, **settings}
        site.load.__defaults__[0].write_text("".join(f"{name} = {json.dumps(value)}\n" for name, value in lines.items()))

    def as_member(self, *words: object, stdin: str | None = None) -> Told:
        """What the plant's command tells a member of the group, who has the rights of the office's user by sudo; the settings name
        the office."""
        with pytest.MonkeyPatch.context() as patch:
            patch.setattr(caller, "STARTED_AS", 1)
            return called(*words, stdin=stdin, SUDO_UID="4711", SUDO_USER="anna")

    def begun(self, *words: object, **options: object) -> subprocess.Popen:
        """The plant's command, begun as a process of its own."""
        return subprocess.Popen([HILPOVEN, "--db", self.db, *map(str, words)], stdout=subprocess.PIPE, stderr=subprocess.PIPE, text=True,
                                env={**os.environ, "TOLL": self.program}, **options)

    def serve(self) -> contextlib.AbstractContextManager[Server]:
        """A server of the office, which is ended at the end."""
        @contextlib.contextmanager
        def served():
            server = Server(self.program, self.db)
            try:
                yield server
            finally:
                server.end()
        return served()

    def lay(self, lines: str) -> "Plant":
        """Gives each line to the office: a command of the plant, or a request of an owner."""
        if not self.db.exists():
            assert self.toll("stock", "HOUSE").status == 0
        with self.serve() as server:
            for line in filter(None, lines.splitlines()):
                if line.startswith("> "):
                    answer = server.ask(*line[2:].split(" ", 3))
                    assert answer[0] == 200, (line, answer)
                else:
                    answer = server.tell(*line.split())
                    assert answer == Told(0, "accepted\n"), (line, answer)
        return self

    @contextlib.contextmanager
    def reading(self, db: pathlib.Path | None = None) -> Iterator[sqlite3.Connection]:
        """The tables of the file with its log, read from a copy."""
        copy = self.folder / "looked-at.db"
        for end in ("", "-wal"):
            with contextlib.suppress(FileNotFoundError):
                shutil.copyfile(f"{db or self.db}{end}", f"{copy}{end}")
        try:
            with contextlib.closing(sqlite3.connect(copy)) as base:
                yield base
        finally:
            for end in ("", "-wal", "-shm"):
                pathlib.Path(f"{copy}{end}").unlink(missing_ok=True)

    def rows(self, sql: str, db: pathlib.Path | None = None) -> list[tuple]:
        """Rows of the file."""
        with self.reading(db) as base:
            return base.execute(sql).fetchall()

    def content(self, db: pathlib.Path | None = None) -> dict[str, list[tuple]]:
        """All rows of all tables, but for the keys of owners."""
        with self.reading(db) as base:
            names = [name for name, in base.execute("SELECT name FROM sqlite_master WHERE type = 'table' ORDER BY name")]
            return {name: sorted(base.execute(f"SELECT {'owner' if name == 'owners' else '*'} FROM {name}")) for name in names}

    def lines(self) -> list[dict]:
        """The lines of the journal."""
        return [json.loads(line) for line in self.journal.read_text().splitlines()] if self.journal.exists() else []


def change_log_at_rest(plant: Plant) -> None:
    """Changes a byte in the last frame of the file's log, as SQLite writes it, while nobody has it open."""
    with open(f"{plant.db}-wal", "r+b") as log:
        head = log.read(32)
        length, salts = 24 + int.from_bytes(head[8:12]), head[16:24]
        frames = 0
        while (frame := log.read(length))[8:16] == salts and len(frame) == length:
            frames += 1
        log.seek(32 + frames * length - 50)
        byte = log.read(1)
        log.seek(-1, os.SEEK_CUR)
        log.write(bytes([byte[0] ^ 1]))


# The command within this process or as one of its own, and programs that stand in for `toll`

def called(*words: object, stdin: str | None = None, **variables: str) -> Told:
    """What the plant's command tells of these words, called within this process with these variables of the environment."""
    umask = os.umask(0o077)
    try:
        done = CliRunner(mix_stderr=False, env=variables).invoke(hilpoven, list(map(str, words)), input=stdin)
    finally:
        os.umask(umask)
    if done.exception and not isinstance(done.exception, SystemExit):
        raise done.exception
    return Told(done.exit_code, done.stdout, done.stderr)


def environment(**variables: object) -> dict[str, str]:
    """The environment with these variables."""
    return {**os.environ, **{name: str(given) for name, given in variables.items()}}


def command(*words: object, **options: object) -> subprocess.CompletedProcess:
    """What the plant's command tells of these words."""
    return subprocess.run([HILPOVEN, *map(str, words)], **{"capture_output": True, "text": True, "timeout": PATIENCE, **options})


def forked(*words: object, begin: Callable[[], None] = main, **variables: str) -> Callable[[], None]:
    """What gives a child of `Popen` the plant's command in place of its program, as `preexec_fn`: this process has imported it
    already, which takes a program most of its time. Its standard streams are a terminal's or files of `Popen`."""
    def run() -> None:
        os.closerange(3, os.sysconf("SC_OPEN_MAX"))  # with the pipe on which Popen waits for the program
        os.environ.update(variables)
        sys.argv = [str(HILPOVEN), *map(str, words)]
        sys.stdin, sys.stdout, sys.stderr = open(0, closefd=False), open(1, "w", closefd=False), open(2, "w", 1, closefd=False)
        status: object = 1
        try:
            begin()
        except SystemExit as end:
            status = end.code
        except BaseException:
            traceback.print_exc()
        finally:
            sys.stdout.flush()
            os._exit(status if isinstance(status, int) else 0)
    return run


def is_told(done: subprocess.CompletedProcess | Told, status: int) -> bool:
    """Whether the command ended with this status, and told why in a line, with advice at most under it."""
    answer = done if isinstance(done, Told) else Told(done.returncode, done.stdout, done.stderr)
    first, *rest = answer.err.splitlines() or [""]
    is_failure = first.startswith(("hilpoven: ", "Usage: ", "row "))
    return (answer.status, answer.out) == (status, "") and is_failure and len(rest) <= 5 and "Traceback" not in answer.err


def script(path: pathlib.Path, text: str) -> pathlib.Path:
    """A program of these lines of a shell."""
    path.write_text(f"#!/bin/sh\n{text}\n")
    path.chmod(0o755)
    return path


def eventually(holds: Callable[[], bool], seconds: float = PATIENCE) -> bool:
    """Whether it comes to hold within so many seconds."""
    end = time.monotonic() + seconds
    while not holds():
        if time.monotonic() > end:
            return False
        time.sleep(0.02)
    return True


def make_office(path: pathlib.Path, **rows: list[tuple]) -> pathlib.Path:
    """A file with the office's tables, and these rows of them, in the order of each table's columns."""
    tables = re.findall(r'"(CREATE TABLE [^"]*)"', (ROOT / "crates" / "toll_sql" / "src" / "table_kind.rt").read_text())
    assert len(tables) == 14
    with contextlib.closing(sqlite3.connect(path)) as base, base:
        for table in tables:
            base.execute(table)
        for name, lines in {"meta": [("toll", 2)], **rows}.items():
            for line in lines:
                base.execute(f"INSERT INTO {name} VALUES ({','.join('?' * len(line))})", line)
    return path


@pytest.fixture(autouse=True)
def no_site(monkeypatch, tmp_path):
    """The machine's own settings are not looked at."""
    monkeypatch.setattr(site.load, "__defaults__", (tmp_path / "hilpoven.toml", *site.load.__defaults__[1:]))
    monkeypatch.setattr(site, "OFFICES", tmp_path)


@pytest.fixture(scope="session")
def laid(program, tmp_path_factory) -> Plant:
    """An office at work, which no test changes."""
    return Plant(program, tmp_path_factory.mktemp("laid")).lay(AT_WORK)


@pytest.fixture
def plant(program, tmp_path) -> Plant:
    """A folder with no office yet."""
    return Plant(program, tmp_path)


def copied(laid: Plant, plant: Plant) -> Plant:
    """A copy of an office in the folder of another."""
    for end in ("", "-wal"):
        if pathlib.Path(f"{laid.db}{end}").exists():
            shutil.copyfile(f"{laid.db}{end}", f"{plant.db}{end}")
    return plant


@pytest.fixture
def at_work(laid, plant) -> Plant:
    """An office at work, for one test."""
    return copied(laid, plant)


@pytest.fixture
def settled(at_work, monkeypatch) -> Plant:
    """An office at work whose program everything finds."""
    monkeypatch.setenv("TOLL", at_work.program)
    return at_work


@pytest.fixture(scope="session")
def bare(program, tmp_path_factory) -> Plant:
    """An office in which nothing is, which no test changes."""
    plant = Plant(program, tmp_path_factory.mktemp("bare"))
    assert plant.run("new", plant.db).status == 0
    return plant


@pytest.fixture
def empty(bare, plant, monkeypatch) -> Plant:
    """An office in which nothing is, for one test, whose program everything finds."""
    monkeypatch.setenv("TOLL", plant.program)
    return copied(bare, plant)


@pytest.fixture
def open_folder() -> Iterator[pathlib.Path]:
    """A folder that other users reach: pytest's own are closed to them whenever it is begun once more."""
    with tempfile.TemporaryDirectory(prefix="hilpoven-test.") as folder:
        os.chmod(folder, 0o755)
        yield pathlib.Path(folder)


@pytest.fixture
def reachable(laid, open_folder) -> Plant:
    """An office at work in such a folder."""
    return copied(laid, Plant(laid.program, open_folder))
