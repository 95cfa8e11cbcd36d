"""The program over files of its own: what it answers, what it serves, and what the files hold."""
import collections
import concurrent.futures
import contextlib
import os
import pathlib
import queue
import random
import re
import shutil
import socket
import socketserver
import sqlite3
import struct
import subprocess
import tempfile
import threading
import time
from collections.abc import Callable, Iterable, Iterator
from typing import IO, Any, NamedTuple, Protocol, TypeVar

ROOT = pathlib.Path(__file__).resolve().parent.parent
PATIENCE = 60  # seconds
JOBS = int(os.environ.get("JOBS", 2))  # attempts at a time
KEEPERS = collections.deque[socket.socket](maxlen=200)  # of the ports that were taken last
REPLY = re.compile(r"HTTP/1\.1 (\d{3}) [^\r\n]+\r\n((?:[a-z-]+: [^\r\n]*\r\n)*)\r\n(.*)", re.S)


Holding = TypeVar("Holding")
SomeServer = TypeVar("SomeServer", bound=socketserver.BaseServer)


class Result(NamedTuple):
    """How a program ended, and what it wrote."""

    status: int
    out: str
    err: str = ""


OUTCOMES = ("accepted", "repeated", "refused", "bad", "fault")  # of an import's records
ACCEPTED, REPEATED = Result(0, "accepted\n"), Result(0, "repeated\n")
UNAVAILABLE = '503 {"error":"Unavailable"}'


def eventually(holds: Callable[[], Holding], seconds: float = PATIENCE) -> Holding:
    """What it gives as soon as that is something, or what it gives after so many seconds."""
    end = time.monotonic() + seconds
    while not (value := holds()) and time.monotonic() < end:
        time.sleep(0.02)
    return value


def fault(name: str) -> Result:
    return Result(3, "", f"fault {name}\n")


def import_report(outcomes: list[str]) -> str:
    """What an import with these outcomes prints."""
    lines = "".join(f"{number:6} {outcome}\n" for number, outcome in enumerate(outcomes, 1))
    counts = {word: sum(outcome.startswith(word) for outcome in outcomes) for word in OUTCOMES}
    return lines + " ".join(f"{word} {count}" for word, count in counts.items()) + "\n"


def free_port() -> int:
    """A free port below those that the system gives out. A socket that never listens keeps it from other programs that
    look for one, also while the port's server is away."""
    first = int(pathlib.Path("/proc/sys/net/ipv4/ip_local_port_range").read_text().split()[0])
    while True:
        port = random.randrange(*((first // 2, first) if first > 4096 else (1024, 65_536)))
        keeper = socket.socket()
        try:
            keeper.bind(("127.0.0.1", port))
        except OSError:
            keeper.close()
        else:
            keeper.setsockopt(socket.SOL_SOCKET, socket.SO_REUSEADDR, 1)  # behind bind: a server may listen there now
            KEEPERS.append(keeper)
            return port


# Files


def put(base: str | None, db: str) -> None:
    """Puts a copy of the file base, or no file where there is none, in the place of db and all that belongs to it."""
    for end in ("", "-wal", "-shm", ".lock"):
        pathlib.Path(db + end).unlink(missing_ok=True)
    for end in ("", "-wal"):
        if base and os.path.exists(base + end):
            shutil.copyfile(base + end, db + end)


def content(db: str) -> Any:
    """The tables and rows of the file with its log, or a word on why there are none. sqlite3 reads a copy, so that the
    program itself recovers the file."""
    copy = db + ".copy"
    put(db, copy)
    try:
        with contextlib.closing(sqlite3.connect(copy)) as base:
            if base.execute("PRAGMA integrity_check").fetchall() != [("ok",)]:
                return "no sound database"
            schema = base.execute("SELECT type, name, sql FROM sqlite_master ORDER BY name").fetchall()
            return {
                name: (sql, kind == "table" and sorted(base.execute(f"SELECT * FROM {name}")))
                for kind, name, sql in schema
            }
    except sqlite3.Error as error:
        return f"no database: {error}"
    finally:
        put(None, copy)


# Requests: a line `> OWNER KEY METHOD TARGET BODY` is one, and its reply is printed as `STATUS BODY`, as in a script.


def http_request(method: str, target: str, body: str, fields: Iterable[tuple[str, str]]) -> bytes:
    head = "".join(f"{name}: {value}\r\n" for name, value in fields)
    return f"{method} {target} HTTP/1.1\r\n{head}\r\n{body}".encode()


def request(line: str) -> bytes:
    """The bytes of a script's line."""
    _, owner, key, method, target, *rest = line.split(" ", 5)
    body = "".join(rest)
    fields = {"host": "127.0.0.1", "toll-owner": owner, "toll-key": key, "content-length": str(len(body))}
    return http_request(method, target, body, fields.items())


def read_all(peer: socket.socket) -> bytes:
    return b"".join(iter(lambda: peer.recv(65536), b""))


def printed(reply: str) -> str:
    """A reply as a script prints it."""
    head, _, body = reply.partition("\r\n\r\n")
    return f"{head.split(' ')[1]} {body}" if head.startswith("HTTP/1.1 ") else reply


# Running


class HasFile(Protocol):
    """What a server serves."""

    program: str
    db: str
    folder: str


class Server:
    """A server of an office, at a port that it takes itself if none is given."""

    def __init__(
        self,
        office: HasFile,
        env: dict[str, str] | None = None,
        count: int = 1_000_000,
        errors: IO[bytes] | int | None = None,
        port: int = 0,
        descriptors: int = 0,
    ) -> None:
        self.errors = errors or tempfile.TemporaryFile()
        words = ["prlimit", f"--nofile={descriptors}"] if descriptors else []
        words += [office.program, "--db", office.db, "serve", str(port), str(count)]
        how: dict[str, Any] = {"text": True, "cwd": office.folder, "env": {**os.environ, **(env or {})}}
        self.process = subprocess.Popen(words, stdout=subprocess.PIPE, stderr=self.errors, **how)
        assert self.process.stdout
        first_line = self.process.stdout.readline()
        self.port = int(first_line.split()[1]) if first_line.startswith("listening ") else None

    def lines(self) -> list[str]:
        """The lines that it wrote on standard error."""
        assert not isinstance(self.errors, int)
        return os.pread(self.errors.fileno(), 1 << 20, 0).decode().splitlines()

    def connect(self) -> socket.socket:
        return socket.create_connection(("127.0.0.1", self.port or 0), timeout=PATIENCE)

    def send(self, message: bytes) -> str:
        """The reply to these bytes; empty where there is none."""
        try:
            with self.connect() as peer:
                peer.sendall(message)
                return read_all(peer).decode(errors="replace")
        except OSError:
            return ""

    def ask(self, line: str) -> str:
        """The reply to a script's line."""
        return printed(self.send(request(line)))

    def has_ended(self, patience: float = 1) -> bool:
        """Whether the server has ended, which it may be about to."""
        with contextlib.suppress(subprocess.TimeoutExpired):
            self.process.wait(timeout=patience)
        return self.process.poll() is not None

    def kill(self) -> None:
        """Kills it, also where that was done before."""
        self.process.kill()
        self.process.wait()
        assert self.process.stdout
        self.process.stdout.close()


class Office:
    """The program over a file of its own, in a folder of its own."""

    def __init__(self, program: str, folder: str) -> None:
        self.program = program
        self.folder = os.path.realpath(tempfile.mkdtemp(dir=folder))
        self.db = os.path.join(self.folder, "office.db")

    def run(
        self, words: Iterable[str | bytes], env: dict[str, str] | None = None, stdin: bytes = b"", closed: str = ""
    ) -> Result:
        """What the program answers to these words, with the streams closed that a shell is asked to close."""
        command: list[str | bytes] = [self.program, *words]
        if closed:
            # the shell itself is not preloaded
            command = ["sh", "-c", f'export LD_PRELOAD="$TRY_LIBRARY"; exec "$0" "$@" {closed}', *command]
            env = {**(env or {}), "TRY_LIBRARY": (env or {}).get("LD_PRELOAD", ""), "LD_PRELOAD": ""}
        how: dict[str, Any] = {"cwd": self.folder, "env": {**os.environ, **(env or {})}}
        try:
            done = subprocess.run(command, input=stdin, capture_output=True, timeout=PATIENCE, **how)
        except subprocess.TimeoutExpired:
            return Result(0, "", f"no end within {PATIENCE} s")
        return Result(done.returncode, done.stdout.decode(errors="replace"), done.stderr.decode(errors="replace"))

    def plant(self, *words: str, env: dict[str, str] | None = None, closed: str = "") -> Result:
        """What the program answers to these words over the file."""
        return self.run(["--db", self.db, *words], env, closed=closed)

    @contextlib.contextmanager
    def serve(
        self, env: dict[str, str] | None = None, count: int = 1_000_000, descriptors: int = 0
    ) -> Iterator[Server]:
        server = Server(self, env, count, descriptors=descriptors)
        try:
            yield server
        finally:
            server.kill()

    def lay(self, lines: str) -> str:
        """Gives each of these lines to the file, and tells where it is. Each is accepted, or answered 200."""
        with contextlib.ExitStack() as stack:
            server = None
            for line in filter(None, lines.split("\n")):
                if line.startswith("> "):
                    server = server or stack.enter_context(self.serve())
                    reply = server.ask(line)
                    assert reply.startswith("200 "), f"{line}: {reply}"
                else:
                    answer = self.plant(*line.split())
                    assert answer == ACCEPTED, f"{line}: {answer}"
        return self.db

    def write(self, name: str, text: str) -> str:
        path = os.path.join(self.folder, name)
        pathlib.Path(path).write_text(text)
        return path


class Preloaded(Office):
    """An office whose program runs with a preloaded library, which reads in a shared file what it is to disturb."""

    def __init__(self, program: str, folder: str, library: str) -> None:
        super().__init__(program, folder)
        self.plan = pathlib.Path(f"{self.folder}.plan")
        self.env = {"LD_PRELOAD": library, "TRY_PLAN": str(self.plan), "TRY_FOLDER": self.folder}

    def leave(self) -> None:
        """Nothing further is to be disturbed, where the library may be told so."""


FAIL, SHORT, TORN, KILLED_BEFORE, KILLED_AFTER, STOPPED_AT_MODE, NO_NETWORK = range(1, 8)


class Disk(Preloaded):
    """An office with a call over its files that is disturbed."""

    PLAN = struct.Struct("4q8192s")

    def disturb(self, at: int, way: int = 0, error: int = 0) -> None:
        """The call of this number is to be disturbed, counted from now on; none with 0. The file is written in place:
        the program has it mapped, and would be killed at a look into a file without content."""
        with open(self.plan, "r+b" if self.plan.exists() else "wb") as plan:
            plan.write(self.PLAN.pack(at, way, error, 0, b""))

    def aim(self, at: int, way: int) -> None:
        """The same, while the program runs and the count goes on."""
        with open(self.plan, "r+b") as plan:
            plan.write(struct.pack("2q", at, way))

    def leave(self) -> None:
        self.aim(-1, 0)

    def calls(self) -> str:
        """The kinds of the calls so far, a letter each."""
        *_, count, kinds = self.PLAN.unpack(self.plan.read_bytes())
        return str(kinds[:count].decode())


@contextlib.contextmanager
def meanwhile(*works: Callable[[threading.Event], None]) -> Iterator[None]:
    """Has these done side by side until the end, of which an event tells them."""
    over = threading.Event()
    threads = [threading.Thread(target=work, args=[over], daemon=True) for work in works]
    for thread in threads:
        thread.start()
    try:
        yield
    finally:
        over.set()
        for thread in threads:
            thread.join()


@contextlib.contextmanager
def serving(server: SomeServer) -> Iterator[SomeServer]:
    """Has one of Python's servers serve until the end."""
    thread = threading.Thread(target=server.serve_forever, args=[0.05])
    thread.start()
    try:
        yield server
    finally:
        server.shutdown()
        thread.join()
        server.server_close()


SomeOffice = TypeVar("SomeOffice", bound=Office)
Point = TypeVar("Point")


def wrong_outcomes(
    offices: list[SomeOffice],
    attempt: Callable[[SomeOffice, Point], str],
    points: Iterable[Point],
    right: Iterable[str],
) -> dict[str, list[Point]]:
    """What the attempt gives that isn't right, with the points at which it does. As many attempts run at a time as
    there are offices, and each has one to itself."""
    free: queue.SimpleQueue[SomeOffice] = queue.SimpleQueue()
    for office in offices:
        free.put(office)

    def outcome(point: Point) -> tuple[str, Point]:
        office = free.get()
        try:
            return attempt(office, point), point
        finally:
            free.put(office)

    wrong: dict[str, list[Point]] = {}
    pool = concurrent.futures.ThreadPoolExecutor(len(offices))
    try:
        for text, point in pool.map(outcome, points):
            if text not in right:
                wrong.setdefault(text, []).append(point)
    finally:
        pool.shutdown(cancel_futures=True)
    return wrong
