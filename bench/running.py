"""The program over a file in memory, as commands and as a server, and what that takes."""
import concurrent.futures
import contextlib
import itertools
import json
import math
import os
import re
import resource
import shlex
import socket
import sqlite3
import struct
import subprocess
import sys
import tempfile
import threading
import time
from collections.abc import Callable, Iterable, Iterator
from pathlib import Path
from types import SimpleNamespace
from typing import Any

from bench import beside, offices
from bench.counting import Callgrind
from bench.offices import HOUSE, KEY, WATER, owner_name

OWNER, LOT, ORDER = owner_name(0), offices.product(1, 0), "/orders/X-00001"
STOCK, TRACE, RECALL = ("stock", OWNER), ("trace", HOUSE, WATER, "forward"), ("recall", HOUSE, WATER)
TRACED, QUESTION, SCRIPT = f"/trace/forward/{LOT}", ("orders", HOUSE), ("script",)
NEW_ORDER = '{{"order":"Y-{:05}","recipe":"R","batches":1}}'  # behind all that there are
UNIT = Path(__file__).resolve().parent.parent / "packaging" / "toll@.service"
RESET = struct.pack("ii", 1, 0)  # ends a connection without a wait, so that its port is free again
Address = tuple[str, int] | str  # a port of this machine, or a path
Asking = Iterator[dict[str, float]]
Figures = Iterator[tuple[str, float]]  # seconds, or millions of instructions; whole numbers are counts
REPORT = """done = function(summary, latency)
  local e = summary.errors
  io.write(string.format("%d %d %d %d %d", latency:percentile(50), latency:percentile(99), latency.max,
    1e6 * summary.requests / summary.duration, e.status + e.connect + e.read + e.write + e.timeout))
end
"""


def shell(command: str) -> str:
    return subprocess.run(["sh", "-c", command], capture_output=True, text=True).stdout


def tunables() -> dict[str, str]:
    """What the server's unit sets of the C library."""
    (value,) = re.findall(r"(?m)^Environment=GLIBC_TUNABLES=(.*)$", UNIT.read_text())
    return {"GLIBC_TUNABLES": value}


def processor_of_commands() -> float:
    """The seconds of processor that all commands took which have ended."""
    usage = resource.getrusage(resource.RUSAGE_CHILDREN)
    return usage.ru_utime + usage.ru_stime


@contextlib.contextmanager
def knocking(address: Address, count: int) -> Iterator[None]:
    """A client that connects so many times a second, and closes each connection at once."""
    has_ended, began = threading.Event(), time.monotonic()

    def knock() -> None:
        for number in itertools.count(1):
            with socket.socket(socket.AF_UNIX if isinstance(address, str) else socket.AF_INET) as peer:
                peer.setsockopt(socket.SOL_SOCKET, socket.SO_LINGER, RESET)
                with contextlib.suppress(ConnectionError):
                    peer.connect(address)
            if has_ended.wait(max(0.0, began + number / count - time.monotonic())):
                return

    with concurrent.futures.ThreadPoolExecutor() as pool:
        client = pool.submit(knock)
        try:
            yield
        finally:
            has_ended.set()
        client.result()


class Server:
    """A server of an office; if there is no program, Python's queries on the open file."""

    def __init__(self, office: "Office", descriptors: int) -> None:
        self.office, self.program, self.base = office, office.program, beside.Base(office.db)
        self.counter = Callgrind(office.folder) if office.is_counted else None
        if self.program:
            words = ["prlimit", f"--nofile={descriptors}"] if descriptors else []
            words += [str(self.program), "--db", office.db, "serve", "0", "1000000"]
            self.process = subprocess.Popen(
                self.counter.words(words) if self.counter else words,
                stdout=subprocess.PIPE,
                stderr=subprocess.DEVNULL,
                env={**os.environ, **tunables()},
            )
            assert self.process.stdout
            self.port = int(self.process.stdout.readline().split()[1])
            self.address = ("127.0.0.1", self.port)

    def cost(self) -> float:
        """The seconds of processor that it has used, by the kernel's clock of the process; or its instructions."""
        if self.counter:
            self.counter.dump(self.process.pid)
            return self.counter.millions()
        time.sleep(0.01)
        return time.clock_gettime(~self.process.pid << 3 | 2) if self.program else time.process_time()

    def megabytes(self) -> int:
        """Its memory, in which shared pages count by their share."""
        return int(shell(f"grep -m1 ^Pss: /proc/{self.process.pid}/smaps_rollup").split()[1]) // 1000

    def request(self, target: str, body: str = "") -> None:
        data = ["-d", body] if body else []
        head = ["-H", f"toll-owner: {OWNER}", "-H", f"toll-key: {KEY}", f"http://127.0.0.1:{self.port}{target}"]
        subprocess.run(["curl", "-sf", *data, *head], check=True, capture_output=True)

    def ask(self, target: str, body: str = "") -> float:
        """What a request takes."""
        before = self.cost()
        if self.program:
            self.request(target, body)
        elif body:
            self.base.place(OWNER, KEY, body)
        elif target == TRACED:
            json.dumps(self.base.chain(beside.TRACE, OWNER, LOT, OWNER))
        return self.cost() - before if self.program or body or target == TRACED else math.nan

    def command(self, row: str, *words: str) -> tuple[float, float]:
        """What a command takes, and the server meanwhile."""
        before, own = self.cost(), 0.0
        if self.program:
            own = self.office.run(row, *words)
        else:
            self.base.chain(beside.RECALL if words == RECALL else beside.TRACE, HOUSE, WATER)
        return own, self.cost() - before

    @contextlib.contextmanager
    def clients(self, target: str, count: int = 1, owner: str = OWNER, pause: int = 0, seconds: int = 5) -> Asking:
        """Clients that ask meanwhile, so many milliseconds between requests; their figures are there at the end."""
        with tempfile.NamedTemporaryFile("w", suffix=".lua") as script:
            script.write(REPORT + (f"delay = function() return {pause} end\n" if pause else ""))
            script.flush()
            words = ["wrk", "-t1", f"-c{count}", f"-d{seconds}", "-s", script.name, "-H", f"toll-owner: {owner}"]
            words += ["-H", f"toll-key: {KEY}", f"http://127.0.0.1:{self.port}{target}"]
            wrk, figures = subprocess.Popen(words, stdout=subprocess.PIPE, text=True), dict[str, float]()
            yield figures
            *times, replies, others = map(int, wrk.communicate()[0].split("\n")[-1].split())
            figures.update(zip(("median", "99 of 100", "slowest"), (micros / 1e6 for micros in times)))
            figures.update({"a second": replies, "not answered 200": others})

    @contextlib.contextmanager
    def silent(self, count: int) -> Iterator[None]:
        """Clients that connect and send nothing."""
        with contextlib.ExitStack() as stack:
            for _ in range(count):
                stack.enter_context(socket.create_connection(self.address))
            yield

    def beside_plant(self, name: str) -> Figures:
        """What an owner that asks 40 times a second and the plant see."""
        with self.clients("/orders", pause=25) as seen:
            plant = sorted(self.office.clock(*STOCK, runs=100))
        requests = ("99 of 100", "slowest", "not answered 200")
        yield from ((f"{name}: a request: {which}", seen[which]) for which in requests)
        yield from ((f"{name}: a command: {which}", plant[at]) for which, at in (("99 of 100", 98), ("slowest", 99)))


class Office:
    """A file in memory, with the program over it, or Python."""

    def __init__(
        self, program: Path | None, maker: Path | None, folder: str, is_counted: bool = False, name: str = "office"
    ) -> None:
        self.program, self.maker, self.folder, self.is_counted = program, maker, folder, is_counted
        self.base, self.db, self.printed = f"{folder}/base", f"{folder}/{name}.db", dict[str, str]()

    def words(self, *words: str) -> list[str]:
        if self.program:
            return [str(self.program), *([] if words == SCRIPT else ["--db", self.db]), *words]
        return [sys.executable, beside.__file__, self.db, *(["open"] if words == QUESTION else words)]

    def fill(self, fill: Callable[..., None], *sizes: Any, **options: Any) -> None:
        """Makes the file of which each command and each server gets a copy."""

        def plant(*words: str) -> SimpleNamespace:
            return SimpleNamespace(out=shell(shlex.join([str(self.maker), "--db", self.base, *words])))

        shell(f"rm -f {self.base}*")
        fill(SimpleNamespace(db=self.base, plant=plant), *sizes, **options)

    def restore(self) -> None:
        """Lays a copy of the file."""
        shell(f"rm -f {self.db}*; cp {self.base} {self.db}")

    def change(self) -> None:
        """Writes the file as another program does, so that a server opens it anew."""
        with contextlib.closing(sqlite3.connect(self.db)) as base, base:
            base.execute(offices.CHANGE)

    def write(self, lines: Iterable[str]) -> str:
        with tempfile.NamedTemporaryFile("w", dir=self.folder, delete=False) as file:
            file.writelines(lines)
        return file.name

    def clock(self, *words: str, runs: int) -> list[float]:
        """The seconds by the clock of each run of a command, by hyperfine."""
        how = ["hyperfine", "-N", "-r", str(runs), "--export-json", f"{self.folder}/report"]
        subprocess.run([*how, shlex.join(self.words(*words))], check=True, capture_output=True)
        return list(json.loads(Path(self.folder, "report").read_text())["results"][0]["times"])

    def run(self, row: str, *words: str, stdin: str = "/dev/null") -> float:
        """What a command takes with its start: seconds of processor, or instructions. It keeps what is printed."""
        counter = Callgrind(self.folder) if self.is_counted else None
        command = counter.words(self.words(*words)) if counter else self.words(*words)
        before = processor_of_commands()
        with open(stdin) as lines:
            done = subprocess.run(command, stdin=lines, capture_output=True, text=True, check=True)
        self.printed[row] = done.stdout if words != QUESTION else ""
        return counter.millions() if counter else processor_of_commands() - before

    def time(self, row: str, *words: str, stdin: str = "/dev/null") -> tuple[str, float]:
        """What a command takes over a copy of the file."""
        self.restore()
        return row, self.run(row, *words, stdin=stdin)

    @contextlib.contextmanager
    def serve(self, descriptors: int = 0) -> Iterator[Server]:
        """A server of a copy of the file, with so many file descriptors, or as many as this program may have."""
        self.restore()
        server = Server(self, descriptors)
        try:
            yield server
        finally:
            if self.program:
                server.process.kill()
                server.process.wait()
