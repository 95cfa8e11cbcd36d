"""A standby beside a busy server: how far its pieces are behind, and what an owner notices of it.

    standby.py PORT OWNERS VERB RATE SECONDS FIRST   gives requests, and prints when each was answered
"""
import asyncio
import contextlib
import os
import sqlite3
import subprocess
import sys
import tempfile
import time
from collections.abc import Iterator
from dataclasses import dataclass
from pathlib import Path
from typing import Any

ROOT = Path(__file__).resolve().parent.parent
sys.path[:0] = [str(ROOT), str(ROOT / "plant" / "src")]

from bench import offices  # noqa: E402
from bench.offices import KEY, Genealogy, owner_name  # noqa: E402
from hilpoven.core.client import request_of  # noqa: E402
from hilpoven.care.standby import chain  # noqa: E402

RATE, SECONDS, PAUSE = 200, 20, 25  # requests a second that change something; milliseconds between two that don't
OWNERS, PLACED = 64, 500  # in the office that isn't at all limits: with room for more orders
AT_ONCE = 32  # requests that wait for an answer
BEHIND = 4.0  # seconds within which the last piece is there
PLACE, CANCEL = "place", "cancel"
DONE = {
    PLACE: "SELECT count(*) FROM orders WHERE ord GLOB 'N-*'",
    CANCEL: "SELECT count(*) FROM orders WHERE cancelled",
}
Figures = Iterator[tuple[str, float]]


def request(verb: str, owner: str, number: int) -> bytes:
    """An owner's request that changes a row: of a new order, or of one that there is."""
    if verb == PLACE:
        return request_of(owner, KEY, "/orders", {"order": f"N-{number:05}", "recipe": "R", "batches": 1})
    return request_of(owner, KEY, f"/orders/X-{number:05}/cancel", ())


async def give(port: int, owners: int, verb: str, rate: int, seconds: int, first: int) -> list[float]:
    """Gives requests of all owners in turn, so many a second or as many as are answered; when each was accepted."""
    answered, turns = list[float](), asyncio.Semaphore(AT_ONCE)

    async def one(place: int) -> None:
        reader, writer = await asyncio.open_connection("127.0.0.1", port)
        writer.write(request(verb, owner_name(place % owners), 1 + place // owners))
        if (await reader.read()).startswith(b"HTTP/1.1 200"):
            answered.append(time.time())
        writer.close()
        turns.release()

    began, tasks = time.monotonic(), set[asyncio.Task[None]]()
    for place in range(rate * seconds):
        await asyncio.sleep(max(0.0, began + place / rate - time.monotonic()))
        await turns.acquire()
        if time.monotonic() - began > seconds:
            break
        tasks.add(task := asyncio.create_task(one(first + place)))
        task.add_done_callback(tasks.discard)
    await asyncio.gather(*tasks)
    return answered


@dataclass
class Follower:
    """A follower as a process of its own, into a folder beside the office's file."""

    process: "subprocess.Popen[bytes]"
    folder: str

    def processor(self) -> float:
        """The seconds of processor that it has used."""
        return time.clock_gettime(~self.process.pid << 3 | 2)

    def megabytes(self) -> int:
        """Its memory, in which shared pages count by their share."""
        lines = Path(f"/proc/{self.process.pid}/smaps_rollup").read_text().splitlines()
        return next(int(line.split()[1]) // 1000 for line in lines if line.startswith("Pss:"))


@contextlib.contextmanager
def follower(office: Any) -> Iterator[Follower]:
    """A follower whose first snapshot is there."""
    with tempfile.TemporaryDirectory(dir=office.folder) as folder:
        words = [str(ROOT / "plant" / "bin" / "hilpoven"), "--db", office.db, "follow", "--to", folder]
        process = subprocess.Popen(words, env={**os.environ, "TOLL": str(office.program)})
        try:
            while not chain.chains_in(folder) and process.poll() is None:
                time.sleep(0.1)
            yield Follower(process, folder)
        finally:
            process.kill()
            process.wait()


def lags(folder: str, verb: str, answered: list[float]) -> tuple[list[float], int, int]:
    """Of each request, how long after its answer the piece with it was there; how many other pieces came in between at
    most; and how many pieces were made of FILE, since the log didn't tell."""
    of, counts = chain.newest_in(folder), list[tuple[float, int]]()
    with tempfile.NamedTemporaryFile(dir=folder) as file:
        for piece in chain.pieces_of(of, 0, of.last):
            for number, page in piece.pages():
                os.pwrite(file.fileno(), page, (number - 1) * len(page))
            with contextlib.closing(sqlite3.connect(f"file:{file.name}?immutable=1", uri=True)) as base:
                counts.append((os.stat(piece.path).st_ctime, base.execute(DONE[verb]).fetchone()[0]))
    (_, before), seconds, between, at = counts[0], list[float](), 0, 0
    for count, answer in enumerate(sorted(answered), before + 1):
        while counts[at][1] < count:
            at += 1
        seconds.append(max(0.0, counts[at][0] - answer))
        between = max(between, sum(answer < came for came, _ in counts[:at]))
    return seconds, between, sum(piece.header.kind == "file" for piece in chain.pieces_of(of, 0, of.last))


def beside(office: Any, owners: int, verb: str) -> Figures:
    """The figures of an office that was filled: twice without a follower, and twice with one in between."""
    first, times = 0, list[float]()
    with office.serve() as server, contextlib.ExitStack() as stack:

        def busy(name: str) -> Figures:
            nonlocal first
            words = [__file__, server.port, owners, verb, RATE, SECONDS, first]
            first += RATE * SECONDS
            with server.clients("/orders", owner=owner_name(owners - 1), pause=PAUSE, seconds=SECONDS) as seen:
                done = subprocess.run([sys.executable, *map(str, words)], check=True, stdout=subprocess.PIPE, text=True)
            answered = [*map(float, done.stdout.split())]
            times.extend(answered)
            yield f"{name}: requests a second that changed a row", round(len(answered) / SECONDS)
            yield from ((f"{name}: {which}", seen[which]) for which in ("99 of 100", "slowest", "not answered 200"))

        yield from busy("no follower")
        times.clear()
        pieces = stack.enter_context(follower(office))
        processor = pieces.processor()
        yield from (*busy("a follower"), *busy("a follower, again"))
        yield "its processor a second", (pieces.processor() - processor) / 2 / SECONDS
        yield "its megabytes", pieces.megabytes()
        time.sleep(BEHIND)
        seconds, between, of_file = lags(pieces.folder, verb, list(times))
        seconds.sort()
        for name, part in (("median", 0.5), ("99 of 100", 0.99), ("longest", 1)):
            yield f"from an answer to its piece: {name}", seconds[min(len(seconds) - 1, int(part * len(seconds)))]
        yield "pieces in between at most", between
        yield "pieces that were made of FILE", of_file
        stack.close()
        yield from busy("no follower, again")


def usual(office: Any, _: int) -> Figures:
    """64 owners, who place orders."""

    def fill(new_office: Any) -> None:
        with offices.filling(new_office, [Genealogy(2_000, raw=2_000), *[Genealogy(0, raw=0)] * (OWNERS - 1)]) as base:
            base.execute(offices.ORDERS, (PLACED,))

    office.fill(fill)
    yield from beside(office, OWNERS, PLACE)


def at_the_limits(office: Any, _: int) -> Figures:
    """64 owners with all that they may have, who cancel orders."""
    office.fill(offices.at_the_limits, 64)
    yield from beside(office, OWNERS, CANCEL)


if __name__ == "__main__":
    port, owners, verb, *numbers = sys.argv[1:]
    print(*asyncio.run(give(int(port), int(owners), verb, *map(int, numbers))), sep="\n")
