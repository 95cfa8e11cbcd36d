"""How far a group is behind an office that serves its owners, and what these notice of its publisher, which has no right or wrong: run by hand,
`pytest-3 -m long -s group/tests/test_lag.py`. A publisher runs as its unit has it, and is stopped in every other turn.
"""
import contextlib
import json
import os
import random
import signal
import socket
import statistics
import subprocess
import sys
import threading
import time
from collections import defaultdict
from collections.abc import Callable, Iterator
from types import SimpleNamespace

import pytest
from group_of_plants import ROOT, TOLL, Group, Plant
from hilpoven.core.client import request_of

sys.path.append(str(ROOT))
from bench import offices  # noqa: E402
from test_measures import processor  # noqa: E402

TURNS, SECONDS, LOOKS = (int(os.environ.get(name, default)) for name, default in (("TURNS", 24), ("SECONDS", 5), ("LOOKS", 40)))
ASKED, REJECTED = 0.005, 0.1  # seconds between two requests that ask, and two that change a row
pytestmark = [pytest.mark.long, pytest.mark.skipif(not TOLL, reason="needs the program, by TOLL")]


class Served:
    """An office that serves, whose publisher is a process of its own."""

    def __init__(self, plant: Plant, lots: str) -> None:
        self.plant, self.group, self.lots, self.rejected = plant, plant.group, lots, 0
        self.owners = sorted(row[0] for row in self.group.rows("SELECT owner FROM hg.members WHERE owner <> 'HOUSE'"))
        self.server = subprocess.Popen([TOLL, "--db", plant.file, "serve", "0", "1000000"], stdout=subprocess.PIPE, text=True)
        self.port = int(self.server.stdout.readline().split()[1])
        settings = plant.file.with_name("group.toml")
        settings.write_text(f'database = "{self.group.database}"\nplant = "{plant.name}"\n')
        words = [ROOT / "plant" / "bin" / "hilpoven", "--db", plant.file, "publish"]
        self.publisher = subprocess.Popen(words, env={**os.environ, "TOLL": TOLL, "HILPOVEN_GROUP_SETTINGS": str(settings)})

    def end(self) -> None:
        """Ends both."""
        for process in (self.publisher, self.server):
            process.kill()
            process.wait()

    def ask(self, owner: str, path: str, body: object = None) -> float:
        """What a request takes by the clock."""
        begun = time.monotonic()
        with contextlib.closing(socket.create_connection(("127.0.0.1", self.port))) as peer:
            peer.sendall(request_of(owner, offices.KEY, path, body))
            reply = b"".join(iter(lambda: peer.recv(1 << 16), b""))
        assert reply.startswith(b"HTTP/1.1 200"), reply[:200]
        return time.monotonic() - begun

    def reject(self) -> tuple[str, str, float]:
        """Has the next owner reject its next lot: the owner, the lot, and what the request took."""
        turn, place = divmod(self.rejected, len(self.owners))
        self.rejected += 1
        owner, lot = self.owners[place], f"{self.lots}-{turn + 1:05}"
        return owner, lot, self.ask(owner, f"/lots/{lot}/reject", ())

    def is_level(self) -> bool:
        """Whether the group has all that the office has."""
        state = self.plant.file.with_name("office.db.published")
        return state.exists() and json.loads(state.read_text())["level"] > 0


@contextlib.contextmanager
def served(group: Group, count: int, lots: str, fill: Callable[[SimpleNamespace], None]) -> Iterator[Served]:
    """An office of so many owners that was filled, once its publisher has sent all of it."""
    plant = group.plant("SERVED", tuple(map(offices.owner_name, range(count))))
    for path in plant.file.parent.iterdir():
        path.unlink()

    def toll(*words: str) -> SimpleNamespace:
        return SimpleNamespace(out=subprocess.run([TOLL, "--db", plant.file, *words], capture_output=True, text=True).stdout)

    fill(SimpleNamespace(db=plant.file, plant=toll))
    begun, office = time.monotonic(), Served(plant, lots)
    try:
        while not office.is_level():
            assert office.publisher.poll() is None
            time.sleep(0.2)
        rows = json.loads(plant.file.with_name("office.db.published").read_text())["rows"]
        print(f"\n{count} owners, {rows} rows: sent in {time.monotonic() - begun:.0f} s by the clock")
        yield office
    finally:
        office.end()
    assert plant.publish() is not None and plant.differences() == []


def lag(office: Served) -> list[float]:
    """Of some changes, how many seconds after its answer each is in the group."""
    lags, dice = [], random.Random(1)
    with contextlib.closing(office.group.cluster.connect(office.group.name)) as base, base.cursor() as cursor:
        for _ in range(LOOKS):
            owner, lot, _ = office.reject()
            begun = time.monotonic()
            cursor.execute("SELECT gid, lot_id FROM hg.lots WHERE owner = %s AND lot = %s", (owner, lot))
            state = cursor.fetchone()
            while cursor.execute("SELECT 1 FROM hg.states WHERE gid = %s AND office = 1 AND lot_id = %s AND disposition = 2", state) or not cursor.fetchone():
                time.sleep(0.01)
            lags.append(time.monotonic() - begun)
            time.sleep(dice.random())
    return sorted(lags)


def one_turn(office: Served, times: dict[str, list[float]]) -> None:
    """Requests for some seconds, at a steady rate: many that ask, and some that change a row."""
    until = time.monotonic() + SECONDS

    def steadily(name: str, pause: float, one: Callable[[], float]) -> None:
        due = time.monotonic()
        while (due := due + pause) < until:
            time.sleep(max(0.0, due - time.monotonic()))
            times[name].append(one())

    asking = threading.Thread(target=steadily, args=("asks", ASKED, lambda: office.ask(office.owners[-1], "/orders")))
    asking.start()
    steadily("changes a row", REJECTED, lambda: office.reject()[2])
    asking.join()


def percentile(times: list[float], part: float) -> float:
    """The time within which this part of the requests was answered, in milliseconds."""
    return 1000 * sorted(times)[min(len(times) - 1, int(part * len(times)))]


def noticed(office: Served) -> None:
    """What requests take by turns with and without a publisher."""
    turns: dict[bool, list[dict[str, list[float]]]] = {True: [], False: []}
    spent = 0.0
    for turn in range(TURNS):
        office.publisher.send_signal(signal.SIGCONT if (is_there := turn % 2 == 0) else signal.SIGSTOP)
        before, times = processor(office.publisher.pid), defaultdict[str, list[float]](list)
        one_turn(office, times)
        turns[is_there].append(times)
        spent += processor(office.publisher.pid) - before
    office.publisher.send_signal(signal.SIGCONT)
    print(f"{TURNS} turns of {SECONDS} s, the publisher takes {spent / SECONDS / (TURNS // 2):.2f} of a processor; load {os.getloadavg()[0]:.0f}")
    for name in ("asks", "changes a row"):
        for which, part in (("median", 0.5), ("99 of 100", 0.99)):
            of_all = [percentile([time for turn in turns[is_there] for time in turn[name]], part) for is_there in (True, False)]
            of_turns = [statistics.median(percentile(turn[name], part) for turn in turns[is_there]) for is_there in (True, False)]
            print(f"a request that {name}: {which}: {of_all[0]:.2f} ms with it and {of_all[1]:.2f} without, of turns in the median {of_turns[0]:.2f} and {of_turns[1]:.2f}")


def measure(office: Served) -> None:
    """Prints both."""
    lags = lag(office)
    print(f"{len(lags)} changes come after {statistics.median(lags):.2f} s in the median, {lags[-1]:.2f} at most; load {os.getloadavg()[0]:.0f}")
    noticed(office)


def test_a_small_office(group):
    with served(group, 2, "R", lambda office: offices.with_genealogies(office, *[offices.Genealogy(6_000, raw=2_000)] * 2)) as office:
        measure(office)


def test_an_office_at_all_limits(group):
    with served(group, 64, "T", lambda office: offices.at_the_limits(office, 64)) as office:
        measure(office)
