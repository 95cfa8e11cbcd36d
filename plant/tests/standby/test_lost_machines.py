"""Machines that are lost: server, follower and commands are killed at any moment, and the disk is thrown away. What was
answered more than three seconds before is in the promoted office, whose tables are those of the first commands."""
import contextlib
import http.client
import pathlib
import random
import shutil
import subprocess
import sys
import threading
import time
from collections.abc import Iterator

import pytest
from conftest import HILPOVEN, Plant, Server, environment
from hilpoven.core.client import PlantSocket
from hilpoven.care.standby import chain

LIMIT = 3.0  # seconds
USUAL = 1.5  # seconds in which a follower begins, and makes a snapshot
LINES = [  # which are given again and again, with numbers; each leaves one row more, or releases a lot
    "receive ACME XA{n} SALT S-{n} BAY1 {amount} 102",
    "split ACME XB{n} S-{n} BAY1 BAY2 1 102",
    "receive ACME XC{n} SALT S-{n} BAY3 7 103",
    "> ACME POST /lots/S-{n}/release",
    '> ACME POST /orders {{"order":"Q-{n}","recipe":"BRINE-10","batches":1}}',
    "ship ACME XD{n} S-{n} BAY1 2 104",
]


def lines() -> Iterator[str]:
    """What is done, in its order."""
    for number in range(10, 10_000):
        for line in LINES:
            yield line.format(n=number, amount=10 + number % 7)


class Machine:
    """The machine that is lost: its disk, a server, a follower into a folder elsewhere, and somebody who gives lines."""

    def __init__(self, laid: Plant, folder: pathlib.Path, pieces: pathlib.Path, chance: random.Random) -> None:
        self.plant, self.pieces, self.chance = Plant(laid.program, folder), pieces, chance
        self.log = folder.with_name("follower.log")  # what its followers tell
        folder.mkdir(mode=0o700)
        for end in ("", "-wal"):
            if pathlib.Path(f"{laid.db}{end}").exists():
                shutil.copyfile(f"{laid.db}{end}", f"{self.plant.db}{end}")
        self.answered: list[float] = []  # when each line was, in order
        self.server: Server | None = None
        self.follower: subprocess.Popen | None = None
        self.is_over = False

    def serve(self) -> None:
        """Begins the server, and another one if it is killed meanwhile."""
        self.server = Server(self.plant.program, self.plant.db)

    def follow(self) -> None:
        """Begins the follower."""
        words = [sys.executable, "-c", FOLLOWER, str(self.plant.db), str(self.pieces)]
        with open(self.log, "a") as log:
            self.follower = subprocess.Popen(words, stderr=log, env=environment(TOLL=self.plant.program, PYTHONPATH=str(HILPOVEN.parent.parent / "src")))

    def kill_something(self) -> None:
        """Kills the server, the follower, or both, and begins it anew."""
        which = self.chance.choice(("server", "follower", "both"))
        if which != "follower":
            self.server.process.kill()
            self.server.process.communicate()
        if which != "server":
            self.follower.kill()
            self.follower.wait()
            self.follow()
        if which != "follower":
            self.serve()

    def give(self) -> None:
        """Gives lines one after another, each until it is answered, and notes when that was."""
        plant = PlantSocket(str(self.plant.db))
        for line in lines():
            while not self.is_over and not self.is_done(plant, line):
                time.sleep(0.02)
            if self.is_over:
                break
            self.answered.append(time.monotonic())
            time.sleep(self.pause)
        plant.close()

    def is_done(self, plant: PlantSocket, line: str) -> bool:
        """Whether a line is done, now or before. Of one whose answer is lost, that isn't known."""
        if line.startswith("> "):
            with contextlib.suppress(OSError, http.client.HTTPException, ValueError, AttributeError):
                status, _ = self.server.ask(*line[2:].split(" ", 3))
                return status == 200
            return False
        answer = plant.ask(line.split())
        return answer is not None and answer.output in ("accepted\n", "repeated\n")

    def lose(self) -> float:
        """Kills all at once, and throws the disk away; when that was."""
        at = time.monotonic()
        self.is_over = True
        self.follower.kill()
        self.server.process.kill()
        self.follower.wait()
        self.server.process.communicate()
        return at


FOLLOWER = """
import sys
from hilpoven.cli import main
sys.argv = ["hilpoven", "--db", sys.argv[1], "follow", "--to", sys.argv[2]]
main()
"""


def expected(laid: Plant, count: int, folder: pathlib.Path) -> dict[str, list[tuple]]:
    """The tables behind the first lines, given to `toll` one after another."""
    plant = Plant(laid.program, folder)
    folder.mkdir(mode=0o700)
    for end in ("", "-wal"):
        if pathlib.Path(f"{laid.db}{end}").exists():
            shutil.copyfile(f"{laid.db}{end}", f"{plant.db}{end}")
    with plant.serve() as server:
        socket = PlantSocket(str(plant.db))
        for line, _ in zip(lines(), range(count)):
            if line.startswith("> "):
                assert server.ask(*line[2:].split(" ", 3))[0] == 200
            else:
                assert socket.ask(line.split()).output == "accepted\n"
        socket.close()
    return plant.content()


COUNTS = """
SELECT (SELECT count(*) FROM moves WHERE mkey GLOB 'X[ABCD][0-9]*') + (SELECT count(*) FROM orders WHERE ord GLOB 'Q-*')
  + (SELECT count(*) FROM lots WHERE owner = 'ACME' AND lot GLOB 'S-[0-9]*' AND disposition = 1 AND lot IN (SELECT lot FROM moves WHERE mkey GLOB 'XA*'))
"""


def count_in(plant: Plant) -> int:
    """How many lines an office has."""
    ((count,),) = plant.rows(COUNTS)
    return count


def try_loss(laid: Plant, room: pathlib.Path, seed: int, seconds: float) -> int:
    """Loses a machine, promotes the standby and looks at it; how many lines were answered."""
    chance = random.Random(seed)
    pieces = room / "pieces"
    pieces.mkdir(mode=0o700, parents=True)
    machine = Machine(laid, room / "first", pieces, chance)
    machine.pause = chance.choice((0.0, 0.003, 0.05))
    machine.serve()
    begun = time.monotonic()
    machine.follow()
    while not chain.chains_in(str(pieces)):
        time.sleep(0.02)
    late = max(0.0, time.monotonic() - begun - USUAL)  # than elsewhere, since this machine has much to do
    giving = threading.Thread(target=machine.give)
    giving.start()
    ends = time.monotonic() + seconds * chance.random()
    while (left := ends - time.monotonic()) > 0:
        time.sleep(min(left, chance.uniform(0.05, 2)))
        if chance.random() < 0.5 and ends - time.monotonic() > LIMIT + 1:
            machine.kill_something()
    at = machine.lose()
    giving.join()
    shutil.rmtree(machine.plant.folder)
    standby = Plant(laid.program, room / "standby")
    standby.folder.mkdir(mode=0o700)
    promotion = standby.run("promote", pieces)
    assert promotion.status == 0, (seed, promotion, machine.log.read_text())
    count, due = count_in(standby), sum(moment < at - LIMIT - 2 * late for moment in machine.answered)
    assert due <= count <= len(machine.answered) + 1, (seed, due, count, len(machine.answered), machine.log.read_text())
    assert standby.content() == expected(laid, count, room / "expected"), seed
    assert standby.run("verify").status == 0, seed
    shutil.rmtree(room)
    return len(machine.answered)


@pytest.mark.parametrize("seed", [0, 1, 2, pytest.param(3, marks=pytest.mark.long), pytest.param(4, marks=pytest.mark.long)])
def test_a_lost_machine_loses_three_seconds_at_most(laid, tmp_path, seed):
    try_loss(laid, tmp_path / "room", seed, 9.0)


@pytest.mark.long
@pytest.mark.parametrize("seed", range(1_000, 1_500))
def test_many_lost_machines_lose_three_seconds_at_most(laid, tmp_path, seed):
    try_loss(laid, tmp_path / "room", seed, 9.0)
