"""Publishers that are killed, also two at a time, a server that loses its power while an office is at work, and an office that is set back: nothing is
lost, nothing comes twice."""
import contextlib
import os
import random
import shutil
import signal
import sqlite3
import time

import pytest
from group_of_plants import Plant
from hilpoven.core.failure import Failure
from test_publishing import busy

SERVER = (25, 50, 75)  # behind which kills of publishers the server stops, too


def begun(plant: Plant) -> int:
    """A publisher as a process of its own, which goes on until it is killed."""
    if process := os.fork():
        return process
    try:
        with plant.publisher() as publish:
            publish.run()
    finally:
        os._exit(1)


def rows_of(group) -> int:
    """How many rows the group has."""
    return group.rows("SELECT coalesce(sum(n), 0) FROM hg.heads")[0][0]


def killed(group, kills: int, servers: tuple[int, ...] = (), at_once: int = 1) -> None:
    """Kills publishers at any time, so many at once, while rows come into the office."""
    plant, dice = group.plant("NORTH"), random.Random(1)
    group.chunk = 20
    with contextlib.closing(sqlite3.connect(plant.file)) as held:
        for at in range(1, kills + 1):
            busy(plant, at)
            held.execute("SELECT count(*) FROM lots").fetchone()
            enough = rows_of(group) + dice.randrange(1, 24)  # of 26 that come into the office
            processes = [begun(plant) for _ in range(at_once)]
            while rows_of(group) < enough:
                assert os.waitpid(processes[0], os.WNOHANG) == (0, 0), "a publisher ended by itself"
                time.sleep(0.002)
            if dice.random() < 0.5:
                busy(plant, 10_000 + at)
            if at in servers:
                group.cluster.stop("immediate")
                group.cluster.start()
            for process in processes:
                os.kill(process, signal.SIGKILL)
                os.waitpid(process, 0)
    known = rows_of(group)
    with plant.publisher() as publish:
        left = publish.step() or publish.step()
        assert publish.step() == 0
        rows = sum(head.n for head in publish.at.heads.values())
    print(f"\n{kills} times {at_once} publishers and {len(servers)} servers killed; {rows} rows, of which {known} were there before the last publisher")
    assert left is not None and known > rows // 2
    assert plant.differences() == []


def test_publishers_that_are_killed_lose_and_double_nothing(group):
    killed(group, 4)


@pytest.mark.long
def test_100_publishers_and_servers_that_are_killed_lose_and_double_nothing(group):
    killed(group, 100, SERVER)


@pytest.mark.long
def test_100_pairs_of_publishers_lose_and_double_nothing(group):
    killed(group, 100, at_once=2)


def rows_ever(group) -> set[tuple]:
    """The movements that the group has, or put aside."""
    return set(group.rows("SELECT gid, mkey, lot, amount FROM hg.moves UNION SELECT gid, was->>'mkey', was->>'lot', (was->>'amount')::bigint FROM hg.retracted WHERE tbl = 'moves'"))


@pytest.mark.long
def test_an_office_that_is_set_back_100_times_waits_for_a_person_and_loses_nothing(group):
    plant, dice, kept = group.plant("NORTH"), random.Random(1), group.folder / "kept"
    for at in range(100):
        busy(plant, 3 * at)
        with contextlib.closing(sqlite3.connect(plant.file)) as base, contextlib.closing(sqlite3.connect(kept)) as target:
            base.backup(target)
        if dice.random() < 0.5:
            assert plant.publish() > 0
        busy(plant, 3 * at + 1)
        assert plant.publish() > 0
        content, confirmed = group.content(), rows_ever(group)
        for end in ("-wal", "-shm"):
            plant.file.with_name(f"office.db{end}").unlink(missing_ok=True)
        shutil.move(kept, plant.file)
        if dice.random() < 0.5:
            busy(plant, 3 * at + 2)  # in the place of what is gone
        with pytest.raises(Failure, match="set back"):
            plant.publish()
        assert group.content() == content
        with plant.publisher() as publish:
            publish.retract(publish.resume(), "a test")
            assert publish.step() is not None
        assert plant.differences() == [] and confirmed <= rows_ever(group)
