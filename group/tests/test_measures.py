"""What a group takes, which has no right or wrong but for the recalls, which are those of sets: run by hand, `pytest -m long -s group/tests/test_measures.py`.

PLANTS=20 OWNERS=64 BATCHES=260 are 2.5 million movements.
"""
import contextlib
import os
import random
import statistics
import time

import pytest
from hilpoven.model.genealogy import BACK, FORWARD
from hilpoven_group import database, recalls
from group_of_plants import OWNERS
from test_recalls import Works, names_of

PLANTS, OWNER_COUNT, BATCHES = (int(os.environ.get(name, default)) for name, default in (("PLANTS", 4), ("OWNERS", 2), ("BATCHES", 600)))  # BATCHES of an owner in a file
SAMPLE = int(os.environ.get("SAMPLE", "100"))  # lots whose recalls are taken both ways


def processor(pid: int) -> float:
    """Seconds of processor that another process of this machine took."""
    with open(f"/proc/{pid}/stat") as file:
        fields = file.read().rsplit(")", 1)[1].split()
    return (int(fields[11]) + int(fields[12])) / os.sysconf("SC_CLK_TCK")


@pytest.mark.long
def test_measures(group):
    works = Works(group, 1, plants=PLANTS, batches=BATCHES, owners=(*OWNERS, *(f"OWNER{at}" for at in range(3, OWNER_COUNT + 1))))
    works.happen()
    rows, spent, server, wall = 0, 0.0, 0.0, 0.0
    for plant in works.plants:
        with plant.publisher() as publish:
            publish.resume()
            started, begun, before = time.monotonic(), time.process_time(), processor(publish.base.info.backend_pid)
            rows += publish.step()
            spent, server = spent + time.process_time() - begun, server + processor(publish.base.info.backend_pid) - before
            wall += time.monotonic() - started
    moves, size = group.rows("SELECT count(*), pg_database_size(current_database()) FROM hg.moves")[0]
    print(f"\n{PLANTS} offices of {OWNER_COUNT} owners: {rows} rows ({moves} movements, {size / 1e6:.0f} MB) in {spent:.1f} s of the publisher's processor and {server:.1f} s of the server's: "
          f"{rows / (spent + server):.0f} a second of both, {rows / max(spent, server):.0f} where each has one, {rows / wall:.0f} by the clock")
    group.rows("ANALYZE; SELECT 1")
    sets, names = works.sets(), names_of(group)
    times, walls, sizes = [], [], []
    with contextlib.closing(group.cluster.connect(group.name)) as base:
        pid = base.info.backend_pid
        for lot in random.Random(1).sample(sorted(names), SAMPLE):
            for way in (FORWARD, BACK):
                started, begun = time.monotonic(), time.process_time() + processor(pid)
                traced = recalls.trace(base, lot, way)
                times.append(time.process_time() + processor(pid) - begun)
                walls.append(time.monotonic() - started)
                sizes.append(len(traced.steps))
                assert {names[number]: steps for number, steps in traced.steps.items()} == sets.trace(names[lot], way)
        print(f"{len(times)} recalls equal sets: {statistics.mean(sizes):.0f} lots (most {max(sizes)}): {1000 * statistics.mean(times):.0f} ms of processor in the mean, "
              f"most {1000 * max(times):.0f}; {1000 * statistics.mean(walls):.0f} ms by the clock")
        begun = time.process_time() + processor(pid)
        heads = len(database.rows(base, "SELECT n FROM hg.computed_heads(NULL)"))
        print(f"{heads} heads computed in {time.process_time() + processor(pid) - begun:.1f} s of processor")
