"""A recall of 64 full owners with 1,000 links, beside a server, in five seconds."""
import os
import resource
import time
import types
from random import Random

import pytest
from conftest import Plant
from hilpoven.core.journal.log import Journal
from hilpoven.model import gauge
from hilpoven.model.below import HEADING
from hilpoven.model.notes import Link, Why
from hilpoven.model.register.noted import to_json

LINKS, SECONDS = 1_000, 5


def note_links(plant: Plant) -> None:
    """Notes links of all owners: of lots, and of batches that stand for theirs, of own lots and of HOUSE's."""
    random, journal = Random(1), Journal(str(plant.journal), str(plant.db))
    lots, batches = plant.rows("SELECT owner, lot FROM lots WHERE owner <> 'HOUSE'"), plant.rows("SELECT owner, ord, number FROM batches")
    of_owner: dict[str, list[str]] = {}
    for owner, lot in lots:
        of_owner.setdefault(owner, []).append(lot)
    for number in range(LINKS):
        owner, name, *batch = random.choice(batches if number % 3 == 0 else lots)
        lot, order, batch_number = ("", name, batch[0]) if batch else (name, "", 0)
        contained = ("HOUSE", "W-1") if number % 5 == 0 else (owner, random.choice(of_owner[owner]))
        link = Link(owner, lot, order, batch_number, *contained, random.choice(list(Why)))
        journal.note(journal.file, ["link"], notes=[to_json(link)])


@pytest.mark.long
def test_a_recall_of_64_full_owners_with_1000_links_takes_5_seconds(program, tmp_path):
    from bench import offices

    plant = Plant(program, tmp_path)
    offices.at_the_limits(types.SimpleNamespace(plant=plant.toll, db=plant.db), gauge.OWNERS)
    note_links(plant)
    with plant.serve():
        text = plant.toll("recall", "HOUSE", "W-1").out
        before, began = resource.getrusage(resource.RUSAGE_CHILDREN), time.monotonic()
        with plant.begun("recall", "HOUSE", "W-1") as begun:
            out, err = begun.communicate()
        clock, after = time.monotonic() - began, resource.getrusage(resource.RUSAGE_CHILDREN)
    processors = after.ru_utime + after.ru_stime - before.ru_utime - before.ru_stime
    print(f"{clock:.1f} s by the clock, {processors:.1f} s of processors")
    assert begun.returncode == 0 and err == "" and out.startswith(text) and out.removeprefix(text).startswith(HEADING) and out.count("*\n") > 100
    assert clock < SECONDS or os.getloadavg()[0] > len(os.sched_getaffinity(0)) and processors < SECONDS
