"""A case from a supplier's lot over three files of 64 full owners: found in 60 seconds of processor, and all of it held in one step beside a server, with what could not be."""
import re
import resource

import full_files
import pytest
from conftest import Plant, site
from hilpoven.cli import caller

OWNERS, SECONDS = 64, 60
OF_OWNER = 50  # lots of each that the supplier's lot went into: 6, 14 and 30 in the three files


def processors(done) -> float:
    """The seconds of processor that a process took."""
    before = resource.getrusage(resource.RUSAGE_CHILDREN)
    out, err = done.communicate()
    after = resource.getrusage(resource.RUSAGE_CHILDREN)
    done.out, done.err = out, err
    return after.ru_utime + after.ru_stime - before.ru_utime - before.ru_stime


def try_case(plant: Plant, owners: int) -> tuple[float, float]:
    """Opens a case, and holds all of it; the seconds of its status and of holding."""
    full_files.make(plant, owners)
    with plant.serve():
        done = plant.run("case", "open", "--supplier-lot", full_files.SUPPLIERS_LOT, "--reason", "metal")
        assert done.status == 0 and "lot HOUSE W-1: receive K1" in done.out
        took = processors(status := plant.begun("case", "status"))
        lots = OF_OWNER * owners + 1
        assert f"lots: {lots:,}, of which {lots:,} are on hand and 0 of these held" in status.out, status
        assert f"customers that answered: 0 of {2 * owners:,}, 0.0 %" in status.out and f"0 of {9_000 * owners:,}, 0.0 %" in status.out
        held = processors(holding := plant.begun("case", "hold"))
        running, idle = (sum(number % 3 == kind for number in range(owners)) for kind in (0, 1))
        assert re.search(rf"^held: {lots + running:,}$", holding.out, re.M) and re.search(rf"^could not be held: {idle:,}$", holding.out, re.M), holding.out
        assert holding.returncode == (1 if idle else 0) and "isn't held then: don't go on with it" in holding.out
        assert f"held before: {lots + running:,}" not in holding.out and "0 of these held" not in plant.run("case", "status").out
    return took, held


@pytest.fixture
def empty(plant, monkeypatch):
    """A folder with no office yet, for whoever is nobody in particular."""
    monkeypatch.setenv("TOLL", plant.program)
    monkeypatch.setenv("HILPOVEN_SETTINGS", str(site.load.__defaults__[0]))
    monkeypatch.setattr(caller, "login_number", lambda: caller.NOBODY)
    return plant


@pytest.mark.long
def test_a_case_over_three_files_of_64_full_owners_is_found_and_held_in_60_seconds(empty):
    took, held = try_case(empty, OWNERS)
    print(f"{took:.1f} s of processors for the status, {held:.1f} s to hold")
    assert took < SECONDS and held < SECONDS
