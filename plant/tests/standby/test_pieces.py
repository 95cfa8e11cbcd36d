"""What may happen to pieces on a disk and on the way: each damage is named, and no office is made past it."""
import os
import pathlib
import shutil

import pytest
from conftest import Plant
from following import follower_of, look
from hilpoven.care.standby import book, chain, piece

LAST = 6


@pytest.fixture
def pieces(at_work) -> pathlib.Path:
    """A snapshot, pieces 1 to 6 of a unit each, and a snapshot behind piece 3."""
    folder = at_work.folder / "pieces"
    follower = follower_of(at_work.db, folder, f"{os.uname().nodename}:{at_work.db}")
    look(follower)
    for number in range(1, LAST + 1):
        assert at_work.run("unit-add", f"U-{number}").status == 0
        look(follower)
        if number == 3:
            follower.make_snapshot()
    of = chain.newest_in(str(folder))
    assert list(of.pieces) == list(range(1, LAST + 1)) and list(of.snapshots) == [0, 3]
    return folder


@pytest.fixture
def standby(program, tmp_path) -> Plant:
    (tmp_path / "standby").mkdir(mode=0o700)
    return Plant(program, tmp_path / "standby")


def at(folder: pathlib.Path, number: int, end: str = "piece") -> pathlib.Path:
    """The file of a number."""
    (path,) = folder.glob(f"*-{number:08}.{end}")
    return path


def units(plant: Plant) -> list[str]:
    """The units that were added since the snapshot."""
    return sorted(unit for unit, in plant.rows("SELECT unit FROM units WHERE unit LIKE 'U-%'"))


def cut(folder: pathlib.Path) -> None:
    os.truncate(at(folder, 5), at(folder, 5).stat().st_size - 1)


def cut_head(folder: pathlib.Path) -> None:
    os.truncate(at(folder, 5), 100)


def empty(folder: pathlib.Path) -> None:
    os.truncate(at(folder, 5), 0)


def longer(folder: pathlib.Path) -> None:
    with open(at(folder, 5), "ab") as file:
        file.write(b"x")


def flip(path: pathlib.Path, place: int) -> None:
    content = bytearray(path.read_bytes())
    content[place] ^= 1
    path.write_bytes(content)


def changed(folder: pathlib.Path) -> None:
    flip(at(folder, 5), piece.HEAD + 1_000)


def changed_head(folder: pathlib.Path) -> None:
    flip(at(folder, 5), 60)


def missing(folder: pathlib.Path) -> None:
    at(folder, 5).unlink()


def doubled(folder: pathlib.Path) -> None:
    shutil.copyfile(at(folder, 4), at(folder, 5))


def reordered(folder: pathlib.Path) -> None:
    one, two = at(folder, 5), at(folder, 6)
    os.rename(one, folder / "aside")
    os.rename(two, one)
    os.rename(folder / "aside", two)


def of_another_chain(folder: pathlib.Path) -> None:
    """Piece 5 of another chain of the same office, under this one's name."""
    original = piece.opened(str(at(folder, 5))).header
    header = original.__class__(**{**original.__dict__, "chain": "0" * 12})
    content = at(folder, 5).read_bytes()[piece.HEAD :]
    at(folder, 5).write_bytes(header.as_bytes() + content)


def replaced(folder: pathlib.Path) -> None:
    """Piece 5 with another time, whole in itself."""
    original = piece.opened(str(at(folder, 5))).header
    header = original.__class__(**{**original.__dict__, "at": "2020-01-01T00:00:00.000Z"})
    content = at(folder, 5).read_bytes()[piece.HEAD :]
    at(folder, 5).write_bytes(header.as_bytes() + content)


FAULTS = {
    cut: "00000005.piece is cut", cut_head: "00000005.piece is cut", empty: "00000005.piece is cut", longer: "00000005.piece is longer than it was",
    changed: "00000005.piece was changed", changed_head: "00000005.piece was changed", missing: "piece 5 of", doubled: "00000004.piece once more: it is doubled",
    reordered: "in another one's place", of_another_chain: "in another one's place", replaced: "00000006.piece doesn't follow the piece before it",
}


@pytest.mark.parametrize("damage", FAULTS)
def test_a_damaged_piece_is_named_and_nothing_is_made_of_it(at_work, pieces, standby, damage):
    damage(pieces)
    done = at_work.run("follow", "verify", pieces)
    assert done.status == 1 and FAULTS[damage] in done.out, done
    done = standby.run("promote", pieces)
    assert done.status == 1 and "pieces can't be used" in done.err and FAULTS[damage] in done.err, done
    assert list(standby.folder.iterdir()) == [] and not list(pieces.glob("promoted-*"))
    last = 5 if damage is replaced else 4
    assert f"promote --until {last}" in done.err
    assert standby.run("promote", "--until", 6, pieces).status == 1
    assert standby.run("promote", "--until", last, pieces).status == 0
    assert units(standby) == [f"U-{unit}" for unit in range(1, last + 1)] and standby.run("verify").status == 0


def test_a_damaged_snapshot_is_passed_over(at_work, pieces, standby):
    flip(at(pieces, 3, "snapshot"), piece.HEAD + 5_000)
    assert "00000003.snapshot was changed" in at_work.run("follow", "verify", pieces).out
    done = standby.run("promote", pieces)
    assert done.status == 0 and "not used: " in done.err and units(standby) == [f"U-{unit}" for unit in range(1, LAST + 1)]


def test_a_gap_before_a_snapshot_costs_nothing(pieces, standby):
    at(pieces, 2).unlink()
    done = standby.run("promote", pieces)
    assert done.status == 0 and "piece 2 of" in done.err and units(standby) == [f"U-{unit}" for unit in range(1, LAST + 1)]


def test_without_a_snapshot_there_is_no_office(pieces, standby):
    for number in (0, 3):
        at(pieces, number, "snapshot").unlink()
    done = standby.run("promote", pieces)
    assert done.status == 1 and "no snapshot of" in done.err and list(standby.folder.iterdir()) == []
    assert standby.run("promote", standby.folder).status == 2


@pytest.mark.parametrize("number", range(LAST + 1))
def test_each_piece_gives_the_office_of_its_time(pieces, standby, number):
    assert standby.run("promote", "--until", number, pieces).status == 0
    assert units(standby) == [f"U-{unit}" for unit in range(1, number + 1)]
    words = [line["words"][1] for line in standby.lines() if line["event"] == "asked" and line["words"][0] == "unit-add"]
    assert words == [f"U-{unit}" for unit in range(1, LAST + 1)]  # the journal has all that pieces have of it


def test_a_follower_goes_on_behind_a_damaged_chain_with_a_new_one(at_work, pieces, standby):
    os.truncate(at(pieces, LAST), 10)
    follower = follower_of(at_work.db, pieces, f"{os.uname().nodename}:{at_work.db}")
    look(follower)
    assert "can't be continued" in follower.messages[0] and len(chain.chains_in(str(pieces))) == 2
    assert standby.run("promote", pieces).status == 0 and standby.content() == at_work.content()


def test_a_damaged_chain_doesn_t_lead_back_to_an_older_one(at_work, pieces, standby):
    shutil.copytree(pieces, pieces.with_name("kept"))
    shutil.rmtree(pieces)
    pieces.mkdir(mode=0o700)
    name = f"{os.uname().nodename}:{at_work.db}"
    look(follower_of(at_work.db, pieces, name))  # another chain, which ends later
    for path in pieces.with_name("kept").iterdir():
        shutil.copy2(path, pieces / path.name)
    assert at_work.run("unit-add", "LAST").status == 0
    newest = chain.newest_in(str(pieces))
    look(follower_of(at_work.db, pieces, name))
    assert chain.newest_in(str(pieces)).name == newest.name
    os.truncate(chain.newest_in(str(pieces)).newest, 10)
    done = standby.run("promote", pieces)
    assert done.status == 1 and "is cut" in done.err and not standby.db.exists()


def test_a_page_that_no_piece_has_is_found_by_the_next_snapshot(at_work, pieces, standby):
    """As if a look had missed it."""
    follower = follower_of(at_work.db, pieces, f"{os.uname().nodename}:{at_work.db}")
    look(follower)
    follower.digests = follower.book.digests()
    follower.digests.of[1] = b"another page"
    assert at_work.run("unit-add", "OVEN").status == 0
    look(follower)
    follower.digests.of[1] = b"another page"
    follower.make_snapshot()
    assert "weren't as the pieces have them" in follower.messages[-1]
    assert standby.run("promote", pieces).status == 0 and standby.content() == at_work.content()


def test_a_day_has_a_snapshot_and_old_ones_go(at_work, pieces, standby, monkeypatch):
    follower = follower_of(at_work.db, pieces, f"{os.uname().nodename}:{at_work.db}")
    follower.days = 2
    look(follower)
    real = book.now()
    for number, day in enumerate(("2030-01-01", "2030-01-02", "2030-01-03", "2030-01-04")):
        at_time = chain.seconds_of(f"{day}T00:00:01.000Z")
        monkeypatch.setattr(book, "now", lambda day=day: f"{day}{real[10:]}")
        monkeypatch.setattr(chain.time, "time", lambda at_time=at_time: at_time)
        assert at_work.run("unit-add", f"DAY-{number}").status == 0
        look(follower)
        look(follower)
    kept = chain.newest_in(str(pieces))
    days = [piece.opened(path).header.at[:10] for path in kept.snapshots.values()]
    assert days == ["2030-01-02", "2030-01-03", "2030-01-04"] and min(kept.pieces) == kept.first_snapshot + 1 and len(chain.chains_in(str(pieces))) == 1
    monkeypatch.undo()
    assert standby.run("promote", pieces).status == 0 and standby.content() == at_work.content()
