"""What is on the disk before a piece has its name, and what a follower holds while the disk is full."""
import contextlib
import os
import pathlib
import sqlite3

import pytest
from following import built, follower_of, look, rows_of
from hilpoven.care.standby.state import Saved

MOST = 64_000_000  # bytes of pages that docs/standby.md lets a follower hold
NAMED = (".piece", ".snapshot")


@pytest.fixture
def written(tmp_path) -> sqlite3.Connection:
    """A file with a log, which somebody writes."""
    with contextlib.closing(sqlite3.connect(tmp_path / "office.db", isolation_level=None)) as base:
        base.execute("PRAGMA journal_mode = WAL")
        base.execute("PRAGMA wal_autocheckpoint = 0")
        base.execute("CREATE TABLE t (number INTEGER PRIMARY KEY, content BLOB)")
        yield base


def content_of(descriptor: int) -> tuple[int, bytes]:
    """Which file is open, and its bytes; of a folder its names."""
    state = os.fstat(descriptor)
    path = f"/proc/self/fd/{descriptor}"
    return state.st_ino, pathlib.Path(path).read_bytes() if os.path.isfile(path) else repr(sorted(os.listdir(path))).encode()


def test_a_piece_has_its_name_when_its_bytes_and_the_name_before_it_are_on_the_disk(tmp_path, written, monkeypatch):
    """A machine that stops loses what no fsync has brought to the disk."""
    folder, on_disk, named = tmp_path / "pieces", dict[int, bytes](), list[str]()
    real_fsync, real_rename = os.fsync, os.rename

    def fsync(descriptor: int) -> None:
        real_fsync(descriptor)
        on_disk.update([content_of(descriptor)])

    def rename(source: str, target: str) -> None:
        if target.endswith(NAMED):
            assert on_disk.get(os.stat(source).st_ino) == pathlib.Path(source).read_bytes(), f"{target} isn't on the disk"
            assert set(named) <= set(eval(on_disk[os.stat(folder).st_ino])), "the names before it aren't on the disk"
            named.append(os.path.basename(target))
        real_rename(source, target)

    follower = follower_of(tmp_path / "office.db", folder)
    monkeypatch.setattr(os, "fsync", fsync)
    monkeypatch.setattr(os, "rename", rename)
    look(follower)
    for number in range(3):
        written.execute("INSERT INTO t VALUES (?, ?)", (number, b"x" * 9000))
        look(follower)
    follower.make_snapshot()
    assert len(named) == 5 and {os.path.splitext(name)[1] for name in named} == set(NAMED)


def test_pieces_and_the_state_are_for_their_user_alone(tmp_path, written):
    """Whatever the process's mask is: they hold all of an office, with its owners' keys."""
    folder, before = tmp_path / "pieces", os.umask(0)
    try:
        follower = follower_of(tmp_path / "office.db", folder)
        look(follower)
        written.execute("INSERT INTO t VALUES (1, x'00')")
        look(follower)
        assert Saved(str(folder)).save(follower.state)
    finally:
        os.umask(before)
    modes = {path.suffix: path.stat().st_mode & 0o777 for path in folder.iterdir()}
    assert modes == {".snapshot": 0o600, ".piece": 0o600, ".json": 0o600}


def test_pages_that_wait_for_the_disk_don_t_fill_the_memory(tmp_path, written):
    """What is given up is found when there is room, by a look at all of the file."""
    folder = tmp_path / "pieces"
    follower = follower_of(tmp_path / "office.db", folder)
    look(follower)
    follower.turn()
    follower.book.reserve = 10**18
    held = []
    for number in range(12):
        written.execute("INSERT INTO t VALUES (?, ?)", (number, os.urandom(9_000_000)))
        follower.written = 0.0  # so that it is time for a piece
        follower.turn()
        held.append(follower.held)
    assert "kept for the office" in follower.fault and max(held) <= MOST and sum(held) > 0
    follower.book.reserve = 0
    follower.written = 0.0
    follower.turn()
    assert follower.fault == "" and follower.pause < 1
    with built(folder) as office:
        assert rows_of(office.file) == {"t": written.execute("SELECT * FROM t ORDER BY number").fetchall()}
