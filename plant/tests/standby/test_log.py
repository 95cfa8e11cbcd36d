"""What is read of SQLite's log, beside what SQLite itself has: of each look, the pages are those of its last commit."""
import contextlib
import os
import pathlib
import random
import sqlite3
import struct

import pytest
from following import built, follower_of, look, rows_of
from hypothesis import given
from hypothesis.strategies import binary, booleans
from hilpoven.care.standby import capture, wal

TABLE = "CREATE TABLE t (number INTEGER PRIMARY KEY, text TEXT NOT NULL)"


class Writer:
    """Another program that writes the file, and does whatever SQLite may do with its log."""

    def __init__(self, db: pathlib.Path, seed: int, page_size: int = 4096) -> None:
        self.db, self.chance, self.number = db, random.Random(seed), 0
        self.open()
        self.base.execute(f"PRAGMA page_size = {page_size}")
        self.base.execute("PRAGMA journal_mode = WAL")
        self.base.execute("PRAGMA auto_vacuum = INCREMENTAL")
        self.base.execute(TABLE)

    def open(self) -> None:
        self.base = sqlite3.connect(self.db, isolation_level=None)
        self.base.execute(f"PRAGMA wal_autocheckpoint = {self.chance.choice((0, 5, 40, 1000))}")

    def put(self) -> None:
        self.base.execute("BEGIN")
        for _ in range(self.chance.choice((1, 1, 2, 30))):
            self.number += 1
            self.base.execute("INSERT INTO t VALUES (?, ?)", (self.number, "x" * self.chance.choice((3, 300, 9000))))
        self.base.execute(self.chance.choice(("COMMIT", "COMMIT", "COMMIT", "ROLLBACK")))

    def remove(self) -> None:
        self.base.execute("DELETE FROM t WHERE number % 3 = ?", (self.chance.randrange(3),))
        self.base.execute("PRAGMA incremental_vacuum")

    def checkpoint(self) -> None:
        self.base.execute(f"PRAGMA wal_checkpoint({self.chance.choice(('PASSIVE', 'FULL', 'RESTART', 'TRUNCATE'))})")

    def again(self) -> None:
        self.base.close()
        self.open()

    def spill(self) -> None:
        """Writes pages of a transaction into the log before its end, which is given up."""
        self.base.execute("PRAGMA cache_size = 2")
        self.base.execute("BEGIN")
        for number in range(10):
            self.base.execute("INSERT INTO t VALUES (?, ?)", (10**9 + number, "y" * 9000))
        self.base.execute("ROLLBACK")
        self.base.execute("PRAGMA cache_size = -2000")

    def step(self) -> None:
        self.chance.choice((self.put, self.put, self.put, self.put, self.remove, self.checkpoint, self.again, self.spill))()

    def rows(self) -> list[tuple]:
        return self.base.execute("SELECT * FROM t ORDER BY number").fetchall()


def try_writer(folder: pathlib.Path, seed: int, page_size: int, steps: int = 40) -> None:
    """Looks at random moments; each time the pieces give what SQLite has."""
    writer = Writer(folder / "office.db", seed, page_size)
    follower, chance = follower_of(writer.db, folder / "pieces"), random.Random(-seed)
    for _ in range(steps):
        writer.step()
        if chance.random() < 0.5:
            look(follower)
            with built(folder / "pieces") as office:
                assert rows_of(office.file)["t"] == writer.rows()
        if chance.random() < 0.1:  # the follower is killed, and another one goes on
            follower = follower_of(writer.db, folder / "pieces")
    writer.base.close()


@pytest.mark.parametrize("seed", range(4))
def test_pieces_give_what_sqlite_has(tmp_path, seed):
    try_writer(tmp_path, seed, (4096, 512, 65_536, 8192)[seed % 4])


@pytest.mark.long
@pytest.mark.parametrize("seed", range(100, 300))
def test_pieces_of_many_logs_give_what_sqlite_has(tmp_path, seed):
    try_writer(tmp_path, seed, (4096, 512, 65_536, 1024)[seed % 4], 200)


def test_a_log_is_read_up_to_what_is_whole(tmp_path):
    """Whatever byte of a log is another one, what is read is what was committed before it."""
    writer = Writer(tmp_path / "office.db", 1)
    writer.base.execute("PRAGMA wal_autocheckpoint = 0")
    for _ in range(12):
        writer.put()
    log = pathlib.Path(f"{writer.db}-wal").read_bytes()
    whole = read(tmp_path, log)
    assert whole.commits > 5
    chance = random.Random(7)
    for _ in range(150):
        at = chance.randrange(32, len(log))
        changed = read(tmp_path, log[:at] + bytes([log[at] ^ 1 << chance.randrange(8)]) + log[at + 1 :])
        assert changed.end.offset <= at and changed.commits < whole.commits
        cut = read(tmp_path, log[:at])
        assert cut.end.offset <= at and cut.commits <= whole.commits
    writer.base.close()


def read(folder: pathlib.Path, log: bytes) -> wal.Pages:
    """What is read of a log."""
    (folder / "log").write_bytes(log)
    with capture.opened(str(folder / "log")) as descriptor:
        return wal.read_on(descriptor, wal.beginning(descriptor))


def sums_by_words(content: bytes, order: str, sums: tuple[int, int] = (0, 0)) -> tuple[int, int]:
    """The checksum, word by word as SQLite's page on its format has it."""
    first, second = sums
    for one, other in struct.iter_unpack(f"{order}2I", content):
        first = (first + one + second) % 2**32
        second = (second + other + first) % 2**32
    return first, second


def in_big_order(log: bytes, page_size: int) -> bytes:
    """The same log as a machine writes it whose words have their high byte first."""
    head = struct.pack(">I", wal.MAGIC | wal.BIG) + log[4:24]
    sums = sums_by_words(head, ">")
    parts = [head + struct.pack(">2I", *sums)]
    for at in range(wal.HEADER, len(log) - page_size, wal.FRAME_HEAD + page_size):
        fields, page = log[at : at + 8], log[at + wal.FRAME_HEAD : at + wal.FRAME_HEAD + page_size]
        sums = sums_by_words(fields + page, ">", sums)
        parts.append(fields + log[at + 8 : at + 16] + struct.pack(">2I", *sums) + page)
    return b"".join(parts)


@pytest.mark.parametrize("page_size", (512, 4096, 65_536))
def test_checksums_are_those_of_sqlite_in_both_orders(tmp_path, page_size, monkeypatch):
    """The magic number says in which order words are summed; SQLite writes that of the machine."""
    writer = Writer(tmp_path / "office.db", 2, page_size)
    writer.base.execute("PRAGMA wal_autocheckpoint = 0")
    for _ in range(6):
        writer.put()
    log = pathlib.Path(f"{writer.db}-wal").read_bytes()
    writer.base.close()
    own, other = read(tmp_path, log), read(tmp_path, in_big_order(log, page_size))
    assert log[:4] == b"\x37\x7f\x06\x82" and own.commits > 2 and read(tmp_path, log[: wal.HEADER]).commits == 0
    assert (own.content, own.commits, own.end.frames) == (other.content, other.commits, other.end.frames)
    monkeypatch.setattr(wal, "CHUNK", 3 * (page_size + wal.FRAME_HEAD))
    assert read(tmp_path, log) == own and read(tmp_path, in_big_order(log, page_size)) == other


@given(content=binary(min_size=8, max_size=400).map(lambda content: content[: len(content) // 8 * 8]), is_big=booleans())
def test_a_checksum_is_that_of_its_words(content, is_big):
    assert wal.sums_behind(content, [(0, 0)], is_big) == [sums_by_words(content, ">" if is_big else "<")]


def test_frames_that_were_written_over_are_told_as_a_gap(tmp_path):
    writer = Writer(tmp_path / "office.db", 3)
    writer.base.execute("PRAGMA wal_autocheckpoint = 0")
    writer.put()
    watch = capture.beginning(str(writer.db))
    assert watch.advance().commits and watch.advance() is None
    for _ in range(5):
        writer.put()
    writer.base.execute("PRAGMA wal_checkpoint(RESTART)")
    for _ in range(60):
        writer.base.execute("INSERT OR REPLACE INTO t VALUES (1, 'z')")
    with pytest.raises(capture.Gap):
        watch.advance()
    writer.base.close()


def test_the_file_is_never_opened_by_sqlite(tmp_path, monkeypatch):
    """A second reader of SQLite's would be a fault of the disk to the server."""
    writer = Writer(tmp_path / "office.db", 4)
    writer.put()
    monkeypatch.setattr(sqlite3, "connect", lambda *_, **__: pytest.fail("SQLite was opened"))
    look(follower_of(writer.db, tmp_path / "pieces"))
    assert {path.suffix for path in (tmp_path / "pieces").iterdir()} <= {".snapshot", ".piece"}
    with contextlib.suppress(FileNotFoundError):
        os.unlink(f"{writer.db}-none")
    writer.base.close()


def test_a_header_that_is_written_anew_hides_nothing(tmp_path):
    """While `toll` empties a log, its first byte is 0, between two syncs. What was committed before is read on."""
    writer = Writer(tmp_path / "office.db", 5)
    writer.base.execute("PRAGMA wal_autocheckpoint = 0")
    writer.put()
    watch = capture.beginning(str(writer.db))
    first = watch.advance()
    writer.base.execute("INSERT OR REPLACE INTO t VALUES (1, 'z')")
    log = os.open(f"{writer.db}-wal", os.O_RDWR)
    os.pwrite(log, b"\0", 0)
    assert watch.advance().commits == 1 and watch.advance() is None
    os.pwrite(log, b"\x37", 0)
    writer.base.execute("INSERT OR REPLACE INTO t VALUES (1, 'y')")
    assert first.commits and watch.advance().commits == 1
    os.ftruncate(log, 20)
    with pytest.raises(capture.Gap):
        watch.advance()
    os.close(log)
    writer.base.close()


def test_all_of_a_file_is_read_while_its_log_runs_away(tmp_path, monkeypatch):
    """The log begins anew twice between two readings. Another look is made, in which only what changed is written, without the lock."""
    writer = Writer(tmp_path / "office.db", 6)
    writer.base.execute("PRAGMA wal_autocheckpoint = 0")
    for number in range(400):
        writer.base.execute("INSERT INTO t VALUES (?, ?)", (10_000 + number, "x" * 9000))
    writer.base.execute("PRAGMA wal_checkpoint(RESTART)")
    writer.put()
    follower = follower_of(writer.db, tmp_path / "pieces")
    monkeypatch.setattr(capture.lock, "held", lambda *_: pytest.fail("the lock was taken"))
    emitted, calls = [], iter(range(100))

    def run_away() -> None:
        for _ in range(2 if next(calls) in (2, 4) else 0):
            writer.base.execute("UPDATE t SET text = text || 'y' WHERE number = 10000")
            writer.base.execute("PRAGMA wal_checkpoint(RESTART)")
            writer.base.execute("UPDATE t SET text = text || 'z' WHERE number = 10000")

    with follower.book.writer("snapshot", 0) as piece:

        def emit(number: int, page: bytes) -> None:
            emitted.append(number)
            piece.page(number, page)

        looked = capture.Scan(str(writer.db), 1.0, emit, capture.Digests(), run_away).look()
        follower.book.finish(piece, looked.watch.place, looked.page_size, looked.size)
    assert looked.size <= len(emitted) < looked.size + 20 and next(calls) > 8
    with built(tmp_path / "pieces") as office:
        assert rows_of(office.file)["t"] == writer.rows()
    writer.base.close()


def test_a_file_that_runs_away_in_each_look_is_told_and_nothing_is_made_of_it(tmp_path):
    writer = Writer(tmp_path / "office.db", 7)
    writer.put()
    follower = follower_of(writer.db, tmp_path / "pieces")

    def run_away() -> None:
        for _ in range(2):
            writer.base.execute("INSERT OR REPLACE INTO t VALUES (1, 'z')")
            writer.base.execute("PRAGMA wal_checkpoint(RESTART)")

    follower.write_between = run_away
    with pytest.raises(capture.Failure, match="its log began anew"):
        look(follower)
    assert list((tmp_path / "pieces").iterdir()) == []
    del follower.write_between
    look(follower)
    with built(tmp_path / "pieces") as office:
        assert rows_of(office.file)["t"] == writer.rows()
    writer.base.close()
