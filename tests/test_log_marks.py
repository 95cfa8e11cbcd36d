"""The mark of a log's last commit in FILE.lock: what an opening says of a log that was cut or changed while no program
had the file, and that nothing else makes it say so."""
import errno
import os
import pathlib
import random
import shutil
import subprocess
import threading
import time
from collections.abc import Callable
from typing import Any

import pytest

from tests.harness import ACCEPTED, FAIL, KILLED_AFTER, KILLED_BEFORE, PATIENCE, SHORT, TORN, UNAVAILABLE, Disk
from tests.harness import Office, Result, Server, content, fault, put

DAMAGED = fault("Damaged")
ORDER = '> ACME ACMEKEY1 POST /orders {"order":"N-%d","recipe":"R","batches":1}'
ORDERS = "> ACME ACMEKEY1 GET /orders"
FRAME_BYTES = 24 + 4096
MARK_BYTES = 88
READS_OF_A_LOOK = 12  # at the least, by which an opening looks for a marked commit of three orders


def log_of(office: Office) -> pathlib.Path:
    return pathlib.Path(f"{office.db}-wal")


def lock_of(office: Office) -> pathlib.Path:
    return pathlib.Path(f"{office.db}.lock")


def files_of(office: Office) -> list[bytes | None]:
    return [path.read_bytes() if path.exists() else None for path in (pathlib.Path(office.db), log_of(office))]


def place_orders(office: Office, count: int, placed: int = 0) -> None:
    """Has a server answer the orders up to so many, of which some are placed, and kills it: they are in the log
    alone."""
    with office.serve() as server:
        for number in range(placed, count):
            assert server.ask(ORDER % number).startswith("200 ")


def list_orders(office: Office) -> None:
    """Has a server read what an earlier one left, and kills it."""
    with office.serve() as server:
        assert server.ask(ORDERS).startswith("200 ")


def has_orders(listed: str, count: int) -> bool:
    return all(f"N-{number} " in listed or f'"N-{number}"' in listed for number in range(count))


def outcome(office: Office, count: int, by_server: bool) -> str:
    """How the next opening ends, by a server or by words: with all orders, with a loss that is told, and nothing
    written then, or wrongly."""
    before = files_of(office)
    if by_server:
        with office.serve() as server:
            reply = server.ask(ORDERS)
            is_told = reply == UNAVAILABLE and server.lines() == ["fault Damaged began"]
        is_whole = reply.startswith("200 ") and has_orders(reply, count)
    else:
        answer = office.plant("orders", "ACME")
        is_told = answer == DAMAGED
        is_whole = answer.status == 0 and has_orders(answer.out, count)
    if is_whole:
        return "whole"
    return "told" if is_told and files_of(office) == before else f"lost by {'server' if by_server else 'words'}"


# Logs that were changed or cut at rest


def frames_in(log: bytes) -> int:
    """How many frames a log has."""
    frames = 0
    while log[32 + frames * FRAME_BYTES + 8 :][:8] == log[16:24]:
        frames += 1
    return frames


def harm(log: pathlib.Path, chance: random.Random) -> None:
    """Changes a byte of a log's header or frames, or cuts it within them or removes it."""
    harmed = bytearray(log.read_bytes())
    end = 32 + frames_in(harmed) * FRAME_BYTES
    at = chance.choice([chance.randrange(32), chance.randrange(end), chance.randrange(end)])
    match chance.choice(["change", "change", "cut", "cut", "remove"]):
        case "change":
            harmed[at] ^= 1 << chance.randrange(8)
            log.write_bytes(harmed)
        case "cut":
            log.write_bytes(harmed[:at])
        case _:
            log.unlink()


def outcome_of_harm(new: Callable[[], Office], work: str, seed: int) -> str:
    chance = random.Random(seed)
    office, count = new(), chance.randrange(1, 21)
    put(work, office.db)
    place_orders(office, count)
    if chance.random() < 0.5:
        list_orders(office)
    harm(log_of(office), chance)
    ended = outcome(office, count, chance.random() < 0.5)
    shutil.rmtree(office.folder)
    return ended


@pytest.mark.parametrize("seeds", [range(12), pytest.param(range(12, 212), marks=pytest.mark.long)], ids=["12", "200"])
def test_a_log_that_was_changed_or_cut_at_rest_is_damaged_or_whole(
    new: Callable[[], Office], work: str, seeds: range
) -> None:
    outcomes = {seed: outcome_of_harm(new, work, seed) for seed in seeds}
    assert {seed: ended for seed, ended in outcomes.items() if ended not in ("told", "whole")} == {}
    assert list(outcomes.values()).count("told") > len(seeds) / 2


def test_behind_a_damaged_log_the_office_opens_once_its_bytes_or_no_lock_is_there(at_work: Office) -> None:
    place_orders(at_work, 3)
    log = log_of(at_work)
    whole = log.read_bytes()
    log.write_bytes(whole[: 32 + (frames_in(whole) - 1) * FRAME_BYTES])
    assert [outcome(at_work, 3, by_server) for by_server in (False, True, False)] == ["told"] * 3
    log.write_bytes(whole)
    assert outcome(at_work, 3, by_server=True) == "whole"
    log.write_bytes(whole[: 32 + (frames_in(whole) - 1) * FRAME_BYTES])
    lock_of(at_work).unlink()
    answer = at_work.plant("orders", "ACME")
    assert answer.status == 0 and has_orders(answer.out, 2)


def test_a_mark_is_taken_out_when_the_log_is_in_the_file(at_work: Office) -> None:
    place_orders(at_work, 1)
    assert lock_of(at_work).stat().st_size == MARK_BYTES
    assert at_work.plant("unit-add", "U7") == ACCEPTED
    assert lock_of(at_work).stat().st_size == 0
    with at_work.serve(count=1) as server:
        assert server.ask(ORDER % 1).startswith("200 ")
        server.process.wait()
    assert lock_of(at_work).stat().st_size == 0 and outcome(at_work, 2, by_server=False) == "whole"


def test_a_lock_that_is_longer_than_a_mark_keeps_its_bytes(at_work: Office) -> None:
    lines = "4711\n" * 40
    lock_of(at_work).write_text(lines)
    place_orders(at_work, 2)
    assert lock_of(at_work).read_text() == lines
    assert at_work.plant("unit-add", "U7") == ACCEPTED
    assert lock_of(at_work).read_text() == lines and outcome(at_work, 2, by_server=False) == "whole"


# What is no loss


def sqlite(statement: str, *options: str) -> Callable[[Office], Any]:
    """What sqlite3 does to FILE."""
    return lambda office: subprocess.run(["sqlite3", office.db, *options, statement], check=True, capture_output=True)


def copy_in_its_place(office: Office) -> None:
    """A copy of FILE and its log, with the times of theirs, in their place."""
    for end in ("", "-wal"):
        if os.path.exists(office.db + end):
            shutil.copy2(office.db + end, office.db + end + ".copy")
            os.rename(office.db + end + ".copy", office.db + end)


def move_beside_the_lock_of_another(office: Office) -> None:
    """Another office was there, whose lock stays. FILE comes back with its log."""
    away = office.db + ".away"
    for end in ("", "-wal"):
        os.rename(office.db + end, away + end)
    other = lock_of(office).read_bytes()
    assert office.plant("owner-add", "ACME", "ACMEKEY1") == ACCEPTED
    list_orders(office)
    for end in ("-wal", ""):
        os.rename(away + end, office.db + end)
    lock_of(office).write_bytes(other)


KEEPING_LOG = ".dbconfig no_ckpt_on_close on"
NEW_UNIT = "INSERT INTO units VALUES (hex(randomblob(6)))"
NO_LOSSES: dict[str, Callable[[Office], Any]] = {
    "nothing": lambda office: None,
    "a checkpoint": sqlite("PRAGMA wal_checkpoint(TRUNCATE)"),
    "a checkpoint that keeps the log": sqlite("PRAGMA wal_checkpoint(PASSIVE)", KEEPING_LOG),
    "a checkpoint by whoever closes last": sqlite("SELECT count(*) FROM orders"),
    "a commit behind the others": sqlite(NEW_UNIT, KEEPING_LOG),
    "a commit that is taken into FILE": sqlite(NEW_UNIT),
    "a log that is begun anew": sqlite(f"PRAGMA wal_checkpoint(RESTART); {NEW_UNIT}", KEEPING_LOG),
    "another way to commit": sqlite("PRAGMA journal_mode=DELETE; PRAGMA journal_mode=WAL"),
    "a FILE that is made anew": sqlite("VACUUM"),
    "a command": lambda office: office.plant("unit-add", "U8"),
    "a command that is refused": lambda office: office.plant("unit-add", "U1"),
    "a killed server that only read": list_orders,
    "no lock": lambda office: lock_of(office).unlink(),
    "a lock without a mark": lambda office: os.truncate(lock_of(office), 0),
    "a cut mark": lambda office: os.truncate(lock_of(office), MARK_BYTES // 2),
    "a mark with another byte": lambda office: lock_of(office).write_bytes(lock_of(office).read_bytes()[:-1] + b"?"),
    "a lock that somebody wrote to": lambda office: lock_of(office).write_text("4711\n" * 40),
    "a copy in its place": copy_in_its_place,
    "another office in its place for a while": move_beside_the_lock_of_another,
    "a new mode": lambda office: os.chmod(office.db, 0o640),
    "a new time": lambda office: os.utime(office.db),
}


@pytest.mark.parametrize("change", NO_LOSSES.values(), ids=NO_LOSSES)
def test_what_others_did_or_put_in_its_place_is_no_loss(at_work: Office, change: Callable[[Office], Any]) -> None:
    for count, by_server in ((2, False), (4, True)):
        place_orders(at_work, count, placed=count - 2)
        change(at_work)
        assert outcome(at_work, count, by_server) == "whole"


def test_an_older_copy_without_its_log_is_no_loss(at_work: Office) -> None:
    assert at_work.plant("unit-add", "U7") == ACCEPTED
    shutil.copy2(at_work.db, at_work.db + ".backup")
    place_orders(at_work, 2)
    log_of(at_work).unlink()
    os.rename(at_work.db + ".backup", at_work.db)
    assert at_work.plant("orders", "ACME").status == 0


def test_a_copied_folder_is_as_whole_as_its_files_and_a_lock_of_elsewhere_says_nothing(at_work: Office) -> None:
    place_orders(at_work, 2)
    shutil.copytree(at_work.folder, at_work.folder + ".copy", symlinks=True, ignore=shutil.ignore_patterns("*.sock"))
    copy = Office(at_work.program, at_work.folder + ".copy")
    copy.db = os.path.join(at_work.folder + ".copy", "office.db")
    os.truncate(log_of(copy), 0)
    assert copy.plant("orders", "ACME").status == 0
    shutil.rmtree(at_work.folder + ".copy")


# Lives of offices


class Life:
    """An office whose servers end in one way or another, between them what may happen to its files, and how many of its
    orders were answered."""

    def __init__(self, office: Office, seed: int) -> None:
        self.office, self.chance, self.placed = office, random.Random(seed), 0
        self.backup, self.saved = office.db + ".backup", 0
        self.back_up()

    def is_placed(self, server: Server) -> bool:
        """Whether the next order is answered."""
        if not server.ask(ORDER % self.placed).startswith("200 "):
            return False
        self.placed += 1
        return True

    def end_by_a_kill(self) -> None:
        """Kills a server at some moment, while it answers one order after another."""
        with self.office.serve() as server:
            kill = threading.Timer(self.chance.uniform(0, 0.05), server.process.kill)
            kill.start()
            while self.is_placed(server):
                pass
            kill.join()

    def end_by_a_stop(self) -> None:
        """Has a server end by itself."""
        count = self.chance.randrange(1, 4)
        with self.office.serve(count=count) as server:
            assert all(self.is_placed(server) for _ in range(count)) and server.has_ended(PATIENCE)

    def end_beside_others(self) -> None:
        """Kills a server, between whose orders others read or checkpoint."""
        with self.office.serve() as server:
            for _ in range(2):
                assert self.is_placed(server)
                self.read_or_checkpoint()
            assert self.is_placed(server)

    def read_or_checkpoint(self) -> None:
        self.sqlite(self.reading())

    def read_or_checkpoint_and_keep_log(self) -> None:
        self.sqlite(KEEPING_LOG, self.reading())

    def reading(self) -> str:
        """A statement that reads or checkpoints."""
        mode = self.chance.choice(["PASSIVE", "FULL", "RESTART", "TRUNCATE"])
        return self.chance.choice(["SELECT count(*) FROM orders", f"PRAGMA wal_checkpoint({mode})"])

    def sqlite(self, *commands: str) -> None:
        """What sqlite3 does under the lock."""
        words = ["flock", str(lock_of(self.office)), "sqlite3", self.office.db, *commands]
        subprocess.run(words, check=True, stdout=subprocess.DEVNULL)

    def back_up(self) -> None:
        self.sqlite(f".backup {self.backup}")
        self.saved = self.placed

    def restore(self) -> None:
        log_of(self.office).unlink(missing_ok=True)
        shutil.copyfile(self.backup, self.backup + ".copy")
        os.rename(self.backup + ".copy", self.office.db)
        self.placed = self.saved

    def copy(self) -> None:
        copy_in_its_place(self.office)

    def lose_lock(self) -> None:
        lock_of(self.office).unlink(missing_ok=True)

    def leave(self) -> None:
        """Does nothing."""

    def outcome(self) -> str:
        """What the next opening says behind a server and what happened then."""
        ends = [self.end_by_a_kill, self.end_by_a_kill, self.end_by_a_stop, self.end_beside_others]
        between = [self.read_or_checkpoint, self.read_or_checkpoint_and_keep_log, self.back_up, self.restore, self.copy]
        between += [self.lose_lock, self.leave]
        done: list[Callable[[], None]] = [self.chance.choice(ends), self.chance.choice(between)]
        for do in done:
            do()
        ended = outcome(self.office, self.placed, by_server=self.chance.random() < 0.5)
        return ended if ended == "whole" else f"{ended} behind {' and '.join(do.__name__ for do in done)}"


def outcome_of_life(new: Callable[[], Office], work: str, seed: int) -> str:
    office = new()
    put(work, office.db)
    life = Life(office, seed)
    outcomes = [life.outcome() for _ in range(2)]
    shutil.rmtree(office.folder)
    return next((ended for ended in outcomes if ended != "whole"), "whole")


@pytest.mark.parametrize("seeds", [range(10), pytest.param(range(500), marks=pytest.mark.long)], ids=["10", "500"])
def test_no_life_of_an_office_is_told_as_damage_or_lacks_an_answered_order(
    new: Callable[[], Office], work: str, seeds: range
) -> None:
    outcomes = {seed: outcome_of_life(new, work, seed) for seed in seeds}
    assert {seed: ended for seed, ended in outcomes.items() if ended != "whole"} == {}


# Kills


def kill_at(office: Disk, work: str, at: int, way: int) -> str:
    """What the next opening says of the files of a server that is killed at this call over them, while it answers
    orders, lists them and closes the file."""
    put(work, office.db)
    office.disturb(at, way)
    answered = 0
    with office.serve(office.env, count=4) as server:
        for number in range(3):
            if not server.ask(ORDER % number).startswith("200 "):
                break
            answered += 1
        server.ask(ORDERS)
        server.has_ended(0.2)
    office.leave()
    if content(office.db) == "no sound database":
        return "no sound database"
    return outcome(office, answered, by_server=at % 2 == 0)


def calls_of_a_life(office: Disk, work: str) -> str:
    """The kinds of the calls over the files of a server that nobody kills."""
    assert kill_at(office, work, 0, 0) == "whole"
    return office.calls()


@pytest.mark.parametrize("step", [9, pytest.param(1, marks=pytest.mark.long)], ids=["some", "all"])
def test_a_kill_at_any_write_is_no_loss(disks: list[Disk], work: str, step: int) -> None:
    office = disks[0]
    kinds = calls_of_a_life(office, work)
    writes = [at for at, kind in enumerate(kinds, 1) if kind in "wtsl"]
    points = [(at, way) for way in (KILLED_BEFORE, KILLED_AFTER) for at in writes]
    points += [(at, TORN) for at in writes if kinds[at - 1] == "w"]
    outcomes = {point: kill_at(office, work, *point) for point in points[::step]}
    assert {point: ended for point, ended in outcomes.items() if ended != "whole"} == {}


def calls_of_idle(office: Disk) -> int:
    """How many calls a server made, as soon as it makes no more."""
    count = -1
    while count < (latest := len(office.calls())):
        count = latest
        time.sleep(0.1)
    return count


def test_a_commit_whose_sync_failed_is_not_marked(disks: list[Disk], work: str) -> None:
    office, log = disks[0], log_of(disks[0])

    def take_two(failing: int) -> tuple[int, int]:
        """Has a server take two orders, and fails this call of the second, if any. How many calls came before it, and
        the log's frames then, or none if it was answered."""
        put(work, office.db)
        office.disturb(0, FAIL, errno.EIO)
        with office.serve(office.env) as server:
            assert server.ask(ORDER % 0).startswith("200 ")
            calls, frames = calls_of_idle(office), frames_in(log.read_bytes())
            office.aim(calls + failing if failing else 0, FAIL)
            is_answered = server.ask(ORDER % 1).startswith("200 ")
        office.leave()
        return calls, 0 if is_answered else frames

    calls, _ = take_two(0)
    first = office.calls().index("s", calls) + 1 - calls
    for failing in range(max(first - 3, 1), first + 40):  # as many looks come before it as the server waits
        calls, frames = take_two(failing)
        if office.calls()[calls + failing - 1 :][:1] == "s" and frames:
            break
    assert frames_in(log.read_bytes()) > frames > 0
    os.truncate(log, 32 + frames * FRAME_BYTES)  # as a power cut may
    assert outcome(office, 1, by_server=True) == "whole"


@pytest.mark.parametrize("most", [12, pytest.param(1000, marks=pytest.mark.long)])
def test_a_marked_log_that_cannot_be_opened_or_read_is_no_loss(disks: list[Disk], work: str, most: int) -> None:
    office = disks[0]

    def answer_while_failing(at: int) -> Result:
        """What a command says of a log that a killed server marked, while this call over the files fails."""
        put(work, office.db)
        place_orders(office, 3)
        office.disturb(at, FAIL, errno.EIO)
        return office.plant("orders", "ACME", env=office.env)

    wanted = answer_while_failing(0)
    points = [at for at, kind in enumerate(office.calls(), 1) if kind in "or"][:most]
    assert wanted.status == 0 and points
    answers = {at: answer_while_failing(at) for at in points}
    assert {
        at: answer for at, answer in answers.items() if answer not in (wanted, fault("Disk"), fault("Locked"))
    } == {}


@pytest.mark.parametrize("most", [READS_OF_A_LOOK, pytest.param(1000, marks=pytest.mark.long)])
def test_a_marked_log_that_is_read_in_parts_is_no_loss(disks: list[Disk], work: str, most: int) -> None:
    """SQLite, which reads behind the look at the mark, takes half a page for a fault of the disk."""
    office = disks[0]

    def answer_while_short(at: int) -> Result:
        """What a command says of a log that a killed server marked, while this read of the files gives the half."""
        put(work, office.db)
        place_orders(office, 3)
        office.disturb(at, SHORT)
        return office.plant("orders", "ACME", env=office.env)

    wanted = answer_while_short(0)
    points = [at for at, kind in enumerate(office.calls(), 1) if kind == "r"][:most]
    assert wanted.status == 0 and points
    answers = {at: answer for at in points if (answer := answer_while_short(at)) != wanted}
    assert answers.keys().isdisjoint(points[:READS_OF_A_LOOK])
    assert {at: answer for at, answer in answers.items() if answer != fault("Disk")} == {}


@pytest.mark.parametrize("step", [7, pytest.param(1, marks=pytest.mark.long)])
def test_a_mark_stays_if_the_log_could_not_be_taken_into_the_file(disks: list[Disk], work: str, step: int) -> None:
    office = disks[0]

    def has_lost_mark(at: int) -> bool:
        """Whether a command whose call over the files fails leaves a log without its mark."""
        put(work, office.db)
        place_orders(office, 3)
        office.disturb(at, FAIL, errno.EIO)
        office.plant("orders", "ACME", env=office.env)
        has_log = log_of(office).exists() and frames_in(log_of(office).read_bytes()) > 0
        return has_log and lock_of(office).stat().st_size == 0

    assert not has_lost_mark(0)
    points = [at for at, kind in enumerate(office.calls(), 1) if kind in "wst"]
    assert points and [at for at in points[::step] if has_lost_mark(at)] == []
