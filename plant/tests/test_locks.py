"""A lock that somebody has is waited for, and told apart from one that can't be opened."""
import contextlib
import fcntl
import os
import threading
import time

import pytest
from conftest import PATIENCE, command, environment
from hilpoven.core import files, lock


@contextlib.contextmanager
def locked(plant):
    """The lock of the office, held by this process."""
    with open(f"{plant.db}.lock", "a") as lock:
        fcntl.flock(lock, fcntl.LOCK_EX)
        yield lock


def test_a_lock_that_is_given_back_is_waited_for(at_work):
    with locked(at_work) as lock:
        timer = threading.Timer(1.0, fcntl.flock, (lock, fcntl.LOCK_UN))
        timer.start()
        begun = time.monotonic()
        assert at_work.run("unit-add", "PRESS", options=("--wait", "20")).out == "accepted\n"
        assert time.monotonic() - begun >= 0.9
        timer.join()


@pytest.mark.parametrize("words", [("unit-add", "PRESS"), ("stock", "ACME")])
def test_a_lock_that_is_kept_is_told_with_who_has_it(at_work, words):
    with locked(at_work):
        done = at_work.run(*words, options=("--wait", "0.2"))
    assert done.status == 3 and "fault Locked\n" in done.err and "another program has the lock" in done.err
    assert f"process {os.getpid()}" in done.err


def test_reading_waits_for_the_lock_too(at_work):
    with locked(at_work):
        done = at_work.run("list", "lots", options=("--wait", "0.2"))
    assert done.status == 3 and "somebody else has the lock" in done.err


def test_a_settled_file_is_copied_while_others_may_take_the_lock(at_work, monkeypatch):
    """Owners are refused while the lock is held: no byte of the office is copied under it."""
    copied, of = [], files.copy

    def copy_file(source, target):
        with open(f"{at_work.db}.lock", "a") as lock:
            fcntl.flock(lock, fcntl.LOCK_EX | fcntl.LOCK_NB)
        copied.append(os.path.basename(source))
        of(source, target)

    time.sleep(0.05)
    monkeypatch.setattr(files, "copy", copy_file)
    assert "S-1" in at_work.run("list", "lots").out
    assert copied[0] == "office.db" and set(copied) <= {"office.db", "office.db-wal"}


def test_what_others_write_during_a_copy_is_in_it(at_work, monkeypatch):
    """A command is recorded between the copying of the file and that of its log; then one is, and the file is written from the log."""
    of, commands = files.copy, iter(["unit-add PRESS", "unit-add OVEN"])

    def copy_file(source, target):
        of(source, target)
        if source == str(at_work.db) and (command := next(commands, None)):
            time.sleep(0.03)
            assert at_work.toll(*command.split()).out == "accepted\n"

    time.sleep(0.05)
    monkeypatch.setattr(files, "copy", copy_file)
    assert "PRESS" in at_work.run("list", "units").out
    assert "OVEN" in at_work.run("list", "units").out


def test_a_lock_that_cannot_be_opened_is_told_at_once(at_work):
    os.mkdir(f"{at_work.db}.lock")
    begun = time.monotonic()
    done = at_work.run("stock", "ACME", options=("--wait", "3600"))
    assert done.status == 3 and "office.db.lock can't be opened" in done.err and time.monotonic() - begun < PATIENCE


@pytest.mark.skipif(os.geteuid() != 0, reason="only root can be another user")
def test_a_stranger_is_told_whose_it_is(reachable):
    os.chmod(reachable.db, 0o600)
    done = command("--db", reachable.db, "stock", "ACME", env=environment(TOLL=reachable.program), user=65534, group=65534, extra_groups=[])
    assert done.returncode == 3 and "can't be opened: Permission denied" in done.stderr and "as nobody" in done.stderr and "sudo -u toll hilpoven --db" in done.stderr
    assert not os.path.exists(f"{reachable.db}.lock")


# What the commands of the plant hold themselves

def test_a_new_lock_is_for_its_user_alone(tmp_path):
    before = os.umask(0)
    try:
        with lock.held(str(tmp_path / "office.db"), 0):
            assert (tmp_path / "office.db.lock").stat().st_mode & 0o777 == 0o600
    finally:
        os.umask(before)


def test_who_holds_a_file_holds_it_alone_or_beside_others(tmp_path):
    path = tmp_path / "file"
    path.touch()
    with open(path) as one, open(path) as other:
        assert lock.take(one.fileno(), kind=fcntl.LOCK_SH) and lock.take(other.fileno(), kind=fcntl.LOCK_SH)
        assert not lock.take(one.fileno()) and lock.take(one.fileno(), kind=fcntl.LOCK_SH)
        other.close()
        assert lock.take(one.fileno())
        with open(path) as third:
            begun = time.monotonic()
            assert not lock.take(third.fileno(), 0.2, fcntl.LOCK_SH) and time.monotonic() - begun >= 0.2


def test_an_office_that_another_file_has_the_name_of_is_held_anew(tmp_path, monkeypatch):
    """A restore puts another file in place while somebody waits for the one that was there."""
    file, opened, real = tmp_path / "office.db", [], os.open
    file.write_bytes(b"old")

    def replaced(path: str, *arguments: int, **options: object) -> int:
        descriptor = real(path, *arguments, **options)
        if path == str(file):
            opened.append(os.fstat(descriptor).st_ino)
            if len(opened) == 1:
                (tmp_path / "new").write_bytes(b"new")
                os.rename(tmp_path / "new", file)
        return descriptor

    monkeypatch.setattr(os, "open", replaced)
    with lock.alone(str(file), 5) as is_alone:
        assert is_alone and len(opened) == 2 and opened[1] == file.stat().st_ino
        descriptor = real(file, os.O_RDONLY)
        assert not lock.take(descriptor, kind=fcntl.LOCK_SH), "the file that has the name isn't held"
        os.close(descriptor)
