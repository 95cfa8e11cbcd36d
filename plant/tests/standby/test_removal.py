"""The removal of old pieces, here and on another machine: pieces go on meanwhile, a failure is met once, and what it left goes later."""
import contextlib
import hashlib
import json
import os
import pathlib
import re
import subprocess
import time
from dataclasses import asdict

import pytest
from conftest import HILPOVEN, PATIENCE, Plant, environment, eventually
from following import follower_of, look
from hilpoven.care.standby import book, chain, piece, state
from hilpoven.care.standby.remote import ListedFile, Remote, files_in
from hilpoven.care.standby.removal import Removal, Trouble
from hilpoven.care.standby.sender import Sender
from hilpoven.care.standby.state import State
from restricted import IS_THERE, rsh_into

AGO = 9 * 86_400.0  # seconds; pieces stay for seven days
needs_rsync = pytest.mark.skipif(not IS_THERE, reason="needs rsync with rrsync")


@pytest.fixture
def standby(program, tmp_path) -> Plant:
    """A folder of another machine, with one for pieces and without an office."""
    (tmp_path / "standby" / "follow").mkdir(parents=True, mode=0o700)
    (tmp_path / "standby").chmod(0o700)
    return Plant(program, tmp_path / "standby")


def lay_old(plant: Plant, monkeypatch, count: int, *folders: pathlib.Path) -> None:
    """Puts a chain of so many old pieces behind an old snapshot into folders."""
    here = folders[0]
    at = time.strftime("%Y-%m-%dT%H:%M:%S.000Z", time.gmtime(time.time() - AGO))
    with monkeypatch.context() as patch:
        patch.setattr(book, "now", lambda: at)
        follower = follower_of(plant.db, here, f"{os.uname().nodename}:{plant.db}")
        follower.days = 10**5
        look(follower)
        lay_empty(follower.book, here, count - 1)
        assert plant.toll("unit-add", "OLD").status == 0
        look(follower)
    assert follower.book.last.number == count
    for path in here.iterdir():
        if path.suffix in (".piece", ".snapshot"):
            os.utime(path, (time.time() - AGO, time.time() - AGO))
            for folder in folders[1:]:
                os.link(path, folder / path.name)


def lay_empty(of: book.Book, folder: pathlib.Path, last: int) -> None:
    """Has a chain go on with empty pieces up to a number."""
    before, front = of.before, of.last.name.rpartition("-")[0]
    fields = {"format": piece.FORMAT, **asdict(of.last), "kind": piece.LOG, "pages": 0, "journal": 0, "earlier": 0, "sha256": hashlib.sha256().hexdigest()}
    for number in range(of.number + 1, last + 1):
        text = json.dumps({**fields, "number": number, "before": before}).encode().ljust(piece.HEAD - piece.SUM)
        head = text + hashlib.sha256(text).hexdigest().encode() + b"\n"
        (folder / f"{front}-{number:08}.piece").write_bytes(head)
        before = hashlib.sha256(head).hexdigest()
    of.note(piece.header_of(head), before)


def old_in(folder: pathlib.Path) -> list[str]:
    """The names of old pieces and snapshots in a folder."""
    names = []
    for entry in os.scandir(folder):
        with contextlib.suppress(FileNotFoundError):
            if entry.name.endswith((".piece", ".snapshot")) and time.time() - entry.stat().st_mtime > AGO - 100:
                names.append(entry.name)
    return names


def settings_of(plant: Plant, rsh: pathlib.Path) -> dict[str, str]:
    """The settings of a follower to another machine, in a variable of the environment."""
    path = plant.folder / "remote.toml"
    path.write_text(f'file = "{plant.db}"\ntoll = "{plant.program}"\n[follow]\nto = "there:/"\nrsh = "{rsh}"\n')
    return environment(HILPOVEN_SETTINGS=path)


class Following:
    """A follower to another machine as a process of its own, and what it tells."""

    def __init__(self, plant: Plant, rsh: pathlib.Path) -> None:
        self.plant, self.rsh, self.log = plant, rsh, plant.folder / "follower.log"
        self.begin()

    def begin(self) -> None:
        with open(self.log, "a") as log:
            self.process = subprocess.Popen([HILPOVEN, "follow"], stderr=log, env=settings_of(self.plant, self.rsh))

    def count_of(self, pattern: str) -> int:
        """How often something was told."""
        return len(re.findall(pattern, self.log.read_text()))

    def __enter__(self) -> "Following":
        return self

    def __exit__(self, *_: object) -> None:
        self.process.kill()
        self.process.wait()


@needs_rsync
def test_twenty_thousand_old_pieces_go_while_new_ones_come(at_work, standby, monkeypatch, tmp_path):
    here, remote_folder = at_work.folder / "follow", standby.folder / "follow"
    rsh, silences, number = rsh_into(remote_folder, tmp_path / "rsh"), [0.0], 0
    with at_work.serve():
        lay_old(at_work, monkeypatch, 20_000, here, remote_folder)
        assert len(old_in(here)) == len(old_in(remote_folder)) == 20_001
        with Following(at_work, rsh) as follower:
            assert eventually(lambda: (here / state.NAME).exists())
            ends = time.monotonic() + 2 * PATIENCE
            while (old_in(here) or old_in(remote_folder)) and time.monotonic() < ends:
                began = time.time()  # a machine with much to do holds up this turn as it does the follower
                assert at_work.toll("unit-add", f"U-{number}").status == 0
                number += 1
                time.sleep(0.3)
                silences.append(began - state.load(str(here)).looked)
            assert not old_in(here) and not old_in(remote_folder) and max(silences) < 8, max(silences)
            assert eventually(lambda: chain.newest_in(str(remote_folder)).last == chain.newest_in(str(here)).last > 20_000)
            time.sleep(2)
            assert follower.process.poll() is None
    removals = [line for line in pathlib.Path(f"{rsh}.log").read_text().splitlines() if "--delete" in line]
    assert len(removals) <= 3  # each takes as long as it has names, however many there are
    assert standby.run("follow", "verify").status == 0
    assert standby.run("promote").status == 0 and standby.content() == at_work.content()


def test_a_look_removes_no_longer_than_a_part_of_a_second(tmp_path):
    for number in range(60_000):
        (tmp_path / f"{number}").touch()
    removal = Removal(str(tmp_path), Trouble(print, "ends"))
    removal.add(sorted(path.name for path in tmp_path.iterdir()))
    looks = 0
    while removal.names:
        began, before = time.thread_time(), len(removal.names)
        removal.step()
        looks += 1
        assert len(removal.names) < before and time.thread_time() - began < 0.5
    assert looks > 1 and not list(tmp_path.iterdir())


def test_what_can_t_be_removed_is_told_once_and_goes_later(at_work, tmp_path, monkeypatch):
    """A folder stands for what the disk doesn't give away; one name is gone already."""
    here = at_work.folder / "follow"
    lay_old(at_work, monkeypatch, 40, here)
    follower = follower_of(at_work.db, here, f"{os.uname().nodename}:{at_work.db}")
    stuck, gone = (here / name for name in sorted(old_in(here))[10:12])
    follower.step()
    assert len(follower.removal.names) == 41
    gone.unlink()
    stuck.unlink()
    stuck.mkdir()
    saved = state.Saved(str(here))
    for number in range(3):
        follower.turn()
        follower.tend(saved)
        assert at_work.toll("unit-add", f"U-{number}").status == 0
    follower.tend(saved)
    assert [message for message in follower.messages if str(stuck) in message] == [f"{stuck} can't be removed: Is a directory"]
    assert old_in(here) == [] and stuck.is_dir() and follower.state.fault == follower.messages[-1]
    stuck.rmdir()
    stuck.touch()

    def is_removed() -> bool:
        follower.tend(saved)
        return not stuck.exists()

    assert eventually(is_removed) and follower.messages[-1] == f"old pieces of {here} are removed again"
    follower.tend(saved)
    assert follower.state.fault == "" and chain.Report(chain.newest_in(str(here)), str(here)).look().wrong == []


@needs_rsync
def test_a_network_that_fails_in_the_midst_of_a_removal_is_met_once(at_work, standby, monkeypatch, tmp_path):
    """Pieces go on meanwhile, as the network fails for nothing else."""
    here, remote_folder, cut = at_work.folder / "follow", standby.folder / "follow", tmp_path / "cut"
    lay_old(at_work, monkeypatch, 200, here, remote_folder)
    cut.touch()
    rsh = rsh_into(remote_folder, tmp_path / "rsh", f'case "$*" in *--delete*) [ ! -e {cut} ] || {{ echo "Broken pipe" >&2; exit 255; }} ;; esac')
    with Following(at_work, rsh) as follower:
        assert eventually(lambda: not old_in(here) and follower.count_of("Broken pipe"))
        assert len(old_in(remote_folder)) == 201
        at_work.toll("unit-add", "PRESS")
        assert eventually(lambda: chain.newest_in(str(remote_folder)).last == chain.newest_in(str(here)).last > 200)
        assert eventually(lambda: "Broken pipe" in at_work.run("follow", "status", here).out)
        time.sleep(4)
        assert follower.count_of("Broken pipe") == 1 and follower.count_of("gets pieces again") == 0
        cut.unlink()
        assert eventually(lambda: not old_in(remote_folder))
        assert eventually(lambda: follower.count_of("are removed again") == 1) and follower.count_of("Broken pipe") == 1
    assert standby.run("promote").status == 0 and standby.content() == at_work.content()


@needs_rsync
def test_what_a_killed_follower_left_there_goes_when_it_is_back(at_work, standby, monkeypatch, tmp_path):
    """Here all was removed before, and on the other machine nothing; also a chain of which nothing is left here."""
    here, remote_folder, cut = at_work.folder / "follow", standby.folder / "follow", tmp_path / "cut"
    lay_old(at_work, monkeypatch, 100, here, remote_folder)
    old = sorted(old_in(remote_folder))
    (remote_folder / old[0].replace(old[0].split("-")[1], "0" * 12)).touch()
    os.utime(remote_folder / old[0].replace(old[0].split("-")[1], "0" * 12), (time.time() - AGO, time.time() - AGO))
    cut.touch()
    rsh = rsh_into(remote_folder, tmp_path / "rsh", f'case "$*" in *--delete*) [ ! -e {cut} ] || exit 255 ;; esac')
    with Following(at_work, rsh) as follower:
        assert eventually(lambda: not old_in(here))
        at_work.toll("unit-add", "PRESS")
        assert eventually(lambda: chain.newest_in(str(remote_folder)).last == chain.newest_in(str(here)).last > 100)
        follower.process.kill()
        follower.process.wait()
        assert len(old_in(remote_folder)) == 102
        cut.unlink()
        follower.begin()
        assert eventually(lambda: not old_in(remote_folder)) and follower.process.poll() is None
    assert standby.run("promote").status == 0 and standby.content() == at_work.content()


def test_pieces_that_are_only_there_and_not_old_are_no_one_s_to_remove(tmp_path):
    """Another follower's, and those that were lost here behind the oldest snapshot."""
    own, other = "0001-aaaaaaaaaaaa-", "0001-bbbbbbbbbbbb-"
    here = {f"{own}00000005.snapshot", f"{own}00000006.piece"}
    now, old = time.time(), time.time() - AGO
    remote_folder = [
        ListedFile(f"{own}00000004.piece", old), ListedFile(f"{own}00000005.piece", old), ListedFile(f"{own}00000003.piece", now), ListedFile(f"{own}00000000.snapshot", old),
        ListedFile(f"{own}00000007.piece", old), ListedFile(f"{own}00000008.snapshot", old), ListedFile(f"{other}00000001.piece", old), ListedFile(f"{other}00000002.piece", now),
        ListedFile("0001-cccccccccccc-00000001.piece", old), ListedFile("earlier-0.db", old), ListedFile("promoted-0001", old),
    ]
    sender = Sender(Remote("there:/", "false"), str(tmp_path), "office.db", 1, 7, print)
    assert set(sender.old_there(remote_folder, here)) == {f"{own}00000004.piece", f"{own}00000005.piece", f"{own}00000000.snapshot", "0001-cccccccccccc-00000001.piece"}


def test_what_the_other_machine_lists_is_read_as_it_may_be():
    """A time that is none is of now, so that nothing is removed by it."""
    text = "drwx------             40 2026/11/30 13:38:06 .\n-rw-------          2,048 2026/11/20 00:00:00 a b.piece\n-rw-------              1 9999/99/99 99:99:99 c.piece\nlrwxrwxrwx 1 2026/11/30 13:38:06 d -> e\n"
    first, second = files_in(text)
    assert (first.name, first.at) == ("a b.piece", time.mktime((2026, 11, 20, 0, 0, 0, 0, 0, -1)))
    assert second.name == "c.piece" and abs(second.at - time.time()) < 60


def test_nothing_is_removed_there_before_the_snapshot_that_stays_is_there(tmp_path):
    sender = Sender(Remote("there:/", "false"), str(tmp_path), "office.db", 1, 7, print, is_known=True, looked=time.monotonic())
    (tmp_path / "0001-aaaaaaaaaaaa-00000009.snapshot").touch()
    sender.bulk = ["0001-aaaaaaaaaaaa-00000009.snapshot"]
    sender.remove(["0001-aaaaaaaaaaaa-00000000.snapshot"])
    assert sender.next_removal() is None
    sender.bulk = []
    assert sender.next_removal().names == ["0001-aaaaaaaaaaaa-00000000.snapshot"]


def test_no_room_for_a_file_in_memory_or_a_process_ends_no_follower(tmp_path, monkeypatch):
    messages: list[str] = []
    sender = Sender(Remote("there:/", "false"), str(tmp_path), "office.db", 1, 7, messages.append)

    def full(*_: object) -> int:
        raise OSError(24, "Too many open files")

    with monkeypatch.context() as patch:
        patch.setattr(os, "memfd_create", full)
        sender.step(State())
    with monkeypatch.context() as patch:
        patch.setattr(subprocess, "Popen", lambda *_, **__: full())
        sender.sending.rests_until = 0.0
        sender.step(State())
    assert messages == ["there:/: Too many open files"]


def test_a_piece_that_is_gone_before_it_was_sent_is_told_and_given_up(tmp_path):
    messages: list[str] = []
    sender = Sender(Remote("there:/", "false"), str(tmp_path), "office.db", 1, 7, messages.append, is_known=True, looked=time.monotonic())
    (tmp_path / "b.piece").touch()
    sender.add("a.piece", 1.0)
    sender.add("b.piece", 2.0)
    job = sender.next_job()
    assert job.names == ["b.piece", state.NAME] and messages == [f"a.piece is gone from {tmp_path}, and isn't in there:/"]
    assert sender.unsent == {"b.piece": 2.0}
    job.process.wait()


def test_old_pieces_go_while_the_disk_is_full(at_work, monkeypatch):
    """No new snapshot can be made, and what is old makes room."""
    here = at_work.folder / "follow"
    lay_old(at_work, monkeypatch, 30, here)
    monkeypatch.setattr(book, "now", lambda: time.strftime("%Y-%m-%dT%H:%M:%S.000Z", time.gmtime(time.time() - 86_400)))
    follower = follower_of(at_work.db, here, f"{os.uname().nodename}:{at_work.db}")
    follower.days = 10**5
    look(follower)
    assert len(chain.newest_in(str(here)).snapshots) == 2
    follower.days, follower.book.reserve, follower.pruned = 7, 10**18, None
    assert at_work.toll("unit-add", "LATE").status == 0
    follower.written = 0.0
    follower.turn()
    assert "kept for the office" in follower.fault
    while follower.removal.names:
        follower.removal.step()
    assert old_in(here) == []
