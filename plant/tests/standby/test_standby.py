"""A standby: followed, promoted, refused, restored to a moment; and what others may do of it."""
import contextlib
import os
import pathlib
import shutil
import subprocess
import time
from datetime import datetime
from zoneinfo import ZoneInfo

import pytest
from conftest import HILPOVEN, PATIENCE, ROOT, Plant, change_log_at_rest, environment, eventually, script
from following import follower_of, has_all_of, look
from hilpoven.core import settings as site
from hilpoven.core.failure import Failure
from hilpoven.core.journal.query import check
from hilpoven.care.standby import chain, state


@contextlib.contextmanager
def following(plant: Plant, to: str, *words: str):
    """A follower as a process of its own, which is ended at the end."""
    log = open(plant.folder / "follower.log", "a+")
    process = subprocess.Popen([HILPOVEN, "--db", plant.db, "follow", "--to", to, *words], stderr=log, stdout=log, env=environment(TOLL=plant.program))
    try:
        yield process
    finally:
        process.kill()
        process.wait()
        log.close()


def number_in(folder: pathlib.Path) -> int:
    """The last number of a folder's newest chain; -1 if there is none."""
    chains = chain.chains_in(str(folder))
    return chains[-1].last if chains else -1


@pytest.fixture
def standby(program, tmp_path) -> Plant:
    """A folder of another machine, without an office."""
    (tmp_path / "standby").mkdir(mode=0o700)
    return Plant(program, tmp_path / "standby")


@pytest.fixture
def pieces(at_work) -> pathlib.Path:
    """Pieces of the office at work and of what followed: a unit, which the journal has, and another one."""
    folder = at_work.folder / "pieces"
    follower = follower_of(at_work.db, folder, f"{os.uname().nodename}:{at_work.db}")
    look(follower)
    for name in ("PRESS", "DRYER"):
        assert at_work.run("unit-add", name).status == 0
        look(follower)
    assert number_in(folder) == 2
    return folder


def test_the_promoted_office_is_the_office_with_its_journal(at_work, pieces, standby):
    done = standby.run("promote", pieces)
    assert done.status == 0 and "is the office of piece 2" in done.out and "timeline 2 begins" in done.out, done
    assert standby.content() == at_work.content() and standby.rows("SELECT * FROM owners") == at_work.rows("SELECT * FROM owners")
    assert standby.toll("stock", "ACME").out == at_work.toll("stock", "ACME").out
    words = [line.get("words") for line in standby.lines() if line["event"] == "asked"]
    assert words[:2] == [["unit-add", "PRESS"], ["unit-add", "DRYER"]] and words[2][0] == "promote"
    assert check(str(standby.journal), file=str(standby.db)).wrong == []
    assert standby.run("verify").status == 0 and standby.run("unit-add", "OVEN").out == "accepted\n"
    assert standby.db.stat().st_mode & 0o777 == 0o600 and standby.journal.stat().st_mode & 0o777 == 0o600


def test_a_promotion_is_tried_without_a_trace(at_work, pieces, standby):
    done = standby.run("promote", "--check", pieces)
    assert done.status == 0 and "the office of piece 2 is sound" in done.out
    assert list(standby.folder.iterdir()) == [] and not list(pieces.glob("promoted-*"))
    assert at_work.run("unit-add", "OVEN").status == 0


def test_the_old_office_is_refused_when_it_comes_back(at_work, pieces, standby):
    assert standby.run("promote", pieces).status == 0
    before = at_work.content()
    done = at_work.run("follow", "--to", pieces, "--check")
    assert done.status == 1 and "timeline 2 has begun" in done.err
    for words in (["unit-add", "OVEN"], ["import", "-"], ["backup", str(pieces)], ["follow", "--to", str(pieces)]):
        done = at_work.run(*words, stdin="")
        assert done.status == 1 and "timeline 2 has begun" in done.err, (words, done)
    done = at_work.run("follow", "status", pieces)
    assert done.status == 1 and "timeline 2 has begun" in done.err
    assert at_work.content() == before and at_work.run("list", "lots").status == 0
    assert standby.run("unit-add", "OVEN").out == "accepted\n" and standby.run("follow", "--to", pieces, "--check").status == 0


def test_the_unit_of_the_server_doesn_t_begin_over_an_office_that_was_superseded(at_work, pieces, standby):
    (line,) = [line for line in (ROOT / "packaging" / "toll@.service").read_text().splitlines() if line.startswith("ExecStartPre=") and "superseded" in line]
    words = line.removeprefix("ExecStartPre=").replace("${FILE}", str(at_work.db))
    assert subprocess.run(words, shell=True).returncode == 0
    assert standby.run("promote", pieces).status == 0 and at_work.run("follow", "--to", pieces, "--check").status == 1
    assert subprocess.run(words, shell=True).returncode == 1


def test_the_promoted_machine_is_followed_and_promoted_back(at_work, pieces, standby):
    """The first machine becomes the standby of the second one, in the same folder, and has the office again."""
    assert standby.run("promote", pieces).status == 0
    name = f"{os.uname().nodename}:{standby.db}"
    follower = follower_of(standby.db, pieces, name, 2)
    look(follower)
    assert standby.run("unit-add", "OVEN").status == 0
    look(follower)
    done = at_work.run("promote", pieces)
    assert done.status == 0 and "timeline 3 begins; what was there is in " in done.out
    assert at_work.content() == standby.content() and at_work.run("unit-add", "MILL").out == "accepted\n"
    assert standby.run("follow", "--to", pieces, "--check").status == 1 and standby.run("unit-add", "LATE").status == 1


def test_a_moment_is_restored(at_work, pieces):
    of = chain.newest_in(str(pieces))
    at = chain.at_of(of, 1)
    at_work.settle(follow={"to": str(pieces)})
    site_file = site.load.__defaults__[0]
    site_file.write_text(site_file.read_text().replace('follow = {"to": ', "[follow]\nto = ").replace("}", ""))
    before, lines = at_work.content(), len(at_work.lines())
    done = at_work.run("restore", "--at", at)
    assert done.status == 0 and f"the office of {at} is in place" in done.out, done
    assert [row for row in before["units"] if row not in at_work.content()["units"]] == [("DRYER",)]
    assert len(at_work.lines()) == lines + 2 and at_work.lines()[-2]["words"][:3] == ["restore", "--at", at]
    assert at_work.run("verify").status in (0, 1) and at_work.run("unit-add", "DRYER").out == "accepted\n"
    done = at_work.run("restore", "--at", "2020-01-01")
    assert done.status == 1 and "the oldest is of" in done.err
    for words in (["--at", "yesterday"], [], ["x.db", "--at", at], ["--foreign", "--at", at]):
        assert at_work.run("restore", *words).status == 2


@pytest.mark.parametrize("machine", ["UTC", "Asia/Tokyo"])
def test_a_moment_is_one_of_the_time_zone_of_the_settings(at_work, pieces, monkeypatch, machine):
    """The journal prints it there. It is read neither as UTC nor as the machine's."""
    at = chain.at_of(chain.newest_in(str(pieces)), 1)
    at_work.settle(time_zone="America/New_York")
    with open(site.load.__defaults__[0], "a") as lines:
        lines.write(f'[follow]\nto = "{pieces}"\n')
    monkeypatch.setenv("TZ", machine)
    time.tzset()
    try:
        local = datetime.fromisoformat(at).astimezone(ZoneInfo("America/New_York")).replace(tzinfo=None).isoformat()
        done = at_work.run("restore", "--at", local)
    finally:
        monkeypatch.undo()
        time.tzset()
    assert done.status == 0 and f"the office of {at} is in place" in done.out, done


def test_verify_finds_what_pieces_have_and_a_changed_log_lost(at_work):
    """The follower looks at all of the file then, and goes on with what is left."""
    follower = follower_of(at_work.db, at_work.folder / "follow", f"{os.uname().nodename}:{at_work.db}")
    look(follower)
    with at_work.serve() as server:
        for number in range(5):
            assert server.ask("ACME", "POST", "/orders", f'{{"order":"P-{number}","recipe":"BRINE-10","batches":1}}')[0] == 200
            look(follower)
        server.process.kill()
    assert at_work.run("verify").status == 0
    change_log_at_rest(at_work)
    pathlib.Path(f"{at_work.db}.lock").unlink()  # its mark would tell the loss, and nothing would be given
    for name in ("PRESS", "OVEN"):
        assert at_work.run("unit-add", name).status == 0
        look(follower)
    assert ("P-4",) not in at_work.rows("SELECT ord FROM orders")
    done = at_work.run("verify")
    assert done.status == 3 and "the standby's pieces have what is missing: orders: ACME P-4 BRINE-10 1" in done.out


def test_a_served_office_is_followed_within_seconds(at_work, standby):
    folder = at_work.folder / "pieces"
    with at_work.serve() as server, following(at_work, str(folder)):
        assert eventually(lambda: number_in(folder) >= 0)
        for number in range(30):
            assert at_work.toll("receive", "ACME", f"K{100 + number}", "SALT", "S-9", "BAY1", 5, 102).out == "accepted\n"
        assert server.ask("ACME", "POST", "/orders", '{"order":"O-9","recipe":"BRINE-10","batches":1}')[0] == 200
        assert eventually(lambda: has_all_of(at_work, folder))
        assert eventually(lambda: at_work.run("follow", "status", folder).out.startswith("0.0 seconds behind: 0 commands"))
        errors = server.end()
    assert "opened anew" not in errors and "fault" not in errors
    assert standby.run("promote", folder).status == 0 and standby.content() == at_work.content()


def test_commands_without_a_server_are_followed(at_work, standby):
    folder = at_work.folder / "pieces"
    with following(at_work, str(folder)):
        assert eventually(lambda: number_in(folder) >= 0)
        for number in range(8):
            assert at_work.run("unit-add", f"U-{number}").out == "accepted\n"
        assert eventually(lambda: has_all_of(at_work, folder))
    assert standby.run("promote", folder).status == 0 and standby.content() == at_work.content()
    assert [line for line in at_work.lines() if line not in standby.lines()] == []


def test_a_restore_and_a_carry_over_are_followed(at_work, standby):
    folder = at_work.folder / "pieces"
    (at_work.folder / "backups").mkdir(mode=0o700)
    backup = at_work.run("backup", at_work.folder / "backups").out.splitlines()[0]
    assert at_work.run("unit-add", "PRESS").status == 0
    follower = follower_of(at_work.db, folder)
    look(follower)
    assert at_work.run("restore", backup).status == 0
    look(follower)
    assert ("PRESS",) not in at_work.content()["units"]
    for words in (["do", "ACME", "O-1", 1, "done"], ["close", "ACME", "O-1", 1]):
        assert at_work.run(*words).status == 0
    assert at_work.run("carry-over").status == 0
    look(follower)
    assert at_work.run("unit-add", "OVEN").status == 0
    look(follower)
    assert standby.run("promote", folder).status == 0 and standby.content() == at_work.content()
    assert (standby.folder / "office-1.db").read_bytes() == (at_work.folder / "office-1.db").read_bytes()
    assert standby.run("years", "files").out == at_work.run("years", "files").out
    assert [plant.content() for plant in (standby, at_work)][0]["units"] == at_work.content()["units"]


def test_a_follower_that_was_off_makes_one_piece_of_all(at_work, standby, pieces):
    before = number_in(pieces)
    for number in range(20):
        assert at_work.toll("unit-add", f"U-{number}").status == 0
    look(follower_of(at_work.db, pieces, f"{os.uname().nodename}:{at_work.db}"))
    assert number_in(pieces) == before + 1
    assert standby.run("promote", pieces).status == 0 and standby.content() == at_work.content()


def test_a_folder_has_one_follower_and_one_office(at_work, pieces):
    with following(at_work, str(pieces)):
        assert eventually(lambda: (pieces / "follower.json").exists())
        done = at_work.run("follow", "--to", pieces)
        assert done.status == 1 and "another follower writes into" in done.err
    other = Plant(at_work.program, at_work.folder / "other")
    other.folder.mkdir(mode=0o700)
    assert other.run("new", other.db).status == 0
    done = other.run("follow", "--to", pieces)
    assert done.status == 1 and "has pieces of" in done.err and "folder of its own" in done.err


def test_two_followers_into_two_folders_go_on_side_by_side(at_work, standby):
    one, two = at_work.folder / "one", at_work.folder / "two"
    with following(at_work, str(one)), following(at_work, str(two)):
        assert eventually(lambda: min(number_in(one), number_in(two)) >= 0)
        assert at_work.run("unit-add", "OVEN").status == 0
        assert eventually(lambda: has_all_of(at_work, one) and has_all_of(at_work, two))
    for folder in (one, two):
        assert standby.run("promote", folder).status == 0 and standby.content() == at_work.content()


# The disk, and the network

def test_a_full_disk_is_told_and_pieces_go_on(at_work, pieces, standby, monkeypatch):
    """The office serves on, and what came meanwhile is in the next piece."""
    follower = follower_of(at_work.db, pieces, f"{os.uname().nodename}:{at_work.db}")
    look(follower)
    before = number_in(pieces)
    follower.book.reserve = 10**18
    for number in range(5):
        assert at_work.run("unit-add", f"U-{number}").out == "accepted\n"
        with pytest.raises(Failure, match="kept for the office"):
            look(follower)
    assert number_in(pieces) == before and not list(pieces.glob("*.made"))
    follower.book.reserve = 0
    look(follower)
    assert standby.run("promote", pieces).status == 0 and standby.content() == at_work.content()


def test_a_disk_without_any_room_still_tells_it(pieces, monkeypatch):
    """Nothing new can be made in the folder, not even the state: its old room is taken."""
    saved, real = state.Saved(str(pieces)), os.open
    assert saved.save(state.State(looked=time.time(), fault="a fault of many words, " * 9))

    def full(path: str, flags: int, *arguments: int, **options: object) -> int:
        if flags & os.O_CREAT:
            raise OSError(28, "No space left on device", path)
        return real(path, flags, *arguments, **options)

    saved.at = 0.0
    with monkeypatch.context() as patch:
        patch.setattr(os, "open", full)
        assert saved.save(state.State(looked=time.time(), fault="the disk is full"))
    assert state.load(str(pieces)).fault == "the disk is full"


def test_a_fault_of_the_disk_in_the_midst_leaves_whole_pieces(at_work, pieces, standby, monkeypatch):
    follower = follower_of(at_work.db, pieces, f"{os.uname().nodename}:{at_work.db}")
    look(follower)
    real, calls = os.fsync, []

    def failing(descriptor: int) -> None:
        calls.append(descriptor)
        if len(calls) % 2:
            raise OSError(28, "No space left on device")
        real(descriptor)

    for number in range(6):
        assert at_work.toll("unit-add", f"U-{number}").status == 0
        with monkeypatch.context() as patch:
            patch.setattr(os, "fsync", failing)
            with contextlib.suppress(OSError, Failure):
                look(follower)
    look(follower)
    assert standby.run("promote", pieces).status == 0 and standby.content() == at_work.content()


@pytest.fixture
def rsh(tmp_path) -> pathlib.Path:
    """What stands in for ssh: it runs the words on this machine, unless the network is down."""
    return script(tmp_path / "rsh", f'[ ! -e {tmp_path}/down ] || {{ echo "ssh: connect to host: No route to host" >&2; exit 255; }}\nshift\nexec "$@"')


@contextlib.contextmanager
def remote(plant: Plant, folder: pathlib.Path, rsh: pathlib.Path):
    """A follower to another machine, by its settings; the folder is there, as `install -d` makes it."""
    folder.mkdir(mode=0o700, exist_ok=True)
    settings = plant.folder / "remote.toml"
    settings.write_text(f'file = "{plant.db}"\ntoll = "{plant.program}"\n[follow]\nto = "there:{folder}"\nrsh = "{rsh}"\n')
    log = open(plant.folder / "follower.log", "a+")
    process = subprocess.Popen([HILPOVEN, "follow"], stderr=log, env=environment(HILPOVEN_SETTINGS=settings))
    try:
        yield process
    finally:
        process.kill()
        process.wait()


def test_pieces_go_to_another_machine_and_wait_for_the_network(at_work, standby, rsh, tmp_path):
    target = standby.folder / "follow"
    with remote(at_work, target, rsh):
        assert eventually(lambda: number_in(target) >= 0)
        assert at_work.run("unit-add", "PRESS").status == 0
        assert eventually(lambda: number_in(target) >= 1)
        (tmp_path / "down").touch()
        sent = number_in(target)
        for number in range(3):  # a piece of each
            pieces = number_in(at_work.folder / "follow")
            assert at_work.run("unit-add", f"U-{number}").out == "accepted\n"
            assert eventually(lambda: number_in(at_work.folder / "follow") > pieces)
        assert eventually(lambda: "No route to host" in (at_work.folder / "follower.log").read_text())
        assert number_in(target) == sent
        assert eventually(lambda: "still to be sent" in at_work.run("follow", "status").out)
        (tmp_path / "down").unlink()
        assert eventually(lambda: number_in(target) == number_in(at_work.folder / "follow") > sent and has_all_of(at_work, target))
        assert eventually(lambda: "gets pieces again" in (at_work.folder / "follower.log").read_text())
    assert standby.run("follow", "verify").status == 0
    assert standby.run("promote").status == 0 and standby.content() == at_work.content()


def is_behind(status: str, why: str) -> bool:
    """Whether a standby is some time behind for this reason."""
    return why in status and not status.startswith("0.0 seconds behind")


def test_a_snapshot_that_isn_t_there_is_told(at_work, standby, rsh, tmp_path):
    """Without one there is no office, whatever pieces there are."""
    target = standby.folder / "follow"
    (tmp_path / "down").touch()
    with remote(at_work, target, rsh):
        assert eventually(lambda: number_in(at_work.folder / "follow") >= 0)
        assert eventually(lambda: is_behind(at_work.run("follow", "status").out, "1 piece still to be sent"))
        (tmp_path / "down").unlink()
        assert eventually(lambda: at_work.run("follow", "status").out.startswith("0.0 seconds behind"))
    assert standby.run("promote").status == 0


def test_a_follower_learns_that_the_other_machine_was_promoted(at_work, standby, rsh, monkeypatch):
    target = standby.folder / "follow"
    with remote(at_work, target, rsh) as process:
        assert eventually(lambda: number_in(target) >= 0)
        assert standby.run("promote").status == 0
        assert process.wait(PATIENCE) == 1
    assert "timeline 2 has begun" in (at_work.folder / "follower.log").read_text()
    assert at_work.run("unit-add", "LATE").status == 1
    with remote(at_work, target, rsh) as process:
        assert process.wait(PATIENCE) == 1


def test_another_machine_s_folder_has_one_follower(at_work, standby, rsh):
    target = standby.folder / "follow"
    with remote(at_work, target, rsh):
        assert eventually(lambda: number_in(target) >= 0)
    shutil.rmtree(at_work.folder / "follow")
    with remote(at_work, target, rsh) as process:
        assert process.wait(PATIENCE) == 1
    assert "has pieces of another follower" in (at_work.folder / "follower.log").read_text()


# Who may

def test_a_member_follows_nothing_and_names_no_folder(at_work, pieces):
    at_work.settle()
    for words in (["follow"], ["follow", "--to", "/tmp/x"], ["follow", "--check"], ["promote", str(pieces)], ["follow", "verify", str(pieces)], ["follow", "status", "/etc"]):
        done = at_work.as_member(*words)
        assert done.status == 2 and "for root and the office's user alone" in done.err, (words, done)
    assert at_work.as_member("follow", "status").status == 2 and at_work.as_member("promote").status == 2
    os.rename(pieces, at_work.folder / "follow")
    assert at_work.as_member("follow", "verify").status == 0
    assert at_work.as_member("restore", "--at", chain.at_of(chain.newest_in(str(at_work.folder / "follow")), 1)).status == 0


@pytest.mark.parametrize("to", ["-e sh:/x", "host;id:/x", ":/x", "host:", "h ost:/x"])
def test_a_target_is_words_of_no_program(at_work, to):
    done = at_work.run("follow", "--to", to, "--check")
    assert done.status in (1, 2) and "is no HOST:FOLDER" in done.err


def test_a_folder_that_others_may_change_is_refused(at_work, pieces, standby):
    pieces.chmod(0o777)
    assert "others may change" in at_work.run("follow", "--to", pieces).err
    assert "others may change" in standby.run("promote", pieces).err and not standby.db.exists()


def test_names_in_pieces_lead_nowhere(at_work, pieces, standby):
    """A piece that names an earlier file outside the folder is refused, whoever wrote it."""
    follower = follower_of(at_work.db, pieces, f"{os.uname().nodename}:{at_work.db}")
    look(follower)
    follower.book.earlier = {"../evil.db": "0" * 64}
    (pieces / f"earlier-{'0' * 64}.db").write_bytes(b"x")
    with follower.book.writer("file", 0) as piece:
        follower.book.finish(piece, follower.watch.place, 4096, follower.book.last.size)
    assert "isn't the earlier file" in standby.run("promote", pieces).err and not standby.db.exists()
