"""The plant's socket of a server, FILE.sock: what commands and imports come to where a server is there, where none
is, and where one comes, goes or is killed on the way; and what owners notice of damage, locks and changes of the
files."""
import contextlib
import errno
import fcntl
import functools
import itertools
import os
import pathlib
import random
import re
import shutil
import signal
import socket
import socketserver
import sqlite3
import stat
import subprocess
import threading
import time
from collections.abc import Callable, Iterator
from typing import Any

import pytest

from tests import socket_client as client
from tests.attempts import Import, New
from tests.harness import ACCEPTED, FAIL, KILLED_AFTER, KILLED_BEFORE, NO_NETWORK, PATIENCE, REPEATED, STOPPED_AT_MODE
from tests.harness import UNAVAILABLE, Disk, Office, Result, Server
from tests.harness import content, eventually, fault, import_report, meanwhile, put, read_all, request, serving
from tests.harness import wrong_outcomes
from tests.lines import ACTUALS, many_actuals

LOCKED, LOST, NOT_OURS, DAMAGED = (fault(name) for name in ("Locked", "Lost", "NotOurs", "Damaged"))
DOOR_BEGAN, DOOR_ENDED = "fault Door began", "fault Door ended"
Change = Callable[[str], Any]
ORDER = '> ACME ACMEKEY1 POST /orders {"order":"%s","recipe":"R","batches":1}'
NOTHING = subprocess.DEVNULL
ORDERS, NOBODY = "> ACME ACMEKEY1 GET /orders", 65534

# Each of the plant's commands and questions, also refused, repeated and unread.
LINES = """
unit-add U2; unit-add U2; owner-add COLT COLTKEY1; owner-add COLT short; material-add ACME N kg;
test-add ACME M T M5 5; recipe-add ACME R-2 1; require ACME R-2 1 consumed ACME N 5; recipe-add HOUSE H 1;
order H-1 H 1; order H-1 NONE 1; cancel H-1; cancel H-2; receive ACME K2 N B S1 100 10;
receive ACME K2 N B S1 100 10; receive ACME K3 NONE B S1 100 10; split ACME K4 B S1 S2 40 11;
scrap ACME K5 B S2 10 11; ship ACME K6 B S1 10 12; result ACME A T 3 12; release A; reject A;
actual K7 ACME O 1 1 consumed M ACME A S1 40 11; void ACME K7; actual K8 ACME O 1 1 consumed M ACME A S1 40 11;
actual K9 ACME O 1 1 produced P ACME P1 S1 30 11; actual K9 ACME O 1 1 produced P ACME P1 S1 31 11;
do ACME O 1 stop; do ACME O 1 done; close ACME O 1; open ACME O U1; orders ACME; orders NONE; stock ACME;
stock HOUSE; batch ACME O 1; batch ACME O 2; trace ACME P1 back; trace ACME A forward; recall ACME A;
recall ACME NONE; no such words; stock; stock ACME --all"""

LONGEST_FILE = 1_048_576  # bytes
# Files of actuals that are imported, each twice.
IMPORTS = {
    "whole": ACTUALS,
    "empty": "",
    "no header": "a,b\n1,2\n",
    "bad records": ACTUALS + "1,2,3\n\n",
    "too long": "x" * 1_100_000,
    "many": many_actuals(1200),
}


def owner_statuses(server: Server) -> list[str]:
    """What ACME and BOLT are answered when they ask for their stock."""
    return [server.ask(f"> {owner} {owner}KEY1 GET /stock")[:3] for owner in ("ACME", "BOLT")]


def is_answered(server: Server) -> bool:
    return server.ask(ORDERS).startswith("200 ")


def has_socket(office: Office, unit: str = "U-BY-HAND") -> bool:
    """Whether a command by hand comes through the socket."""
    return client.ask(office, "unit-add", unit) == client.answer(0, b"accepted\n")


@contextlib.contextmanager
def locked(office: Office) -> Iterator[Any]:
    """FILE's lock in other hands, which get it as soon as nobody has it; it is released by closing it, too."""

    def is_taken() -> bool:
        with contextlib.suppress(BlockingIOError):
            fcntl.flock(lock, fcntl.LOCK_EX | fcntl.LOCK_NB)
            return True
        return False

    with open(f"{office.db}.lock", "a") as lock:
        assert eventually(is_taken), "the lock isn't given back"
        yield lock


def by_others(office: Office, statement: str) -> None:
    """What another program does to the rows, under the lock."""
    subprocess.run(["flock", f"{office.db}.lock", "sqlite3", office.db, statement], check=True)


def openings(server: Server) -> int:
    return sum(line.startswith("opened anew") for line in server.lines())


@pytest.fixture
def at_work(at_work: Office) -> Office:
    """An office at work, beside the socket of a server that was killed."""
    with at_work.serve():
        return at_work


@pytest.fixture
def disk(disks: list[Disk], work: str) -> Disk:
    """An office at work whose calls may be disturbed."""
    put(work, disks[0].db)
    disks[0].disturb(0)
    return disks[0]


# With a server and without


def test_each_command_and_import_answers_and_leaves_the_same_with_a_server_and_without(new: New, work: str) -> None:
    alone, served = new(), new()
    for office in (alone, served):
        put(work, office.db)
    with served.serve() as server:
        server.ask(ORDERS)
        for line in LINES.split(";"):
            assert served.plant(*line.split()) == alone.plant(*line.split()), line
        for name, text in (*IMPORTS.items(), ("none", None)):
            paths = ["none.csv" if text is None else office.write(f"{name}.csv", text) for office in (alone, served)]
            for _ in range(2):
                wanted, answer = (office.plant("import", path) for office, path in zip((alone, served), paths))
                assert answer == wanted, name
        assert server.lines() == []
        mode = os.stat(client.path_of(served)).st_mode
        assert stat.S_ISSOCK(mode) and stat.S_IMODE(mode) == 0o600
    assert content(alone.db) == content(served.db)


def test_of_a_file_that_is_a_byte_too_long_no_record_acts(at_work: Office) -> None:
    before = content(at_work.db)
    longer = at_work.write("longer.csv", ACTUALS.ljust(LONGEST_FILE + 1, "\n"))
    longest = at_work.write("longest.csv", ACTUALS.ljust(LONGEST_FILE, "\n"))
    assert at_work.plant("import", longer) == Result(2, "", "too long\n")
    with at_work.serve():
        assert at_work.plant("import", longer) == Result(2, "", "too long\n")
    assert content(at_work.db) == before
    assert at_work.plant("import", longest) == Result(0, import_report(["accepted", "accepted", "repeated"]))


def test_an_answer_that_cannot_be_written_ends_with_3_and_what_was_done_stands(at_work: Office) -> None:
    with at_work.serve():
        closing = {"stock ACME": ">/dev/full", "unit-add U5": ">&-", "stock": "2>&-", "unit-add U6": ">&- 2>&-"}
        for words, closed in closing.items():
            assert at_work.plant(*words.split(), closed=closed) == Result(3, ""), words
        assert [at_work.plant("unit-add", unit).status for unit in ("U5", "U6")] == [1, 1]


# Where the socket comes from, and what may be in its place


def test_the_socket_is_removed_when_serving_ends_and_only_owners_count(at_work: Office) -> None:
    with at_work.serve(count=2) as server:
        assert [at_work.plant("unit-add", unit) for unit in ("U2", "U3", "U4")] == [ACCEPTED] * 3
        assert is_answered(server) and is_answered(server) and server.has_ended(PATIENCE)
        assert server.process.returncode == 0 and not os.path.exists(client.path_of(at_work))
    assert at_work.plant("unit-add", "U5") == ACCEPTED


def test_a_socket_that_a_killed_server_left_is_in_nobodys_way_and_the_next_server_takes_it(at_work: Office) -> None:
    assert os.path.exists(client.path_of(at_work)) and at_work.plant("unit-add", "U2") == ACCEPTED
    with at_work.serve() as server:
        assert at_work.plant("unit-add", "U3") == ACCEPTED and has_socket(at_work) and server.lines() == []


IN_ITS_PLACE: dict[str, Change] = {
    "a folder": os.mkdir,
    "a file": lambda path: pathlib.Path(path).write_text("mine"),
    "a link": lambda path: os.symlink("nowhere", path),
}


@pytest.mark.parametrize("make", IN_ITS_PLACE.values(), ids=IN_ITS_PLACE)
def test_what_is_in_the_sockets_place_stays_and_the_server_serves_without(at_work: Office, make: Change) -> None:
    os.unlink(client.path_of(at_work))
    make(client.path_of(at_work))
    before = os.lstat(client.path_of(at_work)).st_ino
    with at_work.serve() as server:
        assert at_work.plant("unit-add", "U2") == ACCEPTED and is_answered(server)
        assert server.lines()[:1] == [DOOR_BEGAN]
    assert os.lstat(client.path_of(at_work)).st_ino == before


def test_a_path_that_is_too_long_for_a_socket_is_said_and_commands_open_the_file(at_work: Office) -> None:
    folder = os.path.join(at_work.folder, "f" * (120 - len(at_work.folder) - len("/.office.db")))
    os.mkdir(folder)
    base, at_work.db = at_work.db, os.path.join(folder, "office.db")
    put(base, at_work.db)
    with at_work.serve() as server:
        assert at_work.plant("unit-add", "U2") == ACCEPTED and is_answered(server)
        assert server.lines()[:1] == [DOOR_BEGAN]
        assert not os.path.exists(client.path_of(at_work))


def test_the_second_server_of_a_file_has_no_socket_and_leaves_the_first_ones(at_work: Office) -> None:
    with at_work.serve() as first, at_work.serve() as second:
        assert (first.lines(), second.lines()) == ([], [DOOR_BEGAN])
        for number in range(10):
            assert at_work.plant("unit-add", f"V{number}") == ACCEPTED and is_answered(first) and is_answered(second)
        second.kill()
        assert has_socket(at_work)


def test_a_server_that_begins_behind_the_lock_opens_its_socket_when_that_is_free(at_work: Office) -> None:
    with locked(at_work) as lock, at_work.serve() as server:
        assert server.ask(ORDERS).startswith("503 ")
        lock.close()
        server.ask(ORDERS)
        assert has_socket(at_work)
        assert sorted(server.lines()) == sorted([DOOR_BEGAN, "fault Locked began", DOOR_ENDED, "fault Locked ended"])


def test_a_socket_that_was_deleted_is_made_again_when_an_owner_comes(at_work: Office) -> None:
    with at_work.serve() as server:
        server.ask(ORDERS)
        os.unlink(client.path_of(at_work))
        server.ask(ORDERS)
        assert has_socket(at_work) and server.lines() == [DOOR_BEGAN, DOOR_ENDED]


def test_the_socket_of_a_server_that_died_is_taken_by_the_one_that_goes_on(at_work: Office) -> None:
    with at_work.serve() as first, at_work.serve() as second:
        first.kill()
        time.sleep(1.1)
        second.ask(ORDERS)
        assert has_socket(at_work) and second.lines() == [DOOR_BEGAN, DOOR_ENDED]


def test_a_server_leaves_the_socket_that_another_made_in_the_place_of_its_own(at_work: Office) -> None:
    with at_work.serve(count=1) as first:
        os.unlink(client.path_of(at_work))
        with at_work.serve() as second:
            assert has_socket(at_work) and second.lines() == []
            assert is_answered(first) and first.has_ended(PATIENCE)
            assert has_socket(at_work, "U-TOO")


def test_clients_of_the_plant_that_go_before_they_are_taken_cost_no_owner_its_connection(at_work: Office) -> None:
    half, rest = request(ORDERS)[:20], request(ORDERS)[20:]
    with at_work.serve() as server, server.connect() as owner:
        owner.sendall(half)
        assert is_answered(server), "so the half is taken, too"
        server.process.send_signal(signal.SIGSTOP)
        for _ in range(3):
            client.connect(client.path_of(at_work)).close()
        server.process.send_signal(signal.SIGCONT)
        assert is_answered(server)
        owner.sendall(rest)
        assert read_all(owner).startswith(b"HTTP/1.1 200") and server.lines() == []


def is_refused_to_nobody(path: str) -> bool:
    """Whether another user may not connect."""
    child = os.fork()
    if child == 0:
        status = 1
        try:
            os.setgroups([])
            os.setgid(NOBODY)
            os.setuid(NOBODY)
            client.connect(path)
        except PermissionError:
            status = 0
        finally:
            os._exit(status)
    return os.waitpid(child, 0)[1] == 0


@pytest.mark.skipif(os.geteuid() != 0, reason="only root can be another user")
def test_another_user_cannot_use_the_socket_and_a_socket_of_another_user_is_not_used(at_work: Office) -> None:
    path = client.path_of(at_work)
    for folder in (os.path.dirname(at_work.folder), at_work.folder):
        os.chmod(folder, 0o755)
    with at_work.serve():
        assert is_refused_to_nobody(path)
    os.unlink(path)
    with socket.socket(socket.AF_UNIX) as theirs:
        theirs.bind(path)
        theirs.listen()
        os.chown(path, NOBODY, NOBODY)
        assert at_work.plant("unit-add", "U2") == ACCEPTED
        with at_work.serve() as server:
            assert server.lines() == [DOOR_BEGAN]


def test_words_go_to_no_other_office_by_a_link_in_the_sockets_place(at_work: Office, new: New, work: str) -> None:
    other, path = new(), client.path_of(at_work)
    put(work, other.db)
    os.unlink(path)
    with other.serve():
        os.symlink(client.path_of(other), path)
        assert at_work.plant("unit-add", "U2") == ACCEPTED
        assert other.plant("unit-add", "U2") == ACCEPTED, "the other office has got it already"


def is_stopped(pid: int) -> bool:
    return pathlib.Path(f"/proc/{pid}/stat").read_text().rpartition(")")[2].split()[0] == "T"


def test_a_client_that_comes_before_the_socket_has_its_mode_is_turned_away(disk: Disk) -> None:
    path = client.path_of(disk)
    with disk.serve(disk.env) as server:
        os.unlink(path)
        disk.disturb(0, STOPPED_AT_MODE)
        server.connect().close()
        while not is_stopped(server.process.pid):
            time.sleep(0.01)
        with client.connect(path) as peer:
            disk.disturb(0)
            server.process.send_signal(signal.SIGCONT)
            assert client.take_parcel(peer) == b""
        assert is_answered(server) and has_socket(disk)


# Locks, damage, and what others do to the files


def test_faults_are_said_when_they_begin_and_end_and_a_changed_file_when_it_is_opened_anew(at_work: Office) -> None:
    with at_work.serve() as server:
        assert is_answered(server)
        with locked(at_work):
            assert owner_statuses(server) == ["503", "503"] and at_work.plant("stock", "ACME") == LOCKED
        assert owner_statuses(server) == ["200", "200"]
        assert server.lines() == ["fault Locked began", "fault Locked ended"]
        by_others(at_work, "INSERT INTO units VALUES ('U9')")
        assert is_answered(server) and at_work.plant("unit-add", "U9").status == 1
        assert re.fullmatch(r"opened anew in \d+ ms", "\n".join(server.lines()[2:]))


def test_a_lock_that_others_share_is_not_taken(at_work: Office) -> None:
    with open(f"{at_work.db}.lock") as shared:
        fcntl.flock(shared, fcntl.LOCK_SH)
        assert at_work.plant("unit-add", "U2") == LOCKED
    assert at_work.plant("unit-add", "U2") == ACCEPTED


def test_a_fault_that_follows_another_begins_when_that_one_has_ended(at_work: Office) -> None:
    with at_work.serve() as server:
        with locked(at_work):
            assert not is_answered(server)
            os.truncate(at_work.db, 0)
        assert not is_answered(server)
        assert server.lines() == ["fault Locked began", "fault Locked ended", "fault NotOurs began"]


def test_a_server_takes_the_lock_of_the_file_that_is_at_its_path(at_work: Office) -> None:
    with at_work.serve() as server:
        assert server.ask(ORDERS).startswith("200 ")
        os.unlink(f"{at_work.db}.lock")
        with locked(at_work):
            assert server.ask(ORDERS) == UNAVAILABLE
        assert server.ask(ORDERS).startswith("200 ")
        os.rename(f"{at_work.db}.lock", f"{at_work.db}.lock-before")
        with open(f"{at_work.db}.lock-before") as moved:
            fcntl.flock(moved, fcntl.LOCK_EX)
            assert server.ask(ORDERS).startswith("200 ")
        assert os.path.exists(f"{at_work.db}.lock")
        assert server.lines() == ["fault Locked began", "fault Locked ended"]


def test_a_server_has_its_file_open_before_it_listens_and_says_so_where_it_cannot(at_work: Office) -> None:
    with at_work.serve() as server:
        files = pathlib.Path(f"/proc/{server.process.pid}/fd")
        assert os.path.realpath(at_work.db) in [os.path.realpath(file) for file in files.iterdir()]
    with locked(at_work) as lock, at_work.serve() as server:
        assert "fault Locked began" in server.lines()
        lock.close()
        assert is_answered(server)


def test_a_backup_under_the_lock_is_whole_while_the_plant_and_owners_ask(at_work: Office) -> None:
    answers = dict[str, Result]()

    def command(over: threading.Event) -> None:
        while not over.is_set():
            unit = f"B{len(answers)}"
            answers[unit] = at_work.plant("unit-add", unit)

    with at_work.serve() as server:
        with meanwhile(command):
            for number in range(10):
                copy = os.path.join(at_work.folder, f"copy{number}.db")
                by_others(at_work, f".backup {copy}")
                assert isinstance(content(copy), dict)
                server.ask(ORDERS)
        assert set(answers.values()) <= {ACCEPTED, LOCKED}
        done = [unit for unit, answer in answers.items() if answer == ACCEPTED]
        assert done and [unit for unit in done if at_work.plant("unit-add", unit).status != 1] == []


def test_damage_of_one_owner_costs_the_others_no_opening_and_is_known_until_the_file_changes(at_work: Office) -> None:
    with at_work.serve() as server:
        by_others(at_work, "UPDATE lots SET disposition = 9 WHERE owner = 'ACME'")
        assert [owner_statuses(server) for _ in range(20)] == [["503", "200"]] * 20
        lines = [line for line in server.lines() if not line.startswith("opened")]
        assert lines == ["damaged rows of ACME", "fault Unavailable began", "fault Unavailable ended"]
        for_owners = openings(server)
        answers = [(at_work.plant("stock", "ACME"), owner_statuses(server)[1]) for _ in range(10)]
        assert answers == [(DAMAGED, "200")] * 10
        count = openings(server)
        assert for_owners <= 3 and count - for_owners <= 2
        assert at_work.plant("unit-add", "U2") == ACCEPTED and owner_statuses(server) == ["503", "200"]
        assert openings(server) == count, "a command that meets no damage has the server forget it"
        by_others(at_work, "UPDATE lots SET disposition = 0 WHERE owner = 'ACME'")
        assert owner_statuses(server) == ["200", "200"] and at_work.plant("stock", "ACME").status == 0


def test_a_file_that_is_opened_beside_100_clients_stays_open(at_work: Office) -> None:
    with locked(at_work) as lock, at_work.serve() as server, contextlib.ExitStack() as clients:
        for _ in range(100):
            clients.enter_context(server.connect())
        lock.close()
        assert [is_answered(server) for _ in range(5)] == [True] * 5 and openings(server) == 0


def test_the_first_requests_read_nothing_of_a_file_that_was_opened_ahead(disk: Disk) -> None:
    with disk.serve(disk.env) as server:
        disk.disturb(0)
        assert owner_statuses(server) == ["200", "200"] and "r" not in disk.calls()


def test_what_others_wrote_is_seen_if_a_look_at_the_files_fails(disk: Disk) -> None:
    with disk.serve(disk.env) as server:
        server.ask(ORDERS)
        looks = [number for number, kind in enumerate(disk.calls(), 1) if kind == "i"]
        assert len(looks) > 1
        for number in looks:
            by_others(disk, f"INSERT INTO orders VALUES ('ACME', 'X-{number}', 'R', 1, 0)")
            disk.disturb(number, FAIL, errno.EIO)
            assert f'"X-{number}"' in server.ask(ORDERS) or f'"X-{number}"' in server.ask(ORDERS), number
        assert not any("NotOurs" in line for line in server.lines()), "a look that fails tells no loss"


def test_a_link_to_the_file_is_the_file_with_one_lock_and_one_socket(at_work: Office) -> None:
    file, at_work.db = at_work.db, os.path.join(at_work.folder, "link.db")
    os.symlink(file, at_work.db)
    with at_work.serve() as server:
        assert is_answered(server) and at_work.plant("unit-add", "U2") == ACCEPTED
        assert is_answered(server) and at_work.run(["--db", file, "unit-add", "U3"]) == ACCEPTED
        assert server.lines() == []
        assert [name for name in os.listdir(at_work.folder) if name.startswith(("link.db.", "link.db-"))] == []
        with open(f"{file}.lock", "r+") as lock:
            fcntl.flock(lock, fcntl.LOCK_EX)
            assert not is_answered(server)
    assert at_work.plant("unit-add", "U4") == ACCEPTED


def test_a_pipe_in_the_place_of_the_file_is_refused_at_once(new: New) -> None:
    office = new()
    os.mkfifo(office.db)
    began = time.monotonic()
    assert office.plant("stock", "ACME") == NOT_OURS and time.monotonic() - began < 5
    with office.serve() as server:
        assert server.ask(ORDERS).startswith("503 ") and server.lines() == ["fault NotOurs began"]


def test_a_pipe_in_the_place_of_the_log_is_refused_at_once(at_work: Office) -> None:
    with at_work.serve() as server:
        assert server.ask(ORDER % "O-2").startswith(
            "200 "
        ), "so FILE.lock marks a commit, which is looked for in the log"
    os.unlink(f"{at_work.db}-wal")
    os.mkfifo(f"{at_work.db}-wal")
    began = time.monotonic()
    assert at_work.plant("stock", "ACME") == NOT_OURS and time.monotonic() - began < 5


def test_a_server_whose_lines_nobody_reads_goes_on_and_tells_later_how_many_it_dropped(at_work: Office) -> None:
    out, into = os.pipe()
    fcntl.fcntl(into, fcntl.F_SETPIPE_SZ, 4096)
    server = Server(at_work, errors=into)
    os.close(into)
    try:
        for _ in range(150):
            with locked(at_work):
                assert not is_answered(server)
            assert is_answered(server)
        os.set_blocking(out, False)
        with contextlib.suppress(BlockingIOError):
            while os.read(out, 65536):
                pass
        with locked(at_work):
            server.ask(ORDERS)
        assert os.read(out, 65536).startswith(b"dropped ")
    finally:
        server.kill()
        os.close(out)


def shell(line: str) -> Change:
    """What a line of a shell does to $FILE; the file from before is $FILE.old."""
    return lambda db: subprocess.run(["sh", "-ec", line], check=True, env={**os.environ, "FILE": db}, stdout=NOTHING)


def frames_of(log: bytes) -> list[int]:
    """Where the frames of a log begin: those before the first with other salts than its header's."""
    size = 24 + int.from_bytes(log[8:12], "big")
    return list(itertools.takewhile(lambda at: log[at + 8 : at + 16] == log[16:24], range(32, len(log), size)))


def change_log(db: str, change: Callable[[bytearray, list[int]], Any]) -> None:
    """Changes bytes of FILE's log, given where its frames begin."""
    path = pathlib.Path(f"{db}-wal")
    log = bytearray(path.read_bytes())
    change(log, frames_of(log))
    path.write_bytes(log)


def flip(log: bytearray, at: int) -> None:
    log[at] ^= 1


def flip_in(frame: int | None, at: int, log: bytearray, frames: list[int]) -> None:
    """Flips a bit of this byte of a frame, or of the log."""
    flip(log, at if frame is None else frames[frame] + at)


def zero(log: bytearray, begun: int, done: int) -> None:
    log[begun:done] = bytes(done - begun)


KEEPING_LOG = "sqlite3 $FILE '.dbconfig no_ckpt_on_close on'"
CHECKPOINT = shell("sqlite3 $FILE 'PRAGMA wal_checkpoint(TRUNCATE)'")


def begin_anew(db: str) -> None:
    """Takes the log into FILE, and leaves it as a program that is killed while it begins the log anew."""
    shell(f"{KEEPING_LOG} 'PRAGMA wal_checkpoint(PASSIVE)'")(db)
    change_log(db, lambda log, _: zero(log, 0, 1))


def answers_around(office: Office, change: Change) -> tuple[list[str], Result, list[str], bool]:
    """What owners and the plant are answered after a change of the files of a server that knows them, what the server
    writes, and whether the files stay as they were changed."""

    def files() -> list[bytes | None]:
        paths = [pathlib.Path(office.db + end) for end in ("", "-wal")]
        return [path.read_bytes() if path.exists() else None for path in paths]

    shutil.copyfile(office.db, office.db + ".old")
    with office.serve() as server:
        assert server.ask(ORDER % "O-2").startswith("200 ")
        change(office.db)
        before = files()
        return owner_statuses(server), office.plant("stock", "ACME"), server.lines(), files() == before


LOST_ROWS = {
    "a log that was emptied": "truncate -s 0 $FILE-wal",
    "a log that was removed": "rm $FILE-wal",
    "a log that was cut": "truncate -s 100 $FILE-wal",
    "an empty FILE": "truncate -s 0 $FILE",
    "a FILE that was removed": "rm $FILE",
    "a FILE that was removed with its log": "rm $FILE $FILE-wal",
    "a copy that was moved over FILE": "cp $FILE.old $FILE.new; mv $FILE.new $FILE",
    "a copy that was written over FILE": "cp $FILE.old $FILE",
}
# By these SQLite would read the log to an earlier end.
EARLIER_ENDS: dict[str, Callable[[bytearray, list[int]], Any]] = {
    "a byte of the first page": lambda log, frames: flip(log, frames[0] + 24 + 100),
    "a byte of the last page": lambda log, frames: flip(log, frames[-1] + 24 + 4095),
    "zeros for the last frame's header": lambda log, frames: zero(log, frames[-1], frames[-1] + 24),
    "zeros for a frame in the middle": lambda log, frames: zero(log, frames[0], frames[1]),
    "zeros for all of the log": lambda log, frames: zero(log, 0, len(log)),
    "a log cut by its last frame": lambda log, frames: log.__delitem__(slice(frames[-1], None)),
}
for byte in (3, 7, 8, 15, 16, 23):
    EARLIER_ENDS[f"byte {byte} of a frame's header"] = functools.partial(flip_in, 1, byte)
for byte in (0, 3, 7, 10, 15, 16, 23, 24, 31):
    EARLIER_ENDS[f"byte {byte} of the log's header"] = functools.partial(flip_in, None, byte)
LOSSES: dict[str, Change] = {name: shell(line) for name, line in LOST_ROWS.items()}
LOSSES |= {name: functools.partial(change_log, change=change) for name, change in EARLIER_ENDS.items()}


@pytest.mark.parametrize("change", LOSSES.values(), ids=LOSSES)
def test_a_server_refuses_files_that_lost_rows_and_writes_nothing(at_work: Office, change: Change) -> None:
    assert answers_around(at_work, change) == (["503", "503"], NOT_OURS, ["fault NotOurs began"], True)


def test_a_log_that_was_cut_before_the_first_change_is_a_loss_too(at_work: Office) -> None:
    at_work.lay(ORDER % "O-2")
    with at_work.serve() as server:
        assert is_answered(server)
        change_log(at_work.db, EARLIER_ENDS["a log cut by its last frame"])
        assert server.ask(ORDERS) == UNAVAILABLE and server.lines() == ["fault NotOurs began"]


def test_while_sqlite_reads_the_file_that_a_server_lent_nothing_is_answered_or_written(at_work: Office) -> None:
    with at_work.serve() as server, contextlib.closing(sqlite3.connect(at_work.db, isolation_level=None)) as reader:
        assert server.ask(ORDER % "O-2").startswith("200 ")
        reader.execute("BEGIN")
        orders = reader.execute("SELECT * FROM orders").fetchall()
        assert server.ask(ORDER % "O-3") == UNAVAILABLE
        assert reader.execute("SELECT * FROM orders").fetchall() == orders
        reader.execute("COMMIT")
        reader.close()
        assert server.ask(ORDER % "O-3").startswith("200 ")
        assert [line for line in server.lines() if line.startswith("fault")] == ["fault Disk began", "fault Disk ended"]


def test_while_another_has_the_lock_of_a_reader_nothing_is_answered_or_written(at_work: Office) -> None:
    # sqlite3 takes this lock too, but as root it changes a time of the log, so that the server opens the file anew
    paths, lock = [pathlib.Path(at_work.db + end) for end in ("", "-wal")], (510, (1 << 30) + 2)
    with at_work.serve() as server, open(at_work.db, "rb") as reader:
        for order in ("O-2", "O-3"):
            before = [path.read_bytes() for path in paths]
            fcntl.lockf(reader, fcntl.LOCK_SH, *lock)
            assert [server.ask(line) for line in (ORDERS, ORDER % order)] == [UNAVAILABLE, UNAVAILABLE]
            assert [path.read_bytes() for path in paths] == before
            fcntl.lockf(reader, fcntl.LOCK_UN, *lock)
            assert server.ask(ORDER % order).startswith("200 ") and f'"{order}"' in server.ask(ORDERS)


def test_bytes_that_others_wrote_in_place_are_read_if_the_time_of_writing_is_put_back(at_work: Office) -> None:
    file = pathlib.Path(at_work.db)
    CHECKPOINT(at_work.db)
    with at_work.serve() as server:
        assert is_answered(server)
        before, rows = file.stat(), file.read_bytes()
        assert rows.count(b"ACMEKEY1") == 1
        with open(file, "r+b") as place:
            place.write(rows.replace(b"ACMEKEY1", b"ACMEKEY2"))
        os.utime(file, ns=(before.st_atime_ns, before.st_mtime_ns))
        assert not is_answered(server) and server.ask(ORDERS.replace("KEY1", "KEY2")).startswith("200 ")


def test_a_server_that_was_started_with_the_file_open_lends_it(at_work: Office) -> None:
    at_work.program = at_work.write("toll", f'#!/bin/sh\nexec {at_work.program} "$@" 3<{at_work.db}\n')
    os.chmod(at_work.program, 0o755)
    with at_work.serve() as server:
        assert is_answered(server)
        by_others(at_work, "INSERT INTO units VALUES ('U9')")
        assert is_answered(server) and at_work.plant("unit-add", "U9").status == 1


def test_a_log_is_served_again_once_its_byte_is_put_back(at_work: Office) -> None:
    with at_work.serve() as server:
        assert server.ask(ORDER % "O-2").startswith("200 ")
        orders = server.ask(ORDERS)
        for wanted in (UNAVAILABLE, orders):
            change_log(at_work.db, lambda log, frames: flip(log, frames[0] + 24))
            assert server.ask(ORDERS) == wanted
        assert server.ask(ORDER % "O-3").startswith("200 ")
        faults = [line for line in server.lines() if line.startswith("fault")]
        assert faults == ["fault NotOurs began", "fault NotOurs ended"]


IN_ORDER = {
    "a checkpoint": CHECKPOINT,
    "a commit behind the others in the log": shell(f"{KEEPING_LOG} \"INSERT INTO units VALUES ('U-8')\""),
    "a commit and a checkpoint that keeps the log": shell(
        f"{KEEPING_LOG} \"INSERT INTO units VALUES ('U-8')\" 'PRAGMA wal_checkpoint(PASSIVE)'"
    ),
    "a new time of the log": shell("touch $FILE-wal"),
    "a checkpoint that was stopped behind the copying": begin_anew,
    "a copy by sqlite3": shell('sqlite3 $FILE ".backup $FILE.saved"'),
    "a new mode": shell("chmod 640 $FILE"),
    "a FILE that was moved away and back": shell("mv $FILE $FILE.away; mv $FILE.away $FILE"),
    "a copy in the place of both": shell("rm $FILE-wal; cp $FILE.old $FILE"),
}


@pytest.mark.parametrize("change", IN_ORDER.values(), ids=IN_ORDER)
def test_what_others_did_by_sqlite_or_put_back_is_taken(at_work: Office, change: Change) -> None:
    statuses, answer, lines, _ = answers_around(at_work, change)
    assert statuses == ["200", "200"] and answer.status == 0 and not any(line.startswith("fault") for line in lines)


def test_a_log_that_a_command_wrote_and_closed_is_taken(at_work: Office) -> None:
    with at_work.serve() as server:
        assert server.ask(ORDER % "O-2").startswith("200 ")
        for unit in ("U2", "U3"):
            os.unlink(client.path_of(at_work))  # so that the command opens FILE itself
            assert at_work.plant("unit-add", unit) == ACCEPTED
            assert '"O-2"' in server.ask(ORDERS) and has_socket(at_work, unit + "-TOO")
        assert openings(server) == 2 and not any("NotOurs" in line for line in server.lines())


# Servers that stop or take long


def test_a_server_whose_network_fails_ends_with_3(disk: Disk) -> None:
    with disk.serve(disk.env) as server:
        assert is_answered(server)
        disk.disturb(0, NO_NETWORK, errno.EBADF)
        server.connect().close()
        assert server.has_ended(PATIENCE) and server.process.returncode == 3 and server.lines() == ["fault Net"]


def test_a_command_waits_five_seconds_for_a_server_that_is_stopped(at_work: Office) -> None:
    with at_work.serve() as server:
        server.ask(ORDERS)
        began = time.monotonic()
        assert at_work.plant("stock", "ACME").status == 0
        own = time.monotonic() - began  # what a command takes without waiting: some ms, on a busy machine more
        server.process.send_signal(signal.SIGSTOP)
        began = time.monotonic()
        assert at_work.plant("unit-add", "U2") == ACCEPTED and 4 < time.monotonic() - began < 8 + 10 * own
        server.process.send_signal(signal.SIGCONT)
        assert is_answered(server)
        assert at_work.plant("unit-add", "U2").status == 1 and at_work.plant("unit-add", "U3") == ACCEPTED
        server.process.send_signal(signal.SIGSTOP)
        with locked(at_work):
            assert at_work.plant("unit-add", "U4") == LOCKED
        server.process.send_signal(signal.SIGCONT)


def test_behind_the_handshake_a_command_waits_for_its_answer_as_long_as_it_takes(at_work: Office) -> None:
    path, answers = at_work.write("actuals.csv", many_actuals(3000)), list[Result]()
    with at_work.serve() as server:
        server.ask(ORDERS)
        worker = threading.Thread(target=lambda: answers.append(at_work.plant("import", path)), daemon=True)
        worker.start()
        while not server.ask(ORDERS):
            time.sleep(0.01)
        server.process.send_signal(signal.SIGSTOP)
        time.sleep(7)
        server.process.send_signal(signal.SIGCONT)
        worker.join(PATIENCE)
    assert answers and not answers[0].err and answers[0].out.splitlines()[-1].endswith(" fault 0")


# Servers of another build, or that end or answer nothing, half or too much


@contextlib.contextmanager
def false_server(
    office: Office, greeting: bytes, reply: bytes | None = None, ends: bool = False, seconds: float = 0
) -> Iterator[list[bytes]]:
    """A socket of ours, which greets who comes, and ends or takes a byte, or replies where it has a reply, after so
    many seconds; with what it took."""
    path, received = client.path_of(office), list[bytes]()
    pathlib.Path(path).unlink(missing_ok=True)

    class Playing(socketserver.BaseRequestHandler):
        def handle(self) -> None:
            with contextlib.suppress(OSError):
                self.request.sendall(greeting)
                if not ends:
                    received.append(self.request.recv(1) if reply is None else client.take_parcel(self.request))
                    time.sleep(seconds)
                    self.request.sendall(reply or b"")

    with serving(socketserver.UnixStreamServer(path, Playing)):
        yield received
    os.unlink(path)


@pytest.fixture
def greeting(at_work: Office) -> bytes:
    """What a server of this build greets with."""
    with at_work.serve(), client.connect(client.path_of(at_work)) as peer:
        return client.take_parcel(peer)


GREETINGS: dict[str, tuple[Callable[[bytes], bytes], bool]] = {
    "nothing": (lambda ours: b"", True),
    "half": (lambda ours: ours[:-1], True),
    "another build": (lambda ours: client.parcel(b"toll 0.9"), False),
    "a longer one": (lambda ours: ours + b"x", False),
    "a long parcel": (lambda ours: b"\xff\xff\xff\xff", False),
}


@pytest.mark.parametrize("other, ends", GREETINGS.values(), ids=GREETINGS)
def test_another_greeting_is_asked_nothing(
    at_work: Office, greeting: bytes, other: Callable[[bytes], bytes], ends: bool
) -> None:
    assert greeting[4:].decode() == at_work.run([]).err.splitlines()[0]
    with false_server(at_work, other(greeting), ends=ends) as received:
        assert at_work.plant("unit-add", "U2") == ACCEPTED
    assert not any(received)


ANSWERED = client.answer(0, b"accepted\n")
EMPTY, BROKEN = client.parcel(b""), client.parcel(b"\0\0\0\0\xff")


@pytest.mark.parametrize("reply", [b"", b"\0", ANSWERED[:-1], ANSWERED + b"x", EMPTY, BROKEN])
def test_a_command_that_is_taken_and_not_answered_is_lost(at_work: Office, greeting: bytes, reply: bytes) -> None:
    with false_server(at_work, greeting, reply):
        assert at_work.plant("unit-add", "U2") == LOST
    assert at_work.plant("unit-add", "U2") == ACCEPTED


def test_an_answer_is_passed_on_as_it_is(at_work: Office, greeting: bytes) -> None:
    with false_server(at_work, greeting, client.answer(1, b"one\n", b"two\n")) as received:
        assert at_work.plant("unit-add", "U2") == Result(1, "one\n", "two\n")
        assert at_work.plant("unit-add", "U2", closed="2>&1") == Result(1, "one\ntwo\n")
    assert received == [client.question("unit-add", "U2")] * 2


def test_an_answer_that_comes_after_more_than_the_handshakes_time_is_waited_for(
    at_work: Office, greeting: bytes
) -> None:
    with false_server(at_work, greeting, ANSWERED, seconds=6):
        assert at_work.plant("unit-add", "U2") == ACCEPTED


@pytest.mark.skipif(os.geteuid() != 0, reason="only root can be another user")
def test_another_users_socket_that_greets_rightly_is_asked_nothing(at_work: Office, greeting: bytes) -> None:
    with false_server(at_work, greeting, ANSWERED) as received:
        os.chown(client.path_of(at_work), NOBODY, NOBODY)
        assert at_work.plant("owner-add", "COLT", "COLTKEY1") == ACCEPTED
    assert received == [] and at_work.plant("owner-add", "COLT", "COLTKEY1").status == 1


# Clients that end or are killed

CUT = [
    b"\xff\xff\xff\xff",
    client.parcel(b"x"),
    client.parcel(client.parcel(b"unit-add\0U2\0") + b"\2"),
    client.parcel(client.parcel(b"unit-add\0U2")),
    b"GET / HTTP/1.1\r\n\r\n",
]


def test_of_a_client_that_ends_before_all_was_sent_nothing_is_done_and_of_one_behind_it_all(at_work: Office) -> None:
    whole, path = client.question("unit-add", "U2"), client.path_of(at_work)
    with at_work.serve() as server:
        server.ask(ORDERS)
        before = content(at_work.db)
        for size in range(len(whole)):
            with client.connect(path) as peer:
                if size % 2:
                    client.take_parcel(peer)
                peer.sendall(whole[:size])
        for damaged in CUT:
            with client.connect(path) as peer:
                client.take_parcel(peer)
                peer.sendall(damaged)
                peer.shutdown(socket.SHUT_WR)
                assert client.take_parcel(peer) == b"", damaged
        server.ask(ORDERS)
        assert content(at_work.db) == before
        with client.connect(path) as peer:
            client.take_parcel(peer)
            peer.sendall(whole)
        server.ask(ORDERS)
        assert at_work.plant("unit-add", "U2").status == 1
        assert not server.has_ended() and server.lines() == []


def test_a_command_that_is_killed_is_done_whole_or_not_at_all_and_the_server_goes_on(at_work: Office) -> None:
    actuals, chance = at_work.write("actuals.csv", IMPORTS["many"]), random.Random(1)
    with at_work.serve() as server:
        for turn in range(40):
            words = ["import", actuals] if turn % 4 == 0 else f"receive ACME X{turn} M L{turn} S 1 10".split()
            command = [at_work.program, "--db", at_work.db, *words]
            process = subprocess.Popen(command, stdout=NOTHING, stderr=NOTHING, cwd=at_work.folder)
            time.sleep(chance.uniform(0, 0.03))
            process.kill()
            process.wait()
            again = at_work.plant(*words)
            assert "fault" not in again.err if words[0] == "import" else again in (ACCEPTED, REPEATED), words
            assert is_answered(server)
        assert not server.has_ended() and server.lines() == []


# A server that is killed at each of its calls over the file


def wrong_kills(disks: list[Disk], base: str, words: list[str], done: list[Result], left: list[Any]) -> dict[str, Any]:
    """What is wrong where the server is killed before or after a call that the words have it make."""

    def attempt(office: Disk, point: tuple[int, int]) -> str:
        (answer, _), rows = answer_and_calls(office, *point), content(office.db)
        if rows not in left or answer not in (LOST, *done):
            return f"{answer}, with {'its rows' if rows in left else 'rows that it may not leave'}"
        if answer in done and rows == left[0]:
            return f"what was answered {answer} is not there"
        again = office.plant(*words)
        return "" if again in done and content(office.db) == left[-1] else f"{answer}, and the same again {again}"

    def answer_and_calls(office: Disk, at: int, way: int) -> tuple[Result, int]:
        put(base, office.db)
        pathlib.Path(client.path_of(office)).unlink(missing_ok=True)
        office.disturb(0)
        with office.serve(office.env) as server:
            server.ask(ORDERS)
            before = len(office.calls())
            office.aim(before + at, way)
            answer, calls = office.plant(*words), len(office.calls()) - before
            office.leave()
        return answer, calls

    points = range(1, min(60, answer_and_calls(disks[0], 0, 0)[1]) + 1)
    assert len(points) > 10
    kills = [(at, way) for at in (0, *points) for way in (KILLED_BEFORE, KILLED_AFTER)]
    return wrong_outcomes(disks, attempt, kills, [""])


def test_a_command_whose_server_is_killed_is_done_whole_or_not_at_all(disks: list[Disk], new: New, work: str) -> None:
    words, office = "receive ACME K2 M B S1 100 10".split(), new()
    put(work, office.db)
    before = content(office.db)
    assert office.plant(*words) == ACCEPTED
    assert wrong_kills(disks, work, words, [ACCEPTED, REPEATED], [before, content(office.db)]) == {}


def test_an_import_whose_server_is_killed_is_done_up_to_a_record(disks: list[Disk], new: New, work: str) -> None:
    command = Import(new, work)
    rows, reports = zip(*command.lefts)
    assert wrong_kills(disks, work, command.words, list(reports), list(rows)) == {}


def test_what_is_accepted_while_servers_come_and_go_is_there_once(at_work: Office) -> None:
    answers, chance = dict[str, Result](), random.Random(1)

    def receipt(key: str) -> Result:
        return at_work.plant(*f"receive ACME {key} M {key} S 1 10".split())

    def receive(name: str, over: threading.Event) -> None:
        for key in (f"{name}{number}" for number in range(10**9)):
            if over.is_set():
                return
            answers[key] = receipt(key)

    def accepted() -> list[str]:
        return [key for key, answer in list(answers.items()) if answer == ACCEPTED]

    with meanwhile(*(functools.partial(receive, name) for name in "XYZ")):
        # twenty servers, and more of them where the machine is too busy for many commands
        for turn in itertools.takewhile(lambda turn: turn < 20 or len(accepted()) <= 20, range(200)):
            with at_work.serve(count=2 if turn % 3 else 1_000_000) as server:
                time.sleep(chance.uniform(0, 0.3))
                if turn % 3:
                    for _ in range(2):
                        server.ask(ORDERS)
                    server.has_ended(PATIENCE)
            time.sleep(chance.uniform(0, 0.1))
    done = accepted()
    assert set(answers.values()) <= {ACCEPTED, LOCKED, LOST} and len(done) > 20
    assert {key: again for key in done if (again := receipt(key)) != REPEATED} == {}
