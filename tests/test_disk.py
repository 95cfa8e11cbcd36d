"""Each call of the program that opens, reads, writes, syncs, cuts, locks, closes or looks at FILE, FILE-wal,
FILE.lock or their folder fails, comes short, is torn (half of it is written, then the program is killed), or is the
last one before or after which the program is killed.

- The answer is that of a sound disk, or tells the fault: `fault Disk`, `fault Locked`, over HTTP 503.
- sqlite3 finds a sound database with the rows from before or after, never some of them; what was accepted is there.
- The same words given again have their answer, and leave the rows from after.
"""
import contextlib
import errno
import fcntl
import os
import pathlib
import signal
import socket
import sqlite3
import stat
import time
from collections.abc import Callable, Iterator
from typing import NamedTuple

import pytest

from tests.attempts import FAULTED, UNHARMED, Command, Import, Left, New, Request, make_version_1
from tests.harness import ACCEPTED, FAIL, KILLED_AFTER, KILLED_BEFORE, PATIENCE, REPEATED, SHORT, TORN, UNAVAILABLE
from tests.harness import Disk, Office, Result, Server, content, fault, printed, put, read_all, request
from tests.harness import wrong_outcomes
from tests.lines import ACTUALS, STOCK

# The letters that disk.c has for the kinds of calls: open, read, write, sync, cut, lock, close, look.
EVERY = "orwstlci"
KILLED = -signal.SIGKILL
DISK, LOCKED = fault("Disk"), fault("Locked")
ORDERS = "> ACME ACMEKEY1 GET /orders"
NEW_ORDER = 'POST /orders {"order":"O-2","recipe":"R","batches":2}'
ORDERED = '{"batches":2,"order":"O-2","recipe":"R","status":"open"}'


class Way(NamedTuple):
    """How a call is disturbed, the error where it fails, and the kinds of calls."""

    name: str
    number: int
    error: int
    kinds: str


WAYS = [
    Way("EIO", FAIL, errno.EIO, EVERY),
    Way("ENOSPC", FAIL, errno.ENOSPC, "owst"),
    Way("EAGAIN", FAIL, errno.EAGAIN, "l"),
    Way("short", SHORT, 0, "rw"),
    Way("torn", TORN, 0, "w"),
    Way("killed before", KILLED_BEFORE, 0, EVERY),
    Way("killed after", KILLED_AFTER, 0, EVERY),
]


# What is disturbed


def over_file(command: Command, left: Left) -> Command:
    """The command with all that a fault of the disk may make of it; `left` are the contents that a fault may leave."""
    command.allowed |= {
        command.answer: left[-1:],
        DISK: left,
        LOCKED: left[:1],
        Result(KILLED, ""): left,
        Result(KILLED, command.answer.out): left[-1:],
    }
    return command


def actual(new: New, base: str) -> Command:
    command = Command(new(), base, "actual K2 ACME O 1 1 consumed M ACME A S1 40 11")
    return over_file(command, [(command.before, command.answer), (command.after, REPEATED)])


def records(new: New, base: str) -> Command:
    """An import of three records, which are one group, whose changes are made at once."""
    command = Import(new, base)
    none_or_all = [command.lefts[0], command.lefts[-1]]
    over_file(command, none_or_all)
    command.allowed[command.ending_with("Disk", 0)] = none_or_all
    return command


def adoption(new: New, _: str) -> Command:
    """A question to a file of version 1."""
    command = Command(new(), make_version_1(new), "stock ACME", STOCK)
    return over_file(command, [(command.before, command.answer), (command.after, command.answer)])


def order(new: New, base: str) -> Request:
    """An order over HTTP, for which the server opens the file."""
    return Request(new(), base, NEW_ORDER, ORDERED, may_stop=True)


Disturbed = tuple[Command | Request, str]
RUNS: dict[str, Callable[[New, str], Command | Request]] = {
    "an actual": actual,
    "an import": records,
    "a question to version 1": adoption,
    "an order over HTTP": order,
}


@pytest.fixture(scope="module", params=RUNS)
def run(request: pytest.FixtureRequest, new: New, work: str, disks: list[Disk]) -> Disturbed:
    """What is disturbed, and the kinds of its calls."""
    disturbed = RUNS[request.param](new, work)
    disks[0].disturb(0)
    assert disturbed.attempt(disks[0]) == UNHARMED
    return disturbed, disks[0].calls()


@pytest.mark.parametrize("way", WAYS, ids=[way.name for way in WAYS])
def test_a_fault_at_any_call_leaves_the_rows_from_before_or_after(run: Disturbed, way: Way, disks: list[Disk]) -> None:
    def attempt(office: Disk, at: int) -> str:
        office.disturb(at, way.number, way.error)
        return run[0].attempt(office)

    points = [at for at, kind in enumerate(run[1], 1) if kind in way.kinds]
    assert points and wrong_outcomes(disks, attempt, points, (UNHARMED, FAULTED)) == {}


# Streams, words and files


def test_a_word_that_is_no_text_is_a_wrong_use(new: New) -> None:
    office = new()
    usage = office.run([])
    assert usage.status == 2 and not usage.out and "usage:" in usage.err
    for words in (b"\xff", b"--db x\xff.db unit-add U1", b"--db x.db unit-add U\xff", b"--db x.db import \xff"):
        assert office.run(words.split(b" ")) == usage, words
    assert os.listdir(office.folder) == []


@pytest.mark.parametrize("words", ["stock ACME", "ship ACME K9 A S1 1 12", "import actuals.csv"])
@pytest.mark.parametrize("closed", [">&-", "<&- >&-", ">&- 2>&-", "<&- >&- 2>&-"])
def test_an_answer_to_a_closed_stream_goes_into_no_file_and_ends_with_3(
    at_work: Office, words: str, closed: str
) -> None:
    before = content(at_work.db)
    at_work.write("actuals.csv", ACTUALS)
    answer = at_work.plant(*words.split(), closed=closed)
    assert (answer.status, answer.out, os.path.getsize(f"{at_work.db}.lock")) == (3, "", 0)
    after = content(at_work.db)
    assert not isinstance(after, str) and (words != "stock ACME" or after == before)


def test_a_fault_that_no_stream_takes_goes_into_no_file(at_work: Office) -> None:
    before = content(at_work.db)
    with open(f"{at_work.db}.lock", "w") as lock:
        fcntl.flock(lock, fcntl.LOCK_EX)
        assert at_work.plant("unit-add", "U2", closed="2>&-") == Result(3, "")
    assert os.path.getsize(f"{at_work.db}.lock") == 0 and content(at_work.db) == before


def test_files_that_are_made_are_their_users_alone_whatever_the_umask(new: New) -> None:
    office = new()
    office.program = office.write("toll", f'#!/bin/sh\numask 0\nexec {office.program} "$@"\n')
    os.chmod(office.program, 0o755)
    assert office.plant("owner-add", "ACME", "ACMEKEY1") == ACCEPTED
    with office.serve() as server:
        assert server.ask("> ACME ACMEKEY1 GET /stock").startswith("200 ")
        paths = [path for path in pathlib.Path(office.folder).iterdir() if path.name != "toll"]
        assert {path.name[len("office.db") :] for path in paths} == {"", "-wal", ".lock", ".sock"}
        assert {stat.S_IMODE(path.stat().st_mode) for path in paths} == {0o600}


@pytest.mark.parametrize("way", [KILLED_BEFORE, KILLED_AFTER])
def test_an_office_whose_making_was_killed_is_made_by_the_next_command(disks: list[Disk], way: int) -> None:
    words = ("unit-add", "U1")

    def status_behind_a_kill(office: Disk, at: int) -> str:
        put(None, office.db)
        office.disturb(at, way)
        office.plant(*words, env=office.env)
        return str(office.plant(*words).status)

    assert status_behind_a_kill(disks[0], 0) == "1"  # it is there already
    points = [at for at, kind in enumerate(disks[0].calls(), 1) if kind in "owst"]
    assert points and wrong_outcomes(disks, status_behind_a_kill, points, ("0", "1")) == {}


def test_a_file_that_was_moved_away_from_its_log_is_refused_and_is_whole_when_it_is_back(at_work: Office) -> None:
    # the server that takes the order is killed, so that the order is in the log alone
    office, db = at_work, at_work.lay(f"> ACME ACMEKEY1 {NEW_ORDER}")
    full, log = content(db), pathlib.Path(f"{db}-wal").read_bytes()
    os.rename(db, db + ".away")
    for words in ("stock ACME", "unit-add U7"):
        assert office.plant(*words.split()) == fault("NotOurs")
    with office.serve() as server:
        assert server.ask(ORDERS) == UNAVAILABLE
    assert not os.path.exists(db) and pathlib.Path(f"{db}-wal").read_bytes() == log
    os.rename(db + ".away", db)
    assert content(db) == full and "O-2" in office.plant("orders", "ACME").out


def test_two_names_a_link_to_nowhere_and_a_long_name_are_a_fault(at_work: Office) -> None:
    office, before = at_work, content(at_work.db)
    os.link(office.db, office.db + ".other")
    assert office.plant("unit-add", "U7") == DISK and content(office.db) == before
    os.unlink(office.db + ".other")
    nowhere, *names = (os.path.join(office.folder, name) for name in ("nowhere", "link", "n" * 248, "n" * 250))
    os.symlink(nowhere, names[0])
    for name in names:
        assert office.run(["--db", name, "unit-add", "U7"]) == DISK, name
    assert not os.path.exists(nowhere) and office.plant("unit-add", "U7") == ACCEPTED


# Servers that are stopped and go on, and peers without memory


def interrupt(server: Server) -> None:
    """Stops the server where it waits, and has it go on."""
    for pause, number in ((0.2, signal.SIGSTOP), (0.1, signal.SIGCONT)):
        time.sleep(pause)
        server.process.send_signal(number)
    time.sleep(0.2)


@pytest.fixture
def served(at_work: Office) -> Iterator[Server]:
    """A server of an office with many lots."""
    with contextlib.closing(sqlite3.connect(at_work.db)) as base, base:
        base.executemany("INSERT INTO lots VALUES ('ACME', ?, 'M', '', 0, 0)", [(f"LOT-{at}",) for at in range(4500)])
    with at_work.serve() as server:
        yield server


def test_a_server_that_is_stopped_while_nobody_asks_serves_the_next_one(served: Server) -> None:
    interrupt(served)
    assert served.ask(ORDERS).startswith("200 ")


def test_a_request_during_which_the_server_is_stopped_is_answered(served: Server) -> None:
    with served.connect() as peer:
        peer.sendall(request(ORDERS)[:20])
        interrupt(served)
        peer.sendall(request(ORDERS)[20:])
        assert printed(read_all(peer).decode()).startswith("200 ")


def test_a_reply_during_which_the_server_is_stopped_comes_whole(served: Server) -> None:
    with socket.socket() as peer:
        # segments and room so small that the server has to wait
        peer.setsockopt(socket.IPPROTO_TCP, socket.TCP_MAXSEG, 536)
        peer.setsockopt(socket.SOL_SOCKET, socket.SO_RCVBUF, 2048)
        peer.settimeout(PATIENCE)
        peer.connect(("127.0.0.1", served.port))
        peer.sendall(request("> ACME ACMEKEY1 GET /stock"))
        for _ in range(5):
            interrupt(served)
        head, _, body = read_all(peer).decode().partition("\r\n\r\n")
    assert f"content-length: {len(body)}\r\n" in head + "\r\n" and len(body) > 200_000


def test_a_peer_for_whom_there_is_no_memory_does_not_end_the_serving(disks: list[Disk], work: str) -> None:
    office = disks[0]
    put(work, office.db)
    office.disturb(1, FAIL, errno.ENOMEM)
    with office.serve({**office.env, "TRY_FOLDER": "/nowhere"}) as server:
        _, *replies = [server.ask(ORDERS) for _ in range(3)]
        assert all(reply.startswith("200 ") for reply in replies) and not server.has_ended()
