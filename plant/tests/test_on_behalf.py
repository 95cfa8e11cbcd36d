"""`for`: what an owner asked the plant for is done as the owner does it, and its key is seen by nobody."""
import contextlib
import os
import socket
import subprocess
import sys

import pytest
from conftest import eventually, script
from hilpoven.core import client, server

BY = ("--by", "Jane Doe, mail of 27 November")
RELEASABLE = "result ACME B-1 PH 5 102\n"


def lots(plant):
    return dict(plant.rows("SELECT lot, disposition FROM lots WHERE owner = 'ACME'"))


def orders(plant):
    return plant.rows("SELECT ord, recipe, batches, cancelled FROM orders WHERE owner = 'ACME' ORDER BY ord")


def texts(plant, *done):
    """All that anybody can read besides the file itself."""
    return "".join([plant.journal.read_text(), *(text for result in done for text in (result.out, result.err))])


def test_each_request_does_what_the_owner_can_do(at_work):
    at_work.lay(RELEASABLE)
    done = [at_work.run("for", "ACME", *words.split(), *BY) for words in (
        "order O-2 BRINE-10 2", "order O-3 BRINE-10 1", "cancel O-2", "release B-1", "reject S-1", "order O-3 BRINE-10 1")]
    assert [(result.status, result.out, result.err) for result in done] == [(0, "accepted\n", "")] * 5 + [(0, "repeated\n", "")]
    assert orders(at_work) == [("O-1", "BRINE-10", 3, 0), ("O-2", "BRINE-10", 2, 1), ("O-3", "BRINE-10", 1, 0)]
    assert lots(at_work) == {"B-1": 1, "S-1": 2}


@pytest.mark.parametrize("words, refusal, why", [
    ("order O-1 BRINE-10 4", "refused 17 OrderExists", "Another order needs another name"), ("order O-9 BRIN-10 1", "refused 13 UnknownRecipe", "Nearest of the recipes of ACME: BRINE-10"),
    ("cancel O-1", "refused 20 OrderStarted", ""), ("cancel O-9", "refused 18 UnknownOrder", "Nearest of the orders of ACME: O-1"),
    ("release B-1", "refused 36 TestsOpen", "`hilpoven show lot ACME B-1` tells which tests are missing"), ("release W-101", "refused 27 UnknownLot", "HOUSE has a lot W-101."),
    ("release S-1", "refused 32 NotQuarantined", ""), ("reject P-1", "refused 27 UnknownLot", "BOLT has a lot P-1.")])
def test_a_refusal_is_that_of_toll_with_its_explanation(at_work, words, refusal, why):
    before = at_work.content()
    done = at_work.run("for", "ACME", *words.split(), *BY)
    assert (done.status, done.out) == (1, f"{refusal}\n") and why in done.err and at_work.content() == before


def test_an_order_that_was_cancelled_is_told(at_work):
    at_work.run("for", "ACME", "order", "O-2", "BRINE-10", 2, *BY)
    at_work.run("for", "ACME", "cancel", "O-2", *BY)
    assert at_work.run("for", "ACME", "order", "O-2", "BRINE-10", 2, *BY) == (0, "repeated\n", "  The order is cancelled, so nobody makes it.\n")


def test_the_journal_has_who_asked_and_never_the_key(at_work):
    done = at_work.run("for", "ACME", "reject", "S-1", *BY)
    asked, answered = at_work.lines()
    assert asked["words"] == ["for", "ACME", "reject", "S-1", "--by", "Jane Doe, mail of 27 November"] and answered["answer"] == "accepted\n"
    shown = at_work.run("journal", "--no-site", "--word", "S-1")
    assert "for ACME reject S-1 --by Jane Doe, mail of 27 November" in shown.out and "ACMEKEY1" not in texts(at_work, done, shown)


def test_the_key_is_in_no_command_line_and_no_environment(at_work, monkeypatch):
    seen = at_work.folder / "seen"
    at_work.program = str(script(at_work.folder / "toll", f'echo "$@" >> {seen}; env >> {seen}; exec {at_work.program} "$@"'))
    assert at_work.run("for", "ACME", "reject", "S-1", *BY).status == 0
    assert "serve 0" in seen.read_text() and "ACMEKEY1" not in seen.read_text()
    assert not list(at_work.folder.glob("*.sock")) and not [path.name for path in at_work.folder.iterdir() if path.name.startswith(".")]


@pytest.mark.parametrize("words", ["ACME reject S-1", "ACME\r\ntoll-key:X reject S-1", "acme reject S-1", "BOLT; reject S-1", "HOUSE reject W-101", "ACME reject ../lots/S-1", "ACME reject S-1?a",
                                   "ACME order O-5 BRINE-10 1.5", "ACME order O-5 BRINE-10 100", "ACME order O-5 \"} 1", "ACME order O-5", "ACME release S-1 B-1", "ACME eat S-1", "NOBODY reject S-1"])
def test_words_that_are_none_ask_nothing(at_work, monkeypatch, words):
    monkeypatch.setattr(client, "begin_server", lambda *_, **__: pytest.fail("a server was begun"))
    before, typed = at_work.content(), [word.replace("\v", " ") for word in words.split(" ")]
    done = at_work.run("for", *typed, *(BY if words != "ACME reject S-1" else ()))
    assert done.status == (1 if "NOBODY" in words else 2) and done.out == "" and "\r" not in done.err
    assert at_work.content() == before and not at_work.journal.exists()


@pytest.mark.parametrize("text", ["", "  ", "a\nb", "x" * 201, "\x1b[2J"])
def test_who_asked_is_one_line(at_work, text):
    done = at_work.run("for", "ACME", "reject", "S-1", "--by", text)
    assert done.status == 2 and "\x1b" not in done.err and lots(at_work)["S-1"] == 1 and not at_work.journal.exists()


def test_the_offices_own_server_is_asked(at_work, monkeypatch):
    monkeypatch.setattr(client, "begin_server", lambda *_, **__: pytest.fail("a server was begun"))
    with at_work.serve() as running:
        at_work.settle(port=running.port)
        assert at_work.run("for", "ACME", "reject", "S-1", *BY) == (0, "accepted\n", "")
        assert running.ask("ACME", "GET", "/lots/S-1")[1]["disposition"] == "rejected"


def test_the_key_is_that_of_the_file_at_that_moment(at_work):
    with at_work.serve() as running:
        at_work.settle(port=running.port)
        at_work.run("owner", "key", "ACME", stdin="ANOTHERKEY1\n")
        assert at_work.run("for", "ACME", "reject", "S-1", *BY).out == "accepted\n"


def test_a_server_goes_on_beside_the_one_that_is_begun(at_work):
    """Its port isn't known, so another server is begun; the first one takes over what that changed."""
    with at_work.serve() as running:
        assert at_work.run("for", "ACME", "reject", "S-1", *BY).out == "accepted\n"
        assert running.ask("ACME", "GET", "/lots/S-1")[1]["disposition"] == "rejected"
        assert at_work.run("unit-add", "PRESS").out == "accepted\n" and (at_work.folder / "office.db.sock").exists()


@contextlib.contextmanager
def listener_of(user):
    """A program of another user that listens at a port, and that port; what it gets is its next line."""
    text = f"""
import os, socket
os.setgid({user}); os.setuid({user})
listener = socket.create_server(("127.0.0.1", 0))
print(listener.getsockname()[1], flush=True)
peer, _ = listener.accept()
print(repr(peer.recv(4096)), flush=True)
"""
    process = subprocess.Popen([sys.executable, "-c", text], stdout=subprocess.PIPE, text=True, cwd="/")
    try:
        yield process, int(process.stdout.readline())
    finally:
        process.kill()
        process.wait()
        process.stdout.close()


@pytest.mark.skipif(os.geteuid() != 0, reason="only root can be another user")
def test_a_program_of_another_user_at_the_port_gets_nothing(at_work):
    with listener_of(4711) as (process, port):
        at_work.settle(port=port)
        assert server.listener_at(port).user == 4711
        assert at_work.run("for", "ACME", "reject", "S-1", *BY) == (0, "accepted\n", "")
        assert process.poll() is None
        process.kill()
        assert process.stdout.read() == ""


def test_a_program_that_takes_the_port_meanwhile_gets_nothing(at_work, monkeypatch):
    """The server ends, and another listens at its port, between the look at who listens and the connection."""
    with socket.create_server(("127.0.0.1", 0)) as first:
        port, created = first.getsockname()[1], socket.create_connection

        def swapped(address, *arguments):
            first.close()
            with socket.create_server(address) as second:
                second.settimeout(20)
                peer = created(address, *arguments)
                accepted.append(second.accept()[0])
            return peer
        accepted = []
        monkeypatch.setattr(socket, "create_connection", swapped)
        assert server.connected(port, os.geteuid()) is None
    with accepted[0] as peer:
        assert peer.recv(100) == b""


@pytest.mark.parametrize("reply, status, why", [
    (b"", 3, "fault Lost"), (b"HTTP/1.1 503 x\r\n\r\n{\"error\":\"Unavailable\"}", 3, "fault Unavailable"), (b"HTTP/1.1 403 x\r\n\r\n{\"error\":\"Forbidden\"}", 3, "the server replies 403 Forbidden"),
    (b"HTTP/1.1 409 x\r\n\r\n{\"code\":1,\"error\":\"\\u001b[2J\"}", 3, "the server replies 409"), (b"HTTP/1.1 200 x\r\n\r\n{", 3, "fault Lost")])
def test_a_reply_that_is_none_is_told_and_noted(at_work, monkeypatch, reply, status, why):
    ours, theirs = socket.socketpair()
    theirs.sendall(reply)
    theirs.shutdown(socket.SHUT_WR)
    monkeypatch.setattr(server, "connected", lambda *_: ours)
    at_work.settle(port=1)
    done = at_work.run("for", "ACME", "reject", "S-1", *BY)
    assert done.status == status and why in done.err and "\x1b" not in done.err and lots(at_work)["S-1"] == 1
    asked, answered = at_work.lines()
    assert answered["of"] == asked["id"] and answered["status"] == 3 and "ACMEKEY1" not in texts(at_work, done)
    assert b"toll-key: ACMEKEY1\r\n" in theirs.recv(4096)
    theirs.close()


def test_a_key_of_the_file_that_is_none_goes_nowhere(at_work, monkeypatch):
    import sqlite3
    monkeypatch.setattr(client, "begin_server", lambda *_, **__: pytest.fail("a server was begun"))
    with contextlib.closing(sqlite3.connect(at_work.db)) as base, base:
        base.execute("UPDATE owners SET okey = 'A' || char(13, 10) || 'toll-owner: BOLT' WHERE owner = 'ACME'")
    done = at_work.run("for", "ACME", "reject", "S-1", *BY)
    assert done.status == 3 and "fault Damaged" in done.err and "BOLT" not in done.err


def test_a_server_that_does_not_begin_is_told(at_work):
    at_work.program = str(script(at_work.folder / "toll", f'case "$*" in *" serve "*) exit 3;; *) exec {at_work.program} "$@";; esac'))
    done = at_work.run("for", "ACME", "reject", "S-1", *BY)
    assert done.status == 3 and "no server of" in done.err and at_work.lines()[-1]["status"] == 3 and lots(at_work)["S-1"] == 1


def test_a_member_does_it_by_the_settings_alone(at_work):
    at_work.settle()
    done = at_work.as_member("for", "ACME", "reject", "S-1", *BY)
    assert done == (0, "accepted\n", "") and lots(at_work)["S-1"] == 2 and "ACMEKEY1" not in texts(at_work, done)
    assert at_work.as_member("--db", at_work.db, "for", "ACME", "reject", "B-1", *BY).status == 2


def test_a_kill_leaves_no_server_and_no_copy(at_work):
    """The server that is begun is stopped, so that the command waits for it."""
    at_work.program = str(script(at_work.folder / "toll", f'case "$*" in *" serve "*) echo $$ > {at_work.folder}/pid; exec sleep 60;; *) exec {at_work.program} "$@";; esac'))
    process = at_work.begun("for", "ACME", "reject", "S-1", *BY)
    assert eventually(lambda: (at_work.folder / "pid").exists() and (at_work.folder / "pid").read_text().strip())
    begun = int((at_work.folder / "pid").read_text())
    process.kill()
    process.communicate()
    assert eventually(lambda: not os.path.exists(f"/proc/{begun}/cmdline") or open(f"/proc/{begun}/cmdline", "rb").read() == b"")
    assert not [path.name for path in at_work.folder.iterdir() if path.name.startswith(".hilpoven")]
