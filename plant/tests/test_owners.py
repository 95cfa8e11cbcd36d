"""Owners and their keys, which stand on no command line and in no log."""

import contextlib
import os
import pty
import re
import sys

import pytest
from conftest import HILPOVEN, command, environment
from hilpoven.cli import caller

RECEIPTS = "owner,key,material,lot,sublot,amount,day\nACME,K30,SALT,S-30,BAY1,5,102\n"


def key_of(plant, owner):
    return plant.rows(f"SELECT okey FROM owners WHERE owner = '{owner}'")


def test_an_owner_is_added_with_the_key_of_standard_input(at_work):
    done = at_work.run("owner", "add", "CARL", stdin="CARLSKEY1\n")
    assert done == (0, "accepted\n", "") and key_of(at_work, "CARL") == [("CARLSKEY1",)]


def test_a_random_key_is_printed_once_and_works(at_work):
    done = at_work.run("owner", "add", "CARL", "--random")
    first, key = done.out.splitlines()
    assert first == "accepted" and key.startswith("key ") and len(key) == 36
    assert key_of(at_work, "CARL") == [(key[4:],)]
    assert at_work.run("owner", "add", "DORA", "--random").out.splitlines()[1] != key


@pytest.mark.parametrize("words, first", [(("owner", "add", "CARL"), "accepted"), (("owner", "key", "ACME"), "the key of ACME is changed")])
def test_without_a_key_one_is_made(at_work, words, first):
    done = at_work.run(*words, stdin="")
    answer, key = done.out.splitlines()
    assert (done.status, answer) == (0, first) and re.fullmatch("key [A-Za-z0-9]{32}", key) and key_of(at_work, words[2]) == [(key[4:],)]
    assert key[4:] not in at_work.journal.read_text()


@pytest.mark.parametrize("typed, key", [(["", None], r"[A-Za-z0-9]{32}"), (["TYPEDKEY1", "TYPEDKEY1"], "TYPEDKEY1"), (["TYPEDKEY1", "TYPEDKEY2"], "ACMEKEY1")])
def test_at_a_terminal_a_key_is_typed_twice_or_made(at_work, typed, key):
    """Enter alone makes one, which is shown; a typed one never is."""
    words = [sys.executable, "-B", HILPOVEN, "--db", at_work.db, "owner", "key", "ACME"]
    status, shown = at_terminal(words, [line for line in typed if line is not None], environment(TOLL=at_work.program))
    (kept,), = key_of(at_work, "ACME")
    assert re.fullmatch(key, kept) and (kept in shown) == (typed[0] == "") and ("TYPEDKEY" in shown) is False
    assert (status == 0) == (kept != "ACMEKEY1")


def at_terminal(words, lines, env):
    """The exit status and all that a terminal shows of a program for which these lines are typed, each when it asks."""
    process, terminal = pty.fork()
    if not process:
        os.execve(words[0], list(map(str, words)), env)
    shown = b""
    with contextlib.suppress(OSError):  # the terminal is gone when the program ends
        while chunk := os.read(terminal, 4096):
            shown += chunk
            if lines and shown.endswith(b": "):
                shown += b"\n"
                os.write(terminal, lines.pop(0).encode() + b"\n")
    os.close(terminal)
    return os.waitstatus_to_exitcode(os.waitpid(process, 0)[1]), shown.decode()


def test_status_names_the_owners_whose_keys_are_short(at_work):
    at_work.run("owner", "add", "CARL", stdin="")
    at_work.run("owner", "add", "DORA", stdin="A" * 19 + "\n")
    at_work.run("owner", "add", "EVE", stdin="A" * 20 + "\n")
    line, = [line for line in at_work.run("status").out.splitlines() if line.startswith("keys:")]
    assert line == "keys: those of ACME, BOLT, DORA have fewer than 20 letters; `hilpoven owner key NAME` makes longer ones"
    for owner in ("ACME", "BOLT", "DORA"):
        at_work.run("owner", "key", owner, stdin="")
    assert "keys:" not in at_work.run("status").out


def test_a_server_sees_the_owner_and_its_new_key(at_work):
    with at_work.serve() as server:
        assert server.ask("CARL", "GET", "/stock")[0] == 403
        at_work.run("owner", "add", "CARL", stdin="CARLKEY1\n")
        assert server.ask("CARL", "GET", "/stock")[0] == 200
        at_work.run("owner", "key", "CARL", stdin="CARLKEY2\n")
        assert server.ask("CARL", "GET", "/stock")[0] == 403


def test_the_key_stands_on_no_command_line(at_work):
    seen = at_work.folder / "seen"
    spying = at_work.folder / "toll"
    spying.write_text(f'#!/bin/sh\necho "$@" >> {seen}\nexec {at_work.program} "$@"\n')
    spying.chmod(0o700)
    at_work.program = str(spying)
    assert at_work.run("owner", "add", "CARL", stdin="CARLSKEY1\n").status == 0
    assert "owner-add CARL" in seen.read_text() and "CARLSKEY1" not in seen.read_text()
    given = seen.read_text().split("owner-add CARL ")[1].split()[0]
    assert key_of(at_work, "CARL") == [("CARLSKEY1",)] and given != "CARLSKEY1"


@pytest.mark.parametrize("words, stdin, why", [
    (("owner", "add", "carl"), "CARLSKEY1\n", "NAME: `carl` has lower-case letters"),
    (("owner", "add", "CARL"), "short\n", "the key has 5 letters"),
    (("owner", "add", "CARL"), "with space\n", "the key has something else than letters and digits"),
    (("owner", "add", "CARL"), "ONEKEY123\nTWOKEY123\n", "the key is one line"),
    (("owner", "add", "CARL"), "\n", "the key has something else than letters and digits"),
    (("owner", "key", "CRAL"), "CARLSKEY1\n", "there is no owner CRAL"),
    (("owner", "key", "HOUSE"), "CARLSKEY1\n", "HOUSE is the plant"),
])
def test_what_is_wrong_is_told_and_changes_nothing(at_work, words, stdin, why):
    before = at_work.rows("SELECT * FROM owners")
    done = at_work.run(*words, stdin=stdin)
    assert done.status == 2 and why in done.err and at_work.rows("SELECT * FROM owners") == before
    assert stdin.strip() not in done.err + done.out or not stdin.strip()


def test_an_owner_that_is_there_keeps_its_key(at_work):
    done = at_work.run("owner", "add", "ACME", stdin="OTHERKEY1\n")
    assert (done.status, done.out) == (1, "refused 4 OwnerExists\n") and "hilpoven owner key ACME" in done.err
    assert key_of(at_work, "ACME") == [("ACMEKEY1",)]


def test_a_link_is_changed_where_it_leads_and_locked_there(at_work):
    link = at_work.folder / "link.db"
    link.symlink_to(at_work.db)
    assert at_work.run("owner", "key", "ACME", stdin="ACMEKEY9\n", db=link).status == 0
    assert key_of(at_work, "ACME") == [("ACMEKEY9",)]
    assert (at_work.folder / "office.db.lock").exists() and not (at_work.folder / "link.db.lock").exists()


@pytest.mark.skipif(os.geteuid() != 0, reason="only root takes the rights of others")
def test_what_root_does_is_done_with_the_rights_of_the_files_owner(reachable):
    for path in [reachable.folder, *reachable.folder.iterdir()]:
        os.chown(path, 4711, 4712)
    for words, stdin in ((["owner", "key", "ACME"], "ACMEKEY9\n"), (["unit-add", "PRESS"], ""), (["import", "--what", "receipts", "-"], RECEIPTS)):
        done = command("--db", reachable.db, *words, input=stdin, env=environment(TOLL=reachable.program))
        assert done.returncode == 0, done.stderr
    assert {(os.stat(path).st_uid, os.stat(path).st_gid) for path in reachable.folder.iterdir()} == {(4711, 4712)}
    assert {(entry["user"], entry["login"]) for entry in reachable.lines() if entry["event"] == "asked"} == {("4711", caller.person().login)}


def test_owner_add_as_toll_has_it_tells_that_the_key_was_seen(at_work):
    done = at_work.run("owner-add", "CARL", "CARLSKEY1")
    assert done.out == "accepted\n" and "stood on a command line" in done.err and "hilpoven owner key CARL" in done.err


def test_a_name_with_marks_of_an_address_is_the_file_itself(at_work):
    db = at_work.folder / "off%69ce.db?mode=ro"
    at_work.db.rename(db)
    wal = at_work.folder / "office.db-wal"
    if wal.exists():
        wal.rename(f"{db}-wal")
    assert at_work.run("owner", "key", "ACME", stdin="ACMEKEY9\n", db=db).status == 0
    assert at_work.rows("SELECT okey FROM owners WHERE owner = 'ACME'", db) == [("ACMEKEY9",)]
