"""What a member of the group may name, and where output goes: never over an office's files, and never through a link."""
import fcntl
import os
import pathlib
import shlex
import sqlite3
import subprocess
import tarfile
import termios

import click
import pytest
from conftest import HILPOVEN, ROOT, Plant, environment, eventually
from hilpoven.core import paths
from hilpoven.cli import caller as cli_caller, hilpoven
from hilpoven.cli import words as cli_words
from hilpoven.core.failure import Failure
from hilpoven.core.journal.query import check

SHEET = """key,owner,order,batch,segment,use,material,lot_owner,lot,sublot,amount,day
K20,ACME,O-1,1,1,consumed,SALT,ACME,S-1,BAY1,1,102
"""
# What a member may not say.
NAMED = """
--db {db} stock ACME
--db '' stock ACME
--office ../people stock ACME
new {folder}/other.db
backup {folder}/backups
backup ''
backup --keep 1
settle ACME 2501 {folder}/september
backup --days 0
to-csv {folder}/sheet.csv
to-csv - {folder}/made
import {folder}/sheet.csv
board --out {folder}/made
companion --out {folder}
labels ACME S-1 --out {folder}/made
labels ACME S-1 --force --out -
carry-over {folder}/next.db
papers recall HOUSE W-101 {folder}/made --no-pdf
papers recall HOUSE W-101 - --no-pdf
case paper {folder}/made --no-pdf
journal --site-log {folder}/sheet.csv
journal --site-log ''
restore --foreign office-20260101-000000.db
restore {folder}/office.db
restore ../office.db
restore office.db
restore -- -
""".strip().splitlines()


def words_of(command: click.Command, names: tuple[str, ...] = ()):
    """All parameters of a command and its subcommands."""
    for parameter in command.params:
        yield " ".join([*names, parameter.name or ""]), parameter
    for name, subcommand in getattr(command, "commands", {}).items():
        yield from words_of(subcommand, (*names, name))


def test_each_word_that_names_a_path_is_an_operators():
    types = {name: parameter.type for name, parameter in words_of(hilpoven)}
    assert all(isinstance(types.pop(f"setup {file}"), cli_words.Operators) for file in ("cert", "key"))
    assert not [name for name, kind in types.items() if isinstance(kind, click.Path)]
    named = {name for name, kind in types.items() if isinstance(kind, cli_words.Operators)}
    papers = {f"papers {paper} folder" for paper in ("recall", "batch", "certificate", "delivery-note", "lot", "statement", "settlement", "takeout")}
    assert named == {"db", "new file", "backup folder", "backup keep", "backup days", "to-csv source", "to-csv target", "board target", "companion out", "labels target",
                     "carry-over new", "import path", "count import counted_sheet", "follow to", "follow status folder", "follow verify folder", "promote folder",
                     "journal site_logs", "drill end folder", "drill paper folder", "settle folder", "export workbook target", "case paper folder", *papers}


def test_a_shell_completes_paths():
    assert [offered.type for offered in cli_words.PATH.shell_complete(click.Context(hilpoven), hilpoven.params[0], "")] == ["file"]


@pytest.mark.parametrize("started, caller, is_member", [
    (4242, "4711", True), (4242, "0", False), (4242, "4242", False), (4242, None, False), (4242, "", True), (0, "4711", False)])
def test_who_came_by_sudo_from_another_is_a_member(monkeypatch, started, caller, is_member):
    monkeypatch.setattr(cli_caller, "STARTED_AS", started)
    monkeypatch.delenv("SUDO_UID", raising=False)
    if caller is not None:
        monkeypatch.setenv("SUDO_UID", caller)
    assert cli_caller.person().is_member == is_member


@pytest.mark.parametrize("words", NAMED)
def test_a_member_names_no_path(at_work, words):
    at_work.settle()
    (at_work.folder / "sheet.csv").write_text(SHEET)
    before, files = at_work.content(), sorted(at_work.folder.rglob("*"))
    done = at_work.as_member(*shlex.split(words.format(db=at_work.db, folder=at_work.folder)), stdin=SHEET)
    assert done.status == 2 and done.out == "" and done.err.startswith("hilpoven: "), done
    assert at_work.content() == before and sorted(at_work.folder.rglob("*")) == files


def test_a_member_works_by_names_and_streams(at_work):
    at_work.settle()
    assert at_work.as_member("unit-add", "PRESS").out == "accepted\n"
    assert at_work.as_member("import", "-", stdin=SHEET).status == 0
    assert at_work.as_member("to-csv", "-", stdin=SHEET).out.startswith("key,owner,order")
    assert "<html" in at_work.as_member("board").out
    backup = at_work.as_member("backup").out.splitlines()[0]
    assert at_work.as_member("restore", os.path.basename(backup)).status == 0
    assert [entry["words"][0] for entry in at_work.lines() if entry["event"] != "told"] == ["unit-add", "import", "board", "backup", "restore"]


def test_a_member_makes_the_office_of_the_settings(plant):
    plant.settle()
    assert plant.as_member("new").status == 0 and plant.db.exists()


def test_a_member_works_in_no_folder_that_others_may_change(reachable):
    reachable.settle()
    os.chmod(reachable.folder, 0o777)
    done = reachable.as_member("unit-add", "PRESS")
    assert done.status == 3 and "others may change what is in" in done.err


def test_backups_go_to_no_folder_that_others_may_change(reachable):
    folder = reachable.folder / "backups"
    folder.mkdir()
    folder.chmod(0o777)
    done = reachable.run("backup", folder)
    assert done.status == 3 and "others may change what is in" in done.err and os.listdir(folder) == []
    folder.chmod(0o755)
    if os.geteuid() == 0:
        os.chown(folder, 4711, 4711)
        assert reachable.run("backup", folder).status == 3
        os.chown(folder, 0, 0)
    assert reachable.run("backup", folder).status == 0


@pytest.fixture
def sheet(at_work) -> pathlib.Path:
    """A sheet beside the office."""
    (at_work.folder / "sheet.csv").write_text(SHEET)
    return at_work.folder / "sheet.csv"


@pytest.mark.parametrize("options", [[], ["--force"]])
@pytest.mark.parametrize("name", ["office.db", "office.db-wal", "office.db-shm", "office.db.lock", "office.db.sock", "office.db.journal", "office.db.register",
                                  "office.db.register-journal", "other.db", "link", "pipe", "folder", "old"])
def test_no_output_goes_over_an_offices_files(at_work, sheet, name, options):
    at_work.run("unit-add", "PRESS")
    (at_work.folder / "link").symlink_to(at_work.journal)
    os.mkfifo(at_work.folder / "pipe")
    (at_work.folder / "folder").mkdir()
    with sqlite3.connect(at_work.folder / "old") as base:
        base.execute("CREATE TABLE t (a)")
    before, kept = at_work.content(), at_work.journal.read_bytes()
    files = {path: (os.lstat(path).st_ino, os.lstat(path).st_mode) for path in at_work.folder.iterdir()}
    for words in (["to-csv", sheet, at_work.folder / name, *options], ["board", "--out", at_work.folder / name, *options]):
        done = at_work.run(*words)
        assert done.status == 2 and done.err.startswith("hilpoven: "), done
    assert at_work.content() == before and at_work.journal.read_bytes() == kept
    assert {path: (os.lstat(path).st_ino, os.lstat(path).st_mode) for path in at_work.folder.iterdir()} == files


def test_other_files_are_replaced_only_where_that_is_asked_for(at_work, sheet):
    path = at_work.folder / "made.csv"
    path.write_text("mine")
    path.chmod(0o640)
    done = at_work.run("to-csv", sheet, path)
    assert done.status == 2 and "is there already" in done.err and "--force" in done.err and path.read_text() == "mine"
    assert at_work.run("to-csv", "--force", sheet, path).status == 0
    assert path.read_text() == SHEET.replace("\n", "\n") and path.stat().st_mode & 0o777 == 0o640
    assert not list(at_work.folder.glob(".hilpoven.*"))


def test_the_folder_of_an_output_is_found_once(tmp_path):
    (tmp_path / "one").mkdir()
    (tmp_path / "two").mkdir()
    link = tmp_path / "link"
    link.symlink_to("one")
    with paths.target(link / "made") as target:
        link.unlink()
        link.symlink_to("two")
        target.give("text")
    assert (tmp_path / "one" / "made").read_text() == "text" and os.listdir(tmp_path / "two") == []


def test_a_room_that_was_swapped_gets_nothing(tmp_path):
    """Whoever may write in a folder of an output gets nothing by putting a link in the place of what is made there."""
    (tmp_path / "elsewhere").mkdir()
    with paths.target(tmp_path / "made") as target, target.room() as (room, path):
        os.rename(path, tmp_path / "away")
        os.symlink(tmp_path / "elsewhere", path)
        pathlib.Path(paths.open_path(room), "text").write_text("text")
        target.put(room, "text")
    assert (tmp_path / "made").read_text() == "text" and os.listdir(tmp_path / "elsewhere") == []


def test_the_office_is_found_once(at_work):
    other = Plant(at_work.program, at_work.folder / "other")
    other.folder.mkdir()
    assert other.run("new", other.db).status == 0
    other.run("owner-add", "ACME", "ACMEKEY1")
    link = at_work.folder / "link.db"
    link.symlink_to(other.db)
    reader, writer = os.pipe()
    process = subprocess.Popen([HILPOVEN, "--db", link, "import", "-"], stdin=reader, stdout=subprocess.PIPE, stderr=subprocess.PIPE,
                          env=environment(TOLL=at_work.program))
    os.close(reader)
    os.write(writer, SHEET[:20].encode())
    assert eventually(lambda: fcntl.ioctl(writer, termios.FIONREAD, bytes(4)) == bytes(4))  # it reads, so it knows its office
    link.unlink()
    link.symlink_to(at_work.db)
    os.write(writer, SHEET[20:].encode())
    os.close(writer)
    process.communicate(timeout=60)
    assert not at_work.journal.exists() and ("K20",) not in at_work.rows("SELECT mkey FROM moves") and len(other.lines()) > 2


def test_a_folder_is_private_up_to_the_root(tmp_path):
    (tmp_path / "a" / "b").mkdir(parents=True)
    assert paths.private(str(tmp_path / "a" / "b")) == os.path.realpath(tmp_path / "a" / "b")
    (tmp_path / "a").chmod(0o777)
    with pytest.raises(Failure):
        paths.private(str(tmp_path / "a" / "b"))


def test_papers_for_a_member_are_a_tar(at_work):
    at_work.settle()
    started = ("import sys, pathlib; from hilpoven import cli; from hilpoven.cli import caller; from hilpoven.core import settings; caller.STARTED_AS = 1; "
               f"settings.load.__defaults__ = (pathlib.Path({str(at_work.folder / 'hilpoven.toml')!r}), '', ''); cli.main()")
    with open(at_work.folder / "x.tar", "wb") as out:
        words = ["/usr/bin/python3", "-Bc", started, "papers", "recall", "HOUSE", "W-101", "--no-pdf", "--tar"]
        done = subprocess.run(words, stdout=out, stderr=subprocess.PIPE, text=True, env=environment(SUDO_UID=4711, PYTHONPATH=ROOT / "plant" / "src"))
    assert (done.returncode, done.stderr) == (0, "")
    with tarfile.open(at_work.folder / "x.tar") as tar:
        assert any(member.name.endswith("plant/recall.html") for member in tar.getmembers())
    assert check(str(at_work.journal)).wrong == [] and [entry["words"] for entry in at_work.lines()] == [["papers", "recall-HOUSE-W-101"]]
