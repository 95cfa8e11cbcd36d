"""What has the register's name and is none, and notes that nobody made by the command: notes are read from the journal, nothing is
written over, and verify tells."""
import contextlib
import fcntl
import json
import os
import re
import sqlite3

import pytest
from hilpoven.core import rights
from hilpoven.core.office import Answer
from hilpoven.core.journal.log import Journal
from hilpoven.model.register import file
from notes import links, noted, reading, register_of

ONE = [("ACME B-1", "ACME S-1")]


@pytest.fixture
def linked(settled):
    """An office with a link and its register."""
    noted(settled, "link", "ACME", "B-1", "S-1", "--why", "rework")
    assert links(settled) == ONE
    return settled


def as_link(path, folder):
    (folder / "other").write_text("kept")
    os.unlink(path)
    os.symlink(folder / "other", path)


def as_dangling_link(path, folder):
    os.unlink(path)
    os.symlink(folder / "nowhere", path)


def as_pipe(path, folder):
    os.unlink(path)
    os.mkfifo(path)


def as_device(path, folder):
    os.unlink(path)
    os.symlink("/dev/zero", path)


def as_folder(path, folder):
    os.unlink(path)
    os.mkdir(path)


def as_database(path, folder):
    os.unlink(path)
    base = sqlite3.connect(path)
    base.execute("CREATE TABLE notes (a)")
    base.commit()


def as_office(path, folder):
    os.unlink(path)
    os.link(folder / "office.db", path)


def as_tables_with_a_trigger(path, folder):
    base = sqlite3.connect(path)
    base.execute("CREATE TRIGGER t AFTER INSERT ON note BEGIN DELETE FROM note; END")
    base.commit()


@pytest.mark.parametrize("words", [("recall", "ACME", "S-1"), ("trace", "ACME", "B-1", "back"), ("list", "moves")])
def test_a_lost_journal_is_told_wherever_its_notes_would_stand(linked, words):
    (linked.folder / "office.db.journal").unlink()
    done = linked.run(*words)
    assert "isn't used, and notes are read from the journal" in done.err and "1 of its notes aren't there" in done.err


@pytest.mark.parametrize("become", [as_link, as_dangling_link, as_pipe, as_device, as_folder, as_database, as_office, as_tables_with_a_trigger])
def test_what_is_no_register_is_told_and_left_alone(linked, become):
    path = file.path_of(str(linked.db))
    become(path, linked.folder)
    before = os.lstat(path).st_ino, linked.db.read_bytes(), {entry.name for entry in linked.folder.iterdir()}
    assert links(linked) == ONE
    done = linked.run("note", "list")
    assert done.status == 0 and "rework" in done.out and "isn't used, and notes are read from the journal" in done.err
    done = linked.run("verify")
    assert done.status == 1 and "register: it isn't used" in done.out
    done = linked.run("register", "rebuild")
    assert done.status == 1 and "can't be made anew" in done.err
    assert (os.lstat(path).st_ino, linked.db.read_bytes(), {entry.name for entry in linked.folder.iterdir()} - {"looked-at.db"}) == before
    assert not (linked.folder / "other").exists() or (linked.folder / "other").read_text() == "kept"


@pytest.mark.parametrize("damage", [b"", b"garbage", b"SQLite format 3\0" + bytes(4_000)])
def test_a_damaged_register_is_made_anew(linked, damage):
    path = file.path_of(str(linked.db))
    with open(path, "wb") as register:
        register.write(damage)
    assert links(linked) == ONE
    if damage:
        assert linked.run("verify").status == 1
    assert linked.run("register", "rebuild").status == 0
    assert linked.run("verify").status == 0 and links(linked) == ONE


FORGED = """INSERT INTO note (name, line, time, who, file, after, words, is_own, kind, owner, subject, value, meant)
SELECT '0000000000000000', line, time, who, file, after, words, is_own, kind, owner, subject, replace(value, 'S-1', 'S-2'), meant FROM note"""


@pytest.mark.parametrize("sql, why", [
    (FORGED, "its notes aren't those of the journal"), ("DELETE FROM note", "its notes aren't those of the journal"),
    ("UPDATE note SET is_done = 1, is_own = 0", "its notes aren't those of the journal"), ("UPDATE folded SET file = 'x'", "its names of the file aren't those of the journal"),
    ("DELETE FROM link_note", "its standing notes aren't those of the journal"), ("UPDATE link_note SET of_lot = 'S-2'", "its standing notes aren't those of the journal"),
    ("UPDATE note SET fault = 'withdrawn: no'", "its standing notes aren't those of the journal"), ("DELETE FROM folded", "it doesn't say how far the journal was read"),
    ("UPDATE note SET value = '[1', is_open = 1", "a row of it can't be read")])
def test_rows_that_the_journal_doesn_t_have_are_told(linked, sql, why):
    base = sqlite3.connect(file.path_of(str(linked.db)))
    base.execute(sql)
    base.commit()
    base.close()
    done = linked.run("verify")
    assert done.status == 1 and why in done.out
    assert linked.run("register", "rebuild").status == 0 and linked.run("verify").status == 0 and links(linked) == ONE


def test_a_row_that_can_t_be_read_leaves_the_notes_to_the_journal(linked, capsys):
    base = sqlite3.connect(file.path_of(str(linked.db)))
    base.execute("UPDATE link_note SET why = 'theft'")
    base.commit()
    base.close()
    assert links(linked) == ONE and "a row of it can't be read" in capsys.readouterr().err
    assert linked.run("register", "rebuild").status == 0 and links(linked) == ONE and capsys.readouterr().err == ""


def as_no_word(path):
    base = sqlite3.connect(path)
    base.execute("UPDATE link_note SET why = 'theft'")
    base.commit()
    base.close()


def as_zeros_of(name):
    """The pages of a table or an index, as a torn disk leaves them."""
    def zeros(path):
        with sqlite3.connect(path) as base:
            ((page, size),) = base.execute("SELECT rootpage, page_size FROM sqlite_master, pragma_page_size WHERE name = ?", (name,))
        base.close()
        with open(path, "r+b") as register:
            register.seek((page - 1) * size)
            register.write(bytes(size))

    return zeros


READERS = [("recall", "ACME", "S-1"), ("trace", "ACME", "B-1", "back"), ("list", "lots"), ("list", "moves"), ("show", "lot", "ACME", "B-1"), ("show", "key", "ACME", "K1"),
           ("papers", "lot", "ACME", "B-1", "FOLDER", "--no-pdf"), ("papers", "recall", "ACME", "S-1", "FOLDER", "--no-pdf"), ("papers", "takeout", "ACME", "FOLDER", "--no-pdf")]


@pytest.mark.parametrize("damage", [as_no_word, *map(as_zeros_of, ("link_note", "link_by_contained", "reason_note", "movement_by_key"))])
def test_a_register_of_which_a_part_can_t_be_read_leaves_all_notes_to_the_journal(linked, damage):
    """Also where lists, `show` and papers query it beside the office's tables."""
    assert linked.run("scrap", "ACME", "K-9", "S-1", "BAY1", "1", "103", "--reason", "spilt").status == 0
    assert linked.run("note", "movement", "ACME", "K1", "--document", "DN-1").status == 0

    def answers(folder):
        for at, words in enumerate(READERS):
            paper = linked.folder / f"{folder}{at}"
            done = linked.run(*(paper if word == "FOLDER" else word for word in words))
            assert done.status == 0, (words, done)
            yield done.out.replace(str(paper), ""), {file.name: file.read_text() for file in paper.glob("*.csv")}, done.err

    whole = list(answers("whole"))
    assert any("rework" in text for _, files, _ in whole for text in files.values())
    damage(file.path_of(str(linked.db)))
    damaged = list(answers("damaged"))
    for words, before, behind in zip(READERS, whole, damaged, strict=True):
        assert behind[:2] == before[:2], words
        assert "notes are read from the journal" in behind[2], words


def test_a_register_without_columns_for_codes_is_made_anew_by_the_next_reader(linked):
    path = file.path_of(str(linked.db))
    with contextlib.closing(sqlite3.connect(path)) as base:
        for table, column in (("material_note", "gtin"), ("material_note", "unit_code"), ("owner_note", "gln"), ("party_note", "gln")):
            base.execute(f"ALTER TABLE {table} DROP COLUMN {column}")
        base.execute("DELETE FROM link_note")
        base.commit()
        assert not re.search("gln|gtin|unit_code", " ".join(sql for sql, in base.execute("SELECT sql FROM sqlite_master WHERE sql IS NOT NULL")))
    assert links(linked) == ONE and linked.run("note", "list").err == ""
    with contextlib.closing(sqlite3.connect(path)) as base:
        assert base.execute("SELECT gtin, unit_code FROM material_note").fetchall() == []


def test_a_register_of_an_earlier_version_is_made_anew_by_the_next_reader(linked):
    path = file.path_of(str(linked.db))
    base = sqlite3.connect(path)
    ((*place, about),) = base.execute("SELECT start, stop, hash, file FROM folded").fetchall()
    for (name,) in base.execute("SELECT name FROM sqlite_master WHERE type = 'table'").fetchall():
        base.execute(f"DROP TABLE {name}")
    for sql in file.EARLIER:
        base.execute(sql)
    base.execute("INSERT INTO folded VALUES (?, ?, ?, ?)", (*place, json.dumps(about)))
    base.execute("INSERT INTO notes VALUES (1, ?, '[]')", (linked.lines()[-1]["id"],))
    base.commit()
    base.close()
    inode = os.stat(path).st_ino
    assert links(linked) == ONE and linked.run("note", "list").err == "" and linked.run("verify").status == 0 and os.stat(path).st_ino == inode


def test_a_register_that_is_put_in_another_s_place_leaves_the_notes_to_the_journal(linked, capsys):
    """Whoever has it open doesn't read the file that was moved aside."""
    path = file.path_of(str(linked.db))
    with reading(linked) as register:
        os.rename(path, f"{path}.aside")
        assert links(linked) == ONE
        assert [str(link.contained) for link in register.links] == ["ACME S-1"] and "another one has its place" in capsys.readouterr().err


def test_a_register_with_notes_that_the_journal_lost_is_kept(linked):
    kept = linked.journal.read_bytes()
    linked.journal.unlink()
    linked.run("unit-add", "PRESS")
    done = linked.run("note", "list")
    assert "and 1 of its notes aren't there" in done.err and linked.run("register", "rebuild").status == 1
    linked.journal.write_bytes(kept)
    assert links(linked) == ONE and linked.run("verify").status == 0


def test_a_register_of_another_user_is_told(linked, monkeypatch):
    monkeypatch.setattr(file.os, "geteuid", lambda: 4711)
    monkeypatch.setattr(rights, "owner_number", lambda _: 4711)
    if os.getuid():
        pytest.skip("only root sees what another's file is")
    os.chown(file.path_of(str(linked.db)), 4712, -1)
    assert file.difference(Journal(str(linked.journal), str(linked.db))).startswith("it isn't used: it is no file of the office's user")


@pytest.mark.parametrize("value", [
    {"kind": "link", "owner": "ACME", "lot": "B-1", "of_owner": "BOLT", "of_lot": "P-1", "why": "use"},
    {"kind": "link", "owner": "ACME", "lot": "B-1", "of_owner": "ACME", "of_lot": "B-1", "why": "use"},
    {"kind": "link", "owner": "ACME", "lot": "B-1", "order": "O-1", "batch": 1, "of_owner": "ACME", "of_lot": "S-1", "why": "use"},
    {"kind": "link", "owner": "ACME", "lot": "B-1", "of_owner": "ACME", "of_lot": "S-1", "why": "theft"},
    {"kind": "link", "owner": "ACME", "lot": "B-1", "of_owner": "ACME", "of_lot": "S-1", "why": "use", "reason": "a\nb"},
    {"kind": "link", "owner": "ACME", "lot": "B-1", "of_owner": "ACME", "of_lot": "S-1", "why": "use", "reason": "\x1b[2J"},
    {"kind": "link", "owner": "ACME", "lot": "B-1", "of_owner": "ACME", "of_lot": "S-1", "why": "use", "reason": "\ud800"},
    {"kind": "link", "owner": "ACME", "lot": "B-1", "of_owner": "ACME", "of_lot": "S-1", "why": "use", "reason": "x" * 10_000_000},
    {"kind": "link", "owner": "ACME", "lot": "B-1", "of_owner": "ACME", "of_lot": "S-1", "why": "use", "amount": True},
    {"kind": ["link"]}, {"kind": "\x1b[2J", "owner": "ACME"}, [], "link", 5, None,
])
def test_what_no_command_notes_is_told_and_counts_for_nothing(linked, value):
    journal = Journal(str(linked.journal), str(linked.db))
    journal.add({"event": "note", "id": "0" * 16, "file": journal.file, "words": ["link", "\x1b[2J\ud800"], "notes": [{"kind": "not-linked", "owner": "ACME", "key": "K1"}, value]})
    assert links(linked) == ONE and register_of(linked).not_linked == {("ACME", "K1")}
    for words in (["note", "list"], ["journal", "--no-site"], ["verify"], ["note", "withdraw", "0" * 16 + ".2", "--reason", "no"]):
        done = linked.run(*words)
        assert done.status in (0, 1) and "\x1b" not in done.out + done.err and len(done.out) < 5_000
    assert "register: 1 note " in linked.run("verify").out


def test_a_line_of_another_office_s_file_counts_for_nothing(linked, tmp_path):
    other = tmp_path / "elsewhere"
    other.write_text("")
    journal = Journal(str(linked.journal), str(linked.db))
    note = {"kind": "link", "owner": "ACME", "lot": "B-1", "of_owner": "HOUSE", "of_lot": "W-101", "why": "use"}
    journal.answered("0" * 16, Answer(0, "", ""))
    with open(journal.path, "a") as lines:
        lines.write(json.dumps({"before": "0" * 64, "event": "note", "id": "1" * 16, "file": str(other), "words": [], "notes": [note]}) + "\n")
    assert links(linked) == ONE


def test_an_office_that_was_moved_has_its_notes(linked, tmp_path):
    moved = tmp_path / "moved"
    moved.mkdir()
    for path in list(linked.folder.glob("office.db*")):
        if path.suffix != ".sock":
            os.rename(path, moved / path.name)
    linked.db, linked.journal = moved / "office.db", moved / "office.db.journal"
    assert links(linked) == ONE
    noted(linked, "link", "ACME", "B-1", "W-101", "--of-owner", "HOUSE", "--why", "use")
    assert links(linked) == [*ONE, ("ACME B-1", "HOUSE W-101")] and linked.run("verify").status == 0


def test_a_backup_that_is_looked_at_has_the_notes_of_the_journal_beside_it(linked):
    linked.settle()
    assert linked.run("backup").status == 0
    linked.db = next((linked.folder / "backups").glob("*.db"))
    linked.journal = linked.db.with_name(f"{linked.db.name}.journal")
    assert links(linked) == ONE and "rework" in linked.run("note", "list").out
    assert "is the journal of" in linked.run("link", "ACME", "B-1", "W-101", "--of-owner", "HOUSE", "--why", "use").err


def test_who_is_stopped_while_it_reads_the_register_holds_nobody_up(linked, monkeypatch):
    monkeypatch.setattr(file, "PATIENCE", 0.2)
    with open(file.path_of(str(linked.db))) as register:
        fcntl.flock(register, fcntl.LOCK_EX)
        assert links(linked) == ONE
        assert "another process has it" in linked.run("note", "list").err and linked.run("register", "rebuild").status == 1
    assert linked.run("note", "list").err == "" and linked.run("register", "rebuild").status == 0
