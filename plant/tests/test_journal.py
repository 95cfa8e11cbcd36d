"""The journal: each line follows the one before, and what was changed, is missing or cut is found."""
import contextlib
import csv
import datetime
import io
import json
import multiprocessing
import os
import pty
import resource
import shutil
import signal
import subprocess
import time
import tracemalloc

import pytest
from conftest import HILPOVEN, called, environment, is_told
from hilpoven.core.journal import log as journals
from hilpoven.core.journal.log import Journal
from hilpoven.core.journal.query import check
from hilpoven.cli import caller
from hilpoven.core import rights, settings as site
from hilpoven.core.office import Answer
from hypothesis import given, settings, strategies

DONE = Answer(0, "accepted\n", "")


def write(path: str, count: int) -> None:
    journal = Journal(path)
    for number in range(count):
        journal.answered(journal.asked("/office.db", ["unit-add", f"U{number}"]), DONE)


@pytest.fixture
def path(tmp_path):
    """A journal of ten lines."""
    journal = str(tmp_path / "office.journal")
    write(journal, 5)
    return journal


def lines_of(path):
    with open(path, "rb") as file:
        return file.read().splitlines(keepends=True)


def put(path, lines):
    with open(path, "wb") as file:
        file.writelines(lines)


def test_a_journal_that_nobody_touched_is_whole(path):
    checked = check(path)
    assert (checked.lines, checked.wrong, checked.notes, checked.unanswered) == (10, [], [], [])
    assert checked.head == journals.hash_of(lines_of(path)[-1].rstrip(b"\n"))
    assert os.stat(path).st_mode & 0o777 == 0o600


def test_no_journal_is_whole_too(tmp_path):
    assert check(str(tmp_path / "none")).lines == 0


@settings(max_examples=60)
@given(at=strategies.integers(0, 8), how=strategies.sampled_from(["removed", "changed", "twice", "swapped", "cut", "empty", "other"]), where=strategies.integers(1, 400))
def test_what_is_done_to_a_line_is_found(tmp_path_factory, at, how, where):
    path = str(tmp_path_factory.mktemp("journal") / "j")
    write(path, 5)
    lines = lines_of(path)
    if how == "removed":
        del lines[at]
    elif how == "changed":
        place = where % (len(lines[at]) - 1)
        lines[at] = lines[at][:place] + (b"x" if lines[at][place:place + 1] != b"x" else b"y") + lines[at][place + 1:]
    elif how == "twice":
        lines.insert(at, lines[at])
    elif how == "swapped":
        lines[at], lines[at + 1] = lines[at + 1], lines[at]
    elif how == "cut":
        lines[at] = lines[at][:where % (len(lines[at]) - 1)] + b"\n"
    elif how == "empty":
        lines.insert(at, b"\n")
    else:
        lines[at] = json.dumps({**json.loads(lines[at]), "login": "somebody"}).encode() + b"\n"
    put(path, lines)
    assert check(path).wrong


def test_lines_that_are_missing_at_the_end_are_found_by_a_head(path):
    head = check(path)
    lines = lines_of(path)
    put(path, lines[:8])
    assert check(path).wrong == []
    assert check(path, {head.lines: head.head}).wrong == ["line 10 is missing: its hash was kept"]
    assert "doesn't follow" not in "".join(check(path, {8: check(path).head}).wrong)


def test_a_journal_that_was_written_anew_is_found_by_a_head(path):
    head = check(path)
    os.unlink(path)
    write(path, 6)
    assert check(path).wrong == []
    assert check(path, {head.lines: head.head}).wrong == ["line 10 is another one than that whose hash was kept"]


def test_a_last_line_that_was_cut_is_found_and_gone_on_behind(path):
    lines = lines_of(path)
    put(path, [*lines[:9], lines[9][:40]])
    assert check(path).wrong == ["line 10 is cut or is none of the journal"]
    write(path, 1)
    checked = check(path)
    assert (checked.lines, checked.wrong, checked.notes) == (12, [], ["line 10 was cut by a stop of the machine"])
    assert len(checked.unanswered) == 1
    changed = lines_of(path)
    changed[9] = changed[9].replace(b"{", b"[", 1)
    put(path, changed)
    assert check(path).wrong


def test_a_last_line_without_its_end_alone_is_found_and_gone_on_behind(path):
    lines = lines_of(path)
    put(path, [*lines[:9], lines[9].rstrip(b"\n")])
    assert check(path).wrong == ["line 10 has no end"]
    write(path, 1)
    assert check(path).wrong == [] and check(path).lines == 12


def test_what_was_never_answered_is_told(path):
    Journal(path).asked("/office.db", ["unit-add", "PRESS"])
    checked = check(path)
    assert checked.wrong == [] and [entry["words"] for entry in checked.unanswered] == [["unit-add", "PRESS"]]


def test_many_who_write_at_once_make_one_chain(tmp_path):
    path = str(tmp_path / "j")
    writers = [multiprocessing.Process(target=write, args=(path, 25)) for _ in range(6)]
    for writer in writers:
        writer.start()
    for writer in writers:
        writer.join()
    checked = check(path)
    assert (checked.lines, checked.wrong, checked.unanswered) == (300, [], [])


def test_a_long_line_is_followed(tmp_path):
    path = str(tmp_path / "j")
    journal = Journal(path)
    journal.answered(journal.asked("/office.db", ["import", "a.csv"], keys=["ACME K"] * 30_000), DONE)
    write(path, 1)
    assert check(path).wrong == []


def test_the_login_behind_sudo_is_told(monkeypatch):
    monkeypatch.setattr(caller, "login_number", lambda: rights.NOBODY)
    monkeypatch.setenv("SUDO_USER", "anna")
    assert caller.person().login == "anna"


# Through the command

def test_each_write_is_noted_before_and_behind(at_work):
    at_work.run("unit-add", "PRESS")
    at_work.run("unit-add", "PRESS")
    at_work.run("stock", "ACME")
    first, answer, second, refusal = at_work.lines()
    assert first["words"] == ["unit-add", "PRESS"] and first["file"] == str(at_work.db) and {"user", "login", "machine", "time"} <= set(first)
    assert (answer["of"], answer["answer"], answer["status"]) == (first["id"], "accepted\n", 0)
    assert (refusal["of"], refusal["answer"], refusal["status"]) == (second["id"], "refused 5 UnitExists\n", 1)


def test_no_key_of_an_owner_is_noted(at_work):
    at_work.run("owner-add", "CARL", "CARLSKEY1")
    at_work.run("owner", "add", "DORA", stdin="DORASKEY1\n")
    at_work.run("owner", "key", "DORA", stdin="DORASKEY2\n")
    assert "KEY" not in at_work.journal.read_text().replace("--key", "")
    keys = {key for key, in at_work.rows("SELECT okey FROM owners")}
    assert {"CARLSKEY1", "DORASKEY2"} <= keys and all(key not in at_work.journal.read_text() for key in keys)


def test_each_line_is_on_the_disk_before_the_next_step(at_work, monkeypatch):
    """What was asked before `toll` is, and the answer before the command ends."""
    steps, sync, run = [], os.fsync, subprocess.run

    def synced(descriptor):
        sync(descriptor)
        if os.readlink(f"/proc/self/fd/{descriptor}") == str(at_work.journal):
            steps.append([json.loads(line)["event"] for line in at_work.journal.read_text().splitlines()])

    def asked(words, *others, **options):
        if "PRESS" in words:
            steps.append("toll")
        return run(words, *others, **options)
    monkeypatch.setattr(os, "fsync", synced)
    monkeypatch.setattr(subprocess, "run", asked)
    assert at_work.run("unit-add", "PRESS").out == "accepted\n"
    assert steps == [["asked"], "toll", ["asked", "told"]]


def test_the_settings_journal_is_that_of_their_office_alone(at_work):
    kept, other = at_work.folder / "kept.journal", at_work.folder / "other.db"
    at_work.settle(journal=str(kept))
    shutil.copyfile(at_work.db, other)
    assert at_work.run("unit-add", "PRESS").status == 0 and b"PRESS" in kept.read_bytes() and not at_work.journal.exists()
    assert at_work.run("unit-add", "OVEN", db=other).status == 0 and b"OVEN" not in kept.read_bytes()
    assert "OVEN" in (at_work.folder / "other.db.journal").read_text() and "PRESS" not in at_work.run("journal", "--no-site", db=other).out


def test_where_the_journal_cannot_be_written_nothing_is_done(at_work):
    at_work.journal.mkdir()
    before = at_work.content()
    done = at_work.run("unit-add", "PRESS")
    assert done.status == 3 and "nothing is done that isn't noted there" in done.err and at_work.content() == before


def test_it_is_told_by_time_with_the_sites_log(at_work):
    log = at_work.folder / "toll.log"
    log.write_text('192.0.2.7 "ACME" [2001-01-01T00:00:00+00:00] "POST /lots/B-1/release HTTP/1.1" 200 11 0.395\n'
                   '192.0.2.7 "ACME" [2001-01-01T00:00:01+00:00] "GET /stock HTTP/1.1" 200 11 0.395\n'
                   '192.0.2.8 "ACME" [2099-01-01T01:00:00+01:00] "POST /lots/B-1/reject HTTP/1.1" 403 11 0.395\nwhat is no line\n')
    at_work.run("unit-add", "PRESS")
    done = at_work.run("journal", "--site-log", log, "--json")
    events = [(row["who"], row["what"], row["answer"]) for row in json.loads(done.out)]
    assert events[0] == ("ACME", "POST /lots/B-1/release", "200") and events[1][1:] == ("unit-add PRESS", "accepted")
    assert events[2] == ("ACME (claimed)", "POST /lots/B-1/reject", "403") and len(events) == 3
    assert len(json.loads(at_work.run("journal", "--site-log", log, "--questions", "--json").out)) == 4
    assert len(json.loads(at_work.run("journal", "--site-log", log, "--word", "B-1", "--json").out)) == 2
    assert len(json.loads(at_work.run("journal", "--site-log", log, "--since", "2050-01-01", "--json").out)) == 1
    assert len(json.loads(at_work.run("journal", "--site-log", log, "--until", "2001-01-01T00:00:01Z", "--json").out)) == 1


@pytest.mark.parametrize("machine", ["UTC", "Asia/Tokyo", "Europe/Berlin"])
def test_it_is_printed_and_asked_in_the_time_zone_of_the_settings(at_work, monkeypatch, machine):
    monkeypatch.setenv("TZ", machine)
    time.tzset()
    log = at_work.folder / "toll.log"
    log.write_text('192.0.2.7 "ACME" [2001-01-01T00:00:00+00:00] "POST /orders HTTP/1.1" 200 11 0.395\n')
    at_work.settle(time_zone="America/New_York")
    shown = lambda *words: at_work.run("journal", "--site-log", log, *words).out  # noqa: E731
    assert "2000-12-31 19:00:00" in shown() and "2001" not in shown()
    assert "ACME" in shown("--since", "2000-12-31T19:00") and shown("--since", "2000-12-31T19:00:01") == ""
    assert "ACME" in shown("--since", "2001-01-01T00:00:00.000Z") and shown("--until", "2001-01-01T01:00+01:00") == ""
    assert json.loads(shown("--json"))[0]["time"] == "2001-01-01T00:00:00.000Z"
    monkeypatch.undo()
    time.tzset()


def office_of(plant, name, **lines):
    """An office of the machine, with its settings, and a log of its site."""
    line = f'192.0.2.7 "{name.upper()}" [2001-01-01T00:00:00+00:00] "POST /orders HTTP/1.1" 200 11 0.395\n'
    (plant.folder / f"toll-{name}.log").write_text(line)
    folder = plant.folder / name
    folder.mkdir(mode=0o700)
    shutil.copyfile(plant.db, folder / "office.db")
    (plant.folder / f"{name}.env").write_text("".join(f"{line}={value}\n" for line, value in {"FILE": folder / "office.db", **lines}.items()))
    return folder / "office.db"


def owners_in(plant, *options):
    """Which owners a journal shows, and what is told."""
    done = called(*options, "journal", "--json", TOLL=plant.program)
    assert done.status == 0
    return [row["who"] for row in json.loads(done.out)], done.err


def test_each_office_shows_its_own_owners_alone(at_work):
    log = at_work.folder / "toll-{}.log"
    files = {name: office_of(at_work, name, SITE_LOGS=str(log).format(name)) for name in ("north", "south")}
    site.load.__defaults__[0].write_text(f"site_logs = [{json.dumps(str(log).format('north'))}]\n")
    assert owners_in(at_work, "--office", "north") == (["NORTH"], "") and owners_in(at_work, "--office", "south") == (["SOUTH"], "")
    owners, errors = owners_in(at_work, "--db", files["south"])
    assert owners == [] and "What owners did is left out" in errors


def test_settings_of_earlier_versions_name_the_log_of_the_one_office_and_of_no_other(at_work):
    (at_work.folder / "hilpoven.toml").write_text(f"site_logs = [{json.dumps(str(at_work.folder / 'toll-north.log'))}]\n")
    office_of(at_work, "north")
    assert owners_in(at_work) == (["NORTH"], "")
    office_of(at_work, "south")
    for name in ("north", "south"):
        owners, errors = owners_in(at_work, "--office", name)
        assert owners == [] and f"SITE_LOGS=/var/log/nginx/toll.log, or toll-{name}.log, in {at_work.folder}/{name}.env names its log" in errors
    with open(at_work.folder / "hilpoven.toml", "a") as lines:
        lines.write('office = "north"\n')
    assert owners_in(at_work) == (["NORTH"], "") and owners_in(at_work, "--office", "south")[0] == []


def test_entries_of_one_time_stay_in_the_journals_order(at_work, monkeypatch):
    monkeypatch.setattr(journals, "now", lambda: "2026-11-27T10:00:00.000Z")
    for unit in ("UNIT-2", "UNIT-1", "UNIT-3"):
        assert at_work.run("unit-add", unit).out == "accepted\n"
    entries = json.loads(at_work.run("journal", "--json").out)
    assert [entry["what"] for entry in entries] == ["unit-add UNIT-2", "unit-add UNIT-1", "unit-add UNIT-3"]


def test_turned_over_logs_are_read_too(at_work):
    import gzip

    line = '192.0.2.7 "ACME" [2001-01-0{}T00:00:00+00:00] "POST /orders HTTP/1.1" 200 11 0.395\n'
    (at_work.folder / "toll.log").write_text(line.format(3))
    (at_work.folder / "toll.log.1").write_text(line.format(2))
    (at_work.folder / "toll.log.2.gz").write_bytes(gzip.compress(line.format(1).encode()))
    rows = json.loads(at_work.run("journal", "--site-log", at_work.folder / "toll.log", "--json").out)
    assert [row["time"][:10] for row in rows] == ["2001-01-01", "2001-01-02", "2001-01-03"]


def test_verify_and_head(at_work):
    at_work.run("unit-add", "PRESS")
    head = at_work.run("journal", "head").out.strip()
    assert at_work.run("journal", "verify", "--head", head).status == 0
    at_work.run("unit-add", "OVEN")
    assert at_work.run("journal", "verify", "--head", head).status == 0
    lines = at_work.journal.read_text().splitlines(keepends=True)
    at_work.journal.write_text("".join(lines[:1]))
    done = at_work.run("journal", "verify")
    assert done.status == 0 and "asked, answer unknown" in done.out
    done = at_work.run("journal", "verify", "--head", head)
    assert done.status == 1 and "line 2 is missing" in done.out
    assert at_work.run("journal", "verify", "--head", "what").status == 2


# Its name, whose it is, and what is shown of it

def test_an_earlier_versions_journal_goes_on_under_its_new_name(at_work):
    at_work.run("unit-add", "PRESS")
    old, lines = at_work.folder / "office.journal", at_work.lines()
    at_work.journal.rename(old)
    assert "PRESS" in at_work.run("journal", "--no-site", "--csv").out and not old.exists()
    at_work.journal.rename(old)
    at_work.run("unit-add", "OVEN")
    assert not old.exists() and at_work.lines()[:2] == lines and at_work.run("journal", "verify").status == 0


def test_anothers_journal_is_not_taken_over(at_work):
    """A file named `office` beside office.db would have had the same journal."""
    at_work.run("unit-add", "PRESS")
    at_work.journal.rename(at_work.folder / "office.journal")
    kept = (at_work.folder / "office.journal").read_bytes()
    done = at_work.run("new", at_work.folder / "office")
    assert done.status == 3 and "is the journal of" in done.err and not (at_work.folder / "office").exists()
    assert (at_work.folder / "office.journal").read_bytes() == kept
    at_work.run("unit-add", "OVEN")
    assert at_work.run("new", at_work.folder / "office").status == 0 and at_work.run("journal", "verify").status == 0
    assert "OVEN" not in at_work.run("journal", "--no-site", db=at_work.folder / "office").out


def test_a_journal_moves_with_its_file(at_work):
    at_work.run("unit-add", "PRESS")
    moved = at_work.folder / "moved"
    moved.mkdir()
    for file in at_work.folder.glob("office.db*"):
        file.rename(moved / file.name)
    assert "PRESS" in at_work.run("journal", "--no-site", db=moved / "office.db").out
    assert at_work.run("unit-add", "OVEN", db=moved / "office.db").out == "accepted\n"
    done = at_work.run("journal", "--no-site", "--csv", db=moved / "office.db")
    assert "PRESS" in done.out and "moved from" in done.out and at_work.run("journal", "verify", db=moved / "office.db").status == 0


def test_entries_about_another_file_are_told_and_left_out(at_work):
    at_work.run("unit-add", "PRESS")
    other = at_work.folder / "other.db"
    other.write_text("")
    journal = Journal(str(at_work.journal))
    journal.answered(journal.asked(str(other), ["unit-add", "FORGED"]), DONE)
    done = at_work.run("journal", "verify")
    assert done.status == 1 and f"1 lines are about another file, {other}" in done.out
    assert at_work.run("verify").status == 1 and "FORGED" not in at_work.run("journal", "--no-site").out


def test_no_link_is_followed(at_work):
    elsewhere = at_work.folder / "elsewhere"
    elsewhere.write_text("")
    at_work.journal.symlink_to(elsewhere)
    before = at_work.content()
    done = at_work.run("unit-add", "PRESS")
    assert done.status == 3 and "can't be written" in done.err and elsewhere.read_text() == "" and at_work.content() == before


@pytest.mark.skipif(os.geteuid() != 0, reason="only root makes files of others")
def test_a_journal_of_another_user_is_none(at_work):
    at_work.journal.write_text("")
    os.chown(at_work.journal, 4711, 4711)
    done = at_work.run("unit-add", "PRESS")
    assert done.status == 3 and "is no file of the office's user" in done.err and at_work.journal.read_text() == ""


NASTY = ["K\n2026-01-01 00:00:00  bob as toll", "\x1b[31mred", "\udcff", "\u202eabc", "[/x]", "[bold]", "a\tb", "\x9b31m"]


def on_terminal(plant, *words):
    """What the command writes on a terminal, and its status."""
    reader, writer = pty.openpty()
    done = subprocess.Popen([HILPOVEN, "--db", plant.db, *words], stdin=subprocess.DEVNULL, stdout=writer, stderr=writer,
                            env=environment(TOLL=plant.program))
    os.close(writer)
    text = b""
    with contextlib.suppress(OSError):
        while piece := os.read(reader, 65536):
            text += piece
    os.close(reader)
    return done.wait(60), text.decode().replace("\r\n", "\n")


def test_no_word_reaches_a_terminal_as_it_is(at_work):
    for word in NASTY:
        subprocess.run([HILPOVEN, "--db", at_work.db, "unit-add", os.fsencode(word)], capture_output=True, env=environment(TOLL=at_work.program))
    log = at_work.folder / "toll.log"
    log.write_text('192.0.2.7 "=cmd|x" [2001-01-01T00:00:00+00:00] "POST /lots/[/x] HTTP/1.1" 403 11 0.395\n')
    for form in ([], ["--csv"], ["--json"]):
        status, text = on_terminal(at_work, "journal", "--site-log", str(log), *form)
        assert status == 0 and "Traceback" not in text and all(letter == "\n" or letter.isprintable() for letter in text), text
        assert len(text.splitlines()) == 10 or form == ["--json"]
    assert r"K\n2026-01-01" in text and "[/x]" in text
    status, text = on_terminal(at_work, "unit-add", *NASTY[:2])
    assert status == 2 and all(letter == "\n" or letter.isprintable() for letter in text)
    status, text = on_terminal(at_work, "--office", NASTY[1], "stock")
    assert status == 2 and all(letter == "\n" or letter.isprintable() for letter in text)
    status, text = on_terminal(at_work, f"--{NASTY[1]}", "stock")
    assert status == 2 and all(letter == "\n" or letter.isprintable() for letter in text)
    status, text = on_terminal(at_work, "unit-add", NASTY[0])
    assert status == 1 and not any(line.strip().startswith("2026-01-01") for line in text.splitlines())


def test_a_long_word_is_refused_and_one_that_was_noted_makes_no_row_wider(at_work):
    word, before = "A" * 4_097, len(at_work.lines())
    for words in (["unit-add", word], ["years", "recall", "ACME", word], ["owner", "add", word], ["list", word]):
        done = at_work.run(*words)
        assert done == (2, "", "hilpoven: a word has more than 4,096 letters\n"), words
    assert len(at_work.lines()) == before
    Journal(str(at_work.journal)).exported(str(at_work.db), ["years", word])
    *others, _ = at_work.run("journal", "--no-site").out.splitlines()
    assert max(map(len, others)) < 500


@pytest.mark.parametrize("member", ["words", "file", "event", "id", "login", "backup"])
@pytest.mark.parametrize("value", [5, None, {"a": 1}, [[{}]]])
def test_members_of_any_form_are_told(at_work, member, value):
    journal = Journal(str(at_work.journal))
    with journal.locked() as descriptor:
        journals.append(descriptor, {"event": "exported", "file": str(at_work.db), "words": ["board"], member: value})
    assert at_work.run("journal", "--no-site").status == at_work.run("journal", "verify").status == 0


def test_a_line_of_many_bytes_is_followed_in_time(tmp_path):
    """Each byte of it is copied a few times, and not once for each piece that is read."""
    path = str(tmp_path / "office.db.journal")
    write(path, 1)
    Journal(path).add({"event": "exported", "words": ["A" * 60_000_000]})
    begun = time.process_time()
    Journal(path).add({"event": "exported", "words": ["board"]})
    assert time.process_time() - begun < 5 and check(path).lines == 4 and not check(path).wrong


def test_csv_has_no_formula_of_anybody(at_work):
    log = at_work.folder / "toll.log"
    log.write_text('192.0.2.7 "=HYPERLINK(1)" [2001-01-01T00:00:00+00:00] "POST /orders HTTP/1.1" 403 11 0.395\n'
                   '192.0.2.7 "+1" [2001-01-01T00:00:01+00:00] "@x HTTP/1.1" 403 11 0.395\n')
    rows = list(csv.reader(io.StringIO(at_work.run("journal", "--questions", "--site-log", log, "--csv").out)))
    assert rows[1][1] == '="=HYPERLINK(1) (claimed)"' and rows[2][1] == '="+1 (claimed)"' and rows[2][3] == '="@x"'
    at_work.run("unit-add", "1E5")
    at_work.run("unit-add", "MAR-1")
    units = at_work.run("list", "units", "--csv").out.splitlines()
    assert '"=""1E5""",,,,' in units and '"=""MAR-1""",,,,' in units and "KETTLE,ACME," in units[2]


@pytest.mark.parametrize("status, who", [*((code, "ACME") for code in (200, 304, 404, 405, 409)),
                                         *((code, "ACME (claimed)") for code in (400, 403, 413, 429, 503))])
def test_who_only_claims_to_be_an_owner_is_marked(at_work, status, who):
    log = at_work.folder / "toll.log"
    log.write_text(f'192.0.2.7 "ACME" [2001-01-01T00:00:00+00:00] "POST /orders HTTP/1.1" {status} 11 0.395\n'
                   f'192.0.2.7 "ACME" [2001-01-01T00:00:01+00:00] "POST /owner/ HTTP/1.1" {status} 11 0.395\n')
    assert [row["who"] for row in json.loads(at_work.run("journal", "--site-log", log, "--json").out)] == [who, "ACME (claimed)"]


@pytest.mark.parametrize("request_line, status", [
    ("POST /%6fwner/", 405), ("POST /owner", 405), ("POST /owner?x", 405), ("GET /x/../owner/app.js", 200), ("POST /.wrong-key", 404), ("POST /.companion-key", 404),
    ("CONNECT /orders", 405), ("TRACE /orders", 405), ("PUT /orders", 405), ("POST //owner/", 405), ("POST orders", 404), ("POST /orders\\x22", 404)])
def test_what_nginx_answered_itself_is_no_owner_s_action(at_work, request_line, status):
    log = at_work.folder / "toll.log"
    log.write_text(f'192.0.2.7 "ACME" [2001-01-01T00:00:00+00:00] "{request_line} HTTP/1.1" {status} 11 0.395\n')
    assert [row["who"] for row in json.loads(at_work.run("journal", "--site-log", log, "--questions", "--json").out)] == ["ACME (claimed)"]


@pytest.mark.parametrize("name", ["unauthenticated-toll.log", "unauthenticated-toll-south.log"])
def test_what_proved_no_key_is_no_owner_s_action(at_work, name):
    (at_work.folder / name).write_text('192.0.2.7 "ACME" [2001-01-01T00:00:00+00:00] "POST /orders HTTP/1.1" 200 11 0.395\n')
    assert [row["who"] for row in json.loads(at_work.run("journal", "--site-log", at_work.folder / name, "--json").out)] == ["ACME (claimed)"]


def test_who_and_word_find_what_they_name(at_work):
    log = at_work.folder / "toll.log"
    log.write_text("".join(f'192.0.2.7 "{owner}" [2001-01-01T00:00:00+00:00] "POST /orders HTTP/1.1" 200 11 0.395\n' for owner in ("ACME", "ACME-2")))
    for owner in ("ACME", "ACME-2"):
        assert [row["who"] for row in json.loads(at_work.run("journal", "--site-log", log, "--who", owner, "--json").out)] == [owner]
    sheet = at_work.folder / "sheet.csv"
    sheet.write_text("key,owner,order,batch,segment,use,material,lot_owner,lot,sublot,amount,day\n"
                     "K21,ACME,O-1,1,1,consumed,SALT,ACME,S-1,BAY1,1,102\n")
    for times in (1, 2):  # which `toll` isn't asked again
        at_work.run("import", sheet)
        assert [row["what"] for row in json.loads(at_work.run("journal", "--no-site", "--word", "K21", "--json").out)] == ["import sheet.csv"] * times


@pytest.mark.parametrize("typed", ["TR-77,", "(TR-77)", "TR-77:", "'TR-77'", "W-1/TR-77", "of_TR-77; TR-77."])
def test_a_word_is_found_whatever_marks_stand_beside_it(at_work, typed):
    at_work.run("scrap", "ACME", "K9", "S-1", "BAY1", 5, 103, "--reason", f"as {typed} says", "--yes")
    assert [row["what"].split()[:3] for row in json.loads(at_work.run("journal", "--no-site", "--word", "TR-77", "--json").out)] == [["scrap", "ACME", "K9"]]
    assert at_work.run("journal", "--no-site", "--word", "TR-7", "--json").out == "[]\n"


def test_a_time_that_the_journal_prints_is_one_to_look_from(at_work):
    at_work.run("unit-add", "PRESS")
    at_work.run("unit-add", "OVEN")
    first, second = json.loads(at_work.run("journal", "--no-site", "--json").out)
    assert json.loads(at_work.run("journal", "--no-site", "--json", "--since", second["time"]).out) == [second] or first["time"] == second["time"]
    shifted = datetime.datetime.fromisoformat(second["time"]).astimezone(datetime.timezone(datetime.timedelta(hours=5))).isoformat(timespec="milliseconds")
    assert second in json.loads(at_work.run("journal", "--no-site", "--json", "--since", shifted).out)
    assert json.loads(at_work.run("journal", "--no-site", "--json", "--since", "2999-01-01").out) == []
    for text in ("yesterday", "2026-13-01", "0001-01-01T00:00+23:00", ""):
        assert is_told(at_work.run("journal", "--since", text), 2)


def test_an_answer_that_cannot_be_noted_is_given_all_the_same(at_work):
    at_work.run("unit-add", "PRESS")

    def no_room() -> None:
        kept = at_work.journal.read_text()
        size = len(kept) + len(kept.splitlines()[0]) + 60  # for the command, and not for its answer
        resource.setrlimit(resource.RLIMIT_FSIZE, (size, size))
        signal.signal(signal.SIGXFSZ, signal.SIG_IGN)
    server = subprocess.Popen([at_work.program, "--db", at_work.db, "serve", "0", "1000"], stdout=subprocess.PIPE)
    try:
        server.stdout.readline()
        done = at_work.begun("unit-add", "OVEN-WITH-NAME-1", preexec_fn=no_room)
        out, err = done.communicate(timeout=60)
    finally:
        server.terminate()
        server.communicate()
    assert (done.returncode, out) == (3, "accepted\n") and "can't be written" in err and "its answer isn't noted" in err
    assert ("OVEN-WITH-NAME-1",) in at_work.rows("SELECT unit FROM units")
    checked = check(str(at_work.journal))
    assert checked.wrong == [] and checked.notes == [] and len(checked.unanswered) == 1  # nothing of a line is left


def test_time_that_goes_back_is_told(path, monkeypatch):
    monkeypatch.setattr(journals, "now", lambda: "2020-01-01T00:00:00.000Z")
    write(path, 1)
    assert check(path).notes == ["line 11 has an earlier time than line 10: the clock was set back"] and check(path).wrong == []


def test_a_long_journal_is_not_held_in_memory(tmp_path):
    path = str(tmp_path / "office.journal")
    write(path, 1)
    journal = Journal(path)
    for _ in range(40):
        journal.answered(journal.asked("/office.db", ["import", "a.csv"], keys=["ACME K-1234567"] * 30_000), DONE)
    tracemalloc.start()
    assert check(path).lines == 82
    assert tracemalloc.get_traced_memory()[1] < os.stat(path).st_size / 2
    tracemalloc.stop()


def test_what_is_handed_out_is_noted(at_work):
    at_work.run("papers", "lot", "ACME", "B-1", at_work.folder / "made", "--no-pdf")
    at_work.run("years", "recall", "ACME", "S-1")
    assert {entry["event"] for entry in at_work.lines()} == {"exported"}
    assert [entry["words"] for entry in at_work.lines()] == [["papers", "lot-ACME-B-1"], ["years", "recall", "ACME", "S-1"]]
    assert "papers lot-ACME-B-1" in at_work.run("journal", "--no-site").out and at_work.run("journal", "verify").status == 0
