"""What is advised is what works: as whom a command is given, how a sheet comes to it, and which office is meant."""
import os
import pathlib
import pwd
import shlex
import subprocess
import sys
import time

import pytest
from conftest import HILPOVEN, Plant, called, command, copied, environment, is_told
from hilpoven.core import files, rights, scratch
from hilpoven.core.failure import is_visible, printable
from hilpoven.core.forms import TEXT
from hilpoven.core.table import as_cell

SHEET = "owner;key;material;lot;sublot;amount;day\nACME;K31;SALT;S-9;BAY1;5;103\n"
as_root = pytest.mark.skipif(os.geteuid() != 0, reason="only root can be another user")


@pytest.fixture
def reachable(laid, program, open_folder):
    """An office at work where other users reach it."""
    return copied(laid, Plant(program, open_folder))


# A clerk's first import

@as_root
@pytest.mark.parametrize("words", [["import", "--what", "receipts", "{sheet}"], ["import", "{sheet}", "--what", "receipts"], ["count", "import", "{sheet}"]])
def test_a_clerk_who_names_a_sheet_is_told_how_it_comes_through_standard_input(reachable, words):
    os.chmod(reachable.db, 0o600)
    sheet = reachable.folder / "my receipts.csv"
    sheet.write_text(SHEET)
    typed = [word.format(sheet=sheet) for word in words]
    done = command("--db", reachable.db, *typed, env=environment(TOLL=reachable.program), user=65534, group=65534, extra_groups=[])
    advice = shlex.join(["sudo", "-u", "toll", "hilpoven", "--db", str(reachable.db), *("-" if word == str(sheet) else word for word in typed)])
    assert done.returncode == 3 and f"needs another user's rights: {advice} < '{sheet}'\n" in done.stderr, done.stderr


def test_a_member_who_names_a_sheet_is_told_the_whole_line(at_work, monkeypatch):
    at_work.settle()
    monkeypatch.setattr(sys, "argv", ["hilpoven", "import", "monday's.csv", "--what", "receipts"])
    done = at_work.as_member("import", "monday's.csv", "--what", "receipts")
    me = pwd.getpwuid(os.geteuid()).pw_name
    line = f"sudo -u {me} hilpoven import - --what receipts < 'monday'\"'\"'s.csv'"
    assert is_told(done, 2) and f"a sheet comes through standard input: {line}\n" in done.err
    (at_work.folder / "monday's.csv").write_text(SHEET)
    words = shlex.split(line.split(" hilpoven ")[1].split(" < ")[0])
    assert at_work.as_member(*words, stdin=SHEET).status == 0  # the line as it is told, in one try


# A second office

def test_with_two_offices_a_clerk_is_told_how_one_is_named(plant, monkeypatch, tmp_path):
    for name in ("north", "south"):
        (tmp_path / f"{name}.env").write_text("PORT=801\n")
    for done in (plant.as_member("stock", "ACME"), called("stock", "ACME", TOLL=plant.program)):
        assert is_told(done, 2) and "no office is named, and this machine has several" in done.err
        assert "`hilpoven --office north ..`" in done.err and "there are: north, south" in done.err and "--db" not in done.err


# Rights, and what isn't a matter of them

@pytest.mark.parametrize("error", [OSError(30, "Read-only file system"), OSError(28, "No space left on device"), OSError(5, "Input/output error")])
def test_a_disk_that_fails_is_no_matter_of_rights(at_work, error):
    assert rights.unusable("no", str(at_work.db), error).needs == ""


@as_root
def test_a_disk_that_can_only_be_read_is_told_without_sudo(reachable):
    if subprocess.run(["unshare", "--mount", "true"]).returncode:
        pytest.skip("nothing can be mounted here")
    steps = f"mount --bind {reachable.folder} {reachable.folder} && mount -o remount,bind,ro {reachable.folder} && exec {HILPOVEN} --db {reachable.db} stock ACME"
    done = subprocess.run(["unshare", "--mount", "sh", "-c", steps], capture_output=True, text=True, env=environment(TOLL=reachable.program))
    assert done.returncode == 3 and "Read-only file system" in done.stderr and "sudo" not in done.stderr, done.stderr


@as_root
def test_root_sees_the_status_that_the_office_s_user_sees(reachable):
    backups = reachable.folder / "backups"
    backups.mkdir(mode=0o700)
    (reachable.folder / "hilpoven.toml").write_text(f'file = "{reachable.db}"\nbackups = "{backups}"\ntoll = "{reachable.program}"\n')
    for path in (reachable.folder, *reachable.folder.iterdir()):
        os.chown(path, 65534, 65534)
    env = environment(TOLL=reachable.program, HILPOVEN_SETTINGS=reachable.folder / "hilpoven.toml")
    user = {"user": 65534, "group": 65534, "extra_groups": []}
    assert command("backup", env=env, **user).returncode == 0
    done = command("status", env=env)
    assert (done.returncode, done.stderr) == (0, "") and "ATTENTION" not in done.stdout and "NOT WELL" not in done.stdout, done
    assert not [path for path in reachable.folder.rglob("*") if path.stat().st_uid == 0]  # nothing of root's is left


# What can't be seen

@pytest.mark.parametrize("letter", ["\u034f", "\u115f", "\u1160", "\u17b4", "\u180b", "\u2800", "\u3164", "\ufe0f", "\uffa0", "\U000e0100", "\u200b", "\u202e", "\x1b"])
def test_a_letter_that_nobody_sees_is_escaped_and_no_text_of_a_note(letter):
    assert not is_visible(f"A{letter}B") and letter not in printable(f"A{letter}B") and TEXT.fault(f"A{letter}B")


@pytest.mark.parametrize("text", ["Süß & Söhne", "Łódź", "東京", "Ναύπλιο", "a-b_c"])
def test_letters_of_any_script_are_seen(text):
    assert is_visible(text) and printable(text) == text and not TEXT.fault(text)


def test_a_party_s_name_is_told_where_the_terminal_lacks_its_letters(at_work):
    at_work.run("party", "add", "ACME", "P", "--name", "Łódź 東京", "--role", "customer")
    code = f"import io, sys; sys.path.insert(0, {str(pathlib.Path(HILPOVEN).parents[1] / 'src')!r}); sys.stdout = io.TextIOWrapper(sys.stdout.buffer, 'iso-8859-1')\n" \
           f"from hilpoven.cli import main; sys.argv = ['hilpoven', '--db', {str(at_work.db)!r}, 'party', 'list', 'ACME']; main()"
    done = subprocess.run([sys.executable, "-c", code], capture_output=True, env=environment(TOLL=at_work.program))
    assert done.returncode == 0 and "\\u0141ód\\u017a".encode("iso-8859-1") in done.stdout and b"Traceback" not in done.stderr, done


@pytest.mark.parametrize("text", ["OKT-12", "okt 5", "Dez-1", "Mai-3", "MRZ-7", "Mär-7", "März 2026-1", "Oktober-2", "JAN-1", "WAHR", "falsch", "true"])
def test_what_a_german_spreadsheet_takes_for_a_day_or_a_truth_is_a_formula(text):
    assert as_cell(text) == f'="{text}"'


@pytest.mark.parametrize("text", ["TR-77", "B-1", "KETTLE", "OKTAN-X", "WAHRHEIT"])
def test_other_names_stay_as_they_are(text):
    assert as_cell(text) == text


# Small words

def test_help_is_a_word_too(at_work):
    assert at_work.run("help").out == at_work.run("--help").out != "" and at_work.run("help", "ship").out == at_work.run("ship", "--help").out
    assert "--csv" in at_work.run("help", "list", "lots").out and is_told(at_work.run("help", "shipp"), 2)


# Temporary folders

def test_a_folder_that_was_just_made_is_nobody_else_s_to_hold(tmp_path, monkeypatch):
    folder = tmp_path / f"{files.HIDDEN}0123456789abcdef"
    folder.mkdir()
    holds = []
    held = scratch.held
    monkeypatch.setattr(scratch, "held", lambda path: holds.append(path) or held(path))
    scratch.remove_left(str(tmp_path))
    assert folder.is_dir() and holds == []
    old = time.time() - 2 * scratch.LEFT_SINCE
    os.utime(folder, (old, old))
    scratch.remove_left(str(tmp_path))
    assert not folder.exists()
