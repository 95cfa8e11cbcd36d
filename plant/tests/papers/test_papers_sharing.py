"""Who may open papers, what is no office, and names that a spreadsheet would take for something else."""
import csv
import os
import sqlite3
import subprocess
import tarfile

import pytest
from conftest import HILPOVEN, command, environment, is_told

RECALL = ("papers", "recall", "HOUSE", "W-101")

# An owner whose name is the plant's, and lots whose names are numbers and dates to a spreadsheet.
NAMES = """
owner-add PLANT PLANTKEY1
material-add PLANT SALT kg
recipe-add PLANT R 1
require PLANT R 1 consumed HOUSE WATER 10
require PLANT R 1 produced PLANT SALT 10
> PLANT POST /orders {"order":"1E5","recipe":"R","batches":1}
open PLANT 1E5 MIXER
do PLANT 1E5 1 start
actual 007 PLANT 1E5 1 1 consumed WATER HOUSE W-101 TANK 10 103
actual 1-3 PLANT 1E5 1 1 produced SALT PLANT 1-2 1E6 10 103
"""


def run_recall(plant, *words, **options):
    """What the command tells as a process of its own."""
    return command("--db", plant.db, *RECALL, *words, env=environment(TOLL=plant.program), **options)


def test_an_owner_who_is_named_plant_has_papers_of_its_own(at_work):
    assert at_work.lay(NAMES).run(*RECALL, at_work.folder / "made", "--no-pdf").status == 0
    folder = at_work.folder / "made"
    assert sorted(str(path.relative_to(folder)) for path in folder.glob("*/*") if path.is_dir()) == ["owners/ACME", "owners/PLANT"]
    assert (folder / "plant" / "recall.txt").exists() and not (folder / "owners" / "PLANT" / "recall.txt").exists()
    names = [str(path.relative_to(folder)).lower() for path in folder.rglob("*")]
    assert len(set(names)) == len(names)


def test_names_are_texts_to_a_spreadsheet(at_work):
    assert at_work.lay(NAMES).run(*RECALL, at_work.folder / "made", "--no-pdf").status == 0
    cells = set()
    for file in (at_work.folder / "made" / "owners" / "PLANT").glob("*.csv"):
        with open(file, newline="") as text:
            cells |= {cell for row in csv.reader(text) for cell in row}
    assert {'="1-2"', '="1E6"', '="1E5/1"', '="SALT"', '="HOUSE"'} <= cells
    assert not {"1-2", "1E6", "1E5/1", "SALT", "HOUSE"} & cells


@pytest.mark.parametrize("parent", ["/proc", "/proc/self"])
def test_where_nothing_can_be_written_it_is_told(at_work, parent):
    assert is_told(at_work.run(*RECALL, f"{parent}/made", "--no-pdf"), 3)


@pytest.mark.parametrize("words", [[], ["a", "b"], ["a", "--tar"], ["--tar", "--all"], ["."]])
def test_a_wrong_use_is_told(at_work, words):
    assert is_told(at_work.run(*RECALL, *words), 2)


@pytest.mark.parametrize("name", ["text.db", "empty.db", "other.db"])
def test_what_is_no_office_is_told(at_work, name):
    folder = at_work.folder
    (folder / "text.db").write_text("no office")
    (folder / "empty.db").write_text("")
    with sqlite3.connect(folder / "other.db") as other:
        other.execute("CREATE TABLE t (a)")
    done = at_work.run(*RECALL, folder / "made", "--no-pdf", db=folder / name)
    assert is_told(done, 2 if name == "empty.db" else 3) and not (folder / "made").exists()


def test_without_sudo_papers_are_one_users(at_work):
    assert run_recall(at_work, at_work.folder / "made", "--no-pdf", umask=0).returncode == 0
    for path in [at_work.folder / "made", *(at_work.folder / "made").rglob("*")]:
        assert os.stat(path).st_mode & 0o077 == 0, path


def test_a_tar_belongs_to_whoever_unpacks_it(at_work):
    with open(at_work.folder / "x.tar", "wb") as out:
        done = subprocess.run([HILPOVEN, "--db", at_work.db, *RECALL, "--no-pdf", "--tar"], stdout=out, stderr=subprocess.PIPE, env=environment(TOLL=at_work.program))
    assert (done.returncode, done.stderr) == (0, b"")
    with tarfile.open(at_work.folder / "x.tar") as tar:
        assert {(member.uid, member.gid, member.uname, member.gname, member.mode & 0o077) for member in tar.getmembers()} == {(0, 0, "", "", 0)}
        tar.extractall(at_work.folder / "unpacked")
    assert run_recall(at_work, at_work.folder / "made", "--no-pdf").returncode == 0
    for path in (at_work.folder / "made" / "owners").rglob("*.csv"):
        assert (at_work.folder / "unpacked" / "recall-HOUSE-W-101" / path.relative_to(at_work.folder / "made")).read_bytes() == path.read_bytes()
