"""No room, no rights, no WeasyPrint, a stop at any moment: one line, nothing half made, and no copy of the file is left."""
import builtins
import fcntl
import importlib.util
import os
import pathlib
import resource
import shutil
import signal
import subprocess
import sys
import tarfile
import tempfile
import time

import pytest
from conftest import HILPOVEN, Plant, eventually
from hilpoven.report.papers import copies, printing
from killed import kill_at, steps

RECALL = ("papers", "recall", "HOUSE", "W-101")
NOBODY = 65534
PATIENCE = 60  # seconds


def lines_of(text: str) -> list[str]:
    """The lines that tell what is wrong, without those that advise."""
    return [line for line in text.splitlines() if not line.startswith("  ")]


def left(plant: Plant) -> list[str]:
    """What lies in the office's folder besides its files and what was asked for, once those that clean up have done so. A folder
    with nothing in it is what a kill leaves before anything was copied."""
    eventually(lambda: not [path for path in plant.folder.glob(".hilpoven.*") if has_files(path)])
    return sorted(path.name for path in plant.folder.iterdir() if path.name.startswith("made") or path.name.startswith(".hilpoven.") and has_files(path))


def has_files(folder: pathlib.Path) -> bool:
    """Whether anything is in a folder, which may go meanwhile."""
    try:
        return bool(os.listdir(folder))
    except FileNotFoundError:
        return False


def test_papers_are_for_their_user_alone(at_work):
    assert at_work.run(*RECALL, at_work.folder / "made", "--no-pdf").status == 0
    for path in [at_work.folder / "made", *(at_work.folder / "made").rglob("*")]:
        assert path.stat().st_mode & 0o077 == 0, path


def test_papers_leave_no_temporary_files(at_work, monkeypatch):
    """WeasyPrint makes a folder in each process that prints."""
    temporary = at_work.folder / "temporary"
    temporary.mkdir()
    monkeypatch.setattr(tempfile, "tempdir", str(temporary))
    assert at_work.run(*RECALL, at_work.folder / "made").status == 0
    assert os.listdir(temporary) == []


def test_a_tar_has_the_same_files(at_work):
    with at_work.begun(*RECALL, "--no-pdf", at_work.folder / "made") as process:
        assert process.communicate()[1] == "" and process.returncode == 0
    with open(at_work.folder / "x.tar", "wb") as out:
        subprocess.run([HILPOVEN, "--db", at_work.db, *RECALL, "--no-pdf", "--tar"], stdout=out, env={**os.environ, "TOLL": at_work.program}, check=True)
    with tarfile.open(at_work.folder / "x.tar") as tar:
        names = {member.name.removeprefix("recall-HOUSE-W-101/") for member in tar.getmembers() if member.isfile()}
    assert names == {str(path.relative_to(at_work.folder / "made")) for path in (at_work.folder / "made").rglob("*") if path.is_file()}


def test_where_papers_go_is_told_once(at_work):
    for words in ((), ("made", "--tar")):
        done = at_work.run(*RECALL, *words)
        assert done.status == 2 and lines_of(done.err) == ["hilpoven: either FOLDER or --tar says where the papers go"]
    (at_work.folder / "made").mkdir()
    for folder, why in ((at_work.folder / "made", "is there already"), (at_work.folder / "absent" / "made", "is no folder")):
        done = at_work.run(*RECALL, folder)
        assert done.status == 2 and why in done.err and len(lines_of(done.err)) == 1


def test_without_weasyprint_nothing_is_made(at_work, monkeypatch):
    find_spec = importlib.util.find_spec
    monkeypatch.setattr(importlib.util, "find_spec", lambda name, *arguments: None if name == "weasyprint" else find_spec(name, *arguments))
    done = at_work.run(*RECALL, at_work.folder / "made")
    assert done.status == 3 and lines_of(done.err) == ["hilpoven: WeasyPrint isn't here, which makes the PDF"] and left(at_work) == []
    assert at_work.run(*RECALL, at_work.folder / "made", "--no-pdf").status == 0 and not list(at_work.folder.rglob("*.pdf"))


def test_without_graphviz_the_tables_stand_alone(at_work, monkeypatch):
    which = shutil.which
    monkeypatch.setattr(shutil, "which", lambda name, *arguments, **options: None if name == "dot" else which(name, *arguments, **options))
    assert at_work.run(*RECALL, at_work.folder / "made", "--no-pdf").status == 0
    page = (at_work.folder / "made" / "plant" / "recall.html").read_text()
    assert "<svg" not in page and "A step is a batch" in page


@pytest.mark.parametrize("most", (0, 3_000, 30_000, 200_000))
def test_without_room_nothing_is_made(at_work, most):
    def no_room() -> None:
        resource.setrlimit(resource.RLIMIT_FSIZE, (most, most))
        signal.signal(signal.SIGXFSZ, signal.SIG_IGN)
    at_work.folder.joinpath("target").mkdir()
    with at_work.begun(*RECALL, at_work.folder / "target" / "made", preexec_fn=no_room) as process:
        error = process.communicate()[1]
    if process.returncode == 0:
        assert most == 200_000 and error == ""
        return
    assert process.returncode == 3 and len(lines_of(error)) == 1 and error.startswith("hilpoven: "), error
    assert left(at_work) == [] and os.listdir(at_work.folder / "target") == []


def test_a_full_disk_leaves_nothing(at_work):
    room = at_work.folder / "room"
    room.mkdir()
    if subprocess.run(["mount", "-t", "tmpfs", "-o", "size=60k", "none", room], capture_output=True).returncode:
        pytest.skip("nothing can be mounted here")
    try:
        with at_work.begun(*RECALL, room / "made") as process:
            error = process.communicate()[1]
        assert process.returncode == 3 and lines_of(error) == [error.splitlines()[0]] and "No space left" in error, error
        assert os.listdir(room) == [] and left(at_work) == []
    finally:
        subprocess.run(["umount", room], check=True)


def test_without_rights_nothing_is_made(reachable):
    if os.geteuid() != 0:
        pytest.skip("only root can become another user")
    target = reachable.folder / "locked"
    target.mkdir(mode=0o755)
    for path in [reachable.folder, *reachable.folder.glob("office.db*")]:
        os.chown(path, NOBODY, NOBODY)
    with reachable.begun(*RECALL, target / "made", user=NOBODY) as process:
        error = process.communicate()[1]
    assert process.returncode == 3 and len(lines_of(error)) == 1 and "can't write in" in error and "--tar" in error, error
    assert left(reachable) == [] and os.listdir(target) == []


def test_a_lock_that_is_taken_is_told(at_work):
    with open(f"{at_work.db}.lock", "a") as lock:
        fcntl.flock(lock, fcntl.LOCK_EX)
        done = at_work.run(*RECALL, at_work.folder / "made", options=("--wait", "0"))
    assert done.status == 3 and "somebody else has the lock" in done.err and len(lines_of(done.err)) == 1 and left(at_work) == []


def try_kills(plant: Plant, kills: int, *options: str) -> int:
    """Kills a recall at so many steps: nothing of it is left, or all of it is made; how often it was killed."""
    before = sorted(path.name for path in plant.folder.iterdir())
    whole, done = kill_at(plant, 0, [*RECALL, "whole", *options]), 0
    files = sorted(path.name for path in (plant.folder / "whole").rglob("*"))
    shutil.rmtree(plant.folder / "whole")
    for step in steps(whole, kills):
        done += not kill_at(plant, step, [*RECALL, "made", *options])
        assert left(plant) in ([], ["made"]), step
        if (plant.folder / "made").exists():
            assert sorted(path.name for path in (plant.folder / "made").rglob("*")) == files, step
            shutil.rmtree(plant.folder / "made")
        rest = {path.name for path in plant.folder.iterdir()} - {"office.db.lock", "office.db.journal", *(path.name for path in plant.folder.glob(".hilpoven.*"))}
        assert rest <= set(before), (step, rest)
    return done


def test_a_kill_leaves_nothing(at_work):
    assert try_kills(at_work, 12, "--no-pdf") >= 10


@pytest.mark.long
def test_many_kills_leave_nothing(at_work):
    assert try_kills(at_work, 300, "--no-pdf") >= 250
    assert try_kills(at_work, 60) >= 50


@pytest.mark.parametrize("number", (signal.SIGINT, signal.SIGTERM, signal.SIGHUP, signal.SIGKILL))
@pytest.mark.parametrize("after", (0, 0.2, 0.5, 1.0))
def test_a_signal_leaves_nothing(at_work, number, after):
    with at_work.begun(*RECALL, at_work.folder / "made") as process:
        while process.poll() is None and not list(at_work.folder.glob(".hilpoven.*")):
            time.sleep(0.01)
        time.sleep(after)
        process.send_signal(number)
        error = process.communicate()[1]
    assert process.returncode in (0, -number, 128 + number) and error == "", error
    assert left(at_work) == (["made"] if process.returncode == 0 else [])


def test_a_signal_while_keys_are_replaced_is_no_fault_of_the_file(at_work, monkeypatch):
    """SQLite would make a fault of what is raised in a function of Python that it calls."""
    monkeypatch.setattr(copies.secrets, "token_hex", lambda size: sys.exit(128 + signal.SIGTERM))
    done = at_work.run(*RECALL, at_work.folder / "made")
    assert (done.status, done.err, left(at_work)) == (143, "", [])


def test_a_signal_waits_while_a_library_is_imported(monkeypatch):
    """A library may make another error of what is raised while it is imported."""
    imported, blocked = builtins.__import__, {}

    def mask():
        return set(signal.pthread_sigmask(signal.SIG_BLOCK, ()))

    def note(name, *given, **named):
        blocked[name] = mask()
        return imported(name, *given, **named)

    monkeypatch.setattr(builtins, "__import__", note)
    monkeypatch.setattr(printing.importlib, "import_module", lambda name: blocked.update({name: mask()}))
    printing.environment.__wrapped__()
    printing.print_all([])
    assert all(blocked[name] >= {signal.SIGHUP, signal.SIGINT, signal.SIGTERM} for name in ("jinja2", "weasyprint"))
    assert not mask()


def test_no_key_is_in_a_copy(at_work, monkeypatch):
    seen = []
    taken = copies.version

    def look(office):
        rooms = list(at_work.folder.glob(".hilpoven.*"))
        seen.extend(path for room in rooms for path in room.rglob("*") if path.is_file())
        assert seen and all(b"ACMEKEY1" not in path.read_bytes() and b"BOLTKEY1" not in path.read_bytes() for path in seen)
        return taken(office)

    monkeypatch.setattr(copies, "version", look)
    assert at_work.run(*RECALL, at_work.folder / "made", "--no-pdf").status == 0 and seen and left(at_work) == ["made"]
    assert pathlib.Path(at_work.db).exists()
