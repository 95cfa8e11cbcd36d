"""A standby behind a key that `rrsync` holds to one folder: pieces come through, and nothing else is read or written there."""
import os
import pathlib
import subprocess

import pytest
from conftest import HILPOVEN, Plant, environment, eventually
from hilpoven.care.standby import chain
from restricted import IS_THERE, rsh_into

pytestmark = pytest.mark.skipif(not IS_THERE, reason="needs rsync with rrsync")
SECRET = "what another office has"


@pytest.fixture
def standby(program, tmp_path) -> Plant:
    """A folder of another machine, with one for pieces and without an office."""
    (tmp_path / "standby" / "follow").mkdir(parents=True, mode=0o700)
    (tmp_path / "standby").chmod(0o700)
    return Plant(program, tmp_path / "standby")


@pytest.fixture
def pieces(standby) -> pathlib.Path:
    """The folder that the key fills."""
    return standby.folder / "follow"


@pytest.fixture
def rsh(pieces, tmp_path) -> pathlib.Path:
    return rsh_into(pieces, tmp_path / "rsh")


def rsync(rsh: pathlib.Path, *words: object) -> subprocess.CompletedProcess:
    """What rsync does as somebody who has the key."""
    return subprocess.run(["rsync", f"--rsh={rsh}", *map(str, words)], capture_output=True, text=True, timeout=60)


def test_pieces_and_snapshots_come_through_at_once(at_work, standby, pieces, rsh):
    """A snapshot is on its way while pieces are sent: the key's command allows both."""
    settings = at_work.folder / "remote.toml"
    settings.write_text(f'file = "{at_work.db}"\ntoll = "{at_work.program}"\n[follow]\nto = "there:/"\nrsh = "{rsh}"\n')
    with open(at_work.folder / "log", "w+") as log:
        process = subprocess.Popen([HILPOVEN, "follow"], stderr=log, env=environment(HILPOVEN_SETTINGS=settings))
        try:
            assert eventually(lambda: bool(chain.chains_in(str(pieces))))
            for number in range(4):
                assert at_work.run("unit-add", f"U-{number}").out == "accepted\n"
            wanted = at_work.content()
            assert eventually(lambda: at_work.run("follow", "status", at_work.folder / "follow").out.startswith("0.0 seconds behind"))
            assert eventually(lambda: chain.newest_in(str(pieces)).last == chain.newest_in(str(at_work.folder / "follow")).last >= 1 and list(pieces.glob("*.snapshot")))
        finally:
            process.kill()
            process.wait()
        log.seek(0)
        assert "Another instance" not in log.read()
    assert standby.run("promote").status == 0 and standby.content() == wanted
    # what came is on the disk of the other machine before it has its name
    received = [line for line in pathlib.Path(f"{rsh}.log").read_text().splitlines() if "--sender" not in line]
    assert received and all(" --fsync " in line for line in received)


@pytest.mark.parametrize("target", ("{outside}/secret", "../../outside/secret", "{outside}"))
def test_who_has_the_key_reads_nothing_by_a_link(at_work, standby, pieces, rsh, tmp_path, target):
    """The link is made over the protocol, and read in each way that it has."""
    outside, evil, got = (tmp_path / name for name in ("outside", "evil", "got"))
    for folder in (outside, evil, got):
        folder.mkdir()
    (outside / "secret").write_text(SECRET)
    link = target.format(outside=outside)
    (evil / "promoted-0002").symlink_to(link)
    assert rsync(rsh, "--links", "--recursive", f"{evil}/", "there:/").returncode == 0
    link_there = pieces / "promoted-0002"
    assert link_there.is_symlink() and not os.path.exists(link_there), "the link leads somewhere"
    for words in (["--copy-links"], ["--copy-unsafe-links"], ["--copy-dirlinks"], ["--keep-dirlinks"], ["--links"], ["--links", "--munge-links"], ["--no-munge-links", "--copy-unsafe-links"], []):
        for name in ("", "promoted-0002", "promoted-0002/", "promoted-0002/secret", "./promoted-0002/./secret", "../outside/secret", f"{outside}/secret"):
            rsync(rsh, "--recursive", *words, f"there:/{name}", f"{got}/")
    for words in (["--link-dest=/promoted-0002"], ["--copy-dest=/promoted-0002"], ["--files-from=:/promoted-0002"], ["--compare-dest=/promoted-0002"]):
        rsync(rsh, "--recursive", *words, "there:/", f"{got}/")
    assert [path for path in got.rglob("*") if path.is_file() and SECRET in path.read_text()] == []
    # nothing is written through it either
    (evil / "promoted-0002").unlink()
    (evil / "promoted-0002").mkdir()
    (evil / "promoted-0002" / "secret").write_text("another")
    for words in (["--keep-dirlinks"], ["--inplace"], ["--inplace", "--keep-dirlinks"], ["--temp-dir=promoted-0002"], ["--backup-dir=promoted-0002", "--backup"], ["--partial-dir=promoted-0002"]):
        rsync(rsh, "--recursive", "--ignore-times", *words, f"{evil}/", "there:/")
    assert (outside / "secret").read_text() == SECRET and [path.name for path in outside.iterdir()] == ["secret"]


def test_a_link_that_the_key_made_is_refused_by_all_that_read_the_folder(at_work, standby, pieces, rsh, tmp_path):
    (tmp_path / "evil").mkdir()
    (tmp_path / "evil" / "promoted-0009").symlink_to("/etc/passwd")
    assert rsync(rsh, "--links", "--recursive", f"{tmp_path}/evil/", "there:/").returncode == 0
    for words in (["promote"], ["promote", "--check"], ["follow", "verify"]):
        done = standby.run(*words)
        assert done.status == 1 and f"promoted-0009 in {pieces} is no file" in done.err, (words, done)


def test_the_key_runs_and_lists_nothing_else(standby, pieces, rsh):
    for words in ("cat /etc/passwd", "sh -c id", "rsync --server --sender -e.LsfxCIvu . /etc/passwd", "rsync --server --sender -logDtpre.iLsfxCIvu . ../../outside/", "rsync --daemon --server ."):
        done = subprocess.run([rsh, "there", *words.split()], capture_output=True, text=True, stdin=subprocess.DEVNULL, timeout=60)
        assert done.returncode != 0 and "root:" not in done.stdout and "uid=" not in done.stdout, words
