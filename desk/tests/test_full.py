"""A disk that is full while a form is sent: nothing is lost or recorded twice, and the person is told in plain words."""
import os
import pathlib
import shutil
import subprocess

import pytest
from hilpoven.core import snapshot
from plants import eventually

ROOM = 16_384  # kilobytes of the disk
FULL = {"en": "The disk of the machine is full. Tell whoever looks after it.", "de": "Die Platte des Rechners ist voll. Bitte der Technik melden."}
RECORDED = {"en": "Recorded.", "de": "Erfasst."}
NOTHING = {"en": "Not recorded", "de": "Nicht erfasst"}
BLOCK = 4_096


@pytest.fixture
def room(office):
    """The office on a small disk of its own."""
    files = {path.name: path.read_bytes() for path in office.folder.iterdir() if path.is_file()}
    if subprocess.run(["mount", "-t", "tmpfs", "-o", f"size={ROOM}k,mode=700", "none", office.folder], capture_output=True).returncode:
        pytest.skip("nothing can be mounted")
    try:
        for name, content in files.items():
            (office.folder / name).write_bytes(content)
            (office.folder / name).chmod(0o600)
        yield office.folder
    finally:
        subprocess.run(["umount", "-l", office.folder], check=True)


def fill(folder: pathlib.Path, free: int) -> None:
    """Fills a disk but for so many blocks."""
    with open(folder / "ballast", "wb") as ballast:
        ballast.write(bytes(max(0, os.statvfs(folder).f_bavail - free) * BLOCK))
    assert shutil.disk_usage(folder).free == free * BLOCK


# Without room for a copy of the file, for what is read beside, for the index of a log, and with room for all; and all
# about where a page just fits.
ROOMS = [(False, 0, "en"), (True, 0, "de"), (True, 150, "en"), (True, 195, "en"), (True, 240, "de")]
ALL = [pytest.param(True, free, "en", marks=pytest.mark.long) for free in range(180, 220) if free != 195]


@pytest.mark.parametrize("is_copied, free, language", [*ROOMS, *ALL])
def test_a_form_on_a_full_disk(browse, office, room, is_copied, free, language):
    anna = browse("anna")
    anna.send("/language", language=language, to="/recall")
    if is_copied:  # a page finds the copy current, and needs no room
        assert eventually(lambda: all(snapshot.is_settled(snapshot.stamp_of(f"{office.db}{end}")) for end in ("", "-wal")))
    anna.get("/receive?owner=ACME&material=SALT")
    form = {**anna.form(), "lot": "S-9", "sublot": "BAY1", "amount": "4900", "day": "103"}
    fill(room, free)
    anna.send("/receive", **form)
    status, page = anna.status, anna.text
    (room / "ballast").unlink()
    received = office.rows("SELECT mkey, amount FROM moves WHERE lot = 'S-9'")
    if status == 200 or RECORDED[language] in page:
        assert RECORDED[language] in page and received == [(form["key"], 4_900)], page
    else:
        assert status == 503 and FULL[language] in page and NOTHING[language] in page and received == [], page
    anna.send("/receive", **{**form, "slip": "again"})
    assert anna.status == 200 and office.rows("SELECT mkey, amount FROM moves WHERE lot = 'S-9'") == [(form["key"], 4_900)]
