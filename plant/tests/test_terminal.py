"""What a terminal of 80 columns shows: no line is wider, a long sheet has a bar, and a pipe gets neither bars nor colours."""
import fcntl
import os
import pty
import re
import struct
import subprocess
import termios

import pytest
from conftest import HILPOVEN, forked
from hilpoven.report.lists import LISTINGS

WIDTH = 80
LONG = "A-LONG-NAME-OF-1"  # as long as a name may be


def on_terminal(plant, *words, width=WIDTH):
    """The status, and the lines that a terminal gets of both streams; what overwrites a line is a line of its own."""
    ours, theirs = pty.openpty()
    fcntl.ioctl(theirs, termios.TIOCSWINSZ, struct.pack("HHHH", 24, width, 0, 0))
    command = forked("--db", plant.db, *words, TOLL=plant.program, TERM="xterm-256color")
    process = subprocess.Popen([HILPOVEN], stdin=theirs, stdout=theirs, stderr=theirs, preexec_fn=command)
    os.close(theirs)
    text = b""
    while piece := read(ours):
        text += piece
    os.close(ours)
    return process.wait(), re.split(r"[\r\n]+", text.decode().strip("\r\n"))


def read(descriptor):
    """What comes next; nothing at the end."""
    try:
        return os.read(descriptor, 65_536)
    except OSError:
        return b""


@pytest.fixture
def wide(at_work):
    """An office with the longest names and the greatest amounts."""
    return at_work.lay(f"""
material-add ACME {LONG} kilogram
receive ACME {LONG} {LONG} {LONG} {LONG} 1000000000 9999999
split ACME {LONG}2 {LONG} {LONG} {LONG}2 999999999 9999999
""".replace(f"{LONG}2", f"{LONG[:-1]}2"))


@pytest.mark.parametrize("width, words", [
    *((width, ["list", name]) for name in LISTINGS for width in (40, WIDTH)), *((WIDTH, line.split()) for line in (
        f"show lot ACME {LONG}", "show lot ACME B-1", "show batch ACME O-1 1", f"show key ACME {LONG}", "show owner ACME", "show recipe ACME BRINE-10", f"show material ACME {LONG}", "journal", "status --all", "--help", "import --help", "years files"))])
def test_no_line_is_wider_than_the_terminal(wide, words, width):
    wide.run("receive", "ACME", LONG[:-1] + "3", LONG, LONG, LONG, 1, 102)
    status, lines = on_terminal(wide, *words, width=width)
    assert status in (0, 1), lines
    table = lines[lines.index("server: none: each command opens the file itself") + 2:] if "status" in words else lines
    assert max(map(len, table)) <= width and "\x1b" not in "".join(lines), table


def test_a_table_that_fits_is_as_it_is_piped(at_work):
    _, lines = on_terminal(at_work, "list", "materials")
    assert lines == at_work.run("list", "materials").out.splitlines()


def test_what_does_not_fit_goes_on_in_a_line_below(at_work):
    status, lines = on_terminal(at_work, "list", "moves", "--lot", "B-1", width=60)
    assert (status, lines) == (0, [
        "owner  key  kind      lot_owner  lot  sublot  target",
        "    material  order  batch  segment  amount  day",
        "ACME   K4   produced  ACME       B-1  TOTE1",
        "    BRINE     O-1        1        2     980  101",
        "ACME   K6   split     ACME       B-1  TOTE1   TOTE2",
        "                                         80  102"])


def test_a_sheet_shows_how_far_it_has_come(at_work):
    path = at_work.folder / "receipts.csv"
    path.write_text("owner,key,material,lot,sublot,amount,day\n" + "".join(f"ACME,K{n},SALT,S-{n},BAY1,5,102\n" for n in range(100, 150)))
    status, lines = on_terminal(at_work, "import", "--what", "receipts", path)
    assert status == 0 and lines[-1] == "50 receipts: 50 accepted, 0 there already, 0 refused, 0 can't be read"
    bars = [line for line in lines if line.startswith("receipts  [")]
    assert bars[0] == f"receipts  [{' ' * 40}]  0/50" and bars[-1] == f"receipts  [{'#' * 40}]  50/50" and max(map(len, bars)) < WIDTH
    again = at_work.run("import", "--what", "receipts", path)
    assert again.err == "" and "\r" not in again.out and "\x1b" not in again.out
