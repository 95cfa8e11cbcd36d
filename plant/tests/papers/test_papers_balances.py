"""A paper whose balance doesn't close, or of which `toll` tells something else, isn't made, and the lot is named."""
import contextlib
import os
import pathlib
import sqlite3

import pytest
from conftest import AT_WORK, Plant
from lying import liar

CHANGES = {
    "an amount of a sublot": ("UPDATE sublots SET amount = amount + 1 WHERE lot = 'W-101'", "HOUSE W-101"),
    "an amount of a receipt": ("UPDATE moves SET amount = amount - 1 WHERE owner = 'HOUSE' AND mkey = 'K1'", "HOUSE W-101"),
    "an amount of a consumption": ("UPDATE moves SET amount = amount + 5 WHERE owner = 'ACME' AND mkey = 'K3'", "HOUSE W-101"),
    "an amount of a production": ("UPDATE moves SET amount = amount + 5 WHERE owner = 'ACME' AND mkey = 'K4'", "ACME B-1"),
    "a shipment that isn't there any more": ("DELETE FROM moves WHERE owner = 'ACME' AND mkey = 'K7'", "ACME B-1"),
    "a shipment that is another lot's": ("UPDATE moves SET lot = 'S-1' WHERE owner = 'ACME' AND mkey = 'K7'", "ACME B-1"),
    "a void of what stands": ("INSERT INTO voids VALUES ('ACME', 'K3')", "HOUSE W-101"),
    "an amount moved to another sublot": ("UPDATE sublots SET amount = amount + iif(sublot = 'TOTE1', 1, -1) WHERE lot = 'B-1'", "ACME B-1"),
}
SHIPPED = """
result ACME B-1 PH 2 102
> ACME POST /lots/B-1/release
ship ACME K7 B-1 TOTE1 100 103
"""
PAPERS = {"HOUSE W-101": [("recall", "HOUSE", "W-101"), ("lot", "HOUSE", "W-101"), ("statement", "HOUSE", "--from", 0, "--to", 999)],
          "ACME B-1": [("recall", "ACME", "B-1"), ("recall", "HOUSE", "W-101"), ("batch", "ACME", "O-1", 1), ("lot", "ACME", "B-1"), ("statement", "ACME", "--from", 0, "--to", 999)]}


def change(db: pathlib.Path, sql: str) -> None:
    """Changes a row of a copy of the tables by hand."""
    with contextlib.closing(sqlite3.connect(db)) as base, base:
        assert base.execute(sql).rowcount


@pytest.fixture(scope="module")
def shipped(program, tmp_path_factory) -> Plant:
    """An office at work, a lot of which was shipped."""
    return Plant(program, tmp_path_factory.mktemp("shipped")).lay(AT_WORK + SHIPPED)


@pytest.mark.parametrize("case", CHANGES)
def test_a_row_that_was_changed_by_hand_is_told_by_its_lot(shipped, tmp_path, case):
    sql, lot = CHANGES[case]
    plant = Plant(shipped.program, tmp_path)
    for end in ("", "-wal"):
        with contextlib.suppress(FileNotFoundError):
            pathlib.Path(f"{plant.db}{end}").write_bytes(pathlib.Path(f"{shipped.db}{end}").read_bytes())
    change(plant.db, sql)
    for words in PAPERS[lot]:
        done = plant.run("papers", *words, tmp_path / "made", "--no-pdf")
        assert done.status == 1 and done.err.startswith(f"hilpoven: the balance of {lot} doesn't close: "), (words, done)
        assert "no paper is made" in done.err.splitlines()[0] and not (tmp_path / "made").exists()
        assert not list(tmp_path.glob(".hilpoven.*"))


LIES = {"a lot less": "$d", "another number of steps": r"$s/^ *\([0-9]*\)/\19/", "another disposition": "s/released/rejected/", "another amount": r"$s/[0-9]*$/7/"}


@pytest.mark.parametrize("lie", LIES)
def test_a_program_that_tells_something_else_is_not_believed(shipped, tmp_path, lie):
    lied = Plant(liar(tmp_path / "liar", shipped.program, LIES[lie]), shipped.folder)
    done = lied.run("papers", "recall", "HOUSE", "W-101", tmp_path / "made", "--no-pdf")
    assert done.status == 1 and "toll tells" in done.err and done.err.count("\n") == 1, done
    assert "ACME B-1" in done.err or "HOUSE W-101" in done.err
    assert not (tmp_path / "made").exists() and sorted(os.listdir(tmp_path)) == ["liar"]


def test_a_refusal_of_what_is_not_there_names_what_is_near(shipped, tmp_path):
    for words, near in ((("recall", "ACME", "B-2"), "B-1"), (("lot", "ACNE", "B-1"), "ACME"), (("batch", "ACME", "O-1", 7), "list batches"),
                        (("certificate", "ACME", "b-1"), "lower-case"), (("statement", "ACME", "--from", "2026-11-01", "--to", "5"), "261101 is behind --to, 5")):
        done = shipped.run("papers", *words, tmp_path / "made", "--no-pdf")
        assert done.status in (1, 2) and near in done.err and not (tmp_path / "made").exists(), (words, done)
