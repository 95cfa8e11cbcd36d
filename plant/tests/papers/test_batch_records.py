"""Batch records say who did each step when, as the journal has it, and that they are provisional while the batch is open."""
import datetime
import re

import figures
import pytest
from hilpoven.cli import caller

SHEET = """key,owner,order,batch,segment,use,material,lot_owner,lot,sublot,amount,day
K22,ACME,O-1,2,1,consumed,SALT,ACME,S-1,BAY1,30,103
K23,ACME,O-1,2,2,produced,BRINE,ACME,B-2,TOTE3,90,103
K24,ACME,O-1,2,1,consumed,SALT,ACME,S-9,BAY1,30,103
"""


@pytest.fixture
def by(at_work, monkeypatch):
    """The command of an office, given by a login."""
    monkeypatch.setattr(caller, "login_number", lambda: caller.NOBODY)

    def run(login, *words):
        monkeypatch.setenv("SUDO_USER", login)
        return at_work.run(*words).status

    yield run
    monkeypatch.delenv("SUDO_USER", raising=False)


def record(plant, number, name, *options):
    """The page of a batch's record, its steps without their times, and who recorded each actual."""
    folder = plant.folder / name
    done = plant.run("papers", "batch", "ACME", "O-1", number, folder, *options)
    assert (done.status, done.err) == (0, ""), done
    steps = figures.read_csv(folder / "steps.csv") if (folder / "steps.csv").exists() else []
    now = f"{datetime.datetime.now(datetime.timezone.utc):%Y}"
    assert all(re.fullmatch(r"\d{4}-\d\d-\d\d \d\d:\d\d:\d\d", time) and time[:3] == now[:3] for time, *_ in steps)
    return (folder / "batch.html").read_text(), [tuple(step[1:]) for step in steps], {row[0]: row[-1] for row in figures.read_csv(folder / "actuals.csv")}


def test_steps_and_actuals_have_their_times_and_persons(at_work, by):
    page, steps, _ = record(at_work, 1, "before", "--no-pdf")
    assert steps == [] and "Steps" not in page and "recorded UTC" not in page
    sheet = at_work.folder / "actuals.csv"
    sheet.write_text(SHEET)
    for login, words, status in (("anna", ("open", "ACME", "O-1", "MIXER"), 0), ("anna", ("do", "ACME", "O-1", 2, "start"), 0), ("bert", ("do", "ACME", "O-1", 2, "start"), 1),
                                 ("bert", ("actual", "K21", "ACME", "O-1", 2, 1, "consumed", "SALT", "ACME", "S-1", "BAY1", 10, 103), 0),
                                 ("carl", ("actual", "K21", "ACME", "O-1", 2, 1, "consumed", "SALT", "ACME", "S-1", "BAY1", 10, 103), 0),
                                 ("<b>dora", ("import", sheet), 1), ("anna", ("void", "ACME", "K22", "--reason", "typed twice"), 0), ("bert", ("do", "ACME", "O-1", 1, "hold"), 0)):
        assert by(login, *words) == status, words
    page, steps, persons = record(at_work, 2, "open", "--no-pdf")
    assert steps == [("anna", "start"), ("anna", "void K22")]  # batch 1 was opened without the journal, so that nobody knows which one anna opened
    assert persons == {"K21": "bert", "K22": "<b>dora", "K23": "<b>dora"} and "&lt;b&gt;dora" in page and "typed twice" in page
    assert "its record is provisional" in page and "Provisional batch record O-1/2" in page
    assert by("anna", "do", "ACME", "O-1", 2, "done") == by("eve", "close", "ACME", "O-1", 2) == 0
    page, steps, _ = record(at_work, 2, "closed", "--no-pdf")
    assert steps[-2:] == [("anna", "done"), ("eve", "close")] and "rovisional" not in page


def test_the_step_that_opened_a_batch_is_known_if_the_journal_has_all_of_them(at_work, by):
    at_work.lay('> ACME POST /orders {"order":"O-2","recipe":"BRINE-10","batches":2}')
    assert by("anna", "open", "ACME", "O-2", "MIXER") == 0
    folder = at_work.folder / "made"
    assert at_work.run("papers", "batch", "ACME", "O-2", 1, folder, "--no-pdf").status == 0
    assert [row[1:] for row in figures.read_csv(folder / "steps.csv")] == [["anna", "open on MIXER"]]


@pytest.mark.parametrize("count", (21,))  # with which the signature needs another page
def test_no_signature_is_alone_on_a_page(at_work, count):
    at_work.lay("\n".join(f"actual N{number} ACME O-1 1 1 consumed SALT ACME S-1 BAY1 1 103" for number in range(count)))
    assert at_work.run("papers", "batch", "ACME", "O-1", 1, at_work.folder / "made").status == 0
    *_, last = figures.text_of_pdf(at_work.folder / "made" / "batch.pdf").rstrip("\f").split("\f")
    assert "Signature" in last and f"N{count - 1} " in last
