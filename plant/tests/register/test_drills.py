"""Drills: one at a time, by the journal's clock; the paper says what was found, where all of each lot is, who has it and who did what."""
import contextlib
import hashlib
import html
import io
import json
import pathlib
import sqlite3
import tarfile

import pytest
from conftest import Plant, command
from hilpoven.model.register import file
from lying import liar
from notes import register_of
from test_week import REACHED, table
from week import PREPARED, WEEK, lived

START = ["drill", "start", "ACME", "B-1"]


def under_way(plant: Plant) -> bool:
    """Whether `status` tells of a drill."""
    return "drill: one over lot ACME B-1 is under way, begun by " in plant.run("status").out


def refused(plant: Plant, *words: object, status: int = 1) -> str:
    """Why a command does nothing."""
    lines = plant.lines()
    done = plant.run(*words)
    assert (done.status, done.out) == (status, "") and plant.lines() == lines, done
    return done.err


def test_a_drill_begins_is_under_way_and_ends_by_the_clock_of_the_journal(settled):
    assert "\ndrill: " not in settled.run("status").out and not settled.journal.exists()
    begun = settled.run(*START)
    assert begun.status == 0 and under_way(settled)
    ended = settled.run("drill", "end", settled.folder / "made", "--no-pdf")
    first, last, exported = settled.lines()
    assert [entry["event"] for entry in (first, last, exported)] == ["note", "note", "exported"] and first["words"] == START
    moments = [f"{entry['time'][:19].replace('T', ' ')} UTC" for entry in (first, last)]
    assert begun.out == f"the drill over lot ACME B-1 began on {moments[0]}\n" and ended.out.startswith("the drill over lot ACME B-1 took 0:00:0")
    page = (settled.folder / "made" / "drill.html").read_text()
    assert all(f"<dd>{moment}</dd>" in page for moment in moments) and not under_way(settled)


@pytest.mark.parametrize("words, why", [
    ("start ACME S-1", "a drill over lot ACME B-1 is under way, begun by"), ("start S-1", "`hilpoven drill end --cancel` makes it none"),
    ("start ACME B-9", "there is no lot B-9 of ACME\n  Nearest of the lots of ACME: B-1"), ("start B-9", "there is no lot B-9 of any owner"),
    ("paper made --no-pdf", "no drill has ended"),
])
def test_what_can_t_be_is_refused_while_a_drill_is_under_way(settled, words, why):
    assert settled.run(*START).status == 0
    assert why in refused(settled, "drill", *words.split()) and under_way(settled)


@pytest.mark.parametrize("words", ["end", "end made --tar", "end made --cancel", "end made --reason none", "end --tar --cancel", "start ACME B-1 B-2", "start",
                                   "end --cancel --reason \x1b[2J"])
def test_a_wrong_use_stops_no_clock(settled, words):
    assert settled.run(*START).status == 0
    refused(settled, "drill", *words.split(" "), status=2)
    assert under_way(settled)


def test_a_paper_that_has_no_place_stops_no_clock(settled):
    (settled.folder / "made").mkdir()
    assert settled.run(*START).status == 0
    for folder, status in ((settled.folder / "made", 2), (settled.folder / "none" / "made", 2)):
        refused(settled, "drill", "end", folder, "--no-pdf", status=status)
    assert under_way(settled)


def test_a_lot_s_name_alone_starts_a_drill_where_one_owner_has_it(settled):
    assert settled.toll("receive", "HOUSE", "K9", "WATER", "B-1", "TANK", 5, 103).out == "accepted\n"
    assert "ACME and HOUSE have a lot B-1: say whose" in refused(settled, "drill", "start", "B-1")
    assert settled.run("drill", "start", "P-1").out.startswith("the drill over lot BOLT P-1 began on ")


def test_a_drill_that_is_cancelled_was_none(settled):
    assert "no drill is under way" in refused(settled, "drill", "end", "--cancel")
    assert settled.run(*START).status == 0
    assert settled.run("drill", "end", "--cancel", "--reason", "a real one began").out == "the drill over lot ACME B-1 is cancelled\n"
    assert not under_way(settled) and "no: withdrawn: a real one began" in settled.run("note", "list").out
    assert "no drill is under way" in refused(settled, "drill", "end", "made", "--no-pdf")
    assert settled.run(*START).status == 0 and under_way(settled)


def test_a_drill_whose_end_is_withdrawn_goes_on_and_one_whose_begin_is_was_none(settled):
    assert settled.run(*START).status == settled.run("drill", "end", settled.folder / "made", "--no-pdf").status == 0
    first, last = (entry["id"] for entry in settled.lines()[:2])
    assert settled.run("note", "withdraw", last, "--reason", "not all was found").status == 0 and under_way(settled)
    assert "is under way" in refused(settled, *START)
    assert settled.run("note", "withdraw", first, "--reason", "a try").status == 0 and not under_way(settled)
    assert "no drill has ended" in refused(settled, "drill", "paper", settled.folder / "again", "--no-pdf")


def test_of_drills_that_begin_at_once_one_does(settled):
    begun = [settled.begun(*START) for _ in range(6)]
    ended = [(*process.communicate(), process.returncode) for process in begun]
    assert sorted(status for *_, status in ended) == [0, 1, 1, 1, 1, 1], ended
    assert all("is under way, begun by" in error for _, error, status in ended if status) and under_way(settled)
    assert settled.run("drill", "end", settled.folder / "made", "--no-pdf").status == 0 and not under_way(settled)


def test_a_paper_that_fails_is_made_again(settled):
    assert settled.run(*START).status == 0
    lied = Plant(liar(settled.folder / "liar", settled.program, "s/quarantined/rejected   /"), settled.folder)
    failed = lied.run("drill", "end", settled.folder / "made", "--no-pdf")
    assert failed.status and "`hilpoven drill paper` makes the paper of a drill that ended" in failed.err, failed
    assert not (settled.folder / "made").exists() and not under_way(settled)
    for words in ([], ["--of", settled.lines()[0]["id"]]):
        done = settled.run("drill", "paper", settled.folder / f"made-{len(words)}", "--no-pdf", *words)
        assert done.status == 0 and (settled.folder / f"made-{len(words)}" / "masses.csv").exists(), done
    assert "no drill that began with note 0123" in refused(settled, "drill", "paper", settled.folder / "x", "--no-pdf", "--of", "0123")


def test_a_member_gets_the_paper_by_standard_output_and_names_no_path(settled):
    settled.settle()
    assert settled.as_member(*START).status == 0
    for word in ("end", "paper"):
        done = settled.as_member("drill", word, settled.folder / "made", "--no-pdf")
        assert done.status == 2 and done.err.startswith("hilpoven: FOLDER") and not (settled.folder / "made").exists(), done
    assert under_way(settled)
    assert settled.as_member("drill", "end", "--tar", "--no-pdf").status == 0
    assert [entry["login"] for entry in settled.lines()] == ["anna", "anna", "anna"] and not under_way(settled)


def test_the_tar_is_a_folder_of_the_drill_s_name(settled):
    assert settled.run(*START).status == 0
    done = command("--db", settled.db, "drill", "end", "--tar", "--no-pdf", text=False)
    name = f"drill-ACME-B-1-{settled.lines()[0]['id']}"
    with tarfile.open(fileobj=io.BytesIO(done.stdout)) as tar:
        assert f"{name}/drill.html" in tar.getnames() and b" took 0:00:0" in done.stderr


def test_a_clock_that_was_set_back_and_a_time_that_is_none_are_told(settled):
    assert settled.run(*START).status == settled.run("drill", "end", settled.folder / "made", "--no-pdf").status == 0
    for time in ("9999-01-01T00:00:00.000Z", "\x1b[2J"):
        lines, before = settled.lines(), "0" * 64
        lines[0]["time"] = time
        text = []
        for line in lines:
            text.append(json.dumps({**line, "before": before}))
            before = hashlib.sha256(text[-1].encode()).hexdigest()
        settled.journal.write_text("".join(f"{entry}\n" for entry in text))
        pathlib.Path(file.path_of(str(settled.db))).unlink(missing_ok=True)
        folder = settled.folder / f"made-{len(time)}"
        assert settled.run("drill", "paper", folder, "--no-pdf").status == 0
        page = (folder / "drill.html").read_text()
        assert "unknown: the clock" in page and "\x1b" not in page


@pytest.fixture(scope="module")
def drilled(program, tmp_path_factory) -> Plant:
    """The office behind the week, over which a drill was held."""
    plant = lived(Plant(program, tmp_path_factory.mktemp("drilled")), PREPARED + WEEK)
    for words in (["drill", "start", "C-2611-07"], ["unit-add", "PRESS"], ["papers", "recall", "ACME", "C-2611-07", plant.folder / "recall", "--no-pdf"],
                  ["note", "movement", "ACME", "S2", "--document", "LS 4713"], ["drill", "end", plant.folder / "drill", "--no-pdf"], ["unit-add", "MILL"]):
        assert plant.run(*words).status == 0, words
    return plant


def test_the_paper_has_each_lot_of_the_recall_with_its_mark(drilled):
    rows = table(drilled.folder / "drill" / "found.csv")
    assert {row["lot"]: row["noted"] for row in rows} == {"C-2611-07": "", "BU-0001": "", "BU-0002": "", **dict.fromkeys(REACHED["ACME", "C-2611-07"], "*")}
    marked = {row["lot"]: (int(row["steps"]), row["disposition"], int(row["on_hand"]), int(row["shipped"])) for row in rows if row["noted"]}
    assert marked == REACHED["ACME", "C-2611-07"]




def test_the_masses_are_those_of_the_tables_in_amounts_and_percent(drilled):
    with contextlib.closing(sqlite3.connect(f"file:{drilled.db}?mode=ro", uri=True)) as base:
        for row in table(drilled.folder / "drill" / "masses.csv"):
            lot = row["owner"], row["lot"]
            came, = base.execute("SELECT sum(amount) FROM moves WHERE lot_owner = ? AND lot = ? AND kind IN (0, 5)", lot).fetchone()
            kinds = dict(base.execute("SELECT kind, sum(amount) FROM moves WHERE lot_owner = ? AND lot = ? GROUP BY kind", lot).fetchall())
            on_hand, = base.execute("SELECT sum(amount) FROM sublots WHERE owner = ? AND lot = ?", lot).fetchone()
            parts = [int(row[name]) for name in ("on_hand", "in_products", "shipped", "scrapped")]
            assert int(row["came_in"]) == came == sum(parts) and parts[0] == on_hand and set(parts[1:]) <= {0, *kinds.values()}, row
            shares = [float(row[f"{name}_share"]) for name in ("on_hand", "in_products", "shipped", "scrapped")]
            assert shares == [1000 * part // came / 10 for part in parts] and row["accounted"] == "100.0"
    onward = {row["lot"]: row["noted_onward"] for row in table(drilled.folder / "drill" / "masses.csv") if row["noted_onward"]}
    assert onward == {"BU-0001": "ACME BU-0001C (correction) *, ACME BU-0001R (return) *", "BU-0002": "ACME BU-0002-RW (rework) *"}


def test_the_paper_says_who_has_it_and_who_did_what_between_begin_and_end(drilled):
    folder = drilled.folder / "drill"
    amounts = [(row["noted_contact"], row["lot"], row["amount"]) for row in table(folder / "recipients.csv")]
    assert amounts == [("Mr Frei", "BU-0001", "300"), ("Mr Frei", "BU-0003", "905"), ("Ms Lund", "BU-0001", "650")]
    page = html.unescape((folder / "drill.html").read_text())
    assert 'class="alarm"' not in page and "Nord Foods Ltd" in page
    done = [(row["noted_what"].partition(";")[0], row["answer"]) for row in table(folder / "done.csv")]
    assert done == [("drill start ACME C-2611-07", "noted"), ("unit-add PRESS", "accepted"), ("papers recall-ACME-C-2611-07", "noted"),
                    ("note movement ACME S2 --document LS 4713", "noted"), ("drill end", "noted")]


def test_shipments_that_nobody_is_noted_to_have_are_an_alarm(program, tmp_path):
    plant = lived(Plant(program, tmp_path), PREPARED + WEEK.replace(" --to ALP", ""))
    assert plant.run("drill", "start", "C-2611-07").status == plant.run("drill", "end", tmp_path / "drill", "--no-pdf").status == 0
    assert [(row["key"], row["amount"]) for row in table(tmp_path / "drill" / "without_recipient.csv")] == [("S2", "300"), ("S3", "905")]
    assert "Nobody noted who has 2 of 3 shipments" in (tmp_path / "drill" / "drill.html").read_text()


def test_of_a_drill_that_was_forgotten_the_page_says_who_did_how_much(settled):
    assert settled.run(*START).status == 0
    sheet = settled.folder / "results.csv"
    sheet.write_text("owner,lot,test,value,day\n" + "".join(f"ACME,B-1,PH,{value % 9},{103 + value}\n" for value in range(210)))
    assert settled.run("import", "--what", "results", sheet).status == 0
    assert settled.run("drill", "end", settled.folder / "made").status == 0
    rows = table(settled.folder / "made" / "done.csv")
    page = (settled.folder / "made" / "drill.html").read_text()
    assert len(rows) > 200 and f"<p>{len(rows):,} lines: {rows[0]['noted_who']} {len(rows):,}. The file done.csv has all of them.</p>" in page
    assert (settled.folder / "made" / "drill.pdf").stat().st_size > 1_000


def test_a_drill_goes_on_over_a_carry_over(program, tmp_path):
    plant = lived(Plant(program, tmp_path), PREPARED + WEEK)
    assert plant.run("drill", "start", "C-2611-07").status == 0
    assert plant.run("carry-over", tmp_path / "next.db", "--day", 261130).status == 0
    assert plant.run("drill", "end", tmp_path / "drill", "--no-pdf").status == 0
    rows = table(tmp_path / "drill" / "found.csv")
    assert {row["lot"]: int(row["shipped"]) for row in rows if int(row["shipped"])} == {"BU-0001": 950, "BU-0003": 905}
    assert any(row["noted_what"].startswith("carry-over") for row in table(tmp_path / "drill" / "done.csv"))


def test_a_drill_is_no_note_of_a_lot(settled):
    before = settled.run("recall", "ACME", "B-1").out, settled.run("show", "lot", "ACME", "B-1").out
    assert settled.run(*START).status == 0
    assert (settled.run("recall", "ACME", "B-1").out, settled.run("show", "lot", "ACME", "B-1").out) == before
    register = register_of(settled)
    assert not (register.links or register.parties or register.facts or register.not_linked)
