"""An owner's month is closed once, by a number: what is on it, what is on the next one, and who can't change that."""
import datetime
import os

import figures
import pytest
from hilpoven.core.journal.log import Journal

MADE = """
owner-add ACME ACMEKEY1
owner-add BOLT BOLTKEY1
unit-add KETTLE
material-add HOUSE WATER liter
material-add ACME SALT kg
material-add ACME BRINE kg
material-add ACME SLUDGE kg
material-add BOLT SALT kg
recipe-add ACME R 1
require ACME R 1 consumed ACME SALT 1000
require ACME R 1 consumed HOUSE WATER 300
require ACME R 1 produced ACME BRINE 950
require ACME R 1 produced ACME SLUDGE 40
receive HOUSE K1 WATER W-1 TANK 9000 250101
release W-1
receive ACME K1 SALT S-1 BAY1 90000 250101
receive BOLT K1 SALT S-1 BAY1 10000 250101
> ACME POST /lots/S-1/release
"""
BATCH = """
> ACME POST /orders {{"order":"O-{n}","recipe":"R","batches":1}}
open ACME O-{n} KETTLE
do ACME O-{n} 1 start
actual C{n} ACME O-{n} 1 1 consumed SALT ACME S-1 BAY1 {salt} {day}
actual W{n} ACME O-{n} 1 1 consumed WATER HOUSE W-1 TANK 300 {day}
actual P{n} ACME O-{n} 1 1 produced BRINE ACME B-{n} TOTE1 {brine} {day}
actual Q{n} ACME O-{n} 1 1 produced SLUDGE ACME D-{n} TOTE1 {sludge} {day}
do ACME O-{n} 1 done
"""
TABLES = ("recipes", "by_products", "products", "received", "changed", "changed_batches", "corrections", "batches", "going_on")


@pytest.fixture
def acme(plant):
    """An office with a recipe of a main product and a by-product."""
    return plant.lay(MADE)


def batch(plant, n, day, salt=1000, brine=950, sludge=40, closes=True):
    """A batch of the recipe, which is closed unless it goes on."""
    plant.lay(BATCH.format(n=n, salt=salt, brine=brine, sludge=sludge, day=day) + (f"close ACME O-{n} 1\n" if closes else ""))


def run(plant, *words):
    """What the plant's command tells, which does what it is told."""
    done = plant.run(*words)
    assert done.status == 0, (words, done)
    return done


def paper(plant, name, *words):
    """The tables of a settlement, by the names of their columns."""
    folder = plant.folder / name
    run(plant, *words, "--no-pdf", folder)
    return {table: figures.read_table(folder / f"{table}.csv") if (folder / f"{table}.csv").exists() else [] for table in TABLES}


def settle(plant, month, owner="ACME"):
    """The tables of a month that is closed."""
    return paper(plant, f"{owner}-{month}", "settle", owner, month)


def receive(plant, key, material, lot, amount, of, why="correction", owner="ACME", day=250120):
    """A receipt that is of an earlier lot."""
    run(plant, "receive", owner, key, material, lot, "BAY9", amount, day, "--of", of, "--why", why, "--yes")


def cells(rows, *names):
    """Some columns of a table."""
    return [tuple(row.get(name, "") for name in names) for row in rows]


ITEM = ("material", "standard", "actual", "share", "expected", "loss")


def test_what_is_corrected_as_the_page_says_counts_once(acme):
    """2,000 and 500 were recorded of 1,000 and 950."""
    batch(acme, 1, 250110, salt=2000, brine=500)
    receive(acme, "K20", "SALT", "S-1C", 1000, "S-1")
    receive(acme, "K21", "BRINE", "B-1C", 450, "B-1")
    tables = paper(acme, "made", "papers", "settlement", "ACME", "--from", 250101, "--to", 250131)
    assert cells(tables["recipes"], *ITEM) == [("SALT", "1000", "1000", "100.0", "1000", "0"), ("WATER", "300", "300", "100.0", "300", "0"), ("BRINE", "950", "950", "100.0", "", "")]
    assert cells(tables["recipes"], "material", "recorded", "corrected") == [("SALT", "2000", "-1000"), ("WATER", "300", "0"), ("BRINE", "500", "450")]
    assert cells(tables["received"], "material", "received", "corrected", "delivered") == [("BRINE", "450", "450", "0"), ("SALT", "91000", "1000", "90000")]
    assert cells(tables["corrections"], "key", "lot", "change", "batch", "counts") == [("K20", "S-1", "1000", "O-1/1", "less consumed"), ("K21", "B-1", "450", "O-1/1", "more made")]


def test_too_much_too_little_and_what_was_found_count_as_what_they_are(acme):
    batch(acme, 1, 250110, brine=960)
    acme.lay("receive ACME K2 SALT S-2 BAY1 500 250102\nreceive ACME K3 SALT S-3 BAY1 70 250102\nscrap ACME X1 S-3 BAY1 20 250103\n")
    run(acme, "scrap", "ACME", "CORR-1", "B-1", "TOTE1", 10, 250111)  # produced too much
    run(acme, "scrap", "ACME", "CORR-2", "S-2", "BAY1", 50, 250111)  # received too much
    run(acme, "scrap", "ACME", "X2", "B-1", "TOTE1", 5, 250111)  # a sample
    run(acme, "use", "ACME", "O-1", 1, "ACME", "S-2", "BAY1", 30, 250111, "--yes")  # consumed too little
    run(acme, "use", "ACME", "O-1", 1, "HOUSE", "W-1", "TANK", 7, 250111, "--yes")
    receive(acme, "K30", "SALT", "S-3C", 20, "S-3")  # what was scrapped is there still
    acme.lay("receive ACME K4 SALT S-4 BAY1 100 250104\n")
    receive(acme, "K31", "SALT", "S-4C", 11, "S-4")  # received too little
    tables = paper(acme, "made", "papers", "settlement", "ACME", "--from", 250101, "--to", 250131)
    assert cells(tables["recipes"], "material", "actual") == [("SALT", "1030"), ("WATER", "307"), ("BRINE", "950")]
    assert cells(tables["received"], "material", "received", "corrected", "delivered") == [("SALT", "90701", "70", "90631")]  # 20 put back, and 50 less; 11 were delivered
    assert [row["counts"] for row in tables["corrections"]] == ["less made", "less delivered", "the stock alone", "more delivered"]


def test_a_doubtful_correction_is_in_no_sum_and_no_month_is_closed_with_it(acme):
    batch(acme, 1, 250110)
    batch(acme, 2, 250111)
    receive(acme, "K20", "SALT", "S-1C", 10, "S-1")  # of which batch?
    tables = paper(acme, "made", "papers", "settlement", "ACME", "--from", 250101, "--to", 250131)
    assert cells(tables["recipes"], "material", "actual") == [("SALT", "2000"), ("WATER", "600"), ("BRINE", "1900")] and tables["corrections"][0]["counts"] == "doubtful: in no sum"
    lines = len(acme.lines())
    done = acme.run("settle", "ACME", 2501, acme.folder / "closed", "--no-pdf")
    assert done.status == 1 and "it isn't known what is corrected by ACME K20 (of lot ACME S-1)" in done.err and "note corrects OWNER KEY OF-KEY" in done.err
    assert not (acme.folder / "closed").exists() and [line["event"] for line in acme.lines()[lines:]] == ["exported"]
    run(acme, "note", "corrects", "ACME", "K20", "C2")
    closed = settle(acme, 2501)
    assert cells(closed["batches"][:8], "batch", "material", "amount")[4] == ("O-2/1", "SALT", "990") and closed["corrections"][0]["batch"] == "O-2/1"


@pytest.mark.parametrize("words, why", [
    (("ACME", "K20", "K99"), "there is no movement K99"), (("ACME", "K20", "K20"), "doesn't correct itself"), (("ACME", "C1", "K1"), "neither a receipt nor a scrap"),
    (("ACME", "K20", "P1"), "of two materials"), (("ACME", "K20", "K1", "--of-owner", "BOLT"), "of two materials"), (("ACME", "K20", "W1"), "of two materials"), (("NONE", "K20", "K1"), "there is no owner"),
    (("ACME", "K20", "V1"), "there is no movement V1 of ACME that stands")])
def test_a_correction_is_of_a_standing_movement_of_the_same_material(acme, words, why):
    batch(acme, 1, 250110, closes=False)
    receive(acme, "K20", "SALT", "S-1C", 10, "S-1")
    acme.lay("actual V1 ACME O-1 1 1 consumed SALT ACME S-1 BAY1 5 250110\nvoid ACME V1\n")
    lines = len(acme.lines())
    done = acme.run("note", "corrects", *words)
    assert done.status == 1 and why in done.err and len(acme.lines()) == lines


def test_what_comes_late_is_on_the_next_settlement_and_the_earlier_one_stays(acme):
    batch(acme, 1, 250110, brine=900)
    batch(acme, 2, 250120, closes=False)
    first = settle(acme, 2501)
    assert {row["batch"] for row in first["batches"]} == {"O-1/1"} and {row["batch"] for row in first["going_on"]} == {"O-2/1"}
    acme.lay("close ACME O-2 1\n")  # behind the closing, without another actual
    receive(acme, "K20", "BRINE", "B-1C", 38, "B-1", day=250205)  # 19/475 of 950
    batch(acme, 3, 250203, salt=1100)
    run(acme, "describe", "recipe", "ACME", "R", "--allowance", "2.0")
    second = settle(acme, 2502)
    assert sorted({(row["batch"], row.get("late", "")) for row in second["batches"]}) == [("O-2/1", "late"), ("O-3/1", "")]
    # for 38 more of 950: 40 of 1,000 SALT and 12 of 300 WATER
    assert cells(second["changed"], "settlement", "material", "actual", "expected", "loss") == [("ACME-2501-1", "SALT", "0", "40", "-40"), ("ACME-2501-1", "WATER", "0", "12", "-12"), ("ACME-2501-1", "BRINE", "38", "", "")]
    assert cells(second["changed_batches"], "settlement", "batch", "material", "amount") == [("ACME-2501-1", "O-1/1", "BRINE", "38")]
    assert cells(second["products"], "material", "product", "made", "changes") == [("BRINE", "main", "1938", "38"), ("SLUDGE", "by-product", "80", "0")]
    assert cells(second["recipes"], "material", "actual", "allowed", "above") == [("SALT", "2100", "40", "60"), ("WATER", "600", "12", "0"), ("BRINE", "1900", "", "")]
    again = acme.folder / "again"
    run(acme, "papers", "settlement", "ACME", "--month", 2501, "--no-pdf", again)
    assert {path.name: path.read_bytes() for path in again.iterdir()} == {path.name: path.read_bytes() for path in (acme.folder / "ACME-2501").iterdir()}
    acme.settle(time_zone="Pacific/Kiritimati" if datetime.datetime.now(datetime.timezone.utc).hour >= 10 else "Etc/GMT+12")  # where it is another day
    run(acme, "papers", "settlement", "ACME", "--month", 2501, "--no-pdf", acme.folder / "of-another-day")
    assert (acme.folder / "of-another-day" / "settlement.html").read_bytes() == (again / "settlement.html").read_bytes()
    page = (again / "settlement.html").read_text()
    assert "Settlement ACME-2501-1 of ACME, 2025-01" in page and "Closed on 20" in page
    third = settle(acme, 2503)
    assert not any(third.values())


def test_the_products_of_a_recipe_are_apart_and_the_main_one_may_be_named(acme):
    batch(acme, 1, 250110, brine=475, sludge=60)
    days = ("papers", "settlement", "ACME", "--from", 250101, "--to", 250131)
    tables = paper(acme, "made", *days)
    assert cells(tables["recipes"], *ITEM) == [("SALT", "1000", "1000", "100.0", "500", "500"), ("WATER", "300", "300", "100.0", "150", "150"), ("BRINE", "950", "475", "50.0", "", "")]
    assert cells(tables["by_products"], "recipe", "material", "standard", "actual", "share") == [("R", "SLUDGE", "40", "60", "150.0")]
    assert acme.run("describe", "recipe", "ACME", "R", "--product", "SALT").status == 1
    run(acme, "describe", "recipe", "ACME", "R", "--product", "SLUDGE")
    assert "product: SLUDGE" in run(acme, "describe", "recipe", "ACME", "R").out
    named = paper(acme, "named", *days)
    assert cells(named["recipes"], *ITEM)[0] == ("SALT", "1000", "1000", "100.0", "1500", "-500") and cells(named["by_products"], "material", "share") == [("BRINE", "50.0")]


def test_yield_is_without_what_was_reworked(acme):
    batch(acme, 1, 250110)
    batch(acme, 2, 250111, brine=1045)  # with 95 of the first
    run(acme, "link", "ACME", "--batch", "O-2", 1, "B-1", "--why", "rework", "--amount", 95)
    tables = paper(acme, "made", "papers", "settlement", "ACME", "--from", 250111, "--to", 250111)
    assert cells(tables["recipes"], "material", "recorded", "reworked", "actual", "share", "expected")[2] == ("BRINE", "1045", "-95", "950", "100.0", "")
    assert cells(tables["products"], "material", "produced", "reworked", "made")[0] == ("BRINE", "1045", "95", "950")


def test_amounts_and_percents_are_rounded_to_the_nearest_and_halves_up(acme):
    """Half of what is required is made, so that for what was made are 0.5 LIME, 16 WATER and 500 SALT."""
    acme.lay("material-add ACME LIME kg\nreceive ACME K5 LIME L-1 BAY1 50 250102\n> ACME POST /lots/L-1/release\nrecipe-add ACME H 1\nrequire ACME H 1 consumed ACME LIME 1\n"
             "require ACME H 1 consumed HOUSE WATER 32\nrequire ACME H 1 consumed ACME SALT 1000\nrequire ACME H 1 produced ACME BRINE 2\nrequire ACME H 1 produced ACME SLUDGE 400\n"
             '> ACME POST /orders {"order":"H-1","recipe":"H","batches":1}\nopen ACME H-1 KETTLE\ndo ACME H-1 1 start\n'
             "actual H1 ACME H-1 1 1 consumed LIME ACME L-1 BAY1 3 250110\nactual H2 ACME H-1 1 1 consumed WATER HOUSE W-1 TANK 13 250110\nactual H3 ACME H-1 1 1 consumed SALT ACME S-1 BAY1 502 250110\n"
             "actual H4 ACME H-1 1 1 produced BRINE ACME H-B TOTE1 1 250110\nactual H5 ACME H-1 1 1 produced SLUDGE ACME H-D TOTE1 49 250110\ndo ACME H-1 1 done\nclose ACME H-1 1\n")
    run(acme, "describe", "recipe", "ACME", "H", "--allowance", "0.1", "--product", "BRINE")
    tables = paper(acme, "made", "papers", "settlement", "ACME", "--from", 250110, "--to", 250110)
    # 0.5 is 1; 0.1 % of 500 is 0.5, which is 1; -3 of 16 is -18.75 %, which is -18.7; 49 of 400 is 12.25 %, which is 12.3; 13 of 32 is 40.625 %
    assert cells(tables["recipes"], "material", "share", "expected", "loss", "loss_share", "allowed", "above") == [
        ("LIME", "300.0", "1", "2", "200.0", "0", "2"), ("SALT", "50.2", "500", "2", "0.4", "1", "1"), ("WATER", "40.6", "16", "-3", "-18.7", "0", "0"), ("BRINE", "50.0", "", "", "", "", "")]
    assert cells(tables["by_products"], "material", "share") == [("SLUDGE", "12.3")]


def test_a_month_is_closed_once_and_in_its_order(acme):
    batch(acme, 1, 250110)
    settle(acme, 2502)
    lines, content = len(acme.lines()), acme.content()
    for month, why in ((2502, "2025-02 of ACME is closed: ACME-2502-1, by "), (2501, "2025-01 of ACME isn't closed, and 2025-02 is: by ACME-2502-1")):
        done = acme.run("settle", "ACME", month, acme.folder / "other", "--no-pdf")
        assert done.status == 1 and why in done.err and not (acme.folder / "other").exists()
    assert acme.run("papers", "settlement", "ACME", "--month", 2501, acme.folder / "other", "--no-pdf").status == 1
    for month in ("2513", "2500", "0000", "250", "25011", "-2501", "٢٥٠١", "2501 ", "NOV", ""):
        assert acme.run("settle", "--no-pdf", "--", "ACME", month, acme.folder / "other").status == 2, month
    assert "2099-12 isn't over" in acme.run("settle", "ACME", "9912", acme.folder / "other", "--no-pdf").err
    assert acme.run("settle", "ACM", 2503, acme.folder / "other", "--no-pdf").status == 1 and acme.run("settle", "acme", 2503, acme.folder / "other", "--no-pdf").status == 2
    assert [line["event"] for line in acme.lines()[lines:]].count("note") == 0 and acme.content() == content


def test_the_last_closing_may_be_taken_back_and_the_month_gets_another_number(acme):
    batch(acme, 1, 250110)
    settle(acme, "2025-01")
    settle(acme, 2502)
    names = [line["id"] for line in acme.lines() if line["event"] == "note"]
    done = acme.run("note", "withdraw", names[0], "--reason", "wrong")
    assert done.status == 1 and "settlement ACME-2501-1 isn't the last one of ACME: ACME-2502-1 is" in done.err
    for name in names[::-1]:
        run(acme, "note", "withdraw", name, "--reason", "an allowance was missing")
        done = acme.run("note", "withdraw", acme.lines()[-1]["id"], "--reason", "no")
        assert done.status == 1 and "a settlement that was taken back stays so" in done.err
    run(acme, "describe", "recipe", "ACME", "R", "--allowance", "1.0")
    again = paper(acme, "again", "settle", "ACME", 2501)
    assert {row["batch"] for row in again["batches"]} == {"O-1/1"} and "ACME-2501-2" in (acme.folder / "again" / "settlement.html").read_text() and again["changed"] == []


def test_of_many_who_close_a_month_at_once_one_does(acme):
    batch(acme, 1, 250110)
    begun = [acme.begun("settle", "ACME", "2501", acme.folder / f"by-{number}", "--no-pdf") for number in range(5)]
    outcomes = [(process.communicate(timeout=120), process.returncode) for process in begun]
    assert sorted(status for _, status in outcomes) == [0, 1, 1, 1, 1], outcomes
    assert [line["notes"][0]["number"] for line in acme.lines() if line["event"] == "note"] == ["ACME-2501-1"]
    assert len(list(acme.folder.glob("by-*"))) == 1


def test_a_second_note_of_a_month_counts_for_nothing(acme):
    """Such as one that stands in a journal which somebody put together."""
    batch(acme, 1, 250110)
    settle(acme, 2501)
    note = next(line for line in acme.lines() if line["event"] == "note")["notes"][0]
    Journal(str(acme.journal), str(acme.db)).note(str(acme.db), ["settle"], notes=[{**note, "number": "ACME-2501-9", "batches": []}])
    for crafted in ({**note, "month": 2513}, {**note, "batches": [["x", "O-1", 1]]}, {**note, "tables": [["recipes", ["a"], [[{}]]]]}, {**note, "recipes": [["R", "", 99_999]]}, {**note, "month": True}):
        Journal(str(acme.journal), str(acme.db)).note(str(acme.db), ["settle"], notes=[crafted])
    assert "is closed: ACME-2501-1" in acme.run("settle", "ACME", 2501, acme.folder / "other", "--no-pdf").err
    assert settle(acme, 2502)["batches"] == []
    assert "5 notes that cannot be read" in acme.run("verify").out


def test_behind_a_restore_lost_batches_are_recorded_again_first(acme):
    acme.settle()
    batch(acme, 1, 250110)
    run(acme, "backup")
    batch(acme, 2, 250111, salt=1010)
    settle(acme, 2501)
    backup, = (acme.folder / "backups").glob("*.db")
    run(acme, "restore", backup)
    done = acme.run("settle", "ACME", 2502, acme.folder / "other", "--no-pdf")
    assert done.status == 1 and "settlement ACME-2501-1 has batch O-2/1, which isn't closed in the office now" in done.err
    batch(acme, 2, 250111, salt=1020)  # what was lost is recorded again, otherwise
    second = settle(acme, 2502)
    assert second["batches"] == [] and cells(second["changed_batches"], "batch", "material", "amount") == [("O-2/1", "SALT", "10")]
    again = acme.folder / "again"
    run(acme, "papers", "settlement", "ACME", "--month", 2501, "--no-pdf", again)
    assert (again / "batches.csv").read_bytes() == (acme.folder / "ACME-2501" / "batches.csv").read_bytes()


def test_a_closing_goes_on_in_the_next_file(acme):
    batch(acme, 1, 250110)
    settle(acme, 2501)
    batch(acme, 2, 250115)
    run(acme, "carry-over", "--day", 250116)
    batch(acme, 3, 250120)
    second = settle(acme, 2502)
    assert [(row["batch"], row["late"]) for row in second["batches"]][::4] == [("O-2/1", "late"), ("O-3/1", "late")] and second["changed"] == []
    note = [line for line in acme.lines() if line["event"] == "note"][-1]
    assert note["notes"][0]["batches"] == [[1, "O-2", 1], [2, "O-3", 1]] and note["after"] == "office-1.db"


def test_a_paper_of_an_owner_has_nothing_of_others_corrections(acme):
    batch(acme, 1, 250110)
    receive(acme, "HK9", "WATER", "W-1SECRET", 20, "W-1", owner="HOUSE")
    receive(acme, "BK9", "SALT", "BSECRET", 20, "S-1", owner="BOLT")
    closed = settle(acme, 2501)
    assert cells(closed["corrections"], "key", "source", "lot", "change", "batch", "counts") == [("", "HOUSE", "W-1", "20", "O-1/1", "less consumed")]
    texts = [path.read_text() for path in (acme.folder / "ACME-2501").iterdir()]
    assert not any("SECRET" in text or "HK9" in text or "BOLT" in text for text in texts) and cells(closed["recipes"], "material", "actual")[1] == ("WATER", "280")


def test_a_closing_whose_paper_can_t_be_written_stands_and_its_paper_is_made_later(acme):
    batch(acme, 1, 250110)
    (acme.folder / "there").mkdir()
    assert acme.run("settle", "ACME", 2501, acme.folder / "there", "--no-pdf").status != 0 and [line for line in acme.lines() if line["event"] == "note"] == []
    acme.settle()
    done = acme.as_member("settle", "ACME", "2501", str(acme.folder / "by-member"))
    assert done.status == 2 and not os.path.exists(acme.folder / "by-member") and [line for line in acme.lines() if line["event"] == "note"] == []
