"""A stock count: its sheet, what of it is recorded, each difference once, and what is refused of it."""
import csv
import io
import subprocess

import openpyxl
import pytest
from conftest import HILPOVEN, Plant, copied

SUBLOTS = 400
HEADER = "owner,lot,sublot,material,measure,disposition,on_hand,counted,reason,day"


@pytest.fixture(scope="module")
def full(program, tmp_path_factory) -> Plant:
    """An office with 400 sublots that hold something, of two owners and HOUSE, and some that hold nothing."""
    lines = ["owner-add ACME ACMEKEY1", "owner-add BOLT BOLTKEY1"]
    for owner in ("HOUSE", "ACME", "BOLT"):
        lines += [f"material-add {owner} SALT kg"]
        lines += [f"receive {owner} K{number} SALT L-{number // 4} S{number} {100 + number} 101" for number in range(134 if owner == "HOUSE" else 133)]
    lines += ["receive ACME K900 SALT L-0 EMPTY 5 101", "scrap ACME K901 L-0 EMPTY 5 101", "> ACME POST /lots/L-7/release"]
    return Plant(program, tmp_path_factory.mktemp("full")).lay("\n".join(lines))


@pytest.fixture
def office(full, plant, monkeypatch) -> Plant:
    """A copy of it."""
    monkeypatch.setenv("TOLL", full.program)
    return copied(full, plant)


def rows_of(text: str) -> list[dict[str, str]]:
    """The rows of a sheet, names without the formulas around them."""
    return [{name: cell[2:-1] if cell[:2] == '="' else cell for name, cell in row.items()} for row in csv.DictReader(io.StringIO(text))]


def sheet_with(text: str, counts: dict[tuple[str, str, str], tuple[object, str]]) -> str:
    """The sheet with what was counted of some sublots and why, and of all others what is on hand."""
    rows = list(csv.reader(io.StringIO(text)))
    for row in rows[1:]:
        row[7], row[8] = map(str, counts.get(tuple(cell[2:-1] for cell in row[:3]), (row[6], "")))
    out = io.StringIO()
    csv.writer(out).writerows(rows)
    return out.getvalue()


COUNTS = {("ACME", "L-0", "S0"): (93, "spilled"), ("ACME", "L-7", "S28"): (130, "found behind BAY3"), ("ACME", "L-7", "S29"): (0, "gone, stolen"),
          ("BOLT", "L-1", "S4"): (105, "scale was off"), ("HOUSE", "L-33", "S133"): (1, "drum leaked"), ("HOUSE", "L-2", "S8"): (109, "not booked"),
          ("BOLT", "L-32", "S128"): (200, "=HYPERLINK(1)")}


def test_a_sheet_has_each_sublot_that_holds_something(office):
    done = office.run("count", "sheet", "--day", "2026-11-20")
    rows = rows_of(done.out)
    assert done.out.splitlines()[0] == HEADER and len(rows) == SUBLOTS
    assert {(row["owner"], row["lot"], row["sublot"], int(row["on_hand"])) for row in rows} == set(office.rows("SELECT owner, lot, sublot, amount FROM sublots WHERE amount > 0"))
    assert {row["day"] for row in rows} == {"261120"} and {row["counted"] + row["reason"] for row in rows} == {""}
    assert {row["owner"] for row in rows_of(office.run("count", "sheet", "ACME").out)} == {"ACME"}
    assert office.run("count", "sheet", "ACNE").status == 1 and "Nearest" in office.run("count", "sheet", "ACNE").err
    assert office.run("count", "sheet", "--material", "SUGAR").err == "hilpoven: nothing is on hand\n"


def test_a_count_of_400_sublots_with_7_differences_closes(office):
    blank = office.run("count", "sheet", "--day", "261120").out
    sheet = sheet_with(blank, COUNTS)
    done = office.run("count", "import", "-", "--check", stdin=sheet)
    assert (done.status, done.out.splitlines()[-1]) == (0, "400 sublots: 7 differ, 393 as on hand, 0 there already, 0 not counted, 0 refused") and len(done.out.splitlines()) == 8
    assert office.lines() == []
    done = office.run("count", "import", "-", stdin=sheet)
    assert (done.status, done.err) == (0, "") and done.out.splitlines()[-1] == "400 sublots: 393 as on hand, 0 there already, 7 recorded, 0 not counted, 0 refused"
    recorded = office.rows("SELECT owner, kind, lot, sublot, amount, day FROM moves WHERE mkey LIKE 'COUNT-%' ORDER BY rowid")
    assert sorted(recorded) == sorted([
        ("ACME", 3, "L-0", "S0", 7, 261120), ("ACME", 0, "L-7-C", "S28", 2, 261120), ("ACME", 3, "L-7", "S29", 129, 261120), ("BOLT", 0, "L-1-C", "S4", 1, 261120),
        ("BOLT", 3, "L-32", "S128", 28, 261120), ("HOUSE", 0, "L-2-C", "S8", 1, 261120), ("HOUSE", 3, "L-33", "S133", 232, 261120)])
    noted = [note for line in office.lines() for note in line.get("notes", [])]
    assert sorted(note["reason"] for note in noted) == sorted(reason for _, reason in COUNTS.values())
    assert [(note["owner"], note["lot"], note["of_lot"], note["why"]) for note in noted if note["kind"] == "link"] == [
        (owner, f"{lot}-C", lot, "correction") for owner, lot in (("ACME", "L-7"), ("BOLT", "L-1"), ("HOUSE", "L-2"))]
    again = office.run("count", "import", "-", stdin=sheet)
    assert (again.status, again.out) == (0, "400 sublots: 393 as on hand, 7 there already, 0 recorded, 0 not counted, 0 refused\n")
    fresh = office.run("count", "sheet", "--day", "261121").out
    assert len(rows_of(fresh)) == SUBLOTS - 1 + 3
    done = office.run("count", "import", "-", stdin=sheet_with(fresh, {}))
    assert (done.status, done.out) == (0, "402 sublots: 402 as on hand, 0 there already, 0 recorded, 0 not counted, 0 refused\n")
    assert office.run("verify").out.startswith("file: sound")


def test_a_workbook_is_read_back_as_it_was_made(office):
    path = office.folder / "count.xlsx"
    with open(path, "wb") as file:
        subprocess.run([HILPOVEN, "--db", office.db, "count", "sheet", "BOLT", "--day", "261120", "--xlsx"], stdout=file, check=True)
    book = openpyxl.load_workbook(path)
    sheet = book.active
    assert [cell.value for cell in sheet[1]] == HEADER.split(",") and sheet.max_row == 134
    assert all(cell.number_format == "@" and isinstance(cell.value, (str, type(None))) for row in sheet.iter_rows(min_row=2) for cell in row)
    for row in sheet.iter_rows(min_row=2):
        row[7].value = row[6].value
    sheet["H2"].value, sheet["I2"].value = "90", "wet"
    book.save(path)
    done = office.run("count", "import", path)
    assert done.out.splitlines()[-1] == "133 sublots: 132 as on hand, 0 there already, 1 recorded, 0 not counted, 0 refused" and done.status == 0
    assert office.rows("SELECT owner, kind, amount, day FROM moves WHERE mkey LIKE 'COUNT-%'") == [("BOLT", 3, 10, 261120)]


def one(_: Plant | None, **cells: object) -> str:
    """A sheet of one sublot with these cells."""
    row = {"owner": "ACME", "lot": "L-0", "sublot": "S0", "on_hand": 100, "counted": 93, "reason": "wet", "day": 261120, **cells}
    out = io.StringIO()
    writer = csv.DictWriter(out, row)
    writer.writeheader()
    writer.writerow(row)
    return out.getvalue()


@pytest.mark.parametrize("cells, why", [
    ({"on_hand": 99}, "100 is on hand now, and 99 was when the sheet was made: count it again"), ({"reason": ""}, "a difference needs a reason"),
    ({"lot": "L-99"}, "there is no lot ACME L-99"), ({"owner": "ACNE"}, "there is no lot ACNE L-0"), ({"counted": "-1"}, "no whole number"), ({"counted": "9,3"}, "no whole number"),
    ({"counted": "1e2"}, "no whole number"), ({"reason": "a\nb"}, "it has"), ({"reason": "x" * 201}, "it has 201 letters"), ({"lot": "L-0;"}, "is no name"), ({"on_hand": ""}, "it is empty"),
    ({"day": ""}, "it is empty"), ({"sublot": "S9999"}, "0 is on hand now, and 100 was"), ({"reason": "\x1b[2J"}, "it has")])
def test_what_cannot_be_recorded_is_refused_by_its_row(office, cells, why):
    done = office.run("count", "import", "-", stdin=one(office, **cells))
    assert done.status == 1 and why in done.out and done.out.startswith("row 2") and "\x1b" not in done.out, done
    assert office.rows("SELECT count(*) FROM moves WHERE mkey LIKE 'COUNT-%'") == [(0,)]


def test_what_was_not_counted_is_told_and_changes_nothing(office):
    done = office.run("count", "import", "-", stdin=one(office, counted="", reason=""))
    assert done.status == 0 and done.out == "1 sublot: 0 as on hand, 0 there already, 0 recorded, 1 not counted, 0 refused\n"
    assert done.err.startswith("not in the sheet, and not empty: 132 sublots: ACME L-0 S1, ACME L-0 S2, ")
    twice = one(office) + one(office).splitlines()[1] + "\n"
    assert "it is in a row before this one, too" in office.run("count", "import", "-", stdin=twice).out


def test_what_was_found_without_a_sublot_and_names_that_are_full(office):
    office.lay("receive ACME K950 SALT LOTOFSIXTEENLETT S1 10 101\nreceive ACME K951 SALT L-0-C S1 10 101")
    done = office.run("count", "import", "-", stdin=one(office, sublot="FOUND", on_hand=0, counted=25, reason="under the stairs"))
    assert done.status == 0 and "receive 25 into L-0-C2" in done.out, done
    done = office.run("count", "import", "-", stdin=one(office, lot="LOTOFSIXTEENLETT", sublot="S1", on_hand=10, counted=11))
    assert done.status == 0
    (key, lot), = office.rows("SELECT mkey, lot FROM moves WHERE amount = 1 AND mkey LIKE 'COUNT-%'")
    assert key == lot  # no shorter name is free


def test_a_member_counts_by_standard_input_and_names_no_path(office):
    office.settle()
    assert office.as_member("count", "sheet", "ACME").out.startswith(HEADER)
    assert office.as_member("count", "import", office.folder / "x.csv").status == 2
    assert office.as_member("count", "import", "/dev/stdin").status == 2
    done = office.as_member("count", "import", "-", stdin=one(office))
    assert done.status == 0 and "accepted" in done.out, done


def test_a_crash_between_two_differences_records_none_twice(office):
    sheet = sheet_with(office.run("count", "sheet", "--day", "261120").out, COUNTS)
    journal = office.journal
    assert office.run("count", "import", "-", stdin=sheet).status == 0
    answers = [line for line in journal.read_text().splitlines() if '"event": "told"' in line]
    assert len(answers) == 7
    kept = [line for line in journal.read_text().splitlines() if line not in answers[3:]]
    journal.write_text("\n".join(kept) + "\n")  # as if it had been killed behind toll and before the answers were noted
    assert office.run("count", "import", "-", stdin=sheet).out.startswith("400 sublots: 393 as on hand, 7 there already")
    assert len(office.rows("SELECT 1 FROM moves WHERE mkey LIKE 'COUNT-%'")) == 7


# What was found before

PILE = {"owner": "ACME", "lot": "L-0", "sublot": "S0", "on_hand": 100, "reason": "weighed", "day": 261121}


def pile(*rows: dict[str, object]) -> str:
    """A sheet of these rows, each of which is that of the pile with these cells."""
    head, *_ = one(None, **PILE).splitlines()
    return "\n".join([head, *(one(None, **{**PILE, **row}).splitlines()[1] for row in rows)]) + "\n"


@pytest.fixture
def recounted(office) -> Plant:
    """An office in which a count found 5 more of L-0 in S0."""
    done = office.run("count", "import", "-", stdin=one(office, counted=105, reason="weighed"))
    assert "receive 5 into L-0-C): accepted" in done.out
    return office


def on_hand(office: Plant) -> dict[str, int]:
    """What the pile consists of."""
    return dict(office.rows("SELECT lot, amount FROM sublots WHERE owner = 'ACME' AND sublot = 'S0' AND amount > 0 AND lot LIKE 'L-0%'"))


def counts(office: Plant, *rows: dict[str, object]) -> list[str]:
    """What the rows of a sheet of the pile come to, which is recorded; and nothing of it once more, by the same sheet."""
    sheet = pile(*rows)
    done, after = office.run("count", "import", "-", stdin=sheet), on_hand(office)
    again = office.run("count", "import", "-", stdin=sheet)
    assert again.status == 0 and "0 recorded" in again.out and on_hand(office) == after, again
    return done.out.splitlines()


def test_the_next_count_of_a_pile_finds_nothing(recounted):
    fresh = recounted.run("count", "sheet", "ACME", "--day", "261121").out
    sheet = sheet_with(fresh, {("ACME", "L-0", "S0"): (105, "weighed again"), ("ACME", "L-0-C", "S0"): ("", "")})
    before = recounted.content()
    done = recounted.run("count", "import", "-", stdin=sheet)
    assert done.status == 0 and done.out.endswith("0 recorded, 1 not counted, 0 refused\n") and recounted.content() == before, done
    done = recounted.run("count", "import", "-", stdin=one(recounted, counted=105, reason="weighed by another", day=261125))  # without the find's row
    assert done.out == "1 sublot: 1 as on hand, 0 there already, 0 recorded, 0 not counted, 0 refused\n" and recounted.content() == before


C = {"lot": "L-0-C", "on_hand": 5}


@pytest.mark.parametrize("rows, texts, left", [
    ([{"counted": 105}, {**C, "counted": 0}], [], {"L-0": 100, "L-0-C": 5}),
    ([{"counted": 100}, {**C, "counted": 5}], [], {"L-0": 100, "L-0-C": 5}),
    ([{"counted": 100}, {**C, "counted": ""}], [], {"L-0": 100, "L-0-C": 5}),
    ([{**C, "counted": 0}, {"counted": 105}], [], {"L-0": 100, "L-0-C": 5}),
    ([{"counted": 107}], ["107 counted with 5 found before, 100 on hand: receive 2 into L-0-C2"], {"L-0": 100, "L-0-C": 5, "L-0-C2": 2}),
    ([{"counted": 107}, {**C, "counted": ""}], ["107 counted with 5 found before, 100 on hand: receive 2 into L-0-C2"], {"L-0": 100, "L-0-C": 5, "L-0-C2": 2}),
    ([{"counted": 107}, {**C, "counted": 0}], ["receive 2 into L-0-C2"], {"L-0": 100, "L-0-C": 5, "L-0-C2": 2}),
    ([{"counted": 105}, {**C, "counted": 5}], ["105 counted, 100 on hand: receive 5 into L-0-C2"], {"L-0": 100, "L-0-C": 5, "L-0-C2": 5}),
    ([{"counted": 102}, {**C, "counted": 0}], ["ACME L-0-C S0: 0 counted besides 2 with its lot, 5 on hand: scrap 3"], {"L-0": 100, "L-0-C": 2}),
    ([{"counted": 103}], [], {"L-0": 100, "L-0-C": 5}),  # the find's own row wasn't counted
    ([{"counted": 92}, {**C, "counted": 0}], ["100 on hand: scrap 8", "0 counted, 5 on hand: scrap 5"], {"L-0": 92}),
    ([{"counted": 92}], ["scrap 8"], {"L-0": 92, "L-0-C": 5}),
    ([{"counted": "0105"}, {**C, "counted": "00"}], [], {"L-0": 100, "L-0-C": 5})])
def test_what_was_found_before_is_counted_with_its_lot_or_by_itself(recounted, rows, texts, left):
    *texts_of_rows, _ = counts(recounted, *rows)
    assert len(texts_of_rows) == len(texts) and all(text in line for text, line in zip(texts, texts_of_rows)), texts_of_rows
    assert on_hand(recounted) == left


def test_a_find_of_a_find_lies_there_too(recounted):
    assert "receive 3 into L-0-C-C" in counts(recounted, {**C, "counted": 8})[0]
    assert counts(recounted, {"counted": 108}) == ["1 sublot: 1 as on hand, 0 there already, 0 recorded, 0 not counted, 0 refused"]
    assert "with 8 found before, 100 on hand: receive 1 into L-0-C2" in counts(recounted, {"counted": 109})[0]


def test_a_find_elsewhere_or_of_another_correction_is_a_pile_of_its_own(recounted):
    assert recounted.run("split", "ACME", "K960", "L-0-C", "S0", "S1", 5, 261121).status == 0
    assert "105 counted, 100 on hand: receive 5 into L-0-C2" in counts(recounted, {"counted": 105})[0]
    assert recounted.run("receive", "ACME", "K961", "SALT", "M-1", "S4", 7, 261121, "--of", "L-1", "--why", "correction").status == 0
    assert "111 counted, 104 on hand: receive 7 into L-1-C" in counts(recounted, {"lot": "L-1", "sublot": "S4", "on_hand": 104, "counted": 111})[0]


@pytest.mark.parametrize("counted", [0, ""])
def test_a_find_that_moved_since_the_sheet_was_made_is_counted_again(recounted, counted):
    sheet = pile({"counted": 105}, {**C, "counted": counted})
    assert recounted.run("scrap", "ACME", "K960", "L-0-C", "S0", 1, 261121).status == 0
    done = recounted.run("count", "import", "-", stdin=sheet)
    assert "ACME L-0-C, which was found there, moved since the sheet was made: count it again" in done.out and on_hand(recounted) == {"L-0": 100, "L-0-C": 4}


@pytest.mark.parametrize("cells", [{"counted": "0107"}, {"counted": "107", "on_hand": "0100"}, {"counted": "107", "day": "0261121"}])
def test_numbers_written_otherwise_are_the_same_difference(office, cells):
    assert "receive 7 into L-0-C" in office.run("count", "import", "-", stdin=pile({"counted": 107})).out
    done = office.run("count", "import", "-", stdin=pile(cells))
    assert done.out == "1 sublot: 0 as on hand, 1 there already, 0 recorded, 0 not counted, 0 refused\n"
