"""Parties and what is noted of movements: what may be noted, what counts, and how it is shown and told."""
import csv
import io
import json

import openpyxl
import pytest
from hilpoven.core.table import as_formula

NORD = ("party", "add", "ACME", "NORD", "--name", "Nord Foods Ltd", "--phone", "+44 20 7946 0000", "--role", "customer")
SALINE = ("party", "add", "ACME", "SALINE", "--name", "Saline AG", "--role", "supplier")
VAN = ("party", "add", "ACME", "VAN", "--name", "Blue van", "--role", "carrier")
RELEASED = """
result ACME B-1 PH 2 102
> ACME POST /lots/B-1/release
"""
SHIP = ("ship", "ACME", "K7", "B-1", "TOTE1", "100", "261104")
RECEIVE = ("receive", "ACME", "K8", "SALT", "S-2", "BAY1", "70", "261104")
HOSTILE = ["a\nb", "a\rb", "\x1b[2J", "\u200fabc", "a\u202eb", "\u2028", "\udcff", "\x7f", "x" * 201, "\t", "\u200b"]


@pytest.fixture
def noting(at_work):
    """An office at work with a released lot, a customer, a supplier and a carrier."""
    at_work.lay(RELEASED)
    for words in (NORD, SALINE, VAN):
        assert at_work.run(*words).status == 0
    return at_work


def rows_of(text):
    """The rows of a CSV file as a spreadsheet shows them, by their columns."""
    rows = list(csv.DictReader(io.StringIO(text)))
    return [{name: cell[2:-1].replace('""', '"') if cell.startswith('="') else cell for name, cell in row.items()} for row in rows]


def parties(plant, *words):
    """The parties that are listed."""
    return rows_of(plant.run("party", "list", *words, "--csv").out)


def noted(plant, key):
    """What is noted of a movement, as the list has it."""
    row, = rows_of(plant.run("list", "moves", "--key", key, "--csv").out)
    return tuple(row.get(f"noted_{name}", "") for name in ("party", "supplier_lot", "document"))


def test_a_later_note_of_a_party_counts_and_both_stay(at_work):
    assert at_work.run(*NORD).out.startswith("noted ")
    assert at_work.run("party", "add", "ACME", "NORD", "--name", "Nord Foods plc", "--role", "customer", "--role", "carrier").status == 0
    assert at_work.run("party", "add", "HOUSE", "NORD", "--name", "The plant's own", "--role", "supplier").status == 0
    assert [(party["owner"], party["name"], party["roles"], party["phone"]) for party in parties(at_work)] == [
        ("ACME", "Nord Foods plc", "customer, carrier", "+44 20 7946 0000"), ("HOUSE", "The plant's own", "supplier", "")]
    assert [party["owner"] for party in parties(at_work, "HOUSE")] == ["HOUSE"]
    assert json.loads(at_work.run("party", "list", "ACME", "--json").out)[0]["party"] == "NORD"
    names = [note["name"] for line in at_work.lines() if line["event"] == "note" for note in line["notes"]]
    assert names == ["Nord Foods Ltd", "Nord Foods plc", "The plant's own"]


def test_what_is_not_named_of_a_party_stays_and_what_is_emptied_goes(at_work):
    nord = ("party", "add", "ACME", "NORD")
    assert at_work.run(*nord, "--name", "Nord", "--address", "1 Dock Road", "--contact", "Jane Doe", "--phone", "1", "--role", "customer").status == 0
    assert at_work.run(*nord, "--phone", "2").status == 0
    assert parties(at_work) == [{"owner": "ACME", "party": "NORD", "name": "Nord", "roles": "customer", "contact": "Jane Doe", "phone": "2", "address": "1 Dock Road"}]
    assert at_work.run(*nord, "--gln", "4012345000009").status == 0 and at_work.run(*nord, "--gln", "4012345000008").status == 2
    assert "party NORD of ACME: GLN 4012345000009" in at_work.run("note", "list").out
    assert at_work.run(*nord, "--empty", "contact", "--empty", "phone", "--role", "supplier").status == 0
    assert parties(at_work) == [{"owner": "ACME", "party": "NORD", "name": "Nord", "roles": "supplier", "contact": "", "phone": "", "address": "1 Dock Road"}]
    for words, why in (((), "nothing is given"), (("--phone", "3", "--empty", "phone"), "--phone is given"), (("--empty", "name"), "address")):
        done = at_work.run(*nord, *words)
        assert done.status == 2 and why in done.err
    last = at_work.lines()[-1]["notes"][0]
    assert last == {"kind": "party", "owner": "ACME", "party": "NORD", "roles": ["supplier"], "emptied": ["contact", "phone"]}


def test_what_was_noted_before_is_noted_again_where_something_else_counts(at_work):
    nord = ("party", "add", "ACME", "NORD", "--name", "Nord", "--role", "customer", "--phone")
    for phone in ("1", "2", "1"):
        assert at_work.run(*nord, phone).out.startswith("noted ")
    assert parties(at_work)[0]["phone"] == "1" and at_work.run(*nord, "1").out.startswith("noted already as ")
    for allowance in ("1.5", "2.0", "1.5"):
        assert at_work.run("describe", "recipe", "ACME", "BRINE-10", "--allowance", allowance).status == 0
    assert "allowance: 1.5 %" in at_work.run("describe", "recipe", "ACME", "BRINE-10").out


@pytest.mark.parametrize("words, status, why", [
    (("ACM", "NORD", "--name", "N", "--role", "customer"), 1, "there is no owner ACM"),
    (("ACME", "nord", "--name", "N", "--role", "customer"), 2, "lower-case"),
    (("ACME", "NORD", "--name", "N"), 2, "--role"), (("ACME", "NORD", "--role", "customer"), 2, "--name"),
    (("ACME", "NORD", "--name", " ", "--role", "customer"), 2, "is empty"), (("ACME", "NORD", "--name", "N", "--role", "friend"), 2, "friend")])
def test_what_is_no_party_is_refused(at_work, words, status, why):
    done = at_work.run("party", "add", *words)
    assert done.status == status and why in done.err and done.out == "" and parties(at_work) == [] and at_work.lines() == []


@pytest.mark.parametrize("text", HOSTILE)
def test_no_text_is_more_than_a_line_that_can_be_seen(noting, text):
    before = len(noting.lines())
    for option in ("--name", "--address", "--contact", "--phone"):
        done = noting.run("party", "add", "ACME", "X", "--role", "customer", *(() if option == "--name" else ("--name", "X")), option, text)
        assert done.status == 2 and text not in done.err
    for words in ((*SHIP, "--document", text), (*RECEIVE, "--supplier-lot", text), (*SHIP, "--to", text)):
        done = noting.run(*words)
        assert done.status == 2 and text not in done.err
    assert len(noting.lines()) == before and noting.rows("SELECT 1 FROM moves WHERE mkey IN ('K7', 'K8')") == []


def test_two_hundred_letters_of_any_script_are_a_text(noting):
    text = ("Łódź 北京 שלום <b>&amp; " * 20)[:200]
    assert noting.run(*SHIP, "--to", "NORD", "--document", text).status == 0 and noted(noting, "K7") == ("NORD", "", text)
    assert noting.run("party", "add", "ACME", "LONG", "--name", text, "--address", text, "--role", "customer").status == 0
    assert [party["name"] for party in parties(noting) if party["party"] == "LONG"] == [text]


@pytest.mark.parametrize("words, why", [
    ((*SHIP, "--to", "NOR"), "there is no party NOR of ACME"), ((*SHIP, "--to", "VAN"), "is a carrier, and no customer: it gets no shipment"),
    ((*SHIP, "--to", "SALINE"), "is a supplier, and no customer"), ((*RECEIVE, "--from", "NORD"), "is a customer, and no supplier: it sends nothing"),
    (("receive", "BOLT", "K8", "PIGMENT", "P-2", "BAY1", "70", "261104", "--from", "SALINE"), "there is no party SALINE of BOLT")])
def test_a_party_that_cannot_stand_there_is_refused_before_anything_is_done(noting, words, why):
    before, lines = noting.content(), noting.lines()
    done = noting.run(*words)
    assert done.status == 1 and why in done.err and "hilpoven party add" in done.err and done.out == ""
    assert noting.content() == before and noting.lines() == lines


def test_what_is_noted_of_a_movement_stands_in_the_commands_own_line(noting):
    done = noting.run(*SHIP, "--to", "NORD", "--document", "LS 4711")
    assert done == (0, "accepted\n", "")
    asked, answered = noting.lines()[-2:]
    assert asked["words"] == list(SHIP) and asked["notes"] == [{"kind": "movement", "owner": "ACME", "key": "K7", "party": "NORD", "document": "LS 4711"}]
    assert answered["of"] == asked["id"] and noted(noting, "K7") == ("NORD", "", "LS 4711")
    assert noting.run(*RECEIVE, "--from", "SALINE", "--supplier-lot", "SAL/7", "--document", "D-1").status == 0 and noted(noting, "K8") == ("SALINE", "SAL/7", "D-1")


def test_a_note_of_a_refused_command_does_not_count(noting):
    assert noting.run("ship", "ACME", "K7", "B-1", "TOTE1", "999999", "261104", "--to", "NORD").out == "refused 33 NotEnough\n"
    assert noting.run(*SHIP).status == 0 and noted(noting, "K7") == ("", "", "")
    assert noting.run("ship", "ACME", "K7", "B-1", "TOTE1", "101", "261104", "--to", "NORD").out == "refused 35 KeyConflict\n" and noted(noting, "K7") == ("", "", "")
    assert noting.run(*SHIP, "--to", "NORD").out == "repeated\n" and noted(noting, "K7") == ("NORD", "", "")


def test_without_notes_lists_are_as_they_were(noting):
    assert noting.run(*SHIP).status == 0
    header, *_ = noting.run("list", "moves", "--csv").out.splitlines()
    assert header == "owner,key,kind,lot_owner,lot,sublot,target,material,order,batch,segment,amount,day,void"
    shown = noting.run("show", "lot", "ACME", "B-1").out
    assert "noted" not in shown
    assert noting.run(*SHIP, "--to", "NORD").status == 0
    assert "noted party" in noting.run("show", "lot", "ACME", "B-1").out and "NORD" in noting.run("show", "lot", "ACME", "B-1").out
    assert "noted" not in noting.run("show", "lot", "ACME", "S-1").out and "noted" not in noting.run("list", "moves", "--lot", "S-1").out


def test_the_settings_may_require_a_recipient(noting):
    noting.settle()
    path = noting.folder / "hilpoven.toml"
    path.write_text(path.read_text() + "[require]\nrecipient = true\n")
    done = noting.run(*SHIP)
    assert done.status == 2 and "--to PARTY is missing" in done.err and noting.rows("SELECT 1 FROM moves WHERE mkey = 'K7'") == []
    assert noting.run(*SHIP, "--to", "NORD").status == 0 and noting.run(*RECEIVE).status == 0
    sheet = noting.folder / "shipments.csv"
    sheet.write_text("owner,key,lot,sublot,amount,day\nACME,K20,B-1,TOTE1,1,261104\n")
    done = noting.run("import", "--what", "shipments", sheet)
    assert done.status == 1 and "the header lacks to" in done.err
    sheet.write_text("owner,key,lot,sublot,amount,day,to\nACME,K20,B-1,TOTE1,1,261104,\nACME,K21,B-1,TOTE1,1,261104,NORD\n")
    done = noting.run("import", "--what", "shipments", sheet)
    assert done.status == 1 and "row 2, column G (to): it is empty" in done.err and "1 accepted" in done.out and noted(noting, "K21") == ("NORD", "", "")


@pytest.mark.parametrize("text, why", [("require = true\n", "require is to be a table"), ("[require]\nrecipient = 1\n", "recipient is to be true or false"),
                                       ("[require]\nsender = true\n", "sender is nothing to require")])
def test_what_the_settings_cannot_require_is_told(at_work, text, why):
    (at_work.folder / "hilpoven.toml").write_text(text)
    done = at_work.run("party", "list")
    assert done.status == 2 and why in done.err


SHIPMENTS = """Owner;Key;Lot;Sublot;Amount;Day;To;Document
ACME;K20;B-1;TOTE1;5;261104;NORD;LS 4711
ACME;K21;B-1;TOTE1;6;261104;VAN;LS 4711
ACME;K22;B-1;TOTE1;7;261104;;
ACME;K23;B-1;TOTE1;8;261104;SUD;LS 4712
ACME;K24;B-1;TOTE1;9;261104;NORD;4713
ACME;K25;B-9;TOTE1;9;261104;NORD;LS 4714
"""


def test_a_sheet_of_shipments_goes_in_with_what_is_noted(noting):
    sheet, before = noting.folder / "shipments.csv", noting.content()
    sheet.write_text(SHIPMENTS)
    done = noting.run("import", "--what", "shipments", "--check", sheet)
    assert done.status == 1 and done.out == "3 rows can be given, 3 can't be read\n" and noting.content() == before
    done = noting.run("import", "--what", "shipments", sheet)
    assert done.out.splitlines() == ["row 7 (ACME K25): refused 27 UnknownLot: the owner has no lot of this name",
                                     "6 shipments: 2 accepted, 0 there already, 1 refused, 3 can't be read"]
    assert done.err.splitlines() == [
        "row 3, column G (to): VAN of ACME is a carrier, and no customer: it gets no shipment", "row 5, column G (to): there is no party SUD of ACME",
        "row 6, column H (document): 4713 is digits alone, as a sheet makes them of 1E5 or 007; --digits document takes it as it stands"]
    assert noted(noting, "K20") == ("NORD", "", "LS 4711") and noted(noting, "K22") == ("", "", "")
    done = noting.run("import", "--what", "shipments", "--digits", "document", sheet)
    assert done.out.splitlines()[-1] == "6 shipments: 1 accepted, 2 there already, 1 refused, 2 can't be read" and noted(noting, "K24") == ("NORD", "", "4713")


def test_a_sheet_that_is_given_again_notes_what_was_missing(noting):
    sheet = noting.folder / "receipts.csv"
    sheet.write_text("owner,key,material,lot,sublot,amount,day\nACME,K30,SALT,S-30,BAY1,5,102\n")
    assert noting.run("import", "--what", "receipts", sheet).status == 0 and noted(noting, "K30") == ("", "", "")
    sheet.write_text("owner,key,material,lot,sublot,amount,day,from,supplier_lot,document\nACME,K30,SALT,S-30,BAY1,5,102,SALINE,SAL/7,D 1\n")
    done = noting.run("import", "--what", "receipts", sheet)
    assert done.out == "1 receipt: 0 accepted, 1 there already, 0 refused, 0 can't be read; nothing was new\n" and noted(noting, "K30") == ("SALINE", "SAL/7", "D 1")


def test_a_workbook_has_texts_as_they_were_typed(noting):
    book = openpyxl.Workbook()
    book.active.append(["owner", "key", "lot", "sublot", "amount", "day", "to", "document"])
    for key, document in (("K20", "=1+1"), ("K21", 4711), ("K22", "LS\n4711"), ("K23", "'=cmd|' /C calc'!A0"), ("K24", "007")):
        book.active.append(["ACME", key, "B-1", "TOTE1", 5, 102, "NORD", document])
    path = noting.folder / "sheet.xlsx"
    book.save(path)
    done = noting.run("import", "--what", "shipments", path)
    assert done.out == "5 shipments: 2 accepted, 0 there already, 0 refused, 3 can't be read\n"
    assert [line.split(": ")[1][:24] for line in done.err.splitlines()] == ["it is a formula without ", "4711 is held as a number", "it has a line end; a tex"]
    assert noted(noting, "K23")[2] == "'=cmd|' /C calc'!A0" and noted(noting, "K24")[2] == "007"


@pytest.mark.parametrize("text", ["=cmd|'/C calc'!A0", "+1+cmd", "-2+3", "@SUM(A1)", "1E5", "2026-01-02", '=HYPERLINK("http://x")', 'a "b"', "JAN 1", "TRUE"])
def test_no_spreadsheet_takes_a_text_for_a_formula(noting, text):
    assert noting.run("party", "add", "ACME", "P-1", "--name", text, "--role", "customer").status == 0
    assert noting.run(*SHIP, "--to", "P-1", "--document", text).status == 0
    for words in (("party", "list", "--csv"), ("list", "moves", "--key", "K7", "--csv")):
        cells = [cell for row in csv.reader(io.StringIO(noting.run(*words).out)) for cell in row]
        assert {text, as_formula(text)} & set(cells)
        assert all(cell[0] not in "=+-@" or cell in (as_formula(text), as_formula("+44 20 7946 0000")) for cell in cells if cell)
    assert noted(noting, "K7") == ("P-1", "", text)


def test_to_csv_writes_what_import_reads(noting):
    sheet = noting.folder / "sheet.csv"
    document = '=cmd|"x"'
    sheet.write_text(f'owner,key,lot,sublot,amount,day,to,document\nACME,K20,B-1,TOTE1,5,261104,NORD,"{document.replace(chr(34), chr(34) * 2)}"\nACME,K21,B-1,TOTE1,6,261104,,\n')
    written = noting.run("to-csv", "--what", "shipments", sheet)
    assert written.status == 0 and "\nACME,K20,B-1,TOTE1,5,261104,NORD,\"=\"" in written.out
    sheet.write_text(written.out)
    assert noting.run("import", "--what", "shipments", sheet).status == 0 and noted(noting, "K20") == ("NORD", "", document) and noted(noting, "K21") == ("", "", "")


def test_a_member_notes_parties_and_movements(noting):
    noting.settle()
    assert noting.as_member("party", "add", "ACME", "SUED", "--name", "Süd", "--role", "customer").status == 0
    assert noting.as_member(*SHIP, "--to", "SUED", "--document", "LS 1").status == 0
    assert "SUED" in noting.as_member("party", "list").out
    sheet = "owner,key,lot,sublot,amount,day,to\nACME,K20,B-1,TOTE1,5,261104,SUED\n"
    assert noting.as_member("import", "--what", "shipments", "-", stdin=sheet).status == 0
    assert noting.as_member("import", "--what", "shipments", noting.folder / "x.csv").status == 2
    done = noting.as_member("papers", "delivery-note", "ACME", "K7", noting.folder / "note")
    assert done.status == 2 and not (noting.folder / "note").exists()


def test_what_is_known_later_is_noted_later(noting):
    assert noting.run(*SHIP, "--document", "LS 1").status == 0 and noting.run(*RECEIVE).status == 0
    assert noting.run("note", "movement", "ACME", "K7", "--to", "NORD").out.startswith("noted ")
    assert noting.run("note", "movement", "ACME", "K8", "--from", "SALINE", "--supplier-lot", "SAL/7").status == 0
    assert noted(noting, "K7") == ("NORD", "", "LS 1") and noted(noting, "K8") == ("SALINE", "SAL/7", "")
    assert noting.run("note", "movement", "ACME", "K7", "--document", "LS 2").status == 0 and noted(noting, "K7") == ("NORD", "", "LS 2")
    assert noting.run("note", "movement", "ACME", "K7", "--document", "LS 2").out.startswith("noted already as ")


@pytest.mark.parametrize("words, status, why", [
    (("ACME", "K7"), 2, "nothing is given"), (("ACME", "K77", "--to", "NORD"), 1, "there is no receipt and no shipment K77 of ACME"),
    (("ACM", "K7", "--to", "NORD"), 1, "there is no owner ACM"), (("ACME", "K7", "--from", "SALINE"), 1, "is a shipment"),
    (("ACME", "K7", "--supplier-lot", "X"), 1, "is a shipment"), (("ACME", "K8", "--to", "NORD"), 1, "is a receipt"),
    (("ACME", "K7", "--to", "VAN"), 1, "is a carrier"), (("ACME", "K7", "--to", "SUD"), 1, "there is no party SUD of ACME"),
    (("ACME", "K8", "--from", "NORD"), 1, "it sends nothing but returns"), (("ACME", "K4", "--document", "X"), 1, "there is no receipt and no shipment K4"),
    (("BOLT", "K1", "--from", "SALINE"), 1, "there is no party SALINE of BOLT")])
def test_what_cannot_be_noted_of_a_movement_is_refused(noting, words, status, why):
    assert noting.run(*SHIP).status == 0 and noting.run(*RECEIVE).status == 0
    lines = noting.lines()
    done = noting.run("note", "movement", *words)
    assert done.status == status and why in done.err and done.out == "" and noting.lines() == lines


def test_a_customer_sends_a_return(noting):
    assert noting.run(*SHIP, "--to", "NORD").status == 0
    back = ("receive", "ACME", "K9", "BRINE", "B-1R", "BAY1", "40", "261105")
    assert noting.run(*back, "--from", "NORD").status == 1
    assert noting.run(*back, "--from", "NORD", "--of", "B-1", "--why", "return", "--document", "RET 1").status == 0
    assert noted(noting, "K9") == ("NORD", "", "RET 1")
    assert [note["kind"] for note in noting.lines()[-2]["notes"]] == ["link", "movement"]
    assert noting.run("receive", "ACME", "K10", "BRINE", "B-1R", "BAY1", "2", "261105").status == 0
    assert noting.run("note", "movement", "ACME", "K10", "--from", "NORD").status == 0 and noted(noting, "K10") == ("NORD", "", "")


def test_a_note_that_is_withdrawn_does_not_count(noting):
    assert noting.run(*SHIP, "--to", "NORD").status == 0
    assert noting.run("party", "add", "ACME", "NORD", "--name", "Nord Foods plc", "--role", "customer").status == 0
    name = [line["id"] for line in noting.lines() if line["event"] == "note"][-1]
    assert noting.run("note", "withdraw", name, "--reason", "it is a Ltd").status == 0
    assert [party["name"] for party in parties(noting) if party["party"] == "NORD"] == ["Nord Foods Ltd"]
    name = [line["id"] for line in noting.lines() if line["event"] == "asked" and "notes" in line][-1]
    assert noting.run("note", "withdraw", name, "--reason", "it went elsewhere").status == 0 and noted(noting, "K7") == ("", "", "")


def test_what_was_noted_goes_on_over_a_carry_over(noting):
    assert noting.run(*SHIP, "--to", "NORD", "--document", "LS 1").status == 0 and noting.run("ship", "ACME", "K9", "B-1", "TOTE1", "20", "261104").status == 0
    for words in (("do", "ACME", "O-1", 1, "done"), ("close", "ACME", "O-1", 1), ("carry-over", "--day", 261128)):
        assert noting.run(*words).status == 0, words
    assert [party["party"] for party in parties(noting)] == ["NORD", "SALINE", "VAN"]
    assert noting.run("ship", "ACME", "K20", "B-1", "TOTE1", "30", "261129", "--to", "NORD").out == "accepted\n" and noted(noting, "K20") == ("NORD", "", "")
    assert noting.run("ship", "ACME", "K9", "B-1", "TOTE1", "20", "261104", "--to", "NORD").out == "repeated\n"
    assert noting.run("ship", "ACME", "K7", "B-1", "TOTE1", "5", "261130").out == "accepted\n" and noted(noting, "K7") == ("", "", "")
    assert noting.run("papers", "recall", "HOUSE", "W-101", noting.folder / "made", "--no-pdf").status == 0
    shipped = rows_of((noting.folder / "made" / "plant" / "shipments.csv").read_text())
    assert [(row["key"], row["amount"], row["noted_party"], row["noted_document"]) for row in shipped] == [
        ("K7 (office-1.db)", "100", "NORD", "LS 1"), ("K9", "20", "NORD", ""), ("K20", "30", "NORD", ""), ("K7", "5", "", "")]
    ledger = json.loads(noting.run("years", "lot", "ACME", "B-1", "--json").out)["ledger"]
    assert [row["noted party"] for row in ledger if row["kind"] == "ship"] == ["NORD", "NORD", "NORD", ""]


def test_a_party_of_a_shipment_that_is_withdrawn_is_named_without_a_contact(noting):
    name = [line["id"] for line in noting.lines() if line["event"] == "note"][0]
    assert noting.run(*SHIP, "--to", "NORD").status == 0
    assert noting.run("note", "withdraw", name, "--reason", "sold").status == 0
    assert noting.run("papers", "recall", "HOUSE", "W-101", noting.folder / "made", "--no-pdf").status == 0
    contact, = rows_of((noting.folder / "made" / "plant" / "contacts.csv").read_text())
    assert (contact["noted_party"], contact["noted_name"], contact["noted_phone"]) == ("NORD", "", "")


def test_a_note_of_a_command_without_an_answer_counts_if_the_office_has_the_movement(noting):
    for key, amount in (("K7", "100"), ("K8", "101")):
        assert noting.run("ship", "ACME", key, "B-1", "TOTE1", amount, "261104", "--to", "NORD").status == 0
        lines = noting.journal.read_text().splitlines(keepends=True)
        noting.journal.write_text("".join(lines[:-1]))  # as a kill between the two leaves it
        (noting.folder / "office.db.register").unlink(missing_ok=True)
    assert noted(noting, "K7") == ("NORD", "", "") and noted(noting, "K8") == ("NORD", "", "")
