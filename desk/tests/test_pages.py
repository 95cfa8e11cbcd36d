"""What pages show, and what their forms record."""
import re

import pytest
from conftest import text_of


def asked(office) -> dict:
    """The journal's last line of a command."""
    return next(line for line in reversed(office.lines()) if "words" in line and line.get("event") == "asked")


def test_today_shows_what_needs_somebody(browse):
    anna = browse("anna")
    assert "KETTLE ACME O-1/1 · BRINE-10 running" in anna.text
    assert "B-1 ACME · BRINE · 980 kg no result within its limits: PH" in anna.text
    assert "ACME O-1 BRINE-10 1 / 3" in anna.text and "No lot is on hold." in anna.text


def test_a_receipt_is_recorded_in_the_name_of_the_person(browse, office):
    anna = browse("anna")
    anna.get("/receive?owner=ACME&material=SALT")
    assert "SALT" in anna.page and "Saline Süd" in anna.page
    anna.fill("/receive", material="SALT", lot="s-9", sublot="bay1", amount="1 200", day="101", party="SALINE", document="LS 1")
    assert anna.status == 200 and "Recorded. 1,200 of SALT received into lot S-9 at BAY1" in anna.text, anna.text
    assert "Wrong? Scrap what is too much" in anna.text
    line = asked(office)
    key = line["words"][2]
    assert (line["login"], line["words"]) == ("anna", ["receive", "ACME", key, "SALT", "S-9", "BAY1", "1200", "101"])
    assert line["notes"][0]["party"] == "SALINE" and line["notes"][0]["document"] == "LS 1"


def test_a_form_that_is_sent_again_records_nothing_twice(browse, office):
    anna, fields = browse("anna"), {"material": "SALT", "lot": "S-9", "sublot": "BAY1", "amount": "5000", "day": "101"}
    anna.get("/receive?owner=ACME&material=SALT")
    form = {**anna.form(), **fields}
    for slip in (form["slip"], form["slip"], "another"):  # the same form, and one whose slip the desk doesn't know any more
        anna.send("/receive", **{**form, "slip": slip})
        assert anna.status == 200
    assert "Was recorded already; nothing is there twice." in anna.text
    assert office.rows("SELECT amount FROM sublots WHERE lot = 'S-9'") == [(5_000,)]
    anna.send("/receive", **{**form, "slip": "third", "amount": "6000"})
    assert anna.status == 409 and "Not recorded." in anna.text


@pytest.mark.parametrize("fields, fault", [
    ({"lot": "", "amount": ""}, "Lot: is missing Amount: is missing"),
    ({"material": "SUGAR"}, "Material: `SUGAR` isn't there. The materials of ACME: BRINE, SALT."),
    ({"amount": "12.5"}, "Amount: `12.5` has decimals"),
    ({"day": "yesterday"}, "Day: `yesterday` has"),
    ({"lot": "../x"}, "Lot: `../X` has"),
    ({"document": "a\u202eb"}, "U+202E"),
    ({"document": "x" * 300}, "has 300 letters; a text has at most 200"),
    ({"party": "NORD"}, "NORD"),
])
def test_what_is_missing_or_wrong_is_said_at_its_field(browse, office, fields, fault):
    anna, before = browse("anna"), office.content()
    anna.get("/receive?owner=ACME&material=SALT")
    anna.fill("/receive", **{"material": "SALT", "lot": "S-9", "sublot": "BAY1", "amount": "4900", "day": "101", **fields})
    assert anna.status in (409, 422) and fault in anna.text, anna.text
    assert 'value="4900"' in anna.page or "amount" in fields  # what was typed stands there still
    assert office.content() == before


def test_what_may_not_be_meant_is_asked_before(browse, office):
    anna = browse("anna")
    anna.get("/receive?owner=ACME&material=SALT")
    form = {**anna.form(), "material": "SALT", "lot": "S-1", "sublot": "BAY1", "amount": "5000", "day": "50"}
    anna.send("/receive", **form)
    assert anna.status == 409 and "Nothing is recorded yet. Is this meant?" in anna.text and "DAY: 50 is before" in anna.text
    question = anna.page.split('name="asked" value="')[1].split('"')[0]
    anna.send("/receive", **{**form, "slip": "x", "asked": question, "answer": "no"})
    assert anna.status == 409
    anna.send("/receive", **{**form, "slip": "y", "asked": question, "answer": "yes"})
    assert anna.status in (200, 409), anna.text


def test_a_batch_is_opened_run_and_closed(browse, office):
    anna = browse("anna")
    anna.get("/order/ACME/O-1")
    assert "MIXER" in anna.page and "KETTLE" not in anna.page
    form = {**anna.form(), "unit": "MIXER"}
    anna.send("/order/ACME/O-1", **form)
    assert anna.status == 409 and "BRINE-10 never ran on MIXER, but on KETTLE." in anna.text
    anna.fill("/order/ACME/O-1", unit="MIXER", answer="yes")
    assert "MIXER not started" in anna.text, anna.text
    anna.send("/order/ACME/O-1", **{**form, "slip": "again", "unit": "KETTLE"})
    assert anna.status == 409 and "This changed since the page was shown" in anna.text
    path = "/batch/ACME/O-1/2"
    anna.get(path)
    anna.fill(path, "do", command="start")
    assert "MIXER running" in anna.text
    anna.get(f"{path}?scan=acme/s-1/bay1")
    assert "S-1 released ACME · SALT · BAY1: 4,700 kg" in anna.text and 'value="300"' in anna.page
    anna.fill(path, "consume", amount="300", day="103")
    assert "300 from S-1, BAY1, went in" in anna.text and "Take back" in anna.text, anna.text
    key = asked(office)["words"][1]
    assert asked(office)["words"][2:] == ["ACME", "O-1", "2", "1", "consumed", "SALT", "ACME", "S-1", "BAY1", "300", "103"]
    anna.fill(path, "void", key=key)
    assert f"{key} taken back" in anna.text
    assert (asked(office)["words"], asked(office)["notes"][0]["reason"]) == (["void", "ACME", key], "taken back at the screen")
    anna.get(path)
    anna.means(path, "produce", lot="b-2", sublot="TOTE3", amount="990", day="103")
    assert "990 came out into B-2, TOTE3" in anna.text, anna.text
    anna.fill(path, "do", command="done")
    assert "complete" in anna.text
    anna.fill(path, "close")
    assert "closed" in anna.text


def test_a_lot_that_the_recipe_has_not_is_not_taken(browse):
    anna = browse("anna")
    anna.get("/batch/ACME/O-1/1?scan=BOLT/P-1/BAY2")
    assert "The recipe takes no PIGMENT of BOLT." in anna.text and "Record: it goes in" not in anna.text
    anna.get("/batch/ACME/O-1/1?scan=S-1")
    assert "S-1 · BAY1" in anna.text and "scan=ACME/S-1/BAY1" in anna.page


def test_a_shipment_names_its_customer(browse, office):
    assert office.run("result", "ACME", "B-1", "PH", "7", "102").status == 0
    with office.serve() as server:
        assert server.ask("ACME", "POST", "/lots/B-1/release")[0] == 200
    anna = browse("anna")
    anna.get("/ship?scan=ACME/B-1/TOTE1")
    assert "Nord Chemie AG" in anna.page and 'name="party" value="NORD" required>' in anna.page
    anna.fill("/ship", party="NORD", amount="100", day="103", document="LS 7")
    assert "100 of lot B-1 shipped to NORD" in anna.text, anna.text
    assert asked(office)["notes"][0]["party"] == "NORD"
    anna.get("/ship?scan=ACME/B-1/TOTE1")
    anna.fill("/ship", party="NORD", amount="5000", day="103")
    assert anna.status == 422 and "is more than TOTE1 holds: 800" in anna.text, anna.text


def test_a_lot_that_is_not_released_is_not_shipped(browse, office):
    anna = browse("anna")
    anna.get("/ship?scan=ACME/B-1/TOTE1")
    assert "waits for release" in anna.text and "doubtful" in anna.page
    anna.fill("/ship", party="", amount="100", day="103")
    assert anna.status == 409 and "Not recorded." in anna.text and "NotReleased" in anna.text


def test_results_holds_and_signatures(browse, office):
    anna, quinn = browse("anna"), browse("quinn")
    anna.get("/lot/ACME/B-1")
    assert "PH" in anna.text and "no result yet" in anna.text and "Sign this lot" not in anna.text
    forms = anna.form("result", at=1)
    anna.send("/lot/ACME/B-1", **{**forms, "test": "PH", "value": "7", "day": "103"})
    assert "PH of lot B-1: 7" in anna.text, anna.text
    quinn.get("/lot/ACME/B-1")
    quinn.fill("/lot/ACME/B-1", "hold", reason="")
    assert quinn.status == 422 and "Why: is missing" in quinn.text
    quinn.fill("/lot/ACME/B-1", "hold", reason="metal found")
    assert "Lot B-1 held" in quinn.text and "B-1 on hold" in quinn.text and "metal found" in quinn.text
    quinn.get("/")
    assert "B-1 ACME · BRINE · 980 kg metal found on hold" in quinn.text
    quinn.get("/lot/ACME/B-1")
    quinn.fill("/lot/ACME/B-1", "sign", password="wrong")
    assert quinn.status == 409 and "The name or the password is wrong." in quinn.text and "on hold" in quinn.text
    quinn.fill("/lot/ACME/B-1", "sign", password="quinn's word")
    assert "Lot B-1 signed" in quinn.text, quinn.text
    signed = office.lines()[-1]
    assert (signed["login"], signed["words"][:3]) == ("quinn", ["sign", "ACME", "B-1"])


def test_a_signature_is_of_what_was_seen(browse, office):
    assert office.run("result", "ACME", "B-1", "PH", "7", "102").status == 0
    quinn = browse("quinn")
    quinn.get("/lot/ACME/B-1")
    form = {**quinn.form("sign"), "password": "quinn's word"}
    assert office.run("result", "ACME", "B-1", "PH", "8", "103").status == 0
    before = office.lines()
    quinn.send("/lot/ACME/B-1", **form)
    assert quinn.status == 409 and "This changed since the page was shown" in quinn.text, quinn.text
    assert office.lines() == before
    quinn.fill("/lot/ACME/B-1", "sign", password="quinn's word")
    assert "Lot B-1 signed" in quinn.text


def test_nobody_signs_what_they_recorded(browse, office):
    frida = browse("frida")
    frida.get("/lot/ACME/B-1")
    frida.send("/lot/ACME/B-1", **{**frida.form("result"), "test": "PH", "value": "7", "day": "103"})
    frida.fill("/lot/ACME/B-1", "sign", password="frida's word")
    assert frida.status == 409 and "frida recorded results or movements of lot ACME B-1" in frida.text
    quinn = browse("quinn")
    quinn.get("/lot/ACME/B-1")
    quinn.fill("/lot/ACME/B-1", "sign", password="quinn's word")
    assert "Lot B-1 signed" in quinn.text


def test_a_lot_is_moved_and_scrapped(browse, office):
    anna, path = browse("anna"), "/lot/ACME/S-1"
    anna.get(path)
    anna.means(path, "split", sublot="BAY1", target="bay7", amount="200", day="103")
    assert "200 of lot S-1 moved from BAY1 to BAY7" in anna.text and "BAY7 200 kg" in anna.text
    anna.fill(path, "scrap", sublot="BAY7", amount="50", day="103", reason="")
    assert anna.status == 422 and office.rows("SELECT amount FROM sublots WHERE sublot = 'BAY7'") == [(200,)]
    anna.fill(path, "scrap", sublot="BAY7", amount="50", day="103", reason="torn bag")
    assert "50 of lot S-1 scrapped from BAY7" in anna.text
    assert asked(office)["notes"][0]["reason"] == "torn bag"


def test_find_leads_to_what_a_label_or_a_name_stands_for(browse):
    anna = browse("anna")
    for word, shown in (("acme/s-1/bay1", "Lot S-1"), ("S-1", "Lot S-1"), ("kettle", "KETTLE running"), ("ACME B-1", "Lot B-1")):
        anna.get(f"/find?q={word}")
        assert shown in anna.text and anna.status == 200, word
    anna.get("/find?q=O-1")
    assert "O-1/1 ACME · KETTLE" in anna.text and "1 / 3" in anna.text
    anna.get("/find?q=nothing")
    assert "Nothing has this name." in anna.text


def test_a_recall_shows_where_a_lot_went_and_is_noted(browse, office):
    anna = browse("anna")
    anna.get("/recall?q=HOUSE W-101")
    assert "It went into 2 lots" in anna.text and "B-1" in anna.text and "900 in TOTE1" in anna.text and "80 in TOTE2" in anna.text
    exported = office.lines()[-1]
    assert exported["login"] == "anna" and "recall" in exported["words"], exported


def test_what_is_not_there_is_said(browse):
    anna = browse("anna")
    for path, status in (("/lot/ACME/NONE", 409), ("/batch/ACME/O-1/77", 409), ("/order/ACME/NONE", 404), ("/nothing", 404), ("/batch/ACME/O-1/100", 404)):
        anna.get(path)
        assert anna.status == status and "This can't be done" in anna.text, path


def test_a_count_records_its_differences_once(browse, office):
    anna = browse("anna")
    anna.get("/count?owner=ACME&place=bay1")
    assert "BAY1 · S-1" in anna.text and "on hand: 4,700 kg" in anna.text and "TOTE1" not in anna.text.replace("TOTE1 ", "")
    form = {**anna.form(), "lot": "S-1", "sublot": "BAY1", "on_hand": "4700", "counted": "4690", "reason": ""}
    anna.send("/count", **form)
    assert anna.status == 409 and "a difference needs a reason" in anna.text, anna.text
    form["reason"] = "spilled"
    anna.send("/count", **form)
    assert anna.status in (200, 409), anna.text
    if anna.status == 409:  # the office's days are no dates, so today is unusual
        anna.send("/count", **form, meant="yes")
    assert anna.status == 200 and "S-1 BAY1: 4,700 → 4,690" in anna.text, anna.text
    line = asked(office)
    assert (line["login"], line["words"][0], line["words"][5], line["notes"][0]["reason"]) == ("anna", "scrap", "10", "spilled")
    before = office.content()
    anna.send("/count", **form, meant="yes")
    assert office.content() == before and "1 place is as on hand." in anna.text


def test_what_is_wrong_with_a_count_is_said_at_its_row_which_is_counted_again(browse, office):
    anna = browse("anna")
    anna.get("/count?owner=ACME")
    places = {"lot": ["B-1", "S-1"], "sublot": ["TOTE1", "BAY1"], "meant": "yes"}
    form = {**anna.form(), **places, "on_hand": ["900", "4700"], "counted": ["890", "4690"], "reason": ["leaked", ""]}
    assert office.run("split", "ACME", "K77", "B-1", "TOTE1", "TOTE9", "50", "103").status == 0
    before = office.content()
    anna.send("/count", **form)
    assert anna.status == 409 and office.content() == before
    assert "BAY1 · S-1: 4,690 counted and 4,700 on hand: a difference needs a reason" in anna.text, anna.text
    rows = {re.search(r'name="sublot" value="([^"]+)"', row)[1]: row for row in re.findall(r'<li class="count">.*?</li>', anna.page, re.S)}
    assert 'value="4690" aria-invalid="true"' in rows["BAY1"] and "a difference needs a reason" in rows["BAY1"]
    assert 'name="on_hand" value="850"' in rows["TOTE1"] and "Other movements changed what is on hand: count it again." in rows["TOTE1"]
    assert "890" not in rows["TOTE1"] and "leaked" not in rows["TOTE1"] and "aria-invalid" not in rows["TOTE2"]
    anna.send("/count", **{**form, "on_hand": ["850", "4700"], "counted": ["845", "4690"], "reason": ["leaked", "spilled"]})
    assert anna.status == 200, anna.text
    assert office.rows("SELECT sublot, amount FROM sublots WHERE sublot IN ('TOTE1', 'BAY1') AND owner = 'ACME' ORDER BY 1") == [("BAY1", 4_690), ("TOTE1", 845)]


def test_papers_and_labels_are_made_and_noted(browse, office, monkeypatch):
    pytest.importorskip("weasyprint")
    anna = browse("anna")
    anna.get("/papers/lot/ACME/S-1")
    assert "Certificate" in anna.text and "BAY1 4,700 kg" in anna.text
    form = anna.form("labels")
    for fields, name, first in (({"what": "labels", "sublot": "BAY1", "size": "100x50"}, "labels-ACME-S-1.pdf", b"%PDF"),
                                ({"what": "lot"}, "lot-ACME-S-1.pdf", b"%PDF"), ({"what": "recall"}, "recall-ACME-S-1.zip", b"PK")):
        reply = anna.client.post("/papers/lot/ACME/S-1", base_url="https://desk.example.com", headers={"Origin": "https://desk.example.com"}, data={**form, **fields})
        assert reply.status_code == 200, text_of(reply.text)
        assert reply.data.startswith(first) and name in reply.headers["Content-Disposition"]
    exported = [line for line in office.lines() if line.get("event") == "exported"]
    assert [(line["login"], line["words"][0]) for line in exported] == [("anna", "labels"), ("anna", "papers"), ("anna", "papers")]


@pytest.mark.parametrize("path", ["/ship?scan=S-1", "/batch/ACME/O-1/1?scan=S-1", "/find?q=S-1", "/recall?q=S-1"])
def test_a_name_that_several_lots_have_shows_which_of_them_is_held(browse, office, path):
    assert office.run("receive", "BOLT", "K70", "PIGMENT", "S-1", "BAY5", "5", "103").status == 0
    assert office.run("hold", "ACME", "S-1", "--reason", "metal found").status == 0
    rows = [row for row in re.findall(r'<li><a class="row".*?</li>', browse("frida").get(path), re.S) if "SALT" in row]
    assert [("on hold" in row, "released" in row) for row in rows] == [(True, False)], path


def test_a_question_that_was_left_without_an_answer_takes_no_other_ones(browse, office):
    anna, line = browse("anna"), {"material": "SALT", "lot": "S-9", "sublot": "BAY1", "amount": "5000"}
    anna.get("/receive?owner=ACME&material=SALT")
    anna.fill("/receive", **line, day="2031-01-01")
    assert anna.status == 409 and "in the future" in anna.text and 'value="yes"' in anna.page
    first = anna.hidden()["asked"]
    anna.fill("/receive", **line, day="2032-01-01")  # another day, and no answer
    assert anna.status == 409 and anna.page.count('name="asked"') == 1 and anna.hidden()["asked"] != first
    anna.fill("/receive", **line, day="103")
    assert anna.status == 409 or "received into lot S-9" in anna.text


def test_a_wrong_password_leaves_the_focus_where_the_next_try_is(browse):
    anna = browse()
    assert re.search(r"<input name=\"login\"[^>]* autofocus", anna.get("/login"))
    anna.send("/login", login="anna", password="wrong", to="/")
    assert re.findall(r"<input name=\"(\w+)\"[^>]* autofocus", anna.page) == ["password"]
