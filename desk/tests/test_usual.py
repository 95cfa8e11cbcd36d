"""What is unusual is asked once, with what was before; what is usual is offered to be touched."""
import re

import pytest
from hilpoven_desk import reading

USUAL = {"lot": "S-2", "sublot": "BAY1", "amount": "4900", "day": "103"}


def choices(page: str, name: str) -> list[str]:
    """The choices that a page offers for a field."""
    return re.findall(rf'name="{name}_chosen" value="([^"]*)"', page)


@pytest.mark.parametrize("fields, doubt", [
    ({"lot": "D-2"}, "Lot D-2: no lot of SALT has such a name; the last one is S-1."),
    ({"lot": "S02"}, "Lot S02: no lot of SALT has such a name; the last one is S-1."),
    ({"sublot": "BAY2"}, "Place BAY2: nothing of SALT ever lay there, but at BAY1."),
    ({"amount": "490"}, "Amount 490: before it was 5,000."),
    ({"amount": "49000"}, "Amount 49,000: before it was 5,000."),
])
def test_a_receipt_that_is_unusual_is_asked_about_once(browse, office, fields, doubt):
    anna, before = browse("anna"), office.content()
    anna.get("/receive?owner=ACME&material=SALT")
    anna.fill("/receive", **{**USUAL, **fields})
    assert anna.status == 409 and doubt in anna.text and office.content() == before
    form = anna.page.partition("data-draft")[2].partition("</form>")[0]
    assert [re.search(r'name="answer"', button) is not None for button in re.findall(r"<button[^>]*>", form)] == [False, True]  # Enter presses the first
    other = {**USUAL, **fields, "lot": "QQ-1"}
    anna.fill("/receive", **other, answer="yes")  # an answer to one question is none to another
    assert anna.status == 409 and "Lot QQ-1" in anna.text and office.content() == before
    anna.fill("/receive", **{**USUAL, **fields})
    anna.fill("/receive", **{**USUAL, **fields}, answer="yes")
    assert anna.status == 200 and "Recorded." in anna.text, anna.text


def test_several_doubts_are_one_question_in_the_readers_language(browse, office):
    anna = browse("anna")
    anna.send("/language", language="de", to="/recall")
    anna.get("/receive?owner=ACME&material=SALT")
    anna.fill("/receive", lot="D-2", sublot="BAY2", amount="490", day="103")
    assert "Das ist ungewöhnlich. Charge D-2: Keine Charge von SALT heißt so; die letzte ist S-1. Platz BAY2: Dort lag noch nie SALT, aber auf BAY1. Menge 490: Vorher war es 5.000. Ja" in anna.text, anna.text
    anna.fill("/receive", lot="D-2", sublot="BAY2", amount="490", day="103", answer="yes")
    assert "Erfasst." in anna.text


def test_what_is_usual_is_offered_and_asks_nothing(browse, office):
    anna = browse("anna")
    page = anna.get("/receive?owner=ACME&material=SALT")
    assert [choices(page, name) for name in ("lot", "sublot", "amount")] == [["S-2"], ["BAY1"], ["5000"]]
    anna.fill("/receive", lot="", lot_chosen="S-2", sublot="", sublot_chosen="BAY1", amount="", amount_chosen="5000", day="103")
    assert "5,000 of SALT received into lot S-2 at BAY1" in anna.text, anna.text
    page = anna.get("/receive?owner=ACME&material=SALT")
    assert choices(page, "lot") == ["S-3"]


def test_a_first_receipt_of_a_material_is_compared_with_nothing(browse, office):
    anna = browse("anna")
    page = anna.get("/receive?owner=HOUSE&material=WATER")
    assert choices(page, "sublot") == ["TANK"]
    page = anna.get("/receive?owner=ACME&material=BRINE")
    assert not choices(page, "lot") and not choices(page, "amount")
    anna.fill("/receive", lot="X", sublot="TOTE1", amount="7", day="103")
    assert anna.status == 200 and "7 of BRINE received into lot X" in anna.text, anna.text


def test_what_is_chosen_and_typed_otherwise_is_told(browse, office):
    anna, before = browse("anna"), office.content()
    anna.get("/receive?owner=ACME&material=SALT")
    anna.fill("/receive", **{**USUAL, "amount": "400"}, amount_chosen="5000")
    assert anna.status == 422 and "Amount: 5000 is chosen, and 400 is typed." in anna.text and office.content() == before
    assert "checked" not in anna.page.partition('name="amount_chosen"')[2].partition(">")[0] and 'value="400"' in anna.page


def test_more_than_a_recipe_has_is_asked_about(browse, office):
    anna, path = browse("anna"), "/batch/ACME/O-1/1"
    anna.get(f"{path}?scan=ACME/S-1/BAY1")
    anna.fill(path, "consume", amount="31", day="103")
    assert anna.status == 409 and "Amount 31: with it 331 are recorded, and the recipe has 300." in anna.text, anna.text
    anna.fill(path, "consume", amount="30", day="103")
    assert "30 from S-1, BAY1, went in" in anna.text


def test_what_comes_out_is_compared_with_the_batch(browse, office):
    anna, path = browse("anna"), "/batch/ACME/O-1/1"
    page = anna.get(path)
    assert [choices(page, name) for name in ("lot", "sublot", "amount")] == [["B-1"], ["TOTE1", "TOTE2"], ["980"]]
    anna.fill(path, "produce", lot="B-2", sublot="TOTE9", amount="1000", day="103")
    for doubt in ("Amount 1,000: with it 1,980 are recorded, and the recipe has 1,000.", "Lot B-2: this batch made B-1.", "Place TOTE9: nothing of BRINE ever lay there, but at TOTE1, TOTE2."):
        assert doubt in anna.text, anna.text


def test_a_result_out_of_its_limits_is_asked_about(browse, office):
    anna = browse("anna")
    anna.get("/lot/ACME/B-1")
    form = {**anna.form("result"), "test": "DENSITY", "value": "1280", "day": "103"}
    anna.send("/lot/ACME/B-1", **form)
    assert anna.status == 409 and "DENSITY 1280 is out of its limits, 1,100 to 1,250." in anna.text, anna.text
    anna.send("/lot/ACME/B-1", **{**form, "asked": anna.hidden()["asked"], "answer": "yes"})
    assert "DENSITY of lot B-1: 1280" in anna.text


def test_a_customer_who_never_got_a_material_is_asked_about(browse, office):
    assert office.run("party", "add", "ACME", "SOUTH", "--name", "South Ltd", "--role", "customer").status == 0
    assert office.run("result", "ACME", "B-1", "PH", "7", "102").status == 0
    with office.serve() as server:
        assert server.ask("ACME", "POST", "/lots/B-1/release")[0] == 200
    anna = browse("anna")
    for party, amount, doubt in (("NORD", "300", ""), ("SOUTH", "100", "SOUTH: before, BRINE was of NORD."), ("NORD", "10", "Amount 10: before it was 100 – 300.")):
        page = anna.get("/ship?scan=ACME/B-1/TOTE1")
        assert choices(page, "amount")[-1] == str(900 - sum(row[0] for row in office.rows("SELECT amount FROM moves WHERE kind = 2")))
        (anna.means if doubt else anna.fill)("/ship", party=party, amount=amount, day="103")
        assert f"{amount} of lot B-1 shipped to {party}" in anna.text, anna.text


def test_a_recall_into_many_lots_shows_the_first_ones_and_says_so(browse, monkeypatch):
    monkeypatch.setattr(reading, "MOST_RECALLED", 1)
    anna = browse("anna")
    anna.get("/recall?q=HOUSE W-101")
    assert "It went into 2 lots" in anna.text and "Here are only the first 1 lots. The papers have all." in anna.text
