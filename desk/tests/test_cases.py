"""Recall cases by the screens leave the journal's lines of the same words typed, and the papers of both are alike."""
from mistakes import Saved


def noted(office, first: int) -> list[tuple]:
    """The journal's lines that record something, without who gave them and when."""
    kept = ("event", "words", "notes", "answer", "status")
    return [tuple(line.get(name) for name in kept) for line in office.lines()[first:] if line.get("event") != "exported"]


def test_a_case_by_the_screens_is_the_case_of_typed_words(browse, office, tmp_path):
    assert office.run("result", "ACME", "B-1", "PH", "7", "102").status == 0
    with office.serve() as server:
        assert server.ask("ACME", "POST", "/lots/B-1/release")[0] == 200
    assert office.run("ship", "ACME", "K80", "B-1", "TOTE1", "300", "103", "--to", "NORD").status == 0
    first, before = len(office.lines()), Saved(office, tmp_path / "before")
    anna = browse("anna")
    anna.get("/recall?q=ACME S-1")
    anna.fill("/case", reason="metal in bag 3")
    assert anna.status == 200 and "Case C-1 opened" in anna.text and "Nord Chemie AG ACME · B-1 · 300 kg" in anna.text, anna.text
    assert "not accounted for: 300 kg" in anna.text
    anna.send("/language", language="de", to="/case/C-1")
    assert "lots" not in anna.text and "2, davon 2 vorhanden und von diesen 0 gesperrt" in anna.text and "Kunden, die geantwortet haben 0 von 1, 0.0 %" in anna.text, anna.text
    anna.send("/language", language="en", to="/case/C-1")
    anna.fill("/case/C-1", "hold")
    assert "all that is on hand is held" in anna.text and "held: 3" in anna.text, anna.text
    anna.fill("/case/C-1", "reply", back="400", destroyed="", gone="")
    assert anna.status == 409 and "had 300 kg of B-1, and 400 are more" in anna.text, anna.text
    anna.fill("/case/C-1", "reply", back="200", destroyed="x", gone="")
    assert anna.status == 422, anna.text
    anna.fill("/case/C-1", "reply", back="200", destroyed="60", gone="")
    assert "The answer of NORD is noted" in anna.text and "not accounted for: 40 kg" in anna.text, anna.text
    anna.fill("/case/C-1", "close", reason="")
    assert anna.status == 409 and "not all of it is accounted for" in anna.text
    anna.fill("/case/C-1", "close", reason="40 kg were used up")
    assert "Case C-1 closed" in anna.text and "Close the case" not in anna.text
    assert "metal in bag 3" in anna.get("/cases") and "closed" in anna.text
    own, content = noted(office, first), office.content()
    assert {line.get("login") for line in office.lines()[first:] if line.get("words")} == {"anna"}
    before.set_back()
    for words in TYPED:
        assert office.run(*words).status == 0, words
    assert noted(office, first) == own and office.content() == content
    assert len([line for line in own if line[1] and line[1][0] == "case"]) == len(TYPED)


TYPED = [("case", "open", "ACME", "S-1", "--reason", "metal in bag 3"), ("case", "hold"), ("case", "reply", "ACME", "NORD", "B-1", "--back", "200", "--destroyed", "60", "--case", "C-1"),
         ("case", "close", "--reason", "40 kg were used up")]


def test_a_case_needs_the_role(browse, office):
    nora = browse("nora")
    nora.get("/recall?q=ACME S-1")
    assert "Open a recall case" not in nora.text
    quinn = browse("quinn")
    quinn.get("/recall?q=ACME S-1")
    assert "Open a recall case" in quinn.text
    before = office.lines()
    nora.send("/case", token=nora.token(), owner="ACME", lot="S-1", reason="x")
    assert nora.status == 409 and "by the role" in nora.text
    assert [line for line in office.lines() if line.get("event") != "exported"] == [line for line in before if line.get("event") != "exported"]
    nora.get("/case/C-9")
    assert nora.status == 409 and "there is no case C-9" in nora.text
    nora.get("/case/..%5cx")
    assert nora.status in (404, 409)


def test_a_suppliers_lot_is_found_and_begins_a_case(browse, office):
    for owner, words in (("ACME", ("--supplier-lot", "(TR-77, drum 3)")), ("BOLT", ("--document", "TR-77"))):
        assert office.run("note", "movement", owner, "K1", *words).status == 0
    anna = browse("anna")
    for address in ("/find?q=tr-77", "/recall?q=tr-77"):
        anna.get(address)
        assert "S-1" in anna.text and "P-1" in anna.text, anna.text
        assert "Nothing has this name." in anna.get(address.replace("77", "7")), anna.text
    assert "Lots that came with TR-77" in anna.get("/recall?q=tr-77")
    first = len(office.lines())
    anna.fill("/case", reason="metal")
    assert anna.status == 200 and "Case C-1 opened" in anna.text, anna.text
    assert [line[1] for line in noted(office, first)] == [["case", "open", "--supplier-lot", "TR-77", "--document", "TR-77", "--reason", "metal"]]
    assert office.run("note", "movement", "ACME", "K1", "--supplier-lot", "TR-78").status == 0
    anna.get("/find?q=TR-77")  # of one lot now, which is shown
    assert "P-1" in anna.text and "S-1" not in anna.text
