"""Cleanings: the order on a unit over all files, `open` on one that isn't clean, what a recall lists as it may contain some, and `find`."""
import json

import pytest
from conftest import Plant

OPENED = "open BOLT P-1 KETTLE".split()
OF_BOLT = """
do ACME O-1 1 done
close ACME O-1 1
material-add BOLT PASTE kg
recipe-add BOLT PASTES 1
require BOLT PASTES 1 consumed BOLT PIGMENT 10
require BOLT PASTES 1 produced BOLT PASTE 10
> BOLT POST /lots/P-1/release
> BOLT POST /orders {"order":"P-1","recipe":"PASTES","batches":9}
"""

OF_CORK = """
owner-add CORK CORKKEY1
material-add CORK LACQUER kg
material-add CORK PAINT kg
recipe-add CORK PAINTS 1
require CORK PAINTS 1 consumed CORK LACQUER 10
require CORK PAINTS 1 produced CORK PAINT 10
> CORK POST /orders {"order":"Q-1","recipe":"PAINTS","batches":1}
open CORK Q-1 KETTLE
do CORK Q-1 1 start
do CORK Q-1 1 done
close CORK Q-1 1
"""
ACME_AGAIN = '> ACME POST /orders {"order":"O-2","recipe":"BRINE-10","batches":1}'


def batch_of_bolt(number: int, lot: str) -> str:
    """A batch of BOLT's that is open, and makes a lot."""
    return f"""
do BOLT P-1 {number} start
actual C{number} BOLT P-1 {number} 1 consumed PIGMENT BOLT P-1 BAY2 5 103
actual M{number} BOLT P-1 {number} 1 produced PASTE BOLT {lot} T1 5 103
do BOLT P-1 {number} done
close BOLT P-1 {number}
"""


@pytest.fixture
def soiled(at_work) -> Plant:
    """An office whose KETTLE held a batch of ACME's, and an order of BOLT's that waits."""
    return at_work.lay(OF_BOLT)


def rule(plant: Plant, text: str) -> None:
    """Has the settings say when units have to be clean."""
    from hilpoven.core import settings as site

    plant.settle()
    path = site.load.__defaults__[0]
    path.write_text(f"{path.read_text()}[clean]\n{text}\n")


def ran(plant: Plant, *words: object) -> str:
    """What a command that succeeds tells."""
    done = plant.run(*words)
    assert done.status == 0, (words, done)
    return done.out


def turns(plant: Plant) -> list[tuple]:
    """The order on KETTLE, the newest first: each batch with its file, and how it was cleaned."""
    tables = json.loads(ran(plant, "show", "unit", "KETTLE", "--json"))
    rows = tables.get("order over all files", [])
    return [(row["file"], row["order"], row["batch"]) if row["order"] else row["cleaned"] for row in rows]


RULES = {'owners = ["KETTLE"]': "batches of two owners: it held ACME, ACME O-1/1 last", 'materials = ["*"]': "other products: it held ACME BRINE",
         'always = ["KETTLE"]': "each batch: it held ACME O-1/1", 'allergens = ["KETTLE"]': "allergens: it held MILK and NUT"}


@pytest.mark.parametrize("text", RULES)
@pytest.mark.parametrize("refuses", [False, True])
def test_open_asks_or_refuses_until_the_unit_is_clean(soiled, text, refuses):
    rule(soiled, f'{text}\nopen = "refuse"' if refuses else text)
    ran(soiled, "describe", "material", "ACME", "SALT", "--allergen", "NUT", "--allergen", "MILK")
    before = soiled.content()
    done = soiled.run(*OPENED)
    assert done.status == 1 and RULES[text] in done.err and "wasn't cleaned; nothing is done" in done.err and "hilpoven clean KETTLE --how TEXT" in done.err, done
    assert soiled.content() == before and ("--yes" in done.err) != refuses
    if refuses:
        assert soiled.run(*OPENED, "--yes").status == 1 and soiled.content() == before
    ran(soiled, "clean", "KETTLE", "--how", "hot caustic", "--checked", "pH 7")
    assert ran(soiled, *OPENED) == "accepted\n"


def test_open_goes_on_where_it_is_meant_and_where_nothing_is_to_be_clean(soiled):
    rule(soiled, 'owners = ["MIXER"]\nallergens = ["KETTLE"]')
    assert ran(soiled, "open", "BOLT", "P-1", "MIXER") == ran(soiled, *OPENED) == "accepted\n"
    rule(soiled, 'owners = ["KETTLE"]')
    assert "UnitBusy" in (done := soiled.run("open", "ACME", "O-1", "KETTLE")).out and "clean" not in done.err  # `toll` refuses it
    soiled.lay("close BOLT P-1 2")
    assert ran(soiled, "open", "ACME", "O-1", "KETTLE", "--yes") == "accepted\n"
    assert soiled.toll("close", "ACME", "O-1", 2).out == soiled.toll("open", "BOLT", "P-1", "KETTLE").out == "accepted\n"  # which no setting stops


@pytest.mark.parametrize("text, why", [('open = "maybe"', 'to be "ask" or "refuse"'), ('owners = "KETTLE"', "a list of texts"), ("washed = []", "no line of [clean]")])
def test_wrong_settings_of_cleaning_are_told(soiled, text, why):
    rule(soiled, text)
    assert soiled.as_member("stock", "ACME").status == 2 and why in soiled.as_member("stock", "ACME").err


def test_a_unit_is_cleaned_behind_its_last_batch(soiled):
    soiled.lay("open BOLT P-1 KETTLE")
    done = soiled.run("clean", "KETTLE", "--how", "hot")
    assert done.status == 1 and "KETTLE runs batch BOLT P-1/1, and is cleaned behind it" in done.err
    assert soiled.run("clean", "KETLE", "--how", "hot").status == soiled.run("describe", "unit", "KETLE", "--name", "K").status == 1
    for how in ("", " ", "a\nb", "\x1b[2J", "x" * 201):
        assert soiled.run("clean", "MIXER", "--how", how).status == 2, how
    assert not [line for line in soiled.lines() if "notes" in line]


def test_a_recall_lists_what_held_a_unit_next_until_it_was_cleaned(soiled):
    today = soiled.run("recall", "ACME", "S-1").out
    soiled.lay("open BOLT P-1 KETTLE" + batch_of_bolt(1, "X-1") + "open BOLT P-1 KETTLE" + batch_of_bolt(2, "X-2"))
    assert ran(soiled, "recall", "ACME", "S-1") == today == soiled.toll("recall", "ACME", "S-1").out  # nothing is noted
    ran(soiled, "clean", "KETTLE", "--how", "hot")
    soiled.lay("open BOLT P-1 KETTLE" + batch_of_bolt(3, "X-3"))
    head, *lines = ran(soiled, "recall", "ACME", "S-1").removeprefix(today).splitlines()
    assert head.startswith("may contain some:") and [" ".join(line.split()) for line in lines] == [
        "KETTLE BOLT P-1/1 X-1 behind ACME O-1/1 not decided ?", "KETTLE BOLT P-1/2 X-2 behind ACME O-1/1 not decided ?"]
    assert ran(soiled, "years", "recall", "ACME", "S-1").splitlines()[-3:] == [head, *lines]
    ran(soiled, "note", "no-residue", "BOLT", "P-1", 2, "--reason", "rinse water was clear")
    ran(soiled, "link", "BOLT", "X-1", "--of-batch", "O-1", 1, "--of-owner", "ACME", "--why", "residue")
    rows = ran(soiled, "recall", "ACME", "S-1").removeprefix(today).splitlines()
    assert " ".join(rows[1].split()) == "1 BOLT X-1 quarantined 5 0 *"
    assert [" ".join(line.split()) for line in rows[3:]] == ["KETTLE BOLT P-1/2 X-2 behind BOLT P-1/1 nothing: rinse water was clear ?"]
    papers = soiled.folder / "made"
    ran(soiled, "papers", "recall", "ACME", "S-1", papers, "--no-pdf")
    assert (papers / "plant" / "recall.txt").read_text() == ran(soiled, "recall", "ACME", "S-1")
    assert (papers / "plant" / "may_contain.csv").exists() and [path.name for path in (papers / "owners").iterdir()] == ["ACME"]
    for path in (papers / "owners").rglob("*"):
        assert path.is_dir() or not {"BOLT", "X-1", "X-2", "KETTLE may", "may contain"} & set(path.read_text().split()), path


def test_the_order_on_a_unit_goes_over_two_carry_overs(soiled):
    assert turns(soiled) == []
    for file in (1, 2):
        ran(soiled, "clean", "KETTLE", "--how", f"first of {file}")
        soiled.lay("open BOLT P-1 KETTLE" + batch_of_bolt(1, f"X-{file}"))
        ran(soiled, "clean", "KETTLE", "--how", f"second of {file}")
        ran(soiled, "carry-over", soiled.folder / "next.db", "--day", 104)
        soiled.lay('> BOLT POST /orders {"order":"P-1","recipe":"PASTES","batches":9}')
    soiled.lay("open BOLT P-1 KETTLE")
    expected = [("", "P-1", 1), "second of 2", ("office-2.db", "P-1", 1), "first of 2", "second of 1", ("office-1.db", "P-1", 1), "first of 1", ("office-1.db", "O-1", 1)]
    assert turns(soiled) == expected
    ran(soiled, "register", "rebuild")
    assert turns(soiled) == expected
    rule(soiled, 'owners = ["KETTLE"]')
    soiled.lay('close BOLT P-1 1\n> ACME POST /orders {"order":"O-2","recipe":"BRINE-10","batches":1}')
    assert "it held BOLT, BOLT P-1/1 last" in soiled.run("open", "ACME", "O-2", "KETTLE").err


def test_what_a_unit_held_is_that_of_an_owner_that_left_too(soiled):
    """The newest file has nothing of its recipes."""
    ran(soiled, "clean", "KETTLE", "--how", "hot")
    soiled.lay(OF_CORK)
    ran(soiled, "describe", "material", "CORK", "LACQUER", "--allergen", "MILK")
    ran(soiled, "carry-over", soiled.folder / "next.db", "--day", 104, "--without", "CORK")
    for text, why in (('materials = ["KETTLE"]', "of other products: it held CORK PAINT"), ('allergens = ["KETTLE"]', "allergens: it held MILK")):
        rule(soiled, text)
        done = soiled.run(*OPENED)
        assert done.status == 1 and f"{why}, CORK Q-1/1 (office-1.db) last" in done.err, done


def test_an_allergen_that_a_batch_used_besides_its_recipe_counts(soiled):
    soiled.lay("material-add HOUSE AROMA kg\nreceive HOUSE K9 AROMA A-1 CAN 50 103\nrelease A-1")
    ran(soiled, "describe", "material", "HOUSE", "AROMA", "--allergen", "SOY")
    ran(soiled, "clean", "KETTLE", "--how", "hot")
    soiled.lay("open BOLT P-1 KETTLE\ndo BOLT P-1 1 start")
    ran(soiled, "use", "BOLT", "P-1", 1, "HOUSE", "A-1", "CAN", 1, 103, "--yes")
    soiled.lay(f"do BOLT P-1 1 done\nclose BOLT P-1 1\n{ACME_AGAIN}")
    rule(soiled, 'allergens = ["KETTLE"]')
    assert "allergens: it held SOY, BOLT P-1/1 last" in soiled.run("open", "ACME", "O-2", "KETTLE").err
    ran(soiled, "carry-over", "--day", 104)
    assert "allergens: it held SOY, BOLT P-1/1 (office-1.db) last" in soiled.run("open", "ACME", "O-2", "KETTLE").err


def test_a_batch_of_an_earlier_file_is_decided_of(soiled):
    soiled.lay("open BOLT P-1 KETTLE" + batch_of_bolt(1, "X-1"))
    ran(soiled, "clean", "KETTLE", "--how", "hot")
    ran(soiled, "carry-over", soiled.folder / "next.db", "--day", 104)
    assert "not decided" in ran(soiled, "years", "recall", "ACME", "S-1").splitlines()[-1]
    ran(soiled, "note", "no-residue", "BOLT", "P-1", 1, "--reason", "rinse water was clear")
    assert "nothing: rinse water was clear ?" in ran(soiled, "years", "recall", "ACME", "S-1").splitlines()[-1]


def test_a_case_names_what_may_contain_some_and_leaves_it_to_a_person(soiled):
    soiled.lay("open BOLT P-1 KETTLE" + batch_of_bolt(1, "X-1"))
    ran(soiled, "clean", "KETTLE", "--how", "hot")
    ran(soiled, "case", "open", "ACME", "S-1", "--reason", "metal")
    line = "KETTLE  BOLT P-1/1  X-1  behind ACME O-1/1  not decided ?"
    text = ran(soiled, "case", "status")
    assert "batches that may contain some: 1, of which 1 are not decided\n" in text and text.endswith(f"\n{line}\n"), text
    done = soiled.run("case", "hold")
    assert "X-1" not in done.out and "`hilpoven case status` has the batches, too, that may contain some" in done.err, done
    for folder, decided in (("before", "not decided"), ("after", "nothing: it was rinsed")):
        ran(soiled, "case", "paper", soiled.folder / folder, "--no-pdf")
        assert decided in (soiled.folder / folder / "plant" / "may_contain.csv").read_text()
        assert decided in (soiled.folder / folder / "plant" / "case.html").read_text()
        ran(soiled, "note", "no-residue", "BOLT", "P-1", 1, "--reason", "it was rinsed")
    assert "batches that may contain some: 1, of which 0 are not decided\n" in ran(soiled, "case", "status")


def test_a_cleaning_counts_until_it_is_withdrawn(soiled):
    rule(soiled, 'owners = ["KETTLE"]')
    name = ran(soiled, "clean", "KETTLE", "--how", "hot").split()[1]
    ran(soiled, "note", "withdraw", name, "--reason", "it was MIXER")
    assert soiled.run(*OPENED).status == 1


# find

FOUND = {
    "TR-77": [("lot", "ACME", "TR-77"), ("document", "ACME", "K21"), ("supplier's lot", "ACME", "K20"), ("reason", "ACME", "K22")],
    "tr-77": [("lot", "ACME", "TR-77"), ("document", "ACME", "K21"), ("supplier's lot", "ACME", "K20"), ("reason", "ACME", "K22")],
    "Süd  Handel": [("name", "ACME", "SALINE")], "SALINE": [("party", "ACME", "K20"), ("party", "ACME", "SALINE")],
    "K20": [("key", "ACME", "K20")], "BRINE-10": [], "%": [], "_": [], ".*": [], "TR-7": [], "TR": [], "77": [], "TR-778": [("reason", "ACME", "K23")],
}


@pytest.fixture
def searched(at_work) -> Plant:
    """An office whose notes have words with something beside them."""
    ran(at_work, "party", "add", "ACME", "SALINE", "--name", "Süd Handel, AG", "--role", "supplier")
    ran(at_work, "receive", "ACME", "K20", "SALT", "S-20", "BAY1", 10, 103, "--from", "SALINE", "--supplier-lot", "TR-77, drum 1", "--yes")
    ran(at_work, "receive", "ACME", "K21", "SALT", "TR-77", "BAY1", 10, 103, "--from", "SALINE", "--document", "note (tr-77)", "--yes")
    ran(at_work, "scrap", "ACME", "K22", "S-20", "BAY1", 1, 103, "--reason", "see TR-77.", "--yes")
    ran(at_work, "scrap", "ACME", "K23", "S-20", "BAY1", 1, 103, "--reason", "see TR-778", "--yes")
    return at_work


def places_of(plant: Plant, text: str) -> list[tuple]:
    """The kind, the owner and the name of all that has a text."""
    return sorted((row["kind"], row["owner"], row["name"]) for row in json.loads(ran(plant, "find", text, "--json")))


@pytest.mark.parametrize("text", FOUND)
def test_words_are_found_whatever_stands_beside_them(searched, text):
    expected = FOUND[text] + ([("party", "ACME", "K21")] if text == "SALINE" else [])
    assert places_of(searched, text) == sorted(expected)


def test_a_text_is_found_over_all_files(searched):
    searched.lay("do ACME O-1 1 done\nclose ACME O-1 1\nscrap ACME K24 TR-77 BAY1 10 103")
    ran(searched, "carry-over", searched.folder / "next.db", "--day", 104)
    assert places_of(searched, "TR-77") == sorted(FOUND["TR-77"])
    rows = json.loads(ran(searched, "find", "TR-77", "--json"))
    assert {row["file"] for row in rows} == {"office-1.db"}


@pytest.mark.parametrize("text", ["", " ", "\x1b[2J", "a\nb", "x" * 201])
def test_what_is_no_text_is_not_looked_for(at_work, text):
    assert at_work.run("find", text).status == 2
