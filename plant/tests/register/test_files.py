"""Notes over the files of an office: what went on keeps them, and another thing of its name has none."""
import pytest
from conftest import Plant
from hilpoven.cli.caller import person
from hilpoven.core.context import Context
from hilpoven.core.settings import load
from hilpoven.model.register import standing
from hilpoven.model.years import history
from notes import cut_off, links, noted, register_of

GONE = "receive ACME K8 SALT S-8 BAY1 5 101"  # a lot that will have nothing on hand
CLOSED = "do ACME O-1 1 done\nclose ACME O-1 1"
SCRAPPED = "scrap ACME K9 S-8 BAY1 5 101"


def over_all(plant: Plant) -> list[tuple[str, str]]:
    """The containers and the lots of the links over all files, by the names that they have there."""
    context = Context(load(), str(plant.db), person=person())
    with history.opened(context.office_to_read()) as whole:
        return [(str(link.container), str(link.contained)) for link in standing.standing_over_all(context.journal(), whole).links]


def carry(plant: Plant) -> None:
    """Carries the office over."""
    done = plant.run("carry-over", plant.folder / "next.db", "--day", 261127)
    assert done.status == 0, done


@pytest.fixture
def second(settled) -> Plant:
    """An office in its second file. In the first one a lot that came over and one that stayed behind have links, and a batch has one."""
    settled.lay(f"{GONE}\n{SCRAPPED}\n{CLOSED}")
    noted(settled, "link", "ACME", "B-1", "S-1", "--why", "rework")
    noted(settled, "link", "ACME", "S-8", "S-1", "--why", "correction")
    noted(settled, "link", "ACME", "B-1", "S-8", "--why", "return")
    noted(settled, "link", "ACME", "--batch", "O-1", 1, "W-101", "--of-owner", "HOUSE", "--why", "use")
    carry(settled)
    return settled


def test_a_lot_that_came_over_keeps_its_links(second):
    assert links(second) == [("ACME B-1", "ACME S-1"), ("ACME B-1", "HOUSE W-101")]
    assert over_all(second) == [("ACME B-1", "ACME S-1"), ("ACME S-8", "ACME S-1"), ("ACME B-1", "ACME S-8"), ("ACME O-1/1", "HOUSE W-101")]


def test_another_lot_of_the_name_has_no_link_of_the_first_one(second):
    assert second.toll(*GONE.split()).out == "accepted\n"
    assert links(second) == [("ACME B-1", "ACME S-1"), ("ACME B-1", "HOUSE W-101")]
    first = "ACME S-8 (office-1.db)"
    assert over_all(second)[1:3] == [(first, "ACME S-1"), ("ACME B-1", first)]
    noted(second, "link", "ACME", "B-1", "S-8", "--why", "return")
    assert ("ACME B-1", "ACME S-8") in links(second) and ("ACME B-1", "ACME S-8") in over_all(second)


def test_a_later_note_speaks_of_a_lot_of_an_earlier_file(second):
    done = second.run("receive", "ACME", "K30", "SALT", "S-8R", "BAY1", 5, 102, "--of", "S-8", "--why", "return")
    assert done.out == "accepted\n" and len(links(second)) == 2 and ("ACME S-8R", "ACME S-8") in over_all(second)


def test_a_note_of_an_earlier_file_is_withdrawn_in_a_later_one(second):
    name = next(entry["id"] for entry in second.lines() if entry["event"] == "note")
    noted(second, "note", "withdraw", name, "--reason", "no")
    assert links(second) == [("ACME B-1", "HOUSE W-101")]
    assert second.run("carry-over", second.folder / "next.db", "--day", 261128).status == 0
    assert len(over_all(second)) == 3


def test_a_key_that_an_earlier_file_has_is_repeated_and_its_note_stands(second):
    done = second.run(*GONE.split(), "--of", "S-1", "--why", "return")
    assert done.out == "repeated\n" and ("ACME S-8", "ACME S-1") in over_all(second)
    done = second.run("receive", "ACME", "K8", "SALT", "S-8", "BAY1", 6, 101, "--of", "B-1", "--why", "return")
    assert done.status == 1 and ("ACME S-8", "ACME B-1") not in over_all(second)


def test_a_command_that_was_cut_off_in_an_earlier_file_is_looked_for_there(settled):
    settled.lay(CLOSED)
    settled.run("receive", "ACME", "K9", "BRINE", "B-1R", "BAY1", 40, 103, "--of", "B-1", "--why", "return")
    cut_off(settled)
    carry(settled)
    assert links(settled) == [("ACME B-1R", "ACME B-1")] and over_all(settled) == links(settled)
    assert register_of(settled).not_linked == set() and "receipts of what" not in settled.run("status").out
