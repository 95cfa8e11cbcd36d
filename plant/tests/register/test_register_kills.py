"""Kills of what makes and reads notes, at each step: the journal verifies, the register is what rebuild makes, and nothing that was
answered is lost."""
import os
import pathlib

import pytest
from conftest import Plant
from hilpoven.core.journal.log import Journal
from hilpoven.core.journal.query import check
from hilpoven.model.register import file
from killed import kill_at, steps
from notes import links, noted
from test_kills import put

# What is killed, and the link that stands once it is done; none where it takes back the one that stood before.
COMMANDS = {
    "link": ("link ACME B-1 S-1 --why rework", ("ACME B-1", "ACME S-1")),
    "use": ("use ACME O-1 1 HOUSE W-101 TANK 5 103", ("ACME O-1/1", "HOUSE W-101")),
    "receive": ("receive ACME K9 BRINE B-1R BAY1 40 103 --of B-1 --why return", ("ACME B-1R", "ACME B-1")),
    "withdraw": ("note withdraw NOTE --reason no", None),
    "list": ("note list", None),
    "rebuild": ("register rebuild", None),
}
FIRST = ("ACME B-1", "HOUSE W-101")


def try_command(laid: Plant, folder: pathlib.Path, name: str, kills: int) -> int:
    """Kills a command at so many steps; how many of them it didn't survive."""
    words, link = COMMANDS[name]
    whole, killed = 0, 0
    for at in [0, *range(kills)]:
        plant = put(laid, folder)
        first = noted(plant, "link", "ACME", "B-1", "W-101", "--of-owner", "HOUSE", "--why", "use")
        if at % 2:
            links(plant)  # makes the register
        step = steps(whole, kills)[at] if whole and at < len(steps(whole, kills)) else 0
        given = words.replace("NOTE", first).split()
        ended = kill_at(plant, step, given, "")
        whole = whole or ended
        killed += not ended
        stand = links(plant)
        require_whole(plant)
        allowed = [[FIRST], [*([FIRST] if name != "withdraw" else []), *([link] if link else [])]]
        assert stand in (allowed if not ended else allowed[1:]), (step, stand)
        assert plant.run(*given).status in (0, 1)
        assert links(plant) == allowed[1], step
        require_whole(plant)
    return killed


def require_whole(plant: Plant) -> None:
    """The journal verifies, and the register is what a fold from its first line gives."""
    checked = check(str(plant.journal))
    assert checked.wrong == [] and checked.notes == [], checked
    journal = Journal(str(plant.journal), str(plant.db))
    assert file.difference(journal) == ""
    file.rebuild(journal)
    assert file.difference(journal) == "" and plant.run("verify").status == 0
    assert sorted(name for name in os.listdir(plant.folder) if "register" in name) == ["office.db.register"]


@pytest.mark.parametrize("name", COMMANDS)
def test_a_kill_loses_no_note(laid, tmp_path, monkeypatch, name):
    monkeypatch.setenv("TOLL", laid.program)
    assert try_command(laid, tmp_path / "office", name, 4) >= 3


@pytest.mark.long
@pytest.mark.parametrize("name", COMMANDS)
def test_many_kills_lose_no_note(laid, tmp_path, monkeypatch, name):
    monkeypatch.setenv("TOLL", laid.program)
    assert try_command(laid, tmp_path / "office", name, 40) >= 34
