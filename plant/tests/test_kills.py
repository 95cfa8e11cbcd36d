"""Kills of the command at each step: the file is as `toll` left it, and the journal verifies."""
import pathlib
import shutil

import pytest
from conftest import Plant
from hilpoven.core.journal.query import check
from killed import kill_at, steps

SHEET = """key,owner,order,batch,segment,use,material,lot_owner,lot,sublot,amount,day
K20,ACME,O-1,1,1,consumed,SALT,ACME,S-1,BAY1,1,102
K21,ACME,O-1,1,1,consumed,SALT,ACME,S-1,BAY1,2,102
K22,ACME,O-1,1,1,consumed,SALT,ACME,S-1,BAY1,999999,102
"""
# What is killed: words, what they take from standard input, and whether the same words again are told as done before.
COMMANDS = {
    "receive": ("receive ACME K9 SALT S-9 BAY1 5 101", ""),
    "refused": ("receive ACME K1 SALT S-1 BAY1 9 101", ""),
    "import": ("import sheet.csv", ""),
    "receipts": ("import --what receipts receipts.csv", ""),
    "owner": ("owner add CARL", "CARLSKEY1\n"),
    "key": ("owner key ACME", "ACMEKEY2\n"),
    "new": ("new other.db", ""),
    "backup": ("backup backups", ""),
}


def put(laid: Plant, folder: pathlib.Path) -> Plant:
    """The office at work with its sheets, as if nothing had been done."""
    shutil.rmtree(folder, ignore_errors=True)
    (folder / "backups").mkdir(parents=True)
    for end in ("", "-wal"):
        if pathlib.Path(f"{laid.db}{end}").exists():
            shutil.copyfile(f"{laid.db}{end}", folder / f"office.db{end}")
    (folder / "sheet.csv").write_text(SHEET)
    (folder / "receipts.csv").write_text("owner,key,material,lot,sublot,amount,day\nACME,K30,SALT,S-30,BAY1,5,102\nACME,K31,SALT,S-30,BAY1,5,102\n")
    return Plant(laid.program, folder)


def fronts(laid: Plant, folder: pathlib.Path, words: list[str]) -> list[dict]:
    """The rows that a command may leave: those from before, those after, and of receipts those between."""
    plant = put(laid, folder)
    contents = [plant.content()]
    if words[:1] == ["import"] and "receipts" in words:
        plant.toll("receive", "ACME", "K30", "SALT", "S-30", "BAY1", "5", "102")
        contents.append(plant.content())
    return contents


def try_command(laid: Plant, folder: pathlib.Path, name: str, kills: int) -> int:
    """Kills a command at so many steps, and looks at what is left; how often it was killed."""
    words, stdin = COMMANDS[name][0].split(), COMMANDS[name][1]
    allowed = fronts(laid, folder, words)
    put(laid, folder).run(*[str(folder / word) if word.endswith((".csv", ".db")) else word for word in words], stdin=stdin)
    plant, done = put(laid, folder), 0
    whole = kill_at(plant, 0, words, stdin)
    after = plant.content()
    assert whole and check(str(plant.journal)).unanswered == []
    for step in steps(whole, kills):
        plant = put(laid, folder)
        done += not kill_at(plant, step, words, stdin)
        assert plant.content() in [*allowed, after], step
        for journal in folder.glob("*.journal"):
            checked = check(str(journal))
            assert checked.wrong == [] and checked.notes == [] and len(checked.unanswered) <= 1, step
        if name == "backup":
            assert all(path.name.startswith(("office-", ".hilpoven.")) for path in (folder / "backups").iterdir())
        elif name == "new":
            assert not (folder / "other.db").exists() or plant.toll("stock", "HOUSE", db=folder / "other.db").status == 0
        elif name == "owner" and plant.content() == after:
            assert plant.run("owner", "key", "CARL", stdin=stdin).status == 0
        else:
            assert plant.run(*[str(folder / word) if word.endswith(".csv") else word for word in words], stdin=stdin).status in (0, 1)
            assert plant.content() == after, step
        assert check(str(plant.journal)).wrong == []
    return done


@pytest.mark.parametrize("name", COMMANDS)
def test_a_kill_leaves_what_toll_left(laid, tmp_path, name):
    assert try_command(laid, tmp_path / "office", name, 7) >= 5


@pytest.mark.long
@pytest.mark.parametrize("name", COMMANDS)
def test_many_kills_leave_what_toll_left(laid, tmp_path, name):
    assert try_command(laid, tmp_path / "office", name, 40) >= 30


def old_rows(plant: Plant) -> list[dict]:
    """The rows of each office that was moved aside; of one whose log stands elsewhere, as it is then found."""
    contents = []
    for folder in plant.folder.glob("office-before-restore-*"):
        if (folder / "office.db").exists():
            if not (folder / "office.db-wal").exists() and pathlib.Path(f"{plant.db}-wal").exists():
                shutil.copyfile(f"{plant.db}-wal", folder / "office.db-wal")
            contents.append(plant.content(folder / "office.db"))
    return contents


def try_restore(laid: Plant, folder: pathlib.Path, kills: int) -> int:
    """Kills a restore at so many steps: old rows are never lost, and a restore again puts the backup in place."""
    plant = put(laid, folder)
    assert plant.run("backup", folder / "backups").status == 0
    backup = next((folder / "backups").glob("*.db"))
    saved, kept = plant.content(), folder.with_name("kept.db")
    for end in ("", ".journal"):
        shutil.copyfile(f"{backup}{end}", f"{kept}{end}")
    assert plant.run("restore", kept).status == 0
    whole, done = 0, 0
    for step in [0, *range(kills)]:
        plant = put(laid, folder)
        plant.lay("unit-add PRESS")
        changed = plant.content()
        at = 0 if not whole else steps(whole, kills)[step] if step < len(steps(whole, kills)) else 0
        ended = kill_at(plant, at, ["restore", str(kept)], "")
        whole = whole or ended
        done += not ended
        content = plant.content() if plant.db.exists() else None
        assert content in (None, saved, changed) and (content == changed or changed in old_rows(plant)), at
        if content is None:
            assert "there is no file" in plant.run("stock", "ACME").err
        assert plant.run("restore", kept).status == 0 and plant.content() == saved
        assert check(str(plant.journal)).wrong == []
    return done


def test_a_kill_of_a_restore_loses_nothing(laid, tmp_path):
    assert try_restore(laid, tmp_path / "office", 10) >= 8


@pytest.mark.long
def test_many_kills_of_a_restore_lose_nothing(laid, tmp_path):
    assert try_restore(laid, tmp_path / "office", 100) >= 80
