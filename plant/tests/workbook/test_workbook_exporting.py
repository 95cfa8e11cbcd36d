"""The workbook of an office makes an office of which the workbook is the same; no cell of it is a formula."""
import json
import os
import pathlib
import subprocess
import sys
import zipfile

import openpyxl
import pytest
from books import DAY_ONE, given, read_ods, read_xlsx
from conftest import AT_WORK, HILPOVEN, Plant
from hilpoven.core import settings as site

sys.path += [str(pathlib.Path(__file__).parent.parent / folder) for folder in ("papers", "register")]
import companions  # noqa: E402
from companions import Known  # noqa: E402
from offices import Filled  # noqa: E402
from week import PREPARED, WEEK, lived  # noqa: E402

TEXTS = ["=1+1", "-2+3", "@SUM(A1)", "+1", '="x"', "'quoted", "007", "1E5", "2026-11-27", "true", "# no remark", "<b>&amp;</b>", "a,b;c\"d", "Söhne & Töchter", "x" * 200]


def new_office(program: str, folder: pathlib.Path) -> Plant:
    folder.mkdir()
    plant = Plant(program, folder)
    assert plant.run("new", plant.db).status == 0
    return plant


def exported(plant: Plant, name: str = "book.xlsx") -> pathlib.Path:
    path = plant.folder / name
    done = plant.run("export", "workbook", path, "--force")
    assert done.status == 0 and done.out == "", done
    return path


def test_the_workbook_of_a_workbook_is_itself(plant, monkeypatch):
    monkeypatch.setenv("TOLL", plant.program)
    assert plant.run("new", plant.db).status == 0 and given(plant, DAY_ONE).status == 0
    book = read_xlsx(exported(plant))
    assert book == {title: [rows[0], *sorted(rows[1:])] for title, rows in DAY_ONE.items()}
    assert read_ods(exported(plant, "book.ods")) == book
    assert plant.run("import", "--what", "workbook", plant.folder / "book.ods").out == "".join(f"{title}: 0 accepted, {len(rows) - 1} there already\n" for title, rows in DAY_ONE.items())


KINDS = ("filled", "known")
OFFICES = ["at-work", "week", *(f"{kind}-{seed}" for kind in KINDS for seed in range(2)), *(pytest.param(f"{kind}-{seed}", marks=pytest.mark.long) for kind in KINDS for seed in (2, 3))]


def generated(name: str, program: str, folder: pathlib.Path) -> Plant:
    """An office of the generators. Those of which all is noted have some of the plant's own tests: by the settings of
    every other one."""
    kind, _, seed = name.partition("-")
    if kind == "filled":
        return Filled(program, folder, int(seed)).plant
    if kind == "known":
        folder.mkdir()
        plant, settings = Known(program, folder, int(seed)).plant, site.load.__defaults__[0]
        settings.write_text(settings.read_text().partition("[quality]")[0] + ('[quality]\ntest = "QA"\n' if int(seed) % 2 else ""))
        return plant
    folder.mkdir()
    plant = Plant(program, folder)
    return plant.lay(AT_WORK) if kind == "at" else lived(plant, PREPARED + WEEK)


def without_plants_tests(plant: Plant) -> dict:
    """All rows but the plant's own tests."""
    rows = plant.content()
    return {**rows, "tests": [row for row in rows["tests"] if row[2] != companions.QA]}


@pytest.mark.parametrize("name", OFFICES)
def test_what_is_exported_is_imported_and_exported_again(program, tmp_path, name, monkeypatch):
    monkeypatch.setenv("TOLL", program)
    monkeypatch.setattr(companions, "DAYS", (261101,))  # no lot expires before it is made
    first, second = generated(name, program, tmp_path / "first"), new_office(program, tmp_path / "second")
    book = exported(first)
    form = "book.ods" if name.endswith(("1", "3")) else "book.xlsx"
    done = second.run("import", "--what", "workbook", "--yes", exported(first, form))
    assert done.status == 0, done.err
    assert read_xlsx(exported(second)) == read_xlsx(book)
    before = second.content()
    assert " 0 accepted" in second.run("import", "--what", "workbook", "--yes", book).out and second.content() == before
    before = without_plants_tests(first)
    done = first.run("import", "--what", "workbook", "--yes", book)  # its own workbook says nothing new but the plant's own tests
    new = {line.split(": ")[0] for line in done.out.splitlines() if ": 0 accepted" not in line}
    assert done.status == 0 and without_plants_tests(first) == before and new <= ({"Materials"} if name in ("known-1", "known-3") else set())


def test_no_cell_is_a_formula_and_each_text_comes_back(plant, monkeypatch):
    monkeypatch.setenv("TOLL", plant.program)
    plant.run("new", plant.db)
    names = [f"M{number}" for number in range(len(TEXTS))]
    for name, text in zip(names, TEXTS):
        assert plant.run("material-add", "HOUSE", name, "kg").status == 0
        assert plant.run("describe", "material", "HOUSE", name, f"--name={text}").status == 0
    path = exported(plant)
    sheet = openpyxl.load_workbook(path)["Materials"]
    assert all(cell.data_type != "f" for row in sheet.iter_rows() for cell in row)
    for form in ("book.xlsx", "book.ods"):
        other = new_office(plant.program, plant.folder / form.replace(".", "-"))
        assert other.run("import", "--what", "workbook", exported(plant, form)).status == 0
        rows = json.loads(other.run("list", "materials", "--json").out)
        assert {row["material"]: row["noted_name"] for row in rows} == dict(zip(names, TEXTS))


def test_an_empty_office_gives_the_template(plant, monkeypatch):
    monkeypatch.setenv("TOLL", plant.program)
    plant.run("new", plant.db)
    path = exported(plant)
    for sheet in openpyxl.load_workbook(path).worksheets:
        head, help_line = list(sheet.iter_rows(values_only=True))
        assert list(head) == DAY_ONE[sheet.title][0] and all(help_line) and help_line[0].startswith("# ")
    assert plant.run("import", "--what", "workbook", path).out == "no row is in any table\n"


def test_it_says_what_the_workbook_can_t(at_work, monkeypatch):
    monkeypatch.setenv("TOLL", at_work.program)
    done = at_work.run("export", "workbook", at_work.folder / "book.xlsx")
    assert "2 lots are released, which the workbook doesn't say: opening stock is quarantined." in done.err
    assert at_work.lines()[-1]["event"] == "exported" and at_work.lines()[-1]["words"] == ["export", "workbook"]


def test_no_key_of_an_owner_is_in_it(at_work, monkeypatch):
    monkeypatch.setenv("TOLL", at_work.program)
    path = exported(at_work)
    with zipfile.ZipFile(path) as archive:
        assert not any(b"ACMEKEY1" in archive.read(part) or b"BOLTKEY1" in archive.read(part) for part in archive.namelist())


@pytest.mark.parametrize("name, options, why", [
    ("book.csv", [], "a workbook's name ends with .xlsx or .ods"), ("book", [], "a workbook's name ends with .xlsx or .ods"), ("book.xlsx", ["--ods"], "the name ends with .xlsx"),
    ("link.xlsx", ["--force"], "is no file"), ("there.xlsx", [], "is there already"), ("no/book.xlsx", [], "is no folder"),
])
def test_it_goes_nowhere_else(at_work, name, options, why, monkeypatch):
    monkeypatch.setenv("TOLL", at_work.program)
    (at_work.folder / "link.xlsx").symlink_to("target.xlsx")
    (at_work.folder / "there.xlsx").write_text("mine")
    lines = at_work.lines()
    done = at_work.run("export", "workbook", at_work.folder / name, *options)
    assert done.status == 2 and why in done.err and at_work.lines() == lines
    assert not (at_work.folder / "target.xlsx").exists() and (at_work.folder / "there.xlsx").read_text() == "mine"


def test_standard_output_gets_either_form(at_work):
    for options, part in (([], b"xl/workbook.xml"), (["--ods"], b"content.xml")):
        done = subprocess.run([HILPOVEN, "--db", at_work.db, "export", "workbook", *options], capture_output=True, env={**os.environ, "TOLL": at_work.program}, timeout=120)
        assert done.returncode == 0 and done.stdout.startswith(b"PK") and part in done.stdout
