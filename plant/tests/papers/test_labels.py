"""Labels are printed in black and white at 203 dots an inch, and a reader of QR codes reads them: what it reads goes into commands."""
import datetime
import itertools
import pathlib
import re
import subprocess

import pytest
from conftest import PATIENCE, Plant, command, environment

DOTS = 203  # of an inch
SIDES = {20: 21, 38: 25, 61: 29}  # modules of a side of a code of at most so many letters, by ISO/IEC 18004: versions 1, 2 and 3 with a correction of 15 %
# The names that take most room, and those that are most alike; the measure is the longest.
LONGEST, ALIKE, MATERIAL, MEASURE = "W" * 16, "0OQ8B-I1L-2Z5S-W", "M-W-M-W-M-W-M-W-", "WWWWWWWW"
COUNT = 15  # sublots, one more than a sheet has labels
SHEET, ROLL = "99.1x38.1", "100x50"
PAGES = {SHEET: [14, 1], ROLL: [1] * COUNT}  # labels of each page
WORDS = 5 + 5 + 1 + 5  # of a label: captions, what stands behind them, a measure, and `◇ quarantined when printed, DAY`


@pytest.fixture(scope="module")
def hostile(program, tmp_path_factory) -> Plant:
    """An office with the longest names, and the largest amount in a sublot."""
    lines = [f"owner-add {LONGEST} {LONGEST}KEY1", f"material-add {LONGEST} {MATERIAL} {MEASURE}"]
    names = [ALIKE, *(f"{'W' * 14}{number:02}" for number in range(1, COUNT))]
    lines += [f"receive {LONGEST} K{number} {MATERIAL} {LONGEST} {name} 1000000000 261128" for number, name in enumerate(names)]
    return Plant(program, tmp_path_factory.mktemp("hostile")).lay("\n".join(lines))


@pytest.fixture(scope="module", params=[SHEET, ROLL])
def labels(hostile, request) -> tuple[str, pathlib.Path]:
    """Its labels of a size."""
    return request.param, labels_of(hostile, LONGEST, LONGEST, "--size", request.param)


def labels_of(plant: Plant, *words: object) -> pathlib.Path:
    """The labels that these words make, in a new file."""
    target = plant.folder / f"labels{len(list(plant.folder.glob('labels*.pdf')))}.pdf"
    done = plant.run("labels", *words, "--out", target)
    assert (done.status, done.out, done.err) == (0, "", ""), done
    return target


def printed(path: pathlib.Path) -> list[pathlib.Path]:
    """The pages as a printer of labels prints them, in black and white."""
    subprocess.run(["pdftoppm", "-r", str(DOTS), "-mono", path, path.with_suffix("")], check=True, timeout=PATIENCE)
    return sorted(path.parent.glob(f"{path.stem}-*.pbm"))


def read(page: pathlib.Path) -> list[str]:
    """What is read from the codes of a page."""
    done = subprocess.run(["zbarimg", "--nodbus", "--raw", "-q", page], capture_output=True, text=True, timeout=PATIENCE)
    return sorted(done.stdout.split())


def rows_of(page: pathlib.Path) -> list[str]:
    """The dots of a page by its rows, `1` for a black one (netpbm's P4)."""
    head = re.match(rb"P4\s(?:#.*\n)*(\d+)\s+(\d+)\s", page.read_bytes())
    wide, high = int(head[1]), int(head[2])
    bits, size = page.read_bytes()[head.end():], (wide + 7) // 8
    return ["".join(f"{byte:08b}" for byte in bits[row * size:(row + 1) * size])[:wide] for row in range(high)]


def code_of(page: pathlib.Path) -> tuple[list[str], int]:
    """The dots of the code of a roll's label, from its first black one to its last one, and the white ones beside it, at the least."""
    rows = [row[532:] for row in rows_of(page)]  # behind the longest text
    black = [at for at, row in enumerate(rows) if "1" in row]
    left, right = min(row.index("1") for row in rows if "1" in row), max(row.rindex("1") for row in rows if "1" in row)
    return [row[left:right + 1] for row in rows[black[0]:black[-1] + 1]], min(left, len(rows[0]) - 1 - right, black[0], len(rows) - 1 - black[-1])


def test_the_longest_names_are_read_from_each_label(hostile, labels):
    size, path = labels
    wanted = sorted(f"{LONGEST}/{LONGEST}/{name}" for name, in hostile.rows("SELECT sublot FROM sublots"))
    pages = list(map(read, printed(path)))
    assert list(map(len, pages)) == PAGES[size] and sorted(itertools.chain(*pages)) == wanted


def look_at_words(path: pathlib.Path, size: str, count: int) -> None:
    """The words of each label end before its code, and before the next label."""
    done = subprocess.run(["pdftotext", "-bbox", path, "-"], capture_output=True, text=True, check=True)
    form = r'<word xMin="([\d.]+)" yMin="([\d.]+)" xMax="([\d.]+)" yMax="([\d.]+)">([^<]*)'
    millimetres = [(*(float(edge) * 25.4 / 72 for edge in box[:4]), box[4]) for box in re.findall(form, done.stdout)]
    assert len(millimetres) == count
    for left, top, right, bottom, word in millimetres:
        column, row = (left - 4.65) // 101.6, (top - 15.15) // 38.1
        label = (4.65 + 101.6 * column, 15.15 + 38.1 * row, 99.1, 38.1) if size == SHEET else (0, 0, 100, 50)
        code = label[0] + label[2] - {SHEET: 232, ROLL: 260}[size] / DOTS * 25.4 - 1
        assert label[0] + 2 < left and right < code and label[1] + 1 < top and bottom < label[1] + label[3] - 1, word


def test_nothing_lies_over_anything_else(labels):
    size, path = labels
    look_at_words(path, size, COUNT * WORDS)


@pytest.mark.parametrize("owner, lot, sublot", [("ACME", "B-1", "TOTE1"), ("A", "LOT-261128-01", "TOTE-000001"), (LONGEST, LONGEST, LONGEST)])
def test_modules_are_whole_dots_within_a_margin_of_four(plant, owner, lot, sublot):
    plant.lay(f"owner-add {owner} {LONGEST}KEY1\nmaterial-add {owner} SALT kg\nreceive {owner} K1 SALT {lot} {sublot} 5 261128")
    (page,) = printed(labels_of(plant, owner, lot, "--size", ROLL))
    dots, margin = code_of(page)
    text = f"{owner}/{lot}/{sublot}"
    module, rest = divmod(len(dots), next(side for most, side in SIDES.items() if len(text) <= most))
    assert (rest, len(dots[0])) == (0, len(dots)) and module >= 7 and margin >= 4 * module
    assert all(len(list(run)) % module == 0 for line in [*dots, *zip(*dots)] for _, run in itertools.groupby(line))
    assert read(page) == [text]


def test_what_is_read_goes_into_commands(at_work):
    pages = [read(page)[0] for lot in ("S-1", "B-1") for page in printed(labels_of(at_work, "ACME", lot, "--size", ROLL))]
    assert sorted(pages) == ["ACME/B-1/TOTE1", "ACME/B-1/TOTE2", "ACME/S-1/BAY1"]
    (house,) = read(printed(labels_of(at_work, "HOUSE", "W-101"))[0])
    for words in (["ship", "K20", "ACME/S-1/BAY1", 5, 102], ["actual", "K21", "ACME", "O-1", 1, 1, "consumed", "SALT", "ACME/S-1/BAY1", 6, 102],
                  ["actual", "K22", "ACME", "O-1", 1, 1, "consumed", "WATER", house, 7, 102], ["actual", "K23", "ACME", "O-1", 1, 2, "produced", "BRINE", "ACME/B-1/TOTE2", 8, 102]):
        assert set(words) & {*pages, house} and at_work.run(*words).out == "accepted\n", words
    moves = at_work.rows("SELECT owner, mkey, lot_owner, lot, sublot, amount FROM moves WHERE mkey LIKE 'K2_' ORDER BY mkey")
    assert moves == [("ACME", "K20", "ACME", "S-1", "BAY1", 5), ("ACME", "K21", "ACME", "S-1", "BAY1", 6), ("ACME", "K22", "HOUSE", "W-101", "TANK", 7),
                     ("ACME", "K23", "ACME", "B-1", "TOTE2", 8)]
    words = [" ".join(entry["words"]) for entry in at_work.lines() if entry["event"] == "asked"]
    assert words[0] == "ship ACME K20 S-1 BAY1 5 102" and words[2] == "actual K22 ACME O-1 1 1 consumed WATER HOUSE W-101 TANK 7 102"


def text_of(path: pathlib.Path) -> str:
    """The text of a PDF, in one line."""
    return " ".join(subprocess.run(["pdftotext", "-raw", path, "-"], capture_output=True, text=True, check=True).stdout.split())


def test_a_label_has_its_sublot_and_nothing_else(at_work):
    day = datetime.date.today()
    texts = [f"owner ACME lot S-1 sublot BAY1 material SALT amount 4,700 kg ✓ released when printed, {date}" for date in (day, datetime.date.today())]
    assert text_of(labels_of(at_work, "ACME", "S-1")) in texts
    path = labels_of(at_work, "ACME", "B-1", "--size", ROLL)
    assert path.stat().st_mode & 0o777 == 0o600
    text = text_of(path)
    assert "900 kg ◇ quarantined when printed" in text and "80 kg ◇ quarantined" in text and text.count("BRINE") == 2
    info = subprocess.run(["pdfinfo", path], capture_output=True, text=True, check=True).stdout
    assert not {"BOLT", "PIGMENT", "HOUSE", "WATER"} & set(re.findall(r"\w+", f"{text} {info}")) and "office" not in info
    assert [entry["words"] for entry in at_work.lines()] == [["labels", "ACME", "S-1"], ["labels", "ACME", "B-1"]]


def test_a_label_says_that_its_lot_is_held(at_work):
    for lot in ("S-1", "B-1"):
        assert at_work.run("hold", "ACME", lot, "--reason", "metal in drum 7", "--day", 102).status == 0
    text = text_of(labels_of(at_work, "ACME", "S-1"))
    assert "✕ held (released) when printed, 20" in text and "metal" not in text
    path = labels_of(at_work, "ACME", "B-1", "TOTE1", "--size", ROLL)
    assert "✕ held (quarantined) when printed, 20" in text_of(path)
    look_at_words(path, ROLL, WORDS + 1)


def test_it_makes_labels_of_what_holds_something_or_is_named(at_work):
    at_work.lay("split ACME K30 B-1 TOTE2 TOTE3 80 102")
    (page,) = printed(labels_of(at_work, "ACME", "B-1"))
    assert read(page) == ["ACME/B-1/TOTE1", "ACME/B-1/TOTE3"]
    assert "sublot TOTE2 material BRINE amount 0 kg" in text_of(labels_of(at_work, "ACME/B-1/TOTE2"))
    assert at_work.lines()[-1]["words"] == ["labels", "ACME", "B-1", "TOTE2"]


@pytest.mark.parametrize("words, status, why", [
    (["ACME", "B-9"], 1, "there is no lot ACME B-9"), (["BOLT", "B-1"], 1, "there is no lot BOLT B-1"), (["ACNE", "B-1"], 1, "there is no owner ACNE"),
    (["ACME", "B-1", "TOTE9"], 1, "there is no sublot TOTE9 of lot ACME B-1"), (["ACME", "B-1", "tote1"], 2, "`tote1` has lower-case letters"),
    (["BOLT", "ACME/B-1/TOTE1"], 2, "OWNER is BOLT"), (["ACME/B-1/TOTE1", "TOTE2"], 2, "SUBLOT is TOTE2"), (["ACME", "B-1", "--size", "10x10"], 2, "10x10")])
def test_what_can_not_be_labelled_is_told(at_work, words, status, why):
    done = at_work.run("labels", *words, "--out", at_work.folder / "labels.pdf")
    assert done.status == status and why in done.err and not (at_work.folder / "labels.pdf").exists(), done


def test_a_lot_without_stock_has_no_labels(at_work):
    at_work.lay("scrap BOLT K9 P-1 BAY2 80 102")
    done = at_work.run("labels", "BOLT", "P-1", "--out", at_work.folder / "labels.pdf")
    assert done.status == 1 and "no sublot of lot BOLT P-1 holds anything" in done.err and "BAY2" in done.err


def test_not_too_many_labels_are_made_at_once(at_work):
    done = at_work.run("labels", "ACME", "S-1", *["BAY1"] * 501, "--out", at_work.folder / "labels.pdf")
    assert done.status == 1 and "501 labels of lot ACME S-1 are asked for, and at most 500 are made at once" in done.err


def test_labels_go_to_standard_output_or_to_a_new_file(at_work):
    words = ["--db", at_work.db, "labels", "ACME", "S-1"]
    done = command(*words, env=environment(TOLL=at_work.program), text=False)
    assert done.returncode == 0 and done.stdout.startswith(b"%PDF-") and done.stderr == b""
    target = at_work.folder / "labels.pdf"
    target.write_text("kept")
    refused = at_work.run("labels", "ACME", "S-1", "--out", target)
    assert refused.status == 2 and "is there already" in refused.err and target.read_text() == "kept"
    assert at_work.run("labels", "ACME", "S-1", "--out", target, "--force").status == 0 and target.read_bytes().startswith(b"%PDF-")


@pytest.mark.parametrize("module, why", [("weasyprint", "WeasyPrint isn't here"), ("segno", "segno isn't here")])
def test_without_the_package_of_papers_it_is_told(at_work, monkeypatch, module, why):
    import importlib.util

    find_spec = importlib.util.find_spec
    monkeypatch.setattr(importlib.util, "find_spec", lambda name, *arguments: None if name == module else find_spec(name, *arguments))
    done = at_work.run("labels", "ACME", "S-1", "--out", at_work.folder / "labels.pdf")
    assert done.status == 3 and why in done.err and "hilpoven-papers" in done.err and at_work.lines() == []
