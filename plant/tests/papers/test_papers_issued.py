"""What papers that leave the plant say of who issued them and when, and what they say of lots that aren't to be used."""
import datetime
import os
import pathlib
import pty
import re
import subprocess
import zoneinfo

import figures
import pytest
from conftest import HILPOVEN, Plant, environment, script
from hilpoven.cli import caller
from hilpoven.report.papers import printing
from hilpoven.core.days import day_of
from test_certificates import PLANT, Page, settle
from test_papers_texts import SHIPPED

PAGE = pathlib.Path(__file__).resolve().parents[3] / "page"
LEAVING = {  # by the words of a paper: the page that an owner or its customer gets
    "certificate ACME B-1": "certificate.html", "delivery-note ACME K7": "delivery.html", "statement ACME --from 0 --to 999999": "statement.html", "batch ACME O-1 1": "batch.html",
    "lot ACME B-1": "lot.html", "settlement ACME --from 0 --to 999999": "settlement.html", "takeout ACME": "takeout.html", "recall HOUSE W-101": "owners/ACME/recall.html",
}
LETTERHEAD = [PLANT[name] for name in ("name", "address", "contact")]
CLERK = "anna-of-the-plant"


@pytest.fixture
def shipped(at_work, monkeypatch) -> Plant:
    """An office that shipped, whose settings say who the plant is, and whose command a clerk gives."""
    monkeypatch.setattr(caller, "login_number", lambda: caller.NOBODY)
    monkeypatch.setenv("SUDO_USER", CLERK)
    settle(at_work.lay(SHIPPED), **PLANT)
    return at_work


def folder_of(plant: Plant, words: str, *options: str) -> pathlib.Path:
    """The folder of a paper."""
    done = plant.run("papers", *words.split(), plant.folder / "made", *options)
    assert (done.status, done.err) == (0, ""), done
    return plant.folder / "made"


@pytest.mark.parametrize("words", LEAVING, ids=lambda words: words.split()[0])
def test_what_leaves_the_plant_says_who_issued_it_and_when_and_names_no_login(shipped, words):
    folder, today = folder_of(shipped, words, "--no-pdf"), datetime.date.today()
    page = (folder / LEAVING[words]).read_text().split("</style>")[1]
    assert all(page.count(text) >= 1 for text in LETTERHEAD) and page.index(LETTERHEAD[0]) < page.index("<h1>") and f"Issued on {today}" in page
    assert not [file for file in folder.rglob("*") if file.is_file() and "plant" not in file.parts[-2:-1] and CLERK in file.read_text()]


def test_the_plants_own_paper_has_no_letterhead_and_names_the_login(shipped):
    page = (folder_of(shipped, "recall HOUSE W-101", "--no-pdf") / "plant" / "recall.html").read_text()
    assert f" by {CLERK} from office.db" in page and LETTERHEAD[0] not in page and "Issued" not in page


@pytest.mark.parametrize("zone", ("Pacific/Kiritimati", "Pacific/Pago_Pago"))  # a day apart at each time
def test_the_date_of_issue_is_the_plants(shipped, zone):
    lines = (shipped.folder / "hilpoven.toml").read_text()
    (shipped.folder / "hilpoven.toml").write_text(f'time_zone = "{zone}"\n{lines}')
    page = (folder_of(shipped, "certificate ACME B-1", "--no-pdf") / "certificate.html").read_text()
    assert f"Issued on {datetime.datetime.now(zoneinfo.ZoneInfo(zone)).date()}" in page


def test_a_delivery_note_has_its_sender(shipped):
    folder = folder_of(shipped, "delivery-note ACME K7", "--no-pdf")
    page = (folder / "delivery.html").read_text()
    assert f"<dt>sender</dt><dd>{PLANT['name']}, {PLANT['address']}</dd>" in page
    assert (folder / "shipments.csv").read_text().splitlines()[0] == "day,key,lot,sublot,material,amount,measure"


def test_without_settings_a_delivery_note_has_room_for_its_sender(at_work):
    page = (folder_of(at_work.lay(SHIPPED), "delivery-note ACME K7", "--no-pdf") / "delivery.html").read_text()
    assert "<dt>sender" not in page and "<p>Sender</p>" in page


def test_a_certificate_has_the_specification(shipped):
    file = folder_of(shipped, "certificate ACME B-1", "--no-pdf") / "certificate.html"
    text = " ".join(figures.text_of_page(file).split())
    assert "Specification and results Specification of BRINE: the limits of each test, as agreed with ACME." in text and "limits from" in text
    assert [row[:4] for row in Page(file).rows] == [["DENSITY", "1,100", "1,250", "1,180"], ["PH", "-5", "9", "2"]]


def test_a_logo_that_cannot_be_used_stops_a_certificate_and_no_recall(shipped):
    settle(shipped, **PLANT, logo="away.png")
    done = shipped.run("papers", "certificate", "ACME", "B-1", shipped.folder / "none", "--no-pdf")
    assert done.status == 2 and "away.png can't be used" in done.err and not (shipped.folder / "none").exists()
    done = shipped.run("papers", "recall", "HOUSE", "W-101", shipped.folder / "made", "--no-pdf")
    assert done.status == 0 and "Without the logo" in done.err
    assert LETTERHEAD[0] in (shipped.folder / "made" / "owners" / "ACME" / "recall.html").read_text()


def boxes_of(file: pathlib.Path) -> list[tuple[str, list[float]]]:
    """The words of a PDF's first page, with the left, upper, right and lower edge of each."""
    text = subprocess.run(["pdftotext", "-bbox", "-l", "1", file, "-"], capture_output=True, text=True, check=True).stdout
    return [(word, [float(edge) for edge in edges]) for *edges, word in re.findall(r'xMin="([0-9.]+)" yMin="([0-9.]+)" xMax="([0-9.]+)" yMax="([0-9.]+)">([^<]*)<', text)]


def test_what_says_that_a_lot_is_not_to_be_used_covers_nothing(plant):
    tests = "\n".join(f"test-add ACME SALT T{number:02d} 1 9" for number in range(20))
    results = "\n".join(f"result ACME S-1 T{number:02d} 5 261102" for number in range(20))
    plant.lay(f"owner-add ACME ACMEKEY1\nmaterial-add ACME SALT kg\n{tests}\nreceive ACME K1 SALT S-1 BAY1 500 261101\n{results}")
    for state in ("not released", "held"):
        folder = plant.folder / state.replace(" ", "-")
        assert plant.run("papers", "certificate", "ACME", "S-1", folder).status == 0
        boxes = boxes_of(folder / "certificate.pdf")
        large = [box for _, box in boxes if box[3] - box[1] > 20]
        assert len(large) >= len(state.split()), boxes
        for _, (left, upper, right, lower) in boxes:
            assert not any(left < box[2] and box[0] < right and upper < box[3] and box[1] < lower for box in large if box != [left, upper, right, lower])
        assert plant.run("hold", "ACME", "S-1", "--reason", "metal").status == 0


@pytest.mark.parametrize("days, is_past", ((("--expires", -1), True), (("--expires", 0), False), (("--retest", -1), True), (("--retest", 30), False)))
def test_a_lot_past_its_day_says_so_on_certificates_and_labels(shipped, days, is_past, monkeypatch):
    event, after = days
    when = datetime.date.today() + datetime.timedelta(after)
    assert shipped.run("describe", "lot", "ACME", "B-1", event, day_of(when)).status == 0
    page = (folder_of(shipped, "certificate ACME B-1", "--no-pdf") / "certificate.html").read_text().split("</style>")[1]
    assert ("This lot is released." in page) != is_past and ('<p class="stamp">past its day</p>' in page) == is_past
    sentence = "Lot ACME B-1 expired on" if event == "--expires" else "Lot ACME B-1 was to be tested again by"
    assert (f"{sentence} {when}: it is not to be used." in page) == is_past
    monkeypatch.setattr(printing, "pdf_of", lambda text, tables=None: text.encode())
    assert shipped.run("labels", "ACME", "B-1", "--out", shipped.folder / "label").status == 0
    words = {"--expires": ("expires", "✕ expired on"), "--retest": ("retest by", "✕ retest was due")}[event][is_past]
    assert f"<p>{words} {when}</p>" in (shipped.folder / "label").read_text()


def test_a_label_without_a_day_and_one_with_it_stay_within_their_edges(shipped):
    for at, size in enumerate(("99.1x38.1", "100x50")):
        low = {}
        for name, words in (("plain", ()), ("dated", ("--expires", "991231"))):
            assert not words or shipped.run("describe", "lot", "ACME", "B-1", *words).status == 0
            file = shipped.folder / f"{name}{at}.pdf"
            assert shipped.run("labels", "ACME", "B-1", "TOTE1", "--size", size, "--out", file).status == 0
            low[name] = max(box[3] for word, box in boxes_of(file))
        edge = {"99.1x38.1": 15.15 + 38.1, "100x50": 50}[size] * 72 / 25.4
        assert low["plain"] < edge and low["dated"] < edge


def test_a_statement_joins_no_rejected_lot_with_shipped_ones(plant):
    count, bad = 70, 33
    lots = "\n".join(f"receive ACME R{number:03d} SALT L-{number:03d} BAY1 100 261101\n> ACME POST /lots/L-{number:03d}/{'reject' if number == bad else 'release'}" for number in range(count))
    ships = "\n".join(f"ship ACME S{number:03d} L-{number:03d} BAY1 100 261102" for number in range(count) if number != bad)
    plant.lay(f"owner-add ACME ACMEKEY1\nmaterial-add ACME SALT kg\n{lots}\n{ships}")
    page = (folder_of(plant, "statement ACME --from 261101 --to 261130", "--no-pdf") / "statement.html").read_text().partition("By lot")[2].partition("<h2>")[0]
    rows = [re.sub(r"<[^>]*>", " ", row).split() for row in re.findall(r"<tr>(.*?)</tr>", page)]
    assert [row[2:-8] for row in rows] == [["L-000", "to", "L-032:", "33", "lots", "✓", "released"], ["L-034", "to", "L-069:", "36", "lots", "✓", "released"], ["L-033", "✕", "rejected"]]


def test_shares_are_those_of_the_owners_page(at_work):
    """The page rounds down, so that 100 % is never less."""
    at_work.lay("actual K20 ACME O-1 1 1 consumed SALT ACME S-1 BAY1 1 102")  # 301 of 300
    read = {row[3]: row[6] for row in figures.read_csv(folder_of(at_work, "batch ACME O-1 1", "--no-pdf") / "requirements.csv")}
    asked = "import { share } from './values.js'; console.log([share(301, 300), share(700, 700), share(980, 1000)].join(' '))"
    shares = subprocess.run(["node", "--input-type=module", "-e", asked], cwd=PAGE, capture_output=True, text=True, check=True).stdout.replace(" %", "").split()
    assert [read["SALT"], read["WATER"], read["BRINE"]] == [f"{float(share):.1f}" for share in shares] == ["100.3", "100.0", "98.0"]
    assert [printing_share(part, whole) for part, whole in ((9_999, 10_000), (9_428, 10_000), (66_666, 100_000))] == ["99.9", "94.2", "66.6"]


def printing_share(part: int, whole: int) -> str:
    """What a paper says of a part of a whole."""
    from hilpoven.report.sheets import percent

    return percent(part, whole)


def typed(plant: Plant, *words: str) -> tuple[int, str]:
    """The status and what stands on standard error, which is a terminal, if the program takes more than a second to open the file."""
    slow = script(plant.folder / "slow", f"case \"$*\" in *serve*) sleep 1.5;; esac; exec '{plant.program}' \"$@\"")
    leader, follower = pty.openpty()
    with subprocess.Popen([HILPOVEN, "--db", plant.db, *words], env=environment(TOLL=slow), stdout=subprocess.DEVNULL, stderr=follower, cwd=plant.folder) as process:
        os.close(follower)
        text = b""
        try:
            while piece := os.read(leader, 1 << 12):
                text += piece
        except OSError:  # the terminal's end
            pass
    os.close(leader)
    return process.returncode, text.decode().replace("\r\n", "\n")


def test_at_a_terminal_papers_tell_what_they_work_on_and_what_they_wrote(at_work):
    status, text = typed(at_work, "papers", "certificate", "ACME", "B-1", "made", "--no-pdf")
    assert status == 0 and text.splitlines() == ["  reading it, and comparing with what toll says ..", "  writing 1 paper ..", "  wrote made: certificate.html, and 1 table"], text
    status, text = typed(at_work, "papers", "recall", "HOUSE", "W-101", "--tar", "--no-pdf")
    assert status == 0 and text.splitlines()[-1].startswith("  wrote recall-HOUSE-W-101: owners/ACME/recall.html, plant/recall.html, and "), text
