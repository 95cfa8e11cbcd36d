"""The board: what somebody has to see to stands first, each state counts for itself, and ten rows are the most."""
import html
import re

import pytest
from conftest import Plant

WAYS = {"running": "start", "held": "start hold done", "paused": "start pause done", "aborted": "start abort done", "complete": "start done", "idle": ""}
UNITS = ("running", "held", "paused", "aborted", "running")  # of five units, in the order in which their batches were opened
OFFICE = """owner-add ACME ACMEKEY1
material-add ACME BRINE kg
test-add ACME BRINE DENSITY 1100 1250
test-add ACME BRINE PH 2 9
recipe-add ACME R 1
require ACME R 1 produced ACME BRINE 1000
> ACME POST /orders {"order":"O-1","recipe":"R","batches":99}
"""


def batches(states: tuple[str, ...]) -> str:
    """The words that open a batch on a unit of its own for each state, and lead there."""
    lines = []
    for number, state in enumerate(states, 1):
        lines += [f"unit-add U-{number}", f"open ACME O-1 U-{number}", *(f"do ACME O-1 {number} {word}" for word in WAYS[state].split())]
    return "\n".join(lines) + "\n"


def panels(page: str) -> dict[str, tuple[str, str, list[str]]]:
    """The panels of a page by their titles: what stands beside the title, the counts, and the rows, each a text; an alarm has `!` before it."""
    body = re.sub(r'<li class="alarm">', "<li>! ", page.split("<body")[1].split("<script>")[0])
    body = re.sub(r'<span class="alarm">', "<span>! ", body)
    by_title = {}
    for section in re.findall(r"<section>(.*?)</section>", body, re.S):
        counts = re.search(r'<p class="counts">(.*?)</p>', section, re.S)
        rows = [text_of(row) for row in re.findall(r"<li>(.*?)</li>", section, re.S)]
        title, _, beside = re.search(r"<h2>(.*?)</h2>", section, re.S)[1].partition("<span>")
        by_title[title.strip()] = text_of(beside), text_of(counts[1]) if counts else "", rows
    return by_title


def text_of(page: str) -> str:
    """The text of a part of a page."""
    return " ".join(html.unescape(re.sub(r"<[^>]*>", " ", page)).split())


@pytest.fixture(scope="module")
def five(program, tmp_path_factory) -> Plant:
    """An office whose five units have batches: two run, one is held, one paused and one aborted. Of its lots one is out of limits."""
    lots = "".join(f"receive ACME K{number} BRINE B-{number} TOTE1 10 101\n" for number in range(1, 13))
    results = "result ACME B-12 DENSITY 1300 102\nresult ACME B-11 DENSITY 1200 102\nresult ACME B-10 DENSITY 1200 102\nresult ACME B-10 PH 5 102\n"
    return Plant(program, tmp_path_factory.mktemp("five")).lay(OFFICE + batches(UNITS) + lots + results)


def test_what_is_held_paused_or_aborted_does_not_run(five):
    beside, counts, rows = panels(five.run("board").out)["Units"]
    assert beside == "2 of 5 run" and counts == "! 1 aborted ! 1 held 1 paused"
    assert [row.partition(" out ")[0] for row in rows] == ["! U-4 aborted ACME O-1/4", "! U-2 held ACME O-1/2", "U-3 paused ACME O-1/3",
                                                           "U-1 running ACME O-1/1", "U-5 running ACME O-1/5"]


def test_a_failed_test_is_no_missing_one(five):
    beside, counts, rows = panels(five.run("board").out)["Lots waiting"]
    assert beside == "12, first 10" and counts == "! 1 out of limits 10 without result 1 to release"
    assert rows[:2] == ["! ACME B-12 DENSITY out of limits, and 1 more", "ACME B-1 no DENSITY yet, and 1 more"] and len(rows) == 10
    assert five.run("board").out.count("ACME B-10") == 0  # which is the eleventh


def test_one_missing_test_is_named_alone(at_work):
    at_work.lay("result ACME B-1 DENSITY 1300 103\nreceive ACME K20 BRINE B-2 TOTE1 5 103\nresult ACME B-2 PH 5 103\nresult ACME B-1 PH 5 103\n")
    rows = panels(at_work.run("board").out)["Lots waiting"][2]
    assert rows == ["! ACME B-1 DENSITY out of limits", "BOLT P-1 for its release", "ACME B-2 no DENSITY yet"]


def test_many_open_batches_are_counts_and_the_ten_oldest(plant):
    states = ("running",) * 20 + ("aborted", "idle", "complete", "held") + ("running",) * 40
    plant.lay(OFFICE + batches(states))
    beside, counts, rows = panels(plant.run("board").out)["Units"]
    assert beside == "60 of 64 run, first 10" and counts == "! 1 aborted ! 1 held 1 idle 1 complete"
    assert [row.partition(" ACME")[0] for row in rows] == ["! U-21 aborted", "! U-24 held", *(f"U-{number} running" for number in range(1, 9))]
    beside, _, rows = panels(plant.run("board").out)["Orders waiting"]
    assert beside == "1" and rows == ["ACME O-1 64 of 99 opened, R"]


def test_no_panel_has_more_pages_than_ten_rows(plant):
    orders = "".join(f'> ACME POST /orders {{"order":"P-{number}","recipe":"R","batches":1}}\n' for number in range(30))
    plant.lay(OFFICE + orders + "".join(f"receive ACME K{number} BRINE B-{number} TOTE1 10 101\n" for number in range(40)))
    page = plant.run("board").out
    pages = {title: len(re.findall("<ul", section)) for title, section in re.findall(r"<h2>(\w+).*?</h2>(.*?)</section>", page, re.S)}
    assert pages == {"Units": 0, "Lots": 4, "Orders": 5, "Near": 0}
    assert panels(page)["Orders waiting"][2][0] == "ACME O-1 0 of 99 opened, R" and panels(page)["Orders waiting"][0] == "31, first 10"
