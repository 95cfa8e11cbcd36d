"""A plant's week: what was reworked, returned, used besides the recipe and corrected is in the recalls of what it came from, on screen, on paper and
over a carry-over."""
import csv
import pathlib

import pytest
from conftest import Plant
from hilpoven.cli.lines import OVER_ALL
from hilpoven.model.below import HEADING
from week import PREPARED, WEEK, lived

REACHED = {  # by a recall of a lot: the lots that links add, with their steps, disposition, and what is on hand and was shipped
    ("ACME", "C-2611-07"): {"BU-0001C": (2, "quarantined", 270, 0), "BU-0001R": (2, "quarantined", 400, 0),
                            "BU-0002-RW": (2, "released", 0, 0), "BU-0003": (3, "released", 25, 905)},
    ("HOUSE", "AF-1"): {"BU-0001": (1, "released", 100, 950), "BU-0001C": (2, "quarantined", 270, 0), "BU-0001R": (2, "quarantined", 400, 0)},
    ("ACME", "BU-0002"): {"BU-0002-RW": (1, "released", 0, 0), "BU-0003": (2, "released", 25, 905)},
}


@pytest.fixture(scope="module")
def week(program, tmp_path_factory) -> Plant:
    """The office behind the week."""
    return lived(Plant(program, tmp_path_factory.mktemp("week")), PREPARED + WEEK)


@pytest.fixture(scope="module")
def carried(program, tmp_path_factory) -> Plant:
    """The same office, carried over to its next file."""
    plant = lived(Plant(program, tmp_path_factory.mktemp("carried")), PREPARED + WEEK)
    done = plant.run("carry-over", plant.folder / "next.db", "--day", 261130)
    assert done.status == 0, done
    return plant


def recalled(plant: Plant, lot: tuple[str, str]) -> dict[str, tuple]:
    """What a recall has below what `toll` tells, whose text stands first and unchanged."""
    done, toll = plant.run("recall", *lot), plant.toll("recall", *lot)
    assert done.status == toll.status == 0 and done.out.startswith(toll.out), (done, toll)
    head, *lines = done.out.removeprefix(toll.out).partition(f"{OVER_ALL}\n")[0].splitlines()
    assert head == HEADING and all(line.endswith(" *") for line in lines)
    rows = [line.split() for line in lines]
    return {name: (int(steps), disposition, int(on_hand), int(shipped)) for steps, _, name, disposition, on_hand, shipped, _ in rows}


def table(path: pathlib.Path) -> list[dict[str, str]]:
    """The rows of a table of a paper, by its heads."""
    with path.open(newline="") as lines:
        heads, *rows = csv.reader(lines)
    return [dict(zip(heads, (cell.removeprefix('="').removesuffix('"') for cell in row))) for row in rows]


def paper(plant: Plant, folder: pathlib.Path, *lot: str) -> pathlib.Path:
    """The papers of a recall."""
    done = plant.run("papers", "recall", *lot, folder, "--no-pdf")
    assert done.status == 0, done
    return folder


@pytest.mark.parametrize("lot", REACHED)
def test_recalls_on_screen_reach_what_no_actual_records(week, lot):
    assert recalled(week, lot) == REACHED[lot]


def test_what_was_shipped_of_the_reworked_lot_traces_back_to_the_resin(week):
    lines = week.run("trace", "ACME", "BU-0003", "back").out.partition(HEADING)[2].splitlines()
    assert [line.split() for line in lines if line] == [["2", "ACME", "BU-0002", "*"], ["3", "ACME", "C-2611-07", "*"]]


def shipped_of(folder: pathlib.Path) -> dict[str, tuple[str, ...]]:
    """The shipments of a recall's paper, by their keys: the lot, its mark, the amount, who has it and the document."""
    return {row["key"]: tuple(row[name] for name in ("lot", "noted", "amount", "noted_party", "noted_document")) for row in table(folder / "shipments.csv")}


def test_a_recall_on_paper_begins_with_who_has_it(week, tmp_path):
    papers = paper(week, tmp_path / "made", "ACME", "C-2611-07")
    for folder in (papers / "plant", papers / "owners" / "ACME"):
        assert shipped_of(folder) == {"S1": ("BU-0001", "", "650", "NORD", "LS 4711"), "S2": ("BU-0001", "", "300", "ALP", ""),
                                      "S3": ("BU-0003", "*", "905", "ALP", "LS 4712")}
        got = {(row["noted_party"], row["noted_contact"], row["noted_phone"], row["lot"]): row["amount"] for row in table(folder / "recipients.csv")}
        assert got == {("NORD", "Ms Lund", "+44 20 7946 0000", "BU-0001"): "650", ("ALP", "Mr Frei", "+41 44 668 18 00", "BU-0001"): "300",
                       ("ALP", "Mr Frei", "+41 44 668 18 00", "BU-0003"): "905"}, table(folder / "recipients.csv")
        page = (folder / "recall.html").read_text()
        assert page.index("Who has it") < page.index("What to do first") and 'class="alarm"' not in page
        on_hand = {(row["lot"], row["noted"]): row["amount"] for row in table(folder / "sublots.csv") if row["lot"].startswith("BU")}
        assert on_hand == {("BU-0001", ""): "100", ("BU-0001C", "*"): "270", ("BU-0001R", "*"): "400", ("BU-0003", "*"): "25"}
        assert [row["why"] for row in table(folder / "links.csv")] == ["correction", "rework", "return"]


def test_a_recall_of_what_the_recipe_doesn_t_have_reaches_the_batch(week, tmp_path):
    papers = paper(week, tmp_path / "made", "HOUSE", "AF-1")
    assert {row["lot"]: row["noted"] for row in table(papers / "plant" / "lots.csv")} == {"AF-1": "", "BU-0001": "*", "BU-0001C": "*", "BU-0001R": "*"}
    assert {row["amount"] for row in table(papers / "owners" / "ACME" / "recipients.csv")} == {"650", "300"}


def test_no_receipt_of_the_week_looks_like_the_end_of_a_trace(week):
    assert "without a link" not in week.run("status").out
    assert "noted: lot ACME BU-0001R contains some of lot ACME BU-0001 (return: drums leaked); noted: movement K3 of ACME" in week.run("journal").out
    done = week.run("verify")
    assert done.status in (0, 1) and "it is what the journal gives" in done.out


def rows_over_all(plant: Plant, *lot: str) -> dict[str, tuple]:
    """The rows of a recall over all files, by their lots."""
    done = plant.run("years", "recall", *lot, "--csv")
    assert done.status == 0, done
    rows = [[cell.removeprefix('="').removesuffix('"') for cell in row] for row in csv.reader(done.out.splitlines())][1:]
    return {row[2]: (int(row[0]), row[3], int(row[4]), int(row[5])) for row in rows if row[-1] == "*"}


@pytest.mark.parametrize("lot", REACHED)
def test_over_a_carry_over_recalls_reach_the_same(carried, lot, tmp_path):
    assert rows_over_all(carried, *lot) == REACHED[lot]
    papers = paper(carried, tmp_path / "made", *lot)
    marked = {row["lot"]: (row["on_hand"], row["shipped"]) for row in table(papers / "plant" / "lots.csv") if row["noted"] == "*"}
    assert marked == {name: (str(on_hand), str(shipped)) for name, (_, _, on_hand, shipped) in REACHED[lot].items()}
    shipments = {row["lot"]: row["noted_party"] for row in table(papers / "plant" / "shipments.csv")}
    assert shipments == {name: {"BU-0001": "ALP", "BU-0003": "ALP"}[name] for name in shipments} and shipments


def test_in_the_next_file_the_plants_command_finds_what_came_over(carried):
    assert recalled(carried, ("HOUSE", "AF-1")) == {name: (*line[:3], 0) for name, line in REACHED["HOUSE", "AF-1"].items()}
    done = carried.run("recall", "ACME", "BU-0002")
    assert done.status == 0 and done.out == f"{carried.toll('recall', 'ACME', 'BU-0002').out}{OVER_ALL}\n{carried.run('years', 'recall', 'ACME', 'BU-0002').out}"


CORRECTED = {  # the lines of "I recorded it wrongly" at which a trace would end: what is typed, the lot that is recalled, and what its recall has to have
    "produced too little": (["receive ACME C1 BRINE B-1C TOTE9 20 103 --of B-1 --why correction"], "ACME S-1", {"B-1", "B-1C"}),
    "consumed another lot": (["receive ACME C1 SALT S-2 BAY9 50 103", "use ACME O-1 1 ACME S-2 BAY9 5 103 --yes"], "ACME S-2", {"B-1"}),
    "consumed too much": (["receive ACME C1 SALT S-1C BAY9 50 103 --of S-1 --why correction"], "ACME S-1", {"B-1", "S-1C"}),
    "received too little": (["receive ACME C1 SALT S-1B BAY9 50 103 --of S-1 --why correction"], "ACME S-1", {"B-1", "S-1B"}),
    "received as a wrong lot that was used since": (
        ["scrap ACME C1 S-1 BAY1 4700 103", "receive ACME C2 SALT S-9 BAY1 4700 103 --of S-1 --why correction", "link ACME S-1 S-9 --why correction"],
        "ACME S-9", {"S-1", "B-1"}),
    "scrapped": (["scrap ACME C1 B-1 TOTE1 900 103", "receive ACME C2 BRINE B-1C TOTE1 900 103 --of B-1 --why correction"], "ACME S-1", {"B-1", "B-1C"}),
    "rejected": (["reject W-101", "scrap HOUSE C1 W-101 TANK 9300 103", "receive HOUSE C2 WATER W-102 TANK 9300 103 --of W-101 --why correction"],
                 "HOUSE W-101", {"B-1", "W-102"}),
}


@pytest.mark.parametrize("case", CORRECTED)
def test_what_was_recorded_wrongly_and_corrected_stays_in_the_trace(settled, case):
    typed, lot, reached = CORRECTED[case]
    for line in typed:
        done = settled.run(*line.split())
        assert done.status == 0 and done.out.startswith(("accepted\n", "noted ")), (line, done)
    lines = settled.run("recall", *lot.split()).out.splitlines()
    assert reached <= {line.split()[2] for line in lines if line.split()[:1] and line.split()[0].isdecimal()}, lines
