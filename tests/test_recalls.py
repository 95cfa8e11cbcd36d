"""The papers of recalls over generated offices, held against `toll recall`.

An office has one to four owners, lots of HOUSE, batches with segments that stay open over several rounds (so that a
lot may go into what it was made of), voided actuals, splits, shipments, results and rejections. Of each, `hilpoven
papers recall` is asked for the two lots of HOUSE and the one of an owner that went into the most lots:

- recall.txt is what toll prints; each table has the rows of a query that is written for the tests alone, and each
  page what stands in its tables, of one office in four the PDF too.
- The edges of a picture of lots are those between lots that toll says are one step apart.
- The files of an owner hold no name, lot, material, order, unit, test or key of another, nor a figure that isn't in
  its own tables; of HOUSE they have the lots alone that the owner's batches consumed.
- Where toll tells a lot too few, or another number of steps, nothing is made, and the lot is named.
- A lot that isn't there is refused in one line, and nothing is made.

Offices, queries and what is checked of papers are those of plant/tests/papers.
"""
import concurrent.futures
import html
import importlib
import os
import pathlib
import re
import sys
import tempfile
import traceback
from typing import Any

import pytest

from tests.harness import ROOT

Lots = dict[tuple[str, str], int]
# what toll prints with the last lot left out, or with another number of steps
LIES = ("$d", r"$s/^ *\([0-9]*\)/\19/")
ARROW = re.compile(r'<g id="edge\d+" class="edge">\s*<title>([^<]*)</title>')


def lots_of_recall(plant: Any, owner: str, lot: str) -> Lots:
    """The lots of a recall as toll tells them, each with its steps."""
    rows = [line.split() for line in plant.toll("recall", owner, lot).out.splitlines()[1:]]
    return {(row[1], row[2]): int(row[0]) for row in rows}


def largest(office: Any, owner: str, count: int) -> list[tuple[str, str]]:
    """The owner's lots that went into the most lots, so many of them."""
    lots = [(owner, lot) for lot in office.lots[owner]]
    return sorted(lots, key=lambda lot: -len(lots_of_recall(office.plant, *lot)))[:count]


def check_arrows(plant: Any, page: str, lots: Lots) -> None:
    """The arrows of a picture in which each lot is a box; one that would be too large isn't drawn."""
    arrows = {tuple(html.unescape(title).split("->")) for title in ARROW.findall(page)}
    if "<svg" in page and not any(end.startswith("batch ") for ends in arrows for end in ends):
        recalled = ((lot, *step) for lot in lots for step in lots_of_recall(plant, *lot).items())
        assert arrows == {(" ".join(lot), " ".join(next_lot)) for lot, next_lot, steps in recalled if steps == 1}


def check_lies(plant: Any, asked: tuple[str, str], last: str) -> None:
    """No lie of a program about the last lot is believed."""
    conftest, lying = map(importlib.import_module, ("conftest", "lying"))  # of plant/tests

    folder = plant.folder / "believed"
    for lie in LIES:
        liar = lying.liar(plant.folder / "liar", plant.program, lie)
        answer = conftest.Plant(liar, plant.folder).run("papers", "recall", *asked, folder, "--no-pdf")
        assert answer.status == 1 and not folder.exists() and last in answer.err.partition("\n")[0], (lie, answer)


def check_unknown_lot(plant: Any) -> None:
    folder = plant.folder / "absent"
    answer = plant.run("papers", "recall", "HOUSE", "NOWHERE-1", folder, "--no-pdf")
    line = answer.err.partition("\n")[0]
    assert (answer.status, line) == (1, "hilpoven: there is no lot HOUSE NOWHERE-1") and not folder.exists()


def check_office(program: str, seed: int, folder: str) -> int:
    """Checks the papers over an office, and tells of how many lots the largest recall was."""
    looks, offices = map(importlib.import_module, ("looks", "offices"))  # of plant/tests/papers

    office = offices.Filled(program, pathlib.Path(folder) / "office", seed)
    owner, papers, sizes = office.chance.choice(office.owners), looks.Papers(office, prints=seed % 4 == 0), []
    for asked in [*largest(office, "HOUSE", 2), *largest(office, owner, 1)]:
        lots = lots_of_recall(office.plant, *asked)
        sizes.append(len(lots))
        papers.recall(*asked)
        page = (office.plant.folder / f"papers{papers.count}" / "plant" / "recall.html").read_text()
        check_arrows(office.plant, page, lots)
        if len(lots) > 1:
            check_lies(office.plant, asked, " ".join(list(lots)[-1]))
    check_unknown_lot(office.plant)
    return max(sizes)


def try_office(program: str, seed: int) -> tuple[str, int]:
    """What is wrong with the papers over an office, in a process of its own, and the size of its largest recall."""
    os.umask(0o077)
    sys.path[:0] = [str(ROOT / "plant" / "tests" / "papers"), str(ROOT / "plant" / "tests")]
    with tempfile.TemporaryDirectory(prefix="tests.") as folder:
        try:
            return "", check_office(program, seed, folder)
        except (AssertionError, ValueError, OSError):
            return traceback.format_exc(), 0


@pytest.mark.parametrize("count", [12, pytest.param(200, marks=pytest.mark.long)])
def test_papers_of_recalls_are_what_toll_tells_and_an_owners_hold_nothing_of_others(program: str, count: int) -> None:
    with concurrent.futures.ProcessPoolExecutor(min(4, os.cpu_count() or 1)) as pool:
        results = list(pool.map(try_office, [program] * count, range(count)))
    assert {seed: wrong for seed, (wrong, _) in enumerate(results) if wrong} == {}
    assert sum(size for _, size in results) > 5 * count
