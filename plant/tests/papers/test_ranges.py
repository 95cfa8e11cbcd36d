"""Long tables on paper join rows that are alike but for names that count on, and lose none of them."""
import re

import pytest
from hilpoven.report.papers.longtables import on_paper
from hilpoven.report.columns import columns
from hilpoven.report.sheets import Sheet
from hypothesis import given, strategies

HEADS = columns("disposition:word owner lot sublot amount:number measure=unit:text@beside")


def table(*rows: tuple) -> Sheet:
    """A table of sublots, whose amounts are summed."""
    return Sheet("sublots", HEADS, [(word, "ACME", lot, sublot, amount, "pc") for word, lot, sublot, amount in rows], ["amount"])


def lots(sheet: Sheet) -> list[tuple]:
    """The lots of a table on paper, with sublots and amounts."""
    return [(row[2], row[3], row[4]) for row in on_paper(sheet, 0).rows]


def test_lots_that_count_on_are_one_row_with_their_sum():
    rows = [("released", f"L-1-{number:03d}", "S1", number) for number in range(199)]
    assert lots(table(*rows)) == [("L-1-000 to L-1-198: 199 lots", "S1", 199 * 198 // 2)]
    assert on_paper(table(*rows), 0).joined == 199 and on_paper(table(*rows), 199).rows == table(*rows).rows


@pytest.mark.parametrize("names, ranges", [
    (["L-8", "L-9", "L-10", "L-11"], ["L-8 to L-11: 4 lots"]),
    (["L-1", "L-10", "L-11", "L-12", "L-2", "L-3"], ["L-1 to L-3: 3 lots", "L-10 to L-12: 3 lots"]),
    (["L-08", "L-09", "L-10"], ["L-08 to L-10: 3 lots"]), (["L-08", "L-9", "L-10"], ["L-08", "L-9", "L-10"]), (["L-099", "L-100", "L-0101"], ["L-099", "L-100", "L-0101"]),
    (["A", "B", "C"], ["A", "B", "C"]), (["L-1", "L-2"], ["L-1", "L-2"]), (["L-1", "L-2", "L-4", "L-5"], ["L-1", "L-2", "L-4", "L-5"]), (["1", "2", "3"], ["1 to 3: 3 lots"])])
def test_names_that_count_on(names, ranges):
    assert [row[0] for row in lots(table(*(("released", name, "S1", 1) for name in names)))] == ranges


def test_rows_that_differ_otherwise_are_apart():
    mixed = [("rejected" if number == 5 else "released", f"L{number}", "S1", 1) for number in range(10)]
    assert lots(table(*mixed)) == [("L0 to L4: 5 lots", "S1", 5), ("L6 to L9: 4 lots", "S1", 4), ("L5", "S1", 1)]
    assert lots(table(*(("released", "L1", f"S{number}", 1) for number in range(5)))) == [("L1", "S0 to S4: 5 sublots", 5)]
    assert lots(table(*(("released", f"L{number}", f"S{number + 8}", 1) for number in range(4)))) == [("L0 to L3: 4 lots", "S8 to S11", 4)]
    assert lots(table(*(("released", f"L{number}", f"S{number // 3}", 1) for number in range(6)))) == [("L0 to L2: 3 lots", "S0", 3), ("L3 to L5: 3 lots", "S1", 3)]
    assert on_paper(Sheet("tests", HEADS, table(*mixed).rows), 0).rows == table(*mixed).rows  # nothing of it is summed


NAMES = strategies.builds("{}{}".format, strategies.sampled_from(["L", "L-0", "A1-", ""]), strategies.integers(0, 130))


def all_of(text: str, count: int = 1) -> list[str]:
    """The names of a cell; one that stands for so many rows is that of each."""
    if not (match := re.fullmatch(r"(.*?)(\d+) to .*?(\d+)(?:: [\d,]+ \w+)?", text)):
        return [text] * count
    return [f"{match[1]}{str(number).zfill(len(match[2]))}" for number in range(int(match[2]), int(match[3]) + 1)]


@given(strategies.lists(strategies.tuples(strategies.sampled_from(["released", "rejected"]), NAMES, strategies.sampled_from(["S1", "S2"]), strategies.integers(1, 99)), max_size=60,
                        unique_by=lambda row: row[1:3]))
def test_no_lot_is_lost_and_sums_are_those_of_the_rows(rows):
    sheet = on_paper(table(*rows), 0)
    names_on_paper = []
    for word, _, lot, sublot, *_ in sheet.rows:
        count = max(len(all_of(lot)), len(all_of(sublot)))
        names_on_paper += [(word, *names) for names in zip(all_of(lot, count), all_of(sublot, count), strict=True)]
    assert sorted(names_on_paper) == sorted(row[:3] for row in rows) and sum(row[4] for row in sheet.rows) == sum(row[3] for row in rows)
