"""A picture stands on one sheet or on two, and isn't drawn where it would be larger than that."""
import re

import pytest
from hilpoven.report.papers import pictures
from hilpoven.report.papers.pictures import OVERLAP, SHEET, SMALLEST

ACROSS, DOWN = (side / SMALLEST for side in SHEET)


def svg(wide, high):
    """A picture of this size as Graphviz draws one."""
    return f'<svg width="{wide:.0f}pt" height="{high:.0f}pt"\n viewBox="0.00 0.00 {wide:.2f} {high:.2f}" xmlns="http://www.w3.org/2000/svg"><g>boxes</g></svg>\n'


def parts_of(wide, high):
    """The parts of a picture of this size: each with its width and height on paper, and with what it shows."""
    matches = [re.search(r'width="([\d.]+)pt" height="([\d.]+)pt" viewBox="([^"]*)"', sheet) for sheet in pictures.sheets(svg(wide, high))]
    return [(float(match[1]), float(match[2]), tuple(map(float, match[3].split()))) for match in matches]


@pytest.mark.parametrize("wide, high, count", [
    (100, 100, 1), (ACROSS - 1, DOWN - 1, 1), (ACROSS + 1, DOWN - 1, 2), (ACROSS - 1, DOWN + 1, 2), (2 * ACROSS - OVERLAP - 1, DOWN - 1, 2),
    (ACROSS - 1, 2 * DOWN - OVERLAP - 1, 2), (ACROSS + 1, DOWN + 1, 0), (2 * ACROSS, DOWN - 1, 0), (ACROSS - 1, 2 * DOWN, 0)])
def test_a_picture_is_cut_for_paper_or_left_out(wide, high, count):
    parts = parts_of(wide, high)
    assert len(parts) == count
    for width, height, (_, _, across, down) in parts:
        assert width <= SHEET[0] + 0.1 and height <= SHEET[1] + 0.1
        assert width / across >= SMALLEST - 0.001 and height / down >= SMALLEST - 0.001


@pytest.mark.parametrize("wide, high", [(ACROSS + 100, DOWN - 1), (ACROSS - 1, DOWN + 100)])
def test_two_sheets_show_all_of_a_picture_and_share_a_box(wide, high):
    (_, _, first), (_, _, second) = parts_of(wide, high)
    at = 0 if wide > ACROSS else 1
    assert first[at] == 0 and second[at] + second[at + 2] == pytest.approx((wide, high)[at], abs=1)
    assert first[at + 2] - second[at] == pytest.approx(OVERLAP, abs=1)


def test_what_graphviz_does_not_draw_is_left_out():
    assert pictures.sheets("no picture") == [] and pictures.draw([], []) == []
