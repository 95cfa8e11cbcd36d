"""Tables of figures: programs beside each other, and how what they take grows with the size."""
import collections
import math
import tempfile
from collections.abc import Callable, Iterator
from dataclasses import dataclass, field
from functools import partial
from pathlib import Path

from bench.running import Figures, Office

MOST_GROWTH = 1.1  # the power of the size: more is out of proportion
Work = Callable[[Office, int], Figures]  # the rows of a table, over one of so many parts of the size


class Number(float):
    """A figure that isn't in seconds: a ratio, or a mean of counts."""


@dataclass
class Column:
    """The figures of a program, or of Python if there is none, over one of so many parts of the size. Whole numbers are
    counts. The others are seconds, or millions of instructions if those are counted."""

    name: str
    program: Path | None
    parts: int = 1
    is_counted: bool = False
    figures: dict[str, float] = field(default_factory=dict)

    def measure(self, work: Work, maker: Path | None, parent: str) -> dict[str, str]:
        """Measures each row once, and keeps the better figure. It gives what was printed in each row."""
        with tempfile.TemporaryDirectory(prefix="bench.", dir=parent) as folder:
            office = Office(self.program, maker, folder, self.is_counted)
            for row, figure in work(office, self.parts):
                self.figures[row] = min(figure, self.figures.get(row, figure))
        return office.printed

    def relate(self, row: str, one: str, other: str) -> None:
        """Adds a row with the ratio of two others, if there are both."""
        if one in self.figures and other in self.figures:
            self.figures[row] = Number(ratio(self.figures[one], self.figures[other]))

    def cell(self, row: str) -> str:
        figure = self.figures.get(row, math.nan)
        if isinstance(figure, int):
            return f"{figure:,}"
        if self.is_counted or isinstance(figure, Number):
            return decimals(figure)
        return "" if math.isnan(figure) else f"{1000 * figure:,.{2 if figure < 0.01 else 0}f} ms"


def ratio(one: float, other: float) -> float:
    """How many times another figure one is; not a number unless both are above 0."""
    return one / other if one > 0 and other > 0 else math.nan


def decimals(figure: float) -> str:
    return "" if math.isnan(figure) else f"{figure:,.2f}"


def beside(one: Column, other: Column, row: str) -> float:
    return ratio(one.figures.get(row, 0), other.figures.get(row, 0))


def growth(whole: Column, half: Column, row: str) -> float:
    """The power of the size by which a figure grew from half of the size to the whole; a ratio has none."""
    return math.nan if isinstance(whole.figures.get(row), Number) else math.log2(beside(whole, half, row))


def measure(work: Work, columns: list[Column], rounds: int, folder: str) -> list[str]:
    """Measures the columns by turns in so many rounds, but instructions once. It gives the rows in which those of a
    size print different texts."""
    printed = collections.defaultdict[tuple[int, str], set[str]](set)
    for number in range(rounds):
        for column in columns:
            if number == 0 or not column.is_counted:
                for row, text in column.measure(work, columns[0].program, folder).items():
                    printed[column.parts, row].add(text)
    return [row for (_, row), texts in printed.items() if len(texts) > 1]


def first_like(columns: list[Column], column: Column) -> Column:
    """The first column with figures of the same kind."""
    return next(other for other in columns if other.is_counted == column.is_counted)


def lines(title: str, columns: list[Column], half: Column | None = None) -> Iterator[str]:
    """The lines of a table: behind each further program the first one's ratio to it, and at the end how the first one's
    figures grew from half of the size."""
    cells: list[tuple[str, Callable[[str], str]]] = []
    for column in columns:
        first = first_like(columns, column)
        cells.append((column.name, column.cell))
        if column.program and column is not first:
            cells.append((f"{first.name} / {column.name}", partial(cell_of, beside, first, column)))
    if half:
        cells.append(("growth", partial(cell_of, growth, first_like(columns, half), half)))
    yield f"| {title} | {' | '.join(head for head, _ in cells)} |"
    yield "|---" * (len(cells) + 1) + "|"
    for row in dict.fromkeys(row for column in columns for row in column.figures):
        yield f"| {row} | {' | '.join(cell(row) for _, cell in cells)} |"


def cell_of(compare: Callable[[Column, Column, str], float], one: Column, other: Column, row: str) -> str:
    return decimals(compare(one, other, row))


def too_fast(columns: list[Column], half: Column) -> Iterator[str]:
    """The rows whose figures grow faster than the size may, with the power."""
    whole = first_like(columns, half)
    powers = ((row, growth(whole, half, row)) for row in whole.figures)
    yield from (f"{row} grows by the power {power:.2f}" for row, power in powers if power > MOST_GROWTH)
