"""Tables: how they are read of the views, and how they are written on paper and as CSV."""
import functools
from collections.abc import Iterable, Sequence
from dataclasses import dataclass, replace
from operator import attrgetter
from typing import TYPE_CHECKING, Any, NamedTuple

from ..core import table
from ..core.table import Row, Shown, Value
from ..model.rows import Base
from .columns import NOTED, Column

if TYPE_CHECKING:
    from markupsafe import Markup

ACROSS, UPRIGHT = 757.0, 510.0  # points: how wide a sheet of A4 is within its margins, across and upright
SIZE, SMALLER, PADDING = 9.0, 0.85, 0.85  # points of letters; of those beside or beneath; ems between columns
LONGEST = 18  # letters of a word that isn't broken
WRAPPED = 14.0  # ems: how narrow a text becomes, which may take several lines


def width_of(text: str, wraps: bool) -> float:
    """How wide a text is, in ems, in letters as wide as those of DejaVu Sans."""
    ems = sum(
        0.34 if letter in " ,.:/" else 0.645 if letter.isdigit() else 0.76 if letter.isupper() else 0.63
        for letter in text
    )
    return min(ems, WRAPPED) if wraps else ems


def percent(part: int, whole: int) -> str:
    """An amount in percent of another one, rounded down to a tenth as on the owners' page, so that 100.0 is never
    less."""
    tenths = 1000 * part // whole
    return f"{tenths // 10:,}.{tenths % 10}"


class Printed(NamedTuple):
    """A cell on paper: its kind, its text, and what is beside or beneath that."""

    kind: str
    text: str
    additions: list[tuple[str, str]]


def rows_as_html(rows: Sequence[Sequence[Printed]]) -> "Markup":
    """The rows of a table of a page; a template makes them more slowly."""
    from markupsafe import Markup, escape

    def cell_as_html(cell: Printed) -> str:
        additions = "".join(f' <span class="{place}">{escape(text)}</span>' for place, text in cell.additions)
        return f'<td class="{cell.kind}">{escape(cell.text)}{additions}</td>'

    return Markup("".join(f"<tr>{''.join(map(cell_as_html, row))}</tr>\n" for row in rows))


@dataclass
class Sheet:
    """A table of a paper. Where it is long, paper joins rows that are alike but for their names, and sums the numbers
    of some columns; without such columns it joins none."""

    name: str
    columns: list[Column]
    rows: Sequence[Row]
    sums: Sequence[str] = ()
    joined: int = 0  # how many rows were joined into these

    @property
    def names(self) -> list[str]:
        """The names of its columns."""
        return [column.name for column in self.columns]

    @functools.cached_property
    def has_notes(self) -> bool:
        """Whether it has texts that the plant noted, which may be long, and of any letters."""
        return any(column.name.startswith(NOTED) for column in self.columns)

    @property
    def is_as_measured(self) -> bool:
        """Whether it has units, or values that the plant's notes say how to read."""
        return self.has_notes or any(isinstance(cell, Shown) for row in self.rows for cell in row)

    def has(self, name: str) -> bool:
        """Whether something stands in a column."""
        place = self.names.index(name)
        return any(row[place] for row in self.rows)

    def without(self, *names: str) -> "Sheet":
        """The same table without columns."""
        kept = [at for at, name in enumerate(self.names) if name not in names]
        if len(kept) == len(self.columns):
            return self
        rows = [tuple(row[at] for at in kept) for row in self.rows]
        return replace(self, columns=[self.columns[at] for at in kept], rows=rows)

    def without_empty(self) -> "Sheet":
        """The same table without the groups of columns of which none says something."""
        groups = {column.group for at, column in enumerate(self.columns) if any(row[at] for row in self.rows)}
        return self.without(*(column.name for column in self.columns if column.group and column.group not in groups))

    def joined_with(self, columns: Sequence[Column], cells: Sequence[Row]) -> "Sheet":
        """The same table with columns behind its own, which have these cells."""
        rows = [(*row, *others) for row, others in zip(self.rows, cells, strict=True)]
        return replace(self, columns=[*self.columns, *columns], rows=rows)

    def csv(self) -> str:
        """The table as CSV (RFC 4180), for a spreadsheet: its names are formulas of texts, which none changes. Numbers
        that paper has as texts have these in columns behind."""
        heads, lines = table.with_texts(self.names, self.rows)
        kinds = [*(column.kind for column in self.columns), *["text"] * (len(heads) - len(self.columns))]
        rows = [
            [
                table.as_formula(cell) if cell and isinstance(cell, str) and kind == "name" else table.as_cell(cell)
                for kind, cell in zip(kinds, row)
            ]
            for row in lines
        ]
        return table.csv_of([heads, *rows], "\r\n")

    def printed(self, signs: dict[str, str]) -> tuple[list[Printed], list[list[Printed]]]:
        """The heads and the rows as they are on paper; a disposition with its sign."""
        heads = [column.title if column.place != "beside" else "" for column in self.columns]
        firsts = [at for at, column in enumerate(self.columns) if not column.place]
        spans = [
            (self.columns[first].kind, first, range(first + 1, behind))
            for first, behind in zip(firsts, [*firsts[1:], len(self.columns)])
        ]
        lines = [heads, *(self.texts(row, signs) for row in self.rows)]
        cells = [
            [
                Printed(
                    self.kind_on_paper(kind, [line[first], *(line[at] for at in others)]),
                    line[first],
                    [(self.columns[at].place, line[at]) for at in others if line[at]],
                )
                for kind, first, others in spans
            ]
            for line in lines
        ]
        return cells[0], cells[1:]

    def kind_on_paper(self, kind: str, texts: list[str]) -> str:
        """The kind of a cell, which is `broken` besides if a word that the plant noted is too long for a line of it."""
        if not self.has_notes:
            return kind
        longest = max((len(word) for text in texts for word in text.split()), default=0)
        return f"{kind} broken" if longest > LONGEST else kind

    def size(self, width: float) -> float:
        """The size of letters in points by which the table fits into a width in points."""
        lines = [[column.title for column in self.columns], *(self.texts(row, {}) for row in self.rows)]
        widths = [
            max(width_of(line[at], column.kind == "text") for line in lines) * (SMALLER if column.place else 1)
            for at, column in enumerate(self.columns)
        ]
        ems = 0.0
        for at, column in enumerate(self.columns):
            before = widths[at - 1] if column.place else 0
            ems += max(0, widths[at] - before) if column.place == "beneath" else widths[at] + PADDING
        return min(SIZE, width / ems) if ems else SIZE

    def texts(self, row: Row, signs: dict[str, str] | None = None) -> list[str]:
        """What is in the columns of a row, a disposition with its sign if there are signs."""
        return [
            column.as_text(cell)
            if signs is None or not cell or column.kind != "word"
            else f"{signs.get(str(cell).partition(' ')[0], '+')} {cell}"
            for column, cell in zip(self.columns, row)
        ]


def select(
    base: Base, name: str, columns: list[Column], behind: str, words: Any = (), sums: Sequence[str] = ()
) -> Sheet:
    """A table of these columns, of tables that have the views. `behind` says where its rows come from, with their
    conditions and their order."""
    expressions = ", ".join(sql for column in columns for sql in column.sql)
    rows = [row_of(columns, row) for row in base.execute(f"SELECT {expressions} {behind}", words)]
    return Sheet(name, columns, rows, sums).without_empty()


def table_of(name: str, columns: list[Column], things: Iterable[object]) -> Sheet:
    """A table of things, whose attributes its columns are made of."""
    attributes = [attrgetter(path) for column in columns for path in column.sql]
    rows = [row_of(columns, [attribute(each) for attribute in attributes]) for each in things]
    return Sheet(name, columns, rows).without_empty()


def row_of(columns: Sequence[Column], values: Sequence[Value]) -> Row:
    """The cells of a row, each made of as many values as its column has."""
    rest = iter(values)
    return tuple(column.value(*(next(rest) for _ in column.sql)) for column in columns)
