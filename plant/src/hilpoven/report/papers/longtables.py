"""Long tables on paper: rows that differ by names that count on are one, and lines of a fixed pitch are put straight
into the PDF where WeasyPrint has left a place.

WeasyPrint takes a millisecond for a line of text, and more for a row of cells; a recall of 5,000 lots has 20,000 lines.
"""
import re
from collections import defaultdict
from collections.abc import Callable, Iterator, Sequence
from dataclasses import replace
from typing import Any

from ...core.table import Row, Value
from ..sheets import ACROSS, Sheet

COUNTING = ("key", "lot", "sublot")  # columns whose names may count on
LEAST = 3  # rows that are joined
NUMBERED = re.compile(r"(.*?)([0-9]+)", re.DOTALL)


def on_paper(sheet: Sheet, most: int) -> Sheet:
    """A table as paper has it: of one with more than so many rows, and with sums, those that count on are joined."""
    if len(sheet.rows) <= most or not sheet.sums:
        return sheet
    rows = [row for run in runs_of(sheet) for row in joined(sheet, run)]
    return replace(sheet, rows=rows, joined=len(sheet.rows)) if len(rows) < len(sheet.rows) else sheet


def runs_of(sheet: Sheet) -> Iterator[list[Row]]:
    """The rows in runs that count on: those that are alike otherwise stand together, by their names."""
    counting = places_of(sheet, COUNTING)
    others = [at for at in range(len(sheet.columns)) if at not in {*counting, *places_of(sheet, sheet.sums)}]
    alike: dict[tuple[Value, ...], list[Row]] = defaultdict(list)
    for row in sheet.rows:
        alike[tuple(row[at] for at in others)].append(row)
    for rows in alike.values():
        rows.sort(key=lambda row: [parts_of(row[at]) for at in counting])
        run: list[Row] = []
        for row in rows:
            if run and not goes_on(run, row, counting):
                yield run
                run = []
            run.append(row)
        yield run


def places_of(sheet: Sheet, names: Sequence[str]) -> list[int]:
    """Where columns of these names are in a table."""
    return [at for at, column in enumerate(sheet.columns) if column.name in names]


def parts_of(name: Value) -> tuple[str, int, str]:
    """A name in its front and its number, by which it is sorted, and the digits."""
    match = NUMBERED.fullmatch(str(name or ""))
    return (match[1], int(match[2]), match[2]) if match else (str(name or ""), -1, "")


def counts_on(before: Value, name: Value) -> bool:
    """Whether a name is the next one of another: L-009 and L-010, or L-9 and L-10."""
    (front, number, digits), (next_front, next_number, next_digits) = parts_of(before), parts_of(name)
    is_next = front == next_front and number >= 0 and next_number == number + 1
    return is_next and next_digits == str(next_number).zfill(len(digits))


def goes_on(run: Sequence[Row], row: Row, counting: Sequence[int]) -> bool:
    """Whether a row belongs to a run: each name counts on in all of its rows, or is the same one in all of them."""
    last = run[-1]
    same = [row[at] == last[at] for at in counting]
    if all(same) or len(run) > 1 and same != [last[at] == run[-2][at] for at in counting]:
        return False
    return all(is_same or counts_on(last[at], row[at]) for at, is_same in zip(counting, same))


def joined(sheet: Sheet, run: list[Row]) -> list[Row]:
    """The rows of a run: one with ranges of names and with sums, or the same if they are few."""
    if len(run) < LEAST:
        return run
    first, last, is_counted = run[0], run[-1], False
    cells = list(first)
    for at, column in enumerate(sheet.columns):
        if column.name in sheet.sums:
            cells[at] = sum(number for row in run if isinstance(number := row[at], int))
        elif first[at] != last[at]:
            count = "" if is_counted else f": {len(run):,} {column.name}s"
            cells[at], is_counted = f"{first[at]} to {last[at]}{count}", True
    return [tuple(cells)]


LINES = 42  # of a page
LEADING = 1.35  # of the size of letters
POINTS = 0.75  # of a pixel
WIDEST, NARROWEST = 7.5, 5.0  # points: sizes of letters
LETTER = 0.6  # of the size: how wide a letter of Courier is
LETTERS = 0x100  # that the encoding of the font has
GAP = 24.0  # points between lines that are side by side
BETWEEN = "  "
RULED = 5  # lines, below which there is a rule


class LongTable:
    """A long table in lines: its head, its pages, and whether what the plant noted fits on them in the font."""

    def __init__(self, sheet: Sheet) -> None:
        texts = [[column.title for column in sheet.columns], *(sheet.texts(row) for row in sheet.rows)]
        widths = [max(map(len, column)) for column in zip(*texts)]
        rights = [column.kind == "number" for column in sheet.columns]
        self.head, *lines = [line_of(row, widths, rights) for row in texts]
        letters = max(map(len, [self.head, *lines]))
        is_narrow, are_drawn = letters * LETTER * NARROWEST <= ACROSS, all(map(is_drawn, lines))
        self.fits = not sheet.has_notes or is_narrow and are_drawn
        self.size = max(NARROWEST, min(WIDEST, ACROSS / LETTER / letters))
        self.width = LETTER * self.size * letters
        beside = max(1, int((ACROSS + GAP) // (self.width + GAP)))
        self.pages = [lines[at : at + LINES * beside] for at in range(0, len(lines), LINES * beside)]

    @property
    def height(self) -> float:
        """How much of a page its lines take, in points."""
        return (LINES + 2) * self.size * LEADING

    def drawing(self, page: int, left: float, top: float) -> list[bytes]:
        """What draws a page of lines from a corner on; narrow ones are in several columns."""
        lines, operators = self.pages[page], [b"q"]
        for first in range(0, len(lines), LINES):
            operators += self.column(lines[first : first + LINES], left + first // LINES * (self.width + GAP), top)
        return [*operators, b"Q"]

    def column(self, lines: list[str], left: float, top: float) -> list[bytes]:
        """What draws a column of lines: rules, the head, and the lines."""
        pitch = self.size * LEADING
        rules = [
            f"{left:.2f} {height:.2f} m {left + self.width:.2f} {height:.2f} l S".encode()
            for height in (top - (number + 1.3) * pitch for number in (0, *range(RULED, len(lines) + 1, RULED)))
        ]
        bold, plain = (f"/Lines{number} {self.size:.3f} Tf".encode() for number in (0, 1))
        return [
            b"0.75 G 0.3 w",
            *rules[1:],
            b"0 G 0.8 w",
            rules[0],
            b"0 g BT",
            f"{left:.2f} {top - pitch:.2f} Td {pitch:.3f} TL".encode(),
            bold,
            operator_of(self.head),
            plain,
            *map(operator_of, lines),
            b"ET",
        ]


def line_of(texts: list[str], widths: list[int], rights: list[bool]) -> str:
    """A line of a table."""
    cells = [text.rjust(width) if right else text.ljust(width) for text, width, right in zip(texts, widths, rights)]
    return BETWEEN.join(cells).rstrip()


def is_drawn(text: str) -> bool:
    """Whether each letter of a line can be drawn as it is."""
    return text.isascii() or all(ord(letter) < LETTERS for letter in text)


def operator_of(text: str) -> bytes:
    """What draws a line of text, and goes to the next."""
    escaped = text.replace("\\", r"\\").replace("(", r"\(").replace(")", r"\)")
    return b"(" + escaped.encode("latin-1", "replace") + b") Tj T*"


def finisher(tables: dict[str, LongTable]) -> Callable[[Any, Any], None] | None:
    """What draws these tables where a document has left a place for them, by its anchors; `None` if there are none."""

    def finish(document: Any, pdf: Any) -> None:
        import pydyf

        def object_of(reference: bytes) -> Any:
            return pdf.objects[int(reference.split()[0])]

        pages = pdf.pages["Kids"][::3]
        fonts = object_of(object_of(pdf.objects[pages[0]]["Resources"])["Font"])
        for number, name in enumerate(("/Courier-Bold", "/Courier")):
            entries = {"Type": "/Font", "Subtype": "/Type1", "BaseFont": name, "Encoding": "/WinAnsiEncoding"}
            font = pydyf.Dictionary(entries)
            pdf.add_object(font)
            fonts[f"Lines{number}"] = font.reference
        for page, number in zip(document.pages, pages):
            for anchor, (x, y) in page.anchors.items():
                name, _, at = anchor.rpartition("-page-")
                if name in tables:
                    drawing = tables[name].drawing(int(at), x * POINTS, (page.height - y) * POINTS)
                    stream = pydyf.Stream(drawing, compress=True)
                    pdf.add_object(stream)
                    pdf.objects[number]["Contents"] = pydyf.Array([stream.reference, pdf.objects[number]["Contents"]])

    return finish if tables else None
