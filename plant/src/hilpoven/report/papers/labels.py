"""Labels of a lot's sublots: what a person reads, and a QR code of what a command reads."""
import datetime
import re
from collections.abc import Callable, Sequence
from dataclasses import dataclass

from ...core.failure import REFUSED, Failure
from ...model.nearest import nearest
from ...core.scanned import ScannedSublot
from ...core.days import day_of, format_day
from ...model.corrected import BESIDE, ROOT
from ...model.rows import Base, Lot, LotId, require_lot, sublots_of
from ...record import expiry
from ...model import quality
from ...model.notes import LotFacts
from . import printing
from .agreement import check_stock
from .copies import Source
from .pictures import SIGNS

DOTS, POINTS, MILLIMETRES = 203, 72, 25.4  # of an inch: a printer of labels prints dots
EDGE, TEXT, NAME = 8, 20, 116  # dots: behind a QR code, before the text, and before a name, which has its caption first
QUIET = 4  # modules around a QR code in which nothing is printed
INSET = 0.02  # dots around what is black, since a printer also prints a dot that is merely touched
CORRECTION = "m"  # a QR code is read with 15 % of it missing, at least
WIDTH = 0.602  # ems that each letter of a name takes
MOST = 500  # labels of one PDF, which takes half a minute of a processor then
PLAIN = 11.0  # points of letters of what isn't in the QR code
OF_DAY = 2.0  # points by which letters are smaller if the line of a lot's last day is there


@dataclass(frozen=True)
class Stock:
    """Labels as they are sold. In millimetres: the page, the label, where the first one is, and the way to the next
    one. Then how many are beside and below each other, how many dots a QR code has at most, and how many points the
    letters of a lot have at most."""

    page: tuple[float, float]
    label: tuple[float, float]
    corner: tuple[float, float]
    pitch: tuple[float, float]
    columns: int
    rows: int
    code: int
    letters: float

    @property
    def count(self) -> int:
        """How many labels a page has."""
        return self.columns * self.rows

    def place(self, at: int) -> tuple[int, int]:
        """How many dots a page's label is from the left and from above."""
        row, column = divmod(at, self.columns)
        (left, top), (across, down) = self.corner, self.pitch
        return dots(left + column * across), dots(top + row * down)

    def size(self, text: str, most: float) -> str:
        """How large the letters of a text are, so that it fits beside a QR code."""
        room = dots(self.label[0]) - NAME - self.code - EDGE
        return f"{min(most, room * POINTS / DOTS / WIDTH / len(text)):.2f}pt"


SIZES = {
    "99.1x38.1": Stock((210, 297), (99.1, 38.1), (4.65, 15.15), (101.6, 38.1), 2, 7, 232, 20),
    "100x50": Stock((100, 50), (100, 50), (0, 0), (100, 50), 1, 1, 260, 28),
}
SHEET = "99.1x38.1"  # the size that is printed unless another one is asked for


@dataclass(frozen=True)
class Label:
    """A label: its sublot, what that holds, and its QR code as SVG. In dots: the label's place on the page, the code's
    place on the label, and how wide and high the code is."""

    text: ScannedSublot
    amount: str
    code: str
    place: tuple[int, int]
    code_place: tuple[int, int]
    width: int


def page(source: Source, asked: LotId, names: Sequence[str], stock: Stock, day: datetime.date) -> str:
    """The page with a label of each of a lot's sublots that are named; if none is, of all that hold something. A lot of
    an earlier file alone has none: no command takes its name."""
    base = source.newest.base
    lot = require_lot(base, asked)
    check_stock(source, [asked.owner], [asked])
    amounts = chosen(lot, {name: amount for (_, name), amount in sublots_of(base, [asked]).items()}, names)
    piles = piles_of(source.base, lot)
    labels = [
        label(lot, name, piles(name, amount), stock, at % stock.count) for at, (name, amount) in enumerate(amounts)
    ]
    last_day = last_day_text(source.register.lots.get(asked), day_of(day))
    values = {
        "title": f"Labels of lot {asked}",
        "lot": lot,
        "pages": [labels[at : at + stock.count] for at in range(0, len(labels), stock.count)],
        "stock": stock,
        "status": status(source, lot, day),
        "last_day": last_day,
        "letters": stock.letters - (OF_DAY if last_day else 0),
        "dots": dots,
        "inches": inches,
        "text": TEXT,
        "caption": NAME - TEXT,
        "plain": PLAIN,
    }
    return printing.render("labels", values)


def status(source: Source, lot: Lot, day: datetime.date) -> str:
    """What a label says of its lot's disposition, and that it is held if the plant's quality says so."""
    word = lot.disposition.word
    quality_status = quality.statuses(source.base, source.register, lot.id).get(lot.id)
    if quality_status and quality_status.state == quality.QualityState.HELD:
        return f"{SIGNS['held']} held ({word}) when printed, {day}"
    return f"{SIGNS[word]} {word} when printed, {day}"


def last_day_text(facts: LotFacts | None, day: int) -> str:
    """The last day of a lot as a label says it, and that it is past; empty if none is noted."""
    last = expiry.last_day(facts) if facts else None
    if facts is None or last is None:
        return ""
    is_expiry, is_past = last == facts.expires, expiry.past_day(facts, day)
    if is_past:
        return f"{SIGNS['held']} {'expired on' if is_expiry else 'retest was due'} {format_day(last)}"
    return f"{'expires' if is_expiry else 'retest by'} {format_day(last)}"


def chosen(lot: Lot, amounts: dict[str, int], names: Sequence[str]) -> list[tuple[str, int]]:
    """The sublots that are named, or else those that hold something, with what each holds; fails if there is none."""
    if strange := [name for name in names if name not in amounts]:
        advice = nearest(strange[0], [*amounts], f"sublots of {lot.id}")
        raise Failure(f"there is no sublot {strange[0]} of lot {lot.id}", REFUSED, advice)
    held = names or [name for name, amount in amounts.items() if amount]
    if not held:
        advice = f"its sublots: {', '.join(amounts)}; one that is named gets a label all the same"
        raise Failure(f"no sublot of lot {lot.id} holds anything", REFUSED, advice)
    if len(held) > MOST:
        why = f"{len(held):,} labels of lot {lot.id} are asked for, and at most {MOST} are made at once"
        raise Failure(why, REFUSED, "name the sublots that get one now")
    return [(name, amounts[name]) for name in held]


def piles_of(base: Base, lot: Lot) -> Callable[[str, int], str]:
    """What a label says of an amount in a sublot: where corrections found some of the lot's pile in another lot, what
    a person counts there, and which lots have it."""
    words = {"owner": lot.id.owner, "lot": lot.id.name}
    in_pile, root = base.execute(BESIDE, words).fetchall(), base.execute(ROOT, words).fetchone()

    def amount_text(sublot: str, amount: int) -> str:
        """The amount of a sublot."""
        beside = {name: held for name, place, held in in_pile if place == sublot}
        lots = "".join(f", {held:,} as {name}" for name, held in beside.items())
        of_root = f", of {root[0]}" if root else ""
        return f"{amount + sum(beside.values()):,} {lot.measure}{lots}{of_root}"

    return amount_text


def label(lot: Lot, sublot: str, amount: str, stock: Stock, at: int) -> Label:
    """The label of a sublot at a place of a page. Its QR code is as large as there is room for."""
    import segno

    text = ScannedSublot(*lot.id, sublot)
    code = segno.make_qr(str(text), error=CORRECTION)
    matrix = [bytes(row) for row in code.matrix_iter(border=QUIET)]
    module = stock.code // len(matrix)
    width = module * len(matrix)
    wide, high = stock.label
    code_place = dots(wide) - EDGE - width, (dots(high) - width) // 2
    return Label(text, amount, svg_of(matrix, module), stock.place(at), code_place, width)


def svg_of(matrix: list[bytes], module: int) -> str:
    """The modules of a QR code as SVG, each of so many dots: each row's black ones that follow each other are a
    rectangle."""
    high, path = module - 2 * INSET, []
    for y, row in enumerate(matrix):
        for match in re.finditer(rb"\x01+", row):
            left, wide = match.start() * module + INSET, len(match[0]) * module - 2 * INSET
            path.append(f"M{left:.2f} {y * module + INSET:.2f}h{wide:.2f}v{high:.2f}h-{wide:.2f}z")
    size = module * len(matrix)
    return f'<svg viewBox="0 0 {size} {size}"><path d="{"".join(path)}"/></svg>'


def dots(millimetres: float) -> int:
    """A length as whole dots, rounded."""
    return round(millimetres * DOTS / MILLIMETRES)


def inches(count: int) -> str:
    """As many dots as a length in CSS."""
    return f"{count / DOTS:.6f}in"
