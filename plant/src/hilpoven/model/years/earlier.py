"""What earlier files of an office say of what it is about to be told: a movement that is in one of them is not recorded
again, and a lot that came from them takes no receipt that it wouldn't have taken there."""
import contextlib
import functools
import os
import sqlite3
from collections.abc import Iterator, Sequence
from dataclasses import dataclass

from ... import HOUSE
from ...core import snapshot
from ...core.failure import REFUSED
from ...core.grammar import Line
from ...core.office import Answer, Office, earlier_files
from ..schema import INCOMING, MOVE_COLUMNS as MOVE_COLUMNS, ON_HAND, Kind
from . import chain

MOVE = f"SELECT {MOVE_COLUMNS} FROM moves WHERE owner = ? AND mkey = ?"
VOIDED = "SELECT 1 FROM voids WHERE owner = ? AND mkey = ?"
LOT = f"SELECT ord, number, {ON_HAND} FROM lots AS l WHERE owner = ? AND lot = ?"
CAME_OVER = "SELECT 1 FROM moves JOIN carried_moves USING (owner, mkey) WHERE lot_owner = ? AND lot = ? LIMIT 1"
ORDER = "SELECT 1 FROM batches WHERE owner = ? AND ord = ? LIMIT 1"
KINDS = {"receive": Kind.RECEIVE, "split": Kind.SPLIT, "ship": Kind.SHIP, "scrap": Kind.SCRAP, "actual": Kind.CONSUMED}


@dataclass(frozen=True)
class EarlierFile:
    """An earlier file, open, with its name."""

    name: str
    base: sqlite3.Connection


@functools.lru_cache(maxsize=4)
def open_files(file: str, inode: int) -> tuple[EarlierFile, ...]:
    """The earlier files of an office, the newest first. The inode tells another file that has its name since."""
    with chain.reading(file) as base:
        row = chain.came_from(base)
    return tuple(
        EarlierFile(earlier.name, sqlite3.connect(chain.address_of(earlier.path), uri=True))
        for earlier in reversed(chain.earlier_files(file, row))
    )


def files_of(office: Office) -> tuple[EarlierFile, ...]:
    """The earlier files of an office, the newest first.

    Only if files of such names are there the office's own is read. Its table of where it came from has its pages since
    before the file had its name, and nothing writes them: so it is read without the lock and without the log.
    """
    return open_files(office.file, os.stat(office.file).st_ino) if earlier_files(office.file) else ()


@contextlib.contextmanager
def tables_of(office: Office) -> Iterator[list[sqlite3.Connection]]:
    """The tables of a copy of an office's file, and those of its earlier files, the newest first."""
    with snapshot.opened(office) as base:
        yield [base, *(file.base for file in files_of(office))]


def lot_of(values: dict[str, str]) -> tuple[str, str]:
    """The owner and the name of the lot that a line is about."""
    return values.get("LOT-OWNER", values.get("OWNER", HOUSE)), values["LOT"]


def move_of(line: Line, values: dict[str, str]) -> tuple[str | int, ...] | None:
    """The row that a line would record, in the columns of `MOVE`; `None` if it records none, or can't be read."""
    kind = KINDS.get(line.name)
    numbers = [values.get(name, "0") for name in ("BATCH", "SEGMENT", "AMOUNT", "DAY")]
    if kind is None or not all(number.isdecimal() for number in numbers):
        return None
    if values.get("USE") == Kind.PRODUCED.word:
        kind = Kind.PRODUCED
    owner, lot = lot_of(values)
    texts = [values.get(name, "") for name in ("SUBLOT", "TARGET", "MATERIAL", "ORDER")]
    return kind, owner, lot, *texts, *map(int, numbers)


def answer(office: Office, line: Line, words: Sequence[str]) -> Answer | None:
    """The answer to a line because of the earlier files, so that `toll` isn't asked; mostly `None`."""
    values = dict(zip(line.values, words))
    row = move_of(line, values)
    if row is None:
        return None
    files = files_of(office)
    for file in files:
        if known := answer_by_key(file, line, values, row):
            return known
    return answer_by_lot(files, line, values) if row[0] in INCOMING else None


def answer_by_key(file: EarlierFile, line: Line, values: dict[str, str], row: tuple[str | int, ...]) -> Answer | None:
    """The answer if an earlier file has a movement with the key, as `toll` answers over that file."""
    owner, key = values["OWNER"], values["KEY"]
    known = file.base.execute(MOVE, (owner, key)).fetchone()
    if known is None:
        return None
    reason = f"  {key} of {owner} is in the earlier file {file.name}; nothing is recorded\n"
    if known != row:
        is_begun = line.name == "actual" and file.base.execute(ORDER, (owner, values["ORDER"])).fetchone()
        return Answer(REFUSED, "refused 35 KeyConflict\n", reason) if is_begun else None
    if file.base.execute(VOIDED, (owner, key)).fetchone():
        return Answer(REFUSED, "refused 41 Voided\n", reason)
    return Answer(0, "repeated\n", reason)


def is_repeated(base: sqlite3.Connection, line: Line, values: dict[str, str]) -> bool:
    """Whether tables have the movement of a line with its key, and not as void: `toll` answers `repeated` then."""
    row = move_of(line, values)
    known = None if row is None else base.execute(MOVE, (values["OWNER"], values["KEY"])).fetchone()
    return known == row is not None and not base.execute(VOIDED, (values["OWNER"], values["KEY"])).fetchone()


def answer_by_lot(files: Sequence[EarlierFile], line: Line, values: dict[str, str]) -> Answer | None:
    """The answer to a receipt or a production into a lot that earlier files have."""
    owner, name = lot_of(values)
    for at, file in enumerate(files):
        row = file.base.execute(LOT, (owner, name)).fetchone()
        if row is None:
            continue
        reason = ""
        if at or not row[2]:
            reason = f"stayed behind in {file.name}, and this would be another lot of its name"
        elif line.name == "receive" and (batch := maker_of(files, owner, name)):
            reason = f"was made by batch {batch}, and takes no receipt"
        return Answer(REFUSED, "", f"refused by hilpoven: lot {name} of {owner} {reason}\n") if reason else None
    return None


def maker_of(files: Sequence[EarlierFile], owner: str, lot: str) -> str:
    """The batch that made a lot that came over, in the file in which it was made; empty if it is from receipts."""
    for file in files:
        order, number, _ = file.base.execute(LOT, (owner, lot)).fetchone()
        if order:
            return f"{order}/{number} ({file.name})"
        if not chain.came_from(file.base) or not file.base.execute(CAME_OVER, (owner, lot)).fetchone():
            return ""
    return ""


def hint(office: Office, line: Line, words: Sequence[str], refusal: str) -> str:
    """What earlier files add to an answer: that it is of the newest file alone, or where an unknown lot is."""
    values, is_search = dict(zip(line.values, words)), line.name == "trace"
    if line.name == "recall" or not is_search and refusal != "UnknownLot":
        return ""  # a recall says itself what all files have
    files = files_of(office)
    if not files:
        return ""
    owner, name = lot_of(values)
    asked = words if line.is_question else (owner, name)
    command = " ".join(["hilpoven years", line.name if is_search else "lot", *asked])
    if refusal == "UnknownLot":
        has_it = next((file.name for file in files if file.base.execute(LOT, (owner, name)).fetchone()), "")
        text = f"Lot {name} of {owner} is in {has_it}, and stayed behind with nothing on hand: {command}"
        return text if has_it else ""
    own = os.path.basename(office.file)
    first = f"ATTENTION: this is of {own} alone, which came from {files[0].name}: what stayed there isn't in it."
    return f"{first}\nOver all files: {command}"
