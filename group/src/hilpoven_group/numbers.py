"""The numbers that lots and batches have in a group, and the chains of hashes over an office's rows.

A number is a company's (22 bits), the office (13), its file (8), and which of the company's rows of a table it is (20).
It is the same whoever computes it, so nothing is assigned by a sequence, and it tells nothing of another company.
"""
import hashlib
from typing import NamedTuple

OF_COMPANY, OF_OFFICE, OF_FILE = 41, 28, 20  # bits below each part
MOST_OFFICES, MOST_FILES, MOST_ROWS = (1 << 13) - 1, (1 << 8) - 1, (1 << 20) - 1
FIRST_HOUSE = 1_000_000  # from which on companies are the plants themselves
FORM = "hilpoven group 1"


class Place(NamedTuple):
    """Whose a number is, and in which office and which file it began."""

    gid: int
    office: int
    file: int


def number_of(gid: int, office: int, file: int, n: int) -> int:
    """The number of a company's n-th lot or batch in a file of an office."""
    if not (0 < office <= MOST_OFFICES and 0 < file <= MOST_FILES and 0 < n <= MOST_ROWS):
        raise OverflowError(f"no lot of office {office}, file {file} has the number {n}")
    return gid << OF_COMPANY | office << OF_OFFICE | file << OF_FILE | n


def place_of(number: int) -> Place:
    """Whose a number is, and where it began."""
    return Place(number >> OF_COMPANY, number >> OF_OFFICE & MOST_OFFICES, number >> OF_FILE & MOST_FILES)


class Head(NamedTuple):
    """How many rows a chain has, and the hash behind them."""

    n: int
    hash: bytes

    def with_line(self, line: str) -> "Head":
        """The head behind one more row."""
        return Head(self.n + 1, hashlib.sha256(self.hash + line.encode() + b"\n").digest())


def first_head(office: str, file: int, owner: str, mark: str) -> Head:
    """The head before the first row of an owner's table in a file."""
    return Head(0, hashlib.sha256("\t".join((FORM, office, str(file), owner, mark)).encode()).digest())


def text_of(value: object) -> str:
    """A value of a row as it is hashed, and as PostgreSQL writes it."""
    return ("f", "t")[value] if isinstance(value, bool) else str(value)


def line_of(values: tuple[object, ...]) -> str:
    """A row as it is hashed: no value has a tab or the end of a line."""
    return "\t".join(map(text_of, values))
