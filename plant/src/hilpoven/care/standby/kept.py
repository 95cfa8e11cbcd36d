"""What the pieces of a standby on this machine have had of an office, and its files have no longer."""
import os
from collections.abc import Iterator, Sequence
from dataclasses import dataclass
from datetime import datetime

from ...core import scratch, timeline
from ...model.schema import Disposition
from ...model.years.chain import address_of, reading
from ..years.exchanging import APPENDED
from . import chain, piece
from .chain import Chain, Report

# The rows that never go, and what they never lose, by what they are called.
LASTING = {
    **{table: f"SELECT {columns} FROM {{0}}.{table}" for table, columns in APPENDED.items() if table != "owners"},
    "owners": "SELECT owner FROM {0}.owners",
    "cancelled orders": "SELECT owner, ord FROM {0}.orders WHERE cancelled = 1",
    "rejected lots": f"SELECT owner, lot FROM {{0}}.lots WHERE disposition = {Disposition.REJECTED:d}",
}


@dataclass(frozen=True)
class Kept:
    """The pieces of an office's file in a folder, of its timeline; since when they count, as another file may have been
    in its place before; and until when, as more comes while this is looked at."""

    folder: str
    file: str
    since: datetime | None
    until: datetime

    def lacking(self, files: Sequence[str]) -> list[str]:
        """The rows that pieces have had and none of these files has, in words."""
        lost: dict[str, None] = {}
        if not os.path.isdir(self.folder):
            return []
        number, office = timeline.number_of(self.file), f"{os.uname().nodename}:{self.file}"
        for of in chain.chains_in(self.folder):
            if of.timeline == number and of.snapshots and chain.office_of(of) == office:
                with scratch.folder(os.path.dirname(self.file)) as room:
                    for state in self.states(of, os.path.join(room, "state.db")):
                        lost.update(dict.fromkeys(missing_rows(state, files)))
        return list(lost)

    def states(self, of: Chain, path: str) -> Iterator[str]:
        """The file that pieces give, made at a path: the last one, and each before a piece for which all of the file
        was looked at, as the log alone didn't tell what had come. Between those rows come and none goes."""
        last = ""
        with open(path, "xb", 0) as base:
            for one in chain.pieces_of(of, *Report(of, self.folder, is_deep=False).look().route):
                if datetime.fromisoformat(one.header.at) > self.until:
                    break
                if one.header.kind == piece.FILE and self.counts(last):
                    yield path
                chain.put_pages(base.fileno(), one)
                last = one.header.at
            if self.counts(last):
                yield path

    def counts(self, at: str) -> bool:
        """Whether there is a state of this time, and it is of the file that is in place now."""
        return bool(at) and (self.since is None or datetime.fromisoformat(at) > self.since)


def missing_rows(state: str, files: Sequence[str]) -> Iterator[str]:
    """The rows of a state of an office that none of its files has."""
    with reading(state) as base:
        names = [f"file_{number}" for number in range(len(files))]
        for name, file in zip(names, files):
            base.execute(f"ATTACH ? AS {name}", (address_of(file),))
        for kind, sql in LASTING.items():
            others = " EXCEPT ".join(sql.format(name) for name in names)
            for row in base.execute(f"{sql.format('main')} EXCEPT {others}"):
                yield f"{kind}: {' '.join(map(str, row))}"
