"""What the tests of a standby share: a follower that looks when it is told to, and the office that its pieces give."""
import contextlib
import pathlib
import sqlite3
import tempfile

from conftest import Plant
from hilpoven.care.standby import chain
from hilpoven.care.standby.book import Book
from hilpoven.care.standby.follower import Follower


def follower_of(db: pathlib.Path, folder: pathlib.Path, office: str = "here", timeline: int = 1) -> Follower:
    """A follower of an office's file into a folder, which writes a piece with each look; what it tells is in `messages`."""
    folder.mkdir(mode=0o700, exist_ok=True)
    messages: list[str] = []
    follower = Follower(str(db), 1.0, Book(str(folder), str(db), f"{db}.journal", office, timeline), 7, messages.append)
    follower.messages = messages
    follower.resume()
    return follower


def look(follower: Follower) -> None:
    """Looks, writes what is new, and removes what is old."""
    follower.step()
    follower.write_pending()
    while follower.removal.names:
        follower.removal.step()


@contextlib.contextmanager
def built(folder: pathlib.Path, until: int | None = None):
    """The office that a folder's pieces give, in a folder that goes at the end."""
    of = chain.newest_in(str(folder))
    report = chain.Report(of, str(folder)).look()
    assert report.wrong == []
    with tempfile.TemporaryDirectory() as room:
        yield chain.build(chain.pieces_of(of, *(report.route if until is None else report.route_to(until))), room)


def rows_of(db: str | pathlib.Path) -> dict[str, list[tuple]]:
    """All rows of all tables of a file that nobody writes."""
    with contextlib.closing(sqlite3.connect(db)) as base:
        assert base.execute("PRAGMA integrity_check").fetchall() == [("ok",)]
        return rows_in(base)


def rows_in(base: sqlite3.Connection) -> dict[str, list[tuple]]:
    """All rows of all tables."""
    names = [name for name, in base.execute("SELECT name FROM sqlite_master WHERE type = 'table' ORDER BY name")]
    return {name: sorted(base.execute(f"SELECT * FROM {name}")) for name in names}


def has_all_of(plant: Plant, folder: pathlib.Path) -> bool:
    """Whether the pieces of a folder give all rows of an office that nobody writes now, and all lines of its journal: what a follower
    at work comes to, whatever it is in the midst of."""
    if not chain.chains_in(str(folder)) or chain.Report(chain.newest_in(str(folder)), str(folder)).look().wrong:
        return False
    journal = plant.journal.read_bytes() if plant.journal.exists() else b""
    with built(folder) as office, plant.reading() as base:
        return rows_of(office.file) == rows_in(base) and pathlib.Path(office.journal).read_bytes() == journal
