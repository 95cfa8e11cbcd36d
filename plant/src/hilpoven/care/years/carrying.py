"""The office goes on in a new file, which begins with what lies in the plant and has what the one before it had."""
import contextlib
import os
import socket
import sqlite3
from collections import deque
from collections.abc import Callable, Iterable, Iterator
from contextlib import AbstractContextManager
from dataclasses import dataclass, field
from itertools import zip_longest
from typing import NamedTuple

from ... import HOUSE
from ...core import files, lock, private_server, scratch, snapshot
from ...core.failure import REFUSED, WRONG_USE, Failure
from ...core.journal import log, query
from ...core.office import Answer, Office, front_of, next_number, number_of
from ...core.private_server import PrivateServer
from ...core.server import Place
from ...model import accepted
from ...model.answers import StockLine, rows_of
from ...model.register import lines
from ...model.schema import LATEST, Disposition
from ...model.years import chain
from .. import backups
from . import exchanging, steps
from .steps import UNBEGUN, Step

MEMORY = "/dev/shm"
TIMES = 4  # the file's size that must be free where the new file is filled
COMMAND = "carry-over"
NEW = "next.db"
MOST_HELD = 10  # sublots of an owner that are named


@dataclass
class Work:
    """What a carry-over works with: the office, where a server may be, its journal, a copy of its file that has no log,
    the new file's path until it is put in place, the receipts by which stock comes over, the earlier files, and the
    owners that leave."""

    office: Office
    place: Place
    journal: log.Journal
    copy: str
    target: str
    receipts: steps.Receipts
    earlier: list[chain.Part]
    without: tuple[str, ...] = ()

    @contextlib.contextmanager
    def reading(self) -> Iterator[sqlite3.Connection]:
        """The tables of the copy as they go on: without the owners that leave."""
        with chain.reading(self.copy) as base:
            base.execute("CREATE TEMP TABLE leaving (owner TEXT)")
            base.executemany("INSERT INTO leaving VALUES (?)", [(owner,) for owner in self.without])
            for table in steps.OF_OWNERS if self.without else ():
                rows = f"SELECT rowid, * FROM main.{table} WHERE owner NOT IN temp.leaving"
                base.execute(f"CREATE TEMP VIEW {table} AS {rows}")
            yield base


class Telling(NamedTuple):
    """How a carry-over tells what it does: a step that begins, a line of what was found, and how far long work is."""

    step: Callable[[str], None]
    line: Callable[[str], None]
    bar: Callable[[str, int], AbstractContextManager[Callable[[int], None]]]


def target_of(file: str, new: str | None) -> str:
    """The path of the new file, until it is put in place."""
    folder = os.path.dirname(file)
    target = os.path.abspath(new) if new else os.path.join(folder, NEW)
    target = os.path.join(os.path.realpath(os.path.dirname(target)), os.path.basename(target))
    if os.path.dirname(target) != folder or target == file or number_of(file, os.path.basename(target)):
        raise Failure(
            f"NEW is to be a name in the folder of {file}, and none that an earlier file has",
            WRONG_USE,
            f"such as {os.path.join(folder, NEW)}",
        )
    return target


def workroom(file: str) -> str:
    """The folder in which the new file is filled: in memory if there is room, since `toll` waits for the disk behind
    each word; otherwise the file's own."""
    size = sum(os.path.getsize(path) for path in (file, f"{file}-wal") if os.path.exists(path))
    with contextlib.suppress(OSError):
        memory = os.statvfs(MEMORY)
        if os.access(MEMORY, os.W_OK) and memory.f_bavail * memory.f_frsize > TIMES * size:
            return MEMORY
    return os.path.dirname(file)


@contextlib.contextmanager
def prepared(
    office: Office, place: Place, journal: log.Journal, target: str, day: str, is_plan: bool, without: tuple[str, ...]
) -> Iterator[Work]:
    """What a carry-over works with. It holds the lock until the end of the block, but for a plan, which only reads."""
    held = contextlib.nullcontext() if is_plan else lock.held(office.file, office.wait)
    with scratch.folder(workroom(office.file)) as room, held:
        copy = os.path.join(room, "old.db")
        if is_plan:
            snapshot.copy(office, copy)
        else:
            backups.stop_on_server(office.file, place)
            snapshot.copy_both(office.file, copy)
        snapshot.settle(copy)
        with chain.reading(copy) as base:
            row = chain.came_from(base)
        receipts = steps.Receipts(f"C{next_number(office.file)}", day)
        yield Work(office, place, journal, copy, target, receipts, chain.earlier_files(office.file, row), without)


def hindrances(work: Work) -> list[str]:
    """Why the office can't be carried over now; fails unless those that leave are owners."""
    require_owners(work)
    path = work.journal.path
    unwhole = query.check(path, file=work.office.file).wrong
    with chain.reading(work.copy) as base:
        reasons = [
            f"batch {order}/{number} of {owner} is open, on {unit}: close it first"
            for owner, order, number, unit in base.execute(steps.OPEN_BATCHES)
        ]
        reasons += [reason for owner in work.without for reason in why_it_stays(base, owner)]
        rows = [] if unwhole else accepted.added_rows(query.entries(path, work.office.file))
        faults = backups.checked_tables(base) or accepted.lacking(base, rows)
        reasons += [f"verify: {fault}" for fault in faults]
    tried = f"{work.copy}.tried"
    files.copy(work.copy, tried)
    answer = work.office.ask(["stock", "HOUSE"], tried)
    if answer.status:
        reasons.append(f"verify: toll doesn't open it: {answer.error.strip()}")
    noted = "; `hilpoven note list` has what to note anew there" if lines.may_have_notes(work.journal) else ""
    return reasons + [
        f"verify: journal: {fault}: move {path} elsewhere and keep it, and a new one begins{noted}" for fault in unwhole
    ]


def require_owners(work: Work) -> None:
    """Fails unless those that leave are owners; one that left with the last carry-over has left already."""
    paths = [work.copy, *(part.path for part in work.earlier[-1:])]
    for owner in work.without:
        if owner == HOUSE:
            raise Failure(f"{HOUSE} is the plant itself, and stays", WRONG_USE)
        if not any(has_owner(path, owner) for path in paths):
            raise Failure(f"there is no owner {owner}", REFUSED)


def has_owner(path: str, owner: str) -> bool:
    """Whether a file has an owner."""
    with chain.reading(path) as base:
        return base.execute("SELECT 1 FROM owners WHERE owner = ?", (owner,)).fetchone() is not None


def why_it_stays(base: sqlite3.Connection, owner: str) -> list[str]:
    """Why an owner can't leave: what it has on hand, and the orders that wait for their first batch."""
    held = base.execute(steps.HELD, (owner,)).fetchall()
    reasons = [
        f"{owner} has {amount:,} {measure} of {lot} {sublot}: ship or scrap it" for lot, sublot, amount, measure in held
    ]
    rest = [f"{owner} has {len(held) - MOST_HELD:,} more sublots that hold something"] if held[MOST_HELD:] else []
    waiting = base.execute(steps.WAITING, (owner,)).fetchall()
    orders = [f"order {order} of {owner} waits: cancel it" for order, in waiting]
    return [*reasons[:MOST_HELD], *rest, *orders]


def carry_over(work: Work, tell: Telling) -> exchanging.Exchange | None:
    """Carries the office over, which the journal notes; `None` if that had been done, as nothing was recorded since."""
    is_left = not any(has_owner(work.copy, owner) for owner in work.without)
    is_done = bool(work.earlier) and is_left and is_fresh(work.earlier[-1].path, work.copy)
    settle_journal(work.journal, is_done)
    if is_done:
        return None
    leaving = [word for owner in work.without for word in ("--without", owner)]
    words = [COMMAND, os.path.basename(work.target), "--day", work.receipts.day, *leaving]
    with work.journal.noted(work.office.file, words) as entry:
        for path in exchanging.clear(work.office, work.copy, work.target, {file.path for file in work.earlier}):
            tell.line(
                f"a carry-over was stopped: {os.path.basename(path)}, which it left, is removed, and it begins anew"
            )
        number = next_number(work.office.file)
        work.receipts = steps.Receipts(f"C{number}", work.receipts.day)
        done = fill_and_exchange(work, f"{front_of(work.office.file)}-{number}.db", tell)
        name = os.path.basename(done.earlier)
        entry.answer = Answer(0, f"carried over; {name} is the earlier file, sha256 {done.hash}\n", "")
    return done


def outcome(work: Work, done: exchanging.Exchange | None) -> str:
    """What is told of a carry-over, in a line."""
    file = work.office.file
    if done:
        return f"{file} is the new file; {done.earlier} is the earlier one, read-only, sha256 {done.hash}"
    last = work.earlier[-1]
    return f"{file} came from {last.name} at {last.at}, and nothing was recorded since: nothing is left to do"


def settle_journal(journal: log.Journal, is_done: bool) -> None:
    """Answers what the journal has of a carry-over that was stopped."""
    stopped = Answer(0, "", "stopped before the new file was put in place\n")
    answer = Answer(0, "carried over\n", "") if is_done else stopped
    for entry in query.check(journal.path).unanswered:
        if list(entry.get("words", []))[:1] == [COMMAND]:
            journal.answered(str(entry.get("id")), answer)


def fill_and_exchange(work: Work, earlier: str, tell: Telling) -> exchanging.Exchange:
    """Fills the new file, compares it, and puts it in the office's place."""
    office, new, tried = work.office, os.path.join(os.path.dirname(work.copy), "new.db"), f"{work.copy}.tried"
    with work.reading() as base:
        keys = dict(base.execute("SELECT owner, okey FROM owners").fetchall())
        with private_server.opened(office.program, new) as after:
            with tell.bar("the new file is filled", steps.count(base)) as advance:
                Filling(after, keys, advance).fill(steps.stages(base, work.receipts))
            tell.step("both files are compared")
            files.copy(work.copy, tried)
            with private_server.opened(office.program, tried) as before:
                require_same_stock(before, after, keys)
        snapshot.settle(new)
        require_same(work.copy, new, work.without)
        tell.step("the new file is put in place")
        return exchanging.exchange(office, work.place, new, work.target, earlier, work.receipts.keys(base))


ACCEPTED, OK = "accepted\n", 200
MOST_UNDER_WAY = 8  # steps whose answers are still to come, so that `toll` and this process work at the same time
EACH = 100  # steps after which progress is told


@dataclass
class Filling:
    """A server of a new file, the owners' keys, how progress is told, and the steps whose answers are still to come."""

    server: PrivateServer
    keys: dict[str, str]
    advance: Callable[[int], None]
    under_way: deque[tuple[Step, socket.socket]] = field(default_factory=deque)
    done: int = 0

    def fill(self, stages: Iterator[Iterator[Step]]) -> None:
        """Takes all steps, a stage of which may come in any order; fails if one isn't accepted."""
        try:
            for stage in stages:
                for step in stage:
                    self.begin(step)
                    if len(self.under_way) == MOST_UNDER_WAY:
                        self.end_first()
                while self.under_way:
                    self.end_first()
            self.advance(self.done % EACH)
        finally:
            for _, peer in self.under_way:
                peer.close()

    def begin(self, step: Step) -> None:
        """Begins a step."""
        if step.owner and not self.under_way:
            self.server.renew()
        peer = (
            self.server.send(step.owner, self.keys[step.owner], step.path, step.body)
            if step.owner
            else self.server.say(*step.words)
        )
        self.under_way.append((step, peer))

    def end_first(self) -> None:
        """Takes the answer of the step that was begun first."""
        step, peer = self.under_way.popleft()
        if step.owner:
            status, body = self.server.reply(peer)
            refusal = "" if status == OK else f"{status} {body.get('error', '')}"
        else:
            answer = self.server.answer(peer)
            refusal = "" if answer.output == ACCEPTED else (answer.output or answer.error).strip()
        if refusal:
            raise Failure(f"toll answered {refusal} to {step}")
        self.done += 1
        if self.done % EACH == 0:
            self.advance(EACH)


HELD = "EXISTS (SELECT 1 FROM {0}.sublots AS s WHERE s.owner = l.owner AND s.lot = l.lot AND s.amount > 0)"
WITHIN = """
NOT EXISTS (SELECT 1 FROM {0}.tests AS t WHERE t.owner = l.owner AND t.material = l.material AND coalesce(
  (SELECT r.value NOT BETWEEN t.low AND t.high FROM {0}.results AS r
   WHERE r.owner = l.owner AND r.lot = l.lot AND r.test = t.test ORDER BY r.number DESC LIMIT 1), 1))
"""
# What is compared: the rows that the one file and the other have of it, with {0} for the file.
SAME = {
    "owners": "SELECT * FROM {0}.owners",
    "units": "SELECT * FROM {0}.units",
    "materials": "SELECT * FROM {0}.materials",
    "tests": "SELECT * FROM {0}.tests",
    "recipes": "SELECT * FROM {0}.recipes",
    "what recipes require": "SELECT * FROM {0}.requirements",
    "orders without a batch": f"SELECT * FROM {{0}}.orders AS o WHERE {UNBEGUN.replace('batches', '{0}.batches')}",
    "stock": "SELECT owner, lot, sublot, material, disposition, amount "
    "FROM {0}.sublots JOIN {0}.lots USING (owner, lot) WHERE amount > 0",
    "latest results": "SELECT r.owner, r.lot, r.test, r.value, r.day FROM {0}.results AS r "
    f"WHERE {LATEST.replace('results', '{0}.results')} AND {HELD.replace('l.', 'r.')}",
    "dispositions, and what a release is told": f"""
SELECT owner, lot, {Disposition.sql('disposition')}, CASE
  WHEN disposition <> {Disposition.QUARANTINED:d} THEN 'NotQuarantined' WHEN {WITHIN} THEN 'accepted' ELSE 'TestsOpen'
  END FROM {{0}}.lots AS l WHERE {HELD}""",
}


LEFT = "SELECT owner FROM old.owners EXCEPT SELECT owner FROM new.owners"


@contextlib.contextmanager
def both(old: str, new: str) -> Iterator[sqlite3.Connection]:
    """Two files, as `old` and `new`."""
    with contextlib.closing(sqlite3.connect(":memory:", uri=True)) as base:
        for name, path in (("old", old), ("new", new)):
            base.execute(f"ATTACH ? AS {name}", (chain.address_of(path),))
        yield base


def difference(base: sqlite3.Connection, without: Iterable[str] = ()) -> str:
    """In what two files differ of that which goes from one to the next, but for owners that leave; empty if they
    don't."""
    base.execute("CREATE TEMP TABLE IF NOT EXISTS leaving (owner TEXT)")
    base.executemany("INSERT INTO leaving VALUES (?)", [(owner,) for owner in without])
    for table, sql in SAME.items():
        stays = "" if table == "units" else " WHERE owner NOT IN temp.leaving"
        both_sides = (f"SELECT * FROM ({sql.format('old')}){stays}", sql.format("new"))
        for old, new in zip_longest(*(sorted_rows(base, side) for side in both_sides)):
            if old != new:
                file, row = ("old", old) if new is None or (old is not None and old < new) else ("new", new)
                cells = row[:1] if table == "owners" else row
                return f"{table} differ: only the {file} file has {' '.join(map(str, cells))}"
    return ""


def sorted_rows(base: sqlite3.Connection, sql: str) -> sqlite3.Cursor:
    """The rows of a query, in the order of all of their columns."""
    columns = len(base.execute(f"SELECT * FROM ({sql}) LIMIT 0").description)
    return base.execute(f"SELECT * FROM ({sql}) ORDER BY {', '.join(map(str, range(1, columns + 1)))}")


def require_same(old: str, new: str, without: Iterable[str] = ()) -> None:
    """Fails if two files differ in what goes from one to the next."""
    with both(old, new) as base:
        if text := difference(base, without):
            raise Failure(text, advice="nothing was changed")


def is_fresh(old: str, new: str) -> bool:
    """Whether nothing was recorded in a file since it came from another."""
    with chain.reading(new) as base:
        if base.execute(chain.RECORDED).fetchone():
            return False
    with both(old, new) as base:
        return not difference(base, [owner for owner, in base.execute(LEFT)])


def require_same_stock(old: PrivateServer, new: PrivateServer, owners: Iterable[str]) -> None:
    """Fails if `toll` tells another stock of an owner, but for the sublots with nothing in them."""
    for owner in [HOUSE, *owners]:
        before, after = (server.ask("stock", owner) for server in (old, new))
        held = [line for line in rows_of(StockLine, before.output) if line.amount]
        if before.status or after.status or held != rows_of(StockLine, after.output):
            raise Failure(f"toll tells another stock of {owner}", advice="nothing was changed")
