"""The days on which owners' orders were placed and the plant opened and closed their batches.

The journal has what the plant did, and what it asked on an owner's behalf; the site's log has what owners placed, where
this process may read it. Both grow for years, so a file in the companions' folder has how far they were read.
"""
import re
from collections.abc import Iterable
from dataclasses import dataclass, field
from typing import Any

from ...core.days import day_of, moment_in, written, zone_of
from ...core.failure import Failure
from ...core.journal import query, sitelog
from ...core.journal.log import entry_of, hash_of
from ...model.accepted import DONE, REPLACING, has_replaced
from ...model.register import lines

LOOKS = 2  # how often a new order is looked for in the site's log: nginx writes a line behind the reply
PLANT = rf'"words": \["(?:open|close|for|{"|".join(sorted(REPLACING))})"'.encode()
WANTED = re.compile(PLANT + rb'|"event": "moved"')
OF = re.compile(rb'"of": "([0-9a-f]{16})"')  # of which line an answer is
Moments = dict[str, str]


@dataclass
class Known:
    """The moments of one owner's orders by name: when each was placed, when its batches were opened one after another,
    and by their numbers when they were closed."""

    placed: Moments = field(default_factory=dict)
    opened: dict[str, list[str]] = field(default_factory=dict)
    closed: dict[str, Moments] = field(default_factory=dict)


@dataclass
class Days:
    """How far the journal was read, what is asked there and not answered yet, how its file was moved, what is known of
    the owners of each file, and how often each order was looked for in the site's log."""

    start: int = 0
    stop: int = 0
    hash: str = ""
    last: str = ""
    moves: list[tuple[str, str]] = field(default_factory=list)
    asked: dict[str, tuple[str, str, list[str]]] = field(default_factory=dict)  # by line: time, file and words
    known: dict[str, dict[str, Known]] = field(default_factory=dict)
    looked: dict[str, dict[str, int]] = field(default_factory=dict)
    since: str = ""  # when the site's log was read last
    placed: dict[str, Moments] = field(default_factory=dict)  # by the site's log

    def read_journal(self, path: str) -> None:
        """Reads what the journal has behind what was read; all of it if it doesn't go on from there."""
        if not lines.continues(path, self.start, self.stop, self.hash):
            fresh = Days(looked=self.looked, since=self.since, placed=self.placed)
            self.__dict__.update(vars(fresh))
        last = b""
        with lines.opened(path) as descriptor:
            for piece in lines.pieces(descriptor, self.stop) if descriptor is not None else ():
                at = piece.rfind(b"\n", 0, len(piece) - 1) + 1
                self.start, self.stop, last = self.stop + at, self.stop + len(piece), piece[at:]
                for line in piece.split(b"\n"):
                    if WANTED.search(line) or any(name.decode() in self.asked for name in OF.findall(line)):
                        self.note(entry_of(line) or {})
        if last:
            self.hash = hash_of(last[:-1])

    def note(self, entry: dict[str, Any]) -> None:
        """Notes what a line of the journal says."""
        self.last = str(entry.get("file", self.last))
        if entry.get("event") == "moved":
            self.moves.append((str(entry.get("from")), self.last))
        elif entry.get("event") == "asked":
            words = [str(word) for word in query.listed(entry, "words")]
            self.asked[str(entry.get("id"))] = str(entry.get("time")), self.last, words
        elif entry.get("event") == "told" and (asked := self.asked.pop(str(entry.get("of")), None)):
            time, file, words = asked
            if words[:1] and words[0] in REPLACING:
                if has_replaced(entry):
                    self.known.pop(file, None)
            elif str(entry.get("answer")).strip() in DONE:
                self.note_done(time, self.known.setdefault(file, {}), words)

    def note_done(self, time: str, owners: dict[str, Known], words: list[str]) -> None:
        """Notes what a command did that was accepted."""
        match words:
            case ["open", owner, order, _]:
                owners.setdefault(owner, Known()).opened.setdefault(order, []).append(time)
            case ["close", owner, order, number]:
                owners.setdefault(owner, Known()).closed.setdefault(order, {})[number] = time
            case ["for", owner, "order", order, *_]:
                owners.setdefault(owner, Known()).placed.setdefault(order, time)

    def read_site(self, logs: Iterable[str], orders: Iterable[tuple[str, str]], begun: str) -> None:
        """Looks in the site's logs for new orders, given with their owners, that were placed since the office's file
        was begun. A log that this process may not read says nothing."""
        self.placed = {
            owner: {order: moment for order, moment in moments.items() if moment >= begun}
            for owner, moments in self.placed.items()
        }
        wanted = [(owner, order) for owner, order in orders if self.looks(owner, order) < LOOKS]
        if not wanted:
            return
        try:
            since = moment_in(self.since) if self.since else None
            placed = [request for log in logs for request in sitelog.orders_placed(log, since)]
        except Failure:
            return
        for request in placed:
            moment, moments = written(request.time), self.placed.setdefault(request.owner, {})
            if moment >= begun:
                moments[request.order] = min(moment, moments.get(request.order, moment))
            self.since = max(self.since, moment)
        for owner, order in wanted:
            self.looked.setdefault(owner, {})[order] = self.looks(owner, order) + 1

    def looks(self, owner: str, order: str) -> int:
        """How often an order was looked for; as often as it may be, if it was there."""
        return LOOKS if order in self.placed.get(owner, {}) else self.looked.get(owner, {}).get(order, 0)

    def of(self, owner: str, file: str) -> Known:
        """What is known of an owner of an office's file, under the names that the file has had."""
        own, names = Known({**self.placed.get(owner, {})}), query.Files(moves=self.moves, last=self.last).of(file)
        for part in (self.known[name].get(owner, Known()) for name in sorted(names & self.known.keys())):
            own.placed |= part.placed
            own.opened |= {order: sorted(own.opened.get(order, []) + times) for order, times in part.opened.items()}
            own.closed |= {order: own.closed.get(order, {}) | times for order, times in part.closed.items()}
        return own


@dataclass(frozen=True)
class OwnDays:
    """The days of one owner's orders and batches in the plant's time zone, as six digits; `None` of one that isn't
    known. What was before the office's file was begun is of an earlier one."""

    known: Known
    zone: str = ""
    begun: str = ""

    def day(self, moment: str | None) -> int | None:
        """The day of a moment."""
        try:
            return day_of(moment_in(moment).astimezone(zone_of(self.zone)).date()) if moment else None
        except (ValueError, OverflowError):
            return None

    def placed(self, order: str) -> int | None:
        """The day on which an order was placed."""
        moment = self.known.placed.get(order)
        return self.day(moment) if moment and moment >= self.begun else None

    def opened(self, order: str, number: int, count: int) -> int | None:
        """The day on which a batch of an order was opened that has so many. The journal has no numbers of opened
        batches, so it has to have all of them."""
        moments = [moment for moment in self.known.opened.get(order, []) if moment >= self.begun]
        return self.day(moments[number - 1]) if len(moments) == count else None

    def closed(self, order: str, number: int) -> int | None:
        """The day on which a batch was closed."""
        moment = self.known.closed.get(order, {}).get(str(number))
        return self.day(moment) if moment and moment >= self.begun else None


def days_in(value: Any) -> Days:
    """What an earlier run kept; nothing if it can't be read, so that all is read anew."""
    try:
        days = Days(**value)
        days.moves = [(source, target) for source, target in days.moves]
        days.asked = {name: (time, file, words) for name, (time, file, words) in days.asked.items()}
        days.known = {
            file: {owner: Known(**known) for owner, known in owners.items()}  # type: ignore[arg-type]
            for file, owners in days.known.items()
        }
        return days
    except (ValueError, TypeError, AttributeError):
        return Days()
