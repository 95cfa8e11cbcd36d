"""What owners' requests did that were answered 200, as the site's log has them, and what of it the office lacks."""
import re
import sqlite3
from collections.abc import Iterable, Sequence
from dataclasses import dataclass
from datetime import datetime
from typing import Any

from ..core.failure import printable
from ..core.journal import sitelog
from ..core.journal.query import listed
from ..core.journal.sitelog import Request
from ..core.table import counted
from ..model.accepted import has_replaced
from ..model.schema import Disposition

FIRST = 10  # requests that are told where the files lack many
DONE = 200
# What a request leaves in the office's tables for ever, by its path. A release may have been ended by a result.
LEFT = {
    re.compile(r"POST /orders(?:\?.*)?"): "orders WHERE owner = :owner AND ord = :name",
    re.compile(r"POST /orders/([^/?]+)/cancel"): "orders WHERE owner = :owner AND ord = :name AND cancelled = 1",
    re.compile(r"POST /lots/([^/?]+)/reject"): (
        f"lots WHERE owner = :owner AND lot = :name AND disposition = {Disposition.REJECTED:d}"
    ),
    re.compile(
        r"POST /lots/([^/?]+)/release"
    ): f"""
lots AS l WHERE l.owner = :owner AND l.lot = :name AND (l.disposition <> {Disposition.QUARANTINED:d} OR EXISTS (
  SELECT 1 FROM results AS r JOIN tests AS t ON t.owner = r.owner AND t.material = l.material AND t.test = r.test
  WHERE r.owner = l.owner AND r.lot = l.lot AND r.value NOT BETWEEN t.low AND t.high))
""",
}


@dataclass(frozen=True)
class Done:
    """A request that was done: whose, when, what, and the query that finds what it left."""

    request: Request
    name: str
    sql: str

    def is_in(self, bases: Iterable[sqlite3.Connection]) -> bool:
        """Whether a file of the office has what it left."""
        words = {"owner": self.request.owner, "name": self.name}
        return any(base.execute(f"SELECT 1 FROM {self.sql}", words).fetchone() for base in bases)

    def __str__(self) -> str:
        return f"{self.request.action} of {self.request.owner} at {self.request.time:%Y-%m-%dT%H:%M:%SZ}"


def done_of(request: Request) -> Done | None:
    """What a request did, if it is known and was done."""
    if request.status != DONE or not request.is_checked:
        return None
    for form, sql in LEFT.items():
        if match := form.fullmatch(request.request):
            name = match[1] if match.groups() else request.order
            return Done(request, name, sql) if name else None
    return None


def done_since(paths: Sequence[str], since: datetime | None) -> list[Done]:
    """What owners' requests did since a time, as logs have it."""
    requests = (request for path in paths for request in sitelog.requests(path, since))
    return [done for request in requests if since is None or request.time > since if (done := done_of(request))]


def last_replaced(entries: Iterable[dict[str, Any]]) -> datetime | None:
    """When another file was put in the office's place last, other than by a carry-over, whose earlier files stay: what
    was asked before may not be there."""
    asked, last = set[str](), ""
    for entry in entries:
        if entry.get("event") == "asked" and set(map(str, listed(entry, "words")[:1])) & {"new", "restore", "promote"}:
            asked.add(str(entry.get("id")))
        elif str(entry.get("of")) in asked and has_replaced(entry):
            last = str(entry.get("time"))
    try:
        return datetime.fromisoformat(last) if last else None
    except ValueError:
        return None


def lacking(bases: Sequence[sqlite3.Connection], done: Sequence[Done]) -> list[str]:
    """What is told of owners' requests whose answer was 200, and of which no file has what they did."""
    lost = [each for each in done if not each.is_in(bases)]
    if not lost:
        return []
    first = "; ".join(map(str, lost[:FIRST])) + (f"; and {len(lost) - FIRST:,} more" if len(lost) > FIRST else "")
    count = f"{len(lost):,} of {counted(len(done), 'requests')} that the site's log has as done"
    return [printable(f"what owners did by {count} is missing: {first}")]
