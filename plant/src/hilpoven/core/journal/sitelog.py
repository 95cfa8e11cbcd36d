"""The site's log, in which the proxy notes what owners asked."""
import gzip
import os
import re
import zlib
from collections.abc import Iterator
from dataclasses import dataclass
from datetime import datetime, timezone

from ..failure import Failure

LINE = re.compile(
    r'(?P<address>\S+) "(?P<owner>[^"]*)" \[(?P<time>[^\]]+)\] "(?P<request>[^"]*)" (?P<status>\d{3})\b'
    r"(?: \d+ [\d.]+ (?P<order>[A-Z0-9-]+)(?: (?P<person>[a-z0-9][a-z0-9._@-]*)$)?)?"
)

CHECKED = (200, 304, 404, 405, 409)  # the statuses of replies before which the owner's key was compared
# What goes to the office: nginx answers other methods itself, and paths that lead to the page's files or to its own.
OF_OFFICE = re.compile(r"(?:GET|POST) (?!/owner(?:[/?]|$))(?:/[A-Za-z0-9-]+)+(?:\?.*)?")
UNPROVED = "unauthenticated"  # what the names of logs begin with that have requests which proved no key


@dataclass(frozen=True)
class Request:
    """A request of an owner: when, from where, as whom, what, and the status of the reply."""

    time: datetime
    address: str
    owner: str
    request: str
    status: int
    order: str = ""  # that it places, which its body alone names; empty where the line doesn't have it
    person: str = ""  # of the owner's, who was logged in by name; empty where the owner's key was sent
    is_of_owners: bool = True  # whether its log has what a key was found right for, as far as the log's name says

    @property
    def action(self) -> str:
        """What was asked, with the order that it places."""
        return f"{self.request} {self.order}".strip()

    @property
    def is_change(self) -> bool:
        """Whether it asked for a change."""
        return self.request.startswith("POST ")

    @property
    def is_checked(self) -> bool:
        """Whether the owner's key was found right before this was answered: `toll` answered it, with such a status."""
        return self.is_of_owners and self.status in CHECKED and OF_OFFICE.fullmatch(self.request) is not None

    @property
    def who(self) -> str:
        """Who asked, or only claimed to: the person, where one was logged in, and the owner."""
        return f"{self.person and f'{self.person} of '}{self.owner or '-'}{'' if self.is_checked else ' (claimed)'}"

    @property
    def names(self) -> tuple[str, ...]:
        """The names by which who asked is found."""
        return (self.owner, self.person) if self.person else (self.owner,)


def files_of(path: str) -> list[str]:
    """A log and those that were turned over before it, the oldest first."""
    folder, name = os.path.split(path)
    form = re.compile(rf"{re.escape(name)}([-.][0-9]+)*(\.gz)?")
    try:
        logs = [os.path.join(folder, file_name) for file_name in os.listdir(folder or ".") if form.fullmatch(file_name)]
    except OSError as error:
        raise Failure(f"{folder} can't be looked at: {error.strerror}") from error
    if not logs:
        raise Failure(f"there is no log {path}")
    return sorted(logs, key=os.path.getmtime)


def requests(path: str, since: datetime | None = None, having: str = "") -> Iterator[Request]:
    """The requests of a log, or of its lines that have a text; lines of another form are passed over, and files that
    end before a time."""
    is_of_owners = not os.path.basename(path).startswith(UNPROVED)
    for file in files_of(path):
        if since and os.path.getmtime(file) < since.timestamp():
            continue
        try:
            with gzip.open(file, "rt", errors="replace") if file.endswith(".gz") else open(
                file, errors="replace"
            ) as lines:
                wanted = (line for line in lines if having in line)
                yield from (request for line in wanted if (request := request_of(line, is_of_owners)))
        except (OSError, EOFError, zlib.error) as error:
            why = getattr(error, "strerror", None) or error
            raise Failure(
                f"{file} can't be read: {why}", advice="the journal without it is told by --no-site"
            ) from error


def orders_placed(path: str, since: datetime | None = None) -> Iterator[Request]:
    """The requests of a log by which owners placed orders, as far as the log names these; files that end before a time
    are passed over."""
    for request in requests(path, since, '"POST /orders'):
        if request.order and request.status == 200 and request.is_checked:
            yield request


def request_of(line: str, is_of_owners: bool) -> Request | None:
    """The request that a line notes."""
    match = LINE.match(line)
    if not match:
        return None
    try:
        time = datetime.fromisoformat(match["time"]).astimezone(timezone.utc)
    except ValueError:
        return None
    request, order = match["request"].removesuffix(" HTTP/1.1"), (match["order"] or "").removeprefix("-")
    owner, person, status = match["owner"], match["person"] or "", int(match["status"])
    return Request(time, match["address"], owner, request, status, order, person, is_of_owners)
