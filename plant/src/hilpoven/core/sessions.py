"""Who is logged in at which browser. Sessions are in this process alone, so that one that ends is gone at once."""
import hashlib
import secrets
import threading
import time
from collections.abc import Callable, Collection
from dataclasses import dataclass, field
from typing import Generic, TypeVar

IDLE, LONGEST = 15 * 60, 12 * 3_600  # seconds
MOST, MOST_OF_LOGIN = 5_000, 20  # sessions: nobody's many are to end those of others


@dataclass
class Session:
    """A person at a browser, with the token that each of its requests carries besides the session's name."""

    login: str
    token: str = field(default_factory=lambda: secrets.token_urlsafe(24))
    begun: float = field(default_factory=time.monotonic)
    seen: float = field(default_factory=time.monotonic)

    @property
    def is_over(self) -> bool:
        """Whether nobody did anything for too long, or it is older than a shift."""
        now = time.monotonic()
        return now - self.seen > IDLE or now - self.begun > LONGEST


Kind = TypeVar("Kind", bound=Session)


class Sessions(Generic[Kind]):
    """All sessions, by digests of their names: what reads this memory's keys can't be one of them."""

    def __init__(self, new: Callable[[str], Kind]) -> None:
        self.new, self.lock, self.by_digest = new, threading.Lock(), dict[str, Kind]()

    def begin(self, login: str) -> tuple[str, Kind]:
        """A new session, with its name, which the browser keeps."""
        name, session = secrets.token_urlsafe(32), self.new(login)
        with self.lock:
            self.by_digest = {digest: other for digest, other in self.by_digest.items() if not other.is_over}
            self.make_room([digest for digest, other in self.by_digest.items() if other.login == login], MOST_OF_LOGIN)
            self.make_room(self.by_digest, MOST)
            self.by_digest[digest_of(name)] = session
        return name, session

    def make_room(self, digests: Collection[str], most: int) -> None:
        """Ends the one of these sessions that is unused for longest, if there are so many."""
        if len(digests) >= most:
            del self.by_digest[min(digests, key=lambda digest: self.by_digest[digest].seen)]

    def find(self, name: str, is_use: bool = True) -> Kind | None:
        """The session of a name that isn't over. This is a use of it, unless a browser asks by itself."""
        digest = digest_of(name)
        with self.lock:
            session = self.by_digest.get(digest)
            if session is None or session.is_over:
                self.by_digest.pop(digest, None)
                return None
            if is_use:
                session.seen = time.monotonic()
            return session

    def end(self, name: str) -> None:
        """Ends a session."""
        with self.lock:
            self.by_digest.pop(digest_of(name), None)


def digest_of(name: str) -> str:
    """The digest of a session's name."""
    return hashlib.sha256(name.encode(errors="replace")).hexdigest()
